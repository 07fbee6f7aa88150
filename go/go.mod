module vilgoued

go 1.19
