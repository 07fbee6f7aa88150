/* What the programs of this folder test by: a text with its length, and what has to be so. */
#include <stdbool.h>
#include <stdint.h>
#include <stdio.h>
#include <stdlib.h>
#include <string.h>

#define B(s) (const uint8_t *)(s), strlen(s)
#define WANT(test)                                                                                                     \
    do {                                                                                                               \
        if (!(test)) {                                                                                                 \
            printf("%s:%d: not so: %s\n", __FILE__, __LINE__, #test);                                                  \
            exit(1);                                                                                                   \
        }                                                                                                              \
    } while (0)
