/* Fails one call that the program it is loaded into (LD_PRELOAD) makes of its journal: the FAIL_AT-th, counted from 1, of those
   that open or rename a path under the folder FAIL_FOLDER and of those on such a file. FAIL_HOW is the number of the error; with a
   minus, a write brings half of its bytes first, and the call behind it fails. With FAIL_ONCE all later calls go well, as on a
   device that comes back, and else they fail too. As the program ends it writes a line of the calls to the file FAIL_LOG: a letter each
   of o(pen), r(ead), w(rite), s(ync), t(runcate), l(ock), k (seek), i (stat), n (rename) and p (the path behind all links). It declares what it calls itself, so that
   any C compiler builds it without headers. */
typedef unsigned long size;

extern void *dlsym(void *handle, const char *name);
extern char *getenv(const char *name);
extern long atol(const char *text);
extern long syscall(long number, ...);
extern char *strstr(const char *text, const char *part);
extern int *__errno_location(void);

#define NEXT ((void *)-1L)   /* RTLD_NEXT */
#define MOST 4096
#define FILES 256
#define OPENAT 257           /* Linux on x86-64 */
#define WRITE 1
#define CLOSE 3
#define EXIT_GROUP 231
#define NEW_LOG 01101        /* O_WRONLY | O_CREAT | O_TRUNC */

static char calls[MOST + 1];
static long count, at = -1, how, once;
static char is_journal[FILES];

static void *next(const char *name) { return dlsym(NEXT, name); }

static void begin(void) {
    if (at >= 0) return;
    at = getenv("FAIL_AT") ? atol(getenv("FAIL_AT")) : 0;
    how = getenv("FAIL_HOW") ? atol(getenv("FAIL_HOW")) : 5;
    once = getenv("FAIL_ONCE") != 0;
}

/* Counts a call, and tells whether it fails. */
static int fails(char call) {
    long error;
    begin();
    if (count < MOST) calls[count] = call;
    count++;
    if (!at || count < at || (once && count > at)) return 0;
    error = how < 0 ? -how : how;
    *__errno_location() = (int)error;
    return 1;
}

static int is_ours(int file) { return file >= 0 && file < FILES && is_journal[file]; }

static int opened(const char *path, int file) {
    if (file >= 0 && file < FILES) is_journal[file] = strstr(path, getenv("FAIL_FOLDER")) != 0;
    return file;
}

static int is_under(const char *path) { return getenv("FAIL_FOLDER") && strstr(path, getenv("FAIL_FOLDER")) != 0; }

int open(const char *path, int flags, int mode) {
    if (!is_under(path)) return ((int (*)(const char *, int, int))next("open"))(path, flags, mode);
    return fails('o') ? -1 : opened(path, ((int (*)(const char *, int, int))next("open"))(path, flags, mode));
}

int open64(const char *path, int flags, int mode) {
    if (!is_under(path)) return ((int (*)(const char *, int, int))next("open64"))(path, flags, mode);
    return fails('o') ? -1 : opened(path, ((int (*)(const char *, int, int))next("open64"))(path, flags, mode));
}

int openat(int folder, const char *path, int flags, int mode) {
    if (!is_under(path)) return ((int (*)(int, const char *, int, int))next("openat"))(folder, path, flags, mode);
    return fails('o') ? -1 : opened(path, ((int (*)(int, const char *, int, int))next("openat"))(folder, path, flags, mode));
}

int close(int file) {
    if (file >= 0 && file < FILES) is_journal[file] = 0;
    return ((int (*)(int))next("close"))(file);
}

long read(int file, void *bytes, size many) {
    if (is_ours(file) && fails('r')) return -1;
    return ((long (*)(int, void *, size))next("read"))(file, bytes, many);
}

long write(int file, const void *bytes, size many) {
    long (*real)(int, const void *, size) = (long (*)(int, const void *, size))next("write");
    if (!is_ours(file)) return real(file, bytes, many);
    if (fails('w')) return -1;
    if (how < 0 && at && count + 1 == at) return real(file, bytes, many > 1 ? many / 2 : many);
    return real(file, bytes, many);
}

int fsync(int file) {
    if (is_ours(file) && fails('s')) return -1;
    return ((int (*)(int))next("fsync"))(file);
}

int fdatasync(int file) {
    if (is_ours(file) && fails('s')) return -1;
    return ((int (*)(int))next("fdatasync"))(file);
}

int ftruncate(int file, long length) {
    if (is_ours(file) && fails('t')) return -1;
    return ((int (*)(int, long))next("ftruncate"))(file, length);
}

int ftruncate64(int file, long length) {
    if (is_ours(file) && fails('t')) return -1;
    return ((int (*)(int, long))next("ftruncate64"))(file, length);
}

int flock(int file, int asked) {
    if (is_ours(file) && fails('l')) return -1;
    return ((int (*)(int, int))next("flock"))(file, asked);
}

long lseek(int file, long place, int from) {
    if (is_ours(file) && fails('k')) return -1;
    return ((long (*)(int, long, int))next("lseek"))(file, place, from);
}

long lseek64(int file, long place, int from) {
    if (is_ours(file) && fails('k')) return -1;
    return ((long (*)(int, long, int))next("lseek64"))(file, place, from);
}

int statx(int file, const char *path, int flags, unsigned mask, void *found) {
    if ((is_ours(file) || is_under(path)) && fails('i')) return -1;
    return ((int (*)(int, const char *, int, unsigned, void *))next("statx"))(file, path, flags, mask, found);
}

int rename(const char *path, const char *to) {
    if (is_under(path) && fails('n')) return -1;
    return ((int (*)(const char *, const char *))next("rename"))(path, to);
}

int renameat(int folder, const char *path, int other, const char *to) {
    if (is_under(path) && fails('n')) return -1;
    return ((int (*)(int, const char *, int, const char *))next("renameat"))(folder, path, other, to);
}

char *realpath(const char *path, char *room) {
    if (is_under(path) && fails('p')) return 0;
    return ((char *(*)(const char *, char *))next("realpath"))(path, room);
}

/* A program that returns from main ends by this. */
__attribute__((destructor)) static void tell(void) {
    const char *path = getenv("FAIL_LOG");
    long file = path ? syscall(OPENAT, -100, path, NEW_LOG, 0600) : -1;
    if (file < 0) return;
    if (syscall(WRITE, file, calls, count < MOST ? count : MOST) < 0) __builtin_trap();
    syscall(CLOSE, file);
}

/* By this the program ends, so no destructor would run. */
__attribute__((noreturn)) void _exit(int status) {
    tell();
    for (;;) syscall(EXIT_GROUP, (long)status);
}
