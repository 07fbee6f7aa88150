/* Each call that the library makes of a file fails in turn, once or for good, a write behind half of its bytes; and each is cut
 * short and interrupted. What was answered is there again at the next opening, also where the file was to be replaced. */
#define _GNU_SOURCE
#include "vilgoued.h"
#include "wanting.h"
#include <errno.h>
#include <fcntl.h>
#include <stdio.h>
#include <sys/stat.h>
#include <unistd.h>

static long left = -1, asked, interrupted;
static bool once, slow;

static bool fails(void) {
    asked++;
    if (left < 0)
        return false;
    if (left > 0 && left--)
        return false;
    if (once)
        left = -1;
    errno = EIO;
    return true;
}

static bool is_interrupted(void) {
    if (!slow || interrupted++ % 3)
        return false;
    errno = EINTR;
    return true;
}

int __real_open(const char *path, int flags, ...);
/* Where no mode is given, the system looks at none. */
int __wrap_open(const char *path, int flags, mode_t mode) {
    return fails() || is_interrupted() ? -1 : __real_open(path, flags, mode);
}

int __real_openat(int folder, const char *path, int flags, ...);
int __wrap_openat(int folder, const char *path, int flags, mode_t mode) {
    return fails() || is_interrupted() ? -1 : __real_openat(folder, path, flags, mode);
}

char *__real_realpath(const char *path, char *whole);
char *__wrap_realpath(const char *path, char *whole) {
    return fails() ? NULL : __real_realpath(path, whole);
}

#define WRAPPED(result, name, parameters, arguments)                                                                   \
    result __real_##name parameters;                                                                                   \
    result __wrap_##name parameters {                                                                                  \
        return fails() ? -1 : __real_##name arguments;                                                                 \
    }
WRAPPED(int, flock, (int file, int asked_for), (file, asked_for))
WRAPPED(int, fstat, (int file, struct stat *found), (file, found))
WRAPPED(int, fstatat, (int folder, const char *path, struct stat *found, int flags), (folder, path, found, flags))
WRAPPED(int, fchmod, (int file, mode_t mode), (file, mode))
WRAPPED(int, renameat, (int from, const char *old, int to, const char *new), (from, old, to, new))
WRAPPED(int, unlinkat, (int folder, const char *path, int flags), (folder, path, flags))
WRAPPED(int, fsync, (int file), (file))
WRAPPED(int, fdatasync, (int file), (file))
WRAPPED(int, ftruncate, (int file, off_t size), (file, size))
WRAPPED(int, getentropy, (void *room, size_t size), (room, size))

ssize_t __real_pread(int file, void *room, size_t size, off_t at);
ssize_t __wrap_pread(int file, void *room, size_t size, off_t at) {
    if (fails() || is_interrupted())
        return -1;
    return __real_pread(file, room, slow && size > 5 ? 5 : size, at);
}

ssize_t __real_pwrite(int file, const void *bytes, size_t size, off_t at);
ssize_t __wrap_pwrite(int file, const void *bytes, size_t size, off_t at) {
    if (is_interrupted())
        return -1;
    if (fails()) {
        WANT(__real_pwrite(file, bytes, size / 2, at) == (ssize_t)(size / 2));
        errno = EIO;
        return -1;
    }
    return __real_pwrite(file, bytes, slow && size > 3 ? 3 : size, at);
}

static const kv_limits limits = {2, 1048576, 1000000, 4294967295};

static uint64_t opened(kv_bucket *b, uint64_t sync) {
    uint64_t dropped, at;
    return kv_open_file(b, B("failing.kv"), B("settings"), &limits, sync, &dropped, &at);
}

static uint64_t last_of(kv_bucket *b) {
    kv_status status;
    WANT(kv_get_status(b, &status) == KV_OK);
    return status.last;
}

/* Writes until one is refused, and tells how many were answered. *known is how many of them are on the disk. */
static uint64_t writes(uint64_t sync, uint64_t *known) {
    kv_bucket b = {0};
    kv_batch batch = {0};
    uint64_t answered = 0, revision = 77, floor = 77, code = opened(&b, sync);
    size_t at = 77;
    bool all;
    *known = 0;
    if (code != KV_OK) {
        WANT(code == KV_FILE_FAULT && !b.is_open);
        return 0;
    }
    while (answered < 4 && (code = kv_put(&b, B("a"), B("a value"), &revision)) == KV_OK) {
        answered++;
        WANT(revision == answered);
        *known = sync == KV_SYNC_EACH ? answered : 0;
    }
    if (code == KV_OK) {
        WANT(kv_batch_put(&batch, B("b"), B("1")) == KV_OK && kv_batch_put(&batch, B("b"), B("2")) == KV_OK);
        code = kv_batch_write(&b, &batch, &revision, &at);
        WANT(at == 77 && (code == KV_OK) == !batch.is_open);
        answered += code == KV_OK ? 2 : 0;
        kv_batch_close(&batch);
    }
    if (code == KV_OK)
        code = kv_sync(&b);
    *known = code == KV_OK ? answered : *known;
    if (code == KV_OK)
        code = kv_compact(&b, 1, &floor);
    if (code == KV_OK)
        code = kv_seal(&b);
    WANT(code == KV_OK || code == KV_FILE_FAULT);
    WANT(last_of(&b) == answered && floor == 77);
    revision = 77;
    if (code != KV_OK)
        /* It goes on to be refused, though the device has come back. */
        WANT(kv_put(&b, B("a"), B("more"), &revision) == KV_FILE_FAULT && kv_sync(&b) == KV_FILE_FAULT && revision == 77);
    all = kv_close(&b) == KV_OK;
    WANT(!all || code == KV_OK);
    return answered;
}

static void run(uint64_t sync) {
    uint64_t known, answered = writes(sync, &known), again;
    kv_bucket b = {0};
    left = -1;
    /* A file whose making failed is empty, or has all that a new one begins with. */
    WANT(opened(&b, KV_SYNC_EACH) == KV_OK);
    again = last_of(&b);
    /* The call that was refused may be in the file, a batch as a whole. */
    WANT(again >= known && again <= (answered == 4 ? 6 : answered + 1));
    WANT(kv_close(&b) == KV_OK && unlink("failing.kv") == 0);
    WANT(unlink("failing.kv.checkpoint") != 0);
}

/* Whether the bucket is as its writes have left it. */
static void is_same(kv_bucket *b, uint64_t last) {
    uint8_t room[64];
    uint64_t revision;
    size_t size;
    WANT(last_of(b) == last && kv_get(b, B("a"), room, sizeof room, &size, &revision) == KV_OK && revision == last);
}

/* A checkpoint, by itself or behind a compaction, with calls that fail. It answers whether the bucket goes on. */
static bool replaces(kv_bucket *b, uint64_t last, uint64_t sync, bool compacts, long k, bool is_once) {
    uint64_t floor, code;
    left = k;
    once = is_once;
    asked = 0;
    code = compacts ? kv_compact(b, last, &floor) : kv_checkpoint(b);
    left = -1;
    is_same(b, last);
    WANT(code == KV_OK || code == KV_FILE_FAULT);
    /* The compaction is written first, and synced where each write is. What fails behind that makes it no failure. */
    WANT(!compacts || (code == KV_FILE_FAULT) == (k == 0 || (k == 1 && sync == KV_SYNC_EACH)));
    return kv_sync(b) == KV_OK;
}

/* Tells how many calls the checkpoint made. */
static long checkpoint(uint64_t sync, bool compacts, long k, bool is_once) {
    kv_bucket b = {0};
    uint64_t revision, last = 20;
    long made;
    bool goes_on;
    WANT(opened(&b, sync) == KV_OK);
    for (uint64_t at = 1; at <= last; at++)
        WANT(kv_put(&b, B("a"), B("a value"), &revision) == KV_OK && revision == at);
    WANT(sync == KV_SYNC_EACH || kv_sync(&b) == KV_OK);
    goes_on = replaces(&b, last, sync, compacts, k, is_once);
    made = asked;
    if (goes_on)
        WANT(kv_put(&b, B("a"), B("more"), &revision) == KV_OK && revision == ++last);
    WANT((kv_close(&b) == KV_OK) == goes_on);
    WANT(opened(&b, sync) == KV_OK);
    is_same(&b, last);
    WANT(kv_checkpoint(&b) == KV_OK && kv_close(&b) == KV_OK && opened(&b, sync) == KV_OK);
    is_same(&b, last);
    WANT(kv_close(&b) == KV_OK && unlink("failing.kv") == 0);
    /* What could not be taken away is taken by the next. */
    WANT(unlink("failing.kv.checkpoint") != 0);
    return made;
}

static void checkpoints_in_turn(uint64_t sync, bool compacts) {
    long total = checkpoint(sync, compacts, -1, false);
    for (long k = 0; k < total; k++) {
        checkpoint(sync, compacts, k, true);
        checkpoint(sync, compacts, k, false);
    }
    printf("%ld calls of a checkpoint failed in turn\n", total);
}

static void all_in_turn(uint64_t sync, bool is_once) {
    long total;
    asked = 0;
    run(sync);
    total = asked;
    for (long k = 0; k < total; k++) {
        left = k;
        once = is_once;
        run(sync);
    }
    printf("%ld calls failed in turn\n", total);
}

int main(int count, char **words) {
    WANT(count < 2 || chdir(words[1]) == 0);
    for (uint64_t sync = 0; sync < 4; sync++) {
        all_in_turn(sync, false);
        all_in_turn(sync, true);
        left = -1;
        checkpoints_in_turn(sync, false);
        checkpoints_in_turn(sync, true);
    }
    left = -1;
    slow = true;
    for (uint64_t sync = 0; sync < 4; sync++) {
        run(sync);
        checkpoint(sync, sync % 2, -1, false);
    }
    return 0;
}
