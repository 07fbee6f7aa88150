/* The files of buckets. What stands in them and what it means is proved, and so is what is to be written, where, and when it is
 * brought onto the disk; here it is done, and nothing is proved of that. */
#define _GNU_SOURCE
#include "files.h"
#include <errno.h>
#include <fcntl.h>
#include <limits.h>
#include <stdlib.h>
#include <sys/file.h>
#include <sys/random.h>
#include <sys/stat.h>
#include <unistd.h>

/* So many bytes are lent at a time. */
enum { PIECE = 16384 };

static bool write_at(int file, const uint8_t *bytes, size_t size, uint64_t at) {
    while (size) {
        ssize_t done = pwrite(file, bytes, size, (off_t)at);
        if (done <= 0 && errno == EINTR)
            continue;
        if (done <= 0)
            return false;
        bytes += done, size -= (size_t)done, at += (uint64_t)done;
    }
    return true;
}

static bool read_all(int file, uint8_t *bytes, size_t size) {
    size_t from = 0;
    while (from < size) {
        ssize_t done = pread(file, bytes + from, size - from, (off_t)from);
        if (done < 0 && errno == EINTR)
            continue;
        if (done <= 0)
            return false;
        from += (size_t)done;
    }
    return true;
}

/* A sync that fails is never tried again: a second one can succeed though the first has lost bytes. */
static bool sync_file(int file) {
    return fdatasync(file) == 0;
}

bool kv_carry_out(kv_bucket *bucket) {
    uint8_t piece[PIECE];
    kv_lent lent;
    size_t from = 0;
    int file;
    kv_lend(bucket, from, piece, sizeof piece, &lent);
    file = kv_file_at(lent.number)->file;
    if (lent.before && !sync_file(file))
        return false;
    while (from < lent.size) {
        if (!write_at(file, piece, lent.count, lent.at + from))
            return false;
        from += lent.count;
        if (from < lent.size)
            kv_lend(bucket, from, piece, sizeof piece, &lent);
    }
    return !lent.behind || sync_file(file);
}

uint64_t kv_finish(kv_bucket *bucket, uint64_t *number) {
    if (kv_carry_out(bucket))
        return kv_settle(bucket, number);
    kv_give_up(bucket);
    return KV_FILE_FAULT;
}

/* Finishes a call, if it waits. */
static inline uint64_t finished(kv_bucket *bucket, uint64_t code, uint64_t *number) {
    return __builtin_expect(code == KV_MADE, 0) ? kv_finish(bucket, number) : code;
}

uint64_t kv_put(kv_bucket *bucket, const uint8_t *key, size_t key_size, const uint8_t *value, size_t value_size,
                uint64_t *revision) {
    return finished(bucket, kv_make_put(bucket, key, key_size, value, value_size, revision), revision);
}

uint64_t kv_create(kv_bucket *bucket, const uint8_t *key, size_t key_size, const uint8_t *value, size_t value_size,
                   uint64_t *revision) {
    return finished(bucket, kv_make_create(bucket, key, key_size, value, value_size, revision), revision);
}

uint64_t kv_update(kv_bucket *bucket, const uint8_t *key, size_t key_size, const uint8_t *value, size_t value_size,
                   uint64_t last, uint64_t *revision) {
    return finished(bucket, kv_make_update(bucket, key, key_size, value, value_size, last, revision), revision);
}

uint64_t kv_delete(kv_bucket *bucket, const uint8_t *key, size_t key_size, bool has_last, uint64_t last,
                   uint64_t *revision) {
    return finished(bucket, kv_make_delete(bucket, key, key_size, has_last, last, revision), revision);
}

uint64_t kv_purge(kv_bucket *bucket, const uint8_t *key, size_t key_size, bool has_last, uint64_t last,
                  uint64_t *revision) {
    return finished(bucket, kv_make_purge(bucket, key, key_size, has_last, last, revision), revision);
}

uint64_t kv_batch_write(kv_bucket *bucket, kv_batch *batch, uint64_t *revision, size_t *at) {
    uint64_t code = kv_make_batch(bucket, batch, revision, at);
    if (code != KV_MADE)
        return code;
    code = kv_finish(bucket, revision);
    if (code == KV_OK)
        kv_batch_close(batch);
    return code;
}

uint64_t kv_seal(kv_bucket *bucket) {
    uint64_t unused;
    return finished(bucket, kv_make_seal(bucket), &unused);
}

uint64_t kv_compact(kv_bucket *bucket, uint64_t floor, uint64_t *watch) {
    uint64_t unused, code = kv_make_compaction(bucket, floor, watch);
    if (code != KV_MADE)
        return code;
    code = kv_finish(bucket, &unused);
    /* Whatever becomes of that, the compaction is made, and in the file. */
    if (code == KV_OK)
        kv_shrink(bucket);
    return code;
}

uint64_t kv_sync(kv_bucket *bucket) {
    uint64_t unused;
    return finished(bucket, kv_make_sync(bucket), &unused);
}

static void close_file(kv_file *file) {
    close(file->file);
    if (file->folder >= 0)
        close(file->folder);
    free(file);
}

uint64_t kv_close(kv_bucket *bucket) {
    uint64_t number, unused, code;
    if (kv_file_of(bucket, &number) != KV_OK) {
        kv_free(bucket);
        return KV_OK;
    }
    code = kv_make_end(bucket);
    /* Without memory it ends without the mark of a clean end. */
    if (code == KV_OUT_OF_MEMORY)
        code = kv_make_sync(bucket);
    code = finished(bucket, code, &unused);
    kv_free(bucket);
    close_file(kv_file_at(number));
    return code;
}

/* ---- openings */

/* The path as the system takes it. */
static bool named(const uint8_t *path, size_t size, char text[PATH_MAX]) {
    if (size >= PATH_MAX || memchr(path, 0, size))
        return false;
    memcpy(text, path, size);
    text[size] = 0;
    return true;
}

static int opened(const char *path, int flags) {
    int file;
    do
        file = open(path, flags | O_CLOEXEC, 0666);
    while (file < 0 && errno == EINTR);
    return file;
}

/* The file of an absolute path, which has the name behind the last slash, in the folder before it. */
static kv_file *placed(char path[PATH_MAX], int file) {
    char *slash = strrchr(path, '/');
    size_t size = strlen(slash + 1) + 1;
    kv_file *made = malloc(sizeof *made + size);
    if (!made)
        return NULL;
    memcpy(made->name, slash + 1, size);
    slash[slash == path] = 0;
    made->folder = opened(path, O_RDONLY | O_DIRECTORY);
    made->file = file;
    return made;
}

uint64_t kv_has_name(const kv_file *file) {
    struct stat own, found;
    if (fstat(file->file, &own) != 0 || fstatat(file->folder, file->name, &found, AT_SYMLINK_NOFOLLOW) != 0)
        return KV_FILE_FAULT;
    return own.st_dev == found.st_dev && own.st_ino == found.st_ino ? KV_OK : KV_FILE_BUSY;
}

/* Locks a file for one opening at a time, and tells its size. */
static uint64_t locked(int file, size_t *size) {
    struct stat own;
    if (flock(file, LOCK_EX | LOCK_NB) != 0)
        return errno == EWOULDBLOCK ? KV_FILE_BUSY : KV_FILE_FAULT;
    if (fstat(file, &own) != 0 || !S_ISREG(own.st_mode))
        return KV_FILE_FAULT;
    *size = (size_t)own.st_size;
    return KV_OK;
}

/* Opens and locks a file. One that was replaced meanwhile is busy. The folder is kept, so that what the name is looked up in
 * does not change with the folder that the program works in. */
static uint64_t open_locked(const char *path, kv_file **file, size_t *size) {
    char whole[PATH_MAX];
    int there = opened(path, O_RDWR | O_CREAT);
    uint64_t code = there < 0 ? KV_FILE_FAULT : locked(there, size);
    if (code == KV_OK && !realpath(path, whole))
        code = KV_FILE_FAULT;
    if (code == KV_OK && !(*file = placed(whole, there)))
        code = KV_OUT_OF_MEMORY;
    if (code != KV_OK) {
        if (there >= 0)
            close(there);
        return code;
    }
    code = (*file)->folder < 0 ? KV_FILE_FAULT : kv_has_name(*file);
    if (code != KV_OK)
        close_file(*file);
    return code;
}

/* Does what the opening needs: cuts a torn end off, or puts what a new file begins with in the place of the empty one. That is not
 * added to, so that no crash leaves a part of it. */
static bool carry_out_opening(kv_bucket *bucket, kv_file *file, size_t size) {
    kv_lent lent;
    uint8_t none[1];
    if (size == 0)
        return kv_replace(bucket, file) == KV_REPLACED;
    kv_lend(bucket, 0, none, 0, &lent);
    if (size > lent.at && ftruncate(file->file, (off_t)lent.at) != 0)
        return false;
    return kv_carry_out(bucket);
}

/* Opens the bucket of a file that is locked. */
static uint64_t open_locked_as(kv_bucket *bucket, kv_file *file, size_t size, const uint8_t *name,
                               size_t name_size, const kv_limits *limits, uint64_t sync, uint64_t *dropped,
                               uint64_t *at) {
    uint8_t *bytes = malloc(size + 1);
    uint64_t seed, cut, unused, code = KV_FILE_FAULT;
    if (!bytes)
        return KV_OUT_OF_MEMORY;
    if (read_all(file->file, bytes, size) && getentropy(&seed, sizeof seed) == 0)
        code = kv_open_bytes_as(bucket, bytes, size, name, name_size, limits, seed, sync, (uint64_t)(uintptr_t)file,
                                kv_next_opening(), &cut, at);
    free(bytes);
    if (code != KV_MADE)
        return code;
    if (carry_out_opening(bucket, file, size)) {
        *dropped = cut;
        return kv_settle(bucket, &unused);
    }
    kv_free(bucket);
    return KV_FILE_FAULT;
}

uint64_t kv_open_file(kv_bucket *bucket, const uint8_t *path, size_t path_size, const uint8_t *name, size_t name_size,
                      const kv_limits *limits, uint64_t sync, uint64_t *dropped, uint64_t *at) {
    char text[PATH_MAX];
    kv_bucket legal = {0};
    kv_file *file;
    size_t size;
    uint64_t code;
    if (bucket->is_open)
        return KV_OPEN_ALREADY;
    /* What is no configuration is refused before the file is touched. */
    code = kv_open_as(&legal, name, name_size, limits, 0);
    if (code != KV_OK)
        return code;
    kv_free(&legal);
    if (!named(path, path_size, text))
        return KV_FILE_FAULT;
    code = open_locked(text, &file, &size);
    if (code != KV_OK)
        return code;
    code = open_locked_as(bucket, file, size, name, name_size, limits, sync, dropped, at);
    if (code != KV_OK)
        close_file(file);
    return code;
}
