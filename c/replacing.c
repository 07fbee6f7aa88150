/* A file takes the place of another: it is written beside that, brought onto the disk, and takes its name. Whatever a crash leaves
 * under the name, it is the old file or the whole new one. */
#define _GNU_SOURCE
#include "files.h"
#include <errno.h>
#include <fcntl.h>
#include <limits.h>
#include <stdio.h>
#include <sys/file.h>
#include <sys/stat.h>
#include <unistd.h>

/* What stands behind the name of the old file in that of the new one. */
#define BESIDE ".checkpoint"

static int opened(const kv_file *old, const char *name) {
    int file;
    do
        file = openat(old->folder, name, O_RDWR | O_CREAT | O_NOFOLLOW | O_CLOEXEC, 0600);
    while (file < 0 && errno == EINTR);
    return file;
}

/* Makes an empty file with the permissions of the old one, of what a crash has left too, and locks it: no other opening has it,
 * from when it gets the name on. */
static bool begins(int file, const kv_file *old) {
    struct stat was, own;
    return flock(file, LOCK_EX | LOCK_NB) == 0 && fstat(old->file, &was) == 0 && fstat(file, &own) == 0 &&
           S_ISREG(own.st_mode) && ftruncate(file, 0) == 0 && fchmod(file, was.st_mode & 0777) == 0;
}

/* Writes what is lent to a file. */
static bool carry_out(kv_bucket *bucket, kv_file *at, int file) {
    int old = at->file;
    bool done;
    at->file = file;
    done = kv_carry_out(bucket);
    at->file = old;
    return done;
}

static void drop(const kv_file *at, const char *name, int file) {
    unlinkat(at->folder, name, 0);
    close(file);
}

/* Writes what is lent to a file beside the old one, which has still its name. -1 where this fails. */
static int written(kv_bucket *bucket, kv_file *at, const char *name) {
    int file = opened(at, name);
    if (file < 0)
        return -1;
    if (!begins(file, at)) {
        close(file);
        return -1;
    }
    if (carry_out(bucket, at, file) && kv_has_name(at) == KV_OK)
        return file;
    drop(at, name, file);
    return -1;
}

kv_replacement kv_replace(kv_bucket *bucket, kv_file *at) {
    char name[NAME_MAX + sizeof BESIDE];
    bool has_name;
    int file;
    snprintf(name, sizeof name, "%s" BESIDE, at->name);
    file = written(bucket, at, name);
    if (file < 0)
        return KV_STAYS;
    has_name = renameat(at->folder, name, at->folder, at->name) == 0;
    if (!has_name && kv_has_name(at) == KV_OK) {
        drop(at, name, file);
        return KV_STAYS;
    }
    close(at->file);
    at->file = file;
    /* Until the folder is on the disk, a crash may take the name back. */
    return has_name && fsync(at->folder) == 0 ? KV_REPLACED : KV_EITHER;
}
