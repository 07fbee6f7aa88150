/* Threads that write to one file, each write synced: those that come while one is synced are synced together. The program has
 * the call that syncs for itself: it counts, it can be held back, it can fail, and it can keep what the file has by then. */
#define _GNU_SOURCE
#include "vilgoued_shared.h"
#include "wanting.h"
#include <errno.h>
#include <fcntl.h>
#include <pthread.h>
#include <stdatomic.h>
#include <sys/stat.h>
#include <sys/syscall.h>
#include <time.h>
#include <unistd.h>

enum { WRITERS = 8, EACH = 60, MANY = WRITERS * EACH };

static const kv_limits limits = {WRITERS, 1048576, 1000000, 4294967295};
static kv_shared bucket;

static _Atomic long syncs, fails_at;
static _Atomic bool is_held;
static _Atomic off_t size_then, size_before; /* of the file, at the last sync and at the one before */

static void sleep_for(long microseconds) {
    struct timespec time = {0, microseconds * 1000};
    nanosleep(&time, NULL);
}

int fdatasync(int file) {
    struct stat found;
    long now = atomic_fetch_add(&syncs, 1) + 1;
    while (atomic_load(&is_held))
        sleep_for(100);
    WANT(fstat(file, &found) == 0);
    atomic_store(&size_before, atomic_load(&size_then));
    atomic_store(&size_then, found.st_size);
    /* A disk takes its time. */
    sleep_for(200);
    if (now == atomic_load(&fails_at)) {
        errno = EIO;
        return -1;
    }
    return (int)syscall(SYS_fdatasync, file);
}

static uint64_t opened(const char *path, uint64_t *dropped) {
    uint64_t at;
    return kv_shared_open_file(&bucket, B(path), B("settings"), &limits, KV_SYNC_EACH, dropped, &at);
}

static void open_new(const char *path) {
    uint64_t dropped = 77;
    unlink(path);
    WANT(opened(path, &dropped) == KV_OK && dropped == 0);
}

static uint64_t last_of(void) {
    kv_status status;
    WANT(kv_shared_get_status(&bucket, &status) == KV_OK);
    return status.last;
}

/* Of each writer the revisions that it was answered, and the code that ended it. */
struct writer {
    pthread_t thread;
    int number, count;
    uint64_t revisions[EACH], code;
};
static struct writer writers[WRITERS];

static void run(void *(*does)(void *)) {
    for (int i = 0; i < WRITERS; i++) {
        writers[i] = (struct writer){.number = i};
        WANT(pthread_create(&writers[i].thread, NULL, does, &writers[i]) == 0);
    }
}

static void ended(void) {
    for (int i = 0; i < WRITERS; i++)
        WANT(pthread_join(writers[i].thread, NULL) == 0);
}

/* The i-th write of writer w puts "w i" to the key ki. */
static void *writes(void *with) {
    struct writer *own = with;
    for (int i = 0; i < EACH && own->code == KV_OK; i++) {
        char key[16], value[32];
        snprintf(key, sizeof key, "k%d", i);
        snprintf(value, sizeof value, "%d %d", own->number, i);
        own->code = kv_shared_put(&bucket, B(key), B(value), &own->revisions[i]);
        own->count += own->code == KV_OK;
    }
    return NULL;
}

/* Each write that was answered is there, once, at its revision, and of one writer in order. */
static void all_there(uint64_t last) {
    static bool is_there[MANY + 1];
    memset(is_there, 0, sizeof is_there);
    for (int w = 0; w < WRITERS; w++)
        for (int i = 0; i < writers[w].count; i++) {
            uint64_t at = writers[w].revisions[i], revision;
            char key[16], wanted[32];
            uint8_t value[32];
            size_t size;
            WANT(at > 0 && at <= last && !is_there[at] && (i == 0 || at > writers[w].revisions[i - 1]));
            is_there[at] = true;
            snprintf(key, sizeof key, "k%d", i);
            snprintf(wanted, sizeof wanted, "%d %d", w, i);
            WANT(kv_shared_get_at(&bucket, B(key), at, value, sizeof value, &size, &revision) == KV_OK);
            WANT(revision == at && size == strlen(wanted) && memcmp(value, wanted, size) == 0);
        }
}

static void writes_are_synced_together(void) {
    uint64_t dropped;
    long before;
    open_new("together.kv");
    before = atomic_load(&syncs);
    run(writes);
    ended();
    for (int i = 0; i < WRITERS; i++)
        WANT(writers[i].code == KV_OK && writers[i].count == EACH);
    WANT(last_of() == MANY);
    WANT(atomic_load(&syncs) - before < MANY / 2);
    printf("%d writes, %ld syncs\n", MANY, atomic_load(&syncs) - before);
    all_there(MANY);
    WANT(kv_shared_close(&bucket) == KV_OK);
    WANT(opened("together.kv", &dropped) == KV_OK && dropped == 0 && last_of() == MANY);
    all_there(MANY);
    WANT(kv_shared_close(&bucket) == KV_OK);
}

/* Each counts one number on, by updates, and all try to create one key, to delete and to purge it. */
static void *judged(void *with) {
    struct writer *own = with;
    for (int i = 0; i < EACH; i++) {
        uint64_t revision = 0, last = 0, number = 0, code;
        size_t size;
        code = kv_shared_get(&bucket, B("number"), (uint8_t *)&number, sizeof number, &size, &last);
        WANT(code == KV_OK || code == KV_KEY_NOT_FOUND);
        do {
            number++;
            code = kv_shared_update(&bucket, B("number"), (uint8_t *)&number, sizeof number, last, &revision);
            WANT(code == KV_OK || code == KV_WRONG_LAST_REVISION);
            last = revision;
            if (code != KV_OK)
                WANT(kv_shared_get_at(&bucket, B("number"), last, (uint8_t *)&number, sizeof number, &size, &revision) == KV_OK ||
                     kv_shared_get(&bucket, B("number"), (uint8_t *)&number, sizeof number, &size, &last) == KV_OK);
        } while (code != KV_OK);
        revision = 0;
        code = kv_shared_create(&bucket, B("one"), B("it"), &revision);
        if (code == KV_KEY_EXISTS) {
            WANT(revision == 0);
            continue;
        }
        WANT(code == KV_OK && revision != 0);
        own->count++;
        WANT((i % 2 ? kv_shared_delete : kv_shared_purge)(&bucket, B("one"), true, revision, &revision) == KV_OK);
    }
    return NULL;
}

static void writes_are_judged_behind_those_before_them(void) {
    uint64_t number = 0, revision, made = 0;
    size_t size;
    open_new("judged.kv");
    run(judged);
    ended();
    WANT(kv_shared_get(&bucket, B("number"), (uint8_t *)&number, sizeof number, &size, &revision) == KV_OK && number == MANY);
    for (int i = 0; i < WRITERS; i++)
        made += (uint64_t)writers[i].count;
    WANT(made > 0 && last_of() == MANY + 2 * made);
    /* What no key is, is refused wherever it waits. */
    WANT(kv_shared_put(&bucket, B("no key"), B(""), &revision) == KV_BAD_KEY);
    WANT(kv_shared_seal(&bucket) == KV_OK && kv_shared_put(&bucket, B("k"), B(""), &revision) == KV_SEALED);
    WANT(kv_shared_close(&bucket) == KV_OK && kv_shared_put(&bucket, B("k"), B(""), &revision) == KV_CLOSED);
}

/* A sync fails: each that waits for it is refused, and what was answered is there again. */
static void a_failed_sync_refuses_all_that_wait_for_it(void) {
    for (long nth = 1; nth < 24; nth += 2) {
        uint64_t dropped, last, answered = 0;
        open_new("failed.kv");
        atomic_store(&fails_at, atomic_load(&syncs) + nth);
        run(writes);
        ended();
        atomic_store(&fails_at, 0);
        for (int i = 0; i < WRITERS; i++) {
            WANT(writers[i].code == KV_FILE_FAULT);
            answered += (uint64_t)writers[i].count;
        }
        WANT(last_of() == answered);
        all_there(answered);
        WANT(kv_shared_close(&bucket) == KV_FILE_FAULT);
        WANT(opened("failed.kv", &dropped) == KV_OK);
        /* The group that was refused may be in the file, or a beginning of it. */
        last = last_of();
        WANT(last >= answered && last <= answered + WRITERS);
        all_there(answered);
        WANT(kv_shared_close(&bucket) == KV_OK);
    }
}

/* Copies a file, but for some bytes, which the copy has as zeros. */
static void copy_without(const char *from, const char *to, off_t begin, off_t end) {
    static uint8_t bytes[1 << 20];
    int in = open(from, O_RDONLY), out = open(to, O_WRONLY | O_CREAT | O_TRUNC, 0666);
    ssize_t size = read(in, bytes, sizeof bytes);
    WANT(in >= 0 && out >= 0 && size >= end && end >= begin && begin > 0);
    memset(bytes + begin, 0, (size_t)(end - begin));
    WANT(write(out, bytes, (size_t)size) == size);
    close(in);
    close(out);
}

static void *writes_one(void *with) {
    struct writer *own = with;
    own->code = kv_shared_put(&bucket, B("key"), B("value"), &own->revisions[0]);
    return NULL;
}

/* Of a group that is written a crash can leave the later writes on the disk and lose the first: that is no damage, but an end
 * that was torn off. */
static void a_torn_group_is_no_damage(void) {
    off_t first = 0, end = 0;
    uint64_t dropped;
    bucket = (kv_shared){0};
    for (int i = 1; end == 0; i++) {
        long before;
        WANT(i < 50);
        open_new("torn.kv");
        before = atomic_load(&syncs);
        atomic_store(&is_held, true);
        writers[0] = (struct writer){.number = 0};
        WANT(pthread_create(&writers[0].thread, NULL, writes_one, &writers[0]) == 0);
        while (atomic_load(&syncs) == before)
            sleep_for(100);
        /* It waits for its sync, and the others for it. */
        for (int w = 1; w < WRITERS; w++) {
            writers[w] = (struct writer){.number = w};
            WANT(pthread_create(&writers[w].thread, NULL, writes_one, &writers[w]) == 0);
        }
        sleep_for(20000 * i);
        atomic_store(&is_held, false);
        ended();
        WANT(last_of() == WRITERS);
        first = atomic_load(&size_before), end = atomic_load(&size_then);
        if (atomic_load(&syncs) - before != 2)
            end = 0;
        copy_without("torn.kv", "copy.kv", first, end ? first + 8 : first);
        WANT(kv_shared_close(&bucket) == KV_OK);
    }
    WANT(truncate("copy.kv", end) == 0);
    WANT(opened("copy.kv", &dropped) == KV_OK && dropped == (uint64_t)(end - first) && last_of() == 1);
    WANT(kv_shared_close(&bucket) == KV_OK);
}

int main(int count, char **words) {
    WANT(count > 1 && chdir(words[1]) == 0);
    writes_are_synced_together();
    writes_are_judged_behind_those_before_them();
    a_failed_sync_refuses_all_that_wait_for_it();
    a_torn_group_is_no_damage();
    return 0;
}
