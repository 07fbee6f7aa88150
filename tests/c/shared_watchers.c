/* Watchers of a bucket that threads share: what their function is called with, why they end, and each refusal. */
#include "vilgoued_shared.h"
#include "wanting.h"
#include <pthread.h>
#include <semaphore.h>
#include <signal.h>
#include <unistd.h>

static const kv_limits limits = {3, 1048576, 1000000, 4294967295};
static const kv_options latest = {KV_LATEST, 0, false, false};

/* What a watcher was called with, in a text. */
struct seen {
    kv_shared bucket;
    kv_watcher watcher;
    char text[256];
    bool has_zeros; /* a zero byte behind each key and value */
    bool takes_signals;
    bool is_held; /* waits for the semaphore behind the marker */
    sem_t at_marker, goes_on;
};

static void see(void *with, const kv_item *item, const char *key, const char *value) {
    struct seen *it = with;
    size_t at = strlen(it->text);
    sigset_t blocked;
    if (item->kind == KV_ENTRY) {
        snprintf(it->text + at, sizeof it->text - at, "%s %u %u %u; ", key, (unsigned)item->op, (unsigned)item->revision,
                 (unsigned)item->value_size);
        it->has_zeros &= key[item->key_size] == 0 && strlen(value) == item->value_size;
    } else {
        snprintf(it->text + at, sizeof it->text - at, item->kind == KV_MARKER ? "marker; " : "end");
        it->has_zeros &= *key == 0 && *value == 0;
    }
    pthread_sigmask(SIG_SETMASK, NULL, &blocked);
    it->takes_signals |= !sigismember(&blocked, SIGTERM);
    if (item->kind == KV_MARKER && it->is_held) {
        sem_post(&it->at_marker);
        while (sem_wait(&it->goes_on) != 0)
            ;
    }
}

static void put(struct seen *it, const char *key, const char *value, uint64_t revision) {
    uint64_t given = 0;
    WANT(kv_shared_put(&it->bucket, B(key), B(value), &given) == KV_OK && given == revision);
}

/* A watcher of a bucket with one entry. */
static struct seen *opened(bool is_held) {
    static struct seen seen;
    seen = (struct seen){.has_zeros = true, .is_held = is_held};
    WANT(sem_init(&seen.at_marker, 0, 0) == 0 && sem_init(&seen.goes_on, 0, 0) == 0);
    WANT(kv_shared_open(&seen.bucket, B("settings"), &limits) == KV_OK);
    put(&seen, "app.a", "1", 1);
    WANT(kv_watcher_open(&seen.bucket, B("app.>"), &latest, see, &seen, &seen.watcher) == KV_OK);
    return &seen;
}

/* What was seen, once the watcher has ended. */
static void is_seen(struct seen *it, const char *text) {
    WANT(!it->watcher.is_open && it->has_zeros && !it->takes_signals);
    if (strcmp(it->text, text)) {
        printf("seen: %s\nwanted: %s\n", it->text, text);
        exit(1);
    }
    kv_shared_close(&it->bucket);
}

static void hands_all_to_its_function(void) {
    struct seen *it = opened(false);
    static char large[300001];
    uint64_t revision;
    memset(large, 'x', sizeof large - 1);
    put(it, "app.b", large, 2);
    put(it, "other", "1", 3);
    WANT(kv_shared_delete(&it->bucket, B("app.a"), false, 0, &revision) == KV_OK);
    WANT(kv_shared_finish(&it->bucket) == KV_OK && kv_watcher_join(&it->watcher) == KV_CLOSED);
    is_seen(it, "app.a 0 1 1; marker; app.b 0 2 300000; app.a 1 4 0; end");
    WANT(kv_watcher_join(&it->watcher) == KV_CLOSED);
}

/* The close waits for the call that is being made, and may leave the rest. */
static void a_close_ends_it(void) {
    struct seen *it = opened(true);
    while (sem_wait(&it->at_marker) != 0)
        ;
    put(it, "app.b", "1", 2);
    sem_post(&it->goes_on);
    kv_watcher_close(&it->watcher);
    kv_watcher_close(&it->watcher);
    WANT(strstr(it->text, "app.a 0 1 1; marker; ") == it->text && !strcmp(it->text + strlen(it->text) - 3, "end"));
    is_seen(it, it->text);
}

static void the_close_of_the_bucket_ends_it(void) {
    struct seen *it = opened(true);
    while (sem_wait(&it->at_marker) != 0)
        ;
    put(it, "app.b", "1", 2);
    kv_shared_close(&it->bucket);
    sem_post(&it->goes_on);
    WANT(kv_watcher_join(&it->watcher) == KV_CLOSED);
    is_seen(it, "app.a 0 1 1; marker; end");
}

static void one_that_lags_is_told(void) {
    struct seen *it = opened(true);
    uint64_t watch;
    while (sem_wait(&it->at_marker) != 0)
        ;
    for (uint64_t revision = 2; revision <= 4; revision++)
        put(it, "app.a", "1", revision);
    WANT(kv_shared_compact(&it->bucket, 4, &watch) == KV_OK);
    sem_post(&it->goes_on);
    WANT(kv_watcher_join(&it->watcher) == KV_LAGGED);
    is_seen(it, "app.a 0 1 1; marker; end");
}

static void refusals(void) {
    kv_options no_start = {4, 0, false, false};
    struct seen *it = opened(false);
    kv_watcher closed = {0};
    WANT(kv_watcher_open(&it->bucket, B("a..b"), &latest, see, it, &closed) == KV_BAD_FILTER && !closed.is_open);
    WANT(kv_watcher_open(&it->bucket, B("a"), &no_start, see, it, &closed) == KV_NO_SUCH_START && !closed.is_open);
    WANT(kv_watcher_open(&it->bucket, B("a"), &latest, see, it, &it->watcher) == KV_OPEN_ALREADY);
    kv_shared_close(&it->bucket);
    WANT(kv_watcher_open(&it->bucket, B("a"), &latest, see, it, &it->watcher) == KV_CLOSED && it->watcher.is_open);
    WANT(kv_watcher_open(&it->bucket, B("a"), &latest, see, it, &closed) == KV_CLOSED && !closed.is_open);
    WANT(kv_watcher_join(&it->watcher) == KV_CLOSED && kv_watcher_join(&closed) == KV_CLOSED);
    kv_watcher_close(&closed);
}

int main(void) {
    /* What sleeps for ever ends the run. */
    alarm(300);
    hands_all_to_its_function();
    a_close_ends_it();
    the_close_of_the_bucket_ends_it();
    one_that_lags_is_told();
    refusals();
    puts("watchers: each item to their function, each end, and each refusal as the header says");
    return 0;
}
