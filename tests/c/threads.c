/* One thread writes; three take snapshots under the bucket's mutex, and read them without it; one follows a feed. */
#include "vilgoued.h"
#include <pthread.h>
#include <stdio.h>
#include <stdlib.h>
#include <string.h>

#define B(s) (const uint8_t *)(s), strlen(s)

static pthread_mutex_t lock = PTHREAD_MUTEX_INITIALIZER;
static kv_bucket bucket;
static uint64_t rounds = 20000;

static void want(bool so, const char *what) {
    if (!so) {
        puts(what);
        exit(1);
    }
}

static void *writes(void *unused) {
    (void)unused;
    for (uint64_t i = 1; i <= rounds; i++) {
        char value[32];
        uint64_t revision, code;
        snprintf(value, sizeof value, "%lu", (unsigned long)i);
        pthread_mutex_lock(&lock);
        code = kv_put(&bucket, B("app.port"), B(value), &revision);
        pthread_mutex_unlock(&lock);
        want(code == KV_OK && revision == i, "a put");
    }
    return NULL;
}

static void *reads(void *unused) {
    uint64_t last = 0;
    (void)unused;
    while (last < rounds) {
        kv_view view = {0};
        uint64_t revision, code;
        size_t size;
        char room[32] = {0};
        pthread_mutex_lock(&lock);
        code = kv_snapshot(&bucket, &view);
        pthread_mutex_unlock(&lock);
        want(code == KV_OK, "a snapshot");
        for (int i = 0; i < 3; i++) {
            code = kv_view_get(&view, B("app.port"), (uint8_t *)room, sizeof room - 1, &size, &revision);
            if (code == KV_KEY_NOT_FOUND && last == 0)
                continue;
            want(code == KV_OK && revision >= last && strtoul(room, NULL, 10) == revision, "a read");
            last = revision;
        }
        kv_view_close(&view);
    }
    return NULL;
}

/* Each write comes once, and in order. */
static void *follows(void *unused) {
    static const kv_options updates = {KV_UPDATES, 0, false, false};
    kv_feed feed = {0};
    uint64_t last = 0;
    (void)unused;
    while (last < rounds) {
        kv_view view = {0};
        uint64_t code, floor;
        uint8_t key[255], value[32];
        kv_item item;
        pthread_mutex_lock(&lock);
        code = kv_snapshot(&bucket, &view);
        pthread_mutex_unlock(&lock);
        want(code == KV_OK, "a snapshot");
        if (!feed.is_open) {
            kv_status status;
            want(kv_feed_open(&view, B(">"), &updates, &feed) == KV_OK, "a feed");
            want(kv_view_get_status(&view, &status) == KV_OK, "its beginning");
            last = status.last;
        } else
            want(kv_feed_refresh(&feed, &view, &floor) == KV_OK, "a refresh");
        kv_view_close(&view);
        for (;;) {
            want(kv_feed_take(&feed, key, sizeof key, value, sizeof value, &item) == KV_OK, "a take");
            if (item.kind == KV_EMPTY)
                break;
            want(item.revision == last + 1, "the next write");
            last = item.revision;
        }
    }
    kv_feed_close(&feed);
    return NULL;
}

int main(int argc, char **argv) {
    static const kv_limits limits = {1, 1048576, 1000000, 4294967295};
    pthread_t writer, follower, readers[3];
    if (argc > 1)
        rounds = strtoul(argv[1], NULL, 10);
    want(kv_open(&bucket, B("settings"), &limits) == KV_OK, "an open");
    pthread_create(&follower, NULL, follows, NULL);
    pthread_create(&writer, NULL, writes, NULL);
    for (int i = 0; i < 3; i++)
        pthread_create(&readers[i], NULL, reads, NULL);
    pthread_join(writer, NULL);
    pthread_join(follower, NULL);
    for (int i = 0; i < 3; i++)
        pthread_join(readers[i], NULL);
    kv_close(&bucket);
    puts("one writer, three readers, a feed: each read is of one moment, and each write is handed out once");
    return 0;
}
