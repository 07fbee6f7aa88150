/* A session with a bucket that threads share is run once for each of its requests for memory, with that one refused:
 * the call that made it is refused as KV_OUT_OF_MEMORY, and made again it succeeds; no item is lost, and all results
 * are the same. To be linked with --wrap=malloc,realloc. */
#include "vilgoued_shared.h"
#include "refusing.h"

static kv_item item;
static uint8_t key[64], value[64];

/* The items of a follower up to the one that tells that nothing is left: how many entries. */
static int drained(kv_follower *f, uint64_t *last) {
    uint64_t floor;
    int entries = 0;
    for (;;) {
        TRY(kv_follower_next(f, 0, key, sizeof key, value, sizeof value, &item, &floor));
        if (item.kind == KV_EMPTY)
            return entries;
        if (item.kind != KV_ENTRY)
            continue;
        WANT(item.revision > *last);
        *last = item.revision;
        entries++;
    }
}

static void count_entries(void *count, const kv_item *it, const char *k, const char *v) {
    (void)k;
    (void)v;
    *(int *)count += it->kind == KV_ENTRY;
}

static void session(void) {
    static const kv_limits limits = {3, 1048576, 1000000, 4294967295};
    static const kv_options latest = {KV_LATEST, 0, false, false};
    kv_shared b = {0};
    kv_reader r = {0};
    kv_follower all = {0}, some = {0}, late = {0};
    kv_watcher watcher = {0};
    kv_view view = {0};
    kv_batch batch = {0};
    kv_status status;
    uint64_t revision, number, floor, handed, of_all = 0, of_some = 0, of_late = 0;
    size_t size, count;
    uint8_t keys[256];
    int entries = 0, of_watcher = 0, fd = -1;
    TRY(kv_shared_open(&b, B("settings"), &limits));
    TRY(kv_follower_open(&b, B(">"), &latest, &all));
    TRY(kv_follower_open(&b, B("app.k1,db.*"), &latest, &some));
    TRY(kv_follower_fd(&some, &fd));
    TRY(kv_reader_open(&b, &r));
    TRY(kv_shared_watch(&b, B("app.>"), &latest, &number));
    for (uint64_t i = 1; i <= 40; i++) {
        char name[32];
        snprintf(name, sizeof name, "app.k%u", (unsigned)(i % 10));
        if (i % 7 == 0)
            TRY(kv_shared_delete(&b, B(name), false, 0, &revision));
        else
            TRY(kv_shared_put(&b, B(name), B(name), &revision));
        WANT(revision == i);
        if (i % 3 == 0)
            entries += drained(&all, &of_all);
        if (i % 7 == 0)
            continue;
        TRY(kv_shared_get(&b, B(name), value, sizeof value, &size, &revision));
        WANT(size == strlen(name) && !memcmp(value, name, size) && revision == i);
        TRY(kv_reader_get(&r, B(name), value, sizeof value, &size, &revision));
        WANT(size == strlen(name) && !memcmp(value, name, size) && revision == i);
        TRY(kv_reader_get_at(&r, B(name), i, value, sizeof value, &size, &revision));
        TRY(kv_shared_get_at(&b, B(name), i, value, sizeof value, &size, &revision));
        WANT(revision == i);
    }
    TRY(kv_shared_create(&b, B("db.port"), B("1"), &revision));
    TRY(kv_shared_update(&b, B("db.port"), B("2"), 41, &revision));
    TRY(kv_shared_purge(&b, B("app.k2"), false, 0, &revision));
    TRY(kv_batch_put(&batch, B("app.k1"), B("4")));
    TRY(kv_batch_purge(&batch, B("app.k1"), true, 44));
    TRY(kv_shared_write_all(&b, &batch, &revision, &size));
    WANT(revision == 44 && !batch.is_open);
    TRY(kv_shared_history(&b, B("db.port"), 1, value, sizeof value, &item, &count));
    WANT(count == 2 && item.revision == 42 && value[0] == '2');
    TRY(kv_reader_history(&r, B("db.port"), 1, value, sizeof value, &item, &count));
    WANT(count == 2 && item.revision == 42);
    TRY(kv_shared_keys(&b, B("db.>"), keys, sizeof keys, &size, &count));
    TRY(kv_reader_keys(&r, B("db.>"), keys, sizeof keys, &size, &count));
    WANT(count == 1 && size == 8);
    TRY(kv_shared_snapshot(&b, &view));
    TRY(kv_follower_open(&b, B(">"), &latest, &late));
    TRY(kv_shared_seal(&b));
    entries += drained(&all, &of_all);
    WANT(entries == 45 && of_all == 45);
    /* The keys of six writes match, and the two of db.port. */
    WANT(drained(&some, &of_some) == 8 && of_some == 45);
    WANT(drained(&late, &of_late) == 11 && of_late == 45);
    do
        TRY(kv_shared_take(&b, number, key, sizeof key, value, sizeof value, &item));
    while (item.kind != KV_EMPTY);
    TRY(kv_shared_stop(&b, number, &handed));
    WANT(handed == 44);
    TRY(kv_shared_reach(&b, &floor));
    WANT(floor == 45);
    TRY(kv_shared_compact(&b, floor, &number));
    WANT(drained(&all, &of_all) == 0);
    TRY(kv_shared_get_status(&b, &status));
    TRY(kv_reader_get_status(&r, &status));
    WANT(status.stored == status.values && status.stored < 45 && status.sealed);
    TRY(kv_shared_finish(&b));
    /* The compaction left the keys that have a value. A watcher asks again by itself for what it was refused. */
    TRY(kv_watcher_open(&b, B(">"), &latest, count_entries, &of_watcher, &watcher));
    WANT(kv_watcher_join(&watcher) == KV_CLOSED && of_watcher == 8);
    TRY(kv_follower_stop(&late));
    kv_shared_close(&b);
    kv_view_close(&view);
    kv_follower_close(&late);
    kv_follower_close(&some);
    kv_follower_close(&all);
    kv_reader_close(&r);
}

int main(void) {
    sweep(session);
    return 0;
}
