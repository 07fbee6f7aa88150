/* A session is run once for each of its requests for memory, with that one refused: the call that made it is refused as
 * KV_OUT_OF_MEMORY, and made again it succeeds; all results are the same. To be linked with --wrap=malloc,realloc. */
#include "vilgoued.h"
#include "refusing.h"
#include <unistd.h>

static void session(void) {
    static const kv_limits limits = {3, 1048576, 1000000, 4294967295};
    static const kv_options latest = {KV_LATEST, 0, false, false};
    kv_bucket b = {0};
    kv_batch batch = {0};
    kv_view view = {0}, later = {0};
    kv_feed feed = {0};
    uint64_t revision, number, handed, floor;
    size_t size, count;
    uint8_t key[64], value[64], keys[256];
    kv_item item;
    kv_status status;
    int seen = 0;
    TRY(kv_open(&b, B("settings"), &limits));
    TRY(kv_watch(&b, B("app.>,db.*"), &latest, &number));
    for (uint64_t i = 1; i <= 60; i++) {
        char name[32];
        snprintf(name, sizeof name, "app.k%u", (unsigned)(i % 20));
        if (i % 7 == 0)
            TRY(kv_delete(&b, B(name), false, 0, &revision));
        else
            TRY(kv_put(&b, B(name), B(name), &revision));
        WANT(revision == i);
        if (i % 7 == 0)
            continue;
        TRY(kv_get(&b, B(name), value, sizeof value, &size, &revision));
        WANT(size == strlen(name) && !memcmp(value, name, size) && revision == i);
        TRY(kv_get_at(&b, B(name), i, value, sizeof value, &size, &revision));
        WANT(revision == i);
    }
    TRY(kv_keys(&b, B("app.>"), keys, sizeof keys, &size, &count));
    WANT(count == 17);
    TRY(kv_snapshot(&b, &view));
    TRY(kv_feed_open(&view, B("db.*"), &latest, &feed));
    TRY(kv_purge(&b, B("app.k1"), false, 0, &revision));
    TRY(kv_create(&b, B("db.port"), B("1"), &revision));
    TRY(kv_update(&b, B("db.port"), B("2"), 62, &revision));
    TRY(kv_history(&b, B("db.port"), 1, value, sizeof value, &item, &size));
    WANT(size == 2 && item.revision == 63 && value[0] == '2');
    TRY(kv_batch_put(&batch, B("app.k1"), B("3")));
    TRY(kv_batch_delete(&batch, B("app.k1"), true, 64));
    TRY(kv_batch_create(&batch, B("app.a-key-of-more-than-24-bytes"), B("a value of more than 24 bytes")));
    TRY(kv_batch_update(&batch, B("db.port"), B("4"), 63));
    TRY(kv_batch_purge(&batch, B("db.port"), false, 0));
    count = 77;
    TRY(kv_batch_write(&b, &batch, &revision, &count));
    /* Where memory was refused, the place of that write was told. */
    WANT(revision == 64 && !batch.is_open && (count == 77 || count < 5));
    TRY(kv_seal(&b));
    TRY(kv_view_get(&view, B("app.k1"), value, sizeof value, &size, &revision));
    WANT(revision == 41);
    TRY(kv_view_get_at(&view, B("app.k1"), 41, value, sizeof value, &size, &revision));
    TRY(kv_view_history(&view, B("app.k1"), 0, value, sizeof value, &item, &size));
    TRY(kv_view_keys(&view, B(">"), keys, sizeof keys, &size, &count));
    TRY(kv_snapshot(&b, &later));
    TRY(kv_feed_take(&feed, key, sizeof key, value, sizeof value, &item));
    WANT(item.kind == KV_MARKER);
    TRY(kv_feed_refresh(&feed, &later, &floor));
    TRY(kv_feed_take(&feed, key, sizeof key, value, sizeof value, &item));
    WANT(item.kind == KV_ENTRY && item.revision == 62);
    do {
        TRY(kv_take(&b, number, key, sizeof key, value, sizeof value, &item));
        seen += item.kind == KV_ENTRY;
    } while (item.kind != KV_EMPTY);
    WANT(seen == 68);
    TRY(kv_stop(&b, number, &handed));
    WANT(handed == 69);
    TRY(kv_reach(&b, &floor));
    WANT(floor == 68);
    TRY(kv_compact(&b, 40, &floor));
    TRY(kv_compact(&b, 68, &floor));
    TRY(kv_get_status(&b, &status));
    WANT(status.stored == status.values && status.stored < 68);
    kv_close(&b);
    kv_view_close(&view);
    kv_view_close(&later);
    kv_feed_close(&feed);
}

/* Where nobody else has the nodes, what is stored of a key is overwritten where it lies: a put of a short key that is there
 * asks for the memory of its value, as it is handed in, and of its write, and for no more. (The tenth revision stands in a
 * branch that the ninth made.) */
static void overwrite(void) {
    static const kv_limits limits = {1, 1048576, 1000000, 4294967295};
    kv_bucket b = {0};
    uint64_t revision;
    left = -1;
    TRY(kv_open(&b, B("settings"), &limits));
    for (int i = 1; i <= 9; i++) {
        char name[32];
        snprintf(name, sizeof name, "k%d", i);
        TRY(kv_put(&b, B(name), B("1"), &revision));
    }
    asked = 0;
    TRY(kv_put(&b, B("k1"), B("2"), &revision));
    WANT(revision == 10 && asked == 2);
    kv_close(&b);
}

static uint64_t dropped, at;

static uint64_t open_file(kv_bucket *b) {
    static const kv_limits limits = {3, 1048576, 1000000, 4294967295};
    return kv_open_file(b, B("sweep.kv"), B("settings"), &limits, KV_SYNC_ASKED, &dropped, &at);
}

/* A refused opening has not touched the file: its torn end is told by the one that succeeds. What a refused write would have
 * written is not in it. */
static void session_with_file(void) {
    kv_bucket b = {0};
    kv_batch batch = {0};
    uint64_t revision;
    uint8_t value[64];
    size_t size, place;
    FILE *file;
    unlink("sweep.kv");
    TRY(open_file(&b));
    WANT(dropped == 0);
    for (uint64_t i = 1; i <= 10; i++) {
        TRY(kv_put(&b, B("app.port"), B("a value of more than 24 bytes"), &revision));
        WANT(revision == i);
    }
    TRY(kv_batch_delete(&batch, B("app.port"), true, 10));
    TRY(kv_batch_put(&batch, B("app.host"), B("localhost")));
    TRY(kv_batch_write(&b, &batch, &revision, &place));
    TRY(kv_compact(&b, 11, &revision));
    TRY(kv_sync(&b));
    kv_close(&b);
    file = fopen("sweep.kv", "ab");
    WANT(file && fputs("torn", file) != EOF && fclose(file) == 0);
    TRY(open_file(&b));
    WANT(dropped == 4);
    TRY(kv_get(&b, B("app.host"), value, sizeof value, &size, &revision));
    WANT(size == 9 && revision == 12);
    TRY(kv_seal(&b));
    kv_close(&b);
}

int main(int count, char **words) {
    WANT(count < 2 || chdir(words[1]) == 0);
    sweep(session);
    sweep(session_with_file);
    overwrite();
    return 0;
}
