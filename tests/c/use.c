/* Each function and each code once, what is told with too little room, and what a refused call leaves as it was. */
#include "marking.h"

static const kv_limits largest = {3, 1048576, 1000000, 4294967295};

/* What a call tells beside its item. */
static struct {
    uint64_t number;
    size_t size, count;
} told;

static void mark(void) {
    mark_all(&told, sizeof told);
}

/* A call that is refused has copied nothing and told nothing. */
#define REFUSED(call, code) (mark(), (call) == (code) && nothing_copied() && NOTHING_TOLD)
#define NOTHING_TOLD (marked(&item, sizeof item) && marked(&told, sizeof told))

/* One that tells a number with its refusal has told nothing else. */
#define TELLS(call, code, n) \
    (mark(), (call) == (code) && nothing_copied() && marked(&item, sizeof item) && told.number == (n) && \
     marked(&told.size, sizeof told.size) && marked(&told.count, sizeof told.count))

/* Where there is too little room nothing is copied. What is told is looked at behind it. */
#define LITTLE(call) (mark(), (call) == KV_TOO_LITTLE_ROOM && nothing_copied())

/* Where the room just suffices it is filled, and nothing is written behind it. */
#define FILLS(call, room) \
    (mark(), (call) == KV_OK && !marked(value + (room)-1, 1) && marked(value + (room), sizeof value - (room)))

static uint64_t take(kv_bucket *b, uint64_t number) {
    return kv_take(b, number, key, sizeof key, value, sizeof value, &item);
}

static bool shows(const char *k, uint32_t op, uint64_t revision, const char *v) {
    return item.kind == KV_ENTRY && item.op == op && item.revision == revision && item.key_size == strlen(k) &&
           !memcmp(key, k, item.key_size) && item.has_value == (v != NULL) && item.value_size == (v ? strlen(v) : 0) &&
           (!v || !memcmp(value, v, item.value_size));
}

static void layout(void) {
    WANT(sizeof(kv_bucket) == 16 && offsetof(kv_bucket, is_open) == 0 && offsetof(kv_bucket, at) == 8);
    WANT(sizeof(kv_view) == 16 && offsetof(kv_view, is_open) == 0 && offsetof(kv_view, at) == 8);
    WANT(sizeof(kv_feed) == 16 && offsetof(kv_feed, is_open) == 0 && offsetof(kv_feed, at) == 8);
    WANT(sizeof(kv_batch) == 16 && offsetof(kv_batch, is_open) == 0 && offsetof(kv_batch, at) == 8);
    WANT(sizeof(kv_limits) == 32 && offsetof(kv_limits, revision_limit) == 24);
    WANT(sizeof(kv_options) == 24 && offsetof(kv_options, from) == 8 && offsetof(kv_options, headers_only) == 17);
    WANT(sizeof(kv_item) == 48 && offsetof(kv_item, op) == 4 && offsetof(kv_item, revision) == 8 &&
         offsetof(kv_item, key_size) == 16 && offsetof(kv_item, size) == 24 && offsetof(kv_item, value_size) == 32 &&
         offsetof(kv_item, has_value) == 40);
    WANT(sizeof(kv_status) == 48 && offsetof(kv_status, watches) == 32 && offsetof(kv_status, sealed) == 40);
}

static void closed(void) {
    kv_bucket b = {0};
    kv_batch batch = {0};
    kv_view view = {0}, open = {0};
    kv_feed feed = {0};
    kv_status status;
    kv_options from_latest = {KV_LATEST, 0, false, false};
    uint64_t n = 77;
    size_t size = 77;
    WANT(kv_put(&b, B("a"), B("1"), &n) == KV_CLOSED && kv_create(&b, B("a"), B("1"), &n) == KV_CLOSED);
    WANT(kv_update(&b, B("a"), B("1"), 0, &n) == KV_CLOSED && kv_seal(&b) == KV_CLOSED);
    WANT(kv_delete(&b, B("a"), false, 0, &n) == KV_CLOSED && kv_purge(&b, B("a"), false, 0, &n) == KV_CLOSED);
    WANT(kv_get(&b, B("a"), value, sizeof value, &size, &n) == KV_CLOSED);
    WANT(kv_get_at(&b, B("a"), 1, value, sizeof value, &size, &n) == KV_CLOSED);
    WANT(kv_get_status(&b, &status) == KV_CLOSED && kv_watch(&b, B(">"), &from_latest, &n) == KV_CLOSED);
    WANT(take(&b, 1) == KV_CLOSED && kv_stop(&b, 1, &n) == KV_CLOSED && kv_snapshot(&b, &view) == KV_CLOSED);
    WANT(kv_view_get(&view, B("a"), value, sizeof value, &size, &n) == KV_CLOSED);
    WANT(kv_view_get_at(&view, B("a"), 1, value, sizeof value, &size, &n) == KV_CLOSED);
    WANT(kv_history(&b, B("a"), 0, value, sizeof value, &item, &size) == KV_CLOSED);
    WANT(kv_view_history(&view, B("a"), 0, value, sizeof value, &item, &size) == KV_CLOSED);
    WANT(kv_keys(&b, B(">"), value, sizeof value, &size, &size) == KV_CLOSED);
    WANT(kv_view_keys(&view, B(">"), value, sizeof value, &size, &size) == KV_CLOSED);
    WANT(kv_view_get_status(&view, &status) == KV_CLOSED);
    WANT(kv_feed_open(&view, B(">"), &from_latest, &feed) == KV_CLOSED && !feed.is_open);
    WANT(kv_feed_take(&feed, key, sizeof key, value, sizeof value, &item) == KV_CLOSED);
    WANT(kv_feed_refresh(&feed, &view, &n) == KV_CLOSED);
    WANT(kv_compact(&b, 1, &n) == KV_CLOSED && kv_reach(&b, &n) == KV_CLOSED);
    WANT(kv_batch_write(&b, &batch, &n, &size) == KV_CLOSED);
    WANT(kv_batch_put(&batch, B("a"), B("1")) == KV_OK && kv_batch_write(&b, &batch, &n, &size) == KV_CLOSED);
    WANT(n == 77 && size == 77 && !view.is_open && batch.is_open);
    kv_batch_close(&batch);
    kv_close(&b);
    kv_view_close(&view);
    kv_feed_close(&feed);
    WANT(kv_open(&b, B("settings"), &largest) == KV_OK && kv_snapshot(&b, &open) == KV_OK);
    WANT(kv_feed_refresh(&feed, &open, &n) == KV_CLOSED);
    kv_view_close(&open);
    kv_close(&b);
}

static void opened(void) {
    kv_bucket b = {0};
    kv_limits none = {0, 0, 1, 1};
    WANT(kv_open(&b, B("bad name"), &largest) == KV_BAD_BUCKET && !b.is_open);
    WANT(kv_open(&b, (const uint8_t *)"a\xff", 2, &largest) == KV_BAD_BUCKET);
    WANT(kv_open(&b, (const uint8_t *)"", 0, &largest) == KV_BAD_BUCKET);
    WANT(kv_open(&b, B("settings"), &none) == KV_BAD_CONFIG && !b.is_open);
    WANT(kv_open(&b, B("settings"), &largest) == KV_OK && b.is_open);
    WANT(kv_open(&b, B("settings"), &largest) == KV_OPEN_ALREADY && b.is_open);
    kv_close(&b);
    WANT(!b.is_open);
    kv_close(&b);
}

static void written(void) {
    kv_bucket b = {0};
    kv_limits small = {3, 2, 6, 100};
    kv_status status;
    uint64_t n = 0;
    size_t size = 0;
    WANT(kv_open(&b, B("settings"), &small) == KV_OK);
    WANT(kv_put(&b, B("app.port"), B("80"), &n) == KV_OK && n == 1);
    WANT(kv_put(&b, B("app..port"), B("80"), &n) == KV_BAD_KEY && n == 1);
    WANT(kv_put(&b, (const uint8_t *)"a\xff", 2, B("80"), &n) == KV_BAD_KEY);
    WANT(kv_put(&b, B("app.port"), B("123"), &n) == KV_VALUE_TOO_LARGE && n == 1);
    WANT(kv_create(&b, B("app.port"), B("1"), &n) == KV_KEY_EXISTS && n == 1);
    WANT(kv_create(&b, B("db.port"), B("1"), &n) == KV_OK && n == 2);
    WANT(kv_update(&b, B("app.port"), B("81"), 1, &n) == KV_OK && n == 3);
    WANT(kv_update(&b, B("app.port"), B("82"), 1, &n) == KV_WRONG_LAST_REVISION && n == 3);
    WANT(kv_get(&b, B("app.port"), value, sizeof value, &size, &n) == KV_OK && size == 2 && n == 3);
    WANT(!memcmp(value, "81", 2));
    WANT(kv_get(&b, B("app.port"), value, 1, &size, &n) == KV_TOO_LITTLE_ROOM && size == 2);
    WANT(kv_get_at(&b, B("app.port"), 1, value, sizeof value, &size, &n) == KV_OK && n == 1 && !memcmp(value, "80", 2));
    WANT(kv_get_at(&b, B("app.port"), 2, value, sizeof value, &size, &n) == KV_KEY_NOT_FOUND);
    WANT(kv_get(&b, B("nope"), value, sizeof value, &size, &n) == KV_KEY_NOT_FOUND);
    WANT(kv_get(&b, B("no pe"), value, sizeof value, &size, &n) == KV_BAD_KEY);
    WANT(kv_delete(&b, B("app.port"), true, 2, &n) == KV_WRONG_LAST_REVISION && n == 3);
    WANT(kv_delete(&b, B("app.port"), true, 3, &n) == KV_OK && n == 4);
    WANT(kv_purge(&b, B("app.port"), true, 3, &n) == KV_WRONG_LAST_REVISION && n == 4);
    WANT(kv_purge(&b, B("app.port"), false, 0, &n) == KV_OK && n == 5);
    WANT(kv_put(&b, B("empty"), (const uint8_t *)"", 0, &n) == KV_OK && n == 6);
    WANT(kv_get(&b, B("empty"), value, 0, &size, &n) == KV_OK && size == 0 && n == 6);
    WANT(kv_put(&b, B("a"), B("1"), &n) == KV_JOURNAL_FULL && n == 6);
    WANT(kv_get_status(&b, &status) == KV_OK && status.history == 3 && status.last == 6 && status.stored == 6);
    WANT(status.values == 3 && status.watches == 0 && !status.sealed);
    WANT(kv_seal(&b) == KV_OK && kv_seal(&b) == KV_OK);
    WANT(kv_put(&b, B("a"), B("1"), &n) == KV_SEALED && n == 6);
    WANT(kv_get_status(&b, &status) == KV_OK && status.sealed);
    kv_close(&b);
}

static size_t gathered_in(kv_batch *batch) {
    size_t size = 77;
    return kv_batch_size(batch, &size) == KV_OK ? size : 77;
}

/* A batch of one write of each kind, of which the update and the purge name revisions of writes before them. */
static void gather_each_kind(kv_batch *batch) {
    WANT(kv_batch_put(batch, B("app.port"), B("80")) == KV_OK && batch->is_open);
    WANT(kv_batch_create(batch, B("db"), B("x")) == KV_OK);
    WANT(kv_batch_update(batch, B("app.port"), B("81"), 2) == KV_OK);
    WANT(kv_batch_delete(batch, B("db"), false, 0) == KV_OK);
    WANT(kv_batch_purge(batch, B("db"), true, 5) == KV_OK && gathered_in(batch) == 5);
}

static void written_at_once(void) {
    kv_bucket b = {0};
    kv_batch batch = {0};
    kv_options updates = {KV_UPDATES, 0, false, false};
    uint64_t n = 0;
    size_t at = 77, count = 0;
    WANT(kv_open(&b, B("settings"), &largest) == KV_OK && kv_put(&b, B("app.port"), B("79"), &n) == KV_OK && n == 1);
    WANT(kv_watch(&b, B(">"), &updates, &n) == KV_OK && n == 1);
    gather_each_kind(&batch);
    WANT(kv_batch_write(&b, &batch, &n, &at) == KV_OK && n == 2 && at == 77 && !batch.is_open);
    WANT(take(&b, 1) == KV_OK && shows("app.port", KV_PUT, 2, "80") && take(&b, 1) == KV_OK && shows("db", KV_PUT, 3, "x"));
    WANT(take(&b, 1) == KV_OK && shows("app.port", KV_PUT, 4, "81"));
    WANT(take(&b, 1) == KV_OK && shows("db", KV_DELETE, 5, NULL));
    WANT(take(&b, 1) == KV_OK && shows("db", KV_PURGE, 6, NULL) && take(&b, 1) == KV_OK && item.kind == KV_EMPTY);
    WANT(kv_history(&b, B("db"), 0, value, sizeof value, &item, &count) == KV_OK && count == 1 && item.revision == 6);
    /* It is empty now, and can be filled again. */
    WANT(gathered_in(&batch) == 0 && kv_batch_write(&b, &batch, &n, &at) == KV_OK && n == 6 && at == 77);
    WANT(kv_batch_put(&batch, B("db"), B("y")) == KV_OK && kv_batch_write(&b, &batch, &n, &at) == KV_OK && n == 7);
    kv_batch_close(&batch);
    kv_close(&b);
}

/* A refusal of the write at this place, which leaves the bucket and the batch. */
static bool is_refused_at(kv_bucket *b, kv_batch *batch, uint64_t code, size_t at) {
    size_t size = gathered_in(batch);
    kv_status before, after;
    mark();
    memset(&before, MARK, sizeof before);
    memset(&after, MARK, sizeof after);
    return kv_get_status(b, &before) == KV_OK && kv_batch_write(b, batch, &told.number, &told.size) == code &&
           told.size == at && marked(&told.count, sizeof told.count) && kv_get_status(b, &after) == KV_OK &&
           !memcmp(&before, &after, sizeof before) && gathered_in(batch) == size;
}

static void refused_at_once(void) {
    kv_bucket b = {0};
    kv_view view = {0};
    kv_batch batch = {0}, other = {0};
    kv_limits small = {3, 2, 4, 100};
    uint64_t n = 0;
    size_t size = 0;
    WANT(kv_open(&b, B("settings"), &small) == KV_OK && kv_put(&b, B("a"), B("1"), &n) == KV_OK);
    WANT(kv_batch_put(&batch, B("b"), B("2")) == KV_OK && kv_batch_create(&batch, B("b"), B("3")) == KV_OK);
    WANT(is_refused_at(&b, &batch, KV_KEY_EXISTS, 1) && marked(&told.number, sizeof told.number));
    WANT(kv_get(&b, B("b"), value, sizeof value, &size, &n) == KV_KEY_NOT_FOUND);
    kv_batch_close(&batch);
    WANT(!batch.is_open && gathered_in(&batch) == 0);
    WANT(kv_batch_put(&batch, B("a"), B("2")) == KV_OK && kv_batch_update(&batch, B("a"), B("3"), 1) == KV_OK);
    WANT(is_refused_at(&b, &batch, KV_WRONG_LAST_REVISION, 1) && told.number == 2);
    kv_batch_close(&batch);
    WANT(kv_batch_put(&batch, B("a"), B("123")) == KV_OK && is_refused_at(&b, &batch, KV_VALUE_TOO_LARGE, 0));
    kv_batch_close(&batch);
    for (int i = 0; i < 4; i++)
        WANT(kv_batch_put(&batch, B("a"), B("1")) == KV_OK);
    WANT(is_refused_at(&b, &batch, KV_JOURNAL_FULL, 3) && marked(&told.number, sizeof told.number));
    WANT(kv_seal(&b) == KV_OK && is_refused_at(&b, &batch, KV_SEALED, 0));
    /* Of no writes none is refused. */
    WANT(kv_batch_write(&b, &other, &n, &size) == KV_OK && n == 1);
    /* Handles of other kinds. */
    WANT(kv_snapshot(&b, &view) == KV_OK);
    WANT(REFUSED(kv_batch_write(&b, (kv_batch *)&view, &told.number, &told.size), KV_CLOSED));
    WANT(REFUSED(kv_batch_write((kv_bucket *)&view, &batch, &told.number, &told.size), KV_CLOSED));
    WANT(REFUSED(kv_batch_size((kv_batch *)&view, &told.size), KV_CLOSED));
    WANT(kv_batch_put((kv_batch *)&view, B("n o"), B("1")) == KV_CLOSED && view.is_open && gathered_in(&batch) == 4);
    WANT(REFUSED(kv_put((kv_bucket *)&batch, B("a"), B("1"), &told.number), KV_CLOSED));
    kv_view_close(&view);
    kv_batch_close(&batch);
    kv_batch_close(&batch);
    kv_close(&b);
}

/* What no bucket accepts is not gathered. */
static void not_gathered(void) {
    kv_batch batch = {0};
    uint8_t *large = calloc(1, 1048577);
    WANT(large && kv_batch_put(&batch, B("n o"), B("1")) == KV_BAD_KEY && !batch.is_open);
    WANT(kv_batch_put(&batch, B("a"), large, 1048577) == KV_VALUE_TOO_LARGE && !batch.is_open);
    WANT(kv_batch_put(&batch, B("a"), large, 1048576) == KV_OK && gathered_in(&batch) == 1);
    WANT(kv_batch_create(&batch, B("n o"), large, 1048577) == KV_BAD_KEY);
    WANT(kv_batch_create(&batch, B("a"), large, 1048577) == KV_VALUE_TOO_LARGE);
    WANT(kv_batch_update(&batch, B("n o"), B("1"), 1) == KV_BAD_KEY);
    WANT(kv_batch_update(&batch, B("a"), large, 1048577, 1) == KV_VALUE_TOO_LARGE);
    WANT(kv_batch_delete(&batch, (const uint8_t *)"a\xff", 2, false, 0) == KV_BAD_KEY);
    WANT(kv_batch_purge(&batch, B("a..b"), true, 1) == KV_BAD_KEY && gathered_in(&batch) == 1);
    kv_batch_close(&batch);
    free(large);
}

static void kept(void) {
    kv_bucket b = {0};
    uint64_t r = 0;
    size_t count = 0;
    WANT(kv_open(&b, B("settings"), &largest) == KV_OK && kv_put(&b, B("a"), B("12"), &r) == KV_OK);
    WANT(kv_delete(&b, B("a"), false, 0, &r) == KV_OK);
    WANT(kv_history(&b, B("a"), 0, value, 1, &item, &count) == KV_TOO_LITTLE_ROOM && count == 2 && item.value_size == 2);
    WANT(kv_history(&b, B("a"), 0, value, sizeof value, &item, &count) == KV_OK && item.kind == KV_ENTRY);
    WANT(item.op == KV_PUT && item.revision == 1 && item.size == 2 && item.has_value && !memcmp(value, "12", 2));
    WANT(kv_history(&b, B("a"), 1, value, sizeof value, &item, &count) == KV_OK && item.op == KV_DELETE);
    WANT(item.revision == 2 && !item.has_value && item.value_size == 0);
    WANT(kv_history(&b, B("a"), 2, value, sizeof value, &item, &count) == KV_OK && item.kind == KV_EMPTY && count == 2);
    WANT(kv_history(&b, B("b"), 0, value, sizeof value, &item, &count) == KV_KEY_NOT_FOUND);
    WANT(kv_history(&b, B("b b"), 0, value, sizeof value, &item, &count) == KV_BAD_KEY);
    kv_close(&b);
}

static void watched(void) {
    kv_bucket b = {0};
    kv_options latest = {KV_LATEST, 0, false, false}, history = {KV_HISTORY, 0, false, false};
    kv_options updates = {KV_UPDATES, 0, true, false}, from = {KV_FROM, 2, false, true}, other = {4, 0, false, false};
    uint64_t n = 0, r = 0, handed = 0;
    WANT(kv_open(&b, B("settings"), &largest) == KV_OK);
    WANT(kv_put(&b, B("app.port"), B("80"), &r) == KV_OK && kv_put(&b, B("app.port"), B("81"), &r) == KV_OK);
    WANT(kv_watch(&b, B("app.>.x"), &latest, &n) == KV_BAD_FILTER && n == 0);
    WANT(kv_watch(&b, B("app.>"), &other, &n) == KV_NO_SUCH_START && n == 0);
    WANT(kv_watch(&b, B("app.>,db.*"), &latest, &n) == KV_OK && n == 1);
    WANT(kv_watch(&b, B(">"), &history, &n) == KV_OK && n == 2);
    WANT(kv_watch(&b, B(">"), &updates, &n) == KV_OK && n == 3);
    WANT(kv_watch(&b, B(">"), &from, &n) == KV_OK && n == 4);
    WANT(take(&b, 9) == KV_NO_SUCH_WATCH);
    WANT(kv_take(&b, 1, key, 3, value, sizeof value, &item) == KV_TOO_LITTLE_ROOM && item.key_size == 8);
    WANT(kv_take(&b, 1, key, sizeof key, value, 1, &item) == KV_TOO_LITTLE_ROOM && item.value_size == 2);
    WANT(take(&b, 1) == KV_OK && shows("app.port", KV_PUT, 2, "81"));
    WANT(take(&b, 1) == KV_OK && item.kind == KV_MARKER);
    WANT(take(&b, 1) == KV_OK && item.kind == KV_EMPTY);
    WANT(take(&b, 2) == KV_OK && shows("app.port", KV_PUT, 1, "80"));
    WANT(take(&b, 2) == KV_OK && shows("app.port", KV_PUT, 2, "81"));
    WANT(take(&b, 2) == KV_OK && item.kind == KV_MARKER);
    WANT(take(&b, 3) == KV_OK && item.kind == KV_EMPTY);
    WANT(take(&b, 4) == KV_OK && shows("app.port", KV_PUT, 2, NULL) && item.size == 2);
    WANT(kv_delete(&b, B("app.port"), false, 0, &r) == KV_OK && kv_purge(&b, B("app.port"), false, 0, &r) == KV_OK);
    WANT(kv_put(&b, B("db.port"), B("5432"), &r) == KV_OK && r == 5);
    WANT(take(&b, 1) == KV_OK && shows("app.port", KV_DELETE, 3, NULL));
    WANT(take(&b, 1) == KV_OK && shows("app.port", KV_PURGE, 4, NULL));
    WANT(take(&b, 1) == KV_OK && shows("db.port", KV_PUT, 5, "5432"));
    WANT(take(&b, 3) == KV_OK && shows("db.port", KV_PUT, 5, "5432"));
    WANT(kv_stop(&b, 1, &handed) == KV_OK && handed == 5 && kv_stop(&b, 1, &handed) == KV_NO_SUCH_WATCH);
    for (int i = 0; i < 61; i++)
        WANT(kv_watch(&b, B(">"), &latest, &n) == KV_OK);
    WANT(kv_watch(&b, B(">"), &latest, &n) == KV_TOO_MANY_WATCHES && n == 65);
    kv_close(&b);
}

static void listed(void) {
    kv_bucket b = {0};
    uint64_t r = 0;
    size_t size = 0, count = 0;
    WANT(kv_open(&b, B("settings"), &largest) == KV_OK && kv_keys(&b, B(">"), value, 0, &size, &count) == KV_OK);
    WANT(size == 0 && count == 0);
    WANT(kv_put(&b, B("app.b"), B("1"), &r) == KV_OK && kv_put(&b, B("app.a"), B("1"), &r) == KV_OK);
    WANT(kv_put(&b, B("db"), B("1"), &r) == KV_OK && kv_put(&b, B("app.c"), B("1"), &r) == KV_OK);
    WANT(kv_delete(&b, B("app.c"), false, 0, &r) == KV_OK);
    WANT(kv_keys(&b, B("app.*"), value, sizeof value, &size, &count) == KV_OK && size == 12 && count == 2);
    WANT(!memcmp(value, "app.b\0app.a", 12));
    WANT(kv_keys(&b, B("app.*"), value, 11, &size, &count) == KV_TOO_LITTLE_ROOM && size == 12 && count == 2);
    WANT(kv_keys(&b, B("db,app.*,>"), value, sizeof value, &size, &count) == KV_OK && size == 15 && count == 3);
    WANT(!memcmp(value, "app.b\0app.a\0db", 15));
    WANT(kv_keys(&b, B("app.*,,db"), value, sizeof value, &size, &count) == KV_BAD_FILTER);
    WANT(kv_keys(&b, (const uint8_t *)"a\xff", 2, value, sizeof value, &size, &count) == KV_BAD_FILTER);
    kv_close(&b);
}

static void seen(void) {
    kv_bucket b = {0};
    kv_view view = {0};
    kv_status status;
    uint64_t r = 0;
    size_t size = 0, count = 0;
    WANT(kv_open(&b, B("settings"), &largest) == KV_OK && kv_put(&b, B("a"), B("1"), &r) == KV_OK);
    WANT(kv_snapshot(&b, &view) == KV_OK && view.is_open && kv_snapshot(&b, &view) == KV_OPEN_ALREADY);
    WANT(kv_put(&b, B("a"), B("2"), &r) == KV_OK && r == 2);
    kv_close(&b);
    WANT(kv_view_get(&view, B("a"), value, sizeof value, &size, &r) == KV_OK && size == 1 && r == 1 && value[0] == '1');
    WANT(kv_view_get(&view, B("a"), value, 0, &size, &r) == KV_TOO_LITTLE_ROOM && size == 1);
    WANT(kv_view_get(&view, B("b"), value, sizeof value, &size, &r) == KV_KEY_NOT_FOUND);
    WANT(kv_view_get(&view, B("b b"), value, sizeof value, &size, &r) == KV_BAD_KEY);
    WANT(kv_view_get_at(&view, B("a"), 1, value, sizeof value, &size, &r) == KV_OK && size == 1 && r == 1);
    WANT(kv_view_get_at(&view, B("a"), 2, value, sizeof value, &size, &r) == KV_KEY_NOT_FOUND);
    WANT(kv_view_history(&view, B("a"), 0, value, sizeof value, &item, &count) == KV_OK && count == 1);
    WANT(item.revision == 1);
    WANT(kv_view_keys(&view, B(">"), value, sizeof value, &size, &count) == KV_OK && size == 2 && count == 1);
    WANT(kv_view_get_status(&view, &status) == KV_OK && status.last == 1 && status.watches == 0 && !status.sealed);
    kv_view_close(&view);
    kv_view_close(&view);
    WANT(!view.is_open);
}

static uint64_t feed_take(kv_feed *feed) {
    return kv_feed_take(feed, key, sizeof key, value, sizeof value, &item);
}

/* A feed goes on to no view of another bucket, also where that was opened under the same name and accepted the same. */
static void fed_by_another(void) {
    kv_bucket b = {0}, other = {0};
    kv_view view = {0}, foreign = {0};
    kv_feed feed = {0};
    kv_options latest = {KV_LATEST, 0, false, false};
    uint64_t r = 0, floor = 77;
    WANT(kv_open(&b, B("settings"), &largest) == KV_OK && kv_open(&other, B("settings"), &largest) == KV_OK);
    WANT(kv_put(&b, B("a"), B("1"), &r) == KV_OK && kv_put(&other, B("a"), B("1"), &r) == KV_OK);
    WANT(kv_snapshot(&b, &view) == KV_OK && kv_feed_open(&view, B(">"), &latest, &feed) == KV_OK);
    WANT(kv_put(&other, B("a"), B("2"), &r) == KV_OK && kv_snapshot(&other, &foreign) == KV_OK);
    WANT(kv_feed_refresh(&feed, &foreign, &floor) == KV_OTHER_BUCKET && floor == 77);
    WANT(feed_take(&feed) == KV_OK && shows("a", KV_PUT, 1, "1"));
    kv_close(&b);
    kv_view_close(&view);
    WANT(kv_open(&b, B("settings"), &largest) == KV_OK && kv_snapshot(&b, &view) == KV_OK);
    WANT(kv_feed_refresh(&feed, &view, &floor) == KV_OTHER_BUCKET && floor == 77);
    kv_feed_close(&feed);
    kv_view_close(&view);
    kv_view_close(&foreign);
    kv_close(&b);
    kv_close(&other);
}

static void fed(void) {
    kv_bucket b = {0};
    kv_view first = {0}, second = {0};
    kv_feed feed = {0};
    kv_options latest = {KV_LATEST, 0, false, false}, other = {4, 0, false, false};
    uint64_t r = 0;
    WANT(kv_open(&b, B("settings"), &largest) == KV_OK && kv_put(&b, B("app.port"), B("80"), &r) == KV_OK);
    WANT(kv_snapshot(&b, &first) == KV_OK);
    WANT(kv_delete(&b, B("app.port"), false, 0, &r) == KV_OK && kv_put(&b, B("db.port"), B("1"), &r) == KV_OK);
    WANT(kv_put(&b, B("app.host"), B("h"), &r) == KV_OK && kv_snapshot(&b, &second) == KV_OK);
    kv_close(&b);
    WANT(kv_feed_open(&first, B("app.>"), &other, &feed) == KV_NO_SUCH_START);
    WANT(kv_feed_open(&first, B("app.>.x"), &latest, &feed) == KV_BAD_FILTER && !feed.is_open);
    WANT(kv_feed_open(&first, B("app.>"), &latest, &feed) == KV_OK && feed.is_open);
    WANT(kv_feed_open(&first, B("app.>"), &latest, &feed) == KV_OPEN_ALREADY);
    WANT(kv_feed_take(&feed, key, 3, value, sizeof value, &item) == KV_TOO_LITTLE_ROOM && item.key_size == 8);
    WANT(kv_feed_take(&feed, key, sizeof key, value, 1, &item) == KV_TOO_LITTLE_ROOM && item.value_size == 2);
    WANT(feed_take(&feed) == KV_OK && shows("app.port", KV_PUT, 1, "80"));
    WANT(feed_take(&feed) == KV_OK && item.kind == KV_MARKER);
    WANT(feed_take(&feed) == KV_OK && item.kind == KV_EMPTY);
    WANT(kv_feed_refresh(&feed, &second, &r) == KV_OK);
    kv_view_close(&second);
    WANT(feed_take(&feed) == KV_OK && shows("app.port", KV_DELETE, 2, NULL));
    WANT(kv_feed_refresh(&feed, &first, &r) == KV_OLDER_VIEW);
    kv_view_close(&first);
    WANT(feed_take(&feed) == KV_OK && shows("app.host", KV_PUT, 4, "h"));
    WANT(feed_take(&feed) == KV_OK && item.kind == KV_EMPTY);
    kv_feed_close(&feed);
    kv_feed_close(&feed);
    WANT(!feed.is_open);
}

static void compacted(void) {
    kv_bucket b = {0};
    kv_status status;
    kv_options latest = {KV_LATEST, 0, false, false};
    uint64_t n = 0, r = 0;
    size_t size = 0;
    WANT(kv_open(&b, B("settings"), &largest) == KV_OK && kv_reach(&b, &n) == KV_OK && n == 0);
    for (int i = 0; i < 5; i++)
        WANT(kv_put(&b, B("a"), B("1"), &r) == KV_OK);
    WANT(kv_compact(&b, 0, &n) == KV_BAD_FLOOR && kv_compact(&b, 6, &n) == KV_BAD_FLOOR && n == 0);
    WANT(kv_reach(&b, &n) == KV_OK && n == 5 && kv_compact(&b, 4, &n) == KV_OK);
    WANT(kv_compact(&b, 3, &n) == KV_BAD_FLOOR);
    WANT(kv_get_status(&b, &status) == KV_OK && status.last == 5 && status.stored == 3 && status.values == 3);
    WANT(kv_watch(&b, B("b"), &latest, &n) == KV_OK && n == 1 && kv_watch(&b, B(">"), &latest, &n) == KV_OK && n == 2);
    WANT(kv_put(&b, B("a"), B("2"), &r) == KV_OK && r == 6 && kv_put(&b, B("c"), B("3"), &r) == KV_OK && r == 7);
    WANT(kv_reach(&b, &n) == KV_OK && n == 5);
    WANT(kv_compact(&b, 6, &n) == KV_WATCH_BEHIND && n == 2);
    WANT(kv_compact(&b, 5, &n) == KV_OK);
    WANT(take(&b, 2) == KV_OK && shows("a", KV_PUT, 5, "1") && take(&b, 2) == KV_OK && item.kind == KV_MARKER);
    WANT(take(&b, 2) == KV_OK && shows("a", KV_PUT, 6, "2"));
    WANT(kv_compact(&b, 7, &n) == KV_WATCH_BEHIND && n == 2 && kv_compact(&b, 6, &n) == KV_OK);
    WANT(take(&b, 2) == KV_OK && shows("c", KV_PUT, 7, "3") && kv_compact(&b, 7, &n) == KV_OK);
    WANT(kv_get_at(&b, B("a"), 4, value, sizeof value, &size, &r) == KV_OK && r == 4);
    WANT(kv_get_at(&b, B("a"), 3, value, sizeof value, &size, &r) == KV_KEY_NOT_FOUND);
    kv_close(&b);
}

static void lagged(void) {
    kv_bucket b = {0};
    kv_view first = {0}, second = {0}, third = {0};
    kv_feed feed = {0}, late = {0};
    kv_options latest = {KV_LATEST, 0, false, false};
    uint64_t r = 0, floor = 0;
    WANT(kv_open(&b, B("settings"), &largest) == KV_OK && kv_put(&b, B("a"), B("1"), &r) == KV_OK);
    WANT(kv_snapshot(&b, &first) == KV_OK && kv_feed_open(&first, B("a"), &latest, &feed) == KV_OK);
    WANT(kv_feed_open(&first, B("b"), &latest, &late) == KV_OK);
    WANT(kv_put(&b, B("a"), B("2"), &r) == KV_OK && kv_put(&b, B("b"), B("3"), &r) == KV_OK);
    WANT(kv_snapshot(&b, &second) == KV_OK && kv_feed_refresh(&feed, &second, &floor) == KV_OK && floor == 0);
    WANT(kv_compact(&b, 2, &floor) == KV_OK && kv_put(&b, B("a"), B("4"), &r) == KV_OK);
    WANT(kv_snapshot(&b, &third) == KV_OK);
    kv_close(&b);
    WANT(kv_feed_refresh(&feed, &third, &floor) == KV_LAGGED && floor == 2);
    floor = 0;
    WANT(kv_feed_refresh(&late, &third, &floor) == KV_LAGGED && floor == 2);
    WANT(kv_feed_refresh(&late, &second, &floor) == KV_OK && kv_feed_refresh(&late, &third, &floor) == KV_OK);
    WANT(feed_take(&late) == KV_OK && item.kind == KV_MARKER && feed_take(&late) == KV_OK && shows("b", KV_PUT, 3, "3"));
    WANT(feed_take(&feed) == KV_OK && shows("a", KV_PUT, 1, "1") && feed_take(&feed) == KV_OK && item.kind == KV_MARKER);
    WANT(kv_feed_refresh(&feed, &third, &floor) == KV_LAGGED);
    WANT(feed_take(&feed) == KV_OK && shows("a", KV_PUT, 2, "2") && feed_take(&feed) == KV_OK && item.kind == KV_EMPTY);
    WANT(kv_feed_refresh(&feed, &third, &floor) == KV_OK && feed_take(&feed) == KV_OK && shows("a", KV_PUT, 4, "4"));
    kv_view_close(&first);
    kv_view_close(&second);
    kv_view_close(&third);
    kv_feed_close(&feed);
    kv_feed_close(&late);
}

static bool named(uint64_t code, const char *name) {
    size_t size = 0;
    return kv_code_name(code, value, sizeof value, &size) == KV_OK && size == strlen(name) && !memcmp(value, name, size);
}

static void names(void) {
    size_t size = 0;
    WANT(named(KV_OUT_OF_MEMORY, "OutOfMemory") && named(KV_BAD_BUCKET, "BadBucket") && named(KV_BAD_CONFIG, "BadConfig"));
    WANT(named(KV_BAD_KEY, "BadKey") && named(KV_BAD_FILTER, "BadFilter") && named(6, "OptionsClash"));
    WANT(named(KV_VALUE_TOO_LARGE, "ValueTooLarge") && named(KV_SEALED, "Sealed"));
    WANT(named(KV_JOURNAL_FULL, "JournalFull") && named(KV_KEY_EXISTS, "KeyExists"));
    WANT(named(KV_WRONG_LAST_REVISION, "WrongLastRevision") && named(KV_KEY_NOT_FOUND, "KeyNotFound"));
    WANT(named(KV_NO_SUCH_WATCH, "NoSuchWatch") && named(KV_TOO_MANY_WATCHES, "TooManyWatches") && named(15, "NoReader"));
    WANT(named(16, "BadCommand") && named(17, "ReadFault") && named(18, "WriteFault") && named(KV_BAD_FLOOR, "BadFloor"));
    WANT(named(KV_WATCH_BEHIND, "WatchBehind") && named(KV_LAGGED, "Lagged") && named(KV_CLOSED, "Closed"));
    WANT(named(KV_FILE_FAULT, "FileFault") && named(KV_FILE_DAMAGED, "FileDamaged"));
    WANT(named(KV_FILE_BUSY, "FileBusy") && named(KV_OTHER_BUCKET, "OtherBucket"));
    WANT(named(KV_TOO_LITTLE_ROOM, "TooLittleRoom") && named(KV_OPEN_ALREADY, "OpenAlready"));
    WANT(named(KV_NO_SUCH_START, "NoSuchStart") && named(KV_OLDER_VIEW, "OlderView") && named(KV_NO_SUCH_CODE, "NoSuchCode"));
    WANT(kv_code_name(KV_BAD_KEY, value, 5, &size) == KV_TOO_LITTLE_ROOM && size == 6);
    WANT(kv_code_name(KV_OK, value, sizeof value, &size) == KV_NO_SUCH_CODE);
    WANT(kv_code_name(26, value, sizeof value, &size) == KV_NO_SUCH_CODE);
    WANT(kv_code_name(UINT64_MAX, value, sizeof value, &size) == KV_NO_SUCH_CODE);
}

/* An item without a key, of the put of "123" that is the second entry of "app.port". */
static bool tells_second(void) {
    return item.kind == KV_ENTRY && item.op == KV_PUT && item.revision == 2 && item.key_size == 0 && item.size == 3 &&
           item.value_size == 3 && item.has_value && told.count == 2;
}

static void reads_want_room(kv_bucket *b, kv_view *view) {
    WANT(LITTLE(kv_get(b, B("app.port"), value, 2, &told.size, &told.number)) && told.size == 3 && told.number == 2);
    WANT(FILLS(kv_get(b, B("app.port"), value, 3, &told.size, &told.number), 3) && told.size == 3 && told.number == 2);
    WANT(LITTLE(kv_get_at(b, B("app.port"), 1, value, 1, &told.size, &told.number)));
    WANT(told.size == 2 && told.number == 1);
    WANT(FILLS(kv_get_at(b, B("app.port"), 1, value, 2, &told.size, &told.number), 2) && told.size == 2);
    WANT(LITTLE(kv_history(b, B("app.port"), 1, value, 2, &item, &told.count)) && tells_second());
    WANT(FILLS(kv_history(b, B("app.port"), 1, value, 3, &item, &told.count), 3) && tells_second());
    WANT(LITTLE(kv_keys(b, B("app.*"), value, 17, &told.size, &told.count)) && told.size == 18 && told.count == 2);
    WANT(FILLS(kv_keys(b, B("app.*"), value, 18, &told.size, &told.count), 18) && told.size == 18 && told.count == 2);
    WANT(LITTLE(kv_view_get(view, B("app.port"), value, 2, &told.size, &told.number)));
    WANT(told.size == 3 && told.number == 2);
    WANT(FILLS(kv_view_get(view, B("app.port"), value, 3, &told.size, &told.number), 3) && told.size == 3);
    WANT(LITTLE(kv_view_get_at(view, B("app.port"), 1, value, 0, &told.size, &told.number)));
    WANT(told.size == 2 && told.number == 1);
    WANT(FILLS(kv_view_get_at(view, B("app.port"), 1, value, 2, &told.size, &told.number), 2) && told.size == 2);
    WANT(LITTLE(kv_view_history(view, B("app.port"), 1, value, 0, &item, &told.count)) && tells_second());
    WANT(FILLS(kv_view_history(view, B("app.port"), 1, value, 3, &item, &told.count), 3) && tells_second());
    WANT(LITTLE(kv_view_keys(view, B("app.*"), value, 0, &told.size, &told.count)) && told.size == 18 && told.count == 2);
    WANT(FILLS(kv_view_keys(view, B("app.*"), value, 18, &told.size, &told.count), 18) && told.count == 2);
    WANT(LITTLE(kv_code_name(KV_BAD_KEY, value, 5, &told.size)) && told.size == 6);
    WANT(FILLS(kv_code_name(KV_BAD_KEY, value, 6, &told.size), 6) && told.size == 6);
    WANT(LITTLE(kv_code_name(KV_CLOSED, value, 0, &told.size)) && told.size == 6);
    WANT(FILLS(kv_code_name(KV_CLOSED, value, 6, &told.size), 6) && told.size == 6);
}

/* The sizes of "app.port" and "123". */
static bool tells_sizes(void) {
    return item.key_size == 8 && item.value_size == 3;
}

static void takes_want_room(kv_bucket *b, kv_feed *feed) {
    WANT(LITTLE(kv_take(b, 1, key, 7, value, sizeof value, &item)) && tells_sizes());
    WANT(LITTLE(kv_take(b, 1, key, sizeof key, value, 2, &item)) && tells_sizes());
    WANT(FILLS(kv_take(b, 1, key, 8, value, 3, &item), 3) && tells_sizes() && marked(key + 8, sizeof key - 8));
    WANT(LITTLE(kv_feed_take(feed, key, 7, value, sizeof value, &item)) && tells_sizes());
    WANT(LITTLE(kv_feed_take(feed, key, sizeof key, value, 2, &item)) && tells_sizes());
    WANT(FILLS(kv_feed_take(feed, key, 8, value, 3, &item), 3) && tells_sizes() && marked(key + 8, sizeof key - 8));
}

static void wanted(void) {
    kv_bucket b = {0};
    kv_view view = {0};
    kv_feed feed = {0};
    kv_options latest = {KV_LATEST, 0, false, false};
    uint64_t n = 0;
    WANT(kv_open(&b, B("settings"), &largest) == KV_OK && kv_put(&b, B("app.port"), B("12"), &n) == KV_OK);
    WANT(kv_put(&b, B("app.port"), B("123"), &n) == KV_OK && kv_put(&b, B("app.host"), B("h"), &n) == KV_OK);
    WANT(kv_watch(&b, B("app.port"), &latest, &n) == KV_OK && n == 1 && kv_snapshot(&b, &view) == KV_OK);
    WANT(kv_feed_open(&view, B("app.port"), &latest, &feed) == KV_OK);
    reads_want_room(&b, &view);
    takes_want_room(&b, &feed);
    kv_feed_close(&feed);
    kv_view_close(&view);
    kv_close(&b);
}

static void reads_are_refused(kv_bucket *b, kv_view *view) {
    WANT(REFUSED(kv_get(b, B("no"), value, sizeof value, &told.size, &told.number), KV_KEY_NOT_FOUND));
    WANT(REFUSED(kv_get(b, B("n o"), value, sizeof value, &told.size, &told.number), KV_BAD_KEY));
    WANT(REFUSED(kv_get_at(b, B("a"), 9, value, sizeof value, &told.size, &told.number), KV_KEY_NOT_FOUND));
    WANT(REFUSED(kv_history(b, B("no"), 0, value, sizeof value, &item, &told.count), KV_KEY_NOT_FOUND));
    WANT(REFUSED(kv_keys(b, B("n o"), value, sizeof value, &told.size, &told.count), KV_BAD_FILTER));
    WANT(REFUSED(kv_view_get(view, B("no"), value, sizeof value, &told.size, &told.number), KV_KEY_NOT_FOUND));
    WANT(REFUSED(kv_view_get_at(view, B("a"), 9, value, sizeof value, &told.size, &told.number), KV_KEY_NOT_FOUND));
    WANT(REFUSED(kv_view_history(view, B("n o"), 0, value, sizeof value, &item, &told.count), KV_BAD_KEY));
    WANT(REFUSED(kv_view_keys(view, B("n o"), value, sizeof value, &told.size, &told.count), KV_BAD_FILTER));
    WANT(REFUSED(kv_code_name(26, value, sizeof value, &told.size), KV_NO_SUCH_CODE));
}

static void writes_are_refused(kv_bucket *b) {
    WANT(REFUSED(kv_put(b, B("n o"), B("1"), &told.number), KV_BAD_KEY));
    WANT(REFUSED(kv_put(b, B("a"), B("123"), &told.number), KV_VALUE_TOO_LARGE));
    WANT(REFUSED(kv_create(b, B("a"), B("1"), &told.number), KV_KEY_EXISTS));
    WANT(TELLS(kv_update(b, B("a"), B("1"), 9, &told.number), KV_WRONG_LAST_REVISION, 1));
    WANT(TELLS(kv_delete(b, B("a"), true, 9, &told.number), KV_WRONG_LAST_REVISION, 1));
    WANT(TELLS(kv_purge(b, B("a"), true, 9, &told.number), KV_WRONG_LAST_REVISION, 1));
    WANT(REFUSED(kv_update(b, B("n o"), B("1"), 9, &told.number), KV_BAD_KEY));
    WANT(REFUSED(kv_delete(b, B("n o"), true, 9, &told.number), KV_BAD_KEY));
    WANT(REFUSED(kv_purge(b, B("n o"), true, 9, &told.number), KV_BAD_KEY));
}

static void watches_are_refused(kv_bucket *b) {
    kv_options latest = {KV_LATEST, 0, false, false}, other = {4, 0, false, false};
    uint64_t n = 0;
    WANT(REFUSED(kv_watch(b, B("n o"), &latest, &told.number), KV_BAD_FILTER));
    WANT(REFUSED(kv_watch(b, B("a"), &other, &told.number), KV_NO_SUCH_START));
    WANT(REFUSED(kv_take(b, 9, key, sizeof key, value, sizeof value, &item), KV_NO_SUCH_WATCH));
    WANT(REFUSED(kv_stop(b, 9, &told.number), KV_NO_SUCH_WATCH));
    WANT(REFUSED(kv_compact(b, 9, &told.number), KV_BAD_FLOOR));
    WANT(kv_watch(b, B("a"), &latest, &n) == KV_OK && n == 1 && kv_put(b, B("a"), B("2"), &n) == KV_OK && n == 2);
    WANT(TELLS(kv_compact(b, 2, &told.number), KV_WATCH_BEHIND, 1));
    WANT((mark(), kv_compact(b, 1, &told.number) == KV_OK) && NOTHING_TOLD);
}

static void refreshes_are_refused(kv_bucket *b, kv_view *view) {
    kv_options latest = {KV_LATEST, 0, false, false};
    kv_view later = {0};
    kv_feed feed = {0}, ahead = {0};
    uint64_t n = 0;
    WANT(kv_feed_open(view, B("a"), &latest, &feed) == KV_OK);
    WANT(take(b, 1) == KV_OK && take(b, 1) == KV_OK && take(b, 1) == KV_OK && shows("a", KV_PUT, 2, "2"));
    WANT(kv_compact(b, 2, &n) == KV_OK && kv_snapshot(b, &later) == KV_OK);
    WANT(TELLS(kv_feed_refresh(&feed, &later, &told.number), KV_LAGGED, 2));
    WANT((mark(), kv_feed_refresh(&feed, view, &told.number) == KV_OK) && NOTHING_TOLD);
    WANT(kv_feed_open(&later, B("a"), &latest, &ahead) == KV_OK);
    WANT(REFUSED(kv_feed_refresh(&ahead, view, &told.number), KV_OLDER_VIEW));
    kv_feed_close(&ahead);
    kv_feed_close(&feed);
    kv_view_close(&later);
}

static void closed_ones_tell_nothing(kv_bucket *b, kv_view *view, kv_feed *feed) {
    kv_options latest = {KV_LATEST, 0, false, false};
    kv_status status, before;
    memset(&status, MARK, sizeof status);
    memset(&before, MARK, sizeof before);
    WANT(kv_get_status(b, &status) == KV_CLOSED && kv_view_get_status(view, &status) == KV_CLOSED);
    WANT(!memcmp(&status, &before, sizeof status));
    WANT(REFUSED(kv_put(b, B("a"), B("1"), &told.number), KV_CLOSED));
    WANT(REFUSED(kv_get(b, B("a"), value, sizeof value, &told.size, &told.number), KV_CLOSED));
    WANT(REFUSED(kv_history(b, B("a"), 0, value, sizeof value, &item, &told.count), KV_CLOSED));
    WANT(REFUSED(kv_keys(b, B(">"), value, sizeof value, &told.size, &told.count), KV_CLOSED));
    WANT(REFUSED(kv_watch(b, B(">"), &latest, &told.number), KV_CLOSED));
    WANT(REFUSED(kv_take(b, 1, key, sizeof key, value, sizeof value, &item), KV_CLOSED));
    WANT(REFUSED(kv_feed_take(feed, key, sizeof key, value, sizeof value, &item), KV_CLOSED));
    WANT(REFUSED(kv_stop(b, 1, &told.number), KV_CLOSED) && REFUSED(kv_compact(b, 1, &told.number), KV_CLOSED));
    WANT(REFUSED(kv_reach(b, &told.number), KV_CLOSED) && REFUSED(kv_feed_refresh(feed, view, &told.number), KV_CLOSED));
}

static void refused(void) {
    kv_bucket b = {0};
    kv_view view = {0};
    kv_feed feed = {0};
    kv_limits small = {3, 2, 6, 100};
    uint64_t n = 0;
    closed_ones_tell_nothing(&b, &view, &feed);
    WANT(kv_open(&b, B("settings"), &small) == KV_OK && kv_put(&b, B("a"), B("1"), &n) == KV_OK);
    WANT(kv_snapshot(&b, &view) == KV_OK);
    reads_are_refused(&b, &view);
    writes_are_refused(&b);
    watches_are_refused(&b);
    refreshes_are_refused(&b, &view);
    kv_view_close(&view);
    kv_close(&b);
}

int main(void) {
    layout();
    closed();
    opened();
    written();
    written_at_once();
    refused_at_once();
    not_gathered();
    kept();
    watched();
    listed();
    seen();
    fed();
    fed_by_another();
    compacted();
    lagged();
    names();
    wanted();
    refused();
    puts("each function and each code: as the header says");
    return 0;
}
