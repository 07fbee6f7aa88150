/* Each function of vilgoued_shared.h and each refusal once, on one thread; what is told with too little room, and what
 * a refused call leaves as it was. */
#include "marking.h"
#include "vilgoued_shared.h"
#include <fcntl.h>
#include <poll.h>
#include <sys/resource.h>
#include <unistd.h>

static const kv_limits largest = {3, 1048576, 1000000, 4294967295};
static const kv_options latest = {KV_LATEST, 0, false, false}, updates = {KV_UPDATES, 0, false, false};
static const kv_options no_start = {4, 0, false, false};

/* What a call tells beside its item. */
static struct {
    uint64_t number, floor;
    size_t size, count;
    kv_status status;
} told;

static void mark(void) {
    mark_all(&told, sizeof told);
}

/* A call that is refused has copied nothing and told nothing. */
#define REFUSED(call, code)                                                                                            \
    (mark(), (call) == (code) && nothing_copied() && marked(&item, sizeof item) && marked(&told, sizeof told))

/* One that tells a number with its refusal has copied nothing. */
#define TELLS(call, code, number, n) (mark(), (call) == (code) && nothing_copied() && told.number == (n))

/* Where there is too little room nothing is copied. What is told is looked at behind it. */
#define LITTLE(call) (mark(), (call) == KV_TOO_LITTLE_ROOM && nothing_copied())

#define OK(call) (mark(), (call) == KV_OK)

static uint64_t next(kv_follower *f, uint64_t milliseconds) {
    return kv_follower_next(f, milliseconds, key, sizeof key, value, sizeof value, &item, &told.floor);
}

static bool shows(const char *k, uint32_t op, uint64_t revision, const char *v) {
    return item.kind == KV_ENTRY && item.op == op && item.revision == revision && item.key_size == strlen(k) &&
           !memcmp(key, k, item.key_size) && item.has_value == (v != NULL) && item.value_size == (v ? strlen(v) : 0) &&
           (!v || !memcmp(value, v, item.value_size));
}

static bool hands(kv_follower *f, const char *k, uint32_t op, uint64_t revision, const char *v) {
    return OK(next(f, 0)) && shows(k, op, revision, v);
}

static bool hands_kind(kv_follower *f, uint32_t kind) {
    return OK(next(f, 0)) && item.kind == kind;
}

static bool is_readable(int fd) {
    struct pollfd wanted = {fd, POLLIN, 0};
    return poll(&wanted, 1, 0) == 1 && wanted.revents == POLLIN;
}

static bool puts_one(kv_shared *b, const char *k, const char *v, uint64_t revision) {
    uint64_t given = 0;
    return kv_shared_put(b, B(k), B(v), &given) == KV_OK && given == revision;
}

static void layout(void) {
    WANT(sizeof(kv_shared) == 16 && offsetof(kv_shared, state) == 0 && offsetof(kv_shared, at) == 8);
    WANT(sizeof(kv_reader) == 16 && offsetof(kv_reader, is_open) == 0 && offsetof(kv_reader, at) == 8);
    WANT(sizeof(kv_watcher) == 16 && offsetof(kv_watcher, is_open) == 0 && offsetof(kv_watcher, at) == 8);
    WANT(sizeof(kv_follower) == 16 && offsetof(kv_follower, is_open) == 0 && offsetof(kv_follower, at) == 8);
}

/* With these closed handles each call is refused and tells nothing. */
static void are_closed(kv_shared *b, kv_reader *r, kv_follower *f) {
    kv_view view = {0};
    kv_reader another = {0};
    kv_follower second = {0};
    kv_batch batch = {0};
    int fd = -7;
    WANT(REFUSED(kv_shared_put(b, B("n o"), B("1"), &told.number), KV_CLOSED));
    WANT(REFUSED(kv_shared_create(b, B("a"), B("1"), &told.number), KV_CLOSED));
    WANT(REFUSED(kv_shared_update(b, B("a"), B("1"), 0, &told.number), KV_CLOSED));
    WANT(REFUSED(kv_shared_delete(b, B("a"), false, 0, &told.number), KV_CLOSED));
    WANT(REFUSED(kv_shared_purge(b, B("a"), false, 0, &told.number), KV_CLOSED));
    WANT(kv_shared_seal(b) == KV_CLOSED && kv_shared_finish(b) == KV_CLOSED);
    WANT(REFUSED(kv_shared_write_all(b, &batch, &told.number, &told.size), KV_CLOSED));
    WANT(REFUSED(kv_shared_compact(b, 1, &told.number), KV_CLOSED));
    WANT(REFUSED(kv_shared_reach(b, &told.number), KV_CLOSED));
    WANT(REFUSED(kv_shared_get(b, B("a"), value, sizeof value, &told.size, &told.number), KV_CLOSED));
    WANT(REFUSED(kv_shared_get_at(b, B("a"), 1, value, sizeof value, &told.size, &told.number), KV_CLOSED));
    WANT(REFUSED(kv_shared_history(b, B("a"), 0, value, sizeof value, &item, &told.count), KV_CLOSED));
    WANT(REFUSED(kv_shared_keys(b, B(">"), value, sizeof value, &told.size, &told.count), KV_CLOSED));
    WANT(REFUSED(kv_shared_get_status(b, &told.status), KV_CLOSED));
    WANT(kv_shared_snapshot(b, &view) == KV_CLOSED && !view.is_open);
    WANT(REFUSED(kv_shared_watch(b, B("n o"), &no_start, &told.number), KV_CLOSED));
    WANT(REFUSED(kv_shared_take(b, 1, key, sizeof key, value, sizeof value, &item), KV_CLOSED));
    WANT(REFUSED(kv_shared_stop(b, 1, &told.number), KV_CLOSED));
    WANT(kv_reader_open(b, &another) == KV_CLOSED && !another.is_open);
    WANT(kv_follower_open(b, B("n o"), &no_start, &second) == KV_CLOSED && !second.is_open);
    WANT(REFUSED(kv_reader_get(r, B("a"), value, sizeof value, &told.size, &told.number), KV_CLOSED));
    WANT(REFUSED(kv_reader_get_at(r, B("a"), 1, value, sizeof value, &told.size, &told.number), KV_CLOSED));
    WANT(REFUSED(kv_reader_history(r, B("a"), 0, value, sizeof value, &item, &told.count), KV_CLOSED));
    WANT(REFUSED(kv_reader_keys(r, B(">"), value, sizeof value, &told.size, &told.count), KV_CLOSED));
    WANT(REFUSED(kv_reader_get_status(r, &told.status), KV_CLOSED));
    WANT(REFUSED(next(f, KV_FOREVER), KV_CLOSED));
    WANT(kv_follower_fd(f, &fd) == KV_CLOSED && fd == -7 && kv_follower_stop(f) == KV_CLOSED);
}

static void closed(void) {
    kv_shared b = {0};
    kv_reader r = {0};
    kv_follower f = {0};
    are_closed(&b, &r, &f);
    kv_shared_close(&b);
    kv_reader_close(&r);
    kv_follower_close(&f);
    WANT(b.state == 0 && !b.at && !r.is_open && !f.is_open);
}

static void opened(void) {
    static const kv_limits none = {0, 0, 1, 1};
    kv_shared b = {0};
    kv_reader r = {0};
    kv_follower f = {0};
    WANT(kv_shared_open(&b, B("bad name"), &largest) == KV_BAD_BUCKET && b.state == 0);
    WANT(kv_shared_open(&b, B("settings"), &none) == KV_BAD_CONFIG && b.state == 0);
    WANT(kv_shared_open(&b, B("settings"), &largest) == KV_OK);
    WANT(kv_shared_open(&b, B("bad name"), &largest) == KV_OPEN_ALREADY);
    WANT(kv_reader_open(&b, &r) == KV_OK && kv_reader_open(&b, &r) == KV_OPEN_ALREADY);
    WANT(kv_follower_open(&b, B("n o"), &no_start, &f) == KV_NO_SUCH_START && !f.is_open);
    WANT(kv_follower_open(&b, B("n o"), &latest, &f) == KV_BAD_FILTER && !f.is_open);
    WANT(kv_follower_open(&b, B(">"), &latest, &f) == KV_OK);
    WANT(kv_follower_open(&b, B("n o"), &no_start, &f) == KV_OPEN_ALREADY && f.is_open);
    kv_reader_close(&r);
    kv_follower_close(&f);
    WANT(!r.is_open && !f.is_open);
    kv_reader_close(&r);
    kv_follower_close(&f);
    kv_shared_close(&b);
    kv_shared_close(&b);
    WANT(b.state == 0 && !b.at);
    WANT(kv_shared_open(&b, B("settings"), &largest) == KV_OK && puts_one(&b, "a", "1", 1));
    kv_shared_close(&b);
}

static void written(void) {
    static const kv_limits small = {3, 2, 7, 100};
    kv_shared b = {0};
    WANT(kv_shared_open(&b, B("settings"), &small) == KV_OK);
    WANT(OK(kv_shared_put(&b, B("a"), B("1"), &told.number)) && told.number == 1);
    WANT(REFUSED(kv_shared_put(&b, B("n o"), B("1"), &told.number), KV_BAD_KEY));
    WANT(REFUSED(kv_shared_put(&b, B("a"), B("123"), &told.number), KV_VALUE_TOO_LARGE));
    WANT(OK(kv_shared_create(&b, B("b"), B("2"), &told.number)) && told.number == 2);
    WANT(REFUSED(kv_shared_create(&b, B("a"), B("1"), &told.number), KV_KEY_EXISTS));
    WANT(OK(kv_shared_update(&b, B("a"), B("3"), 1, &told.number)) && told.number == 3);
    WANT(TELLS(kv_shared_update(&b, B("a"), B("4"), 1, &told.number), KV_WRONG_LAST_REVISION, number, 3));
    WANT(TELLS(kv_shared_delete(&b, B("a"), true, 1, &told.number), KV_WRONG_LAST_REVISION, number, 3));
    WANT(TELLS(kv_shared_purge(&b, B("a"), true, 1, &told.number), KV_WRONG_LAST_REVISION, number, 3));
    WANT(OK(kv_shared_delete(&b, B("b"), false, 0, &told.number)) && told.number == 4);
    WANT(OK(kv_shared_purge(&b, B("b"), true, 4, &told.number)) && told.number == 5);
    WANT(REFUSED(kv_shared_delete(&b, B("n o"), false, 0, &told.number), KV_BAD_KEY));
    WANT(REFUSED(kv_shared_purge(&b, B("n o"), false, 0, &told.number), KV_BAD_KEY));
    WANT(puts_one(&b, "a", "6", 6) && puts_one(&b, "a", "7", 7));
    WANT(REFUSED(kv_shared_put(&b, B("a"), B("8"), &told.number), KV_JOURNAL_FULL));
    WANT(kv_shared_seal(&b) == KV_OK && kv_shared_seal(&b) == KV_OK);
    WANT(REFUSED(kv_shared_put(&b, B("a"), B("8"), &told.number), KV_SEALED));
    WANT(OK(kv_shared_get_status(&b, &told.status)) && told.status.last == 7 && told.status.sealed);
    kv_shared_close(&b);
}

static void written_at_once(void) {
    static const kv_limits small = {3, 2, 7, 100};
    kv_shared b = {0};
    kv_batch batch = {0};
    kv_reader r = {0};
    kv_follower f = {0};
    int fd = -1;
    WANT(kv_shared_open(&b, B("settings"), &small) == KV_OK && kv_follower_open(&b, B(">"), &updates, &f) == KV_OK);
    WANT(kv_reader_open(&b, &r) == KV_OK && kv_follower_fd(&f, &fd) == KV_OK && hands_kind(&f, KV_EMPTY));
    WANT((mark(), kv_shared_write_all(&b, &batch, &told.number, &told.size) == KV_OK && told.number == 0));
    WANT(marked(&told.size, sizeof told.size) && !is_readable(fd));
    WANT(kv_batch_put(&batch, B("a"), B("1")) == KV_OK && kv_batch_put(&batch, B("b"), B("2")) == KV_OK);
    WANT(kv_batch_update(&batch, B("a"), B("3"), 1) == KV_OK);
    WANT((mark(), kv_shared_write_all(&b, &batch, &told.number, &told.size) == KV_OK && told.number == 1));
    WANT(marked(&told.size, sizeof told.size) && !batch.is_open && is_readable(fd));
    WANT(hands(&f, "a", KV_PUT, 1, "1") && hands(&f, "b", KV_PUT, 2, "2") && hands(&f, "a", KV_PUT, 3, "3"));
    WANT(hands_kind(&f, KV_EMPTY) && OK(kv_reader_get(&r, B("a"), value, 1, &told.size, &told.number)));
    WANT(told.number == 3 && OK(kv_shared_reach(&b, &told.number)) && told.number == 3 && puts_one(&b, "a", "4", 4));
    WANT(kv_batch_put(&batch, B("a"), B("5")) == KV_OK && kv_batch_delete(&batch, B("b"), true, 3) == KV_OK);
    WANT(TELLS(kv_shared_write_all(&b, &batch, &told.number, &told.size), KV_WRONG_LAST_REVISION, number, 2));
    WANT(told.size == 1 && batch.is_open && OK(kv_shared_get_status(&b, &told.status)) && told.status.last == 4);
    kv_batch_close(&batch);
    for (int i = 0; i < 4; i++)
        WANT(kv_batch_put(&batch, B("a"), B("5")) == KV_OK);
    WANT(TELLS(kv_shared_write_all(&b, &batch, &told.number, &told.size), KV_JOURNAL_FULL, size, 3));
    WANT(marked(&told.number, sizeof told.number) && hands(&f, "a", KV_PUT, 4, "4") && hands_kind(&f, KV_EMPTY));
    kv_batch_close(&batch);
    kv_follower_close(&f);
    kv_reader_close(&r);
    kv_shared_close(&b);
}

/* An item without a key, of the put of "123" that is the second entry of "app.port". */
static bool tells_second(void) {
    return item.kind == KV_ENTRY && item.op == KV_PUT && item.revision == 2 && item.key_size == 0 && item.size == 3 &&
           item.value_size == 3 && item.has_value && told.count == 2;
}

/* Reads by calls whose names begin with `kind`, of a bucket or a reader, which knows so many held watches. */
#define READ(kind, of, held)                                                                                             \
    do {                                                                                                                 \
        WANT(OK(kind##_get(of, B("app.port"), value, 3, &told.size, &told.number)) && told.size == 3);                   \
        WANT(told.number == 2 && !memcmp(value, "123", 3) && marked(value + 3, sizeof value - 3));                       \
        WANT(LITTLE(kind##_get(of, B("app.port"), value, 2, &told.size, &told.number)) && told.size == 3);               \
        WANT(told.number == 2);                                                                                          \
        WANT(REFUSED(kind##_get(of, B("no"), value, sizeof value, &told.size, &told.number), KV_KEY_NOT_FOUND));         \
        WANT(REFUSED(kind##_get(of, B("n o"), value, sizeof value, &told.size, &told.number), KV_BAD_KEY));              \
        WANT(OK(kind##_get_at(of, B("app.port"), 1, value, 2, &told.size, &told.number)) && told.size == 2);             \
        WANT(told.number == 1 && !memcmp(value, "12", 2));                                                               \
        WANT(LITTLE(kind##_get_at(of, B("app.port"), 1, value, 1, &told.size, &told.number)) && told.size == 2);         \
        WANT(REFUSED(kind##_get_at(of, B("a"), 9, value, sizeof value, &told.size, &told.number), KV_KEY_NOT_FOUND));    \
        WANT(OK(kind##_history(of, B("app.port"), 1, value, 3, &item, &told.count)) && tells_second());                  \
        WANT(LITTLE(kind##_history(of, B("app.port"), 1, value, 2, &item, &told.count)) && tells_second());              \
        WANT(REFUSED(kind##_history(of, B("no"), 0, value, sizeof value, &item, &told.count), KV_KEY_NOT_FOUND));        \
        WANT(OK(kind##_keys(of, B("app.*"), value, 18, &told.size, &told.count)) && told.size == 18 && told.count == 2); \
        WANT(!memcmp(value, "app.port\0app.host", 18));                                                                  \
        WANT(LITTLE(kind##_keys(of, B("app.*"), value, 17, &told.size, &told.count)) && told.size == 18);                \
        WANT(REFUSED(kind##_keys(of, B("n o"), value, sizeof value, &told.size, &told.count), KV_BAD_FILTER));           \
        WANT(OK(kind##_get_status(of, &told.status)) && told.status.history == 3 && told.status.last == 3);              \
        WANT(told.status.stored == 3 && told.status.values == 3 && told.status.watches == held && !told.status.sealed);  \
    } while (0)

static void are_read(void) {
    kv_shared b = {0};
    kv_reader r = {0};
    kv_view view = {0};
    WANT(kv_shared_open(&b, B("settings"), &largest) == KV_OK && kv_reader_open(&b, &r) == KV_OK);
    WANT(puts_one(&b, "app.port", "12", 1) && puts_one(&b, "app.port", "123", 2) && puts_one(&b, "app.host", "h", 3));
    WANT(OK(kv_shared_watch(&b, B("x"), &latest, &told.number)) && told.number == 1);
    READ(kv_shared, &b, 1);
    READ(kv_reader, &r, 0);
    WANT(kv_shared_snapshot(&b, &view) == KV_OK && kv_shared_snapshot(&b, &view) == KV_OPEN_ALREADY);
    WANT(puts_one(&b, "app.host", "i", 4));
    WANT(OK(kv_reader_get(&r, B("app.host"), value, 1, &told.size, &told.number)) && told.number == 4);
    WANT(value[0] == 'i');
    kv_shared_close(&b);
    WANT(OK(kv_view_get(&view, B("app.host"), value, 1, &told.size, &told.number)) && told.number == 3);
    kv_view_close(&view);
    kv_reader_close(&r);
}

static void watched(void) {
    kv_shared b = {0};
    WANT(kv_shared_open(&b, B("settings"), &largest) == KV_OK && puts_one(&b, "app.port", "80", 1));
    WANT(REFUSED(kv_shared_watch(&b, B("n o"), &no_start, &told.number), KV_NO_SUCH_START));
    WANT(REFUSED(kv_shared_watch(&b, B("n o"), &latest, &told.number), KV_BAD_FILTER));
    WANT(OK(kv_shared_watch(&b, B("app.>"), &latest, &told.number)) && told.number == 1);
    WANT(REFUSED(kv_shared_take(&b, 2, key, sizeof key, value, sizeof value, &item), KV_NO_SUCH_WATCH));
    WANT(LITTLE(kv_shared_take(&b, 1, key, 7, value, sizeof value, &item)) && item.key_size == 8);
    WANT(OK(kv_shared_take(&b, 1, key, 8, value, 2, &item)) && shows("app.port", KV_PUT, 1, "80"));
    WANT(REFUSED(kv_shared_stop(&b, 2, &told.number), KV_NO_SUCH_WATCH));
    WANT(OK(kv_shared_stop(&b, 1, &told.number)) && told.number == 1);
    for (int i = 0; i < 64; i++)
        WANT(kv_shared_watch(&b, B(">"), &latest, &told.number) == KV_OK);
    WANT(REFUSED(kv_shared_watch(&b, B(">"), &latest, &told.number), KV_TOO_MANY_WATCHES));
    kv_shared_close(&b);
}

static void followed(void) {
    kv_shared b = {0};
    kv_follower f = {0}, late = {0};
    WANT(kv_shared_open(&b, B("settings"), &largest) == KV_OK && puts_one(&b, "app.port", "80", 1));
    WANT(kv_follower_open(&b, B("app.>,db.*"), &latest, &f) == KV_OK);
    WANT(puts_one(&b, "db.port", "1", 2) && puts_one(&b, "x", "2", 3));
    WANT(kv_follower_open(&b, B(">"), &updates, &late) == KV_OK);
    WANT(LITTLE(kv_follower_next(&f, 0, key, 7, value, sizeof value, &item, &told.floor)) && item.key_size == 8);
    WANT(LITTLE(kv_follower_next(&f, 0, key, sizeof key, value, 1, &item, &told.floor)) && item.value_size == 2);
    WANT(OK(kv_follower_next(&f, 0, key, 8, value, 2, &item, &told.floor)) && shows("app.port", KV_PUT, 1, "80"));
    WANT(marked(key + 8, sizeof key - 8) && marked(value + 2, sizeof value - 2));
    WANT(hands_kind(&f, KV_MARKER) && hands(&f, "db.port", KV_PUT, 2, "1") && hands_kind(&f, KV_EMPTY));
    WANT(nothing_copied() && marked(&told, sizeof told));
    WANT(hands_kind(&late, KV_EMPTY) && kv_shared_delete(&b, B("app.port"), false, 0, &told.number) == KV_OK);
    WANT(LITTLE(kv_follower_next(&f, 0, key, 7, value, 0, &item, &told.floor)) && item.key_size == 8);
    WANT(hands(&f, "app.port", KV_DELETE, 4, NULL) && hands(&late, "app.port", KV_DELETE, 4, NULL));
    WANT(kv_shared_seal(&b) == KV_OK && hands_kind(&f, KV_EMPTY));
    kv_follower_close(&late);
    kv_follower_close(&f);
    kv_shared_close(&b);
}

static void finished(void) {
    kv_shared b = {0};
    kv_follower f = {0}, late = {0};
    kv_reader r = {0};
    WANT(kv_shared_open(&b, B("settings"), &largest) == KV_OK && kv_follower_open(&b, B(">"), &updates, &f) == KV_OK);
    WANT(kv_reader_open(&b, &r) == KV_OK);
    WANT(puts_one(&b, "a", "1", 1) && kv_shared_finish(&b) == KV_OK && kv_shared_finish(&b) == KV_OK);
    WANT(hands(&f, "a", KV_PUT, 1, "1") && REFUSED(next(&f, KV_FOREVER), KV_CLOSED));
    WANT(puts_one(&b, "a", "2", 2) && hands(&f, "a", KV_PUT, 2, "2") && REFUSED(next(&f, KV_FOREVER), KV_CLOSED));
    WANT(OK(kv_reader_get(&r, B("a"), value, sizeof value, &told.size, &told.number)) && told.number == 2);
    WANT(kv_follower_open(&b, B(">"), &latest, &late) == KV_OK && hands(&late, "a", KV_PUT, 2, "2"));
    WANT(hands_kind(&late, KV_MARKER) && REFUSED(next(&late, KV_FOREVER), KV_CLOSED));
    kv_follower_close(&late);
    kv_follower_close(&f);
    kv_reader_close(&r);
    kv_shared_close(&b);
}

static void stopped(void) {
    kv_shared b = {0};
    kv_follower f = {0}, other = {0};
    int fd = -1, of_other = -1;
    WANT(kv_shared_open(&b, B("settings"), &largest) == KV_OK && kv_follower_open(&b, B(">"), &updates, &f) == KV_OK);
    WANT(kv_follower_open(&b, B(">"), &updates, &other) == KV_OK);
    WANT(kv_follower_fd(&f, &fd) == KV_OK && kv_follower_fd(&other, &of_other) == KV_OK);
    WANT(hands_kind(&f, KV_EMPTY) && hands_kind(&other, KV_EMPTY) && !is_readable(fd) && !is_readable(of_other));
    WANT(kv_follower_stop(&f) == KV_OK && is_readable(fd) && !is_readable(of_other));
    WANT(puts_one(&b, "a", "1", 1) && REFUSED(next(&f, KV_FOREVER), KV_CLOSED));
    WANT(kv_follower_stop(&f) == KV_OK && hands(&other, "a", KV_PUT, 1, "1"));
    kv_follower_close(&f);
    kv_follower_close(&other);
    kv_shared_close(&b);
}

static void compacted(void) {
    kv_shared b = {0};
    kv_follower f = {0}, behind = {0};
    kv_reader r = {0};
    WANT(kv_shared_open(&b, B("settings"), &largest) == KV_OK && OK(kv_shared_reach(&b, &told.number)));
    WANT(told.number == 0 && kv_follower_open(&b, B(">"), &updates, &f) == KV_OK && kv_reader_open(&b, &r) == KV_OK);
    for (uint64_t i = 1; i <= 5; i++)
        WANT(puts_one(&b, "a", "1", i));
    WANT(REFUSED(kv_shared_compact(&b, 0, &told.number), KV_BAD_FLOOR));
    WANT(REFUSED(kv_shared_compact(&b, 6, &told.number), KV_BAD_FLOOR));
    /* The follower began with no revision. */
    WANT(OK(kv_shared_reach(&b, &told.number)) && told.number == 0);
    WANT(kv_follower_open(&b, B(">"), &updates, &behind) == KV_OK && puts_one(&b, "a", "1", 6));
    for (uint64_t i = 1; i <= 6; i++)
        WANT(hands(&f, "a", KV_PUT, i, "1"));
    /* Nor has the reader gone on from none. */
    WANT(OK(kv_shared_reach(&b, &told.number)) && told.number == 0);
    WANT(OK(kv_reader_get(&r, B("a"), value, sizeof value, &told.size, &told.number)) && told.number == 6);
    WANT(OK(kv_shared_reach(&b, &told.number)) && told.number == 5);
    WANT((mark(), kv_shared_compact(&b, 5, &told.number) == KV_OK && marked(&told, sizeof told)));
    WANT(hands_kind(&f, KV_EMPTY) && hands(&behind, "a", KV_PUT, 6, "1"));
    WANT(OK(kv_shared_reach(&b, &told.number)) && told.number == 6 && puts_one(&b, "a", "1", 7));
    WANT(hands(&f, "a", KV_PUT, 7, "1") && kv_shared_compact(&b, 7, &told.number) == KV_OK);
    WANT(hands_kind(&f, KV_EMPTY));
    WANT(TELLS(next(&behind, KV_FOREVER), KV_LAGGED, floor, 7) && TELLS(next(&behind, 0), KV_LAGGED, floor, 7));
    /* One that lags, or was stopped, counts no more. */
    WANT(OK(kv_shared_reach(&b, &told.number)) && told.number == 7 && puts_one(&b, "a", "1", 8));
    WANT(kv_follower_stop(&f) == KV_OK && OK(kv_shared_reach(&b, &told.number)) && told.number == 8);
    WANT(OK(kv_shared_watch(&b, B("a"), &updates, &told.number)) && told.number == 1 && puts_one(&b, "a", "1", 9));
    WANT(OK(kv_shared_reach(&b, &told.number)) && told.number == 8);
    WANT(TELLS(kv_shared_compact(&b, 9, &told.number), KV_WATCH_BEHIND, number, 1));
    WANT(OK(kv_reader_get_at(&r, B("a"), 9, value, sizeof value, &told.size, &told.number)));
    WANT(REFUSED(kv_reader_get_at(&r, B("a"), 5, value, sizeof value, &told.size, &told.number), KV_KEY_NOT_FOUND));
    kv_reader_close(&r);
    kv_follower_close(&behind);
    kv_follower_close(&f);
    kv_shared_close(&b);
}

static void described(void) {
    kv_shared b = {0};
    kv_follower f = {0};
    int fd = -1, again = -1;
    WANT(kv_shared_open(&b, B("settings"), &largest) == KV_OK && kv_follower_open(&b, B("a"), &latest, &f) == KV_OK);
    WANT(kv_follower_fd(&f, &fd) == KV_OK && fd >= 0 && kv_follower_fd(&f, &again) == KV_OK && again == fd);
    WANT(fcntl(fd, F_GETFD) == FD_CLOEXEC && is_readable(fd) && hands_kind(&f, KV_MARKER) && is_readable(fd));
    WANT(hands_kind(&f, KV_EMPTY) && !is_readable(fd) && hands_kind(&f, KV_EMPTY) && !is_readable(fd));
    WANT(puts_one(&b, "a", "1", 1) && is_readable(fd) && puts_one(&b, "a", "2", 2) && is_readable(fd));
    WANT(hands(&f, "a", KV_PUT, 1, "1") && is_readable(fd) && hands(&f, "a", KV_PUT, 2, "2") && is_readable(fd));
    WANT(hands_kind(&f, KV_EMPTY) && !is_readable(fd) && puts_one(&b, "b", "3", 3) && is_readable(fd));
    WANT(hands_kind(&f, KV_EMPTY) && !is_readable(fd) && kv_shared_finish(&b) == KV_OK && is_readable(fd));
    WANT(REFUSED(next(&f, KV_FOREVER), KV_CLOSED) && is_readable(fd));
    kv_shared_close(&b);
    WANT(is_readable(fd) && REFUSED(next(&f, 0), KV_CLOSED) && kv_follower_fd(&f, &again) == KV_CLOSED);
    kv_follower_close(&f);
    WANT(fcntl(fd, F_GETFD) == -1);
}

static void no_descriptor_is_left(void) {
    kv_shared b = {0};
    kv_follower f = {0};
    struct rlimit all, none;
    int fd = -7;
    WANT(kv_shared_open(&b, B("settings"), &largest) == KV_OK && kv_follower_open(&b, B("a"), &updates, &f) == KV_OK);
    WANT(getrlimit(RLIMIT_NOFILE, &all) == 0);
    none = (struct rlimit){0, all.rlim_max};
    WANT(setrlimit(RLIMIT_NOFILE, &none) == 0);
    WANT(kv_follower_fd(&f, &fd) == KV_NO_DESCRIPTOR && fd == -7);
    WANT(setrlimit(RLIMIT_NOFILE, &all) == 0 && kv_follower_fd(&f, &fd) == KV_OK && fd >= 0);
    kv_follower_close(&f);
    kv_shared_close(&b);
}

/* Behind the close each call is refused, whatever was left, and the owners close their handles. */
static void closed_behind(void) {
    kv_shared b = {0};
    kv_reader r = {0};
    kv_follower f = {0};
    WANT(kv_shared_open(&b, B("settings"), &largest) == KV_OK && puts_one(&b, "a", "1", 1));
    WANT(kv_reader_open(&b, &r) == KV_OK && kv_follower_open(&b, B(">"), &latest, &f) == KV_OK);
    kv_shared_close(&b);
    are_closed(&b, &r, &f);
    WANT(r.is_open && f.is_open);
    kv_follower_close(&f);
    kv_reader_close(&r);
}

int main(void) {
    /* What sleeps for ever ends the run. */
    alarm(300);
    layout();
    closed();
    opened();
    written();
    written_at_once();
    are_read();
    watched();
    followed();
    finished();
    stopped();
    compacted();
    described();
    no_descriptor_is_left();
    closed_behind();
    puts("each function and each refusal of a bucket that threads share: as the header says");
    return 0;
}
