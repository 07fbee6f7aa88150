/* Threads that share a bucket. A word tells that a sanitizer looks on, or `valgrind`. */
#include "vilgoued_shared.h"
#include "wanting.h"
#include <poll.h>
#include <pthread.h>
#include <sched.h>
#include <stdatomic.h>
#include <sys/epoll.h>
#include <time.h>
#include <unistd.h>

enum { WRITERS = 4, READERS = 4, FOLLOWERS = 4, KEYS = 64, PATIENCE = 300000 };
enum { EACH = 50000, ROUNDS = 10000, CLOSES = 500 };

static const kv_limits limits = {1, 1048576, 1000000, 4294967295};
static const kv_options updates = {KV_UPDATES, 0, false, false};
static bool is_looked_on, takes_turns;

static kv_shared bucket;

static double seconds(clockid_t clock) {
    struct timespec now;
    clock_gettime(clock, &now);
    return (double)now.tv_sec + (double)now.tv_nsec / 1e9;
}

/* With the system's own stack of 8 MiB a thread takes valgrind some 20 ms to begin, and most of the run is that. */
static void begin(pthread_t *thread, void *(*does)(void *), void *with) {
    pthread_attr_t small;
    WANT(pthread_attr_init(&small) == 0 && pthread_attr_setstacksize(&small, 1 << 18) == 0);
    WANT(pthread_create(thread, &small, does, with) == 0);
    pthread_attr_destroy(&small);
}

static void end(pthread_t thread) {
    WANT(pthread_join(thread, NULL) == 0);
}

static void put(kv_shared *b, const char *key, const char *value, uint64_t *revision) {
    WANT(kv_shared_put(b, B(key), B(value), revision) == KV_OK);
}

/* Valgrind runs one thread at a time, and one that has nothing to do would go on so to the end of its turn. */
static void has_nothing_to_do(void) {
    if (takes_turns)
        sched_yield();
}

/* What is handed out, for one thread. */
struct taken {
    kv_item item;
    uint64_t floor;
    char key[256], value[64];
};

static uint64_t next(kv_follower *f, uint64_t milliseconds, struct taken *t) {
    uint64_t code =
        kv_follower_next(f, milliseconds, (uint8_t *)t->key, 255, (uint8_t *)t->value, 63, &t->item, &t->floor);
    if (code == KV_OK && t->item.kind == KV_ENTRY) {
        t->key[t->item.key_size] = 0;
        t->value[t->item.value_size] = 0;
    }
    return code;
}

/* Writers and who follows and reads them. Of writer w the i-th write puts i to wW.kI, I being i modulo KEYS, or deletes
 * that key where i is a multiple of 16. */

static uint32_t revisions[WRITERS][EACH];
static _Atomic uint64_t known; /* the highest revision that a write has answered, or a reader read */

static void is_known(uint64_t revision) {
    uint64_t high = atomic_load(&known);
    while (high < revision && !atomic_compare_exchange_weak(&known, &high, revision))
        ;
}

static bool deletes(int i) {
    return i % 16 == 15;
}

static void *writes(void *with) {
    int w = (int)(intptr_t)with;
    for (int i = 0; i < EACH; i++) {
        char key[32], value[32];
        uint64_t revision = 0;
        snprintf(key, sizeof key, "w%d.k%d", w, i % KEYS);
        snprintf(value, sizeof value, "%d", i);
        if (deletes(i))
            WANT(kv_shared_delete(&bucket, B(key), false, 0, &revision) == KV_OK);
        else
            put(&bucket, key, value, &revision);
        revisions[w][i] = (uint32_t)revision;
        is_known(revision);
    }
    return NULL;
}

/* A reader is never older than what had returned, nor than what it or another reader read before. */
static void *reads(void *with) {
    kv_reader reader = {0};
    uint64_t last = 0, of_key = 0;
    char key[32];
    (void)with;
    snprintf(key, sizeof key, "w%d.k0", (int)(intptr_t)with);
    WANT(kv_reader_open(&bucket, &reader) == KV_OK);
    while (last < (uint64_t)EACH * WRITERS) {
        uint64_t before = atomic_load(&known), revision = 0, code;
        size_t size = 0;
        uint8_t value[32] = {0};
        kv_status status;
        WANT(kv_reader_get_status(&reader, &status) == KV_OK && status.last >= before && status.last >= last);
        if (status.last == last)
            has_nothing_to_do();
        last = status.last;
        is_known(last);
        code = kv_reader_get(&reader, B(key), value, sizeof value - 1, &size, &revision);
        if (code == KV_KEY_NOT_FOUND && of_key == 0)
            continue;
        WANT(code == KV_OK && revision >= of_key && atoi((char *)value) % KEYS == 0);
        of_key = revision;
    }
    kv_reader_close(&reader);
    return NULL;
}

/* What each follower asks for, whether it matches the i-th write of the writer w, and whether it waits on its
 * descriptor. */
static struct following {
    const char *filters;
    int writers, keys; /* bits of writers; one key in so many, or all */
    bool polls;
    kv_follower follower;
    uint64_t handed;
    uint32_t revisions[WRITERS * EACH];
} followings[FOLLOWERS] = {
    {.filters = ">", .writers = 15},
    {.filters = "w0.>", .writers = 1, .polls = true},
    {.filters = "w1.*,w2.*", .writers = 6},
    {.filters = "w3.k7,w0.k7", .writers = 9, .keys = KEYS, .polls = true},
};

static bool matches(const struct following *it, int w, int i) {
    return (it->writers >> w & 1) && (!it->keys || i % KEYS == 7);
}

static void *follows(void *with) {
    struct following *it = with;
    struct taken t;
    int fd = -1;
    if (it->polls)
        WANT(kv_follower_fd(&it->follower, &fd) == KV_OK);
    for (;;) {
        uint64_t code = next(&it->follower, it->polls ? 0 : PATIENCE, &t);
        int w, key;
        if (code == KV_CLOSED)
            return NULL;
        WANT(code == KV_OK);
        if (t.item.kind == KV_EMPTY) {
            struct pollfd wanted = {fd, POLLIN, 0};
            WANT(it->polls && poll(&wanted, 1, PATIENCE) == 1);
            continue;
        }
        WANT(t.item.kind == KV_ENTRY && sscanf(t.key, "w%d.k%d", &w, &key) == 2);
        WANT(t.item.op == KV_DELETE ? deletes(key) : atoi(t.value) % KEYS == key);
        it->revisions[it->handed++] = (uint32_t)t.item.revision;
    }
}

/* Compacts as far as no follower lags. */
static void *compacts(void *with) {
    struct timespec pause = {0, 5000000};
    (void)with;
    while (atomic_load(&known) < (uint64_t)EACH * WRITERS) {
        uint64_t floor = 0, watch = 0, code;
        WANT(kv_shared_reach(&bucket, &floor) == KV_OK);
        code = floor == 0 ? KV_OK : kv_shared_compact(&bucket, floor, &watch);
        WANT(code == KV_OK);
        nanosleep(&pause, NULL);
    }
    return NULL;
}

/* That a follower was handed the writes that it matches, and no others, in the order of their revisions. */
static void handed_all(const struct following *it) {
    int at[WRITERS] = {0};
    for (uint64_t n = 0;; n++) {
        int first = -1;
        for (int w = 0; w < WRITERS; w++) {
            while (at[w] < EACH && !matches(it, w, at[w]))
                at[w]++;
            if (at[w] < EACH && (first < 0 || revisions[w][at[w]] < revisions[first][at[first]]))
                first = w;
        }
        if (first < 0) {
            WANT(n == it->handed);
            return;
        }
        WANT(n < it->handed && it->revisions[n] == revisions[first][at[first]++]);
    }
}

static void all_at_once(void) {
    pthread_t writers[WRITERS], readers[READERS], followers[FOLLOWERS], compactor;
    WANT(kv_shared_open(&bucket, B("settings"), &limits) == KV_OK);
    for (int i = 0; i < FOLLOWERS; i++) {
        struct following *it = &followings[i];
        WANT(kv_follower_open(&bucket, B(it->filters), &updates, &it->follower) == KV_OK);
        begin(&followers[i], follows, it);
    }
    for (int i = 0; i < READERS; i++)
        begin(&readers[i], reads, (void *)(intptr_t)i);
    for (int i = 0; i < WRITERS; i++)
        begin(&writers[i], writes, (void *)(intptr_t)i);
    begin(&compactor, compacts, NULL);
    for (int i = 0; i < WRITERS; i++)
        end(writers[i]);
    WANT(kv_shared_finish(&bucket) == KV_OK);
    for (int i = 0; i < READERS; i++)
        end(readers[i]);
    for (int i = 0; i < FOLLOWERS; i++)
        end(followers[i]);
    end(compactor);
    kv_shared_close(&bucket);
    for (int i = 0; i < FOLLOWERS; i++) {
        kv_follower_close(&followings[i].follower);
        handed_all(&followings[i]);
    }
    printf("%d writes by %d threads: each follower was handed what it matches, once, in order; each reader only grew\n",
           EACH * WRITERS, WRITERS);
}

/* Batches of two keys that always have the same value: nobody is shown the one without the other. */

enum { PAIRERS = 2 };

static void *writes_pairs(void *with) {
    kv_batch batch = {0};
    uint64_t last = 0;
    for (int i = 0; i < ROUNDS; i++) {
        char text[32];
        uint64_t revision = 0;
        size_t at = 77;
        snprintf(text, sizeof text, "%d of %d", i, (int)(intptr_t)with);
        WANT(kv_batch_put(&batch, B("pair.left"), B(text)) == KV_OK && kv_batch_put(&batch, B("pair.right"), B(text)) == KV_OK);
        WANT(kv_shared_write_all(&bucket, &batch, &revision, &at) == KV_OK && revision > last && at == 77);
        last = revision + 1;
        is_known(last);
        /* One that is refused at its second write. */
        if (i % 8 == 0) {
            WANT(kv_batch_put(&batch, B("pair.left"), B("half")) == KV_OK);
            WANT(kv_batch_create(&batch, B("pair.right"), B("half")) == KV_OK);
            WANT(kv_shared_write_all(&bucket, &batch, &revision, &at) == KV_KEY_EXISTS && at == 1);
            kv_batch_close(&batch);
        }
    }
    return NULL;
}

// cppcheck-suppress constParameter ; a thread takes a pointer to what may change
static void *reads_pairs(void *with) {
    kv_reader reader = {0};
    uint64_t last = 0;
    WANT(kv_reader_open(&bucket, &reader) == KV_OK);
    while (last < (uint64_t)ROUNDS * PAIRERS * 2) {
        uint64_t before = atomic_load(&known), left = 0, right = 0;
        uint8_t of_left[32], of_right[32];
        size_t left_size = 0, right_size = 0;
        kv_view view = {0};
        kv_status status;
        WANT(kv_reader_get_status(&reader, &status) == KV_OK && status.last % 2 == 0);
        WANT(status.last >= before && status.last >= last);
        if (status.last == last)
            has_nothing_to_do();
        last = status.last;
        is_known(last);
        if (!with || last == 0)
            continue;
        WANT(kv_shared_snapshot(&bucket, &view) == KV_OK);
        WANT(kv_view_get(&view, B("pair.left"), of_left, sizeof of_left, &left_size, &left) == KV_OK);
        WANT(kv_view_get(&view, B("pair.right"), of_right, sizeof of_right, &right_size, &right) == KV_OK);
        WANT(right == left + 1 && left >= last - 1 && left_size == right_size && !memcmp(of_left, of_right, left_size));
        kv_view_close(&view);
    }
    kv_reader_close(&reader);
    return NULL;
}

/* One that is handed the left of a pair has the right of it at once. */
static void *follows_pairs(void *with) {
    kv_follower *f = with;
    uint64_t revision = 0;
    for (;;) {
        struct taken left, right;
        uint64_t code = next(f, PATIENCE, &left);
        if (code == KV_CLOSED)
            break;
        WANT(code == KV_OK && left.item.kind == KV_ENTRY && !strcmp(left.key, "pair.left"));
        WANT(next(f, 0, &right) == KV_OK && right.item.kind == KV_ENTRY && !strcmp(right.key, "pair.right"));
        WANT(left.item.revision == revision + 1 && right.item.revision == revision + 2 && !strcmp(left.value, right.value));
        revision += 2;
    }
    WANT(revision == (uint64_t)ROUNDS * PAIRERS * 2);
    return NULL;
}

static void batches_are_whole(void) {
    pthread_t writers[PAIRERS], readers[2], followers[2];
    kv_follower following[2] = {{0}, {0}};
    atomic_store(&known, 0);
    WANT(kv_shared_open(&bucket, B("settings"), &limits) == KV_OK);
    for (int i = 0; i < 2; i++) {
        WANT(kv_follower_open(&bucket, B("pair.*"), &updates, &following[i]) == KV_OK);
        begin(&followers[i], follows_pairs, &following[i]);
        begin(&readers[i], reads_pairs, (void *)(intptr_t)i);
    }
    for (int i = 0; i < PAIRERS; i++)
        begin(&writers[i], writes_pairs, (void *)(intptr_t)i);
    for (int i = 0; i < PAIRERS; i++)
        end(writers[i]);
    WANT(kv_shared_finish(&bucket) == KV_OK);
    for (int i = 0; i < 2; i++) {
        end(readers[i]);
        end(followers[i]);
        kv_follower_close(&following[i]);
    }
    kv_shared_close(&bucket);
    printf("%d batches of two: each reader, view and follower has both writes of each or neither\n", ROUNDS * PAIRERS);
}

/* Two threads that answer each other: each wake-up that were lost would end the wait of both. */

static void *answers(void *with) {
    kv_follower *pings = with;
    struct taken t;
    uint64_t revision;
    for (int i = 0; i < ROUNDS; i++) {
        WANT(next(pings, PATIENCE, &t) == KV_OK && t.item.kind == KV_ENTRY && atoi(t.value) == i);
        for (volatile int spin = 0; spin < i * 7 % 1000; spin++)
            ;
        put(&bucket, "pong", t.value, &revision);
    }
    return NULL;
}

static void no_wake_up_is_lost(void) {
    kv_follower pings = {0}, pongs = {0};
    pthread_t other;
    struct taken t;
    uint64_t revision;
    WANT(kv_shared_open(&bucket, B("settings"), &limits) == KV_OK);
    WANT(kv_follower_open(&bucket, B("ping"), &updates, &pings) == KV_OK);
    WANT(kv_follower_open(&bucket, B("pong"), &updates, &pongs) == KV_OK);
    begin(&other, answers, &pings);
    for (int i = 0; i < ROUNDS; i++) {
        char value[32];
        snprintf(value, sizeof value, "%d", i);
        for (volatile int spin = 0; spin < i * 13 % 1000; spin++)
            ;
        put(&bucket, "ping", value, &revision);
        WANT(next(&pongs, PATIENCE, &t) == KV_OK && t.item.kind == KV_ENTRY && atoi(t.value) == i);
    }
    end(other);
    kv_follower_close(&pings);
    kv_follower_close(&pongs);
    kv_shared_close(&bucket);
    printf("%d rounds of two threads that wake each other: no wake-up is lost\n", ROUNDS);
}

static void sleeps_for_nothing(void) {
    kv_follower f = {0};
    struct taken t;
    double before, cpu;
    WANT(kv_shared_open(&bucket, B("settings"), &limits) == KV_OK);
    WANT(kv_follower_open(&bucket, B("a"), &updates, &f) == KV_OK);
    before = seconds(CLOCK_MONOTONIC);
    WANT(next(&f, 0, &t) == KV_OK && t.item.kind == KV_EMPTY && seconds(CLOCK_MONOTONIC) - before < 1);
    before = seconds(CLOCK_MONOTONIC);
    WANT(next(&f, 50, &t) == KV_OK && t.item.kind == KV_EMPTY && seconds(CLOCK_MONOTONIC) - before >= 0.05);
    before = seconds(CLOCK_MONOTONIC);
    cpu = seconds(CLOCK_PROCESS_CPUTIME_ID);
    WANT(next(&f, 1000, &t) == KV_OK && t.item.kind == KV_EMPTY);
    cpu = seconds(CLOCK_PROCESS_CPUTIME_ID) - cpu;
    before = seconds(CLOCK_MONOTONIC) - before;
    /* What a sanitizer does meanwhile in threads of its own counts as well. */
    WANT(before >= 1 && before < 30 && (cpu < 0.001 || is_looked_on));
    kv_follower_close(&f);
    kv_shared_close(&bucket);
    printf("a follower asleep for %.3f s took %.3f ms of processor time\n", before, cpu * 1000);
}

/* Writes that do not match wake a sleeper, and it sleeps on, to the end of its time. */

static void *writes_others(void *with) {
    struct timespec pause = {0, 1000000};
    uint64_t revision;
    (void)with;
    for (int i = 0; i < 50; i++) {
        put(&bucket, "b", "1", &revision);
        nanosleep(&pause, NULL);
    }
    return NULL;
}

static void sleeps_on(void) {
    kv_follower f = {0};
    pthread_t other;
    struct taken t;
    double before;
    WANT(kv_shared_open(&bucket, B("settings"), &limits) == KV_OK);
    WANT(kv_follower_open(&bucket, B("a"), &updates, &f) == KV_OK);
    before = seconds(CLOCK_MONOTONIC);
    begin(&other, writes_others, NULL);
    WANT(next(&f, 200, &t) == KV_OK && t.item.kind == KV_EMPTY);
    before = seconds(CLOCK_MONOTONIC) - before;
    WANT(before >= 0.2 && before < 30);
    end(other);
    kv_follower_close(&f);
    kv_shared_close(&bucket);
}

/* One loop over two followers, level-triggered. */

static void *writes_both(void *with) {
    uint64_t revision;
    (void)with;
    for (int i = 0; i < ROUNDS; i++) {
        put(&bucket, i % 3 ? "a" : "b", "1", &revision);
        if (i % 64 == 0)
            sched_yield();
    }
    WANT(kv_shared_finish(&bucket) == KV_OK);
    return NULL;
}

static void waits_in_a_loop(void) {
    kv_follower both[2] = {{0}, {0}};
    int loop = epoll_create1(EPOLL_CLOEXEC), open = 2, handed[2] = {0, 0};
    pthread_t other;
    WANT(loop >= 0 && kv_shared_open(&bucket, B("settings"), &limits) == KV_OK);
    for (uint32_t i = 0; i < 2; i++) {
        struct epoll_event wanted = {.events = EPOLLIN, .data.u32 = i};
        int fd = -1;
        WANT(kv_follower_open(&bucket, B(i ? "b" : "a"), &updates, &both[i]) == KV_OK);
        WANT(kv_follower_fd(&both[i], &fd) == KV_OK && epoll_ctl(loop, EPOLL_CTL_ADD, fd, &wanted) == 0);
    }
    begin(&other, writes_both, NULL);
    while (open > 0) {
        struct epoll_event ready;
        struct taken t;
        uint64_t code;
        WANT(epoll_wait(loop, &ready, 1, PATIENCE) == 1);
        code = next(&both[ready.data.u32], 0, &t);
        if (code == KV_CLOSED) {
            kv_follower_close(&both[ready.data.u32]);
            open--;
        } else {
            WANT(code == KV_OK);
            handed[ready.data.u32] += t.item.kind == KV_ENTRY;
        }
    }
    end(other);
    close(loop);
    kv_shared_close(&bucket);
    WANT(handed[1] == (ROUNDS + 2) / 3 && handed[0] == ROUNDS - handed[1]);
    printf("%d items of two followers in one loop of epoll\n", ROUNDS);
}

/* A close while others do all that they can. Each comes to an end, and closes its own handle. */

static _Atomic int inside;

// cppcheck-suppress constParameter ; a thread takes a pointer to what may change
static void *sleeps_until_closed(void *with) {
    kv_follower f = {0};
    struct taken t;
    uint64_t code = kv_follower_open(&bucket, B(with ? "a" : "none"), &updates, &f);
    atomic_fetch_add(&inside, 1);
    while (code == KV_OK)
        code = next(&f, KV_FOREVER, &t);
    WANT(code == KV_CLOSED && next(&f, KV_FOREVER, &t) == KV_CLOSED);
    kv_follower_close(&f);
    return NULL;
}

static void *polls_until_closed(void *with) {
    kv_follower f = {0};
    struct taken t;
    int fd = -1;
    uint64_t code = kv_follower_open(&bucket, B("none"), &updates, &f);
    (void)with;
    if (code == KV_OK)
        code = kv_follower_fd(&f, &fd);
    atomic_fetch_add(&inside, 1);
    while (code == KV_OK) {
        struct pollfd wanted = {fd, POLLIN, 0};
        WANT(poll(&wanted, 1, PATIENCE) == 1);
        code = next(&f, 0, &t);
    }
    WANT(code == KV_CLOSED);
    kv_follower_close(&f);
    return NULL;
}

static void *reads_until_closed(void *with) {
    kv_reader r = {0};
    uint8_t value[8];
    size_t size;
    uint64_t revision, code = kv_reader_open(&bucket, &r);
    (void)with;
    atomic_fetch_add(&inside, 1);
    while (code == KV_OK) {
        code = kv_reader_get(&r, B("a"), value, sizeof value, &size, &revision);
        if (code == KV_KEY_NOT_FOUND)
            code = KV_OK;
        has_nothing_to_do();
    }
    WANT(code == KV_CLOSED);
    kv_reader_close(&r);
    return NULL;
}

static void *writes_until_closed(void *with) {
    uint64_t revision, code = KV_OK;
    (void)with;
    atomic_fetch_add(&inside, 1);
    while (code == KV_OK) {
        code = kv_shared_put(&bucket, B("a"), B("1"), &revision);
        has_nothing_to_do();
    }
    WANT(code == KV_CLOSED && kv_shared_put(&bucket, B("a"), B("1"), &revision) == KV_CLOSED);
    return NULL;
}

static void *closes_too(void *with) {
    (void)with;
    kv_shared_close(&bucket);
    return NULL;
}

static void closes_beside_all(void) {
    void *(*const roles[])(void *) = {sleeps_until_closed, sleeps_until_closed, polls_until_closed,
                                      reads_until_closed,  writes_until_closed, writes_until_closed};
    enum { ROLES = sizeof roles / sizeof *roles };
    for (int round = 0; round < CLOSES; round++) {
        pthread_t threads[ROLES], second;
        int waits_for = round % (ROLES + 1);
        atomic_store(&inside, 0);
        WANT(kv_shared_open(&bucket, B("settings"), &limits) == KV_OK);
        for (int i = 0; i < ROLES; i++)
            begin(&threads[i], roles[i], i % 2 ? &bucket : NULL);
        while (atomic_load(&inside) < waits_for)
            sched_yield();
        if (round % 4 == 3)
            begin(&second, closes_too, NULL);
        kv_shared_close(&bucket);
        for (int i = 0; i < ROLES; i++)
            end(threads[i]);
        if (round % 4 == 3)
            end(second);
        WANT(bucket.state == 0);
    }
    printf("%d closes while others sleep, wait, read and write\n", CLOSES);
}

/* A stop from another thread. */

static void *sleeps_until_stopped(void *with) {
    struct taken t;
    WANT(next(with, KV_FOREVER - 1, &t) == KV_CLOSED);
    return NULL;
}

static void stops_a_sleeper(void) {
    struct timespec pause = {0, 1000000};
    for (int i = 0; i < CLOSES; i++) {
        kv_follower f = {0}, other = {0};
        pthread_t sleeper;
        struct taken t;
        uint64_t revision;
        WANT(kv_shared_open(&bucket, B("settings"), &limits) == KV_OK);
        WANT(kv_follower_open(&bucket, B("a"), &updates, &f) == KV_OK);
        WANT(kv_follower_open(&bucket, B("a"), &updates, &other) == KV_OK);
        begin(&sleeper, sleeps_until_stopped, &f);
        if (i % 2)
            nanosleep(&pause, NULL);
        WANT(kv_follower_stop(&f) == KV_OK);
        end(sleeper);
        put(&bucket, "a", "1", &revision);
        WANT(next(&other, KV_FOREVER, &t) == KV_OK && t.item.revision == 1);
        kv_follower_close(&f);
        kv_follower_close(&other);
        kv_shared_close(&bucket);
    }
    printf("%d sleepers stopped\n", CLOSES);
}

int main(int argc, char **argv) {
    is_looked_on = argc > 1;
    takes_turns = is_looked_on && !strcmp(argv[1], "valgrind");
    /* Whoever waits for ever ends the run. */
    alarm(600);
    all_at_once();
    batches_are_whole();
    no_wake_up_is_lost();
    sleeps_for_nothing();
    sleeps_on();
    waits_in_a_loop();
    closes_beside_all();
    stops_a_sleeper();
    return 0;
}
