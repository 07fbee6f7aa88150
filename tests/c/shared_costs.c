/* What calls of a bucket that threads share take, at 10,000 keys with values of 16 bytes. Gets ask for 500 of these, as
 * the bench's do beside a writer. It prints figures: of puts and gets processor time of the thread that calls, of wake-ups
 * the time that goes by. */
#include "vilgoued_shared.h"
#include "wanting.h"
#include <poll.h>
#include <pthread.h>
#include <stdatomic.h>
#include <time.h>

enum { KEYS = 10000, ASKED = 500, PUTS = 200000, GETS = 1000000, WAKES = 500 };

static const kv_limits limits = {1, 1048576, 1000000, 4294967295};
static const kv_options updates = {KV_UPDATES, 0, false, false};
static const uint8_t *const value = (const uint8_t *)"0123456789abcdef";
static char keys[KEYS][16];
static kv_shared bucket;

static double nanoseconds(clockid_t clock) {
    struct timespec at;
    clock_gettime(clock, &at);
    return (double)at.tv_sec * 1e9 + (double)at.tv_nsec;
}

static double now(void) {
    return nanoseconds(CLOCK_MONOTONIC);
}

/* What this thread took of its processor: other work on the machine counts less so. */
static double spent(void) {
    return nanoseconds(CLOCK_THREAD_CPUTIME_ID);
}

static void told(const char *what, double ns) {
    printf("%-58s %9.0f ns\n", what, ns);
}

/* The keys in an order that caches do not foresee. */
static const char *key_of(uint64_t i) {
    return keys[i * 7919 % KEYS];
}

static void put(uint64_t i) {
    const char *key = key_of(i);
    uint64_t revision;
    WANT(kv_shared_put(&bucket, B(key), value, 16, &revision) == KV_OK);
}

static void begin_anew(void) {
    WANT(kv_shared_open(&bucket, B("settings"), &limits) == KV_OK);
    for (uint64_t i = 0; i < KEYS; i++)
        put(i);
}

static double a_put(void) {
    double began = spent();
    for (uint64_t i = 0; i < PUTS; i++)
        put(i);
    return (spent() - began) / PUTS;
}

static void puts_alone(void) {
    kv_bucket own = {0};
    uint64_t revision;
    double began;
    WANT(kv_open(&own, B("settings"), &limits) == KV_OK);
    for (uint64_t i = 0; i < KEYS; i++)
        WANT(kv_put(&own, B(key_of(i)), value, 16, &revision) == KV_OK);
    began = spent();
    for (uint64_t i = 0; i < PUTS; i++)
        WANT(kv_put(&own, B(key_of(i)), value, 16, &revision) == KV_OK);
    told("kv_put", (spent() - began) / PUTS);
    kv_close(&own);
    begin_anew();
    told("kv_shared_put, nobody else", a_put());
    kv_shared_close(&bucket);
}

static void *wants_another_key(void *with) {
    kv_item item;
    uint64_t floor;
    uint8_t key[255], room[64];
    while (kv_follower_next(with, KV_FOREVER, key, sizeof key, room, sizeof room, &item, &floor) != KV_CLOSED)
        ;
    return NULL;
}

static void puts_beside_a_sleeper(void) {
    kv_follower f = {0};
    pthread_t sleeper;
    begin_anew();
    WANT(kv_follower_open(&bucket, B("another"), &updates, &f) == KV_OK);
    pthread_create(&sleeper, NULL, wants_another_key, &f);
    told("kv_shared_put, a follower that each wakes for nothing", a_put());
    kv_shared_finish(&bucket);
    pthread_join(sleeper, NULL);
    kv_follower_close(&f);
    kv_shared_close(&bucket);
}

/* A get of one key after another, or of the first alone. */
static double a_get(kv_reader *r, bool is_one) {
    uint8_t room[16];
    size_t size;
    uint64_t revision;
    double began = spent();
    for (uint64_t i = 0; i < GETS; i++) {
        const char *key = key_of(is_one ? 0 : i % ASKED);
        WANT(kv_reader_get(r, B(key), room, sizeof room, &size, &revision) == KV_OK);
    }
    return (spent() - began) / GETS;
}

static double a_get_of_a_view(void) {
    kv_view view = {0};
    uint8_t room[16];
    size_t size;
    uint64_t revision;
    double began;
    WANT(kv_shared_snapshot(&bucket, &view) == KV_OK);
    began = spent();
    for (uint64_t i = 0; i < GETS; i++) {
        const char *key = key_of(i % ASKED);
        WANT(kv_view_get(&view, B(key), room, sizeof room, &size, &revision) == KV_OK);
    }
    began = spent() - began;
    kv_view_close(&view);
    return began / GETS;
}

static double a_get_under_the_mutex(void) {
    uint8_t room[16];
    size_t size;
    uint64_t revision;
    double began = spent();
    for (uint64_t i = 0; i < GETS; i++) {
        const char *key = key_of(i % ASKED);
        WANT(kv_shared_get(&bucket, B(key), room, sizeof room, &size, &revision) == KV_OK);
    }
    return (spent() - began) / GETS;
}

static _Atomic bool is_over;
static uint64_t written;
static double of_a_put;

/* Writes at this pace, or as fast as it can. */
static void *writes(void *with) {
    double pace = *(const double *)with, at = now(), began = spent();
    uint64_t i = 0;
    for (; !atomic_load(&is_over) && i < 900000; i++) {
        put(i);
        for (at += pace; pace > 0 && now() < at && !atomic_load(&is_over);)
            ;
    }
    of_a_put = (spent() - began) / (double)i;
    written = i;
    return NULL;
}

static void gets_beside(const char *what, double pace) {
    kv_reader r = {0};
    pthread_t writer;
    char line[96];
    double ns, began;
    begin_anew();
    WANT(kv_reader_open(&bucket, &r) == KV_OK);
    atomic_store(&is_over, false);
    began = now();
    pthread_create(&writer, NULL, writes, &pace);
    ns = a_get(&r, false);
    began = now() - began;
    atomic_store(&is_over, true);
    pthread_join(writer, NULL);
    snprintf(line, sizeof line, "kv_reader_get, %s (%.0f a second)", what, (double)written / (began / 1e9));
    told(line, ns);
    kv_reader_close(&r);
    kv_shared_close(&bucket);
}

static void gets(void) {
    kv_reader r = {0};
    begin_anew();
    WANT(kv_reader_open(&bucket, &r) == KV_OK);
    told("kv_view_get", a_get_of_a_view());
    told("kv_reader_get, nothing new", a_get(&r, false));
    told("kv_reader_get, nothing new, one key again and again", a_get(&r, true));
    told("kv_shared_get, nobody else", a_get_under_the_mutex());
    kv_reader_close(&r);
    kv_shared_close(&bucket);
    gets_beside("a writer of 10,000 a second", 1e5);
    gets_beside("a writer of 100,000 a second", 1e4);
    gets_beside("a writer as fast as it can", 0);
    told("kv_shared_put of this writer", of_a_put);
}

/* A thread that sleeps, and when it was woken. */
static _Atomic uint64_t woken_at;
static bool by_descriptor;

static void *wakes(void *with) {
    kv_item item = {0};
    uint64_t floor;
    uint8_t key[255], room[64];
    int fd = -1;
    WANT(kv_follower_fd(with, &fd) == KV_OK);
    for (;;) {
        struct pollfd wanted = {fd, POLLIN, 0};
        uint64_t code;
        if (by_descriptor)
            poll(&wanted, 1, -1);
        code =
            kv_follower_next(with, by_descriptor ? 0 : KV_FOREVER, key, sizeof key, room, sizeof room, &item, &floor);
        if (code == KV_CLOSED)
            return NULL;
        if (item.kind == KV_ENTRY)
            atomic_store(&woken_at, (uint64_t)now());
    }
}

static int by_size(const void *one, const void *other) {
    double a = *(const double *)one, b = *(const double *)other;
    return (a > b) - (a < b);
}

static void wake_ups(const char *what) {
    static double delays[WAKES], took[WAKES];
    struct timespec pause = {0, 500000};
    kv_follower f = {0};
    pthread_t sleeper;
    char line[96];
    begin_anew();
    WANT(kv_follower_open(&bucket, B(">"), &updates, &f) == KV_OK);
    pthread_create(&sleeper, NULL, wakes, &f);
    for (uint64_t i = 0; i < WAKES; i++) {
        double began;
        nanosleep(&pause, NULL);
        atomic_store(&woken_at, 0);
        began = now();
        put(i);
        took[i] = now() - began;
        while (atomic_load(&woken_at) == 0)
            ;
        delays[i] = (double)atomic_load(&woken_at) - began;
    }
    kv_shared_finish(&bucket);
    pthread_join(sleeper, NULL);
    kv_follower_close(&f);
    kv_shared_close(&bucket);
    qsort(delays, WAKES, sizeof *delays, by_size);
    qsort(took, WAKES, sizeof *took, by_size);
    snprintf(line, sizeof line, "from a put to its item in another thread, %s, median", what);
    told(line, delays[WAKES / 2]);
    told("  of that the put, which wakes", took[WAKES / 2]);
    told("  the slowest of 20", delays[WAKES - WAKES / 20]);
}

int main(void) {
    for (int i = 0; i < KEYS; i++)
        snprintf(keys[i], sizeof keys[i], "app.k%d", i);
    puts_alone();
    puts_beside_a_sleeper();
    gets();
    by_descriptor = false;
    wake_ups("asleep in next");
    by_descriptor = true;
    wake_ups("asleep in poll");
    return 0;
}
