/* The functions of vilgoued_shared.h: a bucket behind one mutex, and a number that counts what is published, which
 * readers and followers look at without the mutex. Readers that keep up are offered a view of each act, which they take
 * without it too. Each step on a bucket, a view or a feed is a call of an export of vilgoued.h. */
#define _GNU_SOURCE
#include "files.h"
#include "vilgoued_shared.h"
#include <errno.h>
#include <pthread.h>
#include <semaphore.h>
#include <stdatomic.h>
#include <stddef.h>
#include <stdlib.h>
#include <sys/eventfd.h>
#include <time.h>
#include <unistd.h>

/* The state of a kv_shared: whether it is open, and above that how many calls are inside. */
enum { OPEN = 1, INSIDE = 2 };

/* The sequence: two flags, and above them how many acts are published. It changes under the mutex alone. */
enum { CLOSED = 1, FINISHED = 2, ONE_ACT = 4 };

/* A node of a list, and what stands in it. */
struct node {
    struct node *next, **link;
};
#define STANDS_IN(type, name, node) ((type *)((char *)(node)-offsetof(type, name)))

/* A write that waits in the frame of its thread, until the thread that makes it has answered it. */
struct asked {
    uint32_t kind;
    const uint8_t *key;
    size_t key_size;
    const uint8_t *value;
    size_t value_size;
    bool has_last;
    uint64_t last;
    struct asked *next;
    uint64_t code, revision;
    sem_t is_answered;
};

/* What the handles of one bucket refer to: its own, and those of its readers and followers. It is freed with the last
 * reference. */
struct core {
    pthread_mutex_t lock;   /* it spins a little before it sleeps, as it is mostly held for microseconds */
    pthread_cond_t changed; /* for followers: the sequence changed, or one of them was stopped */
    pthread_cond_t idle;    /* for a close: nobody is inside any more */
    kv_bucket bucket;
    uint64_t last, floor; /* the bucket's last revision, and the floor that it was compacted to */
    _Atomic size_t references;
    struct node *followers, *readers, *keeping_up;
    _Atomic(struct reader *) catching_up; /* readers that keep up from the next act on */
    bool has_waiters; /* whether a follower may be asleep, or a descriptor wait to become readable */
    _Atomic(struct asked *) asked; /* writes that are to be synced together, the last one first */
    /* Readers load the sequence all the time, so it has a cache line for itself. */
    char before[64];
    _Atomic uint64_t sequence;
    char behind[64];
    bool syncs_each; /* each write is on the disk when its call answers */
};

/* A view, with the sequence and the bucket's last revision when it was opened. Two threads use the two pages of a
 * reader at one time, so each has cache lines of its own. */
struct page {
    kv_view view;
    uint64_t seen, last;
    char behind[96];
};

/* Which page a reader is not at, and whether a view is offered to it there. Where none is, that page is the writers',
 * who hold the mutex; where one is, whoever takes the offer away has the page. */
enum { OFFERED = 2 };

/* How often a reader looks for a view that it is to be offered before it sleeps for the mutex: tens of microseconds. At
 * one look of so many it tries the mutex too, which takes its cache line from whoever has it. */
enum { LOOKS = 512, LOOKS_FOR_ONE_TRY = 16 };

struct reader {
    struct core *core;
    unsigned at;           /* which page it reads */
    _Atomic uint64_t last; /* that of this page */
    struct node among_all;
    char before[64];
    _Atomic unsigned offer;
    _Atomic bool is_keeping_up; /* or catching up: the reader sets it, and who has the mutex ends it */
    struct node among_keeping_up;
    struct reader *next_catching_up;
    char behind[64];
    struct page pages[2];
};

struct follower {
    struct core *core;
    kv_feed feed;
    uint64_t seen;
    _Atomic uint64_t last; /* the last revision of the view that the feed has gone on to */
    _Atomic bool is_stopped;
    int fd;
    bool is_armed; /* whether the descriptor is there and not readable */
    struct node among_all;
};

/* Under the mutex. */
static void join(struct node **list, struct node *node) {
    node->next = *list;
    node->link = list;
    if (node->next)
        node->next->link = &node->next;
    *list = node;
}

static void part(struct node *node) {
    *node->link = node->next;
    if (node->next)
        node->next->link = node->link;
}

static uint64_t sequence_of(struct core *core) {
    return atomic_load_explicit(&core->sequence, memory_order_acquire);
}

/* Makes a follower's descriptor readable, where it waits for that. Under the mutex. */
static void signal_fd(struct follower *follower) {
    static const uint64_t one = 1;
    if (follower->is_armed) {
        /* Its count was 0, so this can't fail. */
        ssize_t written = write(follower->fd, &one, sizeof one);
        (void)written;
        follower->is_armed = false;
    }
}

/* Makes it unreadable, until the sequence changes. Under the mutex. */
static void rearm_fd(struct follower *follower) {
    uint64_t count;
    if (follower->fd >= 0 && !follower->is_armed) {
        ssize_t drained = read(follower->fd, &count, sizeof count);
        (void)drained;
        follower->is_armed = follower->core->has_waiters = true;
    }
}

static struct reader *keeping_up(struct node *node) {
    return STANDS_IN(struct reader, among_keeping_up, node);
}

/* A reader that fell behind is offered a view of each act again, from the one on that is made now. It asks for that
 * without the mutex: who makes one act after another would have the mutex again before a sleeper is awake. */
static void catch_up(struct reader *reader) {
    struct core *core = reader->core;
    struct reader *next = atomic_load_explicit(&core->catching_up, memory_order_relaxed);
    atomic_store_explicit(&reader->is_keeping_up, true, memory_order_relaxed);
    do
        reader->next_catching_up = next;
    while (!atomic_compare_exchange_weak_explicit(&core->catching_up, &next, reader, memory_order_release,
                                                  memory_order_relaxed));
}

/* Those that catch up keep up. Under the mutex. */
static void admit(struct core *core) {
    struct reader *next;
    if (!atomic_load_explicit(&core->catching_up, memory_order_relaxed))
        return;
    for (struct reader *it = atomic_exchange_explicit(&core->catching_up, NULL, memory_order_acquire); it; it = next) {
        next = it->next_catching_up;
        join(&core->keeping_up, &it->among_keeping_up);
    }
}

/* Under the mutex. */
static void fall_behind(struct reader *reader) {
    part(&reader->among_keeping_up);
    atomic_store_explicit(&reader->is_keeping_up, false, memory_order_release);
}

/* Puts a number for an offer that is there. It is false where the other side was there first. */
static bool take_away(struct reader *reader, unsigned *offer, unsigned page) {
    return *offer & OFFERED && atomic_compare_exchange_strong_explicit(&reader->offer, offer, page,
                                                                       memory_order_acq_rel, memory_order_acquire);
}

/* The reader goes on to the view that it is offered, where there is one, and leaves its own page to the writers. */
static bool take_offer(struct reader *reader) {
    unsigned offer = atomic_load_explicit(&reader->offer, memory_order_relaxed);
    if (!take_away(reader, &offer, reader->at))
        return false;
    reader->at = offer & ~OFFERED;
    atomic_store_explicit(&reader->last, reader->pages[reader->at].last, memory_order_relaxed);
    return true;
}

/* Behind an act, before the sequence tells it: up to here readers may take what was offered at the last one, so none
 * that keeps up waits for an act. Frees the views that readers left, and those that they did not take. Who did not take
 * one falls behind: a reader that looks less often than others write has them copy nothing meanwhile. Under the
 * mutex. */
static void end_offers(struct core *core) {
    struct node *next;
    for (struct node *it = core->keeping_up; it; it = next) {
        struct reader *reader = keeping_up(it);
        unsigned offer = atomic_load_explicit(&reader->offer, memory_order_acquire);
        next = it->next;
        if (take_away(reader, &offer, offer & ~OFFERED))
            fall_behind(reader);
        kv_view_close(&reader->pages[offer & ~OFFERED].view);
    }
}

/* Opens the views that are offered next. Who gets none for want of memory falls behind. Under the mutex. */
static void open_offers(struct core *core, uint64_t sequence) {
    struct node *next;
    for (struct node *it = core->keeping_up; it; it = next) {
        struct reader *reader = keeping_up(it);
        struct page *page = &reader->pages[atomic_load_explicit(&reader->offer, memory_order_relaxed)];
        next = it->next;
        page->seen = sequence;
        page->last = core->last;
        if (kv_snapshot(&core->bucket, &page->view) != KV_OK)
            fall_behind(reader);
    }
}

/* Changes the sequence, and wakes who waits for that: where nobody does, that is one store. Under the mutex. */
static void publish(struct core *core, uint64_t sequence) {
    atomic_store_explicit(&core->sequence, sequence, memory_order_release);
    if (!core->has_waiters)
        return;
    core->has_waiters = false;
    pthread_cond_broadcast(&core->changed);
    for (struct node *it = core->followers; it; it = it->next)
        signal_fd(STANDS_IN(struct follower, among_all, it));
}

/* The same for what readers read. A view is offered behind the change of the sequence: once one reader has what is new,
 * every other that asks goes on to it. Under the mutex. */
static void publish_and_offer(struct core *core, uint64_t sequence) {
    end_offers(core);
    admit(core);
    open_offers(core, sequence);
    publish(core, sequence);
    for (struct node *it = core->keeping_up; it; it = it->next)
        atomic_fetch_or_explicit(&keeping_up(it)->offer, OFFERED, memory_order_release);
}

/* Lets the mutex go, and so many calls leave. A close waits for that, under the mutex. */
static void leave_all(kv_shared *shared, struct core *core, uint64_t calls) {
    if (__atomic_sub_fetch(&shared->state, calls * INSIDE, __ATOMIC_RELEASE) == 0)
        pthread_cond_signal(&core->idle);
    pthread_mutex_unlock(&core->lock);
}

static uint64_t leave(kv_shared *shared, struct core *core, uint64_t code) {
    leave_all(shared, core, 1);
    return code;
}

/* The same behind an act, which is published where it was accepted. */
static uint64_t leave_published(kv_shared *shared, struct core *core, uint64_t code) {
    if (code == KV_OK)
        publish_and_offer(core, sequence_of(core) + ONE_ACT);
    return leave(shared, core, code);
}

static uint64_t leave_written(kv_shared *shared, struct core *core, uint64_t code, const uint64_t *revision) {
    if (code == KV_OK)
        core->last = *revision;
    return leave_published(shared, core, code);
}

/* Comes in by a handle; NULL where it is closed. */
static struct core *come_in(kv_shared *shared) {
    uint64_t state = __atomic_load_n(&shared->state, __ATOMIC_RELAXED);
    while (state & OPEN)
        if (__atomic_compare_exchange_n(&shared->state, &state, state + INSIDE, true, __ATOMIC_ACQUIRE,
                                        __ATOMIC_RELAXED))
            return shared->at;
    return NULL;
}

/* Takes the mutex, for who has come in; NULL where the handle was closed, or is while this call waits for the mutex. */
static struct core *lock_open(kv_shared *shared, struct core *core) {
    if (!core)
        return NULL;
    pthread_mutex_lock(&core->lock);
    if (!(sequence_of(core) & CLOSED))
        return core;
    leave(shared, core, KV_CLOSED);
    return NULL;
}

static struct core *enter(kv_shared *shared) {
    return lock_open(shared, come_in(shared));
}

/* Drops one reference. */
static void release(struct core *core) {
    if (atomic_fetch_sub(&core->references, 1) != 1)
        return;
    pthread_cond_destroy(&core->idle);
    pthread_cond_destroy(&core->changed);
    pthread_mutex_destroy(&core->lock);
    free(core);
}

/* Sleepers go by a clock that nobody sets. */
static bool make_condition(pthread_cond_t *condition) {
    pthread_condattr_t steady;
    bool is_made;
    if (pthread_condattr_init(&steady) != 0)
        return false;
    pthread_condattr_setclock(&steady, CLOCK_MONOTONIC);
    is_made = pthread_cond_init(condition, &steady) == 0;
    pthread_condattr_destroy(&steady);
    return is_made;
}

/* What an opening stands on: NULL where there is no memory, or the handle is open, which *code tells. */
static struct core *new_core(kv_shared *shared, uint64_t *code) {
    struct core *core;
    *code = KV_OPEN_ALREADY;
    if (__atomic_load_n(&shared->state, __ATOMIC_ACQUIRE) & OPEN)
        return NULL;
    *code = KV_OUT_OF_MEMORY;
    core = malloc(sizeof *core);
    if (!core)
        return NULL;
    *core =
        (struct core){.lock = PTHREAD_ADAPTIVE_MUTEX_INITIALIZER_NP, .idle = PTHREAD_COND_INITIALIZER, .references = 1};
    if (make_condition(&core->changed))
        return core;
    free(core);
    return NULL;
}

/* Opens the handle on a core whose bucket was opened. Where that was refused, the core is freed. */
static uint64_t opened(kv_shared *shared, struct core *core, uint64_t code) {
    kv_status status;
    if (code != KV_OK) {
        release(core);
        return code;
    }
    /* That of an open bucket is never refused. */
    kv_get_status(&core->bucket, &status);
    core->last = status.last;
    shared->at = core;
    __atomic_fetch_or(&shared->state, OPEN, __ATOMIC_RELEASE);
    return KV_OK;
}

uint64_t kv_shared_open(kv_shared *shared, const uint8_t *name, size_t name_size, const kv_limits *limits) {
    uint64_t code;
    struct core *core = new_core(shared, &code);
    return !core ? code : opened(shared, core, kv_open(&core->bucket, name, name_size, limits));
}

uint64_t kv_shared_open_file(kv_shared *shared, const uint8_t *path, size_t path_size, const uint8_t *name,
                             size_t name_size, const kv_limits *limits, uint64_t sync, uint64_t *dropped,
                             uint64_t *at) {
    uint64_t code;
    struct core *core = new_core(shared, &code);
    if (core)
        core->syncs_each = sync == KV_SYNC_EACH;
    return !core ? code
                 : opened(shared, core,
                          kv_open_file(&core->bucket, path, path_size, name, name_size, limits, sync, dropped, at));
}

uint64_t kv_shared_finish(kv_shared *shared) {
    struct core *core = enter(shared);
    if (!core)
        return KV_CLOSED;
    publish_and_offer(core, sequence_of(core) | FINISHED);
    return leave(shared, core, KV_OK);
}

uint64_t kv_shared_close(kv_shared *shared) {
    struct core *core;
    uint64_t code;
    if (!(__atomic_fetch_and(&shared->state, ~(uint64_t)OPEN, __ATOMIC_ACQ_REL) & OPEN))
        return KV_OK;
    core = shared->at;
    pthread_mutex_lock(&core->lock);
    publish(core, sequence_of(core) | CLOSED);
    while (__atomic_load_n(&shared->state, __ATOMIC_ACQUIRE) != 0)
        pthread_cond_wait(&core->idle, &core->lock);
    pthread_mutex_unlock(&core->lock);
    shared->at = NULL;
    /* Whoever finds the flag leaves the bucket alone. */
    code = kv_close(&core->bucket);
    release(core);
    return code;
}

/* Where each write is synced, a sync takes a hundred times as long as all else that a write does. So the writes that
 * come while one is made wait in a list, and are synced together. Who finds the list empty makes all that are in it
 * once the mutex is free: so one thread waits for the mutex, and each other one to be answered. */

/* Puts a write into the list, and tells whether that was empty. */
static bool is_first(struct core *core, struct asked *asked) {
    struct asked *next = atomic_load_explicit(&core->asked, memory_order_relaxed);
    do
        asked->next = next;
    while (!atomic_compare_exchange_weak_explicit(&core->asked, &next, asked, memory_order_release,
                                                  memory_order_relaxed));
    return !next;
}

/* Takes the list, in the order in which the writes came. Under the mutex. */
static struct asked *take_asked(struct core *core) {
    struct asked *it = atomic_exchange_explicit(&core->asked, NULL, memory_order_acquire), *next, *first = NULL;
    for (; it; it = next) {
        next = it->next;
        it->next = first;
        first = it;
    }
    return first;
}

/* Makes a write that is to wait for the sync. */
static uint64_t make(kv_bucket *bucket, struct asked *asked) {
    switch (asked->kind) {
    case KV_MORE_PUT:
        return kv_make_put(bucket, asked->key, asked->key_size, asked->value, asked->value_size, &asked->revision);
    case KV_MORE_CREATE:
        return kv_make_create(bucket, asked->key, asked->key_size, asked->value, asked->value_size, &asked->revision);
    case KV_MORE_UPDATE:
        return kv_make_update(bucket, asked->key, asked->key_size, asked->value, asked->value_size, asked->last,
                              &asked->revision);
    case KV_MORE_DELETE:
        return kv_make_delete(bucket, asked->key, asked->key_size, asked->has_last, asked->last, &asked->revision);
    default:
        return kv_make_purge(bucket, asked->key, asked->key_size, asked->has_last, asked->last, &asked->revision);
    }
}

/* The same behind those that wait for it. */
static uint64_t make_more(kv_bucket *bucket, struct asked *asked) {
    return kv_make_more(bucket, asked->kind, asked->key, asked->key_size, asked->value, asked->value_size,
                        asked->has_last, asked->last, &asked->revision);
}

/* Writes and syncs what is made from the first of these on, up to another one, and publishes it. Where that fails, all
 * are refused: who was refused behind such a write was judged by what has never come to be. Under the mutex. */
static void finish_group(struct core *core, struct asked *first, const struct asked *end) {
    uint64_t acts = 0, code = kv_finish(&core->bucket, &first->revision);
    for (struct asked *it = first; it != end; it = it->next) {
        if (code != KV_OK)
            it->code = code;
        else if (it->code == KV_MADE) {
            it->code = KV_OK;
            core->last = it->revision;
            acts++;
        }
    }
    if (acts)
        publish_and_offer(core, sequence_of(core) + acts * ONE_ACT);
}

/* Makes writes one behind the other, and gives each its code. Under the mutex. */
static void write_group(struct core *core, struct asked *group) {
    struct asked *first = NULL; /* of those that are made and wait */
    for (struct asked *it = group; it; it = it->next) {
        it->code = first ? make_more(&core->bucket, it) : KV_CLOSED;
        if (it->code != KV_CLOSED)
            continue;
        if (first)
            finish_group(core, first, it);
        it->code = make(&core->bucket, it);
        first = it->code == KV_MADE ? it : NULL;
    }
    if (first)
        finish_group(core, first, NULL);
}

/* Makes the writes of the list, of which one's own is the first, and answers the others. These leave here: once one is
 * answered, its frame is gone. */
static void lead(kv_shared *shared, struct core *core, struct asked *own) {
    struct asked *group, *next;
    uint64_t calls = 0;
    pthread_mutex_lock(&core->lock);
    group = take_asked(core);
    if (!(sequence_of(core) & CLOSED))
        write_group(core, group);
    for (struct asked *it = group; it; it = it->next)
        calls++;
    leave_all(shared, core, calls);
    for (struct asked *it = own->next; it; it = next) {
        next = it->next;
        sem_post(&it->is_answered);
    }
}

/* A write, synced with those that come meanwhile, for who has come in. */
static uint64_t write_with_others(kv_shared *shared, struct core *core, struct asked *asked, uint64_t *revision) {
    asked->code = KV_CLOSED;
    sem_init(&asked->is_answered, 0, 0);
    if (is_first(core, asked))
        lead(shared, core, asked);
    else
        while (sem_wait(&asked->is_answered) != 0)
            ;
    sem_destroy(&asked->is_answered);
    if (asked->code == KV_OK || asked->code == KV_WRONG_LAST_REVISION)
        *revision = asked->revision;
    return asked->code;
}

uint64_t kv_shared_put(kv_shared *shared, const uint8_t *key, size_t key_size, const uint8_t *value, size_t value_size,
                       uint64_t *revision) {
    struct core *core = come_in(shared);
    if (core && core->syncs_each)
        return write_with_others(shared, core,
                                 &(struct asked){KV_MORE_PUT, key, key_size, value, value_size, false, 0, .next = NULL},
                                 revision);
    core = lock_open(shared, core);
    return !core ? KV_CLOSED
                 : leave_written(shared, core, kv_put(&core->bucket, key, key_size, value, value_size, revision),
                                 revision);
}

uint64_t kv_shared_create(kv_shared *shared, const uint8_t *key, size_t key_size, const uint8_t *value,
                          size_t value_size, uint64_t *revision) {
    struct core *core = come_in(shared);
    if (core && core->syncs_each)
        return write_with_others(
            shared, core, &(struct asked){KV_MORE_CREATE, key, key_size, value, value_size, false, 0, .next = NULL},
            revision);
    core = lock_open(shared, core);
    return !core ? KV_CLOSED
                 : leave_written(shared, core, kv_create(&core->bucket, key, key_size, value, value_size, revision),
                                 revision);
}

uint64_t kv_shared_update(kv_shared *shared, const uint8_t *key, size_t key_size, const uint8_t *value,
                          size_t value_size, uint64_t last, uint64_t *revision) {
    struct core *core = come_in(shared);
    if (core && core->syncs_each)
        return write_with_others(
            shared, core, &(struct asked){KV_MORE_UPDATE, key, key_size, value, value_size, false, last, .next = NULL},
            revision);
    core = lock_open(shared, core);
    return !core ? KV_CLOSED
                 : leave_written(shared, core,
                                 kv_update(&core->bucket, key, key_size, value, value_size, last, revision), revision);
}

uint64_t kv_shared_delete(kv_shared *shared, const uint8_t *key, size_t key_size, bool has_last, uint64_t last,
                          uint64_t *revision) {
    struct core *core = come_in(shared);
    if (core && core->syncs_each)
        return write_with_others(shared, core,
                                 &(struct asked){KV_MORE_DELETE, key, key_size, key, 0, has_last, last, .next = NULL},
                                 revision);
    core = lock_open(shared, core);
    return !core ? KV_CLOSED
                 : leave_written(shared, core, kv_delete(&core->bucket, key, key_size, has_last, last, revision),
                                 revision);
}

uint64_t kv_shared_purge(kv_shared *shared, const uint8_t *key, size_t key_size, bool has_last, uint64_t last,
                         uint64_t *revision) {
    struct core *core = come_in(shared);
    if (core && core->syncs_each)
        return write_with_others(shared, core,
                                 &(struct asked){KV_MORE_PURGE, key, key_size, key, 0, has_last, last, .next = NULL},
                                 revision);
    core = lock_open(shared, core);
    return !core ? KV_CLOSED
                 : leave_written(shared, core, kv_purge(&core->bucket, key, key_size, has_last, last, revision),
                                 revision);
}

/* A batch of no writes is no act: nothing is published. */
uint64_t kv_shared_write_all(kv_shared *shared, kv_batch *batch, uint64_t *revision, size_t *at) {
    struct core *core = enter(shared);
    size_t size = 0;
    uint64_t code;
    if (!core)
        return KV_CLOSED;
    code = kv_batch_size(batch, &size);
    if (code == KV_OK)
        code = kv_batch_write(&core->bucket, batch, revision, at);
    if (code != KV_OK || size == 0)
        return leave(shared, core, code);
    core->last = *revision + size - 1;
    return leave_published(shared, core, KV_OK);
}

uint64_t kv_shared_sync(kv_shared *shared) {
    struct core *core = enter(shared);
    return !core ? KV_CLOSED : leave(shared, core, kv_sync(&core->bucket));
}

uint64_t kv_shared_checkpoint(kv_shared *shared) {
    struct core *core = enter(shared);
    return !core ? KV_CLOSED : leave(shared, core, kv_checkpoint(&core->bucket));
}

uint64_t kv_shared_seal(kv_shared *shared) {
    struct core *core = enter(shared);
    return !core ? KV_CLOSED : leave_published(shared, core, kv_seal(&core->bucket));
}

uint64_t kv_shared_compact(kv_shared *shared, uint64_t floor, uint64_t *watch) {
    struct core *core = enter(shared);
    uint64_t code;
    if (!core)
        return KV_CLOSED;
    code = kv_compact(&core->bucket, floor, watch);
    if (code == KV_OK)
        core->floor = floor;
    return leave_published(shared, core, code);
}

/* Lowers a floor to the last revision that a reader or a follower has gone on to, unless the bucket was compacted past
 * that already. */
static void lower(struct core *core, uint64_t *floor, uint64_t last) {
    if (last >= core->floor && last < *floor)
        *floor = last;
}

/* A follower goes on where it has handed out all that it went on to. So it lags behind a floor exactly where that is
 * above the last revision that it has gone on to. */
uint64_t kv_shared_reach(kv_shared *shared, uint64_t *floor) {
    struct core *core = enter(shared);
    uint64_t code, least = 0;
    if (!core)
        return KV_CLOSED;
    code = kv_reach(&core->bucket, &least);
    for (struct node *it = core->followers; it; it = it->next) {
        struct follower *follower = STANDS_IN(struct follower, among_all, it);
        if (!atomic_load(&follower->is_stopped))
            lower(core, &least, atomic_load(&follower->last));
    }
    for (struct node *it = core->readers; it; it = it->next)
        lower(core, &least, atomic_load(&STANDS_IN(struct reader, among_all, it)->last));
    if (code == KV_OK)
        *floor = least;
    return leave(shared, core, code);
}

uint64_t kv_shared_get(kv_shared *shared, const uint8_t *key, size_t key_size, uint8_t *room, size_t room_size,
                       size_t *size, uint64_t *revision) {
    struct core *core = enter(shared);
    return !core ? KV_CLOSED
                 : leave(shared, core, kv_get(&core->bucket, key, key_size, room, room_size, size, revision));
}

uint64_t kv_shared_get_at(kv_shared *shared, const uint8_t *key, size_t key_size, uint64_t at, uint8_t *room,
                          size_t room_size, size_t *size, uint64_t *revision) {
    struct core *core = enter(shared);
    return !core ? KV_CLOSED
                 : leave(shared, core, kv_get_at(&core->bucket, key, key_size, at, room, room_size, size, revision));
}

uint64_t kv_shared_history(kv_shared *shared, const uint8_t *key, size_t key_size, size_t index, uint8_t *room,
                           size_t room_size, kv_item *item, size_t *count) {
    struct core *core = enter(shared);
    return !core ? KV_CLOSED
                 : leave(shared, core, kv_history(&core->bucket, key, key_size, index, room, room_size, item, count));
}

uint64_t kv_shared_keys(kv_shared *shared, const uint8_t *filters, size_t filters_size, uint8_t *room, size_t room_size,
                        size_t *size, size_t *count) {
    struct core *core = enter(shared);
    return !core ? KV_CLOSED
                 : leave(shared, core, kv_keys(&core->bucket, filters, filters_size, room, room_size, size, count));
}

uint64_t kv_shared_get_status(kv_shared *shared, kv_status *status) {
    struct core *core = enter(shared);
    return !core ? KV_CLOSED : leave(shared, core, kv_get_status(&core->bucket, status));
}

uint64_t kv_shared_snapshot(kv_shared *shared, kv_view *view) {
    struct core *core = enter(shared);
    return !core ? KV_CLOSED : leave(shared, core, kv_snapshot(&core->bucket, view));
}

uint64_t kv_shared_watch(kv_shared *shared, const uint8_t *filters, size_t filters_size, const kv_options *options,
                         uint64_t *number) {
    struct core *core = enter(shared);
    return !core ? KV_CLOSED : leave(shared, core, kv_watch(&core->bucket, filters, filters_size, options, number));
}

uint64_t kv_shared_take(kv_shared *shared, uint64_t number, uint8_t *keys, size_t keys_size, uint8_t *values,
                        size_t values_size, kv_item *item) {
    struct core *core = enter(shared);
    return !core ? KV_CLOSED
                 : leave(shared, core, kv_take(&core->bucket, number, keys, keys_size, values, values_size, item));
}

uint64_t kv_shared_stop(kv_shared *shared, uint64_t number, uint64_t *handed) {
    struct core *core = enter(shared);
    return !core ? KV_CLOSED : leave(shared, core, kv_stop(&core->bucket, number, handed));
}

uint64_t kv_reader_open(kv_shared *shared, kv_reader *handle) {
    struct core *core = enter(shared);
    struct reader *reader;
    uint64_t code;
    if (!core)
        return KV_CLOSED;
    if (handle->is_open)
        return leave(shared, core, KV_OPEN_ALREADY);
    reader = malloc(sizeof *reader);
    if (!reader)
        return leave(shared, core, KV_OUT_OF_MEMORY);
    *reader = (struct reader){.core = core, .last = core->last, .offer = 1};
    reader->pages[0].seen = sequence_of(core);
    code = kv_snapshot(&core->bucket, &reader->pages[0].view);
    if (code == KV_OK) {
        atomic_fetch_add(&core->references, 1);
        join(&core->readers, &reader->among_all);
        *handle = (kv_reader){true, reader};
    } else
        free(reader);
    return leave(shared, core, code);
}

/* Goes on to a view that was offered meanwhile, or to one of its own. Under the mutex, which it lets go. */
static uint64_t go_on_and_unlock(struct reader *reader) {
    struct core *core = reader->core;
    struct page *page = &reader->pages[reader->at];
    kv_view later = {0}, left = {0};
    uint64_t sequence = sequence_of(core), code = KV_OK;
    if (sequence & CLOSED)
        code = KV_CLOSED;
    else if (!take_offer(reader)) {
        code = kv_snapshot(&core->bucket, &later);
        if (code == KV_OK) {
            left = page->view;
            *page = (struct page){.view = later, .seen = sequence, .last = core->last};
            atomic_store_explicit(&reader->last, core->last, memory_order_relaxed);
        }
    }
    pthread_mutex_unlock(&core->lock);
    kv_view_close(&left);
    return code;
}

/* Goes on to what is published: by an offer, or by the mutex, whichever it has first. */
static uint64_t go_on(struct reader *reader) {
    for (int i = 0; i < LOOKS; i++) {
        if (!atomic_load_explicit(&reader->is_keeping_up, memory_order_acquire))
            catch_up(reader);
        if (take_offer(reader))
            return KV_OK;
        if (i % LOOKS_FOR_ONE_TRY == 0 && pthread_mutex_trylock(&reader->core->lock) == 0)
            return go_on_and_unlock(reader);
        __builtin_ia32_pause();
    }
    pthread_mutex_lock(&reader->core->lock);
    return go_on_and_unlock(reader);
}

/* The view of a handle's reader, gone on to all that is published; NULL where it can't, and the code says why. What was
 * offered is taken away before the sequence changes again: so an offer that is there is of no older one. */
static kv_view *refreshed(kv_reader *handle, uint64_t *code) {
    struct reader *reader = handle->at;
    uint64_t sequence;
    *code = KV_CLOSED;
    if (!handle->is_open)
        return NULL;
    sequence = sequence_of(reader->core);
    if (sequence == reader->pages[reader->at].seen)
        return &reader->pages[reader->at].view;
    if (sequence & CLOSED)
        return NULL;
    *code = go_on(reader);
    return *code == KV_OK ? &reader->pages[reader->at].view : NULL;
}

uint64_t kv_reader_get(kv_reader *handle, const uint8_t *key, size_t key_size, uint8_t *room, size_t room_size,
                       size_t *size, uint64_t *revision) {
    uint64_t code;
    kv_view *view = refreshed(handle, &code);
    return view ? kv_view_get(view, key, key_size, room, room_size, size, revision) : code;
}

uint64_t kv_reader_get_at(kv_reader *handle, const uint8_t *key, size_t key_size, uint64_t at, uint8_t *room,
                          size_t room_size, size_t *size, uint64_t *revision) {
    uint64_t code;
    kv_view *view = refreshed(handle, &code);
    return view ? kv_view_get_at(view, key, key_size, at, room, room_size, size, revision) : code;
}

uint64_t kv_reader_history(kv_reader *handle, const uint8_t *key, size_t key_size, size_t index, uint8_t *room,
                           size_t room_size, kv_item *item, size_t *count) {
    uint64_t code;
    kv_view *view = refreshed(handle, &code);
    return view ? kv_view_history(view, key, key_size, index, room, room_size, item, count) : code;
}

uint64_t kv_reader_keys(kv_reader *handle, const uint8_t *filters, size_t filters_size, uint8_t *room, size_t room_size,
                        size_t *size, size_t *count) {
    uint64_t code;
    kv_view *view = refreshed(handle, &code);
    return view ? kv_view_keys(view, filters, filters_size, room, room_size, size, count) : code;
}

uint64_t kv_reader_get_status(kv_reader *handle, kv_status *status) {
    uint64_t code;
    kv_view *view = refreshed(handle, &code);
    return view ? kv_view_get_status(view, status) : code;
}

void kv_reader_close(kv_reader *handle) {
    struct reader *reader = handle->at;
    if (!handle->is_open)
        return;
    *handle = (kv_reader){0};
    pthread_mutex_lock(&reader->core->lock);
    admit(reader->core);
    if (atomic_load_explicit(&reader->is_keeping_up, memory_order_relaxed))
        fall_behind(reader);
    part(&reader->among_all);
    pthread_mutex_unlock(&reader->core->lock);
    kv_view_close(&reader->pages[0].view);
    kv_view_close(&reader->pages[1].view);
    release(reader->core);
    free(reader);
}

/* Takes a follower out from those of its core, and frees it. */
static void free_follower(struct follower *follower) {
    struct core *core = follower->core;
    pthread_mutex_lock(&core->lock);
    part(&follower->among_all);
    pthread_mutex_unlock(&core->lock);
    if (follower->fd >= 0)
        close(follower->fd);
    kv_feed_close(&follower->feed);
    release(core);
    free(follower);
}

/* It stands among the followers before its feed is opened, which may look at each key: so a floor that kv_shared_reach
 * tells meanwhile is none that it lags behind. */
uint64_t kv_follower_open(kv_shared *shared, const uint8_t *filters, size_t filters_size, const kv_options *options,
                          kv_follower *handle) {
    struct core *core = enter(shared);
    struct follower *follower;
    kv_view view = {0};
    uint64_t code;
    if (!core)
        return KV_CLOSED;
    if (handle->is_open)
        return leave(shared, core, KV_OPEN_ALREADY);
    follower = malloc(sizeof *follower);
    if (!follower)
        return leave(shared, core, KV_OUT_OF_MEMORY);
    *follower = (struct follower){.core = core, .seen = sequence_of(core), .last = core->last, .fd = -1};
    code = kv_snapshot(&core->bucket, &view);
    if (code != KV_OK) {
        free(follower);
        return leave(shared, core, code);
    }
    join(&core->followers, &follower->among_all);
    atomic_fetch_add(&core->references, 1);
    leave(shared, core, KV_OK);
    code = kv_feed_open(&view, filters, filters_size, options, &follower->feed);
    kv_view_close(&view);
    if (code == KV_OK)
        *handle = (kv_follower){true, follower};
    else
        free_follower(follower);
    return code;
}

static bool is_ended(struct follower *follower) {
    return sequence_of(follower->core) & CLOSED || atomic_load_explicit(&follower->is_stopped, memory_order_relaxed);
}

/* How long a next may sleep. The clock is read before it first does. */
struct timeout {
    uint64_t milliseconds;
    bool has_begun;
    struct timespec until;
};

/* Sleeps until somebody wakes it, and answers whether the time was over first. Under the mutex. */
static bool wait_timed_out(struct core *core, struct timeout *timeout) {
    if (timeout->milliseconds == 0)
        return true;
    core->has_waiters = true;
    if (timeout->milliseconds == KV_FOREVER) {
        pthread_cond_wait(&core->changed, &core->lock);
        return false;
    }
    if (!timeout->has_begun) {
        clock_gettime(CLOCK_MONOTONIC, &timeout->until);
        timeout->until.tv_sec += timeout->milliseconds / 1000;
        timeout->until.tv_nsec += timeout->milliseconds % 1000 * 1000000;
        if (timeout->until.tv_nsec >= 1000000000) {
            timeout->until.tv_nsec -= 1000000000;
            timeout->until.tv_sec++;
        }
        timeout->has_begun = true;
    }
    return pthread_cond_timedwait(&core->changed, &core->lock, &timeout->until) == ETIMEDOUT;
}

/* Waits until there is more than a follower has seen, and opens a view of that; or answers why there is none: with
 * KV_OK and a closed view where the time was over. */
static uint64_t await_view(struct follower *follower, struct timeout *timeout, kv_view *view, uint64_t *seen,
                           uint64_t *last) {
    struct core *core = follower->core;
    bool is_over = false;
    uint64_t code = KV_OK;
    pthread_mutex_lock(&core->lock);
    for (;;) {
        *seen = sequence_of(core);
        *last = core->last;
        if (is_ended(follower))
            code = KV_CLOSED;
        else if (*seen != follower->seen)
            code = kv_snapshot(&core->bucket, view);
        else if (*seen & FINISHED)
            code = KV_CLOSED;
        else if (!is_over) {
            is_over = wait_timed_out(core, timeout);
            continue;
        } else
            rearm_fd(follower);
        break;
    }
    pthread_mutex_unlock(&core->lock);
    return code;
}

uint64_t kv_follower_next(kv_follower *handle, uint64_t milliseconds, uint8_t *keys, size_t keys_size, uint8_t *values,
                          size_t values_size, kv_item *item, uint64_t *floor) {
    struct follower *follower = handle->at;
    struct timeout timeout = {.milliseconds = milliseconds};
    if (!handle->is_open)
        return KV_CLOSED;
    for (;;) {
        kv_view view = {0};
        kv_item taken;
        uint64_t code, seen, last;
        if (is_ended(follower))
            return KV_CLOSED;
        code = kv_feed_take(&follower->feed, keys, keys_size, values, values_size, &taken);
        if (code != KV_OK || taken.kind != KV_EMPTY) {
            if (code == KV_OK || code == KV_TOO_LITTLE_ROOM)
                *item = taken;
            return code;
        }
        code = await_view(follower, &timeout, &view, &seen, &last);
        if (code == KV_OK && !view.is_open)
            *item = taken;
        if (code != KV_OK || !view.is_open)
            return code;
        code = kv_feed_refresh(&follower->feed, &view, floor);
        kv_view_close(&view);
        if (code != KV_OK)
            return code;
        follower->seen = seen;
        atomic_store(&follower->last, last);
    }
}

uint64_t kv_follower_fd(kv_follower *handle, int *fd) {
    struct follower *follower = handle->at;
    if (!handle->is_open || is_ended(follower))
        return KV_CLOSED;
    if (follower->fd < 0)
        follower->fd = eventfd(1, EFD_CLOEXEC | EFD_NONBLOCK);
    if (follower->fd < 0)
        return errno == ENOMEM ? KV_OUT_OF_MEMORY : KV_NO_DESCRIPTOR;
    *fd = follower->fd;
    return KV_OK;
}

uint64_t kv_follower_stop(kv_follower *handle) {
    struct follower *follower = handle->at;
    struct core *core;
    uint64_t code = KV_OK;
    if (!handle->is_open)
        return KV_CLOSED;
    core = follower->core;
    pthread_mutex_lock(&core->lock);
    if (sequence_of(core) & CLOSED)
        code = KV_CLOSED;
    atomic_store(&follower->is_stopped, true);
    pthread_cond_broadcast(&core->changed);
    signal_fd(follower);
    pthread_mutex_unlock(&core->lock);
    return code;
}

void kv_follower_close(kv_follower *handle) {
    struct follower *follower = handle->at;
    if (!handle->is_open)
        return;
    *handle = (kv_follower){0};
    free_follower(follower);
}
