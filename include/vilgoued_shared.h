/* A bucket that threads share: one bucket behind one mutex, with readers, which have a view each, followers, which
 * sleep until there is something for them, and watchers, which are followers on threads of their own.
 *
 * This shell is C, and not proved: it is tested, under sanitizers too. Each step that it makes on a bucket, a view or
 * a feed is a call of an export of vilgoued.h, and these are proved.
 *
 * A handle whose bytes are all 0 is closed. The caller owns the handles, and all memory that it names, as vilgoued.h
 * has it. A kv_shared is used by any number of threads at once, its close among them; so it stays where it is while it
 * is open. A kv_reader, a kv_follower and a kv_watcher are used by one call at a time, but for kv_follower_stop; they
 * may go to another thread between two calls, with a lock, or at that thread's start or end.
 *
 * Each function that returns a number returns KV_OK or why it was refused, with the codes of vilgoued.h. A refused
 * call changes nothing but that a reader or a follower may have gone on; it copies nothing, and tells no more than the
 * call of vilgoued.h that it is named after. KV_CLOSED comes before every other code. KV_OUT_OF_MEMORY may come from
 * each call but those that close or stop; such a call can be made again. No function may be called from a signal
 * handler, nor in the forked child of a process with threads, and no thread is cancelled in one.
 *
 * A program is linked with -pthread.
 */
#ifndef VILGOUED_SHARED_H
#define VILGOUED_SHARED_H
#include "vilgoued.h"
#ifdef __cplusplus
extern "C" {
#endif

/* The shell's own codes: the system gives no descriptor, or no thread. Those of vilgoued.h are below 64. kv_code_name
 * has no names for these. */
enum { KV_NO_DESCRIPTOR = 64, KV_NO_THREAD = 65 };

/* A time in milliseconds that is never over. */
#define KV_FOREVER UINT64_MAX

/* A bucket that threads share. `state` and `at` are the library's own. */
typedef struct kv_shared {
    uint64_t state;
    void *at;
} kv_shared;

/* One thread's view of it, which goes on by itself. */
typedef struct kv_reader {
    bool is_open;
    void *at;
} kv_reader;

/* A watch of it, which goes on by itself and can sleep. */
typedef struct kv_follower {
    bool is_open;
    void *at;
} kv_follower;

/* A follower on a thread of its own. */
typedef struct kv_watcher {
    bool is_open;
    void *at;
} kv_watcher;

/* What a watcher calls with each item: a function of the caller's. `with` is what the opening named. The key and the
 * value have as many bytes as the item tells, and a zero byte behind these; they and the item are there during the call
 * alone. */
typedef void kv_watched(void *with, const kv_item *item, const char *key, const char *value);

/* Opens a bucket with no writes, as kv_open. KV_OPEN_ALREADY where the handle is open. One thread opens it, before the
 * others use it. */
uint64_t kv_shared_open(kv_shared *shared, const uint8_t *name, size_t name_size, const kv_limits *limits);

/* The same with a file, as kv_open_file. Its calls sync one after another, under the mutex; but with KV_SYNC_EACH one sync
 * serves all writes that wait for it, batches aside. */
uint64_t kv_shared_open_file(kv_shared *shared, const uint8_t *path, size_t path_size, const uint8_t *name,
                             size_t name_size, const kv_limits *limits, uint64_t sync, uint64_t *dropped,
                             uint64_t *at);
uint64_t kv_shared_sync(kv_shared *shared);
/* As kv_checkpoint, under the mutex: writes wait for it, and reads, takes and sleepers do not. */
uint64_t kv_shared_checkpoint(kv_shared *shared);

/* Tells followers that no write comes any more: who sleeps is woken, and kv_follower_next is KV_CLOSED once all was
 * handed out. It stops no writer: a write that comes all the same is published, and handed out by a later next. Any
 * thread, and more than once. So a service ends by a finish, the end of its followers, and then the close. */
uint64_t kv_shared_finish(kv_shared *shared);

/* Frees the bucket with its held watches, wakes all followers, and closes the handle. Any thread may close, also while
 * others call, sleep or read: it waits for the calls that are inside with this handle, and each call behind it is
 * KV_CLOSED, with this handle and with those of readers and followers, also where a follower had items left. Their
 * owners close these, before or after. A closed handle stays closed, and its memory has to be there as long as a
 * thread may call with it. It may be opened again once the close has returned. It tells what kv_close does. */
uint64_t kv_shared_close(kv_shared *shared);

/* Writes, as the calls of vilgoued.h that they are named after, with the same refusals. Any thread. Each holds the
 * mutex for as long as its write takes, and is published before it returns: a reader's next call reads it, and a
 * follower is handed it. Each takes about a tenth of a microsecond more than the call of vilgoued.h, and some
 * microseconds where it wakes somebody. */
uint64_t kv_shared_put(kv_shared *shared, const uint8_t *key, size_t key_size, const uint8_t *value, size_t value_size,
                       uint64_t *revision);
uint64_t kv_shared_create(kv_shared *shared, const uint8_t *key, size_t key_size, const uint8_t *value,
                          size_t value_size, uint64_t *revision);
uint64_t kv_shared_update(kv_shared *shared, const uint8_t *key, size_t key_size, const uint8_t *value,
                          size_t value_size, uint64_t last, uint64_t *revision);
uint64_t kv_shared_delete(kv_shared *shared, const uint8_t *key, size_t key_size, bool has_last, uint64_t last,
                          uint64_t *revision);
uint64_t kv_shared_purge(kv_shared *shared, const uint8_t *key, size_t key_size, bool has_last, uint64_t last,
                         uint64_t *revision);
uint64_t kv_shared_seal(kv_shared *shared);

/* Makes all that is gathered in a batch in one step, or nothing of it, as kv_batch_write. It is published in one step
 * too: a reader's next call reads all of it, and no reader, follower or view ends between two of its writes. It holds
 * the mutex for as long as all its writes take. Any thread; one call at a time uses the batch. */
uint64_t kv_shared_write_all(kv_shared *shared, kv_batch *batch, uint64_t *revision, size_t *at);

/* Compacts to a floor, as kv_compact, and publishes that. Any thread. It holds the mutex while it looks at each key
 * and at each stored write. Readers and followers refuse nothing: a follower that has gone on to no revision as high
 * as the floor lags from then on. */
uint64_t kv_shared_compact(kv_shared *shared, uint64_t floor, uint64_t *watch);

/* The highest floor to which a compaction is refused by no held watch, makes no follower lag, and is above nothing that
 * a reader has gone on to, 0 where there is none. What others write, take, read, open or close meanwhile can only raise
 * it. A follower that lags already or was stopped does not count, and neither does a reader that an earlier compaction
 * went past: readers never lag. So a reader that reads nothing holds the floor back; its owner closes it. Any thread.
 * It looks at each follower and each reader under the mutex. */
uint64_t kv_shared_reach(kv_shared *shared, uint64_t *floor);

/* Reads under the mutex, as the calls of vilgoued.h that they are named after. Any thread. Who reads often, or many
 * entries, has a reader. */
uint64_t kv_shared_get(kv_shared *shared, const uint8_t *key, size_t key_size, uint8_t *room, size_t room_size,
                       size_t *size, uint64_t *revision);
uint64_t kv_shared_get_at(kv_shared *shared, const uint8_t *key, size_t key_size, uint64_t at, uint8_t *room,
                          size_t room_size, size_t *size, uint64_t *revision);
uint64_t kv_shared_history(kv_shared *shared, const uint8_t *key, size_t key_size, size_t index, uint8_t *room,
                           size_t room_size, kv_item *item, size_t *count);
uint64_t kv_shared_keys(kv_shared *shared, const uint8_t *filters, size_t filters_size, uint8_t *room, size_t room_size,
                        size_t *size, size_t *count);
uint64_t kv_shared_get_status(kv_shared *shared, kv_status *status);

/* Opens a view of this moment, as kv_snapshot: for reads that have to be of one moment, as those of a history entry by
 * entry. The view is closed by kv_view_close, before or after the bucket. Any thread. */
uint64_t kv_shared_snapshot(kv_shared *shared, kv_view *view);

/* Held watches, as kv_watch, kv_take and kv_stop have them: numbers that any thread may use. A take does not sleep.
 * One that is behind refuses a compaction. */
uint64_t kv_shared_watch(kv_shared *shared, const uint8_t *filters, size_t filters_size, const kv_options *options,
                         uint64_t *number);
uint64_t kv_shared_take(kv_shared *shared, uint64_t number, uint8_t *keys, size_t keys_size, uint8_t *values,
                        size_t values_size, kv_item *item);
uint64_t kv_shared_stop(kv_shared *shared, uint64_t number, uint64_t *handed);

/* Opens a reader. KV_OPEN_ALREADY where its handle is open. Any thread, and any number of readers. */
uint64_t kv_reader_open(kv_shared *shared, kv_reader *reader);

/* Reads, as the calls of views in vilgoued.h that they are named after. One call at a time. Each first goes on to all
 * that is published: it reads every write that had returned when it began, and nothing older than what a reader of this
 * bucket had read by then. That is one atomic load where nothing is new. A reader that looks at each act is offered a
 * view of it by whoever writes it, and takes that by one exchange, also while the next act is being written. One that
 * does not look as often takes a snapshot under the mutex, or is offered a view of the act that is being written. A
 * write takes some microseconds more beside readers that keep up, as it copies what they have, and frees the views that
 * these left. */
uint64_t kv_reader_get(kv_reader *reader, const uint8_t *key, size_t key_size, uint8_t *room, size_t room_size,
                       size_t *size, uint64_t *revision);
uint64_t kv_reader_get_at(kv_reader *reader, const uint8_t *key, size_t key_size, uint64_t at, uint8_t *room,
                          size_t room_size, size_t *size, uint64_t *revision);
uint64_t kv_reader_history(kv_reader *reader, const uint8_t *key, size_t key_size, size_t index, uint8_t *room,
                           size_t room_size, kv_item *item, size_t *count);
uint64_t kv_reader_keys(kv_reader *reader, const uint8_t *filters, size_t filters_size, uint8_t *room, size_t room_size,
                        size_t *size, size_t *count);
/* A view has no watches, so `watches` is 0. */
uint64_t kv_reader_get_status(kv_reader *reader, kv_status *status);

/* Frees the reader, and closes its handle: its owner, in its own time, also behind the bucket's close. */
void kv_reader_close(kv_reader *reader);

/* Opens a follower, as kv_feed_open opens a feed, with the same refusals: it begins with this moment. KV_OPEN_ALREADY
 * where its handle is open. Any thread, and any number of followers. What looks at keys does so without the mutex. */
uint64_t kv_follower_open(kv_shared *shared, const uint8_t *filters, size_t filters_size, const kv_options *options,
                          kv_follower *follower);

/* Hands out the next item, as kv_feed_take, with the same sizes and room. Where there is none it goes on to what is
 * published, and where nothing is, it sleeps until there is an item, or until so many milliseconds are over: with 0 it
 * does not sleep, and with KV_FOREVER as long as it takes. One call at a time.
 *
 * KV_OK with item->kind KV_EMPTY: the time was over first. KV_CLOSED: kv_shared_finish was called and all was handed
 * out, or the bucket was closed, or the follower stopped. KV_LAGGED, with *floor told: as kv_feed_refresh, a
 * compaction to this floor came before the follower had gone on as far; it is answered from then on, and the follower
 * can only be closed. KV_TOO_LITTLE_ROOM: nothing moved, and *item tells the sizes. *item and *floor stay as they were
 * with any other code. No item is lost by a refusal. */
uint64_t kv_follower_next(kv_follower *follower, uint64_t milliseconds, uint8_t *keys, size_t keys_size,
                          uint8_t *values, size_t values_size, kv_item *item, uint64_t *floor);

/* Tells a descriptor to wait on (poll, epoll, and the loops that stand on these). It is readable from its beginning
 * until a next answers KV_OK with KV_EMPTY, and then again from what is published next on, whether the filters match
 * that or not. It is readable for ever once the bucket was finished or closed, or the follower stopped. The follower
 * owns it: it is not read, written or closed by anybody else, and the close of the follower closes it. The same one
 * each time. KV_NO_DESCRIPTOR where the system gives none. One call at a time. */
uint64_t kv_follower_fd(kv_follower *follower, int *fd);

/* Ends a follower: where it sleeps it is woken, and each next from then on is KV_CLOSED. Any thread, also during a
 * next; but not during the close or behind it. */
uint64_t kv_follower_stop(kv_follower *follower);

/* Frees the follower, and closes its handle and its descriptor: its owner, in its own time, also behind the bucket's
 * close. */
void kv_follower_close(kv_follower *follower);

/* Opens a watcher: a follower, with the refusals of kv_follower_open, and a thread that calls `call` with each item,
 * one after another. It finds the room for the values, and where memory is refused it asks again a millisecond later.
 * It ends where kv_follower_next would be KV_CLOSED or KV_LAGGED: the last call has an item whose kind is KV_EMPTY. It
 * takes no signals. KV_NO_THREAD where the system gives no thread. Any thread. */
uint64_t kv_watcher_open(kv_shared *shared, const uint8_t *filters, size_t filters_size, const kv_options *options,
                         kv_watched *call, void *with, kv_watcher *watcher);

/* Waits until a watcher has ended and its last call has returned, and frees it: behind kv_shared_finish it has handed
 * out all. Tells why it ended: KV_CLOSED, or KV_LAGGED, behind which another one may be opened. KV_CLOSED where the
 * handle is closed. Not from the function that the watcher calls. */
uint64_t kv_watcher_join(kv_watcher *watcher);

/* The same, but it ends the watcher first, behind the call that is being made, whatever it has still to hand out. */
void kv_watcher_close(kv_watcher *watcher);

#ifdef __cplusplus
}
#endif
#endif
