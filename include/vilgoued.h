/* A key-value bucket in the memory of one process, with wildcard watches, and with a file if it is to outlive that.
 *
 * A handle whose bytes are all 0 is closed. The caller owns the handles and all memory that it names; keys, values and
 * names are read during the call alone. No pointer is null, also for a length of 0. The memory that a call names does
 * not overlap. A handle is used by one call at a time, and never through two copies.
 *
 * Each function that returns a number returns KV_OK or why it was refused. A refused call leaves the bucket as it was,
 * and copies nothing. What it would have told it leaves as it was too, but for what is said here of
 * KV_WRONG_LAST_REVISION, KV_WATCH_BEHIND, KV_LAGGED, KV_FILE_DAMAGED, KV_TOO_LITTLE_ROOM and the index of
 * kv_batch_write.
 */
#ifndef VILGOUED_H
#define VILGOUED_H
#include <stdbool.h>
#include <stddef.h>
#include <stdint.h>
#include <string.h>
#ifdef __cplusplus
extern "C" {
#endif

enum {
    KV_OK = 0,
    KV_OUT_OF_MEMORY = 1,
    KV_BAD_BUCKET = 2,
    KV_BAD_CONFIG = 3,
    KV_BAD_KEY = 4,
    KV_BAD_FILTER = 5,
    KV_VALUE_TOO_LARGE = 7,
    KV_SEALED = 8,
    KV_JOURNAL_FULL = 9,
    KV_KEY_EXISTS = 10,
    KV_WRONG_LAST_REVISION = 11,
    KV_KEY_NOT_FOUND = 12,
    KV_NO_SUCH_WATCH = 13,
    KV_TOO_MANY_WATCHES = 14,
    KV_BAD_FLOOR = 19,
    KV_WATCH_BEHIND = 20,
    KV_LAGGED = 21,
    KV_FILE_FAULT = 22,
    KV_FILE_DAMAGED = 23,
    KV_FILE_BUSY = 24,
    KV_OTHER_BUCKET = 25,
    KV_CLOSED = 32,
    KV_TOO_LITTLE_ROOM = 33,
    KV_OPEN_ALREADY = 34,
    KV_NO_SUCH_START = 35,
    KV_OLDER_VIEW = 36,
    KV_NO_SUCH_CODE = 37
};

/* A text that ends with a zero byte, as the bytes and the size that calls take: kv_put(&bucket, KV_TEXT("a"),
 * KV_TEXT("1"), &revision). It is evaluated twice. */
#define KV_TEXT(text) (const uint8_t *)(text), strlen(text)

/* What a take hands out: nothing is left, the end marker, an entry. */
enum { KV_EMPTY = 0, KV_MARKER = 1, KV_ENTRY = 2 };

enum { KV_PUT = 0, KV_DELETE = 1, KV_PURGE = 2 };

/* What a watch begins with: the latest entry of each matching key, all retained entries, none, those from a revision. */
enum { KV_LATEST = 0, KV_HISTORY = 1, KV_UPDATES = 2, KV_FROM = 3 };

/* When what a bucket with a file accepts is on the disk: once kv_sync or kv_close is called, or when its call answers.
 * Any other number n: when the n-th such call behind the last sync answers. */
enum { KV_SYNC_ASKED = 0, KV_SYNC_EACH = 1 };

typedef struct kv_bucket {
    bool is_open;
    void *at;
} kv_bucket;

/* What a bucket had accepted by a moment. It may be read on another thread than the bucket's. */
typedef struct kv_view {
    bool is_open;
    void *at;
} kv_view;

/* A watch over views, which may be on another thread than the bucket. */
typedef struct kv_feed {
    bool is_open;
    void *at;
} kv_feed;

/* Writes that are gathered, to be made in one step. With all bytes 0 it is empty: nothing opens it. It may be gathered on
 * another thread than the bucket's. */
typedef struct kv_batch {
    bool is_open;
    void *at;
} kv_batch;

typedef struct kv_limits {
    uint64_t history;        /* 1 to 64 entries of each key are kept */
    uint64_t value_limit;    /* 0 to 1,048,576 bytes of a value */
    uint64_t write_limit;    /* 1 to 1,000,000 writes */
    uint64_t revision_limit; /* the last revision, 1 to 4,294,967,295 */
} kv_limits;

typedef struct kv_options {
    uint32_t start;
    uint64_t from;
    bool ignore_deletes;
    bool headers_only;
} kv_options;

typedef struct kv_item {
    uint32_t kind;
    uint32_t op;
    uint64_t revision;
    size_t key_size;
    uint64_t size;     /* of the value, also where it isn't shown */
    size_t value_size; /* how much of it is copied: all, or 0 where it isn't shown; with too little room, would be */
    bool has_value;
} kv_item;

typedef struct kv_status {
    uint64_t history, last, stored, values, watches;
    bool sealed;
} kv_status;

uint64_t kv_open(kv_bucket *bucket, const uint8_t *name, size_t name_size, const kv_limits *limits);
/* Opens a bucket that outlives the process, by a journal file: what it had accepted is there again, but its watches. Where
 * the path names no file, or an empty one, it is made that of a new bucket: one under its name with .checkpoint behind it takes
 * its place, so a crash leaves an empty file or a whole one. No other opening has the file until this one is closed, or its
 * process has ended. *dropped tells how many bytes of a torn end were cut off, which a crash had left.
 *
 * KV_FILE_BUSY where another opening has the file; KV_OTHER_BUCKET where it is that of a bucket with another name or other
 * limits; KV_FILE_DAMAGED where its bytes are no longer those that were written, or it is no journal: *at is then, and only
 * then, the offset up to which they are good; KV_FILE_FAULT where the system refuses a call. */
uint64_t kv_open_file(kv_bucket *bucket, const uint8_t *path, size_t path_size, const uint8_t *name, size_t name_size,
                      const kv_limits *limits, uint64_t sync, uint64_t *dropped, uint64_t *at);
/* Brings all that was accepted onto the disk; without a file there is nothing to bring.
 *
 * Where a call of the file fails, the call that made it is refused as KV_FILE_FAULT, and from then on each that would be
 * added to the file, and each sync. Reads and watches go on. The write whose call failed may be in the file, or not: an
 * opening tells. */
uint64_t kv_sync(kv_bucket *bucket);
/* Replaces the bucket's file by one that has what the bucket stores, and none of what led to it: behind a compaction that is
 * smaller, and opens sooner. It is made in memory first, and then beside the file, under its name with .checkpoint behind
 * it; what has that name is overwritten. A crash leaves the old file or the new one, which is of the same bucket. Without
 * a file there is nothing to replace.
 *
 * KV_FILE_FAULT where a call of the files fails: before the new one has the name, the bucket goes on with the old one, and
 * behind that it goes on no more, as kv_sync says. kv_compact makes a checkpoint by itself, where the file has more than
 * twice the bytes that it has behind that; where this fails, the compaction is made all the same. */
uint64_t kv_checkpoint(kv_bucket *bucket);
/* Frees the bucket. Its file ends cleanly, with all on the disk: where that fails, or a call of the file had failed, it tells
 * KV_FILE_FAULT, and frees all the same. */
uint64_t kv_close(kv_bucket *bucket);

uint64_t kv_put(kv_bucket *bucket, const uint8_t *key, size_t key_size, const uint8_t *value, size_t value_size,
                uint64_t *revision);
uint64_t kv_create(kv_bucket *bucket, const uint8_t *key, size_t key_size, const uint8_t *value, size_t value_size,
                   uint64_t *revision);
/* Where these three are refused as KV_WRONG_LAST_REVISION, *revision is the key's last revision. */
uint64_t kv_update(kv_bucket *bucket, const uint8_t *key, size_t key_size, const uint8_t *value, size_t value_size,
                   uint64_t last, uint64_t *revision);
uint64_t kv_delete(kv_bucket *bucket, const uint8_t *key, size_t key_size, bool has_last, uint64_t last,
                   uint64_t *revision);
uint64_t kv_purge(kv_bucket *bucket, const uint8_t *key, size_t key_size, bool has_last, uint64_t last,
                  uint64_t *revision);
uint64_t kv_seal(kv_bucket *bucket);

/* Gathers a write behind those that are gathered. The key and the value are copied. KV_BAD_KEY, or KV_VALUE_TOO_LARGE
 * above 1,048,576 bytes, where no bucket would accept it; the other refusals come from kv_batch_write. */
uint64_t kv_batch_put(kv_batch *batch, const uint8_t *key, size_t key_size, const uint8_t *value, size_t value_size);
uint64_t kv_batch_create(kv_batch *batch, const uint8_t *key, size_t key_size, const uint8_t *value, size_t value_size);
uint64_t kv_batch_update(kv_batch *batch, const uint8_t *key, size_t key_size, const uint8_t *value, size_t value_size,
                         uint64_t last);
uint64_t kv_batch_delete(kv_batch *batch, const uint8_t *key, size_t key_size, bool has_last, uint64_t last);
uint64_t kv_batch_purge(kv_batch *batch, const uint8_t *key, size_t key_size, bool has_last, uint64_t last);
/* *size tells how many writes are gathered. */
uint64_t kv_batch_size(kv_batch *batch, size_t *size);
/* Makes all that is gathered in one step, or nothing of it: each write is judged behind those before it, so an update
 * may name the revision of an earlier one. *revision is that of the first write, and the others have those from there
 * on; where nothing is gathered it is the bucket's last one. Then the batch is empty.
 *
 * Where one is refused, with the code that it has as a single write, the bucket and the batch are as they were, and *at
 * is the index of that write, from 0. It is told with each code but KV_CLOSED and KV_FILE_FAULT, and else stays as it was. With
 * KV_WRONG_LAST_REVISION, *revision is the last revision of its key, those before it in the batch counted. */
uint64_t kv_batch_write(kv_bucket *bucket, kv_batch *batch, uint64_t *revision, size_t *at);
/* Empties the batch. */
void kv_batch_close(kv_batch *batch);

/* Compacts to a floor: of the writes at or below it only the retained ones stay stored. KV_BAD_FLOOR where the floor is
 * 0, above the last revision, or below the floor so far; else KV_WATCH_BEHIND where a watch has still to be handed an
 * entry at or below it that came after its opening: *watch is then the least number of such a watch, and else stays as
 * it was. */
uint64_t kv_compact(kv_bucket *bucket, uint64_t floor, uint64_t *watch);
/* The highest floor to which the bucket can be compacted, 0 where there is none. */
uint64_t kv_reach(kv_bucket *bucket, uint64_t *floor);

/* The value is copied to the room. *size tells how many bytes it has, and *revision its revision, also where there is
 * too little room. */
uint64_t kv_get(kv_bucket *bucket, const uint8_t *key, size_t key_size, uint8_t *room, size_t room_size, size_t *size,
                uint64_t *revision);
uint64_t kv_get_at(kv_bucket *bucket, const uint8_t *key, size_t key_size, uint64_t at, uint8_t *room,
                   size_t room_size, size_t *size, uint64_t *revision);
/* The retained entry of the key that has this index, oldest first, without the key; past the last, item->kind is
 * KV_EMPTY. *count tells how many there are: 64 at the most. Where there is too little room, *count and the item are
 * told as with enough, and item->value_size is how much is needed. */
uint64_t kv_history(kv_bucket *bucket, const uint8_t *key, size_t key_size, size_t index, uint8_t *room,
                    size_t room_size, kv_item *item, size_t *count);
uint64_t kv_get_status(kv_bucket *bucket, kv_status *status);

/* The keys that one of the filters matches and that have a value, each once, in the order of their last puts, with a
 * zero byte behind it. The filters stand with a comma between two. *count tells how many keys they are, and *size how
 * many bytes, also where there is too little room. */
uint64_t kv_keys(kv_bucket *bucket, const uint8_t *filters, size_t filters_size, uint8_t *room, size_t room_size,
                 size_t *size, size_t *count);

/* The filters stand with a comma between two. */
uint64_t kv_watch(kv_bucket *bucket, const uint8_t *filters, size_t filters_size, const kv_options *options,
                  uint64_t *number);
/* Where there is too little room, nothing moves and nothing is copied, and item->key_size and item->value_size tell how
 * much is needed. A key has at most 255 bytes. */
uint64_t kv_take(kv_bucket *bucket, uint64_t number, uint8_t *keys, size_t keys_size, uint8_t *values,
                 size_t values_size, kv_item *item);
uint64_t kv_stop(kv_bucket *bucket, uint64_t number, uint64_t *handed);

uint64_t kv_snapshot(kv_bucket *bucket, kv_view *view);
uint64_t kv_view_get(kv_view *view, const uint8_t *key, size_t key_size, uint8_t *room, size_t room_size, size_t *size,
                     uint64_t *revision);
uint64_t kv_view_get_at(kv_view *view, const uint8_t *key, size_t key_size, uint64_t at, uint8_t *room,
                        size_t room_size, size_t *size, uint64_t *revision);
uint64_t kv_view_history(kv_view *view, const uint8_t *key, size_t key_size, size_t index, uint8_t *room,
                         size_t room_size, kv_item *item, size_t *count);
uint64_t kv_view_keys(kv_view *view, const uint8_t *filters, size_t filters_size, uint8_t *room, size_t room_size,
                      size_t *size, size_t *count);
/* A view has no watches. */
uint64_t kv_view_get_status(kv_view *view, kv_status *status);
void kv_view_close(kv_view *view);

/* A feed is handed what a watch would be that was opened at the moment of its first view, and then each later matching
 * write up to the view that it has gone on to: a later view of the same bucket, which is read during the call alone. */
uint64_t kv_feed_open(kv_view *view, const uint8_t *filters, size_t filters_size, const kv_options *options,
                      kv_feed *feed);
/* KV_OTHER_BUCKET where the view is not of the feed's bucket, also of one that was opened under the same name.
 * KV_LAGGED where entries that the feed has still to hand out may be gone from the view, which has been compacted: its
 * floor, to which *floor is set then and only then, is above the last revision that the feed has gone on to, or the
 * feed has still to hand out an entry at or below it that came after its opening. The feed stays where it is, and can
 * be taken to its end. */
uint64_t kv_feed_refresh(kv_feed *feed, kv_view *view, uint64_t *floor);
/* As kv_take. */
uint64_t kv_feed_take(kv_feed *feed, uint8_t *keys, size_t keys_size, uint8_t *values, size_t values_size,
                      kv_item *item);
void kv_feed_close(kv_feed *feed);

/* The name of a code, such as WrongLastRevision, with no zero byte behind it: at most 17 bytes. *size tells how many,
 * also where there is too little room. KV_NO_SUCH_CODE where the number is no refusal's, as KV_OK is none. */
uint64_t kv_code_name(uint64_t code, uint8_t *room, size_t room_size, size_t *size);

#ifdef __cplusplus
}
#endif
#endif
