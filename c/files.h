/* What the shell calls to write the files of buckets: proved functions that no header for users declares. Of a bucket with a
 * file a call is made first, and then waits: the bucket is as it was, and each call but those below is refused as KV_CLOSED.
 * The shell writes what it is lent, and settles the call, or gives it up. */
#ifndef VILGOUED_FILES_H
#define VILGOUED_FILES_H
#include "vilgoued.h"

/* The call is made, and waits. */
enum { KV_MADE = 38 };

/* The writes that kv_make_more makes. */
enum { KV_MORE_PUT, KV_MORE_CREATE, KV_MORE_UPDATE, KV_MORE_DELETE, KV_MORE_PURGE };

/* A file that the shell has open, and locked: the number that the proved part knows it by is the address of this. */
typedef struct kv_file {
    int file, folder; /* the folder is the one that it lies in */
    char name[];      /* that it has there */
} kv_file;

static inline kv_file *kv_file_at(uint64_t number) {
    return (kv_file *)(uintptr_t)number;
}

/* What is to be written for the call that waits, and when the file is synced: before that, and behind it. */
typedef struct kv_lent {
    uint64_t number; /* that the shell gave the file */
    uint64_t at;     /* where the bytes go in the file */
    size_t size;     /* how many they are */
    size_t count;    /* and how many of them are copied */
    bool before, behind;
} kv_lent;

/* A number for each opening. */
uint64_t kv_next_opening(void);

/* The numbers of two openings are to differ. */
uint64_t kv_open_as(kv_bucket *bucket, const uint8_t *name, size_t name_size, const kv_limits *limits,
                    uint64_t opening);
/* KV_MADE of the file that has these bytes: what stands behind the offset that is lent is cut off. */
uint64_t kv_open_bytes_as(kv_bucket *bucket, const uint8_t *bytes, size_t size, const uint8_t *name, size_t name_size,
                          const kv_limits *limits, uint64_t seed, uint64_t sync, uint64_t number, uint64_t opening,
                          uint64_t *dropped, uint64_t *at);

/* KV_MADE where the bucket has a file. */
uint64_t kv_make_put(kv_bucket *bucket, const uint8_t *key, size_t key_size, const uint8_t *value, size_t value_size,
                     uint64_t *revision);
uint64_t kv_make_create(kv_bucket *bucket, const uint8_t *key, size_t key_size, const uint8_t *value,
                        size_t value_size, uint64_t *revision);
uint64_t kv_make_update(kv_bucket *bucket, const uint8_t *key, size_t key_size, const uint8_t *value,
                        size_t value_size, uint64_t last, uint64_t *revision);
uint64_t kv_make_delete(kv_bucket *bucket, const uint8_t *key, size_t key_size, bool has_last, uint64_t last,
                        uint64_t *revision);
uint64_t kv_make_purge(kv_bucket *bucket, const uint8_t *key, size_t key_size, bool has_last, uint64_t last,
                       uint64_t *revision);
/* Makes a write behind those that are made and wait: it is judged behind them, and its revision is told at once. One
 * kv_settle does all of them, and tells the revision of the first; one kv_give_up none. The one sync behind them all
 * promises no less than one behind each of them. KV_CLOSED where none waits, or what waits takes none behind it: then
 * that is finished first. */
uint64_t kv_make_more(kv_bucket *bucket, uint32_t kind, const uint8_t *key, size_t key_size, const uint8_t *value,
                      size_t value_size, bool has_last, uint64_t last, uint64_t *revision);
uint64_t kv_make_batch(kv_bucket *bucket, kv_batch *batch, uint64_t *revision, size_t *at);
uint64_t kv_make_seal(kv_bucket *bucket);
uint64_t kv_make_compaction(kv_bucket *bucket, uint64_t floor, uint64_t *watch);
uint64_t kv_make_sync(kv_bucket *bucket);
/* A clean end of the file. */
uint64_t kv_make_end(kv_bucket *bucket);
/* Another file, with this seed, that has what the bucket stores: it is to take the place of its own. */
uint64_t kv_make_checkpoint(kv_bucket *bucket, uint64_t seed);

/* Copies the bytes that are lent from this one on, as many as there is room for. */
uint64_t kv_lend(kv_bucket *bucket, size_t from, uint8_t *room, size_t room_size, kv_lent *lent);
/* All is written and synced that was asked for. *number is what the call answers. */
uint64_t kv_settle(kv_bucket *bucket, uint64_t *number);
/* It could not be. */
uint64_t kv_give_up(kv_bucket *bucket);
/* Writes and syncs what is lent, and settles all that waits; or gives it up, and answers KV_FILE_FAULT. */
uint64_t kv_finish(kv_bucket *bucket, uint64_t *number);
/* The other file has not taken the place of the former one, and a checkpoint is given up: the former is in use as before. */
uint64_t kv_keep(kv_bucket *bucket);

/* The number of the file, if there is one. */
uint64_t kv_file_of(kv_bucket *bucket, uint64_t *number);
/* Frees the bucket, and leaves its file as it is. It frees what a handle of another kind holds, too. */
void kv_free(kv_bucket *bucket);

/* And what the files of the shell call of one another.
 *
 * Writes and syncs what the call that waits needs. */
bool kv_carry_out(kv_bucket *bucket);
/* KV_OK where the name of the file is still this file's, KV_FILE_BUSY where it is another's. */
uint64_t kv_has_name(const kv_file *file);
/* What became of a file that was to be replaced. Of the last it is not known which of the two a crash leaves. */
typedef enum kv_replacement { KV_REPLACED, KV_STAYS, KV_EITHER } kv_replacement;
/* Puts a file that has what is lent in the place of this one. */
kv_replacement kv_replace(kv_bucket *bucket, kv_file *file);
/* A checkpoint, where the file has more than twice the bytes that it has behind that. */
void kv_shrink(kv_bucket *bucket);
#endif
