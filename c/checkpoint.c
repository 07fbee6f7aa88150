/* Checkpoints: the file of a bucket is replaced by one that has what the bucket stores, in place of all that led to it. What that
 * has is proved, and so is what the bucket goes on with. */
#include "files.h"
#include <sys/random.h>
#include <sys/stat.h>

static uint64_t keep(kv_bucket *bucket) {
    kv_keep(bucket);
    return KV_FILE_FAULT;
}

static uint64_t give_up(kv_bucket *bucket) {
    kv_give_up(bucket);
    return KV_FILE_FAULT;
}

/* Does what the checkpoint that waits needs. */
static uint64_t replace(kv_bucket *bucket, kv_file *at) {
    uint64_t unused;
    switch (kv_replace(bucket, at)) {
    case KV_REPLACED:
        return kv_settle(bucket, &unused);
    case KV_STAYS:
        return keep(bucket);
    default:
        return give_up(bucket);
    }
}

uint64_t kv_checkpoint(kv_bucket *bucket) {
    uint64_t number, seed, code;
    if (kv_file_of(bucket, &number) != KV_OK)
        return kv_make_checkpoint(bucket, 0);
    if (getentropy(&seed, sizeof seed) != 0)
        return KV_FILE_FAULT;
    code = kv_make_checkpoint(bucket, seed);
    return code == KV_MADE ? replace(bucket, kv_file_at(number)) : code;
}

/* Whether the file has more than twice the bytes of the checkpoint that waits. */
static bool is_worth_it(kv_bucket *bucket, const kv_file *at) {
    struct stat own;
    kv_lent lent;
    uint8_t none[1];
    kv_lend(bucket, 0, none, 0, &lent);
    return fstat(at->file, &own) == 0 && (uint64_t)own.st_size / 2 > lent.size;
}

void kv_shrink(kv_bucket *bucket) {
    uint64_t number, seed;
    if (kv_file_of(bucket, &number) != KV_OK || getentropy(&seed, sizeof seed) != 0 ||
        kv_make_checkpoint(bucket, seed) != KV_MADE)
        return;
    if (is_worth_it(bucket, kv_file_at(number)))
        replace(bucket, kv_file_at(number));
    else
        kv_keep(bucket);
}
