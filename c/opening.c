/* Openings, which are counted: a feed knows the views of its bucket by the number of its opening, and a proved library has
 * no state to count with. */
#include "files.h"
#include <stdatomic.h>

uint64_t kv_next_opening(void) {
    static _Atomic uint64_t openings;
    return atomic_fetch_add(&openings, 1);
}

uint64_t kv_open(kv_bucket *bucket, const uint8_t *name, size_t name_size, const kv_limits *limits) {
    return kv_open_as(bucket, name, name_size, limits, kv_next_opening());
}
