/* What is proved of whatever a handle holds, under the name for each kind of handle. */
#include "files.h"

static kv_bucket *of_view(kv_view *view) {
    return (kv_bucket *)(void *)view;
}

uint64_t kv_view_get(kv_view *view, const uint8_t *key, size_t key_size, uint8_t *room, size_t room_size, size_t *size,
                     uint64_t *revision) {
    return kv_get(of_view(view), key, key_size, room, room_size, size, revision);
}

uint64_t kv_view_get_at(kv_view *view, const uint8_t *key, size_t key_size, uint64_t at, uint8_t *room,
                        size_t room_size, size_t *size, uint64_t *revision) {
    return kv_get_at(of_view(view), key, key_size, at, room, room_size, size, revision);
}

uint64_t kv_view_history(kv_view *view, const uint8_t *key, size_t key_size, size_t index, uint8_t *room,
                         size_t room_size, kv_item *item, size_t *count) {
    return kv_history(of_view(view), key, key_size, index, room, room_size, item, count);
}

uint64_t kv_view_keys(kv_view *view, const uint8_t *filters, size_t filters_size, uint8_t *room, size_t room_size,
                      size_t *size, size_t *count) {
    return kv_keys(of_view(view), filters, filters_size, room, room_size, size, count);
}

uint64_t kv_view_get_status(kv_view *view, kv_status *status) {
    return kv_get_status(of_view(view), status);
}

void kv_view_close(kv_view *view) {
    kv_free(of_view(view));
}

void kv_feed_close(kv_feed *feed) {
    kv_free((kv_bucket *)(void *)feed);
}

void kv_batch_close(kv_batch *batch) {
    kv_free((kv_bucket *)(void *)batch);
}
