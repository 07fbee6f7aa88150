/* The watchers of vilgoued_shared.h: a follower each, on a thread of its own. Each step is a call of that header. */
#define _GNU_SOURCE
#include "vilgoued_shared.h"
#include <pthread.h>
#include <signal.h>
#include <stdlib.h>
#include <time.h>

/* The bytes of the longest key, and of the values that there is room for at first. */
enum { LONGEST_KEY = 255, FIRST_ROOM = 256 };

struct watcher {
    kv_follower follower;
    kv_watched *call;
    void *with;
    pthread_t thread;
    uint64_t code; /* why it ended */
    size_t room;   /* of the value, without the zero byte */
    uint8_t *value;
    uint8_t key[LONGEST_KEY + 1];
};

static uint64_t make_room(struct watcher *watcher, size_t room) {
    uint8_t *value = realloc(watcher->value, room + 1);
    if (!value)
        return KV_OUT_OF_MEMORY;
    watcher->value = value;
    watcher->room = room;
    return KV_OK;
}

/* The next item, or the code of the end. Where memory is refused there is nobody to tell it to: as no item is lost by
 * that, it is asked for again in a millisecond. */
static uint64_t next(struct watcher *watcher, kv_item *item) {
    static const struct timespec pause = {0, 1000000};
    for (;;) {
        uint64_t floor, code = kv_follower_next(&watcher->follower, KV_FOREVER, watcher->key, LONGEST_KEY,
                                                watcher->value, watcher->room, item, &floor);
        if (code == KV_TOO_LITTLE_ROOM)
            code = make_room(watcher, item->value_size);
        else if (code != KV_OUT_OF_MEMORY)
            return code;
        if (code == KV_OUT_OF_MEMORY)
            nanosleep(&pause, NULL);
    }
}

static void *run(void *at) {
    static const kv_item end = {.kind = KV_EMPTY};
    struct watcher *watcher = at;
    kv_item item;
    while ((watcher->code = next(watcher, &item)) == KV_OK) {
        bool is_entry = item.kind == KV_ENTRY;
        watcher->key[is_entry ? item.key_size : 0] = 0;
        watcher->value[is_entry ? item.value_size : 0] = 0;
        watcher->call(watcher->with, &item, (const char *)watcher->key, (const char *)watcher->value);
    }
    watcher->call(watcher->with, &end, "", "");
    return NULL;
}

/* Begins the thread, which takes no signal. */
static uint64_t begin(struct watcher *watcher) {
    sigset_t all, before;
    int error;
    sigfillset(&all);
    pthread_sigmask(SIG_SETMASK, &all, &before);
    error = pthread_create(&watcher->thread, NULL, run, watcher);
    pthread_sigmask(SIG_SETMASK, &before, NULL);
    return error == 0 ? KV_OK : KV_NO_THREAD;
}

static void free_watcher(struct watcher *watcher) {
    kv_follower_close(&watcher->follower);
    free(watcher->value);
    free(watcher);
}

uint64_t kv_watcher_open(kv_shared *shared, const uint8_t *filters, size_t filters_size, const kv_options *options,
                         kv_watched *call, void *with, kv_watcher *handle) {
    /* So a handle that is open is refused where the follower's would be. */
    kv_follower follower = {.is_open = handle->is_open};
    struct watcher *watcher;
    uint64_t code = kv_follower_open(shared, filters, filters_size, options, &follower);
    if (code != KV_OK)
        return code;
    watcher = malloc(sizeof *watcher);
    if (!watcher) {
        kv_follower_close(&follower);
        return KV_OUT_OF_MEMORY;
    }
    *watcher = (struct watcher){.follower = follower, .call = call, .with = with};
    code = make_room(watcher, FIRST_ROOM);
    if (code == KV_OK)
        code = begin(watcher);
    if (code == KV_OK)
        *handle = (kv_watcher){true, watcher};
    else
        free_watcher(watcher);
    return code;
}

uint64_t kv_watcher_join(kv_watcher *handle) {
    struct watcher *watcher = handle->at;
    uint64_t code;
    if (!handle->is_open)
        return KV_CLOSED;
    pthread_join(watcher->thread, NULL);
    code = watcher->code;
    free_watcher(watcher);
    *handle = (kv_watcher){0};
    return code;
}

void kv_watcher_close(kv_watcher *handle) {
    struct watcher *watcher = handle->at;
    if (!handle->is_open)
        return;
    kv_follower_stop(&watcher->follower);
    kv_watcher_join(handle);
}
