#include "vilgoued_shared.h"
#include <stdio.h>

static void show(void *to, const kv_item *item, const char *key, const char *value) {
    if (item->kind == KV_ENTRY)
        fprintf(to, "%s is %s at %u\n", key, item->op == KV_PUT ? value : "gone", (unsigned)item->revision);
}

int main(void) {
    kv_shared bucket = {0};
    kv_watcher watcher = {0};
    uint64_t revision;
    if (kv_shared_open(&bucket, KV_TEXT("settings"), &(kv_limits){5, 1024, 1000000, 4294967295}) != KV_OK ||
        kv_watcher_open(&bucket, KV_TEXT("app.>"), &(kv_options){.start = KV_LATEST}, show, stdout, &watcher) != KV_OK)
        return 1;
    kv_shared_put(&bucket, KV_TEXT("app.port"), KV_TEXT("80"), &revision);
    kv_shared_finish(&bucket);
    kv_watcher_join(&watcher);
    kv_shared_close(&bucket);
}
