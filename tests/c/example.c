#include "vilgoued.h"
#include <stdio.h>

int main(void) {
    kv_bucket bucket = {0};
    kv_limits limits = {5, 1048576, 1000000, 4294967295};
    kv_options latest = {KV_LATEST, 0, false, false};
    kv_item item;
    uint64_t revision, number;
    uint8_t key[255], value[1024];
    if (kv_open(&bucket, KV_TEXT("settings"), &limits) != KV_OK)
        return 1;
    kv_put(&bucket, KV_TEXT("app.port"), KV_TEXT("80"), &revision);
    kv_watch(&bucket, KV_TEXT("app.>"), &latest, &number);
    kv_delete(&bucket, KV_TEXT("app.port"), false, 0, &revision);
    while (!kv_take(&bucket, number, key, sizeof key, value, sizeof value, &item) && item.kind != KV_EMPTY) {
        if (item.kind == KV_MARKER)
            puts("that was all");
        else
            printf("%.*s %u at %u: %.*s\n", (int)item.key_size, (char *)key, (unsigned)item.op,
                   (unsigned)item.revision, (int)item.value_size, (char *)value);
    }
    kv_close(&bucket);
    return 0;
}
