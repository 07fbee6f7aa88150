#include "vilgoued.h"
#include <stdio.h>

int main(void) {
    kv_bucket bucket = {0};
    kv_batch batch = {0};
    kv_limits limits = {1, 1024, 1000000, 4294967295};
    uint64_t revision;
    size_t at;
    if (kv_open(&bucket, KV_TEXT("accounts"), &limits) != KV_OK)
        return 1;
    kv_batch_put(&batch, KV_TEXT("anna"), KV_TEXT("40"));
    kv_batch_put(&batch, KV_TEXT("berta"), KV_TEXT("60"));
    if (kv_batch_write(&bucket, &batch, &revision, &at) == KV_OK)
        printf("two writes from revision %u on\n", (unsigned)revision);
    kv_batch_update(&batch, KV_TEXT("anna"), KV_TEXT("50"), 1);
    kv_batch_update(&batch, KV_TEXT("berta"), KV_TEXT("50"), 1);
    if (kv_batch_write(&bucket, &batch, &revision, &at) == KV_WRONG_LAST_REVISION)
        printf("nothing written: the key of write %u was last written at %u\n", (unsigned)at, (unsigned)revision);
    kv_batch_close(&batch);
    kv_close(&bucket);
    return 0;
}
