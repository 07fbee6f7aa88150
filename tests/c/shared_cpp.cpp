// A watcher on a thread of its own, in C++.
#include "vilgoued_shared.h"
#include <cstring>
#include <string>
#include <thread>

static const uint8_t *bytes(const char *text) {
    return reinterpret_cast<const uint8_t *>(text);
}

int main() {
    kv_shared bucket{};
    kv_follower follower{};
    const kv_limits limits{5, 1024, 1000000, 4294967295};
    const kv_options latest{KV_LATEST, 0, false, false};
    std::string handed;
    uint64_t revision;
    if (kv_shared_open(&bucket, bytes("settings"), 8, &limits) ||
        kv_follower_open(&bucket, bytes("app.>"), 5, &latest, &follower))
        return 1;
    std::thread watcher([&] {
        uint8_t key[255], value[1024];
        kv_item item;
        uint64_t floor;
        while (!kv_follower_next(&follower, KV_FOREVER, key, sizeof key, value, sizeof value, &item, &floor))
            handed.append(reinterpret_cast<char *>(value), item.value_size);
    });
    kv_shared_put(&bucket, bytes("app.port"), 8, bytes("80"), 2, &revision);
    kv_shared_put(&bucket, bytes("app.port"), 8, bytes("81"), 2, &revision);
    kv_shared_finish(&bucket);
    watcher.join();
    kv_follower_close(&follower);
    kv_shared_close(&bucket);
    return handed == "8081" ? 0 : 1;
}
