/* A bucket with a file: what it had accepted is there again, and each refusal of a file. The files lie in the folder that is
 * named, or in the one where this runs. To be linked with --wrap=flock. */
#include "vilgoued_shared.h"
#include "wanting.h"
#include <signal.h>
#include <sys/resource.h>
#include <sys/stat.h>
#include <unistd.h>

static const kv_limits limits = {3, 1024, 1000000, 4294967295};
static uint64_t dropped, at, revision;

/* What takes the place of settings.kv between an opening of that and its lock, as another process may do. */
static const char *newer;

int __real_flock(int fd, int operation);

int __wrap_flock(int fd, int operation) {
    if (newer)
        WANT(rename(newer, "settings.kv") == 0);
    newer = NULL;
    return __real_flock(fd, operation);
}

/* A call that is refused tells nothing but what it has to. */
static uint64_t opens(kv_bucket *b, const char *path, const char *name, uint64_t sync) {
    dropped = at = 77;
    return kv_open_file(b, B(path), B(name), &limits, sync, &dropped, &at);
}

static void put(kv_bucket *b, const char *key, const char *value) {
    WANT(kv_put(b, B(key), B(value), &revision) == KV_OK);
}

static bool has(kv_bucket *b, const char *key, const char *value) {
    uint8_t room[64];
    size_t size;
    return kv_get(b, B(key), room, sizeof room, &size, &revision) == KV_OK && size == strlen(value) &&
           !memcmp(room, value, size);
}

static long size_of(const char *path) {
    struct stat found;
    return stat(path, &found) == 0 ? (long)found.st_size : -1;
}

/* Turns all bits of the byte that stands so many before the end. */
static void damage(const char *path, long from_end) {
    FILE *file = fopen(path, "r+b");
    int byte;
    WANT(file && fseek(file, -from_end, SEEK_END) == 0 && (byte = fgetc(file)) != EOF);
    WANT(fseek(file, -from_end, SEEK_END) == 0 && fputc(byte ^ 255, file) != EOF && fclose(file) == 0);
}

static void comes_again(void) {
    kv_bucket b = {0}, other = {0};
    kv_batch batch = {0};
    kv_options latest = {KV_LATEST, 0, false, false};
    uint64_t number;
    size_t place;
    WANT(opens(&b, "settings.kv", "settings", KV_SYNC_EACH) == KV_OK && dropped == 0 && at == 77);
    WANT(opens(&b, "settings.kv", "settings", KV_SYNC_EACH) == KV_OPEN_ALREADY && dropped == 77 && at == 77);
    WANT(opens(&other, "settings.kv", "settings", KV_SYNC_EACH) == KV_FILE_BUSY && !other.is_open);
    WANT(dropped == 77 && at == 77);
    put(&b, "a", "1");
    put(&b, "a", "2");
    WANT(kv_update(&b, B("a"), B("3"), 1, &revision) == KV_WRONG_LAST_REVISION && revision == 2);
    WANT(kv_watch(&b, B(">"), &latest, &number) == KV_OK);
    WANT(kv_batch_put(&batch, B("b"), B("1")) == KV_OK && kv_batch_delete(&batch, B("a"), false, 0) == KV_OK);
    WANT(kv_batch_write(&b, &batch, &revision, &place) == KV_OK && revision == 3);
    WANT(kv_stop(&b, number, &number) == KV_OK && kv_compact(&b, 2, &number) == KV_OK && kv_sync(&b) == KV_OK);
    kv_close(&b);
    WANT(opens(&b, "settings.kv", "settings", KV_SYNC_ASKED) == KV_OK && dropped == 0);
    WANT(has(&b, "b", "1") && revision == 3 && !has(&b, "a", "2"));
    WANT(kv_purge(&b, B("a"), true, 4, &revision) == KV_OK && revision == 5 && kv_seal(&b) == KV_OK);
    kv_close(&b);
    WANT(opens(&b, "settings.kv", "settings", 2) == KV_OK && dropped == 0);
    WANT(kv_put(&b, B("a"), B("1"), &revision) == KV_SEALED);
    kv_close(&b);
    WANT(kv_sync(&b) == KV_CLOSED);
}

static void refuses(void) {
    kv_bucket b = {0};
    WANT(opens(&b, "settings.kv", "others", KV_SYNC_EACH) == KV_OTHER_BUCKET && dropped == 77 && at == 77);
    WANT(opens(&b, "none.kv", "no name", KV_SYNC_EACH) == KV_BAD_BUCKET && size_of("none.kv") == -1);
    WANT(kv_open_file(&b, B("none.kv"), B("settings"), &(kv_limits){0, 1, 1, 1}, KV_SYNC_EACH, &dropped, &at) ==
         KV_BAD_CONFIG);
    WANT(size_of("none.kv") == -1 && !b.is_open);
    WANT(opens(&b, ".", "settings", KV_SYNC_EACH) == KV_FILE_FAULT);
    WANT(opens(&b, "none/settings.kv", "settings", KV_SYNC_EACH) == KV_FILE_FAULT && dropped == 77 && at == 77);
    WANT(kv_open_file(&b, (const uint8_t *)"a\0b", 3, B("settings"), &limits, KV_SYNC_EACH, &dropped, &at) ==
         KV_FILE_FAULT);
    WANT(size_of("a") == -1);
}

/* Only the file that the path names is opened, and not one that had this name before. */
static void moves(void) {
    kv_bucket b = {0};
    WANT(opens(&b, "newer.kv", "settings", KV_SYNC_EACH) == KV_OK);
    put(&b, "newer", "1");
    kv_close(&b);
    newer = "newer.kv";
    WANT(opens(&b, "settings.kv", "settings", KV_SYNC_EACH) == KV_FILE_BUSY && !b.is_open && !newer);
    WANT(opens(&b, "settings.kv", "settings", KV_SYNC_EACH) == KV_OK && has(&b, "newer", "1"));
    kv_close(&b);
}

static void breaks(void) {
    kv_bucket b = {0};
    long whole, all;
    WANT(opens(&b, "torn.kv", "settings", KV_SYNC_ASKED) == KV_OK);
    put(&b, "a", "1");
    WANT(kv_sync(&b) == KV_OK);
    whole = size_of("torn.kv");
    put(&b, "b", "1");
    all = size_of("torn.kv");
    kv_close(&b);
    /* Without the clean end, and without half of the last write, there is a torn end. */
    WANT(truncate("torn.kv", (whole + all) / 2) == 0);
    WANT(opens(&b, "torn.kv", "settings", KV_SYNC_EACH) == KV_OK && dropped == (uint64_t)((whole + all) / 2 - whole));
    WANT(has(&b, "a", "1") && !has(&b, "b", "1") && size_of("torn.kv") == whole);
    put(&b, "b", "2");
    put(&b, "c", "3");
    kv_close(&b);
    /* What was on the disk before the last write was added is damaged. */
    damage("torn.kv", size_of("torn.kv") - whole - 10);
    WANT(opens(&b, "torn.kv", "settings", KV_SYNC_EACH) == KV_FILE_DAMAGED && at == (uint64_t)whole && dropped == 77);
    WANT(!b.is_open);
    damage("torn.kv", size_of("torn.kv"));
    WANT(opens(&b, "torn.kv", "settings", KV_SYNC_EACH) == KV_FILE_DAMAGED && at == 0);
}

/* The system lets no file grow beyond a size, as on a full disk. */
static void faults(void) {
    kv_bucket b = {0};
    kv_batch batch = {0};
    kv_options latest = {KV_LATEST, 0, false, false};
    kv_item item;
    struct rlimit before, now;
    uint8_t key[64], value[64];
    uint64_t number, floor = 77;
    size_t place = 77;
    long whole;
    WANT(opens(&b, "full.kv", "settings", KV_SYNC_EACH) == KV_OK);
    put(&b, "a", "1");
    whole = size_of("full.kv");
    WANT(kv_watch(&b, B(">"), &latest, &number) == KV_OK);
    WANT(signal(SIGXFSZ, SIG_IGN) != SIG_ERR && getrlimit(RLIMIT_FSIZE, &before) == 0);
    now = before;
    now.rlim_cur = (rlim_t)whole + 10;
    WANT(setrlimit(RLIMIT_FSIZE, &now) == 0);
    revision = 77;
    WANT(kv_put(&b, B("a"), B("2"), &revision) == KV_FILE_FAULT && revision == 77 && has(&b, "a", "1"));
    WANT(setrlimit(RLIMIT_FSIZE, &before) == 0);
    revision = 77;
    WANT(kv_put(&b, B("a"), B("2"), &revision) == KV_FILE_FAULT && kv_create(&b, B("b"), B("2"), &revision) == KV_FILE_FAULT);
    WANT(kv_update(&b, B("a"), B("2"), 9, &revision) == KV_FILE_FAULT && kv_seal(&b) == KV_FILE_FAULT);
    WANT(kv_delete(&b, B("a"), false, 0, &revision) == KV_FILE_FAULT && kv_compact(&b, 1, &floor) == KV_FILE_FAULT);
    WANT(kv_put(&b, B("no key"), B("2"), &revision) == KV_BAD_KEY && kv_sync(&b) == KV_FILE_FAULT && floor == 77);
    WANT(kv_batch_put(&batch, B("a"), B("2")) == KV_OK);
    WANT(kv_batch_write(&b, &batch, &revision, &place) == KV_FILE_FAULT && place == 77 && batch.is_open);
    WANT(revision == 77);
    kv_batch_close(&batch);
    WANT(kv_batch_write(&b, &batch, &revision, &place) == KV_OK && revision == 1);
    /* Reads and watches go on. */
    WANT(has(&b, "a", "1") && kv_take(&b, number, key, sizeof key, value, sizeof value, &item) == KV_OK);
    WANT(item.kind == KV_ENTRY && item.revision == 1 && kv_watch(&b, B(">"), &latest, &number) == KV_OK);
    WANT(kv_stop(&b, number, &number) == KV_OK);
    kv_close(&b);
    /* A part of the write is there. */
    WANT(opens(&b, "full.kv", "settings", KV_SYNC_EACH) == KV_OK && dropped == 10 && has(&b, "a", "1"));
    kv_close(&b);
}

/* Those that threads share have the same file. */
static void shares(void) {
    kv_shared shared = {0};
    kv_bucket b = {0};
    WANT(kv_shared_open_file(&shared, B("shared.kv"), B("settings"), &limits, 3, &dropped, &at) == KV_OK);
    WANT(kv_shared_open_file(&shared, B("shared.kv"), B("settings"), &limits, 3, &dropped, &at) == KV_OPEN_ALREADY);
    WANT(opens(&b, "shared.kv", "settings", KV_SYNC_EACH) == KV_FILE_BUSY);
    WANT(kv_shared_put(&shared, B("a"), B("1"), &revision) == KV_OK && kv_shared_sync(&shared) == KV_OK);
    WANT(kv_shared_checkpoint(&shared) == KV_OK && kv_shared_sync(&shared) == KV_OK);
    kv_shared_close(&shared);
    WANT(kv_shared_sync(&shared) == KV_CLOSED && kv_shared_checkpoint(&shared) == KV_CLOSED);
    WANT(kv_shared_open_file(&shared, B("shared.kv"), B("others"), &limits, 3, &dropped, &at) == KV_OTHER_BUCKET);
    WANT(kv_shared_open_file(&shared, B("shared.kv"), B("settings"), &limits, 3, &dropped, &at) == KV_OK);
    WANT(kv_shared_put(&shared, B("a"), B("2"), &revision) == KV_OK && revision == 2);
    kv_shared_close(&shared);
    WANT(opens(&b, "shared.kv", "settings", KV_SYNC_EACH) == KV_OK && has(&b, "a", "2"));
    kv_close(&b);
}

/* A checkpoint leaves the bucket as it is, with its watches. */
static void checkpoints(void) {
    kv_bucket b = {0}, other = {0};
    kv_options latest = {KV_LATEST, 0, false, false};
    kv_item item;
    uint8_t key[64], value[64];
    uint64_t number;
    struct stat found;
    WANT(opens(&b, "long.kv", "settings", KV_SYNC_ASKED) == KV_OK && kv_watch(&b, B(">"), &latest, &number) == KV_OK);
    for (int i = 0; i < 1000; i++)
        put(&b, "a", "some value");
    put(&b, "b", "1");
    WANT(kv_delete(&b, B("b"), false, 0, &revision) == KV_OK && chmod("long.kv", 0640) == 0);
    WANT(kv_sync(&b) == KV_OK);
    /* It goes by the folder where the file lies, whatever the program works in. */
    WANT(mkdir("apart", 0700) == 0 && chdir("apart") == 0);
    WANT(kv_checkpoint(&b) == KV_OK && chdir("..") == 0 && rmdir("apart") == 0);
    WANT(size_of("long.kv") > 0 && size_of("long.kv.checkpoint") == -1);
    WANT(stat("long.kv", &found) == 0 && (found.st_mode & 0777) == 0640);
    WANT(opens(&other, "long.kv", "settings", KV_SYNC_EACH) == KV_FILE_BUSY);
    WANT(has(&b, "a", "some value") && revision == 1000);
    for (int i = 0; i < 3; i++)
        WANT(kv_take(&b, number, key, sizeof key, value, sizeof value, &item) == KV_OK);
    put(&b, "c", "behind it");
    kv_close(&b);
    WANT(opens(&b, "long.kv", "settings", KV_SYNC_EACH) == KV_OK && dropped == 0);
    WANT(has(&b, "a", "some value") && revision == 1000 && has(&b, "c", "behind it") && revision == 1003);
    /* And again, of a file that begins with one, which has a link to it: that stays. */
    WANT(kv_checkpoint(&b) == KV_OK && kv_checkpoint(&b) == KV_OK);
    kv_close(&b);
    WANT(symlink("long.kv", "link.kv") == 0 && opens(&b, "link.kv", "settings", KV_SYNC_EACH) == KV_OK);
    WANT(kv_checkpoint(&b) == KV_OK && lstat("link.kv", &found) == 0 && S_ISLNK(found.st_mode));
    put(&b, "c", "more");
    kv_close(&b);
    WANT(opens(&b, "long.kv", "settings", KV_SYNC_EACH) == KV_OK && has(&b, "c", "more"));
    kv_close(&b);
    WANT(kv_checkpoint(&b) == KV_CLOSED);
}

/* A file that was moved away is not replaced, and neither is one whose new name is in use; it goes on. */
static void keeps(void) {
    kv_bucket b = {0}, other = {0};
    WANT(opens(&b, "kept.kv", "settings", KV_SYNC_EACH) == KV_OK);
    put(&b, "a", "1");
    WANT(rename("kept.kv", "moved.kv") == 0 && kv_checkpoint(&b) == KV_FILE_FAULT && size_of("kept.kv") == -1);
    put(&b, "a", "2");
    WANT(rename("moved.kv", "kept.kv") == 0);
    WANT(opens(&other, "kept.kv.checkpoint", "settings", KV_SYNC_EACH) == KV_OK);
    put(&other, "a", "its own");
    WANT(kv_checkpoint(&b) == KV_FILE_FAULT && has(&other, "a", "its own"));
    kv_close(&other);
    WANT(opens(&other, "kept.kv.checkpoint", "settings", KV_SYNC_EACH) == KV_OK && has(&other, "a", "its own"));
    kv_close(&other);
    WANT(unlink("kept.kv.checkpoint") == 0 && mkdir("kept.kv.checkpoint", 0700) == 0);
    WANT(kv_checkpoint(&b) == KV_FILE_FAULT && rmdir("kept.kv.checkpoint") == 0);
    put(&b, "a", "3");
    WANT(kv_checkpoint(&b) == KV_OK);
    kv_close(&b);
    WANT(opens(&b, "kept.kv", "settings", KV_SYNC_EACH) == KV_OK && has(&b, "a", "3") && revision == 3);
    kv_close(&b);
}

/* A compaction makes the file small where that is worth it. */
static void compacts(void) {
    kv_bucket b = {0};
    uint64_t watch;
    long before;
    WANT(opens(&b, "compacted.kv", "settings", KV_SYNC_EACH) == KV_OK);
    put(&b, "a", "1");
    put(&b, "b", "1");
    before = size_of("compacted.kv");
    WANT(kv_compact(&b, 1, &watch) == KV_OK && size_of("compacted.kv") > before);
    for (int i = 0; i < 100; i++)
        put(&b, "a", "some value");
    before = size_of("compacted.kv");
    WANT(kv_compact(&b, 101, &watch) == KV_OK && size_of("compacted.kv") * 2 < before);
    put(&b, "c", "1");
    kv_close(&b);
    WANT(opens(&b, "compacted.kv", "settings", KV_SYNC_EACH) == KV_OK && has(&b, "a", "some value") && revision == 102);
    WANT(has(&b, "b", "1") && has(&b, "c", "1") && kv_compact(&b, 100, &watch) == KV_BAD_FLOOR);
    kv_close(&b);
}

/* A bucket in memory has nothing to bring onto a disk, and no file to replace. */
static void in_memory(void) {
    kv_bucket b = {0};
    WANT(kv_open(&b, B("settings"), &limits) == KV_OK && kv_sync(&b) == KV_OK && kv_checkpoint(&b) == KV_OK);
    kv_close(&b);
}

int main(int count, char **words) {
    WANT(count < 2 || chdir(words[1]) == 0);
    comes_again();
    refuses();
    moves();
    breaks();
    faults();
    shares();
    checkpoints();
    keeps();
    compacts();
    in_memory();
    return 0;
}
