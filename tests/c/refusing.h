/* A session is run once for each of its requests for memory, with that one refused: the call that made it is refused as
 * KV_OUT_OF_MEMORY, and made again it succeeds. To be linked with --wrap=malloc,realloc. */
#include "wanting.h"

/* How many requests there were, how many come before the one that is refused (none is where this is less than 0), and how
 * many calls were refused. */
static long asked, left;
static int refusals;

void *__real_malloc(size_t size);
void *__real_realloc(void *block, size_t size);

static inline bool refuses(void) {
    asked++;
    return left >= 0 && left-- == 0;
}

void *__wrap_malloc(size_t size) {
    return refuses() ? NULL : __real_malloc(size);
}

void *__wrap_realloc(void *block, size_t size) {
    return refuses() ? NULL : __real_realloc(block, size);
}

#define TRY(call)                                                                                                      \
    do {                                                                                                               \
        uint64_t code = (call);                                                                                        \
        if (code == KV_OUT_OF_MEMORY) {                                                                                \
            refusals++;                                                                                                \
            code = (call);                                                                                             \
        }                                                                                                              \
        if (code) {                                                                                                    \
            printf("code %u of %s\n", (unsigned)code, #call);                                                          \
            exit(1);                                                                                                   \
        }                                                                                                              \
    } while (0)

/* Runs a session with all memory, and then with each of its requests refused in turn. */
static inline void sweep(void (*session)(void)) {
    long total, refused = 0;
    left = -1;
    asked = 0;
    session();
    total = asked;
    for (long k = 0; k < total; k++) {
        left = k;
        refusals = 0;
        session();
        /* None where a removal keeps a large branch for want of a small one. */
        WANT(refusals <= 1);
        refused += refusals;
    }
    WANT(refused > total / 2);
    printf("%ld requests for memory, each refused in turn\n", total);
}
