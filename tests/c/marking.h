/* What calls copy, and whether they wrote where they were to write nothing. */
#include "vilgoued.h"
#include "wanting.h"

static uint8_t key[255], value[64];
static kv_item item;

/* Each byte that a call may write to is set to this before it. It is a bool, too. */
enum { MARK = 1 };

/* Marks these, and what a call tells beside them. */
static inline void mark_all(void *told, size_t size) {
    memset(key, MARK, sizeof key);
    memset(value, MARK, sizeof value);
    memset(&item, MARK, sizeof item);
    memset(told, MARK, size);
}

static inline bool marked(const void *at, size_t size) {
    for (size_t i = 0; i < size; i++)
        if (((const uint8_t *)at)[i] != MARK)
            return false;
    return true;
}

static inline bool nothing_copied(void) {
    return marked(key, sizeof key) && marked(value, sizeof value);
}
