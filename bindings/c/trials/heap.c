/* Stands between the library and the C library's heap, where the linker wraps `malloc`, `calloc`, `realloc` and `free`. */
#include "trials.h"

void *__real_malloc(size_t size);
void *__real_calloc(size_t count, size_t size);
void *__real_realloc(void *block, size_t size);
void __real_free(void *block);

static unsigned long left;
static int is_refused;
static long live;

void refuse(unsigned long n) {
    left = n;
    is_refused = 0;
}

int was_refused(void) {
    return is_refused;
}

long live_blocks(void) {
    return live;
}

static int refuses(void) {
    if (left == 0 || --left != 0)
        return 0;
    is_refused = 1;
    return 1;
}

void *__wrap_malloc(size_t size) {
    void *block = refuses() ? NULL : __real_malloc(size);
    live += block != NULL;
    return block;
}

void *__wrap_calloc(size_t count, size_t size) {
    void *block = refuses() ? NULL : __real_calloc(count, size);
    live += block != NULL;
    return block;
}

void *__wrap_realloc(void *block, size_t size) {
    void *taken = refuses() ? NULL : __real_realloc(block, size);
    live += block == NULL && taken != NULL;
    return taken;
}

void __wrap_free(void *block) {
    live -= block != NULL;
    __real_free(block);
}
