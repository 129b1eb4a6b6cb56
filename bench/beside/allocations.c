/* Whether the three calls for memory of dist/memory.c do what stands there: with blocks of each size
 * from 0 on, and where malloc and realloc have no memory. Link with -Wl,--wrap=malloc,--wrap=realloc,
 * and with dist/memory.c or with those that the kit has. */
#include "../../bindings/c/tests/check.h"

#include <stdint.h>
#include <string.h>

typedef struct tried {
    uint64_t is_there;
    void *at;
} tried;

tried rattle_alloc(size_t size, size_t align);
tried rattle_realloc(void *block, size_t old_size, size_t size, size_t align);
void rattle_dealloc(void *block);

void *__real_malloc(size_t size);
void *__real_realloc(void *block, size_t size);
void *__wrap_malloc(size_t size);
void *__wrap_realloc(void *block, size_t size);

static int refuses;
static size_t asked;

void *__wrap_malloc(size_t size) {
    asked = size;
    return refuses ? NULL : __real_malloc(size);
}

void *__wrap_realloc(void *block, size_t size) {
    asked = size;
    return refuses ? NULL : __real_realloc(block, size);
}

static void is_block(tried made, size_t align) {
    CHECK(made.is_there == 1 && made.at != NULL && (uintptr_t)made.at % align == 0);
}

int main(void) {
    for (size_t align = 1; align <= 16; align *= 2) {
        for (size_t size = 0; size < 200; size++) {
            const size_t larger = 3 * size + 1;
            tried block = rattle_alloc(size, align), other = rattle_alloc(size, align);
            is_block(block, align);
            is_block(other, align);
            CHECK(asked == (size != 0 ? size : align) && block.at != other.at);
            memset(block.at, 7, size);
            block = rattle_realloc(block.at, size, larger, align);
            is_block(block, align);
            for (size_t at = 0; at < size; at++) CHECK(((unsigned char *)block.at)[at] == 7);
            memset(block.at, 8, larger);
            refuses = 1;
            tried none = rattle_realloc(block.at, larger, 2 * larger, align);
            CHECK(none.is_there == 0 && none.at != NULL);
            none = rattle_alloc(size, align);
            CHECK(none.is_there == 0 && none.at != NULL);
            refuses = 0;
            for (size_t at = 0; at < larger; at++) CHECK(((unsigned char *)block.at)[at] == 8);
            block = rattle_realloc(block.at, larger, 0, align);
            is_block(block, align);
            CHECK(asked == align);
            rattle_dealloc(block.at);
            rattle_dealloc(other.at);
        }
    }
    const tried none = rattle_alloc(INT64_MAX, 8);
    CHECK(none.is_there == 0 && none.at != NULL);
    return puts("each block, and no memory") < 0;
}
