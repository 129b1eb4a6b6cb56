/* Opens a queue again and again; in opening N the Nth allocation gets nothing, until one makes
 * fewer than N. Each has to answer SCQ_NO_MEMORY and leave the ports closed, or be well; what is
 * left in memory a checker sees. Link with -Wl,--wrap=malloc,--wrap=realloc,--wrap=calloc and
 * -Wl,--wrap=aligned_alloc,--wrap=posix_memalign. */
#include "scq.h"

#include "check.h"

#include <errno.h>

/* How many allocations are to go well before one gets nothing, where that is counted. It is
 * volatile, as a compiler takes it that no allocation changes it. */
static volatile long before_it = -1;

static int fails(void) { return before_it >= 0 && before_it-- == 0; }

void *__real_malloc(size_t size);
void *__real_realloc(void *old, size_t size);
void *__real_calloc(size_t count, size_t size);
void *__real_aligned_alloc(size_t alignment, size_t size);
int __real_posix_memalign(void **out, size_t alignment, size_t size);
void *__wrap_malloc(size_t size);
void *__wrap_realloc(void *old, size_t size);
void *__wrap_calloc(size_t count, size_t size);
void *__wrap_aligned_alloc(size_t alignment, size_t size);
int __wrap_posix_memalign(void **out, size_t alignment, size_t size);

void *__wrap_malloc(size_t size) { return fails() ? NULL : __real_malloc(size); }
void *__wrap_realloc(void *old, size_t size) { return fails() ? NULL : __real_realloc(old, size); }
void *__wrap_calloc(size_t count, size_t size) {
    return fails() ? NULL : __real_calloc(count, size);
}
void *__wrap_aligned_alloc(size_t alignment, size_t size) {
    return fails() ? NULL : __real_aligned_alloc(alignment, size);
}
int __wrap_posix_memalign(void **out, size_t alignment, size_t size) {
    return fails() ? ENOMEM : __real_posix_memalign(out, alignment, size);
}

/* Uses the ports, of which no call takes memory, and closes them. */
static void use(scq_port *ports, size_t n) {
    scq_held held;
    uint64_t place;
    before_it = 0;
    for (size_t i = 0; i < n; i++) {
        CHECK(scq_lend(&ports[i], &held) == SCQ_OK);
        held.at[held.len - 1] = 1;
        CHECK(scq_send(&ports[i], held.index, 1, &place) == SCQ_OK);
        CHECK(scq_take(&ports[n - 1 - i], 1, &held) == SCQ_OK);
    }
    for (size_t i = 0; i < n; i++) CHECK(scq_close(&ports[i]) == SCQ_OK);
    CHECK(before_it == 0);
    before_it = -1;
}

/* How many allocations an opening makes, each of which was refused once. */
static long refusals(uint32_t order, uint32_t topics, uint32_t hold, size_t n) {
    for (long nth = 0;; nth++) {
        scq_port ports[8] = {SCQ_NONE, SCQ_NONE, SCQ_NONE, SCQ_NONE,
                             SCQ_NONE, SCQ_NONE, SCQ_NONE, SCQ_NONE};
        before_it = nth;
        const uint32_t answer = scq_open(order, topics, 16, hold, SCQ_MAX_LIMIT, ports, n);
        const int all_went_well = before_it >= 0;
        before_it = -1;
        if (all_went_well) {
            CHECK(answer == SCQ_OK);
            use(ports, n);
            return nth;
        }
        CHECK(answer == SCQ_NO_MEMORY);
        for (size_t i = 0; i < n; i++) CHECK(ports[i].at == NULL);
    }
}

int main(void) {
    const long small = refusals(1, 2, 2, 1), large = refusals(4, 17, 8, 8);
    CHECK(small > 0 && large > small);
    printf("%ld and %ld allocations, each refused once\n", small, large);
    return 0;
}
