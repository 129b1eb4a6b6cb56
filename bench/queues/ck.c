// ck_ring.h doesn't compile as C++. With -flto these calls stand where they are made.
#include <ck_ring.h>
#include <stdbool.h>
#include <stdlib.h>

ck_ring_t *ring_make(unsigned size, ck_ring_buffer_t **cells) {
    ck_ring_t *ring = aligned_alloc(128, (sizeof *ring + 127) / 128 * 128);
    *cells = calloc(size, sizeof **cells);
    if (!ring || !*cells) abort();
    ck_ring_init(ring, size);
    return ring;
}

bool ring_push(ck_ring_t *ring, ck_ring_buffer_t *cells, void *value) {
    return ck_ring_enqueue_mpmc(ring, cells, value);
}

bool ring_pop(ck_ring_t *ring, ck_ring_buffer_t *cells, void *value) {
    return ck_ring_dequeue_mpmc(ring, cells, value);
}
