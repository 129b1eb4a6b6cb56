// rte_ring of DPDK for many producers and many consumers, without the rest of DPDK.
#pragma once
#include <rte_ring.h>

struct Ring {
    rte_ring *ring;

    explicit Ring(size_t n) {
        const size_t size = static_cast<size_t>(rte_ring_get_memsize(static_cast<unsigned>(2 * n)));
        ring = static_cast<rte_ring *>(std::aligned_alloc(128, (size + 127) / 128 * 128));
        if (!ring || rte_ring_init(ring, "ring", static_cast<unsigned>(n), RING_F_EXACT_SZ) != 0) fail("rte_ring_init");
    }
    INLINE bool push(Buffer *buffer) { return rte_ring_mp_enqueue(ring, buffer) == 0; }
    INLINE bool pop(Buffer *&buffer) {
        void *at;
        if (rte_ring_mc_dequeue(ring, &at) != 0) return false;
        buffer = static_cast<Buffer *>(at);
        return true;
    }
};
