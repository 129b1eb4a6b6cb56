// rte_ring, up to 32 buffers at a time. Each thread keeps up to four times as many, so that with few they are fewer.
#include "dpdk.hpp"
#include <algorithm>

struct Queue : Two<Ring> {
    unsigned bulk;

    Queue(uint32_t order, size_t threads)
        : Two(order, threads), bulk(unsigned(std::clamp<size_t>(buffers.size() / 4 / threads, 1, 32))) {}
};

// Buffers that go to a ring together, or came from it.
struct Bulk {
    rte_ring *ring;
    unsigned bulk, count = 0, next = 0;
    void *at[32];

    Bulk(const Ring &ring, unsigned bulk) : ring(ring.ring), bulk(bulk) {}
    INLINE void put(void *buffer) {
        at[count++] = buffer;
        if (count == bulk) put_all();
    }
    void put_all() {
        if (count && rte_ring_mp_enqueue_bulk(ring, at, count, nullptr) != count) fail("no room for a bulk");
        count = 0;
    }
    INLINE void *get() {
        if (next == count) next = 0, count = rte_ring_mc_dequeue_burst(ring, at, bulk, nullptr);
        return count ? at[next++] : nullptr;
    }
};

struct Port {
    Bulk free, out, in, back;

    Port(Queue &queue, size_t)
        : free(queue.free, queue.bulk), out(queue.sent, queue.bulk), in(queue.sent, queue.bulk),
          back(queue.free, queue.bulk) {}
    INLINE bool put(uint64_t value) {
        void *buffer = free.get();
        if (!buffer) return flush(), false;
        write_in(buffer, value);
        out.put(buffer);
        return true;
    }
    INLINE bool get(uint64_t &value) {
        void *buffer = in.get();
        if (!buffer) return flush(), false;
        value = read_in(buffer);
        back.put(buffer);
        return true;
    }
    void flush() {
        out.put_all();
        back.put_all();
    }
};
