// A ring of pointers of bindings/c/scq_ring.h, in which numbers stand in place of addresses: one by one, and several at a time.
#include "scq_ring.h"

struct Queue {
    std::vector<scq_ring> handles;

    Queue(uint32_t order, size_t threads) : handles(threads, scq_ring SCQ_RING_NONE) {
        if (scq_ring_open(order, SCQ_MAX_LIMIT, handles.data(), threads) != SCQ_OK) fail("no ring");
    }
};

struct alignas(128) Port {
    scq_ring handle = SCQ_RING_NONE;

    Port(Queue &queue, size_t number) { std::swap(handle, queue.handles[number]); }
    Port(const Port &) = delete;
    ~Port() { scq_ring_close(&handle); }

    // Whether the answer is SCQ_OK, and not this other one that it may be.
    static INLINE bool is_ok(uint32_t answer, uint32_t other) {
        if (answer != SCQ_OK && answer != other) fail(scq_text(answer));
        return answer == SCQ_OK;
    }
    INLINE bool put(uint64_t value) {
        return is_ok(scq_ring_push(&handle, reinterpret_cast<void *>(value)), SCQ_FULL);
    }
    INLINE bool get(uint64_t &value) {
        void *pointer;
        const bool is_there = is_ok(scq_ring_pop(&handle, &pointer), SCQ_EMPTY);
        value = reinterpret_cast<uint64_t>(pointer);
        return is_there;
    }
    size_t put_several(uint64_t *values, size_t count) {
        std::vector<void *> pointers(count);
        for (size_t k = 0; k < count; k++) pointers[k] = reinterpret_cast<void *>(values[k]);
        size_t done;
        is_ok(scq_ring_push_many(&handle, pointers.data(), count, &done), SCQ_FULL);
        return done;
    }
    size_t get_several(uint64_t *values, size_t count) {
        std::vector<void *> pointers(count);
        size_t done;
        is_ok(scq_ring_pop_many(&handle, pointers.data(), count, &done), SCQ_EMPTY);
        for (size_t k = 0; k < done; k++) values[k] = reinterpret_cast<uint64_t>(pointers[k]);
        return done;
    }
    void flush() {}
};
