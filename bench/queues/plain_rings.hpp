// The rings alone in plain C++: an index goes from ring 0 to ring 1, and back.
#include "steps.hpp"

struct Queue : Rings {
    Queue(uint32_t order, size_t) : Rings(order, 2, 4) {}
};

struct Port {
    Queue &queue;

    Port(Queue &queue, size_t) : queue(queue) {}
    INLINE bool put(uint64_t) {
        uint32_t index;
        return deq(queue.ring(0), index) == Got::Index && enq(queue.ring(1), index);
    }
    INLINE bool get(uint64_t &value) {
        uint32_t index = 0;
        const bool is_there = deq(queue.ring(1), index) == Got::Index && enq(queue.ring(0), index);
        value = index;
        return is_there;
    }
    void flush() {}
};
