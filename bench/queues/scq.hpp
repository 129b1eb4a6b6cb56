// The queue of this repository, by its calls for C.
#include "scq_calls.hpp"

struct Queue : Ports {
    Queue(uint32_t order, size_t threads) : Ports(order, threads, 64, 1) {}
};

struct Port : Fetched {
    using Fetched::Fetched;

    INLINE bool put(uint64_t value, uint32_t topic = 0) {
        scq_held held;
        if (!lend(held)) return false;
        write_in(held.at, value);
        return send(held, topic);
    }
    INLINE bool get(uint64_t &value, uint32_t topic = 0) {
        scq_held held;
        if (!take(held, topic)) return false;
        value = bare ? held.index : read_in(held.at);
        return give_back(held);
    }
    void flush() {}
};
