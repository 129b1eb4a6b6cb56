// The loops that are timed. A queue that has its own, in another language, overloads them.
#pragma once
#include "queue.hpp"

#define LOOP template <class Port> __attribute__((noinline)) static void

// What a thread put and got, and the sums of the values.
struct Seen {
    uint64_t puts, put_sum, gets, got_sum;

    template <class Port> INLINE bool put(Port &port) {
        if (!port.put(puts)) return false;
        put_sum += puts++;
        return true;
    }
    template <class Port> INLINE bool get(Port &port) {
        uint64_t value;
        if (!port.get(value)) return false;
        gets++, got_sum += value;
        return true;
    }
};

LOOP put_many(Port &port, uint64_t many, Seen &seen) {
    Seen mine = {};
    while (mine.puts < many)
        if (!mine.put(port)) __builtin_ia32_pause();
    port.flush();
    seen = mine;
}

// Until nothing is there and nobody puts any more.
LOOP get_all(Port &port, const std::atomic<int> &putting, Seen &seen) {
    Seen mine = {};
    for (bool is_last = false;;) {
        if (mine.get(port)) continue;
        if (is_last) break;
        is_last = putting.load() == 0;
        __builtin_ia32_pause();
    }
    port.flush();
    seen = mine;
}

LOOP both_many(Port &port, uint64_t many, Seen &seen) {
    Seen mine = {};
    while (mine.gets < many) mine.put(port), mine.get(port);
    port.flush();
    seen = mine;
}

// How often nothing was there.
LOOP get_none(Port &port, uint64_t many, Seen &seen) {
    uint64_t value, none = 0;
    for (uint64_t i = 0; i < many; i++) none += !port.get(value);
    seen.got_sum = none;
}
