// What a queue of this folder offers, to be measured by `calls.cpp` or recorded by `recorded.cpp`. The file of a queue
// is named to the compiler, -DQUEUE='"scq.hpp"', and has
//
//     Queue(order, threads)   2^order buffers of 64 bytes for so many threads
//     Port(queue, number)     what the thread of this number makes its calls with
//     port.put(value)         a free buffer is got, the value written into it, and it is sent; whether one was free
//     port.get(value)         one is taken, its value read, and it is given back; whether one was
//     port.flush()            sends and gives back what the port keeps, where messages go packed
//     port.put_several(values, count), port.get_several(values, count)
//                             of some: calls of several, which say how many went
//
// With -DTOPICS=31 a queue has so many topics, and a put and a get name theirs last, where the file of it has them. With
// -DBARE no byte is written, and the value that is got is the number of the buffer.
#pragma once
#include <atomic>
#include <cstdint>
#include <cstdio>
#include <cstdlib>
#include <cstring>
#include <memory>
#include <vector>

#define INLINE __attribute__((always_inline)) inline

#ifndef TOPICS
#define TOPICS 1
#endif
#ifndef BARE
#define BARE 0
#endif
constexpr bool bare = BARE;

struct alignas(64) Buffer {
    unsigned char bytes[64];
};

INLINE void write_in(void *at, uint64_t value) {
    if (!bare) std::memcpy(at, &value, 8);
}
INLINE uint64_t read_in(const void *at) {
    uint64_t value;
    std::memcpy(&value, at, 8);
    return value;
}

[[noreturn]] inline void fail(const char *why) {
    std::fprintf(stderr, "%s\n", why);
    std::abort();
}

// A queue of two rings of pointers, one of the free buffers and one of those that were sent. A ring
// has `push` and `pop`, which say whether there was room and whether there was one.
template <class Ring> struct Two {
    Ring free, sent;
    std::vector<Buffer> buffers;

    Two(uint32_t order, size_t) : free(size_t(1) << order), sent(size_t(1) << order), buffers(size_t(1) << order) {
        for (uint64_t i = 0; i < buffers.size(); i++) {
            std::memcpy(&buffers[i], &i, 8);
            if (!free.push(&buffers[i])) fail("no room for a free buffer");
        }
    }
};

template <class Ring> struct PortOfTwo {
    Two<Ring> &queue;

    PortOfTwo(Two<Ring> &queue, size_t) : queue(queue) {}
    INLINE bool put(uint64_t value) {
        Buffer *buffer = nullptr;
        if (!queue.free.pop(buffer)) return false;
        write_in(buffer, value);
        if (!queue.sent.push(buffer)) fail("no room to send");
        return true;
    }
    INLINE bool get(uint64_t &value) {
        Buffer *buffer = nullptr;
        if (!queue.sent.pop(buffer)) return false;
        value = read_in(buffer);
        if (!queue.free.push(buffer)) fail("no room to give back");
        return true;
    }
    void flush() {}
};
