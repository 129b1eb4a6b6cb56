// A queue of Rust, by the library that rust/lib.rs makes: its own loops, and its calls one by one.
#include "loops.hpp"

struct alignas(128) RustPort {};
struct Port;
extern "C" {
const RustPort *rust_make(uint32_t order, size_t threads);
bool rust_put(const RustPort *port, uint64_t value);
bool rust_get(const RustPort *port, uint64_t *value);
void put_many(Port &port, uint64_t many, Seen &seen);
void get_all(Port &port, const std::atomic<int> &putting, Seen &seen);
void both_many(Port &port, uint64_t many, Seen &seen);
void get_none(Port &port, uint64_t many, Seen &seen);
}

struct Queue {
    const RustPort *ports;

    Queue(uint32_t order, size_t threads) : ports(rust_make(order, threads)) {}
};

struct Port {
    const RustPort *port;

    Port(Queue &queue, size_t number) : port(&queue.ports[number]) {}
    bool put(uint64_t value) { return rust_put(port, value); }
    bool get(uint64_t &value) { return rust_get(port, &value); }
    void flush() {}
};
