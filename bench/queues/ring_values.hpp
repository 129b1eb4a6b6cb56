// A ring of values of bindings/cpp/scq.hpp, in which numbers stand and no buffers: one by one, and several at a time.
#include "../../bindings/cpp/scq.hpp"

struct Queue {
    scq::Ring<uint64_t> ring;

    Queue(uint32_t order, size_t threads) {
        if (ring.open(order, threads) != scq::Answer::Ok) fail("no ring");
    }
};

struct alignas(128) Port {
    scq::Ring<uint64_t>::Handle handle;

    Port(Queue &queue, size_t) : handle(queue.ring.handle()) {}

    // Whether the answer is Ok, and not this other one that it may be.
    static INLINE bool is_ok(scq::Answer answer, scq::Answer other) {
        if (answer != scq::Answer::Ok && answer != other) fail(scq::text(answer));
        return answer == scq::Answer::Ok;
    }
    INLINE bool put(uint64_t value) { return is_ok(handle.push(std::move(value)), scq::Answer::Full); }
    INLINE bool get(uint64_t &value) {
        value = 0;
        return is_ok(handle.pop(value), scq::Answer::Empty);
    }
    size_t put_several(uint64_t *values, size_t count) {
        const scq::Several went = handle.push_many(values, count);
        return is_ok(went.answer, scq::Answer::Full), went.done;
    }
    size_t get_several(uint64_t *values, size_t count) {
        const scq::Several came = handle.pop_many(values, count);
        return is_ok(came.answer, scq::Answer::Empty), came.done;
    }
    void flush() {}
};
