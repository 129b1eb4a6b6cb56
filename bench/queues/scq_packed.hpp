// The queue of this repository with 32 messages of 64 bytes packed in a buffer, of order 6 or more.
#include "scq_calls.hpp"

struct Queue : Ports {
    Queue(uint32_t order, size_t threads) : Ports(order - 5, threads, 4 + 32 * (4 + 64), 2) {}
};

struct Port : Fetched {
    using Fetched::Fetched;
    scq_held out, in;
    uint32_t packed = 0;
    bool is_in = false;
    size_t next = 0;

    INLINE bool put(uint64_t value) {
        if (packed == 0) {
            if (!lend(out)) return false;
            scq_pack_begin(&out);
        }
        write_in(scq_pack_room(&out, 64), value);
        if (++packed == 32) flush();
        return true;
    }
    INLINE bool get(uint64_t &value) {
        const unsigned char *at;
        size_t length;
        while (!is_in || !scq_unpack(&in, &next, &at, &length)) {
            if (is_in) give_back(in);
            is_in = take(in), next = 0;
            if (!is_in) return flush(), false;
        }
        value = read_in(at);
        return true;
    }
    void flush() {
        if (packed) send(out);
        packed = 0;
    }
};
