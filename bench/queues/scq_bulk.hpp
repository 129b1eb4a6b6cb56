// The queue of this repository, up to 32 buffers at a time, and with few as many fewer as in dpdk_bulk.hpp.
#include "scq_calls.hpp"
#include <algorithm>

struct Queue : Ports {
    const uint32_t bulk;

    Queue(uint32_t order, size_t threads) : Queue(order, threads, bulk_of(size_t(1) << order, threads)) {}

  private:
    static uint32_t bulk_of(size_t buffers, size_t threads) {
        return uint32_t(std::clamp<size_t>(buffers / 4 / threads, 1, 32));
    }
    Queue(uint32_t order, size_t threads, uint32_t bulk)
        : Ports(order, threads, 64, std::min(UINT32_C(1) << order, 2 * bulk)), bulk(bulk) {}
};

// Buffers that are held together: those before `next` are done with.
struct Bulk {
    scq_held at[32];
    size_t count = 0, next = 0;

    // These of them are no more held.
    void let_go() {
        std::copy(at + next, at + count, at);
        count -= next, next = 0;
    }
};

struct Port : Fetched {
    const uint32_t bulk;
    Bulk lent, taken;

    Port(Queue &queue, size_t number) : Fetched(queue, number), bulk(queue.bulk) {}
    INLINE bool put(uint64_t value) {
        if (lent.count == 0 && !(is_ok(scq_lend_many(&port, lent.at, bulk, &lent.count), SCQ_FULL) || lent.count))
            return flush(), false;
        write_in(lent.at[lent.next++].at, value);
        if (lent.next == lent.count) send_all();
        return true;
    }
    INLINE bool get(uint64_t &value) {
        if (taken.count == 0 && !(is_ok(scq_take_many(&port, 0, taken.at, bulk, &taken.count), SCQ_EMPTY) || taken.count))
            return flush(), false;
        const scq_held &held = taken.at[taken.next++];
        value = bare ? held.index : read_in(held.at);
        if (taken.next == taken.count) give_all_back();
        return true;
    }
    void flush() {
        send_all();
        give_all_back();
    }

  private:
    void send_all() {
        size_t done;
        if (scq_send_many(&port, lent.at, lent.next, 0, &done) != SCQ_OK) fail("scq_send_many");
        lent.let_go();
    }
    void give_all_back() {
        size_t done;
        if (scq_give_back_many(&port, taken.at, taken.next, &done) != SCQ_OK) fail("scq_give_back_many");
        taken.let_go();
    }
};
