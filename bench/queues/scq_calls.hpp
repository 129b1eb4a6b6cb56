// What scq.hpp and scq_packed.hpp have in common: the opened ports, and the port of a thread.
#pragma once
#include "scq.h"

struct Ports {
    std::vector<scq_port> ports;

    Ports(uint32_t order, size_t threads, uint32_t size, uint32_t hold) : ports(threads, scq_port SCQ_NONE) {
        if (scq_open(order, TOPICS, size, hold, SCQ_MAX_LIMIT, ports.data(), threads) != SCQ_OK) fail("scq_open");
    }
};

struct alignas(128) Fetched {
    scq_port port = SCQ_NONE;

    Fetched(Ports &all, size_t number) { std::swap(port, all.ports[number]); }
    Fetched(const Fetched &) = delete;
    ~Fetched() { scq_close(&port); }

    // Whether the answer was SCQ_OK, and not this other one that it may be.
    static INLINE bool is_ok(uint32_t answer, uint32_t other) {
        if (answer != SCQ_OK && answer != other) fail(scq_text(answer));
        return answer == SCQ_OK;
    }
    INLINE bool lend(scq_held &held) { return is_ok(scq_lend(&port, &held), SCQ_FULL); }
    INLINE bool take(scq_held &held, uint32_t topic = 0) {
        return is_ok(scq_take(&port, topic, &held), SCQ_EMPTY);
    }
    INLINE bool send(const scq_held &held, uint32_t topic = 0) {
        uint64_t place;
        return is_ok(scq_send(&port, held.index, topic, &place), SCQ_OK);
    }
    INLINE bool give_back(const scq_held &held) { return is_ok(scq_give_back(&port, held.index), SCQ_OK); }
};
