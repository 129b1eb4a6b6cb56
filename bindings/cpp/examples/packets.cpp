// Packets through two stages, up to 32 at a time: receivers fill buffers, checkers test them where
// they lie and send them on, and the last stage counts them. A checker that throws in the middle of
// a batch loses the batch, which is given back. That a stage is over the checkers know by how many
// receivers are left: they send too, so not all ports have retired by then. The last stage knows it
// by retired(), as all others have closed their ports.
//
//     c++ -pthread -I.. -I../../c packets.cpp libscq.a -o packets
#include "scq.hpp"

#include <atomic>
#include <cstdio>
#include <cstdlib>
#include <cstring>
#include <functional>
#include <stdexcept>
#include <thread>
#include <utility>
#include <vector>

#ifndef LAST
#define LAST 200000
#endif

struct Packet {
    std::uint64_t number;
    unsigned char payload[40];
};

using Batch = scq::Batch<32>;
enum : std::uint32_t { Raw, Checked, Topics };

// What was refused for another cause than this is no part of the plan.
static void must(const scq::Several &came, scq::Answer cause) {
    if (came.answer != scq::Answer::Ok && came.answer != cause)
        throw std::runtime_error(scq::text(came.answer));
}

static void receive(scq::Port port, std::uint64_t from, std::atomic<int> &left) {
    for (std::uint64_t number = from; number < from + LAST / 2;) {
        Batch batch(port);
        must(batch.lend(static_cast<std::size_t>(from + LAST / 2 - number)), scq::Answer::Full);
        if (batch.size() == 0) std::this_thread::yield();
        for (std::size_t k = 0; k < batch.size(); k++) {
            Packet packet{number++, {}};
            std::memset(packet.payload, static_cast<int>(packet.number & 255),
                        sizeof packet.payload);
            std::memcpy(batch[k].data(), &packet, sizeof packet);
        }
        must(batch.send(Raw), scq::Answer::Ok);
    }
    left--;
}

// Throws where a packet is bad.
static void check(const Batch &batch) {
    for (std::size_t k = 0; k < batch.size(); k++) {
        Packet packet;
        std::memcpy(&packet, batch[k].data(), sizeof packet);
        if (packet.number % 5000 == 4999) throw std::invalid_argument("a bad packet");
    }
}

static void check_all(scq::Port port, const std::atomic<int> &receivers, std::atomic<long> &lost) {
    for (;;) {
        // Asked first: what was sent before the last of them left is found below.
        const bool is_over = receivers == 0;
        Batch batch(port);
        must(batch.take(Raw), scq::Answer::Empty);
        if (batch.size() == 0 && is_over) return;
        if (batch.size() == 0) std::this_thread::yield();
        try {
            check(batch);
        } catch (const std::invalid_argument &) {
            lost += static_cast<long>(batch.size());
            continue; // the batch ends here
        }
        must(batch.send(Checked), scq::Answer::Ok);
    }
}

// How many come, until all others have retired.
static long count_all(scq::Port &port) {
    long count = 0;
    port.retire();
    for (;;) {
        const bool is_over = port.retired() == scq::Answer::Retired;
        Batch batch(port);
        must(batch.take(Checked), scq::Answer::Empty);
        if (batch.size() == 0 && is_over) return count;
        if (batch.size() == 0) std::this_thread::yield();
        count += static_cast<long>(batch.size());
    }
}

int main() {
    scq::Setup setup;
    setup.topics = Topics;
    setup.size = sizeof(Packet);
    setup.hold = 32;
    setup.order = 9;
    std::vector<scq::Port> ports(5);
    if (scq::Queue::open(setup, ports) != scq::Answer::Ok) return 1;
    std::atomic<int> receivers(2);
    std::atomic<long> lost(0);
    std::vector<std::thread> threads;
    for (std::size_t i = 0; i < 2; i++) {
        threads.emplace_back(receive, std::move(ports[i]), i * (LAST / 2), std::ref(receivers));
        threads.emplace_back(check_all, std::move(ports[2 + i]), std::cref(receivers),
                             std::ref(lost));
    }
    const long count = count_all(ports[4]);
    for (std::thread &thread : threads) thread.join();
    std::printf("all %d packets came or were lost with a bad one\n", LAST);
    return count + lost != LAST / 2 * 2 || (LAST > 5000 && lost == 0);
}
