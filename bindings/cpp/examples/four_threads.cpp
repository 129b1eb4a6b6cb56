// Four threads on one queue of eight buffers: two send the numbers from 1 to 1,000,000 between
// them, two take half of them each, and what they took is summed.
//
//     c++ -pthread -I.. -I../../c four_threads.cpp libscq.a -o four_threads
#include "scq.hpp"

#include <cstdio>
#include <cstdlib>
#include <cstring>
#include <functional>
#include <thread>
#include <utility>

#ifndef LAST
#define LAST 1000000
#endif
static const std::uint64_t last = LAST;

static void stop_at(const char *call, scq::Answer answer) {
    std::fprintf(stderr, "%s: %s\n", call, scq::text(answer));
    std::exit(1);
}

// Sends the numbers from `first` on, every second one.
static void send_all(scq::Port port, std::uint64_t first) {
    for (std::uint64_t number = first; number <= last; number += 2) {
        scq::Lent lent = port.lend();
        while (lent.answer() == scq::Answer::Full) {
            std::this_thread::yield();
            lent = port.lend();
        }
        if (!lent) stop_at("lend", lent.answer());
        std::memcpy(lent.data(), &number, sizeof number);
        const scq::Sent sent = lent.send(0);
        if (!sent) stop_at("send", sent.answer);
    }
}

static void take_half(scq::Port port, std::uint64_t &sum) {
    for (std::uint64_t count = 0; count < last / 2; count++) {
        scq::Taken taken = port.take(0);
        while (taken.answer() == scq::Answer::Empty) {
            std::this_thread::yield();
            taken = port.take(0);
        }
        if (!taken) stop_at("take", taken.answer());
        std::uint64_t number;
        std::memcpy(&number, taken.data(), sizeof number);
        sum += number;
    }
}

int main() {
    scq::Setup setup;
    setup.order = 3;
    setup.size = sizeof(std::uint64_t);
    scq::Port ports[4];
    const scq::Answer answer = scq::Queue::open(setup, ports);
    if (answer != scq::Answer::Ok) stop_at("open", answer);
    std::uint64_t sums[2] = {0, 0};
    std::thread threads[4] = {
        std::thread(send_all, std::move(ports[0]), 1),
        std::thread(send_all, std::move(ports[1]), 2),
        std::thread(take_half, std::move(ports[2]), std::ref(sums[0])),
        std::thread(take_half, std::move(ports[3]), std::ref(sums[1])),
    };
    for (std::thread &thread : threads) thread.join();
    std::printf("the numbers from 1 to %llu are %llu together\n",
                static_cast<unsigned long long>(last),
                static_cast<unsigned long long>(sums[0] + sums[1]));
    return 0;
}
