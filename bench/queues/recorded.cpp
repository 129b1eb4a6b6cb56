// Records the calls of four threads, or of RECORDED_THREADS, on one queue, which is named to the compiler (queue.hpp):
//
//     recorded FOLDER CALLS [counter]
//
// Each makes so many steps, of two puts for one get and the other way round in turn, so that the queue of 64 buffers
// is full and empty now and then. By the processor's clock, or the counter. With -DSEVERAL=4 a call has so many values;
// -DORDER=16 -DTOPICS=31 -DPHASE=45056 -DPERIOD=135168 are 65,536 buffers with as many topics as a queue may have, full
// and empty too.
#include "recorder.h"
#include "queue.hpp"
#include QUEUE
#include <string>
#include <thread>

#ifndef RECORDED_THREADS
#define RECORDED_THREADS 4
#endif
#ifndef SEVERAL
#define SEVERAL 1
#endif
#ifndef ORDER
#define ORDER 6
#endif
#ifndef PERIOD
#define PERIOD 1024
#define PHASE 512
#endif
#if TOPICS > 1
#define ON(topic) , topic
#else
#define ON(topic)
#endif
constexpr uint32_t THREADS = RECORDED_THREADS;

#if SEVERAL > 1
static void run(Port &port, scq_seat &seat, uint64_t calls) {
    uint64_t values[SEVERAL];
    for (uint64_t k = 0; k < calls / SEVERAL; k++) {
        const bool fills = k / (512 / SEVERAL) % 2 == 0;
        if (fills || k % 2) {
            scq_puts_start(&seat, 0, values, SEVERAL);
            scq_puts_end(&seat, SEVERAL, port.put_several(values, SEVERAL));
        }
        if (!fills || k % 2) {
            scq_gets_start(&seat, 0, SEVERAL);
            const size_t got = port.get_several(values, SEVERAL);
            scq_gets_end(&seat, values, SEVERAL, got, SCQ_NOTHING);
        }
    }
}
#else
static void run(Port &port, scq_seat &seat, uint64_t calls) {
    uint64_t value;
    for (uint64_t k = 0; k < calls; k++) {
        const bool fills = k % PERIOD < PHASE;
        const uint32_t topic = k % TOPICS;
        if (fills || k % 2) {
            value = scq_put_start(&seat, topic);
            port.put(value ON(topic)) ? scq_put_done(&seat) : scq_put_refused(&seat);
        }
        if (!fills || k % 2) {
            scq_get_start(&seat, topic);
            port.get(value ON(topic)) ? scq_get_got(&seat, value) : scq_get_nothing(&seat);
        }
    }
}
#endif

int main(int argc, char **argv) {
    if (argc < 3) return 2;
    const std::string folder = argv[1];
    const uint64_t calls = std::strtoull(argv[2], nullptr, 10);
    scq_recorder recorder;
    scq_recorder_init_as(&recorder, argc > 3 ? SCQ_COUNTER : SCQ_CLOCK);
    static Queue queue(ORDER, THREADS);
    std::vector<scq_seat> seats(THREADS);
    std::vector<std::thread> threads;
    std::atomic<uint32_t> waiting{THREADS};
    for (uint32_t number = 0; number < THREADS; number++)
        threads.emplace_back([&, number] {
            Port port(queue, number);
            scq_seat &seat = seats[number];
            if (!scq_lanes_init(&seat, &recorder, number * SEVERAL, SEVERAL, 4 * calls)) fail("no memory");
            waiting--;
            while (waiting) std::this_thread::yield();
            run(port, seat, calls);
            if (!scq_seat_write(&seat, (folder + "/" + std::to_string(number + 1) + ".log").c_str()))
                fail("not written");
        });
    for (auto &thread : threads) thread.join();
    std::_Exit(0);
}
