// Two rings of one producer and one consumer each, with release and acquire alone. In each round each of two threads puts into its own
// ring and then gets from the other's. Where both find nothing, no order of the four calls explains it: the put of a thread wasn't seen yet
// when its call had ended. `two_rings FOLDER ROUNDS counter` stamps by the shared counter, whose barriers hide it.
//   g++ -O2 -std=c++11 -pthread -I recorders recorders/examples/two_rings.cpp -o two_rings
//   rm -rf logs && mkdir logs && ./two_rings logs 300000 && ./scq judge logs/*.log
#include "recorder.h"
#include <string>
#include <thread>

class Ring {
  public:
    bool put(uint64_t value) {
        size_t at = tail.load(std::memory_order_relaxed);
        if (at - head.load(std::memory_order_acquire) == SIZE) return false;
        values[at % SIZE] = value;
        tail.store(at + 1, std::memory_order_release);
        return true;
    }

    bool get(uint64_t &value) {
        size_t at = head.load(std::memory_order_relaxed);
        if (at == tail.load(std::memory_order_acquire)) return false;
        value = values[at % SIZE];
        head.store(at + 1, std::memory_order_release);
        return true;
    }

  private:
    static const size_t SIZE = 8;
    uint64_t values[SIZE];
    alignas(128) std::atomic<size_t> tail{0};
    alignas(128) std::atomic<size_t> head{0};
};

static Ring rings[2];
static std::atomic<uint64_t> here[2];
static bool found[2][2];
static uint64_t both_nothing;

static bool put(scq_seat *seat, int ring) {
    uint64_t value = scq_put_start(seat, ring);
    bool done = rings[ring].put(value);
    if (done) scq_put_done(seat);
    else scq_put_refused(seat);
    return done;
}

static bool get(scq_seat *seat, int ring) {
    uint64_t value;
    scq_get_start(seat, ring);
    bool got = rings[ring].get(value);
    if (got) scq_get_got(seat, value);
    else scq_get_nothing(seat);
    return got;
}

// Waits until both threads are here for the so-manieth time.
static void meet(int me, uint64_t times) {
    here[me].store(times);
    while (here[1 - me].load() < times) {}
}

static void run(scq_seat *seat, int me, uint64_t rounds) {
    for (uint64_t round = 0; round < rounds; round++) {
        meet(me, 2 * round + 1);
        put(seat, me);
        found[round % 2][me] = get(seat, 1 - me);
        meet(me, 2 * round + 2);
        if (me == 0 && !found[round % 2][0] && !found[round % 2][1]) both_nothing++;
        if (!found[round % 2][me]) get(seat, 1 - me);
    }
}

int main(int argc, char **argv) {
    if (argc < 3) return fprintf(stderr, "two_rings FOLDER ROUNDS [counter]\n"), 2;
    std::string folder = argv[1];
    uint64_t rounds = strtoull(argv[2], nullptr, 10);
    scq_recorder recorder;
    scq_seat seats[2];
    scq_recorder_init_as(&recorder, argc > 3 ? SCQ_COUNTER : SCQ_CLOCK);
    for (int i = 0; i < 2; i++)
        if (!scq_seat_init(&seats[i], &recorder, i, 6 * rounds)) return fprintf(stderr, "no memory\n"), 1;
    std::thread other(run, &seats[1], 1, rounds);
    run(&seats[0], 0, rounds);
    other.join();
    for (int i = 0; i < 2; i++)
        if (!scq_seat_write(&seats[i], (folder + "/" + std::to_string(i + 1) + ".log").c_str()))
            return fprintf(stderr, "not written\n"), 1;
    printf("both found nothing in %llu of %llu rounds\n", (unsigned long long)both_nothing, (unsigned long long)rounds);
    return 0;
}
