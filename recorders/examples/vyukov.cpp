// Dmitry Vyukov's bounded queue of many producers and many consumers, recorded. `vyukov FOLDER CALLS wrong` takes a wrong one
// in its place: a put tells that its cell is full before it has written the value, so that a get may take what stood there before.
//   g++ -O2 -std=c++11 -pthread -I recorders recorders/examples/vyukov.cpp -o vyukov
//   mkdir -p logs && ./vyukov logs 62500 && ./scq judge logs/*.log
#include "recorder.h"
#include <string>
#include <thread>
#include <vector>

struct Cell {
    std::atomic<size_t> sequence;
    uint64_t value;
};

class Queue {
  public:
    Queue(size_t size, bool wrong) : cells(size), mask(size - 1), wrong(wrong), tail(0), head(0) {
        for (size_t i = 0; i < size; i++) cells[i].sequence.store(i, std::memory_order_relaxed);
    }

    bool put(uint64_t value) {
        size_t at = tail.load(std::memory_order_relaxed);
        for (;;) {
            Cell &cell = cells[at & mask];
            intptr_t ahead = (intptr_t)cell.sequence.load(std::memory_order_acquire) - (intptr_t)at;
            if (ahead < 0) return false;
            if (ahead > 0) {
                at = tail.load(std::memory_order_relaxed);
            } else if (tail.compare_exchange_weak(at, at + 1, std::memory_order_relaxed)) {
                if (wrong) {
                    cell.sequence.store(at + 1, std::memory_order_release);
                    if (value % 1000 == 0) std::this_thread::yield();
                    cell.value = value;
                } else {
                    cell.value = value;
                    cell.sequence.store(at + 1, std::memory_order_release);
                }
                return true;
            }
        }
    }

    bool get(uint64_t &value) {
        size_t at = head.load(std::memory_order_relaxed);
        for (;;) {
            Cell &cell = cells[at & mask];
            intptr_t ahead = (intptr_t)cell.sequence.load(std::memory_order_acquire) - (intptr_t)(at + 1);
            if (ahead < 0) return false;
            if (ahead > 0) {
                at = head.load(std::memory_order_relaxed);
            } else if (head.compare_exchange_weak(at, at + 1, std::memory_order_relaxed)) {
                value = cell.value;
                cell.sequence.store(at + mask + 1, std::memory_order_release);
                return true;
            }
        }
    }

  private:
    std::vector<Cell> cells;
    size_t mask;
    bool wrong;
    alignas(128) std::atomic<size_t> tail;
    alignas(128) std::atomic<size_t> head;
};

static const int THREADS = 4;

int main(int argc, char **argv) {
    if (argc < 3) return fprintf(stderr, "vyukov FOLDER CALLS [wrong]\n"), 2;
    std::string folder = argv[1];
    size_t calls = strtoull(argv[2], nullptr, 10);
    Queue queue(1024, argc > 3);
    scq_recorder recorder;
    scq_recorder_init(&recorder);
    std::vector<scq_seat> seats(THREADS);
    for (int i = 0; i < THREADS; i++)
        if (!scq_seat_init(&seats[i], &recorder, i, 4 * calls)) return fprintf(stderr, "no memory\n"), 1;
    std::vector<std::thread> threads;
    // All begin together: a thread that is done before the next has begun overlaps with none.
    std::atomic<int> here(0);
    for (int i = 0; i < THREADS; i++)
        threads.emplace_back([&queue, &seats, &here, i, calls] {
            scq_seat *seat = &seats[i];
            here++;
            while (here.load() < THREADS) std::this_thread::yield();
            for (size_t k = 0; k < calls; k++) {
                uint64_t value = scq_put_start(seat, 0);
                if (queue.put(value)) scq_put_done(seat);
                else scq_put_refused(seat);
                scq_get_start(seat, 0);
                if (queue.get(value)) scq_get_got(seat, value);
                else scq_get_nothing(seat);
            }
        });
    for (auto &thread : threads) thread.join();
    for (int i = 0; i < THREADS; i++)
        if (!scq_seat_write(&seats[i], (folder + "/" + std::to_string(i + 1) + ".log").c_str()))
            return fprintf(stderr, "not written\n"), 1;
    return 0;
}
