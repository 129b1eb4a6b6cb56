// A ring under a lock. Wrong with one of these:
//
//     TRY_LOCK       a get answers Empty where the lock is another's
//     SIZE_PLAIN     the size is counted outside the lock, by a load and a store
//     WRITTEN_LATE   a put writes its value behind the unlock
//     LOOKED_FIRST   a get reads the front, and takes off what is in front later
//     DROPPED        one put in 20,000 is lost
#include "shake.h"
#include <mutex>

struct Queue {
    std::vector<std::atomic<uint64_t>> cells;
    std::mutex lock;
    uint64_t head = 0, tail = 0, puts = 0;
    std::atomic<int64_t> size{0};

    Queue(uint32_t order, size_t) : cells(size_t(1) << order) {}
    std::atomic<uint64_t> &cell(uint64_t at) { return cells[at % cells.size()]; }
};

struct Port {
    Queue &queue;

    Port(Queue &queue, size_t) : queue(queue) {}
    bool put(uint64_t value) {
        std::unique_lock<std::mutex> locked(queue.lock);
        SCQ_SHAKE();
        if (queue.tail - queue.head == queue.cells.size()) return false;
#ifdef DROPPED
        if (++queue.puts % 20000 == 0) return true;
#endif
        std::atomic<uint64_t> &cell = queue.cell(queue.tail++);
#ifdef WRITTEN_LATE
        locked.unlock();
        SCQ_SHAKE();
#endif
        cell.store(value, std::memory_order_relaxed);
        SCQ_SHAKE();
#ifdef SIZE_PLAIN
        locked.unlock();
        count(1);
#endif
        return true;
    }
    bool get(uint64_t &value) {
#ifdef SIZE_PLAIN
        if (queue.size.load() <= 0) return false;
        SCQ_SHAKE();
#endif
#ifdef TRY_LOCK
        std::unique_lock<std::mutex> locked(queue.lock, std::try_to_lock);
        if (!locked) return false;
#else
        std::unique_lock<std::mutex> locked(queue.lock);
#endif
        SCQ_SHAKE();
        if (queue.tail == queue.head) return false;
        value = queue.cell(queue.head).load(std::memory_order_relaxed);
#ifdef LOOKED_FIRST
        locked.unlock();
        SCQ_SHAKE();
        locked.lock();
        if (queue.tail == queue.head) return false;
#endif
        queue.head++;
        SCQ_SHAKE();
#ifdef SIZE_PLAIN
        locked.unlock();
        count(-1);
#endif
        return true;
    }
    void flush() {}

  private:
    void count(int64_t more) {
        const int64_t size = queue.size.load();
        SCQ_SHAKE();
        queue.size.store(size + more);
    }
};
