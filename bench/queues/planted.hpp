// Values in a ring behind a mutex, of which every 500th put goes wrong: with -DLOST it writes over the value before it;
// with -DREORDERED its value waits until the ring is empty; with -DFULL it is refused although half is free.
#include <deque>
#include <mutex>

struct Queue {
    std::mutex mutex;
    std::deque<uint64_t> ring, late;
    size_t room, puts = 0;

    Queue(uint32_t order, size_t) : room(size_t(1) << order) {}
};

struct Port {
    Queue &queue;

    Port(Queue &queue, size_t) : queue(queue) {}
    bool put(uint64_t value) {
        std::lock_guard<std::mutex> lock(queue.mutex);
        const size_t held = queue.ring.size() + queue.late.size();
        if (held == queue.room) return false;
        const bool is_turn = ++queue.puts % 500 == 0;
#if defined(LOST)
        if (is_turn && !queue.ring.empty()) queue.ring.pop_back();
#elif defined(REORDERED)
        if (is_turn) return queue.late.push_back(value), true;
#elif defined(FULL)
        if (is_turn && 2 * held <= queue.room) return false;
#endif
        queue.ring.push_back(value);
        return true;
    }
    bool get(uint64_t &value) {
        std::lock_guard<std::mutex> lock(queue.mutex);
        std::deque<uint64_t> &from = queue.ring.empty() ? queue.late : queue.ring;
        if (from.empty()) return false;
        value = from.front();
        from.pop_front();
        return true;
    }
    void flush() {}
};
