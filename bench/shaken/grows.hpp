// A ring under a lock that doubles where it is full, up to its room, and is small again where it is empty. With GROWS_WRONG the lock is let
// go of while memory is got, and the values that were there before are copied.
#include "shake.h"
#include <mutex>

struct Queue {
    std::vector<uint64_t> ring;
    std::mutex lock;
    size_t head = 0, count = 0, room;

    Queue(uint32_t order, size_t) : ring(4), room(size_t(1) << order) {}
};

struct Port {
    Queue &queue;

    Port(Queue &queue, size_t) : queue(queue) {}
    bool put(uint64_t value) {
        std::unique_lock<std::mutex> locked(queue.lock);
        SCQ_SHAKE();
        if (queue.count == queue.room) return false;
        if (queue.count == queue.ring.size()) grow(locked);
        if (queue.count == queue.room) return false;
        queue.ring[(queue.head + queue.count++) % queue.ring.size()] = value;
        return true;
    }
    bool get(uint64_t &value) {
        std::lock_guard<std::mutex> locked(queue.lock);
        SCQ_SHAKE();
        if (queue.count == 0) return false;
        value = queue.ring[queue.head];
        queue.head = (queue.head + 1) % queue.ring.size();
        if (--queue.count == 0) queue.ring.resize(4), queue.head = 0;
        return true;
    }
    void flush() {}

  private:
    void grow(std::unique_lock<std::mutex> &locked) {
        const size_t head = queue.head, count = queue.count;
#ifdef GROWS_WRONG
        const std::vector<uint64_t> ring = queue.ring;
        locked.unlock();
        SCQ_SHAKE();
        std::vector<uint64_t> larger(2 * ring.size());
        locked.lock();
        if (queue.ring.size() != ring.size()) return;
#else
        const std::vector<uint64_t> &ring = queue.ring;
        std::vector<uint64_t> larger(2 * ring.size());
        (void)locked;
#endif
        for (size_t i = 0; i < count; i++) larger[i] = ring[(head + i) % ring.size()];
        queue.ring.swap(larger);
        queue.head = 0;
        queue.count = count;
    }
};
