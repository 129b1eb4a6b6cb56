// A ring under a lock where a get that finds it empty waits a little, and a put hands its value to the first that waits. With HANDED_OVER a
// put looks before it takes the lock whether one waits, and puts into the ring where none did.
#include "shake.h"
#include <deque>
#include <mutex>

struct Wait {
    bool is_handed = false;
    uint64_t value = 0;
};

struct Queue {
    std::mutex lock;
    std::deque<uint64_t> ring;
    std::deque<Wait *> waits;
    std::atomic<size_t> waiting{0};
    const size_t room;

    Queue(uint32_t order, size_t) : room(size_t(1) << order) {}
};

struct Port {
    Queue &queue;

    Port(Queue &queue, size_t) : queue(queue) {}
    bool put(uint64_t value) {
#ifdef HANDED_OVER
        const bool hands = queue.waiting.load() != 0;
        SCQ_SHAKE();
#endif
        std::lock_guard<std::mutex> locked(queue.lock);
        SCQ_SHAKE();
#ifndef HANDED_OVER
        const bool hands = true;
#endif
        if (hands && !queue.waits.empty()) {
            Wait &wait = *queue.waits.front();
            wait.is_handed = true;
            wait.value = value;
            queue.waits.pop_front();
            queue.waiting = queue.waits.size();
            return true;
        }
        if (queue.ring.size() == queue.room) return false;
        queue.ring.push_back(value);
        return true;
    }
    bool get(uint64_t &value) {
        Wait mine;
        std::unique_lock<std::mutex> locked(queue.lock);
        SCQ_SHAKE();
        if (!queue.ring.empty()) {
            value = queue.ring.front();
            queue.ring.pop_front();
            return true;
        }
        queue.waits.push_back(&mine);
        queue.waiting = queue.waits.size();
        locked.unlock();
        for (int i = 0; i < 200; i++)
            if (i % 50 == 0) SCQ_SHAKE();
            else __asm__ volatile("");
        locked.lock();
        value = mine.value;
        if (mine.is_handed) return true;
        for (size_t i = 0; i < queue.waits.size(); i++)
            if (queue.waits[i] == &mine) queue.waits.erase(queue.waits.begin() + long(i));
        queue.waiting = queue.waits.size();
        return false;
    }
    void flush() {}
};
