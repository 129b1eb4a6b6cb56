// A deque behind a mutex.
#include <deque>
#include <mutex>

struct alignas(128) Ring {
    std::mutex mutex;
    std::deque<Buffer *> deque;
    size_t room;

    explicit Ring(size_t n) : room(n) {}
    INLINE bool push(Buffer *buffer) {
        std::lock_guard<std::mutex> lock(mutex);
        if (deque.size() >= room) return false;
        deque.push_back(buffer);
        return true;
    }
    INLINE bool pop(Buffer *&buffer) {
        std::lock_guard<std::mutex> lock(mutex);
        if (deque.empty()) return false;
        buffer = deque.front(), deque.pop_front();
        return true;
    }
};
