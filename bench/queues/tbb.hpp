// tbb::concurrent_bounded_queue.
#include <tbb/concurrent_queue.h>

struct Ring {
    tbb::concurrent_bounded_queue<Buffer *> queue;

    explicit Ring(size_t n) { queue.set_capacity(static_cast<std::ptrdiff_t>(n)); }
    INLINE bool push(Buffer *buffer) { return queue.try_push(buffer); }
    INLINE bool pop(Buffer *&buffer) { return queue.try_pop(buffer); }
};
