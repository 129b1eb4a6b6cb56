// moodycamel::ConcurrentQueue, which has no bound but the number of buffers.
#include <concurrentqueue/concurrentqueue.h>

struct Ring {
    moodycamel::ConcurrentQueue<Buffer *> queue;

    explicit Ring(size_t n) : queue(8 * n) {}
    INLINE bool push(Buffer *buffer) { return queue.enqueue(buffer); }
    INLINE bool pop(Buffer *&buffer) { return queue.try_dequeue(buffer); }
};
