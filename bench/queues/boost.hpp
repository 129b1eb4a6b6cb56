// boost::lockfree::queue with as many nodes as there are buffers.
#include <boost/lockfree/queue.hpp>

struct Ring {
    boost::lockfree::queue<Buffer *, boost::lockfree::fixed_sized<true>> queue;

    explicit Ring(size_t n) : queue(n) {}
    INLINE bool push(Buffer *buffer) { return queue.bounded_push(buffer); }
    INLINE bool pop(Buffer *&buffer) { return queue.pop(buffer); }
};
