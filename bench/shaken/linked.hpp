// The linked queue of Michael and Scott, of nodes of a pool, which are used anew. A link is a node's place and, above 32 bits, a tag that
// each change raises. Wrong with one of these:
//
//     NODE_FREED   a get gives its node back before it reads the value
//     NO_TAG       tags stay as they are
//     LINK_STORED  a put looks whether its node can stand behind the tail, and then stores the link
//     TAIL_LEFT    a put doesn't move the tail behind its node, and a get doesn't help
#include "shake.h"
#include <mutex>

// A list that is broken may have no end.
#if defined(NO_TAG) || defined(LINK_STORED)
constexpr long TRIES = 8;
#else
constexpr long TRIES = 1000000000;
#endif

struct Queue {
    struct Node {
        std::atomic<uint64_t> next{0}, value{0};
    };
    std::vector<Node> nodes;
    std::vector<uint32_t> pool;
    std::mutex lock;
    alignas(128) std::atomic<uint64_t> head{1};
    alignas(128) std::atomic<uint64_t> tail{1};

    // The place 0 is none, and the place 1 stands before the first value.
    Queue(uint32_t order, size_t) : nodes((size_t(1) << order) + 2) {
        for (uint32_t i = 2; i < nodes.size(); i++) pool.push_back(i);
    }
    uint32_t get_node() {
        std::lock_guard<std::mutex> locked(lock);
        if (pool.empty()) return 0;
        const uint32_t place = pool.back();
        pool.pop_back();
        return place;
    }
    void give_back(uint32_t place) {
        std::lock_guard<std::mutex> locked(lock);
        pool.push_back(place);
    }
    Node &at(uint64_t link) { return nodes[uint32_t(link)]; }
    static uint64_t moved(uint64_t link, uint64_t place) {
#ifdef NO_TAG
        return (link >> 32) << 32 | uint32_t(place);
#else
        return ((link >> 32) + 1) << 32 | uint32_t(place);
#endif
    }
};

struct Port {
    Queue &queue;

    Port(Queue &queue, size_t) : queue(queue) {}
    bool put(uint64_t value) {
        const uint32_t place = queue.get_node();
        if (!place) return false;
        Queue::Node &node = queue.nodes[place];
        node.value.store(value, std::memory_order_relaxed);
        node.next.store(Queue::moved(node.next.load(), 0));
        for (long tries = 0; tries < TRIES; tries++) {
            uint64_t tail = queue.tail.load();
            SCQ_SHAKE();
            uint64_t next = queue.at(tail).next.load();
            SCQ_SHAKE();
            if (queue.tail.load() != tail) continue;
            if (uint32_t(next)) {
                queue.tail.compare_exchange_strong(tail, Queue::moved(tail, next));
            } else if (link(queue.at(tail).next, next, Queue::moved(next, place))) {
                SCQ_SHAKE();
#ifndef TAIL_LEFT
                queue.tail.compare_exchange_strong(tail, Queue::moved(tail, place));
#endif
                return true;
            }
        }
        queue.give_back(place);
        return false;
    }
    bool get(uint64_t &value) {
        for (long tries = 0; tries < TRIES; tries++) {
            uint64_t head = queue.head.load();
            SCQ_SHAKE();
            uint64_t tail = queue.tail.load();
            const uint64_t next = queue.at(head).next.load();
            SCQ_SHAKE();
            if (queue.head.load() != head) continue;
#ifdef TAIL_LEFT
            if (uint32_t(head) == uint32_t(tail)) return false;
#endif
            if (!uint32_t(next)) return false;
            if (uint32_t(head) == uint32_t(tail)) {
                queue.tail.compare_exchange_strong(tail, Queue::moved(tail, next));
                continue;
            }
            const uint64_t read = queue.at(next).value.load(std::memory_order_relaxed);
            SCQ_SHAKE();
            if (!queue.head.compare_exchange_strong(head, Queue::moved(head, next))) continue;
            SCQ_SHAKE();
            value = read;
            queue.give_back(uint32_t(head));
#ifdef NODE_FREED
            SCQ_SHAKE();
            value = queue.at(next).value.load(std::memory_order_relaxed);
#endif
            return true;
        }
        return false;
    }
    void flush() {}

  private:
    static bool link(std::atomic<uint64_t> &place, uint64_t from, uint64_t to) {
#ifdef LINK_STORED
        if (place.load() != from) return false;
        SCQ_SHAKE();
        place.store(to);
        return true;
#else
        return place.compare_exchange_strong(from, to);
#endif
    }
};
