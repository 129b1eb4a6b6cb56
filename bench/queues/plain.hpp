// The queue in plain C++: the step table over its rings, and buffers that are moved out of their slots and back.
#include "steps.hpp"

struct Moved {
    unsigned char *bytes;
    size_t room, length;
};

struct Slot {
    bool is_full;
    Moved buffer;
};

struct Queue : Rings {
    std::vector<Slot> slots;

    Queue(uint32_t order, size_t) : Rings(order, 2, 4), slots(size_t(1) << order) {
        for (Slot &slot : slots) slot = Slot{true, Moved{static_cast<unsigned char *>(calloc(64, 1)), 64, 64}};
    }
};

struct Port {
    Queue &queue;

    Port(Queue &queue, size_t) : queue(queue) {}
    INLINE bool put(uint64_t value) {
        uint32_t index;
        Moved buffer;
        if (!take_out(0, index, buffer)) return false;
        write_in(buffer.bytes, value);
        lay_in(1, index, buffer);
        return true;
    }
    INLINE bool get(uint64_t &value) {
        uint32_t index;
        Moved buffer;
        if (!take_out(1, index, buffer)) return false;
        value = bare ? index : read_in(buffer.bytes);
        lay_in(0, index, buffer);
        return true;
    }
    void flush() {}

  private:
    INLINE bool take_out(uint32_t ring, uint32_t &index, Moved &buffer) {
        const Got got = deq(queue.ring(ring), index);
        if (got == Got::Nothing) return false;
        if (got == Got::Spent || !queue.slots[index].is_full) abort();
        Slot &slot = queue.slots[index];
        buffer = slot.buffer;
        slot.is_full = false;
        return true;
    }
    INLINE void lay_in(uint32_t ring, uint32_t index, const Moved &buffer) {
        queue.slots[index] = Slot{true, buffer};
        if (!enq(queue.ring(ring), index)) abort();
    }
};
