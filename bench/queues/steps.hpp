// The step table of the rings in plain C++, over the layout of words of `scq_band`.
#pragma once

using Word = std::atomic<uint64_t>;

constexpr uint64_t ZERO_LEVEL = uint64_t(1) << 32;
constexpr size_t DISTANCE = 16;             // of the gate, Tail, Head and Threshold, in words, as in `scq_band`
constexpr uint32_t LARGEST_LINED_ORDER = 9; // up to which each entry has a cache line to itself, likewise

// How many rows of eight words the entries of a ring take, as a power of two.
static inline uint32_t column_bits(uint32_t order) { return order <= LARGEST_LINED_ORDER ? order + 1 : order - 2; }

// A ring: its Tail, Head and Threshold, behind which the entries stand, and what a call needs of the setup.
struct Ring {
    Word *tail, *head, *threshold;
    uint32_t order, column;
    uint64_t limit, level;

    uint64_t slots() const { return uint64_t(2) << order; }
    uint64_t mark() const { return slots() - 1; }
    uint64_t cycle(uint64_t ticket) const { return ticket >> (order + 1); }
    uint64_t cycle_in(uint64_t entry) const { return entry >> (order + 2); }
    bool is_safe(uint64_t entry) const { return entry & slots(); }
    bool has_index(uint64_t entry) const { return (entry & mark()) != mark(); }
    uint64_t packed(uint64_t cycle, uint64_t safe, uint64_t index) const { return cycle << (order + 2) | safe | index; }
    // Of the cycle before, safe, without an index.
    uint64_t guess(uint64_t ticket) const { return packed(cycle(ticket) - 1, slots(), mark()); }
    Word &entry(uint64_t ticket) const {
        const uint64_t row = ticket & ((uint64_t(1) << column) - 1);
        return threshold[DISTANCE + row * 8 + ((ticket & mark()) >> column)];
    }
};

// All rings, in one list of words. Ring 0 has all indices.
struct Rings {
    std::vector<Word> words;
    uint32_t order;
    uint64_t limit, level;

    Rings(uint32_t order, uint32_t rings, uint32_t seats)
        : words(DISTANCE + rings * ring_words(order)), order(order), limit(uint64_t(1) << 60) {
        const uint64_t n = uint64_t(1) << order;
        level = ZERO_LEVEL + 2 * n - 1 + (n > seats ? n : seats);
        words[0] = seats;
        for (uint32_t number = 0; number < rings; number++) {
            const Ring r = ring(number);
            *r.tail = number == 0 ? r.slots() + n : r.slots();
            *r.head = r.slots();
            *r.threshold = number == 0 ? level : ZERO_LEVEL - 1;
            for (uint64_t ticket = 0; ticket < r.slots(); ticket++) {
                const bool is_full = number == 0 && ticket < n;
                r.entry(ticket) = r.packed(is_full ? 1 : 0, r.slots(), is_full ? ticket : r.mark());
            }
        }
    }
    static size_t ring_words(uint32_t order) { return 4 * DISTANCE - 1 + (size_t(8) << column_bits(order)); }
    Ring ring(uint32_t number) {
        Word *tail = words.data() + DISTANCE + number * ring_words(order);
        return Ring{tail, tail + DISTANCE, tail + 2 * DISTANCE, order, column_bits(order), limit, level};
    }
};

// Whether the index was placed at the ticket.
static INLINE bool place(const Ring &r, uint64_t ticket, uint32_t index) {
    Word &entry = r.entry(ticket);
    const uint64_t filled = r.packed(r.cycle(ticket), r.slots(), index);
    uint64_t found = r.guess(ticket);
    if (entry.compare_exchange_strong(found, filled)) return true;
    for (;;) {
        if (r.cycle_in(found) >= r.cycle(ticket) || r.has_index(found)) return false;
        if (!r.is_safe(found) && r.head->load() > ticket) return false;
        if (entry.compare_exchange_strong(found, filled)) return true;
        found = entry.load();
    }
}

// Whether the index was put.
static INLINE bool enq(const Ring r, uint32_t index) {
    for (;;) {
        const uint64_t ticket = r.tail->fetch_add(1);
        if (ticket >= r.limit) return false;
        if (!place(r, ticket, index)) continue;
        if (r.threshold->load() != r.level) r.threshold->store(r.level);
        return true;
    }
}

enum class Got { Index, Nothing, Spent };

static INLINE Got deq(const Ring r, uint32_t &index) {
    if (r.threshold->load() < ZERO_LEVEL) return Got::Nothing;
    for (;;) {
        const uint64_t ticket = r.head->fetch_add(1);
        if (ticket >= r.limit) return Got::Spent;
        Word &entry = r.entry(ticket);
        for (;;) {
            uint64_t found = entry.load();
            if (r.cycle_in(found) == r.cycle(ticket)) {
                index = uint32_t(entry.fetch_or(r.mark()) & r.mark());
                return Got::Index;
            }
            if (r.cycle_in(found) > r.cycle(ticket)) break;
            const uint64_t left =
                r.has_index(found) ? found & ~r.slots() : r.packed(r.cycle(ticket), found & r.slots(), r.mark());
            if (entry.compare_exchange_strong(found, left)) break;
        }
        uint64_t tail = r.tail->load();
        if (tail <= ticket + 1) {
            uint64_t to = ticket + 1;
            while (!r.tail->compare_exchange_strong(tail, to)) {
                to = r.head->load();
                tail = r.tail->load();
                if (tail >= to) break;
            }
            r.threshold->fetch_sub(1);
            return Got::Nothing;
        }
        if (r.threshold->fetch_sub(1) <= ZERO_LEVEL) return Got::Nothing;
    }
}
