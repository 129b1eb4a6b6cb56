// The yardstick of the library: the calls of one buffer of scq.h, written by hand. They take the steps of the machine,
// make every test of the caller that the header names, and tell all that it says a port tells. What only a proof reads
// isn't there: a buffer lies in no slot that calls fill and empty, a port lists no hand but looks up an index, no
// numbers are compared that only rise, and a port isn't closed while a call is made with it. A port and what it writes
// lie in lines of their own.
//
// With -DGUESSING=1 an enqueue's first try at a ticket doesn't look, but exchanges from what mostly stands there, the
// cycle before, safe, with no index, and each entry lies in a line of its own.
#include "scq.h"
#include <stdatomic.h>
#include <stdbool.h>

// The exported call itself is written here.
#undef scq_send

#ifndef GUESSING
#define GUESSING 0
#endif
#define INLINE static inline __attribute__((always_inline))
#define ZERO_LEVEL (UINT64_C(1) << 32)
enum { LINES = 128, DISTANCE = 16, EIGHT = 8 };

typedef _Atomic(uint64_t) Word;

// A ring: its Tail, Head and Threshold, the entries by slot, and what a call needs of the setup.
typedef struct {
    Word *tail, *head, *threshold, *entries;
    uint64_t mark, row_mask, limit, level;
    uint32_t row_shift;
} Ring;

typedef struct {
    _Atomic(uint32_t) open;
    uint32_t ports, topics, buffers;
    Word *words;
    scq_counts *counts;
    Ring rings[]; // the free buffers, and then a topic each
} Queue;

// What a port knows of a ring: the ticket of its last put, and a head.
typedef struct {
    uint64_t put, head;
} Numbers;

typedef struct {
    Queue *queue;
    Numbers *known; // by ring
    bool *holds;    // by index
    uint32_t number, topics, used, hold, buffers;
    bool has_retired, is_spent;
    uint64_t spent;
    scq_counts counts;
} Port;

enum Got { INDEX, NOTHING, SPENT };

INLINE Word *entry_of(const Ring *ring, uint64_t ticket) {
    const uint64_t rest = ticket & ring->mark;
    return ring->entries + (GUESSING ? rest * EIGHT : (rest & ring->row_mask) * EIGHT + (rest >> ring->row_shift));
}

// An entry is the cycle of a ticket, what it has above the mark, doubled; whether it is safe; and an index, or the mark
// where there is none.
INLINE bool is_of_cycle(uint64_t entry, uint64_t ticket, uint64_t mark) { return (entry / 2 ^ ticket) <= mark; }

INLINE enum Got dequeue(const Ring *ring, uint64_t *ticket, uint32_t *index, bool *drew) {
    const uint64_t mark = ring->mark, safe = mark + 1;
    *drew = false;
    if (atomic_load(ring->threshold) < ZERO_LEVEL) return NOTHING;
    for (;;) {
        const uint64_t mine = atomic_fetch_add(ring->head, 1);
        *ticket = mine, *drew = true;
        if (mine >= ring->limit) return SPENT;
        Word *const entry = entry_of(ring, mine);
        for (;;) {
            uint64_t found = atomic_load(entry);
            if (is_of_cycle(found, mine, mark)) {
                atomic_fetch_or(entry, mark);
                *index = (uint32_t)(found & mark);
                return INDEX;
            }
            const uint64_t passed = 2 * (mine & ~mark) | (found & safe) | mark;
            if (found > passed) break;
            const uint64_t left = (found & mark) == mark ? passed : found & ~safe;
            if (atomic_compare_exchange_strong(entry, &found, left)) break;
        }
        uint64_t tail = atomic_load(ring->tail);
        if (tail <= mine + 1) {
            uint64_t to = mine + 1;
            while (!atomic_compare_exchange_strong(ring->tail, &tail, to)) {
                to = atomic_load(ring->head), tail = atomic_load(ring->tail);
                if (tail >= to) break;
            }
            atomic_fetch_sub(ring->threshold, 1);
            return NOTHING;
        }
        if (atomic_fetch_sub(ring->threshold, 1) <= ZERO_LEVEL) return NOTHING;
    }
}

// Whether the index was put at the ticket.
INLINE bool enqueue(const Ring *ring, uint32_t index, uint64_t *ticket) {
    const uint64_t mark = ring->mark, safe = mark + 1;
    for (;;) {
        const uint64_t mine = atomic_fetch_add(ring->tail, 1);
        *ticket = mine;
        if (mine >= ring->limit) return false;
        Word *const entry = entry_of(ring, mine);
        const uint64_t put = 2 * (mine & ~mark) | safe | index;
        uint64_t found = (put | mark) - 2 * safe;
        bool is_put = GUESSING && atomic_compare_exchange_strong(entry, &found, put);
        while (!is_put) {
            found = atomic_load(entry);
            // What is below and of this cycle isn't safe, and the get that passed it has drawn this ticket of Head.
            if (found >= put || (found & mark) != mark) break;
            if (!(found & safe) && atomic_load(ring->head) > mine) break;
            is_put = atomic_compare_exchange_strong(entry, &found, put);
        }
        if (!is_put) continue;
        if (atomic_load(ring->threshold) != ring->level) atomic_store(ring->threshold, ring->level);
        return true;
    }
}

// A lend or a take: a get of this ring, answered `nothing` where none is there.
INLINE uint32_t get(Port *port, uint32_t number, uint32_t nothing, scq_held *out) {
    if (port->used >= port->hold) return SCQ_NO_ROOM;
    if (port->is_spent) return out->place = port->spent, SCQ_SPENT;
    Numbers *const known = &port->known[number];
    uint64_t ticket = 0;
    uint32_t index = 0;
    bool drew;
    const enum Got got = dequeue(&port->queue->rings[number], &ticket, &index, &drew);
    if (got == SPENT) {
        port->is_spent = true, port->spent = ticket;
        return out->place = ticket, SCQ_SPENT;
    }
    if (got == NOTHING) {
        if (drew && known->head < ticket + 1) known->head = ticket + 1;
        if (known->head < known->put + 1) known->head = known->put + 1;
        out->place = known->head;
        port->counts.full += nothing == SCQ_FULL;
        return nothing;
    }
    known->head = ticket + 1;
    port->used++;
    port->holds[index] = true;
    port->counts.taken += nothing == SCQ_EMPTY;
    out->place = nothing == SCQ_EMPTY ? ticket : 0;
    out->index = index;
    return SCQ_OK;
}

// A send or a give-back: a put to this ring.
INLINE uint32_t put(Port *port, uint32_t number, uint32_t index, uint64_t *ticket) {
    if (index >= port->buffers || !port->holds[index]) return SCQ_NOT_HELD;
    if (port->is_spent) return *ticket = port->spent, SCQ_SPENT;
    if (!enqueue(&port->queue->rings[number], index, ticket)) {
        port->is_spent = true, port->spent = *ticket;
        return SCQ_SPENT;
    }
    port->holds[index] = false;
    port->known[number].put = *ticket;
    port->used--;
    return SCQ_OK;
}

uint32_t scq_lend_index(scq_port *at, scq_held *out) {
    Port *const port = at->at;
    if (!port) return SCQ_CLOSED;
    return get(port, 0, SCQ_FULL, out);
}

uint32_t scq_take_index(scq_port *at, uint32_t topic, scq_held *out) {
    Port *const port = at->at;
    if (!port) return SCQ_CLOSED;
    if (topic >= port->topics) return SCQ_NO_TOPIC;
    return get(port, topic + 1, SCQ_EMPTY, out);
}

uint32_t scq_send(scq_port *at, uint32_t index, uint32_t topic, uint64_t *place) {
    Port *const port = at->at;
    if (!port) return SCQ_CLOSED;
    if (topic >= port->topics) return SCQ_NO_TOPIC;
    if (port->has_retired) return SCQ_RETIRED;
    const uint32_t answer = put(port, topic + 1, index, place);
    port->counts.sent += answer == SCQ_OK;
    return answer;
}

uint32_t scq_give_back(scq_port *at, uint32_t index) {
    Port *const port = at->at;
    uint64_t place;
    if (!port) return SCQ_CLOSED;
    return put(port, 0, index, &place);
}

uint32_t scq_version(void) { return SCQ_VERSION; }

// Zero bytes in lines of their own.
static void *in_lines(size_t len) {
    const size_t room = (len + 2 * LINES - 1) / LINES * LINES;
    void *const at = aligned_alloc(LINES, room);
    if (!at) abort();
    return memset(at, 0, room);
}

static size_t ring_words(uint64_t slots) { return 4 * DISTANCE - 1 + slots * (GUESSING ? EIGHT : 1); }

static void begin_ring(Ring *ring, Word *tail, uint32_t order, bool is_full, size_t ports, uint64_t limit) {
    const uint64_t n = UINT64_C(1) << order, slots = 2 * n, level = ZERO_LEVEL + slots - 1 + (n > ports ? n : ports);
    *ring = (Ring){.tail = tail, .head = tail + DISTANCE, .threshold = tail + 2 * DISTANCE, .limit = limit};
    ring->entries = tail + 3 * DISTANCE;
    ring->mark = slots - 1, ring->level = level;
    if (order > 2) ring->row_mask = slots / EIGHT - 1, ring->row_shift = order - 2;
    *ring->tail = is_full ? slots + n : slots;
    *ring->head = slots;
    *ring->threshold = is_full ? level : ZERO_LEVEL - 1;
    for (uint64_t ticket = 0; ticket < slots; ticket++)
        *entry_of(ring, ticket) = is_full && ticket < n ? 2 * slots | slots | ticket : slots | ring->mark;
}

// Asks that the numbers are right and the ports closed, which is all that isn't tested.
#undef scq_open_over
uint32_t scq_open_over(uint32_t order, uint32_t topics, uint32_t hold, uint64_t limit, const scq_memory *memory,
                       scq_port *ports, size_t n) {
    const uint32_t buffers = UINT32_C(1) << order;
    const size_t rings = topics + 1, words = ring_words(2 * (uint64_t)buffers);
    Queue *const queue = in_lines(sizeof *queue + rings * sizeof *queue->rings);
    queue->ports = (uint32_t)n, queue->topics = topics, queue->buffers = buffers;
    queue->open = (uint32_t)n;
    queue->words = in_lines((DISTANCE + rings * words) * sizeof *queue->words);
    queue->counts = in_lines(n * sizeof *queue->counts);
    for (size_t number = 0; number < rings; number++)
        begin_ring(&queue->rings[number], queue->words + DISTANCE + number * words, order, number == 0, n, limit);
    for (size_t number = 0; number < n; number++) {
        Port *const port = in_lines(sizeof *port);
        *port = (Port){.queue = queue, .number = (uint32_t)number, .topics = topics, .hold = hold, .buffers = buffers};
        port->known = in_lines(rings * sizeof *port->known);
        port->holds = in_lines(buffers * sizeof *port->holds);
        for (size_t ring = 0; ring < rings; ring++) port->known[ring].head = 2 * (uint64_t)buffers;
        ports[number] = (scq_port){port, *memory};
    }
    return SCQ_OK;
}

uint32_t scq_end(scq_port *at, scq_ended *out, scq_counts *counts, size_t n) {
    Port *const port = at->at;
    if (!port) return SCQ_CLOSED;
    Queue *const queue = port->queue;
    for (uint32_t index = 0; index < queue->buffers; index++)
        if (port->holds[index]) (void)scq_give_back(at, index);
    queue->counts[port->number] = port->counts;
    free(port->holds), free(port->known), free(port);
    at->at = NULL;
    out->last = atomic_fetch_sub(&queue->open, 1) == 1;
    if (!out->last) return SCQ_OK;
    for (size_t number = 0; number < n && number < queue->ports; number++) counts[number] = queue->counts[number];
    free(queue->counts), free(queue->words), free(queue);
    return SCQ_OK;
}
