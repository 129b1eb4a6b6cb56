// ck_ring for many producers and many consumers, by ck.c. A ring of 2 * n has room for n.
extern "C" {
void *ring_make(unsigned size, void **cells);
bool ring_push(void *ring, void *cells, void *value);
bool ring_pop(void *ring, void *cells, void *value);
}

struct Ring {
    void *ring, *cells;

    explicit Ring(size_t n) { ring = ring_make(static_cast<unsigned>(2 * n), &cells); }
    INLINE bool push(Buffer *buffer) { return ring_push(ring, cells, buffer); }
    INLINE bool pop(Buffer *&buffer) { return ring_pop(ring, cells, &buffer); }
};
