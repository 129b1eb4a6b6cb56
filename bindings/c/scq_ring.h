/* scq_ring: a bounded queue of pointers, first in first out, that threads share without locks: for
 * who passes on what lies elsewhere. Each pointer lies in a buffer of a queue of scq.h with one
 * topic; a push is a lend and a send of it, a pop a take and a give-back. Plain code over these
 * calls, tested and not proved. C99 or C++; include it with scq.h beside it.
 *
 * A ring is opened as its handles, one for each thread that is at work: what scq.h asks of who has
 * a port is asked of who has a handle. (Threads that come and go take turns with a stock of them.)
 * What the pointers point to is the caller's, and nothing here follows them. What a thread did
 * before a push is seen by who pops the pointer. Those that stand in the ring when its last handle
 * is closed are forgotten: who owns what they point to pops them first.
 */
#ifndef SCQ_RING_H
#define SCQ_RING_H

#include "scq.h"

#ifdef __cplusplus
extern "C" {
#endif

/* For this file alone: a function whose answer has to be looked at; and null. */
#if defined(__GNUC__)
#define SCQ_ANSWERED __attribute__((warn_unused_result))
#else
#define SCQ_ANSWERED
#endif
#if defined(__cplusplus) && __cplusplus >= 201103L
#define SCQ_NULL nullptr
#else
#define SCQ_NULL NULL
#endif

/* A thread's handle of a ring. With its port scq_count (of topic 0), scq_capacity, scq_counts_of
 * and scq_spent may be called, and who waits does so (scq_ring_write). */
typedef struct scq_ring {
    scq_port port;
} scq_ring;

/* A handle that is closed: `scq_ring handle = SCQ_RING_NONE;`. One of static storage begins so by
 * itself. */
#ifndef __cplusplus
#define SCQ_RING_NONE ((scq_ring){SCQ_NONE})
#elif __cplusplus >= 201103L
#define SCQ_RING_NONE (scq_ring{SCQ_NONE})
#else
static inline scq_ring scq_ring_none() {
    const scq_ring none = {SCQ_NONE};
    return none;
}
#define SCQ_RING_NONE scq_ring_none()
#endif

/* Makes a ring with room for 2^order pointers, those that a push or a pop is at among them, and
 * opens `n` handles. `limit` is that of scq_open_over.
 *
 * Asks: that each of the n handles is SCQ_RING_NONE or open.
 * Tested: that the library is of this file's version; each of the numbers; that no handle is open.
 * Answers: SCQ_OK; SCQ_BAD_VERSION; SCQ_BAD_ORDER, SCQ_BAD_PORTS, SCQ_BAD_LIMIT; SCQ_IS_OPEN;
 * SCQ_NO_MEMORY. Where it isn't SCQ_OK no handle is changed, and nothing is left of the ring. */
static inline SCQ_ANSWERED uint32_t scq_ring_open(uint32_t order, uint64_t limit, scq_ring *handles,
                                                  size_t n) {
    /* Where tickets have run out a port keeps one buffer: it may hold another, so that it is
     * answered SCQ_SPENT. */
    const uint32_t hold = 2;
    return scq_open(order, 1, sizeof(void *), hold, limit, &handles->port, n);
}

/* What stands in a buffer of a ring: written there, and read. Who waits, by scq_bell.h, makes the
 * steps of a push or a pop himself, over topic 0 of the handle's port: scq_bell_lend,
 * scq_ring_write and scq_bell_send; scq_bell_take, scq_ring_read and scq_bell_give_back. The bell
 * is the ring's alone. */
static inline void scq_ring_write(const scq_held *held, void *pointer) {
    memcpy(held->at, &pointer, sizeof pointer);
}
static inline void *scq_ring_read(const scq_held *held) {
    void *pointer;
    memcpy(&pointer, held->at, sizeof pointer);
    return pointer;
}

/* Puts a pointer, which may be null, at the end.
 *
 * Tested: that the handle is open.
 * Answers: SCQ_OK; SCQ_CLOSED; SCQ_FULL as scq_lend; SCQ_SPENT. Where it isn't SCQ_OK the pointer
 * isn't in the ring. */
static inline SCQ_ANSWERED uint32_t scq_ring_push(scq_ring *handle, void *pointer) {
    scq_held held;
    uint64_t place;
    uint32_t answer = scq_lend(&handle->port, &held);
    if (answer != SCQ_OK) return answer;
    scq_ring_write(&held, pointer);
    answer = scq_send(&handle->port, held.index, 0, &place);
    if (answer != SCQ_OK) scq_give_back(&handle->port, held.index);
    return answer;
}

/* Takes the first pointer off, and writes it to `pointer`.
 *
 * Tested: that the handle is open.
 * Answers: SCQ_OK; SCQ_CLOSED; SCQ_EMPTY as scq_take; SCQ_SPENT. Where it isn't SCQ_OK, *pointer is
 * null. */
static inline SCQ_ANSWERED uint32_t scq_ring_pop(scq_ring *handle, void **pointer) {
    scq_held held;
    const uint32_t answer = scq_take(&handle->port, 0, &held);
    *pointer = SCQ_NULL;
    if (answer != SCQ_OK) return answer;
    *pointer = scq_ring_read(&held);
    /* Where tickets have run out the port keeps the buffer. */
    scq_give_back(&handle->port, held.index);
    return answer;
}

/* Several at a time: each of these two makes the call of one pointer for each of `n` slots, in
 * their order, until one is refused: it answers what that one was answered, and SCQ_OK where none
 * was. To `done` it writes how many went, whatever it answers. Others may push and pop between
 * them.
 *
 * Asks: that n slots begin at the pointer; it isn't null where n is 0 either.
 *
 * Puts the pointers at the end.
 *
 * Answers: SCQ_OK; SCQ_CLOSED; SCQ_FULL; SCQ_SPENT. The first *done of them are in the ring. */
static inline SCQ_ANSWERED uint32_t scq_ring_push_many(scq_ring *handle, void *const *pointers,
                                                       size_t n, size_t *done) {
    uint32_t answer = handle->port.at == SCQ_NULL ? SCQ_CLOSED : SCQ_OK;
    for (*done = 0; answer == SCQ_OK && *done < n; *done += answer == SCQ_OK)
        answer = scq_ring_push(handle, pointers[*done]);
    return answer;
}

/* Takes the first pointers off, and writes them to pointers[0], pointers[1]..
 *
 * Answers: SCQ_OK; SCQ_CLOSED; SCQ_EMPTY; SCQ_SPENT. Only the first *done slots are written. */
static inline SCQ_ANSWERED uint32_t scq_ring_pop_many(scq_ring *handle, void **pointers, size_t n,
                                                      size_t *done) {
    uint32_t answer = handle->port.at == SCQ_NULL ? SCQ_CLOSED : SCQ_OK;
    void *pointer;
    for (*done = 0; answer == SCQ_OK && *done < n; *done += answer == SCQ_OK) {
        answer = scq_ring_pop(handle, &pointer);
        if (answer == SCQ_OK) pointers[*done] = pointer;
    }
    return answer;
}

/* Closes a handle, and sets it to SCQ_RING_NONE. With the last of a ring its memory is freed.
 *
 * Answers: SCQ_OK; SCQ_CLOSED. */
static inline uint32_t scq_ring_close(scq_ring *handle) { return scq_close(&handle->port); }

#undef SCQ_ANSWERED
#undef SCQ_NULL

#ifdef __cplusplus
}
#endif
#endif
