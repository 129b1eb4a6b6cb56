/* scq: fixed buffers that threads pass to one another, without locks.
 *
 * A queue has 2^order buffers of the same size and up to 31 topics, each a first-in-first-out queue
 * of its own over these buffers. A thread makes its calls with a port of its own: it is lent a
 * buffer, writes it where it lies and sends it on a topic; or it takes one from a topic, reads it
 * and gives it back. No lend, take, send or give-back takes a lock or waits for another thread's;
 * they are lock-free, with a bound (docs/QUEUE.md of the sources). Only openings take memory
 * (tested).
 *
 * What the library's calls do is proved, and docs/PROMISES.md of the sources has the clauses. What
 * is said of the calling port holds of it at each call. What is said of a topic, of the stock and
 * of other ports holds at each call of a run of the queue that the call names, in which other
 * ports' calls need not stand, and, where scq_end tells that a port was the last, of one run behind
 * its calls and a record of each other port's. Tests alone hold what ends in "(tested)", all that
 * is said of bytes, of addresses and of what a thread sees of another's work, and what stands whole
 * in this file.
 *
 * The library passes numbers of buffers from port to port. The bytes are the caller's: the library
 * follows no pointer to them, and reads and writes none. Where the bytes of a number lie is worked
 * out by the functions that stand whole in this file.
 *
 * Compile with this file, C99 or C++, by gcc or clang, and link with libscq alone, the archive or
 * the shared object.
 *
 * What the caller has to uphold. Nothing of it is tested; where it is broken anything may happen,
 * as where C's own rules are.
 *
 * 1. A port is SCQ_NONE before scq_open, and only these calls change it. An open one is never
 *    copied; but it may be moved to another place, if no call is made with it meanwhile and the old
 *    place is set to SCQ_NONE or not used again. scq_close makes it SCQ_NONE; one that isn't closed
 *    keeps its queue, and what it holds, until the process ends.
 * 2. Every pointer that is handed in, unless it says that it may be null, is non-null, aligned, and
 *    points to memory of its type that may be written where it isn't const; what two pointers of
 *    one call point to lies apart. `n` ports begin at `ports`, `n` counts at `counts`, and `n`
 *    slots at `out` or `held` of a call of several; also where n is 0, none is null.
 * 3. One call at a time is made with a port, by whichever thread has it, also where a signal
 *    handler makes one, which neither opens nor closes any. Calls with different ports may meet in
 *    any way. A call that has begun is let end: no thread is cancelled asynchronously in it, and no
 *    signal handler jumps out of it.
 *    (Where two threads call with one port, one of them is often told that the port is closed.)
 * 4. Who hands a port to another thread does so by what orders memory: starting or joining the
 *    thread, a lock, an atomic that is released and acquired. So with a buffer's address, if
 *    another thread is to use the bytes.
 * 5. The bytes of a buffer, its `len` and no others, are touched only while a port holds it: from
 *    the scq_lend or scq_take that answered SCQ_OK until the scq_send or scq_give_back that does,
 *    or scq_close.
 * 6. After fork the child makes no call with the parent's ports, and doesn't touch their buffers.
 *
 * Everything else the calls test and answer, as stands at each. Where several answers would be
 * right one of them comes; but SCQ_NO_ROOM of a take, and SCQ_RETIRED and SCQ_NOT_HELD of a send,
 * only where the topic is there. Of one buffer: with any answer but SCQ_OK none has changed hands.
 * Nothing is written through the pointers but what is said there.
 */
#ifndef SCQ_H
#define SCQ_H

#include <stddef.h>
#include <stdint.h>
#include <stdlib.h>
#include <string.h>
#ifdef SCQ_VALGRIND
#include <valgrind/helgrind.h>
#endif

#ifdef __cplusplus
extern "C" {
#endif

/* For this file alone: a function whose answer has to be looked at; a conversion; the number of an
 * address; and null. */
#if defined(__GNUC__)
#define SCQ_ANSWERED __attribute__((warn_unused_result))
#else
#define SCQ_ANSWERED
#endif
#ifdef __cplusplus
#define SCQ_TO(type, value) static_cast<type>(value)
#define SCQ_ADDRESS(pointer) reinterpret_cast<uintptr_t>(pointer)
#else
#define SCQ_TO(type, value) ((type)(value))
#define SCQ_ADDRESS(pointer) ((uintptr_t)(pointer))
#endif
#if defined(__cplusplus) && __cplusplus >= 201103L
#define SCQ_NULL nullptr
#else
#define SCQ_NULL NULL
#endif

/* Where the bytes of a queue's buffers lie: those of the buffer with the number i are the `len`
 * bytes that begin at base + i * stride. */
typedef struct scq_memory {
    unsigned char *base;
    size_t stride; /* not less than `len` */
    size_t len;
    void *block; /* what this file took for the queue, or null. In what is handed to scq_open_over
                    it is whatever it is */
} scq_memory;

/* What a block begins with. */
struct scq_block {
    uint32_t open;    /* how many ports are open */
    uint32_t holders; /* of how many buffers the holder stands behind this: see SCQ_ASAN */
};

/* What a thread makes its calls with. */
typedef struct scq_port {
    void *at;          /* null where it is closed; what it points to is the library's */
    scq_memory memory; /* where its queue's buffers lie */
} scq_port;

/* A port that is closed: `scq_port port = SCQ_NONE;`, or `port = SCQ_NONE;` later. One of static
 * storage begins so by itself. */
#ifndef __cplusplus
#define SCQ_NONE ((scq_port){NULL, {NULL, 0, 0, NULL}})
#elif __cplusplus >= 201103L
#define SCQ_NONE (scq_port{nullptr, {nullptr, 0, 0, nullptr}})
#else
static inline scq_port scq_none() {
    const scq_port none = {NULL, {NULL, 0, 0, NULL}};
    return none;
}
#define SCQ_NONE scq_none()
#endif

/* A buffer that a port holds. Once it was sent or given back, its index names whatever buffer of
 * that number the calling port, of this queue or another, holds then, if any. */
typedef struct scq_held {
    unsigned char *at; /* its bytes; a buffer lies at this address as long as the queue lives */
    size_t len;        /* how many they are: the queue's `size` */
    uint64_t place;    /* scq_take: the place at which it was sent; scq_lend: 0 */
    uint32_t index;    /* its number, below 2^order, by which it is sent and given back */
    uint32_t begun;    /* for scq_pack: 0 where the first message begins the packing */
} scq_held;

/* What a port did so far: each up to 2^64 - 1. */
typedef struct scq_counts {
    uint64_t sent;  /* buffers that it sent */
    uint64_t taken; /* that it took */
    uint64_t full;  /* answers SCQ_FULL */
} scq_counts;

/* What became of a queue when a port was closed. */
typedef struct scq_ended {
    uint32_t last; /* 1 where the queue closed with this port, as its last; else 0 */
} scq_ended;

/* The answers. The last two are of the headers, and no version of the library answers them. */
enum {
    SCQ_OK = 0,
    SCQ_EMPTY = 1,       /* nothing was on the topic */
    SCQ_FULL = 2,        /* no buffer was free */
    SCQ_SPENT = 3,       /* tickets have run out at the queue's limit */
    SCQ_CLOSED = 4,      /* the port is closed */
    SCQ_NOT_HELD = 5,    /* the port holds no buffer of this index */
    SCQ_NO_TOPIC = 6,    /* there are not so many topics */
    SCQ_NO_ROOM = 7,     /* the port holds as many buffers as it may */
    SCQ_NO_MEMORY = 8,   /* no memory was found for the queue */
    SCQ_BAD_ORDER = 9,   /* the order isn't from 1 to SCQ_MAX_ORDER */
    SCQ_BAD_TOPICS = 10, /* the topics aren't from 1 to SCQ_MAX_TOPICS */
    SCQ_BAD_PORTS = 11,  /* the ports aren't from 1 to 4096 */
    SCQ_BAD_LIMIT = 12,  /* the limit isn't from 8 * 2^order to SCQ_MAX_LIMIT */
    SCQ_BAD_SIZE = 13,   /* a buffer has no bytes, or more than lie between it and the next */
    SCQ_BAD_HOLD = 14,   /* what a port may hold isn't from 1 to 2^order */
    SCQ_IS_OPEN = 15,    /* one of the ports is open */
    SCQ_RETIRED = 16,    /* the port has retired, or all ports have */
    SCQ_ENDED = 30,      /* there is nothing, and nothing comes any more: scq_bell.h */
    SCQ_BAD_VERSION = 31 /* the library is of another version than this header */
};

/* The largest limit. A billion tickets a second come to it after 36 years. */
#define SCQ_MAX_LIMIT (UINT64_C(1) << 60)

/* The largest order, and the most topics. */
#define SCQ_MAX_ORDER 16
#define SCQ_MAX_TOPICS 31

/* A line of the processor's cache, in bytes. scq_open begins each buffer at a line of its own, so
 * that threads that write neighbouring buffers don't write in one line. */
#define SCQ_CACHE_LINE 64

/* What scq_version answers, of the library that this file is of. */
#define SCQ_VERSION 3

/* The text of an answer, which is there as long as the program. */
static inline const char *scq_text(uint32_t answer) {
    switch (answer) {
    case SCQ_OK: return "ok";
    case SCQ_EMPTY: return "nothing is on the topic";
    case SCQ_FULL: return "no buffer is free";
    case SCQ_SPENT: return "tickets have run out at the queue's limit";
    case SCQ_CLOSED: return "the port is closed";
    case SCQ_NOT_HELD: return "the port holds no buffer of this index";
    case SCQ_NO_TOPIC: return "there are not so many topics";
    case SCQ_NO_ROOM: return "the port holds as many buffers as it may";
    case SCQ_NO_MEMORY: return "no memory for the queue";
    case SCQ_BAD_ORDER: return "the order isn't from 1 to 16";
    case SCQ_BAD_TOPICS: return "the topics aren't from 1 to 31";
    case SCQ_BAD_PORTS: return "the ports aren't from 1 to 4096";
    case SCQ_BAD_LIMIT: return "the limit isn't from 8 * 2^order to 2^60";
    case SCQ_BAD_SIZE: return "a buffer has no bytes, or more than lie between it and the next";
    case SCQ_BAD_HOLD: return "what a port may hold isn't from 1 to 2^order";
    case SCQ_IS_OPEN: return "one of the ports is open";
    case SCQ_RETIRED: return "retired";
    case SCQ_ENDED: return "nothing comes any more";
    case SCQ_BAD_VERSION: return "the library is of another version than the header";
    default: return "no answer of this library";
    }
}

/* The address sanitizer, where this file is compiled with it, is told of the bytes that no port
 * holds, and of those between buffers: who touches them is reported. For that, who holds a buffer
 * stands in the block, behind its head; what scq_open_over opens has a block too then. All files
 * that touch the buffers of a queue are compiled with it, or none. Where base and stride aren't
 * multiples of 8 nothing is told, as it can't be told. Without it nothing of this is in a
 * program. */

#if defined(__SANITIZE_ADDRESS__)
#define SCQ_ASAN
#elif defined(__has_feature)
#if __has_feature(address_sanitizer)
#define SCQ_ASAN
#endif
#endif

#ifdef SCQ_ASAN
void __asan_poison_memory_region(const volatile void *address, size_t size);
void __asan_unpoison_memory_region(const volatile void *address, size_t size);

/* How long the head of a block is, with the holders of so many buffers. */

static inline size_t scq_head(size_t buffers) {
    return sizeof(struct scq_block) + buffers * sizeof(uintptr_t);
}

/* Where the holder of a buffer stands: the number of its port's address, or one more where that
 * lets go of it. Null where none stands there. */

static inline uintptr_t *scq_holder(const scq_port *port, uint32_t index) {
    struct scq_block *const block = SCQ_TO(struct scq_block *, port->memory.block);
    if (port->at == SCQ_NULL || block == SCQ_NULL || index >= block->holders) return SCQ_NULL;
    return SCQ_TO(uintptr_t *, SCQ_TO(void *, block + 1)) + index;
}

/* Where the one stands there, the other does from here on. Answers whether it did. */

static inline int scq_change_holder(const scq_port *port, uint32_t index, uintptr_t one,
                                    uintptr_t other) {
    uintptr_t *const holder = scq_holder(port, index);
    return holder != SCQ_NULL &&
           __atomic_compare_exchange_n(holder, &one, other, 0, __ATOMIC_RELAXED, __ATOMIC_RELAXED);
}

/* A port holds a buffer from here on; it is about to let go of it, if it holds it; and the call
 * that was to do so was answered. */

static inline void scq_hold(const scq_port *port, uint32_t index) {
    uintptr_t *const holder = scq_holder(port, index);
    if (holder == SCQ_NULL) return;
    __atomic_store_n(holder, SCQ_ADDRESS(port->at), __ATOMIC_RELAXED);
    __asan_unpoison_memory_region(port->memory.base + port->memory.stride * index,
                                  port->memory.len);
}
static inline void scq_let_go(const scq_port *port, uint32_t index) {
    const uintptr_t own = SCQ_ADDRESS(port->at);
    if (!scq_change_holder(port, index, own, own + 1)) return;
    __asan_poison_memory_region(port->memory.base + port->memory.stride * index, port->memory.len);
}
static inline void scq_has_let_go(const scq_port *port, uint32_t answer, uint32_t index) {
    const uintptr_t own = SCQ_ADDRESS(port->at);
    if (scq_change_holder(port, index, own + 1, answer == SCQ_OK ? 0 : own) && answer != SCQ_OK)
        scq_hold(port, index);
}

/* A queue begins, of which no buffer is held, in this memory; and has ended. */

static inline void scq_begin_over(const scq_memory *memory, size_t buffers, size_t ports) {
    struct scq_block *const block = SCQ_TO(struct scq_block *, memory->block);
    block->open = SCQ_TO(uint32_t, ports);
    block->holders = SCQ_TO(uint32_t, buffers);
    __asan_poison_memory_region(memory->base, buffers * memory->stride);
}
static inline void scq_end_over(const scq_memory *memory) {
    const struct scq_block *const block = SCQ_TO(struct scq_block *, memory->block);
    if (block == SCQ_NULL) return;
    __asan_unpoison_memory_region(memory->base, block->holders * memory->stride);
}
#else
static inline size_t scq_head(size_t buffers) {
    (void)buffers;
    return sizeof(struct scq_block);
}
#endif

/* The version of the library: SCQ_VERSION, where this file is of it. scq_open and scq_open_over
 * compare the two before anything else. */
uint32_t scq_version(void);

/* Makes a queue of 2^order buffers, with `topics` topics, and opens `n` ports, each of which may
 * hold up to `hold` buffers at a time. Each topic, and the stock of free buffers, counts its puts
 * and its gets by tickets up to `limit`; SCQ_MAX_LIMIT is the plain choice. A port takes some 1,860
 * bytes, and 9 for each buffer of the queue.
 *
 * The buffers lie where *memory says, in memory of the caller's: huge pages, a pool, a mapping. It
 * may be reused once all ports are closed. A buffer begins with the bytes that stand there. This is
 * for the bytes alone: a queue is of one process.
 *
 * Asks: that each of the n ports is SCQ_NONE or open; that 2^order times `stride` bytes may be
 * written at `base`.
 * Tested: that the library is of this file's version; each of the numbers, `len` and `stride` among
 * them; that no port is open.
 * Answers: SCQ_OK; SCQ_BAD_VERSION, and the library was asked for its version alone;
 * SCQ_BAD_TOPICS, SCQ_BAD_ORDER, SCQ_BAD_PORTS, SCQ_BAD_LIMIT, SCQ_BAD_SIZE, SCQ_BAD_HOLD;
 * SCQ_IS_OPEN; SCQ_NO_MEMORY where an allocation was refused (tested). Where it isn't SCQ_OK no
 * port is changed, and nothing is left of the queue (tested). */
SCQ_ANSWERED uint32_t scq_open_over(uint32_t order, uint32_t topics, uint32_t hold, uint64_t limit,
                                    const scq_memory *memory, scq_port *ports, size_t n);

/* The same, over memory that it takes: the buffers have `size` zero bytes, each at a multiple of
 * SCQ_CACHE_LINE. None of them is touched before it is used. scq_close frees them with the last
 * port, by whichever thread that is closed.
 *
 * Answers: as scq_open_over; SCQ_NO_MEMORY also where the buffers are more than a size_t counts. */
static inline SCQ_ANSWERED uint32_t scq_open(uint32_t order, uint32_t topics, uint32_t size,
                                             uint32_t hold, uint64_t limit, scq_port *ports,
                                             size_t n) {
    const size_t line = SCQ_CACHE_LINE;
    scq_memory memory = {SCQ_NULL, 0, size, SCQ_NULL};
    size_t buffers, head;
    uint32_t answer;
    if (scq_version() != SCQ_VERSION) return SCQ_BAD_VERSION;
    if (order < 1 || order > SCQ_MAX_ORDER) return SCQ_BAD_ORDER;
    if (size < 1) return SCQ_BAD_SIZE;
    buffers = SCQ_TO(size_t, 1) << order;
    head = scq_head(buffers);
    if (memory.len > (SIZE_MAX - head - line) / buffers - line) return SCQ_NO_MEMORY;
    memory.stride = (memory.len + line - 1) / line * line;
    memory.block = calloc(1, head + line - 1 + buffers * memory.stride);
    if (memory.block == SCQ_NULL) return SCQ_NO_MEMORY;
    SCQ_TO(struct scq_block *, memory.block)->open = SCQ_TO(uint32_t, n);
    memory.base = SCQ_TO(unsigned char *, memory.block) + head;
    memory.base += (line - SCQ_ADDRESS(memory.base) % line) % line;
    answer = scq_open_over(order, topics, hold, limit, &memory, ports, n);
    if (answer != SCQ_OK) free(memory.block);
#ifdef SCQ_ASAN
    if (answer == SCQ_OK) scq_begin_over(&memory, buffers, n);
#endif
    return answer;
}

/* What scq_open_over stands for from here on, so that it too compares the versions first. Who finds
 * the exported call by its name, as by dlsym, compares what scq_version answers himself. */
static inline SCQ_ANSWERED uint32_t scq_open_over_checked(uint32_t order, uint32_t topics,
                                                          uint32_t hold, uint64_t limit,
                                                          const scq_memory *memory, scq_port *ports,
                                                          size_t n) {
    scq_memory own;
    uint32_t answer;
#ifdef SCQ_ASAN
    const size_t buffers = SCQ_TO(size_t, 1) << (order > SCQ_MAX_ORDER ? 0 : order);
    const int is_told = SCQ_ADDRESS(memory->base) % 8 == 0 && memory->stride % 8 == 0;
#endif
    if (scq_version() != SCQ_VERSION) return SCQ_BAD_VERSION;
    own.base = memory->base;
    own.stride = memory->stride;
    own.len = memory->len;
    own.block = SCQ_NULL;
#ifdef SCQ_ASAN
    if (is_told && (own.block = calloc(1, scq_head(buffers))) == SCQ_NULL) return SCQ_NO_MEMORY;
#endif
    answer = scq_open_over(order, topics, hold, limit, &own, ports, n);
#ifdef SCQ_ASAN
    if (is_told && answer != SCQ_OK) free(own.block);
    if (is_told && answer == SCQ_OK) scq_begin_over(&own, buffers, n);
#endif
    return answer;
}
#define scq_open_over scq_open_over_checked

/* What a queue is made of, by names. What is 0 or null stands for what is said there. */
typedef struct scq_options {
    uint32_t order;           /* 2^order buffers; 0 for 6, which makes 64 */
    uint32_t topics;          /* 0 for 1 */
    uint32_t size;            /* the bytes of a buffer; 0 for 64 */
    uint32_t hold;            /* how many a port may hold at a time; 0 for 2 */
    uint64_t limit;           /* of tickets; 0 for SCQ_MAX_LIMIT */
    const scq_memory *memory; /* where the buffers lie, and `size` isn't looked at; null where it
                                 is to be taken */
} scq_options;

/* Makes a queue as scq_open, or where there is memory as scq_open_over, by options, or by none.
 *
 * Answers: as these. */
static inline SCQ_ANSWERED uint32_t scq_open_with(const scq_options *options, scq_port *ports,
                                                  size_t n) {
    scq_options made;
    memset(&made, 0, sizeof made);
    if (options != SCQ_NULL) made = *options;
    if (made.order == 0) made.order = 6;
    if (made.topics == 0) made.topics = 1;
    if (made.size == 0) made.size = 64;
    if (made.hold == 0) made.hold = 2;
    if (made.limit == 0) made.limit = SCQ_MAX_LIMIT;
    if (made.memory == SCQ_NULL)
        return scq_open(made.order, made.topics, made.size, made.hold, made.limit, ports, n);
    return scq_open_over(made.order, made.topics, made.hold, made.limit, made.memory, ports, n);
}

/* For tools that watch threads, which don't see into the library. ThreadSanitizer, where this file
 * is compiled with it, is told that what a thread did with a buffer before it let go of it comes
 * before what the next holder does. So are helgrind and DRD, where SCQ_VALGRIND is defined; what
 * they would say of the library's own words is kept back then. Without these nothing of it is in a
 * program. */

#if defined(__SANITIZE_THREAD__)
#define SCQ_TSAN
#elif defined(__has_feature)
#if __has_feature(thread_sanitizer)
#define SCQ_TSAN
#endif
#endif
#ifdef SCQ_TSAN
void __tsan_release(void *address);
void __tsan_acquire(void *address);
#endif

static inline void scq_tell_before(void *address) {
    (void)address;
#ifdef SCQ_TSAN
    __tsan_release(address);
#endif
#ifdef SCQ_VALGRIND
    ANNOTATE_HAPPENS_BEFORE(address);
#endif
}

static inline void scq_tell_after(void *address) {
    (void)address;
#ifdef SCQ_TSAN
    __tsan_acquire(address);
#endif
#ifdef SCQ_VALGRIND
    ANNOTATE_HAPPENS_AFTER(address);
#endif
}

#if defined(SCQ_TSAN) || defined(SCQ_VALGRIND) || defined(SCQ_ASAN)
#ifdef SCQ_VALGRIND
#define SCQ_ASIDE(call)                                                                            \
    VALGRIND_DISABLE_ERROR_REPORTING;                                                              \
    call;                                                                                          \
    VALGRIND_ENABLE_ERROR_REPORTING
#else
#define SCQ_ASIDE(call) call
#endif

SCQ_ANSWERED uint32_t scq_lend_index(scq_port *port, scq_held *out);
SCQ_ANSWERED uint32_t scq_take_index(scq_port *port, uint32_t topic, scq_held *out);
SCQ_ANSWERED uint32_t scq_send(scq_port *port, uint32_t index, uint32_t topic, uint64_t *place);
uint32_t scq_give_back(scq_port *port, uint32_t index);
SCQ_ANSWERED uint32_t scq_lend_index_many(scq_port *port, scq_held *out, size_t n, size_t *done);
SCQ_ANSWERED uint32_t scq_take_index_many(scq_port *port, uint32_t topic, scq_held *out, size_t n,
                                          size_t *done);
SCQ_ANSWERED uint32_t scq_send_many(scq_port *port, scq_held *held, size_t n, uint32_t topic,
                                    size_t *done);
uint32_t scq_give_back_many(scq_port *port, const scq_held *held, size_t n, size_t *done);
uint32_t scq_end(scq_port *port, scq_ended *out, scq_counts *counts, size_t n);
uint32_t scq_retire(scq_port *port);
SCQ_ANSWERED uint32_t scq_retired(scq_port *port);
uint32_t scq_capacity(scq_port *port, uint32_t *out);
SCQ_ANSWERED uint32_t scq_count(scq_port *port, uint32_t topic, uint32_t *out);

/* A buffer is named to the tools by an address of its own, base + index, at which nobody reads; an
 * index that is no buffer's gives one at most 65,535 past the base. What a port holds that is closed
 * is named by the base, and what a port did that has retired. */

static inline void scq_tell_got(const scq_port *port, uint32_t answer, uint32_t index) {
    if (answer != SCQ_OK) return;
    scq_tell_after(port->memory.base + index);
    scq_tell_after(port->memory.base);
#ifdef SCQ_ASAN
    scq_hold(port, index);
#endif
}

static inline void scq_tell_lets_go(const scq_port *port, uint32_t index) {
    if (port->at == SCQ_NULL || index >> SCQ_MAX_ORDER != 0) return;
    scq_tell_before(port->memory.base + index);
#ifdef SCQ_ASAN
    scq_let_go(port, index);
#endif
}

/* What the call was answered. */

static inline void scq_tell_gone(const scq_port *port, uint32_t answer, uint32_t index) {
#ifdef SCQ_ASAN
    scq_has_let_go(port, answer, index);
#endif
    (void)port;
    (void)answer;
    (void)index;
}

static inline SCQ_ANSWERED uint32_t scq_lend_index_told(scq_port *port, scq_held *out) {
    uint32_t answer;
    SCQ_ASIDE(answer = scq_lend_index(port, out));
    scq_tell_got(port, answer, out->index);
    return answer;
}

static inline SCQ_ANSWERED uint32_t scq_take_index_told(scq_port *port, uint32_t topic,
                                                        scq_held *out) {
    uint32_t answer;
    SCQ_ASIDE(answer = scq_take_index(port, topic, out));
    scq_tell_got(port, answer, out->index);
    return answer;
}

static inline SCQ_ANSWERED uint32_t scq_send_told(scq_port *port, uint32_t index, uint32_t topic,
                                                  uint64_t *place) {
    uint64_t unasked;
    uint32_t answer;
    scq_tell_lets_go(port, index);
    SCQ_ASIDE(answer = scq_send(port, index, topic, place == SCQ_NULL ? &unasked : place));
    scq_tell_gone(port, answer, index);
    return answer;
}

static inline uint32_t scq_give_back_told(scq_port *port, uint32_t index) {
    uint32_t answer;
    scq_tell_lets_go(port, index);
    SCQ_ASIDE(answer = scq_give_back(port, index));
    scq_tell_gone(port, answer, index);
    return answer;
}

static inline void scq_tell_all_got(const scq_port *port, const scq_held *held, size_t n) {
    size_t k;
    for (k = 0; k < n; k++) scq_tell_got(port, SCQ_OK, held[k].index);
}

static inline void scq_tell_lets_all_go(const scq_port *port, const scq_held *held, size_t n) {
    size_t k;
    for (k = 0; k < n; k++) scq_tell_lets_go(port, held[k].index);
}

static inline void scq_tell_all_gone(const scq_port *port, const scq_held *held, size_t done,
                                     size_t n) {
    size_t k;
    for (k = 0; k < n; k++) scq_tell_gone(port, k < done ? SCQ_OK : SCQ_NOT_HELD, held[k].index);
}

static inline SCQ_ANSWERED uint32_t scq_lend_index_many_told(scq_port *port, scq_held *out,
                                                             size_t n, size_t *done) {
    uint32_t answer;
    SCQ_ASIDE(answer = scq_lend_index_many(port, out, n, done));
    scq_tell_all_got(port, out, *done);
    return answer;
}

static inline SCQ_ANSWERED uint32_t scq_take_index_many_told(scq_port *port, uint32_t topic,
                                                             scq_held *out, size_t n,
                                                             size_t *done) {
    uint32_t answer;
    SCQ_ASIDE(answer = scq_take_index_many(port, topic, out, n, done));
    scq_tell_all_got(port, out, *done);
    return answer;
}

static inline SCQ_ANSWERED uint32_t scq_send_many_told(scq_port *port, scq_held *held, size_t n,
                                                       uint32_t topic, size_t *done) {
    uint32_t answer;
    scq_tell_lets_all_go(port, held, n);
    SCQ_ASIDE(answer = scq_send_many(port, held, n, topic, done));
    scq_tell_all_gone(port, held, *done, n);
    return answer;
}

static inline uint32_t scq_give_back_many_told(scq_port *port, const scq_held *held, size_t n,
                                               size_t *done) {
    uint32_t answer;
    scq_tell_lets_all_go(port, held, n);
    SCQ_ASIDE(answer = scq_give_back_many(port, held, n, done));
    scq_tell_all_gone(port, held, *done, n);
    return answer;
}

static inline uint32_t scq_end_told(scq_port *port, scq_ended *out, scq_counts *counts, size_t n) {
    uint32_t answer;
#ifdef SCQ_ASAN
    uint32_t index;
    for (index = 0; scq_holder(port, index) != SCQ_NULL; index++) scq_let_go(port, index);
#endif
    if (port->at != SCQ_NULL) scq_tell_before(port->memory.base);
    SCQ_ASIDE(answer = scq_end(port, out, counts, n));
#ifdef SCQ_ASAN
    if (answer == SCQ_OK && out->last == 1) scq_end_over(&port->memory);
#endif
    return answer;
}

static inline uint32_t scq_retire_told(scq_port *port) {
    uint32_t answer;
    if (port->at != SCQ_NULL) scq_tell_before(port->memory.base);
    SCQ_ASIDE(answer = scq_retire(port));
    return answer;
}

static inline SCQ_ANSWERED uint32_t scq_retired_told(scq_port *port) {
    uint32_t answer;
    SCQ_ASIDE(answer = scq_retired(port));
    if (answer == SCQ_RETIRED) scq_tell_after(port->memory.base);
    return answer;
}

static inline uint32_t scq_capacity_told(scq_port *port, uint32_t *out) {
    uint32_t answer;
    SCQ_ASIDE(answer = scq_capacity(port, out));
    return answer;
}

static inline SCQ_ANSWERED uint32_t scq_count_told(scq_port *port, uint32_t topic, uint32_t *out) {
    uint32_t answer;
    SCQ_ASIDE(answer = scq_count(port, topic, out));
    return answer;
}

#define scq_lend_index scq_lend_index_told
#define scq_take_index scq_take_index_told
#define scq_send scq_send_told
#define scq_give_back scq_give_back_told
#define scq_lend_index_many scq_lend_index_many_told
#define scq_take_index_many scq_take_index_many_told
#define scq_send_many scq_send_many_told
#define scq_give_back_many scq_give_back_many_told
#define scq_end scq_end_told
#define scq_retire scq_retire_told
#define scq_retired scq_retired_told
#define scq_capacity scq_capacity_told
#define scq_count scq_count_told
#undef SCQ_ASIDE
#else

SCQ_ANSWERED uint32_t scq_send(scq_port *port, uint32_t index, uint32_t topic, uint64_t *place);

static inline SCQ_ANSWERED uint32_t scq_send_placed(scq_port *port, uint32_t index, uint32_t topic,
                                                    uint64_t *place) {
    uint64_t unasked;
    return scq_send(port, index, topic, place == SCQ_NULL ? &unasked : place);
}

#define scq_send scq_send_placed
#endif
#undef SCQ_TSAN
#undef SCQ_ASAN

/* The calls that scq_lend, scq_take, scq_lend_many and scq_take_many are made of, with the same
 * answers: they write the index and the place of a buffer to `out`, and not where it lies. */
SCQ_ANSWERED uint32_t scq_lend_index(scq_port *port, scq_held *out);
SCQ_ANSWERED uint32_t scq_take_index(scq_port *port, uint32_t topic, scq_held *out);
SCQ_ANSWERED uint32_t scq_lend_index_many(scq_port *port, scq_held *out, size_t n, size_t *done);
SCQ_ANSWERED uint32_t scq_take_index_many(scq_port *port, uint32_t topic, scq_held *out, size_t n,
                                          size_t *done);

/* Writes to `out` where the buffer of its index lies, or null and 0 where there is none. */
static inline void scq_locate(const scq_port *port, uint32_t answer, scq_held *out) {
    if (answer == SCQ_OK) {
        out->at = port->memory.base + port->memory.stride * out->index;
        out->len = port->memory.len;
    } else {
        out->at = SCQ_NULL;
        out->len = 0;
    }
}

/* Lends a buffer of the stock of free ones, which nobody holds (tested; that this port doesn't is
 * proved): writes to `out` where it lies, with whatever bytes its last user left. What that thread
 * did before it gave the buffer back is seen.
 *
 * Tested: that the port is open, and holds fewer buffers than it may.
 * Answers: SCQ_OK; SCQ_CLOSED; SCQ_NO_ROOM; SCQ_FULL where, at a moment of the call, each buffer
 * that was free at first or given back had been lent, or a lend under way may still get it;
 * out->place is a number that the stock's head has reached: each that came there at a place below
 * it has been lent, or is being lent; SCQ_SPENT, and out->place is the ticket. Where it isn't
 * SCQ_OK, out->at is null and out->len 0. */
static inline SCQ_ANSWERED uint32_t scq_lend(scq_port *port, scq_held *out) {
    const uint32_t answer = scq_lend_index(port, out);
    scq_locate(port, answer, out);
    out->begun = 0;
    return answer;
}

/* Takes a buffer off a topic: writes to `out` where it lies, and the place at which it was sent.
 * Its bytes are those that were sent, and what its sender did before the send is seen.
 *
 * Tested: that the port is open, the topic, and that the port holds fewer buffers than it may.
 * Answers: SCQ_OK; SCQ_CLOSED; SCQ_NO_TOPIC; SCQ_NO_ROOM; SCQ_EMPTY where, at a moment of the call,
 * each buffer that was sent had been taken, or a take under way may still get it; out->place is a
 * number that the topic's head has reached: each buffer that was sent at a place below it has been
 * taken, or is being taken; SCQ_SPENT, and out->place is the ticket. Where it isn't SCQ_OK, out->at
 * is null and out->len 0. */
static inline SCQ_ANSWERED uint32_t scq_take(scq_port *port, uint32_t topic, scq_held *out) {
    const uint32_t answer = scq_take_index(port, topic, out);
    scq_locate(port, answer, out);
    out->begun = 1;
    return answer;
}

/* Sends the buffer of this index on a topic, and writes to `place` at which place, if it isn't
 * null. Places of one topic rise in the order of sends that follow one another: of one port's at
 * each call, of all as the machine draws them, which no clause says. Where scq_end tells of the
 * last no two of a topic are the same. Those of different topics can't be compared. (The exported
 * call wants a `place`.)
 *
 * Tested: that the port is open, the topic, that the port hasn't retired, and that it holds a
 * buffer of this index.
 * Answers: SCQ_OK, and the port doesn't hold the buffer; SCQ_CLOSED; SCQ_NO_TOPIC; SCQ_RETIRED;
 * SCQ_NOT_HELD; SCQ_SPENT, and *place is the ticket. */
SCQ_ANSWERED uint32_t scq_send(scq_port *port, uint32_t index, uint32_t topic, uint64_t *place);

/* Gives the buffer of this index back, so that it can be lent again. It need not have been sent.
 *
 * Tested: that the port is open, and holds a buffer of this index.
 * Answers: SCQ_OK, and the port doesn't hold the buffer; SCQ_CLOSED; SCQ_NOT_HELD; SCQ_SPENT, and
 * scq_spent tells the ticket. */
uint32_t scq_give_back(scq_port *port, uint32_t index);

/* Several at a time. Each of these four makes the call of one buffer for each of `n` slots, in
 * their order, until one is refused: it answers what that one was answered, and SCQ_OK where none
 * was. To `done` it writes how many went, whatever it answers: n with SCQ_OK, and 0 with
 * SCQ_CLOSED. Only the first *done slots are written. The others stay as they were, so that neither
 * a head nor a ticket is told. For the queue they are calls of one buffer each: others may send and
 * take between them.
 *
 * Asks: that n slots begin at the pointer; it isn't null where n is 0 either.
 * Tested: what the call of one buffer tests; with n = 0 only that the port is open.
 *
 * Lends up to n buffers: writes to out[0], out[1].. where they lie.
 *
 * Answers: SCQ_OK; SCQ_CLOSED; SCQ_NO_ROOM; SCQ_FULL; SCQ_SPENT. */
static inline SCQ_ANSWERED uint32_t scq_lend_many(scq_port *port, scq_held *out, size_t n,
                                                  size_t *done) {
    const uint32_t answer = scq_lend_index_many(port, out, n, done);
    size_t k;
    for (k = 0; k < *done; k++) {
        scq_locate(port, SCQ_OK, &out[k]);
        out[k].begun = 0;
    }
    return answer;
}

/* Takes up to n buffers off a topic: writes to out[0], out[1].. where they lie and the places at
 * which they were sent, which rise.
 *
 * Answers: SCQ_OK; SCQ_CLOSED; SCQ_NO_TOPIC; SCQ_NO_ROOM; SCQ_EMPTY; SCQ_SPENT. */
static inline SCQ_ANSWERED uint32_t scq_take_many(scq_port *port, uint32_t topic, scq_held *out,
                                                  size_t n, size_t *done) {
    const uint32_t answer = scq_take_index_many(port, topic, out, n, done);
    size_t k;
    for (k = 0; k < *done; k++) {
        scq_locate(port, SCQ_OK, &out[k]);
        out[k].begun = 1;
    }
    return answer;
}

/* Sends the buffers with the indices of held[0], held[1].., up to n, on a topic, and writes to the
 * `place` of each at which place. The port doesn't hold the first *done of them any more.
 *
 * Answers: SCQ_OK; SCQ_CLOSED; SCQ_NO_TOPIC; SCQ_RETIRED; SCQ_NOT_HELD; SCQ_SPENT. */
SCQ_ANSWERED uint32_t scq_send_many(scq_port *port, scq_held *held, size_t n, uint32_t topic,
                                    size_t *done);

/* Gives the buffers with the indices of held[0], held[1].. back, up to n. The port doesn't hold the
 * first *done of them any more.
 *
 * Answers: SCQ_OK; SCQ_CLOSED; SCQ_NOT_HELD; SCQ_SPENT. */
uint32_t scq_give_back_many(scq_port *port, const scq_held *held, size_t n, size_t *done);

/* Retires the port: it sends no more, on any topic. It still lends, takes and gives back. A close
 * retires too.
 *
 * Tested: that the port is open.
 * Answers: SCQ_OK, also where it had retired; SCQ_CLOSED. */
uint32_t scq_retire(scq_port *port);

/* Whether all ports of the queue have retired, this one among them. Then a topic that is found
 * empty afterwards has ended (tested): ask first, and then take. Once a port is answered that all
 * have, it always is. A yes says that this port has retired; that each other one had by then, and
 * that a yes comes once all have, is tested.
 *
 * Tested: that the port is open.
 * Answers: SCQ_RETIRED where all have; SCQ_OK where some hadn't, as far as the call read;
 * SCQ_CLOSED. */
SCQ_ANSWERED uint32_t scq_retired(scq_port *port);

/* Writes to `out` how many buffers the queue has: 2^order.
 *
 * Tested: that the port is open.
 * Answers: SCQ_OK; SCQ_CLOSED. */
uint32_t scq_capacity(scq_port *port, uint32_t *out);

/* Writes to `out` about how many buffers stand on a topic. It is a hint, for a gauge or to share
 * out work: others send and take meanwhile, and the number is read in two loads. It is never above
 * the number of buffers. It may be too high, as places that were drawn and not used count too; and
 * too low, so that only scq_take tells whether a topic is empty.
 *
 * Tested: that the port is open, and the topic.
 * Answers: SCQ_OK; SCQ_CLOSED; SCQ_NO_TOPIC. */
SCQ_ANSWERED uint32_t scq_count(scq_port *port, uint32_t topic, uint32_t *out);

/* Writes to `out` how many sends, takes and SCQ_FULL answers the port had.
 *
 * Tested: that the port is open.
 * Answers: SCQ_OK; SCQ_CLOSED. */
uint32_t scq_counts_of(scq_port *port, scq_counts *out);

/* Whether the port has drawn a ticket at or past the limit, which it keeps: each later lend, take,
 * send and give-back of it that passes its tests is answered SCQ_SPENT.
 *
 * Tested: that the port is open.
 * Answers: SCQ_SPENT, and *ticket is the ticket; SCQ_OK where it keeps none; SCQ_CLOSED. */
uint32_t scq_spent(scq_port *port, uint64_t *ticket);

/* Closes the port, and tells whether it was the queue's last. It retires, and gives back what it
 * holds; where its tickets have run out, what can't be given back stays with the queue, which lends
 * it to nobody (tested). The last port of a queue frees what the library took, with what stands on
 * the topics, and is told so: just one port is, and all others had closed by then (tested). Proved
 * of that one: its lends, takes, sends and give-backs, and those of a record for each other port,
 * but those that a test or a kept ticket refused, stand in one run of the machine, with their
 * answers: each buffer taken was sent on that topic at that place, no place of a topic was sent at
 * or taken at twice, what was sent less what was taken is what was left, and the calls of each
 * topic, and of the free buffers, but those answered SCQ_SPENT, stand in one order in which every
 * answer is a plain queue's. That these records are the other ports' calls is tested. Then `counts`
 * has what each port of the queue did, in the order in which they were opened: of the first `n`.
 * port->memory is left as it was.
 *
 * Tested: that the port is open.
 * Answers: SCQ_OK; SCQ_CLOSED. */
uint32_t scq_end(scq_port *port, scq_ended *out, scq_counts *counts, size_t n);

/* What is left to be done with a port that scq_end closed: sets it to SCQ_NONE, and frees what
 * scq_open took, where it was the queue's last. The count goes down by a step that releases and
 * acquires, which is enough on every processor: what a thread did with the bytes comes before its
 * step, and so before the last one, behind which they are freed. The count is set where no port is
 * open yet, and who gets a port of another thread gets it by what orders memory. */
static inline void scq_free(scq_port *port) {
    struct scq_block *const block = SCQ_TO(struct scq_block *, port->memory.block);
    *port = SCQ_NONE;
    if (block == SCQ_NULL) return;
    scq_tell_before(block);
    if (__atomic_sub_fetch(&block->open, 1, __ATOMIC_ACQ_REL) != 0) return;
    scq_tell_after(block);
    free(block);
}

/* Both in one: closes the port.
 *
 * Answers: SCQ_OK; SCQ_CLOSED. */
static inline uint32_t scq_close(scq_port *port) {
    scq_ended ended;
    scq_counts none;
    const uint32_t answer = scq_end(port, &ended, &none, 0);
    if (answer == SCQ_OK) scq_free(port);
    return answer;
}

/* Several small messages in one buffer: as many as there is room for, each behind its length. One
 * send and one take then carry all of them. What stands in the buffer is, in four bytes with the
 * lowest first, how many bytes the messages take; then of each message its length, likewise in four
 * bytes, and its bytes. These functions make no call, and touch no byte but those of the buffer.
 *
 * Begins the packing: there are no messages in the buffer. In one that was lent the first message
 * begins it too; to one that was taken messages are added. */
static inline void scq_pack_begin(scq_held *held) {
    if (held->len >= 4) memset(held->at, 0, 4);
    held->begun = 1;
}

/* The number in four bytes, and the four bytes of a number. */

static inline uint32_t scq_pack_number(const unsigned char *at) {
    const uint32_t low = at[0] | SCQ_TO(uint32_t, at[1]) << 8;
    return low | SCQ_TO(uint32_t, at[2]) << 16 | SCQ_TO(uint32_t, at[3]) << 24;
}

static inline void scq_pack_set_number(unsigned char *at, uint32_t number) {
    at[0] = SCQ_TO(unsigned char, number & 255);
    at[1] = SCQ_TO(unsigned char, number >> 8 & 255);
    at[2] = SCQ_TO(unsigned char, number >> 16 & 255);
    at[3] = SCQ_TO(unsigned char, number >> 24);
}

/* Appends a message of `len` bytes, and answers where its bytes lie, to be written there: whatever
 * stood in the buffer. Answers null, and leaves the buffer as it was, where there is no room for it
 * behind the messages that are in it. A buffer has room for its `len` less 4, where each message
 * takes its own length and 4. */
static inline SCQ_ANSWERED unsigned char *scq_pack_room(scq_held *held, size_t len) {
    size_t used, room;
    if (held->len < 4) return SCQ_NULL;
    if (held->begun == 0) scq_pack_begin(held);
    used = scq_pack_number(held->at);
    room = held->len - 4 < UINT32_MAX ? held->len - 4 : UINT32_MAX;
    if (used > room || room - used < 4 || room - used - 4 < len) return SCQ_NULL;
    scq_pack_set_number(held->at, SCQ_TO(uint32_t, used + 4 + len));
    scq_pack_set_number(held->at + 4 + used, SCQ_TO(uint32_t, len));
    return held->at + 4 + used + 4;
}

/* The same with the message's bytes, which lie elsewhere. Answers whether it was appended: 1 or
 * 0. */
static inline SCQ_ANSWERED int scq_pack(scq_held *held, const void *bytes, size_t len) {
    unsigned char *const at = scq_pack_room(held, len);
    if (at == SCQ_NULL) return 0;
    if (len != 0) memcpy(at, bytes, len);
    return 1;
}

/* Goes to the next message of a buffer: writes to *at where its bytes lie and to *len how many they
 * are, and answers 1; or answers 0 where there is none. *next is 0 for the first message, and is
 * moved on. Whatever stands in the buffer, none is answered that goes past its end. */
static inline SCQ_ANSWERED int scq_unpack(const scq_held *held, size_t *next,
                                          const unsigned char **at, size_t *len) {
    size_t end, from, of;
    if (held->len < 4) return 0;
    end = scq_pack_number(held->at);
    end = end < held->len - 4 ? end + 4 : held->len;
    from = *next < 4 ? 4 : *next;
    if (from > end || end - from < 4) return 0;
    of = scq_pack_number(held->at + from);
    if (of > end - from - 4) return 0;
    *at = held->at + from + 4;
    *len = of;
    *next = from + 4 + of;
    return 1;
}

#undef SCQ_ANSWERED
#undef SCQ_TO
#undef SCQ_ADDRESS
#undef SCQ_NULL

#ifdef __cplusplus
}
#endif
#endif
