/* A recorder of the calls that threads make of first-in-first-out queues, for C11 and C++11 and later. It needs no library
 * but the C library's. What it writes `scq judge` reads: a file for each thread, in its head the number of the run, and then a line for
 * each event, with its stamp in front.
 *
 * How to use it:
 *   1. One `scq_recorder` for all threads, set by `scq_recorder_init`. One `scq_seat` for each thread, with a number of its own,
 *      set by `scq_seat_init` with room for all events that it will make: two for each call.
 *   2. The queue carries 64-bit values, which the recorder gives: `value = scq_put_start(&seat, queue)`, then put the value, then
 *      `scq_put_done(&seat)`, or `scq_put_refused(&seat)` where the queue was full. A value that was refused is not put again:
 *      each try is a put of its own, with a number of its own. A queue of other values carries this one beside its own.
 *   3. `scq_get_start(&seat, queue)`, then get, then `scq_get_got(&seat, value)` or `scq_get_nothing(&seat)`.
 *   4. After the run `scq_seat_write(&seat, "1.log")` for each seat, and `scq judge 1.log 2.log ..`.
 *
 * A queue that may hang or crash: `scq_seat_open` in place of `scq_seat_init`, and `scq_seat_close` at the end. Such a seat writes its
 * file whenever its room is full, and what is left at `exit`, at `abort`, and at nine signals (SIGINT and such). Until then the last
 * line of the file is unfinished, so that `scq judge` refuses what SIGKILL or `_exit` has cut.
 *
 * A queue that isn't empty at the start: it holds the values `scq_opening(0)`, `scq_opening(1)`, .. in this order, and
 * `scq_openings_write("0.log", count)` writes the file that stands first among those of `scq judge`.
 *
 * Calls that move several values at once: a seat of as many lanes (`scq_lanes_init`, `scq_lanes_open`), and `scq_puts_start`,
 * `scq_puts_end`, `scq_gets_start`, `scq_gets_end` around the one call. Each lane is a seat of its own for the judge, so
 * that the numbers from `number` on are taken.
 *
 * Stamps. By the processor's clock, where it is constant and no reading at the start ran backwards; else, and where
 * `scq_recorder_init_as(&recorder, SCQ_COUNTER)` asks for it, by a counter that all threads share. A reading of the clock waits for the
 * call's loads, and not until its stores are seen by others; of equal readings a Start comes before an End. A step of the counter is
 * a full barrier, which makes the call's stores seen before its End, and so hides what a missing barrier does. Stamp and store are
 * ordered as the thread sees them: that of a Start comes before the call's first access to the queue, that of an End after its last.
 *
 * Where a seat has no room left the event is counted as lost: `scq_seat_write` says so on stderr, fails, and ends the file with a line that
 * `scq judge` refuses. A seat with events that was never written is told on stderr at `exit`.
 *
 * Processes. A seat is of the process that made it. A child of `fork` that ends by `exit` leaves its parent's files alone; what it records on
 * its parent's open seats is told, and refused by `scq judge`. Processes that share a queue share the recorder too, in memory of both, and
 * open their seats behind the `fork`.
 *
 * Names. What stands in this head may be used. All else begins with `scq_recorder_` or `SCQ_RECORDER_`.
 */
#ifndef SCQ_RECORDER_H
#define SCQ_RECORDER_H

#include <signal.h>
#include <stdint.h>
#include <stdio.h>
#include <stdlib.h>
#include <string.h>
#include <time.h>

/* Files that are written as events come need POSIX (in C, no `-std=c11` without `_POSIX_C_SOURCE`). */
#if defined(__GNUC__) && defined(__unix__) && defined(SIG_BLOCK)
#define SCQ_RECORDER_FILES 1
#include <fcntl.h>
#include <pthread.h>
#include <sched.h>
#include <unistd.h>
#endif

/* The clock is read on x86-64 and aarch64 with Linux. */
#if defined(SCQ_RECORDER_FILES) && (defined(__x86_64__) || defined(__aarch64__)) && defined(__linux__)
#define SCQ_RECORDER_CLOCK 1
#ifdef __x86_64__
#include <cpuid.h>
#endif
#include <sys/syscall.h>
#ifndef __cplusplus
extern long syscall(long number, ...);
#endif
#endif

#ifdef __cplusplus
#include <atomic>
typedef std::atomic<uint64_t> scq_recorder_counter;
#define SCQ_RECORDER_ADD(c, n) (c)->fetch_add(n, std::memory_order_seq_cst)
#define SCQ_RECORDER_LOAD(c) (c)->load(std::memory_order_seq_cst)
#define SCQ_RECORDER_STORE(c, n) (c)->store(n, std::memory_order_seq_cst)
#else
#include <stdatomic.h>
typedef _Atomic uint64_t scq_recorder_counter;
#define SCQ_RECORDER_ADD(c, n) atomic_fetch_add_explicit(c, n, memory_order_seq_cst)
#define SCQ_RECORDER_LOAD(c) atomic_load_explicit(c, memory_order_seq_cst)
#define SCQ_RECORDER_STORE(c, n) atomic_store_explicit(c, n, memory_order_seq_cst)
#endif

/* Stores a count that a signal's handler may read. */
#ifdef SCQ_RECORDER_FILES
#define SCQ_RECORDER_PUBLISH(place, value) __atomic_store_n(place, value, __ATOMIC_RELEASE)
#else
#define SCQ_RECORDER_PUBLISH(place, value) (*(place) = (value))
#endif

/* A value is the number of its put, and above these bits its seat: seats are below 2^24 - 1, puts of a seat below 2^40. The seat 2^24 - 1
 * stands for the opening tokens. */
#define SCQ_RECORDER_NUMBER_BITS 40
#define SCQ_RECORDER_OPENING_SEAT ((1ULL << 24) - 1)

/* A stamp of the clock is its reading, then a bit that is set at an End, then the lane, of which a recorder gives out so many. */
#define SCQ_RECORDER_LANE_BITS 12
#define SCQ_RECORDER_LANES (1ULL << SCQ_RECORDER_LANE_BITS)

/* The most bytes of a line. */
#define SCQ_RECORDER_LINE 128

typedef enum { SCQ_CLOCK, SCQ_COUNTER } scq_stamps;

/* The counter has a line of the cache of its own. */
typedef struct {
    char before[128];
    scq_recorder_counter next;
    char after[128];
    scq_recorder_counter lanes; /* how many were given out */
    scq_stamps stamps;
    uint64_t first; /* the reading of the clock that counts as none */
    uint64_t run; /* the number of the run, which stands in the head of each file */
} scq_recorder;

enum { SCQ_RECORDER_PUT, SCQ_RECORDER_GET, SCQ_RECORDER_DONE, SCQ_REFUSED, SCQ_RECORDER_GOT, SCQ_NOTHING };

typedef struct {
    uint64_t stamp;
    uint64_t what; /* the queue of a start, the value of a got */
    uint16_t kind;
    uint16_t lane;
} scq_recorder_event;

/* An End's line without so many bytes is none, and neither is the head. */
#define SCQ_RECORDER_HELD 2

/* What one thread records. It is never moved while files are written as events come. */
typedef struct scq_recorder_log {
    scq_recorder *recorder;
    scq_recorder_event *events;
    size_t count, room, lost;
    uint64_t seat, first_lane, lanes;
    uint64_t last; /* the last stamp of the clock */
    uint64_t *puts; /* how many puts each lane began */
    int file; /* -1 where none is open */
    int bad; /* whether a write failed */
    int writing;
    int was_written; /* whether its file was, where none is open */
    int is_copy; /* of a log of the parent, whose events it hasn't */
    uint64_t last_written;
    size_t held; /* the last bytes, which a file under way lacks */
    char held_back[SCQ_RECORDER_LINE];
    struct scq_recorder_log *next;
    char after[128];
} scq_recorder_log;

typedef struct {
    scq_recorder_log *log;
} scq_seat;

/* --- the clock --- */

#ifdef SCQ_RECORDER_CLOCK
#ifdef __x86_64__
/* A reading that comes before all later loads and stores. */
static inline uint64_t scq_recorder_clock_before(void) {
    uint32_t low, high;
    __asm__ volatile("rdtsc\n\tlfence" : "=a"(low), "=d"(high) : : "memory");
    return (uint64_t)high << 32 | low;
}

/* A reading that comes after all earlier loads, and after earlier stores were made, though maybe not seen. */
static inline uint64_t scq_recorder_clock_after(void) {
    uint32_t low, high;
    __asm__ volatile("lfence\n\trdtsc" : "=a"(low), "=d"(high) : : "memory");
    return (uint64_t)high << 32 | low;
}

/* Whether the clock runs at one rate, whatever the processor does. */
static inline int scq_recorder_clock_is_constant(void) {
    unsigned a, b, c, d;
    return __get_cpuid(0x80000007, &a, &b, &c, &d) && (d >> 8 & 1);
}
#else
/* The same of the generic timer: `isb` lets nothing behind it begin before what stands in front of it is done. */
static inline uint64_t scq_recorder_clock_before(void) {
    uint64_t reading;
    __asm__ volatile("mrs %0, cntvct_el0\n\tisb" : "=r"(reading) : : "memory");
    return reading;
}

/* `dsb ishld` waits for the loads alone. */
static inline uint64_t scq_recorder_clock_after(void) {
    uint64_t reading;
    __asm__ volatile("dsb ishld\n\tisb\n\tmrs %0, cntvct_el0" : "=r"(reading) : : "memory");
    return reading;
}

/* The architecture has it so. */
static inline int scq_recorder_clock_is_constant(void) { return 1; }
#endif

#define SCQ_RECORDER_PROCESSORS 1024
#define SCQ_RECORDER_WORD_BITS (8 * sizeof(unsigned long))

typedef struct {
    scq_recorder_counter turn; /* odd: the other thread's */
    uint64_t reading; /* of whose turn it was last */
    unsigned long allowed[SCQ_RECORDER_PROCESSORS / (8 * sizeof(unsigned long))];
    uint64_t rounds, contradictions;
} scq_recorder_calibration;

static inline void scq_recorder_wait_turn(scq_recorder_calibration *calibration, uint64_t turn) {
    while (SCQ_RECORDER_LOAD(&calibration->turn) != turn) sched_yield();
}

/* One reading after the other's, which has to be no less. */
static inline void scq_recorder_take_turn(scq_recorder_calibration *calibration, uint64_t turn) {
    uint64_t reading = scq_recorder_clock_before();
    if (reading < calibration->reading) calibration->contradictions++;
    calibration->reading = scq_recorder_clock_after();
    SCQ_RECORDER_STORE(&calibration->turn, turn + 1);
}

/* The other thread: on each processor in turn it answers some readings. */
static inline void *scq_recorder_answer_readings(void *argument) {
    scq_recorder_calibration *calibration = (scq_recorder_calibration *)argument;
    uint64_t turn = 1;
    for (size_t p = 0; p < SCQ_RECORDER_PROCESSORS; p++) {
        unsigned long only[SCQ_RECORDER_PROCESSORS / SCQ_RECORDER_WORD_BITS] = {0};
        if (!(calibration->allowed[p / SCQ_RECORDER_WORD_BITS] >> p % SCQ_RECORDER_WORD_BITS & 1)) continue;
        only[p / SCQ_RECORDER_WORD_BITS] = 1UL << p % SCQ_RECORDER_WORD_BITS;
        syscall(SYS_sched_setaffinity, 0, sizeof only, only);
        for (uint64_t round = 0; round < calibration->rounds; round++, turn += 2) {
            scq_recorder_wait_turn(calibration, turn);
            scq_recorder_take_turn(calibration, turn);
        }
    }
    return NULL;
}

/* Whether no reading is less than one that was taken before it on another processor. */
static inline int scq_recorder_clocks_agree(void) {
    scq_recorder_calibration calibration;
    pthread_t other;
    uint64_t turn = 0;
    memset(calibration.allowed, 0, sizeof calibration.allowed);
    SCQ_RECORDER_STORE(&calibration.turn, 0);
    calibration.reading = calibration.contradictions = 0;
    calibration.rounds = 32;
    if (syscall(SYS_sched_getaffinity, 0, sizeof calibration.allowed, calibration.allowed) <= 0) return 0;
    if (pthread_create(&other, NULL, scq_recorder_answer_readings, &calibration) != 0) return 0;
    for (size_t p = 0; p < SCQ_RECORDER_PROCESSORS; p++) {
        if (!(calibration.allowed[p / SCQ_RECORDER_WORD_BITS] >> p % SCQ_RECORDER_WORD_BITS & 1)) continue;
        for (uint64_t round = 0; round < calibration.rounds; round++, turn += 2) {
            scq_recorder_wait_turn(&calibration, turn);
            scq_recorder_take_turn(&calibration, turn);
        }
    }
    pthread_join(other, NULL);
    return calibration.contradictions == 0;
}
#endif

/* Why the clock can't be used, or NULL. */
static inline const char *scq_recorder_clock_fault(void) {
#ifdef SCQ_RECORDER_CLOCK
    if (!scq_recorder_clock_is_constant()) return "the processor's clock isn't constant";
    if (!scq_recorder_clocks_agree()) return "the clocks of two processors contradict each other";
    return NULL;
#else
    return "there is no clock that this recorder knows";
#endif
}

/* A number of this run: of microseconds, and behind them three digits of the process's number. It has at most 19 digits. */
static inline uint64_t scq_recorder_run_number(void) {
#ifdef SCQ_RECORDER_FILES
    struct timespec now = {0, 0};
    clock_gettime(CLOCK_REALTIME, &now);
    return ((uint64_t)now.tv_sec * 1000000 + (uint64_t)now.tv_nsec / 1000) * 1000 + (uint64_t)getpid() % 1000;
#else
    return (uint64_t)time(NULL) * 1000000000;
#endif
}

/* Begins a recording with stamps of the wanted kind. Where the clock can't be used it is the counter, and stderr says why. The kind
 * that it is. */
static inline scq_stamps scq_recorder_init_as(scq_recorder *recorder, scq_stamps wanted) {
    const char *fault = wanted == SCQ_CLOCK ? scq_recorder_clock_fault() : NULL;
    if (fault) fprintf(stderr, "scq recorder: stamps are of the shared counter, since %s\n", fault);
    SCQ_RECORDER_STORE(&recorder->next, 0);
    SCQ_RECORDER_STORE(&recorder->lanes, 0);
    recorder->stamps = fault ? SCQ_COUNTER : wanted;
    recorder->run = scq_recorder_run_number();
    recorder->first = 0;
#ifdef SCQ_RECORDER_CLOCK
    /* A little before now, since another processor's reading may be less. */
    recorder->first = scq_recorder_clock_before() - (1 << 20);
#endif
    return recorder->stamps;
}

static inline void scq_recorder_init(scq_recorder *recorder) { scq_recorder_init_as(recorder, SCQ_CLOCK); }

/* --- seats --- */

#ifdef SCQ_RECORDER_FILES
static inline void scq_recorder_list_log(scq_recorder_log *log, int is_made);
static inline void scq_recorder_watch(void);
#endif

static inline void scq_seat_free(scq_seat *seat) {
    if (!seat->log) return;
#ifdef SCQ_RECORDER_FILES
    scq_recorder_list_log(seat->log, 0);
#endif
    free(seat->log->events);
    free(seat->log->puts);
    free(seat->log);
    seat->log = NULL;
}

/* A seat of so many lanes, 1 or more, that takes as many numbers, from this one on. */
static inline int scq_lanes_init(scq_seat *seat, scq_recorder *recorder, uint32_t number, uint32_t lanes, size_t room) {
    scq_recorder_log *log = (scq_recorder_log *)calloc(1, sizeof *log);
    seat->log = log;
    if (!log) return 0;
    log->recorder = recorder;
    log->events = (scq_recorder_event *)malloc((room ? room : 1) * sizeof(scq_recorder_event));
    log->puts = (uint64_t *)calloc(lanes ? lanes : 1, sizeof(uint64_t));
    log->room = room;
    log->seat = number;
    log->first_lane = SCQ_RECORDER_ADD(&recorder->lanes, lanes);
    log->lanes = lanes;
    log->file = -1;
    if (!log->events || !log->puts || lanes == 0 || log->first_lane + lanes > SCQ_RECORDER_LANES ||
        (uint64_t)number + lanes > SCQ_RECORDER_OPENING_SEAT) {
        scq_seat_free(seat);
        return 0;
    }
    for (size_t i = 0; i < room; i++) log->events[i].stamp = 0;
#ifdef SCQ_RECORDER_FILES
    scq_recorder_watch();
    scq_recorder_list_log(log, 1);
#endif
    return 1;
}

/* Whether there was memory, and the number is one of a seat. Every page of the room is written, so that a run meets none for the first
 * time. A recorder has at most 4,096 seats, all lanes counted. */
static inline int scq_seat_init(scq_seat *seat, scq_recorder *recorder, uint32_t number, size_t room) {
    return scq_lanes_init(seat, recorder, number, 1, room);
}

/* A stamp for the event of the first lane. */
static inline uint64_t scq_recorder_stamp(scq_recorder_log *log, int is_end) {
#ifdef SCQ_RECORDER_CLOCK
    if (log->recorder->stamps == SCQ_CLOCK) {
        uint64_t stamp;
        do {
            uint64_t tick = (is_end ? scq_recorder_clock_after() : scq_recorder_clock_before()) - log->recorder->first;
            stamp = (tick << 1 | (uint64_t)is_end) << SCQ_RECORDER_LANE_BITS | log->first_lane;
        } while (stamp <= log->last);
        log->last = stamp;
        return stamp;
    }
#endif
    (void)is_end;
    return SCQ_RECORDER_ADD(&log->recorder->next, log->lanes);
}

/* Events of the first lanes, with stamps one above the other. */
static inline void scq_recorder_note(scq_recorder_log *log, uint32_t kind, uint64_t lane, uint64_t stamp, uint64_t what) {
    if (log->count == log->room) {
        log->lost++;
        return;
    }
    scq_recorder_event *event = &log->events[log->count];
    event->stamp = stamp + lane;
    event->what = what;
    event->kind = (uint16_t)kind;
    event->lane = (uint16_t)lane;
    SCQ_RECORDER_PUBLISH(&log->count, log->count + 1);
}

static inline void scq_recorder_ended(scq_recorder_log *log);

static inline void scq_recorder_note_start(scq_seat *seat, uint32_t kind, uint64_t what) {
    scq_recorder_note(seat->log, kind, 0, scq_recorder_stamp(seat->log, 0), what);
}

static inline void scq_recorder_note_end(scq_seat *seat, uint32_t kind, uint64_t what) {
    scq_recorder_note(seat->log, kind, 0, scq_recorder_stamp(seat->log, 1), what);
    scq_recorder_ended(seat->log);
}

/* The value of the put that a lane begins. */
static inline uint64_t scq_recorder_next_value(scq_recorder_log *log, uint64_t lane) {
    return (log->seat + lane) << SCQ_RECORDER_NUMBER_BITS | ++log->puts[lane];
}

static inline uint64_t scq_put_start(scq_seat *seat, uint32_t queue) {
    uint64_t value = scq_recorder_next_value(seat->log, 0);
    scq_recorder_note_start(seat, SCQ_RECORDER_PUT, queue);
    return value;
}

static inline void scq_put_done(scq_seat *seat) { scq_recorder_note_end(seat, SCQ_RECORDER_DONE, 0); }
static inline void scq_put_refused(scq_seat *seat) { scq_recorder_note_end(seat, SCQ_REFUSED, 0); }
static inline void scq_get_start(scq_seat *seat, uint32_t queue) { scq_recorder_note_start(seat, SCQ_RECORDER_GET, queue); }
static inline void scq_get_got(scq_seat *seat, uint64_t value) { scq_recorder_note_end(seat, SCQ_RECORDER_GOT, value); }
static inline void scq_get_nothing(scq_seat *seat) { scq_recorder_note_end(seat, SCQ_NOTHING, 0); }

/* --- calls that move several values: at most as many as the seat has lanes --- */

/* A call begins that puts so many values, which are written here. */
static inline void scq_puts_start(scq_seat *seat, uint32_t queue, uint64_t *values, size_t count) {
    scq_recorder_log *log = seat->log;
    for (size_t i = 0; i < count; i++) values[i] = scq_recorder_next_value(log, i);
    uint64_t stamp = scq_recorder_stamp(log, 0);
    for (size_t i = 0; i < count; i++) scq_recorder_note(log, SCQ_RECORDER_PUT, i, stamp, queue);
}

/* It has put the first `taken` of `count`, and the others were refused. */
static inline void scq_puts_end(scq_seat *seat, size_t count, size_t taken) {
    scq_recorder_log *log = seat->log;
    uint64_t stamp = scq_recorder_stamp(log, 1);
    for (size_t i = 0; i < count; i++) scq_recorder_note(log, i < taken ? SCQ_RECORDER_DONE : SCQ_REFUSED, i, stamp, 0);
    scq_recorder_ended(log);
}

/* A call begins that gets up to so many values. */
static inline void scq_gets_start(scq_seat *seat, uint32_t queue, size_t count) {
    scq_recorder_log *log = seat->log;
    uint64_t stamp = scq_recorder_stamp(log, 0);
    for (size_t i = 0; i < count; i++) scq_recorder_note(log, SCQ_RECORDER_GET, i, stamp, queue);
}

/* It has got `got` of `count`. `rest` says what fewer mean: SCQ_NOTHING that the queue was empty then, SCQ_REFUSED no such thing, as of a
 * call that gets all or none. */
static inline void scq_gets_end(scq_seat *seat, const uint64_t *values, size_t count, size_t got, uint32_t rest) {
    scq_recorder_log *log = seat->log;
    uint64_t stamp = scq_recorder_stamp(log, 1);
    for (size_t i = 0; i < count; i++) scq_recorder_note(log, i < got ? (uint32_t)SCQ_RECORDER_GOT : rest, i, stamp, i < got ? values[i] : 0);
    scq_recorder_ended(log);
}

/* --- opening tokens --- */

/* The value of the opening token of this number, from 0. Opening tokens stand in queue 0. */
static inline uint64_t scq_opening(uint32_t number) { return (uint64_t)SCQ_RECORDER_OPENING_SEAT << SCQ_RECORDER_NUMBER_BITS | number; }

/* Writes the file of so many opening tokens, which stands first among those that are judged. Whether it was written. */
static inline int scq_openings_write(const char *name, uint32_t count) {
    FILE *file = fopen(name, "w");
    if (!file) return 0;
    int good = 1;
    for (uint32_t i = 0; i < count && good; i++) good = fputs("opening -\n", file) >= 0;
    return fclose(file) == 0 && good;
}

/* --- lines --- */

static inline char *scq_recorder_add_word(char *at, const char *word) {
    while (*word) *at++ = *word++;
    return at;
}

static inline char *scq_recorder_add_number(char *at, uint64_t number) {
    char digits[20];
    int count = 0;
    do {
        digits[count++] = (char)('0' + number % 10);
        number /= 10;
    } while (number);
    while (count) *at++ = digits[--count];
    return at;
}

/* The put of a value: `o J` or `S N`. */
static inline char *scq_recorder_add_name(char *at, uint64_t value) {
    uint64_t seat = value >> SCQ_RECORDER_NUMBER_BITS;
    at = seat == SCQ_RECORDER_OPENING_SEAT ? scq_recorder_add_word(at, "o") : scq_recorder_add_number(at, seat);
    at = scq_recorder_add_word(at, " ");
    return scq_recorder_add_number(at, value & ((1ULL << SCQ_RECORDER_NUMBER_BITS) - 1));
}

/* One line of at most SCQ_RECORDER_LINE bytes; where it ends. The content is `-`: which put a value is from is all that it says. */
static inline char *scq_recorder_add_line(char *at, const scq_recorder_event *event, uint64_t seat) {
    at = scq_recorder_add_number(at, event->stamp);
    at = scq_recorder_add_word(at, event->kind <= SCQ_RECORDER_GET ? " start " : " end ");
    at = scq_recorder_add_number(at, seat + event->lane);
    switch (event->kind) {
    case SCQ_RECORDER_PUT: return scq_recorder_add_word(scq_recorder_add_number(scq_recorder_add_word(at, " put "), event->what), " -\n");
    case SCQ_RECORDER_GET: return scq_recorder_add_word(scq_recorder_add_number(scq_recorder_add_word(at, " get "), event->what), "\n");
    case SCQ_RECORDER_DONE: return scq_recorder_add_word(at, " done\n");
    case SCQ_REFUSED: return scq_recorder_add_word(at, " spent\n");
    case SCQ_RECORDER_GOT: return scq_recorder_add_word(scq_recorder_add_name(scq_recorder_add_word(at, " got "), event->what), " -\n");
    default: return scq_recorder_add_word(at, " nothing\n");
    }
}

/* The head of a file, of at most SCQ_RECORDER_LINE bytes; where it ends. */
static inline char *scq_recorder_add_head(char *at, const scq_recorder *recorder) {
    return scq_recorder_add_word(scq_recorder_add_number(scq_recorder_add_word(at, "run "), recorder->run), "\n");
}

/* A line that `scq judge` refuses, of at most SCQ_RECORDER_LINE bytes; where it ends. */
static inline char *scq_recorder_add_cut(char *at, uint64_t lost) {
    return scq_recorder_add_word(scq_recorder_add_number(scq_recorder_add_word(at, "cut: events without room "), lost), "\n");
}

/* Whether the whole file was written and no event was lost. Not of a seat that was opened, whose file has most events already: it is
 * closed. */
static inline int scq_seat_write(const scq_seat *seat, const char *name) {
    scq_recorder_log *log = seat->log;
    char line[SCQ_RECORDER_LINE];
    FILE *file = log->file < 0 ? fopen(name, "w") : NULL;
    if (!file) return 0;
    size_t head = (size_t)(scq_recorder_add_head(line, log->recorder) - line);
    int good = fwrite(line, 1, head, file) == head;
    for (size_t i = 0; i < log->count && good; i++) {
        size_t size = (size_t)(scq_recorder_add_line(line, &log->events[i], log->seat) - line);
        good = fwrite(line, 1, size, file) == size;
    }
    if (good && log->lost) {
        size_t size = (size_t)(scq_recorder_add_cut(line, log->lost) - line);
        good = fwrite(line, 1, size, file) == size;
        fprintf(stderr, "scq recorder: %s is cut: seat %lu needs room for %lu events\n", name, (unsigned long)log->seat,
                (unsigned long)(log->count + log->lost));
    }
    if (fclose(file) != 0) good = 0;
    log->was_written = 1;
    return good && log->lost == 0;
}

/* --- files that are written as events come --- */

#ifdef SCQ_RECORDER_FILES
#define SCQ_RECORDER_BUFFER 4096

/* The logs, and what guards them; the program has one of each, however many of its files include this one. */
__attribute__((weak)) scq_recorder_log *scq_recorder_logs;
__attribute__((weak)) int scq_recorder_logs_lock, scq_recorder_ending, scq_recorder_is_watching, scq_recorder_has_signals;
__attribute__((weak)) struct sigaction scq_recorder_actions_before[32];

static inline int scq_recorder_write_all(int file, const char *bytes, size_t size) {
    while (size) {
        ssize_t done = write(file, bytes, size);
        if (done < 0) return 0;
        bytes += done;
        size -= (size_t)done;
    }
    return 1;
}

/* Says on standard error what became of so many events of a seat. Only calls that a signal's handler may make. */
static inline void scq_recorder_tell(const scq_recorder_log *log, uint64_t events, const char *fault) {
    char line[256];
    char *at = scq_recorder_add_number(scq_recorder_add_word(line, "scq recorder: of seat "), log->seat);
    at = scq_recorder_add_number(scq_recorder_add_word(at, ", "), events);
    at = scq_recorder_add_word(scq_recorder_add_word(scq_recorder_add_word(at, " events "), fault), "\n");
    if (!scq_recorder_write_all(2, line, (size_t)(at - line))) return;
}

/* Writes those of the first `count` events whose stamps are at most this, with what was held back before; but for the last bytes, where
 * more may come. Only calls that a signal's handler may make. */
static inline int scq_recorder_write_events(scq_recorder_log *log, size_t count, uint64_t until, int is_last) {
    char buffer[SCQ_RECORDER_BUFFER];
    char *at = buffer;
    for (size_t i = 0; i < log->held; i++) *at++ = log->held_back[i];
    log->held = 0;
    for (size_t i = 0; i < count; i++) {
        if (log->events[i].stamp > until) break;
        if (at - buffer > SCQ_RECORDER_BUFFER - SCQ_RECORDER_LINE) {
            if (!scq_recorder_write_all(log->file, buffer, (size_t)(at - buffer))) return 0;
            at = buffer;
        }
        at = scq_recorder_add_line(at, &log->events[i], log->seat);
    }
    if (is_last && log->lost) at = scq_recorder_add_cut(at, log->lost);
    while (!is_last && at > buffer && log->held < SCQ_RECORDER_HELD) {
        at--;
        log->held++;
    }
    for (size_t i = 0; i < log->held; i++) log->held_back[i] = at[i];
    return scq_recorder_write_all(log->file, buffer, (size_t)(at - buffer));
}

/* How far the end of the program is: what is left is being written, and it was. */
enum { SCQ_RECORDER_RUNS, SCQ_RECORDER_ENDS, SCQ_RECORDER_ENDED };

static inline void scq_recorder_end_writing(scq_recorder_log *log, const sigset_t *before) {
    __atomic_store_n(&log->writing, 0, __ATOMIC_SEQ_CST);
    pthread_sigmask(SIG_SETMASK, before, NULL);
}

/* Locks out the end of the program. Where that has begun it waits until what is left is written, and answers false. */
static inline int scq_recorder_begin_writing(scq_recorder_log *log, sigset_t *before) {
    sigset_t all;
    sigfillset(&all);
    pthread_sigmask(SIG_BLOCK, &all, before);
    __atomic_store_n(&log->writing, 1, __ATOMIC_SEQ_CST);
    if (!__atomic_load_n(&scq_recorder_ending, __ATOMIC_SEQ_CST)) return 1;
    scq_recorder_end_writing(log, before);
    while (__atomic_load_n(&scq_recorder_ending, __ATOMIC_SEQ_CST) != SCQ_RECORDER_ENDED) sched_yield();
    return 0;
}

/* The last stamp of a log. */
static inline uint64_t scq_recorder_last_stamp(const scq_recorder_log *log) {
    size_t count = __atomic_load_n(&log->count, __ATOMIC_SEQ_CST);
    return count ? log->events[count - 1].stamp : log->last_written;
}

/* What a child of `fork` recorded on a seat of its parent: it is told, and a line in the parent's file is one that `scq judge` refuses. */
static inline void scq_recorder_refuse_copy(scq_recorder_log *log) {
    char line[SCQ_RECORDER_LINE];
    size_t count = __atomic_load_n(&log->count, __ATOMIC_SEQ_CST) + log->lost;
    if (!count) return;
    scq_recorder_tell(log, count, "were recorded by a child, and aren't in the parent's file");
    log->bad = 1;
    if (!scq_recorder_write_all(log->file, line, (size_t)(scq_recorder_add_cut(line, count) - line))) return;
    __atomic_store_n(&log->count, 0, __ATOMIC_SEQ_CST);
    log->lost = 0;
}

/* Writes what the log holds. */
static inline void scq_recorder_empty_log(scq_recorder_log *log, int is_last) {
    sigset_t before;
    if (!scq_recorder_begin_writing(log, &before)) return;
    log->last_written = scq_recorder_last_stamp(log);
    if (log->is_copy) scq_recorder_refuse_copy(log);
    else if (!scq_recorder_write_events(log, log->count, UINT64_MAX, is_last)) log->bad = 1;
    __atomic_store_n(&log->count, 0, __ATOMIC_SEQ_CST);
    scq_recorder_end_writing(log, &before);
}

static inline void scq_recorder_lock_logs(void) {
    while (__atomic_exchange_n(&scq_recorder_logs_lock, 1, __ATOMIC_SEQ_CST)) sched_yield();
}

static inline void scq_recorder_unlock_logs(void) { __atomic_store_n(&scq_recorder_logs_lock, 0, __ATOMIC_SEQ_CST); }

/* Waits for a thread that writes, for two seconds at most. */
static inline void scq_recorder_wait_for_writer(const scq_recorder_log *log) {
    struct timespec pause = {0, 1000000};
    for (int i = 0; i < 2000 && __atomic_load_n(&log->writing, __ATOMIC_SEQ_CST); i++) nanosleep(&pause, NULL);
}

/* Writes what is left of each log, once, up to one moment: what was stamped later may be missing elsewhere. */
static inline void scq_recorder_write_rest(void) {
    uint64_t until = 0;
    scq_recorder_log *log;
    if (__atomic_exchange_n(&scq_recorder_ending, SCQ_RECORDER_ENDS, __ATOMIC_SEQ_CST)) return;
    for (log = scq_recorder_logs; log; log = log->next) {
        scq_recorder_wait_for_writer(log);
        if (scq_recorder_last_stamp(log) > until) until = scq_recorder_last_stamp(log);
    }
    for (log = scq_recorder_logs; log; log = log->next) {
        size_t count = __atomic_load_n(&log->count, __ATOMIC_SEQ_CST);
        if (log->file < 0 && count && !log->was_written && !log->is_copy) scq_recorder_tell(log, count, "were never written");
        if (log->file < 0) continue;
        if (log->is_copy) scq_recorder_refuse_copy(log);
        else scq_recorder_write_events(log, count, until, 1);
    }
    __atomic_store_n(&scq_recorder_ending, SCQ_RECORDER_ENDED, __ATOMIC_SEQ_CST);
}

/* At a signal that ends the program: writes the rest, and lets the program end as it would have. */
static inline void scq_recorder_on_signal(int number) {
    scq_recorder_write_rest();
    sigaction(number, &scq_recorder_actions_before[number], NULL);
    raise(number);
}

static inline void scq_recorder_watch_signal(int number) {
    struct sigaction action;
    if (sigaction(number, NULL, &scq_recorder_actions_before[number]) != 0) return;
    if (scq_recorder_actions_before[number].sa_handler == SIG_IGN) return;
    memset(&action, 0, sizeof action);
    action.sa_handler = scq_recorder_on_signal;
    sigfillset(&action.sa_mask);
    sigaction(number, &action, NULL);
}

/* In a child of `fork`: the events that were recorded are the parent's. */
static inline void scq_recorder_on_fork(void) {
    for (scq_recorder_log *log = scq_recorder_logs; log; log = log->next) {
        log->is_copy = 1;
        if (log->file < 0) continue;
        log->count = log->lost = log->held = 0;
        log->writing = 0;
    }
    scq_recorder_logs_lock = 0;
}

/* Once: what is done at the end of the program by `exit`, and in a child. */
static inline void scq_recorder_watch(void) {
    if (__atomic_exchange_n(&scq_recorder_is_watching, 1, __ATOMIC_SEQ_CST)) return;
    atexit(scq_recorder_write_rest);
    pthread_atfork(NULL, NULL, scq_recorder_on_fork);
}

/* Once, where files are written as events come: the same at these signals. */
static inline void scq_recorder_watch_signals(void) {
    static const int ending[] = {SIGABRT, SIGSEGV, SIGBUS, SIGFPE, SIGILL, SIGINT, SIGTERM, SIGHUP, SIGQUIT};
    if (__atomic_exchange_n(&scq_recorder_has_signals, 1, __ATOMIC_SEQ_CST)) return;
    for (size_t i = 0; i < sizeof ending / sizeof ending[0]; i++) scq_recorder_watch_signal(ending[i]);
}

/* Puts a log among the others, or takes it out. */
static inline void scq_recorder_list_log(scq_recorder_log *log, int is_made) {
    sigset_t all, before;
    sigfillset(&all);
    pthread_sigmask(SIG_BLOCK, &all, &before);
    scq_recorder_lock_logs();
    scq_recorder_log **at = &scq_recorder_logs;
    if (is_made) {
        log->next = scq_recorder_logs;
    } else {
        while (*at && *at != log) at = &(*at)->next;
    }
    if (is_made) *at = log;
    else if (*at) *at = log->next;
    scq_recorder_unlock_logs();
    pthread_sigmask(SIG_SETMASK, &before, NULL);
}

/* A seat of so many lanes whose events go to this file: whenever its room is full, at the end of a call, and when it is closed or
 * the program ends by `exit`, `abort` or one of nine signals. SIGKILL and `_exit` leave the last line unfinished. Whether there was memory
 * and the file could be made. */
static inline int scq_lanes_open(scq_seat *seat, scq_recorder *recorder, uint32_t number, uint32_t lanes, size_t room, const char *name) {
    size_t least = 4 * (size_t)lanes;
    scq_recorder_log *log;
    if (!scq_lanes_init(seat, recorder, number, lanes, room < least ? least : room)) return 0;
    log = seat->log;
    log->file = open(name, O_WRONLY | O_CREAT | O_TRUNC, 0666);
    if (log->file < 0) {
        scq_seat_free(seat);
        return 0;
    }
    log->held = (size_t)(scq_recorder_add_head(log->held_back, recorder) - log->held_back);
    if (!scq_recorder_write_all(log->file, log->held_back, SCQ_RECORDER_HELD)) log->bad = 1;
    log->held -= SCQ_RECORDER_HELD;
    memmove(log->held_back, log->held_back + SCQ_RECORDER_HELD, log->held);
    scq_recorder_watch_signals();
    return 1;
}

static inline int scq_seat_open(scq_seat *seat, scq_recorder *recorder, uint32_t number, size_t room, const char *name) {
    return scq_lanes_open(seat, recorder, number, 1, room, name);
}

/* Writes the rest and frees the seat. Whether all was written. */
static inline int scq_seat_close(scq_seat *seat) {
    scq_recorder_log *log = seat->log;
    int file = log->file, good;
    scq_recorder_empty_log(log, 1);
    if (log->lost) scq_recorder_tell(log, log->lost, "had no room");
    good = !log->bad && log->lost == 0;
    scq_seat_free(seat);
    return close(file) == 0 && good;
}

/* Behind the end of a call: makes room for the next. */
static inline void scq_recorder_ended(scq_recorder_log *log) {
    if (log->file >= 0 && log->room - log->count < 2 * log->lanes) scq_recorder_empty_log(log, 0);
}
#else
static inline void scq_recorder_ended(scq_recorder_log *log) { (void)log; }
#endif

#endif
