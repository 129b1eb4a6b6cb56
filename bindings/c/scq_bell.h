/* scq_bell: waiting for a queue of scq.h, of which no call waits. A thread that finds a topic
 * empty, or no buffer free, sleeps here until one that sends or gives back rings the queue's bell.
 * Plain code, tested and not proved. C99 or C++, by gcc or clang; include it with scq.h beside it.
 *
 * Each topic is a line of the bell, and the stock of free buffers is one, SCQ_FREE. To ring a line
 * for which nobody waits is one load, and no call of the system; to ring one is one call for each
 * sleeper that is woken, since who rings takes him off the count first.
 *
 * What the caller has to uphold, beside what scq.h asks:
 *
 * 1. A bell is made by scq_bell_init before any other call, stays where it is, and is let go of by
 *    scq_bell_free when no thread uses it and none will. It is of one queue and of one process.
 * 2. Where somebody waits for a topic, who sends on it does so by scq_bell_send; where somebody
 *    waits for a buffer, who gives one back or closes a port does so by scq_bell_give_back and
 *    scq_bell_close. Or he makes the call of scq.h, and then scq_bell_ring, once for each buffer.
 * 3. A thread isn't cancelled, and isn't left by longjmp, while it waits. A signal handler doesn't
 *    wait. A thread that is killed or stopped between a send and its ring, or in a ring before its
 *    call of the system, keeps one sleeper from its wake.
 *
 * Why no wake is lost. Inside a line are those who wait for it, awake or asleep: the sleepers, who
 * weren't rung, and as many tokens as rings that nobody has noticed yet. They stand in one word, so
 * that they always add up to who is inside; and there how many lie down, or more. Who waits enters
 * as a sleeper (W), looks once more (L), reads the turn (T), lies down (D), unless a token stands
 * there, and sleeps (S) as long as the turn is the one that he read. Who changes something does so
 * (C), and where the word has a sleeper he makes a token of him (R); where one lies down he takes
 * one off those too, moves the turn (M) and wakes one (K). All of these, and each step of the
 * queue, are sequentially consistent. If R finds no sleeper it stands before W, and so C before L:
 * the look sees the change, or another thread has it. If R finds nobody who lies down it stands
 * before D, which sees the token, or another has taken it and looks. Else M follows: if it stands
 * before T, so does R before D; if it stands behind T, S is refused, or came first, and K finds the
 * sleeper. Who was woken takes a token of each of his lines and looks once behind that; the lines
 * that he then leaves without a look he rings. Who leaves awake leaves the tokens to those who
 * sleep. So as long as something is there for a line and one sleeps for it, another is on his way
 * to look: bench/bells goes through all orders of three threads' steps.
 */
#ifndef SCQ_BELL_H
#define SCQ_BELL_H

#include "scq.h"

#include <errno.h>
#include <limits.h>

/* With SCQ_BELL_PTHREADS threads sleep by POSIX alone, and each ring wakes, beside one sleeper, all
 * that wait for several lines. */
#if defined(__linux__) && !defined(SCQ_BELL_PTHREADS)
#define SCQ_BELL_FUTEX
#include <sys/syscall.h>
#ifdef __cplusplus
#include <unistd.h>
#else
extern long syscall(long number, ...); /* which unistd.h hides from strict C */
#endif
#else
#include <pthread.h>
#include <time.h>
#endif

/* Helgrind and DRD, which SCQ_VALGRIND speaks to, take a call that sleeps for one that writes. */
#ifdef SCQ_VALGRIND
#include <valgrind/helgrind.h> /* before the other, which leaves out what it finds here */
#include <valgrind/drd.h>
#define SCQ_ATOMICS_IN(block)                                                                      \
    VALGRIND_HG_DISABLE_CHECKING(block, sizeof *(block));                                          \
    VALGRIND_DO_CLIENT_REQUEST_STMT(VG_USERREQ__DRD_START_SUPPRESSION, block, sizeof *(block), 0,  \
                                    0, 0)
#else
#define SCQ_ATOMICS_IN(block) (void)(block)
#endif

#ifdef __cplusplus
extern "C" {
#endif

/* For this file alone: a function whose answer has to be looked at; a conversion; and null. */
#define SCQ_ANSWERED __attribute__((warn_unused_result))
#ifdef __cplusplus
#define SCQ_TO(type, value) static_cast<type>(value)
#else
#define SCQ_TO(type, value) ((type)(value))
#endif
#if defined(__cplusplus) && __cplusplus >= 201103L
#define SCQ_NULL nullptr
#else
#define SCQ_NULL NULL
#endif

/* The stock of free buffers, where a topic is asked for: the number behind the last topic that a
 * queue may have. And how many lines there are: a set of them has a bit for each of its 32. */
#define SCQ_FREE SCQ_MAX_TOPICS
#define SCQ_LINES (SCQ_FREE + 1)

/* So many nanoseconds never end. */
#define SCQ_FOREVER UINT64_MAX

/* A set of lines. */
typedef struct scq_lines {
    uint32_t set; /* a bit for each */
} scq_lines;

/* These lines, by their bits. */
static inline scq_lines scq_lines_of(uint32_t set) {
    scq_lines lines;
    lines.set = set;
    return lines;
}

/* A topic, or SCQ_FREE, as a set; the first `n` topics; the lines of two sets; all lines. */
static inline scq_lines scq_line(uint32_t topic) {
    return scq_lines_of(topic < SCQ_LINES ? UINT32_C(1) << topic : 0);
}
static inline scq_lines scq_topics(uint32_t n) {
    return scq_lines_of((UINT32_C(1) << (n < SCQ_FREE ? n : SCQ_FREE)) - 1);
}
static inline scq_lines scq_lines_both(scq_lines one, scq_lines other) {
    return scq_lines_of(one.set | other.set);
}
static inline scq_lines scq_all_lines(void) { return scq_lines_of(UINT32_MAX); }

/* What is rung in place of a thread that sleeps, as an eventfd in a loop of events. */
typedef struct scq_watch {
    void (*ring)(void *with); /* what a thread that rings calls; it must not wait */
    void *with;               /* what it hands over */
    uint32_t lines;           /* the lines that it is armed for, and 0 where it isn't */
    struct scq_watch *next;
} scq_watch;

/* Who is inside a line, in one word: the sleepers, who weren't rung; the tokens of those who were
 * and haven't noticed; and the armed watches. Two lines' words don't share a line of the cache. */
typedef struct scq_bell_line {
    uint64_t inside;
#ifndef SCQ_BELL_FUTEX
    pthread_cond_t rung; /* of who waits for this line alone */
#endif
    unsigned char apart[SCQ_CACHE_LINE - sizeof(uint64_t)];
} scq_bell_line;

#define SCQ_SLEEPER UINT64_C(1)
#define SCQ_RUNG (UINT64_C(1) << 16)
#define SCQ_ASLEEP (UINT64_C(1) << 32)
#define SCQ_WATCHED (UINT64_C(1) << 48)

/* A bell. Nothing in it is for the caller. */
typedef struct scq_bell {
    unsigned char before[SCQ_CACHE_LINE];
    scq_bell_line line[SCQ_LINES];
    uint32_t ended; /* the lines on which nothing comes any more */
    scq_watch *watches;
#ifdef SCQ_BELL_FUTEX
    unsigned char apart[SCQ_CACHE_LINE];
    uint32_t turn; /* moves on where somebody is to be woken */
#else
    pthread_mutex_t lock;
    pthread_cond_t rung; /* of who waits for several lines */
#endif
    unsigned char behind[SCQ_CACHE_LINE];
} scq_bell;

/* Makes a bell, for which nobody waits.
 *
 * Answers: SCQ_OK; SCQ_NO_MEMORY where the system has no room for it, which Linux always has. */
static inline SCQ_ANSWERED uint32_t scq_bell_init(scq_bell *bell) {
    uint32_t line;
#ifndef SCQ_BELL_FUTEX
    pthread_condattr_t steady;
    uint32_t made = 0;
    int failed;
#endif
    SCQ_ATOMICS_IN(bell);
    bell->ended = 0;
    bell->watches = SCQ_NULL;
    for (line = 0; line < SCQ_LINES; line++) bell->line[line].inside = 0;
#ifdef SCQ_BELL_FUTEX
    bell->turn = 0;
    return SCQ_OK;
#else
    if (pthread_condattr_init(&steady) != 0) return SCQ_NO_MEMORY;
    failed = pthread_condattr_setclock(&steady, CLOCK_MONOTONIC) != 0 ||
             pthread_mutex_init(&bell->lock, SCQ_NULL) != 0;
    if (!failed && pthread_cond_init(&bell->rung, &steady) != 0) {
        pthread_mutex_destroy(&bell->lock);
        failed = 1;
    }
    while (!failed && made < SCQ_LINES && pthread_cond_init(&bell->line[made].rung, &steady) == 0)
        made++;
    pthread_condattr_destroy(&steady);
    if (failed) return SCQ_NO_MEMORY;
    if (made == SCQ_LINES) return SCQ_OK;
    while (made > 0) pthread_cond_destroy(&bell->line[--made].rung);
    pthread_cond_destroy(&bell->rung);
    pthread_mutex_destroy(&bell->lock);
    return SCQ_NO_MEMORY;
#endif
}

/* Lets go of a bell. */
static inline void scq_bell_free(scq_bell *bell) {
#ifndef SCQ_BELL_FUTEX
    uint32_t line;
    for (line = 0; line < SCQ_LINES; line++) pthread_cond_destroy(&bell->line[line].rung);
    pthread_cond_destroy(&bell->rung);
    pthread_mutex_destroy(&bell->lock);
#endif
    (void)bell;
}

/* -- The steps of which the calls further below are made, and others can be --------------- */

/* The first of these lines, which are some; and the set without it. */
static inline uint32_t scq_bell_first(scq_lines lines) {
    return SCQ_TO(uint32_t, __builtin_ctz(lines.set));
}
static inline scq_lines scq_bell_rest(scq_lines lines) {
    return scq_lines_of(lines.set & (lines.set - 1));
}

/* Where the word of a line stands. */
static inline uint64_t *scq_bell_inside(scq_bell *bell, uint32_t line) {
    return &bell->line[line].inside;
}

/* How many of the four stand in a word. */
static inline uint64_t scq_bell_sleepers(uint64_t inside) { return inside & (SCQ_RUNG - 1); }
static inline uint64_t scq_bell_tokens(uint64_t inside) {
    return inside / SCQ_RUNG & (SCQ_RUNG - 1);
}
static inline uint64_t scq_bell_asleep(uint64_t inside) {
    return inside / SCQ_ASLEEP & (SCQ_RUNG - 1);
}
static inline uint64_t scq_bell_watched(uint64_t inside) { return inside / SCQ_WATCHED; }

/* Adds to the words of these lines. */
static inline void scq_bell_count(scq_bell *bell, scq_lines lines, uint64_t more) {
    for (; lines.set != 0; lines = scq_bell_rest(lines))
        __atomic_add_fetch(scq_bell_inside(bell, scq_bell_first(lines)), more, __ATOMIC_SEQ_CST);
}

/* This thread waits for these lines from here on. It looks once more before it sleeps. */
static inline void scq_bell_enter(scq_bell *bell, scq_lines lines) {
    scq_bell_count(bell, lines, SCQ_SLEEPER);
}

/* What a word is without one sleeper, or without one token; no more are asleep than sleepers. */
static inline uint64_t scq_bell_less(uint64_t inside, uint64_t one) {
    const uint64_t less = inside - one, most = scq_bell_sleepers(less),
                   asleep = scq_bell_asleep(less);
    return asleep > most ? less - (asleep - most) * SCQ_ASLEEP : less;
}

/* It doesn't any more, and wasn't asleep: a token is left to another, if there is one. */
static inline void scq_bell_leave(scq_bell *bell, scq_lines lines) {
    for (; lines.set != 0; lines = scq_bell_rest(lines)) {
        uint64_t *const at = scq_bell_inside(bell, scq_bell_first(lines));
        uint64_t was = __atomic_load_n(at, __ATOMIC_SEQ_CST), less;
        do less = scq_bell_less(was, scq_bell_sleepers(was) != 0 ? SCQ_SLEEPER : SCQ_RUNG);
        while (!__atomic_compare_exchange_n(at, &was, less, 0, __ATOMIC_SEQ_CST, __ATOMIC_SEQ_CST));
    }
}

/* It doesn't any more, behind scq_bell_sleep: it takes a token of each line that has one. Answers
 * these lines. It looks at them behind this, or rings them. */
static inline scq_lines scq_bell_wake_up(scq_bell *bell, scq_lines lines) {
    uint32_t rung = 0;
    for (; lines.set != 0; lines = scq_bell_rest(lines)) {
        const uint32_t line = scq_bell_first(lines);
        uint64_t *const at = scq_bell_inside(bell, line);
        uint64_t was = __atomic_load_n(at, __ATOMIC_SEQ_CST), less;
        do less = scq_bell_less(was, scq_bell_tokens(was) != 0 ? SCQ_RUNG : SCQ_SLEEPER);
        while (!__atomic_compare_exchange_n(at, &was, less, 0, __ATOMIC_SEQ_CST, __ATOMIC_SEQ_CST));
        if (scq_bell_tokens(was) != 0) rung |= UINT32_C(1) << line;
    }
    return scq_lines_of(rung);
}

/* The lines on which nothing comes any more. Who asks, and then finds a line empty, is through. */
static inline scq_lines scq_bell_ended(const scq_bell *bell) {
    return scq_lines_of(__atomic_load_n(&bell->ended, __ATOMIC_SEQ_CST));
}
static inline int scq_bell_have_ended(const scq_bell *bell, scq_lines lines) {
    return (lines.set & ~scq_bell_ended(bell).set) == 0;
}

/* The moment that is so many nanoseconds from now, by a clock that nobody sets. */
static inline uint64_t scq_bell_until(uint64_t nanoseconds) {
    uint64_t now;
#ifdef SCQ_BELL_FUTEX
    uint64_t at[2] = {0, 0}; /* a timespec, which time.h hides from strict C */
    if (nanoseconds == SCQ_FOREVER) return SCQ_FOREVER;
    syscall(SYS_clock_gettime, 1, at);
    now = at[0] * 1000000000 + at[1];
#else
    struct timespec at;
    if (nanoseconds == SCQ_FOREVER) return SCQ_FOREVER;
    clock_gettime(CLOCK_MONOTONIC, &at);
    now = SCQ_TO(uint64_t, at.tv_sec) * 1000000000 + SCQ_TO(uint64_t, at.tv_nsec);
#endif
    return nanoseconds < SCQ_FOREVER - now ? now + nanoseconds : SCQ_FOREVER;
}

/* Counts this thread among those asleep. Answers 0 where it has to go on instead: a token is there,
 * or all lines have ended. (The token that the end made of it may be another's by now.) */
static inline int scq_bell_lie_down(scq_bell *bell, scq_lines lines) {
    const scq_lines all = lines;
    for (; lines.set != 0; lines = scq_bell_rest(lines)) {
        uint64_t *const at = scq_bell_inside(bell, scq_bell_first(lines));
        uint64_t was = __atomic_load_n(at, __ATOMIC_SEQ_CST);
        do {
            if (scq_bell_tokens(was) != 0) return 0;
            if (scq_bell_asleep(was) == scq_bell_sleepers(was)) break;
        } while (!__atomic_compare_exchange_n(at, &was, was + SCQ_ASLEEP, 0, __ATOMIC_SEQ_CST,
                                              __ATOMIC_SEQ_CST));
    }
    return !scq_bell_have_ended(bell, all);
}

/* Sleeps until one of these lines is rung or all have ended. Answers 0 where the moment came first,
 * else 1; whatever it answers, the thread goes out by scq_bell_wake_up. */
static inline int scq_bell_sleep(scq_bell *bell, scq_lines lines, uint64_t until) {
#ifdef SCQ_BELL_FUTEX
    enum { WAIT_BITSET = 9, OF_ONE_PROCESS = 128 };
    uint64_t at[2];
    const uint64_t *const end = until == SCQ_FOREVER ? SCQ_NULL : at;
    const void *const none = SCQ_NULL;
    at[0] = until / 1000000000;
    at[1] = until % 1000000000;
    for (;;) {
        const uint32_t turn = __atomic_load_n(&bell->turn, __ATOMIC_SEQ_CST);
        if (!scq_bell_lie_down(bell, lines)) return 1;
        if (syscall(SYS_futex, &bell->turn, WAIT_BITSET | OF_ONE_PROCESS, turn, end, none,
                    lines.set) != 0 &&
            errno == ETIMEDOUT)
            return 0;
    }
#else
    pthread_cond_t *const rung =
        scq_bell_rest(lines).set == 0 ? &bell->line[scq_bell_first(lines)].rung : &bell->rung;
    struct timespec end;
    int failed = 0;
    end.tv_sec = SCQ_TO(time_t, until / 1000000000);
    end.tv_nsec = SCQ_TO(long, until % 1000000000);
    pthread_mutex_lock(&bell->lock);
    while (failed == 0 && scq_bell_lie_down(bell, lines)) {
        failed = until == SCQ_FOREVER ? pthread_cond_wait(rung, &bell->lock)
                                      : pthread_cond_timedwait(rung, &bell->lock, &end);
    }
    pthread_mutex_unlock(&bell->lock);
    return failed == 0;
#endif
}

/* Wakes one that sleeps for one of these lines, or all. */
static inline void scq_bell_wake(scq_bell *bell, scq_lines lines, int all) {
#ifdef SCQ_BELL_FUTEX
    enum { WAKE_BITSET = 10, OF_ONE_PROCESS = 128 };
    const void *const none = SCQ_NULL;
    const int most = all ? INT_MAX : 1;
    __atomic_add_fetch(&bell->turn, 1, __ATOMIC_SEQ_CST);
    syscall(SYS_futex, &bell->turn, WAKE_BITSET | OF_ONE_PROCESS, most, none, none, lines.set);
#else
    pthread_mutex_lock(&bell->lock);
    pthread_mutex_unlock(&bell->lock);
    for (; lines.set != 0; lines = scq_bell_rest(lines)) {
        pthread_cond_t *const rung = &bell->line[scq_bell_first(lines)].rung;
        all ? pthread_cond_broadcast(rung) : pthread_cond_signal(rung);
    }
    pthread_cond_broadcast(&bell->rung);
#endif
}

/* Takes back that a watch is armed. Answers 0 where it wasn't, or was rung since. */
static inline int scq_bell_disarm(scq_bell *bell, scq_watch *watch) {
    const scq_lines lines = scq_lines_of(__atomic_exchange_n(&watch->lines, 0, __ATOMIC_SEQ_CST));
    scq_bell_count(bell, lines, 0 - SCQ_WATCHED);
    return lines.set != 0;
}

/* Rings the watches that are armed for one of these lines. */
static inline void scq_bell_ring_watches(scq_bell *bell, scq_lines lines) {
    scq_watch *watch = __atomic_load_n(&bell->watches, __ATOMIC_SEQ_CST);
    for (; watch != SCQ_NULL; watch = watch->next) {
        if ((__atomic_load_n(&watch->lines, __ATOMIC_SEQ_CST) & lines.set) == 0) continue;
        if (scq_bell_disarm(bell, watch)) watch->ring(watch->with);
    }
}

/* Rings for a topic, behind a send on it, or for SCQ_FREE, behind a give-back: one sleeper is
 * woken, and the watches that are armed for it. */
static inline void scq_bell_ring(scq_bell *bell, uint32_t topic) {
    uint64_t *at, was, rung;
    if (topic >= SCQ_LINES) return;
    at = scq_bell_inside(bell, topic);
    was = __atomic_load_n(at, __ATOMIC_SEQ_CST);
    while (scq_bell_sleepers(was) != 0) {
        rung = was - SCQ_SLEEPER + SCQ_RUNG - (scq_bell_asleep(was) != 0 ? SCQ_ASLEEP : 0);
        if (!__atomic_compare_exchange_n(at, &was, rung, 0, __ATOMIC_SEQ_CST, __ATOMIC_SEQ_CST))
            continue;
        if (scq_bell_asleep(was) != 0) scq_bell_wake(bell, scq_line(topic), 0);
        break;
    }
    if (scq_bell_watched(was) != 0) scq_bell_ring_watches(bell, scq_line(topic));
}

/* Rings each of these lines: who owes them a look and goes without leaves that to another. */
static inline void scq_bell_pass(scq_bell *bell, scq_lines lines) {
    for (; lines.set != 0; lines = scq_bell_rest(lines)) scq_bell_ring(bell, scq_bell_first(lines));
}

/* Rings these lines for all who wait for them. (Who was rung before is woken again: another may
 * take his token, as all look alike.) */
static inline void scq_bell_ring_all(scq_bell *bell, scq_lines lines) {
    scq_lines left;
    uint64_t any = 0;
    for (left = lines; left.set != 0; left = scq_bell_rest(left)) {
        uint64_t *const at = scq_bell_inside(bell, scq_bell_first(left));
        uint64_t was = __atomic_load_n(at, __ATOMIC_SEQ_CST), rung;
        do {
            rung = scq_bell_sleepers(was) * (SCQ_RUNG - SCQ_SLEEPER);
            rung -= scq_bell_asleep(was) * SCQ_ASLEEP;
        } while (!__atomic_compare_exchange_n(at, &was, was + rung, 0, __ATOMIC_SEQ_CST,
                                              __ATOMIC_SEQ_CST));
        any |= was;
    }
    if ((any & (SCQ_WATCHED - 1)) != 0) scq_bell_wake(bell, lines, 1);
    if (scq_bell_watched(any) != 0) scq_bell_ring_watches(bell, lines);
}

/* Whether a look has found something, was refused, or has found the end. */
static inline int scq_bell_is_through(uint32_t answer) {
    return answer != SCQ_EMPTY && answer != SCQ_FULL;
}

/* Looks for something on each of these lines, which are some: the lowest topic first, and a free
 * buffer last. Writes to `topic` where the answer came from. */
static inline SCQ_ANSWERED uint32_t scq_bell_look(const scq_bell *bell, scq_port *port,
                                                  scq_lines lines, uint32_t *topic, scq_held *out) {
    const int have_ended = scq_bell_have_ended(bell, lines);
    uint32_t answer = SCQ_EMPTY;
    for (; lines.set != 0; lines = scq_bell_rest(lines)) {
        *topic = scq_bell_first(lines);
        answer = *topic == SCQ_FREE ? scq_lend(port, out) : scq_take(port, *topic, out);
        if (scq_bell_is_through(answer)) return answer;
    }
    return have_ended ? SCQ_TO(uint32_t, SCQ_ENDED) : answer;
}

/* The lines of these at which a look hasn't looked that came to this answer on this line. */
static inline scq_lines scq_bell_unseen(scq_lines lines, uint32_t topic, uint32_t answer) {
    const int seen = answer == SCQ_OK || answer == SCQ_ENDED || !scq_bell_is_through(answer);
    const uint32_t line = UINT32_C(1) << topic;
    return scq_lines_of(lines.set & ~(seen ? line + (line - 1) : line - 1));
}

/* -- Calls that wait ---------------------------------------------------------------------- */

/* Takes a buffer off the first of these topics that has one, the lowest where several have; or is
 * lent one, where SCQ_FREE is among the lines. Where there is none it waits up to so many
 * nanoseconds, without end by SCQ_FOREVER, and not at all by 0. Writes to `topic` which topic it
 * is, or SCQ_FREE.
 *
 * Tested: what scq_take and scq_lend test, topic by topic.
 * Answers: as they; SCQ_NO_TOPIC where there are no lines, and `topic` isn't written; SCQ_EMPTY or
 * SCQ_FULL where the time is over and there was nothing at its end; SCQ_ENDED where there is
 * nothing and each of the lines has ended. */
static inline SCQ_ANSWERED uint32_t scq_bell_take_any(scq_bell *bell, scq_port *port,
                                                      scq_lines lines, uint64_t nanoseconds,
                                                      uint32_t *topic, scq_held *out) {
    uint32_t answer;
    uint64_t until;
    int in_time;
    scq_lines rung;
    if (lines.set == 0) return scq_take(port, SCQ_LINES, out);
    answer = scq_bell_look(bell, port, lines, topic, out);
    if (scq_bell_is_through(answer) || nanoseconds == 0) return answer;
    until = scq_bell_until(nanoseconds);
    do {
        scq_bell_enter(bell, lines);
        answer = scq_bell_look(bell, port, lines, topic, out);
        if (scq_bell_is_through(answer)) {
            scq_bell_leave(bell, lines);
            return answer;
        }
        in_time = scq_bell_sleep(bell, lines, until);
        rung = scq_bell_wake_up(bell, lines);
        answer = scq_bell_look(bell, port, lines, topic, out);
    } while (in_time && !scq_bell_is_through(answer));
    scq_bell_pass(bell, scq_bell_unseen(rung, *topic, answer));
    return answer;
}

/* Takes a buffer off a topic, and waits for one up to so many nanoseconds.
 *
 * Tested: what scq_take tests.
 * Answers: as scq_take, SCQ_EMPTY where the time is over; SCQ_ENDED where the topic is empty and
 * has ended. */
static inline SCQ_ANSWERED uint32_t scq_bell_take(scq_bell *bell, scq_port *port, uint32_t topic,
                                                  uint64_t nanoseconds, scq_held *out) {
    if (topic >= SCQ_FREE) return scq_take(port, topic, out);
    return scq_bell_take_any(bell, port, scq_line(topic), nanoseconds, &topic, out);
}

/* Is lent a buffer, and waits for one up to so many nanoseconds.
 *
 * Tested: what scq_lend tests.
 * Answers: as scq_lend, SCQ_FULL where the time is over; SCQ_ENDED where none is free and SCQ_FREE
 * has ended. */
static inline SCQ_ANSWERED uint32_t scq_bell_lend(scq_bell *bell, scq_port *port,
                                                  uint64_t nanoseconds, scq_held *out) {
    uint32_t topic;
    return scq_bell_take_any(bell, port, scq_line(SCQ_FREE), nanoseconds, &topic, out);
}

/* -- Calls that ring ---------------------------------------------------------------------- */

/* Sends as scq_send, with its tests and answers, and wakes one who waits for the topic.
 *
 * Answers: SCQ_ENDED too, where the topic has ended: the port holds the buffer as before. */
static inline SCQ_ANSWERED uint32_t scq_bell_send(scq_bell *bell, scq_port *port, uint32_t index,
                                                  uint32_t topic, uint64_t *place) {
    uint32_t answer;
    if (topic < SCQ_FREE && scq_bell_have_ended(bell, scq_line(topic))) return SCQ_ENDED;
    answer = scq_send(port, index, topic, place);
    if (answer == SCQ_OK) scq_bell_ring(bell, topic);
    return answer;
}

/* Gives back as scq_give_back, with its tests and answers, and wakes one who waits for a buffer. */
static inline uint32_t scq_bell_give_back(scq_bell *bell, scq_port *port, uint32_t index) {
    const uint32_t answer = scq_give_back(port, index);
    if (answer == SCQ_OK) scq_bell_ring(bell, SCQ_FREE);
    return answer;
}

/* Says that nothing is sent on these topics any more, behind the last send on each; or, of
 * SCQ_FREE, that who waits there is to give up. Who waits for nothing but such lines is woken, and
 * takes what is left before he is answered SCQ_ENDED. It can't be taken back. */
static inline void scq_bell_finish(scq_bell *bell, scq_lines lines) {
    __atomic_or_fetch(&bell->ended, lines.set, __ATOMIC_SEQ_CST);
    scq_bell_ring_all(bell, lines);
}

/* Retires a port as scq_retire, with its tests and answers; where all ports of the queue have
 * retired then, all topics end, as by scq_bell_finish. A port that only takes retires before it
 * waits. */
static inline uint32_t scq_bell_retire(scq_bell *bell, scq_port *port) {
    const uint32_t answer = scq_retire(port);
    if (answer == SCQ_OK && scq_retired(port) == SCQ_RETIRED)
        scq_bell_finish(bell, scq_topics(SCQ_FREE));
    return answer;
}

/* Ends a port as scq_end, with its tests and answers: it retires, as by scq_bell_retire, and all
 * who wait for a buffer are woken, as there may be several that it held. */
static inline uint32_t scq_bell_end(scq_bell *bell, scq_port *port, scq_ended *out,
                                    scq_counts *counts, size_t n) {
    uint32_t answer = scq_bell_retire(bell, port);
    if (answer != SCQ_OK) return answer;
    answer = scq_end(port, out, counts, n);
    scq_bell_ring_all(bell, scq_line(SCQ_FREE));
    return answer;
}

/* Closes a port as scq_close, with its tests and answers, and rings as scq_bell_end. */
static inline uint32_t scq_bell_close(scq_bell *bell, scq_port *port) {
    scq_ended ended;
    scq_counts none;
    const uint32_t answer = scq_bell_end(bell, port, &ended, &none, 0);
    if (answer == SCQ_OK) scq_free(port);
    return answer;
}

/* -- Watches ------------------------------------------------------------------------------ */

/* Adds a watch to a bell, which stays where it is as long as the bell is used. `ring` and `with`
 * are set before; it isn't armed. */
static inline void scq_bell_watch(scq_bell *bell, scq_watch *watch) {
    SCQ_ATOMICS_IN(watch);
    watch->lines = 0;
    watch->next = __atomic_load_n(&bell->watches, __ATOMIC_SEQ_CST);
    while (!__atomic_compare_exchange_n(&bell->watches, &watch->next, watch, 0, __ATOMIC_SEQ_CST,
                                        __ATOMIC_SEQ_CST)) {
    }
}

/* Arms a watch: the next ring for one of these lines calls its `ring` once, and it is armed no
 * more. Who arms it looks again behind that, before he waits for what `ring` does. Where it is
 * armed already, it is for these lines alone from here on. */
static inline void scq_bell_arm(scq_bell *bell, scq_watch *watch, scq_lines lines) {
    uint32_t was;
    scq_bell_count(bell, lines, SCQ_WATCHED);
    was = __atomic_exchange_n(&watch->lines, lines.set, __ATOMIC_SEQ_CST);
    scq_bell_count(bell, scq_lines_of(was), 0 - SCQ_WATCHED);
}

#undef SCQ_ATOMICS_IN
#undef SCQ_ANSWERED
#undef SCQ_TO
#undef SCQ_NULL

#ifdef __cplusplus
}
#endif
#endif
