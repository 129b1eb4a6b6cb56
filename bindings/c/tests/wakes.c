/* wakes MESSAGES PAIRS ROUNDS: so many senders and as many takers pass messages of 64 bytes over 64
 * buffers, by a queue with a bell, and by a mutex with two condition variables, in turn. Prints how
 * often a thread slept by the bell and how many calls of the system woke, each a message, and their
 * ratio; and the processor's time of the bell by that of the mutex, as the median of the rounds. */
#define _GNU_SOURCE
#include "scq.h"

#include <errno.h>
#include <sys/syscall.h>
#include <unistd.h>

static long asked(long number, ...);
#define syscall(...) asked(__VA_ARGS__)
#include "scq_bell.h"
#undef syscall

#include "check.h"

#include <pthread.h>
#include <stdarg.h>
#include <stdio.h>
#include <stdlib.h>
#include <string.h>
#include <sys/resource.h>

enum { MOST = 64, BUFFERS = 64, SIZE = 64, ROUNDS = 99 };

static uint64_t sleeps, wakes;

/* The bell's calls of the system, which are counted. */
static long asked(long number, ...) {
    va_list given;
    va_start(given, number);
    if (number != SYS_futex) {
        const int clock = va_arg(given, int);
        void *at = va_arg(given, void *);
        va_end(given);
        return syscall(number, clock, at);
    }
    uint32_t *word = va_arg(given, uint32_t *);
    const int operation = va_arg(given, int);
    const uint32_t value = va_arg(given, uint32_t);
    const void *end = va_arg(given, void *);
    const void *none = va_arg(given, void *);
    const uint32_t bits = va_arg(given, uint32_t);
    va_end(given);
    const long said = syscall(number, word, operation, value, end, none, bits);
    if ((operation & 127) == 10)
        __atomic_add_fetch(&wakes, 1, __ATOMIC_RELAXED);
    else if (said == 0 || errno != EAGAIN)
        __atomic_add_fetch(&sleeps, 1, __ATOMIC_RELAXED);
    return said;
}

static uint64_t messages, sent, taken;
static uint32_t pairs, senders_left;

/* -- A queue with a bell -------------------------------------------------------------------- */

static scq_bell bell;
static scq_port ports[2 * MOST];

static void *sends(void *port) {
    scq_held held;
    while (__atomic_fetch_add(&sent, 1, __ATOMIC_RELAXED) < messages) {
        CHECK(scq_bell_lend(&bell, port, SCQ_FOREVER, &held) == SCQ_OK);
        memset(held.at, 1, SIZE);
        CHECK(scq_bell_send(&bell, port, held.index, 0, NULL) == SCQ_OK);
    }
    CHECK(scq_bell_close(&bell, port) == SCQ_OK);
    return NULL;
}

static void *takes(void *port) {
    unsigned char message[SIZE];
    uint64_t got = 0;
    scq_held held;
    CHECK(scq_bell_retire(&bell, port) == SCQ_OK);
    for (;;) {
        const uint32_t answer = scq_bell_take(&bell, port, 0, SCQ_FOREVER, &held);
        if (answer == SCQ_ENDED) break;
        CHECK(answer == SCQ_OK);
        memcpy(message, held.at, SIZE);
        CHECK(message[SIZE - 1] == 1 && ++got > 0);
        CHECK(scq_bell_give_back(&bell, port, held.index) == SCQ_OK);
    }
    __atomic_fetch_add(&taken, got, __ATOMIC_RELAXED);
    CHECK(scq_bell_close(&bell, port) == SCQ_OK);
    return NULL;
}

/* -- A mutex with condition variables ------------------------------------------------------- */

static pthread_mutex_t lock = PTHREAD_MUTEX_INITIALIZER;
static pthread_cond_t has_some = PTHREAD_COND_INITIALIZER, has_room = PTHREAD_COND_INITIALIZER;
static unsigned char ring[BUFFERS][SIZE];
static uint64_t head, tail;
static int is_over;

static void *puts_in(void *unused) {
    unsigned char message[SIZE];
    memset(message, 1, SIZE);
    while (__atomic_fetch_add(&sent, 1, __ATOMIC_RELAXED) < messages) {
        pthread_mutex_lock(&lock);
        while (tail - head == BUFFERS) pthread_cond_wait(&has_room, &lock);
        memcpy(ring[tail++ % BUFFERS], message, SIZE);
        pthread_mutex_unlock(&lock);
        pthread_cond_signal(&has_some);
    }
    if (__atomic_sub_fetch(&senders_left, 1, __ATOMIC_SEQ_CST) == 0) {
        pthread_mutex_lock(&lock);
        is_over = 1;
        pthread_mutex_unlock(&lock);
        pthread_cond_broadcast(&has_some);
    }
    return unused;
}

static void *gets_out(void *unused) {
    unsigned char message[SIZE];
    uint64_t got = 0;
    for (;;) {
        pthread_mutex_lock(&lock);
        while (tail == head && !is_over) pthread_cond_wait(&has_some, &lock);
        if (tail == head) break;
        memcpy(message, ring[head++ % BUFFERS], SIZE);
        pthread_mutex_unlock(&lock);
        pthread_cond_signal(&has_room);
        CHECK(message[SIZE - 1] == 1 && ++got > 0);
    }
    pthread_mutex_unlock(&lock);
    __atomic_fetch_add(&taken, got, __ATOMIC_RELAXED);
    return unused;
}

/* -- Both ----------------------------------------------------------------------------------- */

static double spent(void) {
    struct rusage use;
    CHECK(getrusage(RUSAGE_SELF, &use) == 0);
    return (double)(use.ru_utime.tv_sec + use.ru_stime.tv_sec) +
           (double)(use.ru_utime.tv_usec + use.ru_stime.tv_usec) / 1e6;
}

/* The processor's time of a round. */
static double run(void *(*first)(void *), void *(*second)(void *)) {
    pthread_t threads[2 * MOST];
    const double from = spent();
    sent = taken = 0;
    senders_left = pairs;
    for (uint32_t i = 0; i < 2 * pairs; i++)
        CHECK(pthread_create(&threads[i], NULL, i < pairs ? first : second, &ports[i]) == 0);
    for (uint32_t i = 0; i < 2 * pairs; i++) CHECK(pthread_join(threads[i], NULL) == 0);
    CHECK(taken == messages);
    return spent() - from;
}

static double by_bell(void) {
    CHECK(scq_bell_init(&bell) == SCQ_OK);
    CHECK(scq_open(6, 1, SIZE, 1, SCQ_MAX_LIMIT, ports, 2 * (size_t)pairs) == SCQ_OK);
    const double time = run(sends, takes);
    scq_bell_free(&bell);
    return time;
}

static double by_mutex(void) {
    head = tail = 0;
    is_over = 0;
    return run(puts_in, gets_out);
}

static int by_size(const void *one, const void *other) {
    const double a = *(const double *)one, b = *(const double *)other;
    return (a > b) - (a < b);
}

int main(int count, char **words) {
    double ratios[ROUNDS], bells[ROUNDS], mutexes[ROUNDS];
    CHECK(count == 4);
    messages = strtoull(words[1], NULL, 10);
    pairs = (uint32_t)strtoul(words[2], NULL, 10);
    const uint32_t rounds = (uint32_t)strtoul(words[3], NULL, 10);
    CHECK(pairs >= 1 && pairs <= MOST && rounds >= 1 && rounds <= ROUNDS);
    for (uint32_t i = 0; i < rounds; i++) {
        bells[i] = by_bell();
        mutexes[i] = by_mutex();
        ratios[i] = bells[i] / mutexes[i];
    }
    qsort(ratios, rounds, sizeof *ratios, by_size);
    qsort(bells, rounds, sizeof *bells, by_size);
    qsort(mutexes, rounds, sizeof *mutexes, by_size);
    const double all = (double)messages * rounds;
    return printf("%u+%u: %.3f sleeps, %.3f wakes a message; %.0f and %.0f ns of the processor;"
                  " wakes a sleep, time by a mutex's: %.2f %.2f\n",
                  pairs, pairs, (double)sleeps / all, (double)wakes / all,
                  bells[rounds / 2] / (double)messages * 1e9,
                  mutexes[rounds / 2] / (double)messages * 1e9,
                  sleeps == 0 ? 0 : (double)wakes / (double)sleeps, ratios[rounds / 2]) < 0;
}
