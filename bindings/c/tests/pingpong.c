/* pingpong TURNS: two threads pass a turn to and fro, by a futex alone and by a queue with a bell,
 * each 45 times in turn: many short rounds, as what else the machine does makes one of them slower.
 * Prints the nanoseconds of a turn with each, as medians, and the second by the first. */
#include "scq_bell.h"

#include "check.h"

#include <pthread.h>
#include <time.h>

enum { TIMES = 45, WAIT = 128, WAKE = 129 }; /* of one process */

static scq_bell bell;
static scq_port ports[2];
static uint32_t turns, word;

static void *by_futex(void *odd) {
    for (uint32_t turn = odd != NULL; turn < turns; turn += 2) {
        uint32_t now;
        while ((now = __atomic_load_n(&word, __ATOMIC_SEQ_CST)) != turn)
            syscall(SYS_futex, &word, WAIT, now, NULL, NULL, 0);
        __atomic_store_n(&word, turn + 1, __ATOMIC_SEQ_CST);
        syscall(SYS_futex, &word, WAKE, 1, NULL, NULL, 0);
    }
    return NULL;
}

/* The one waits on topic 0 and the other on topic 1. */
static void *by_bell(void *odd) {
    const uint32_t own = odd != NULL;
    uint64_t place;
    scq_held held;
    for (uint32_t turn = own; turn < turns; turn += 2) {
        CHECK(scq_bell_take(&bell, &ports[own], own, SCQ_FOREVER, &held) == SCQ_OK);
        CHECK(scq_bell_send(&bell, &ports[own], held.index, 1 - own, &place) == SCQ_OK);
    }
    return NULL;
}

/* Nanoseconds of a turn. */
static double timed(void *(*run)(void *)) {
    struct timespec from, to;
    pthread_t other;
    clock_gettime(CLOCK_MONOTONIC, &from);
    CHECK(pthread_create(&other, NULL, run, &turns) == 0);
    run(NULL);
    CHECK(pthread_join(other, NULL) == 0);
    clock_gettime(CLOCK_MONOTONIC, &to);
    return ((double)(to.tv_sec - from.tv_sec) * 1e9 + (double)(to.tv_nsec - from.tv_nsec)) / turns;
}

static int compare(const void *one, const void *other) {
    const double a = *(const double *)one, b = *(const double *)other;
    return (a > b) - (a < b);
}

int main(int count, char **words) {
    double alone[TIMES], belled[TIMES];
    uint64_t place;
    scq_held held;
    CHECK(count == 2);
    turns = (uint32_t)strtoul(words[1], NULL, 10) & ~UINT32_C(1);
    CHECK(scq_bell_init(&bell) == SCQ_OK);
    CHECK(scq_open(1, 2, 8, 1, SCQ_MAX_LIMIT, ports, 2) == SCQ_OK);
    CHECK(scq_lend(&ports[0], &held) == SCQ_OK);
    CHECK(scq_send(&ports[0], held.index, 0, &place) == SCQ_OK);
    for (int i = 0; i < TIMES; i++) {
        word = 0;
        alone[i] = timed(by_futex);
        belled[i] = timed(by_bell);
    }
    qsort(alone, TIMES, sizeof *alone, compare);
    qsort(belled, TIMES, sizeof *belled, compare);
    for (int i = 0; i < 2; i++) CHECK(scq_bell_close(&bell, &ports[i]) == SCQ_OK);
    scq_bell_free(&bell);
    const double one = alone[TIMES / 2], other = belled[TIMES / 2];
    return printf("futex %.0f ns, bell %.0f ns: %.2f\n", one, other, other / one) < 0;
}
