/* The end of a stream that goes through stages, by a counter a stage: how many threads of the stage
 * may still send. A thread counts itself down once it sent its last; who takes asks the counter
 * first and then the topic: where the counter was 0, and then nothing is on the topic, nothing
 * comes any more. (Asked the other way round, a message could be missed that was sent in between.)
 *
 *     cc -pthread -I.. stages.c libscq.a -o stages
 */
#include "scq.h"

#include <inttypes.h>
#include <pthread.h>
#include <sched.h>
#include <stdatomic.h>
#include <stdio.h>
#include <stdlib.h>
#include <string.h>

enum { RAW, DONE, TOPICS };
enum { READERS = 2, WORKERS = 3, THREADS = READERS + WORKERS };
#ifndef LAST
#define LAST 100000
#endif

/* How many threads may still send on each topic. */
static atomic_int senders_of[TOPICS];

static void must(const char *call, uint32_t answer) {
    if (answer == SCQ_OK) return;
    fprintf(stderr, "%s: %s\n", call, scq_text(answer));
    exit(1);
}

/* Takes from a topic, or answers 0 where its stream has ended. */
static int take(scq_port *port, uint32_t topic, scq_held *held) {
    for (;;) {
        const int is_over = atomic_load(&senders_of[topic]) == 0;
        const uint32_t answer = scq_take(port, topic, held);
        if (answer == SCQ_EMPTY && is_over) return 0;
        if (answer != SCQ_EMPTY) {
            must("take", answer);
            return 1;
        }
        sched_yield();
    }
}

static void *read_all(void *port) {
    scq_held held;
    uint64_t place;
    uint32_t answer;
    for (uint64_t number = 1; number <= LAST; number++) {
        while ((answer = scq_lend(port, &held)) == SCQ_FULL) sched_yield();
        must("lend", answer);
        memcpy(held.at, &number, sizeof number);
        must("send", scq_send(port, held.index, RAW, &place));
    }
    scq_close(port);
    atomic_fetch_sub(&senders_of[RAW], 1);
    return NULL;
}

static void *work(void *port) {
    scq_held held;
    uint64_t place;
    while (take(port, RAW, &held)) must("send", scq_send(port, held.index, DONE, &place));
    scq_close(port);
    atomic_fetch_sub(&senders_of[DONE], 1);
    return NULL;
}

int main(void) {
    scq_port ports[THREADS + 1] = {{0}}, *const mine = &ports[THREADS];
    pthread_t threads[THREADS];
    scq_held held;
    uint64_t number, sum = 0;
    must("open", scq_open(5, TOPICS, sizeof number, 1, SCQ_MAX_LIMIT, ports, THREADS + 1));
    atomic_init(&senders_of[RAW], READERS);
    atomic_init(&senders_of[DONE], WORKERS);
    for (int i = 0; i < THREADS; i++) {
        void *(*const begin)(void *) = i < READERS ? read_all : work;
        if (pthread_create(&threads[i], NULL, begin, &ports[i]) != 0) return 1;
    }
    while (take(mine, DONE, &held)) {
        memcpy(&number, held.at, sizeof number);
        sum += number;
        must("give_back", scq_give_back(mine, held.index));
    }
    for (int i = 0; i < THREADS; i++) pthread_join(threads[i], NULL);
    scq_close(mine);
    printf("the stream of %d readers has ended, and its numbers are %" PRIu64 "\n", READERS, sum);
    return 0;
}
