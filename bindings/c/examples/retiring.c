/* The end of a stream by retiring: a port that sends no more retires, and a port that only takes
 * does so at once. Who takes asks first whether all have, and then the topic: where all had, and
 * then nothing is on the topic, nothing comes any more. This is of the whole queue, for all of its
 * topics; a stage that sends on what it took has a counter (stages.c).
 *
 *     cc -pthread -I.. retiring.c libscq.a -o retiring
 */
#include "scq.h"

#include <inttypes.h>
#include <pthread.h>
#include <sched.h>
#include <stdio.h>
#include <stdlib.h>
#include <string.h>

enum { SENDERS = 3, TAKERS = 2, THREADS = SENDERS + TAKERS };
#ifndef LAST
#define LAST 100000
#endif

struct job {
    scq_port port;
    uint64_t sum;
};

static void must(const char *call, uint32_t answer) {
    if (answer == SCQ_OK) return;
    fprintf(stderr, "%s: %s\n", call, scq_text(answer));
    exit(1);
}

static void *send_all(void *handed) {
    struct job *const job = handed;
    scq_held held;
    uint64_t place;
    uint32_t answer;
    for (uint64_t number = 1; number <= LAST; number++) {
        while ((answer = scq_lend(&job->port, &held)) == SCQ_FULL) sched_yield();
        must("lend", answer);
        memcpy(held.at, &number, sizeof number);
        must("send", scq_send(&job->port, held.index, 0, &place));
    }
    scq_close(&job->port); /* a close retires too */
    return NULL;
}

static void *take_all(void *handed) {
    struct job *const job = handed;
    scq_held held;
    uint64_t number;
    must("retire", scq_retire(&job->port));
    for (;;) {
        const int is_over = scq_retired(&job->port) == SCQ_RETIRED;
        const uint32_t answer = scq_take(&job->port, 0, &held);
        if (answer == SCQ_EMPTY) {
            if (is_over) break;
            sched_yield();
            continue;
        }
        must("take", answer);
        memcpy(&number, held.at, sizeof number);
        job->sum += number;
        must("give_back", scq_give_back(&job->port, held.index));
    }
    scq_close(&job->port);
    return NULL;
}

int main(void) {
    scq_port ports[THREADS] = {{0}};
    struct job jobs[THREADS];
    pthread_t threads[THREADS];
    uint64_t sum = 0;
    must("open", scq_open(4, 1, sizeof(uint64_t), 1, SCQ_MAX_LIMIT, ports, THREADS));
    for (int i = 0; i < THREADS; i++) {
        void *(*const begin)(void *) = i < SENDERS ? send_all : take_all;
        /* The port is moved into the job: `ports` is not used again. */
        jobs[i].port = ports[i];
        jobs[i].sum = 0;
        if (pthread_create(&threads[i], NULL, begin, &jobs[i]) != 0) return 1;
    }
    for (int i = 0; i < THREADS; i++) {
        pthread_join(threads[i], NULL);
        sum += jobs[i].sum;
    }
    printf("all %d senders have retired, and the sum is %" PRIu64 "\n", SENDERS, sum);
    return sum != SENDERS * (uint64_t)LAST * (LAST + 1) / 2;
}
