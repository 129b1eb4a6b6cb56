/* Four threads on one queue of eight buffers: two send the numbers from 1 to 1,000,000 between
 * them, two take half of them each, and what they took is summed.
 *
 *     cc -pthread -I.. four_threads.c libscq.a -o four_threads
 */
#include "scq.h"

#include <inttypes.h>
#include <pthread.h>
#include <sched.h>
#include <stdio.h>
#include <stdlib.h>
#include <string.h>

#ifndef LAST
#define LAST 1000000
#endif

/* What a thread is handed: a port of its own. A sender sends the numbers from `first` on, every
 * second one; a taker leaves their sum. */
struct job {
    scq_port port;
    uint64_t first, sum;
};

static void stop_at(const char *call, uint32_t answer) {
    fprintf(stderr, "%s: %s\n", call, scq_text(answer));
    exit(1);
}

static void *send_all(void *handed) {
    struct job *job = handed;
    scq_held held;
    uint64_t place;
    uint32_t answer;
    for (uint64_t number = job->first; number <= LAST; number += 2) {
        while ((answer = scq_lend(&job->port, &held)) == SCQ_FULL) sched_yield();
        if (answer != SCQ_OK) stop_at("lend", answer);
        memcpy(held.at, &number, sizeof number);
        answer = scq_send(&job->port, held.index, 0, &place);
        if (answer != SCQ_OK) stop_at("send", answer);
    }
    scq_close(&job->port);
    return NULL;
}

static void *take_half(void *handed) {
    struct job *job = handed;
    scq_held held;
    uint64_t number;
    uint32_t answer;
    for (int taken = 0; taken < LAST / 2; taken++) {
        while ((answer = scq_take(&job->port, 0, &held)) == SCQ_EMPTY) sched_yield();
        if (answer != SCQ_OK) stop_at("take", answer);
        memcpy(&number, held.at, sizeof number);
        job->sum += number;
        answer = scq_give_back(&job->port, held.index);
        if (answer != SCQ_OK) stop_at("give_back", answer);
    }
    scq_close(&job->port);
    return NULL;
}

int main(void) {
    scq_port ports[4] = {SCQ_NONE, SCQ_NONE, SCQ_NONE, SCQ_NONE};
    struct job jobs[4];
    pthread_t threads[4];
    uint32_t answer = scq_open(3, 1, sizeof(uint64_t), 1, SCQ_MAX_LIMIT, ports, 4);
    if (answer != SCQ_OK) stop_at("open", answer);
    for (unsigned i = 0; i < 4; i++) {
        /* The port is moved into the job: `ports` is not used again. */
        jobs[i].port = ports[i];
        jobs[i].first = i + 1;
        jobs[i].sum = 0;
        if (pthread_create(&threads[i], NULL, i < 2 ? send_all : take_half, &jobs[i]) != 0)
            return 1;
    }
    for (int i = 0; i < 4; i++) pthread_join(threads[i], NULL);
    printf("the numbers from 1 to %d are %" PRIu64 " together\n", LAST, jobs[2].sum + jobs[3].sum);
    return 0;
}
