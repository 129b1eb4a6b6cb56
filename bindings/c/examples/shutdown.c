/* Shutdown while threads hold buffers and messages stand on a topic. A thread that is told to stop
 * closes its port, whatever it holds: that is given back. So nobody has to wait until all is used
 * up; and who is told by scq_end that his port was the last knows that the queue is gone, with what
 * stood on it.
 *
 *     cc -pthread -I.. shutdown.c libscq.a -o shutdown
 */
#define _DEFAULT_SOURCE
#include "scq.h"

#include <pthread.h>
#include <sched.h>
#include <stdatomic.h>
#include <stdio.h>
#include <stdlib.h>
#include <unistd.h>

enum { THREADS = 4, HOLD = 4 };

static atomic_int stop, last_ones;

static void must(const char *call, uint32_t answer) {
    if (answer == SCQ_OK) return;
    fprintf(stderr, "%s: %s\n", call, scq_text(answer));
    exit(1);
}

static void *work(void *port) {
    scq_held held;
    scq_ended ended;
    scq_counts none;
    uint64_t place;
    while (atomic_load(&stop) == 0) {
        /* It holds up to HOLD, and sends one of two. */
        const uint32_t answer = scq_lend(port, &held);
        if (answer == SCQ_OK && held.index % 2 == 0) {
            must("send", scq_send(port, held.index, 0, &place));
        } else if (scq_take(port, 0, &held) == SCQ_OK) {
            must("give_back", scq_give_back(port, held.index));
        } else {
            sched_yield();
        }
    }
    must("end", scq_end(port, &ended, &none, 0));
    if (ended.last) atomic_fetch_add(&last_ones, 1);
    scq_free(port);
    return NULL;
}

int main(void) {
    scq_port ports[THREADS] = {{0}};
    pthread_t threads[THREADS];
    must("open", scq_open(4, 1, 64, HOLD, SCQ_MAX_LIMIT, ports, THREADS));
    for (int i = 0; i < THREADS; i++) {
        if (pthread_create(&threads[i], NULL, work, &ports[i]) != 0) return 1;
    }
    usleep(20000); /* they are at work */
    atomic_store(&stop, 1);
    for (int i = 0; i < THREADS; i++) pthread_join(threads[i], NULL);
    printf("%d threads stopped; told that it was the last: %d\n", THREADS, atomic_load(&last_ones));
    return atomic_load(&last_ones) != 1;
}
