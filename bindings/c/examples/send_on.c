/* Send on what you took: a stage that changes a message changes it where it lies, and sends the
 * same buffer on. That is a take and a send, in place of a take, a lend, a copy, a send and a
 * give-back.
 *
 *     cc -pthread -I.. send_on.c libscq.a -o send_on
 */
#include "scq.h"

#include <inttypes.h>
#include <pthread.h>
#include <sched.h>
#include <stdio.h>
#include <stdlib.h>
#include <string.h>

enum { RAW, SQUARED, TOPICS };
#ifndef LAST
#define LAST 100000
#endif

static void must(const char *call, uint32_t answer) {
    if (answer == SCQ_OK) return;
    fprintf(stderr, "%s: %s\n", call, scq_text(answer));
    exit(1);
}

/* Takes from a topic, once there is something on it. */
static void take(scq_port *port, uint32_t topic, scq_held *held) {
    uint32_t answer;
    while ((answer = scq_take(port, topic, held)) == SCQ_EMPTY) sched_yield();
    must("take", answer);
}

static void *square_all(void *port) {
    scq_held held;
    uint64_t number, place;
    for (int i = 0; i < LAST; i++) {
        take(port, RAW, &held);
        memcpy(&number, held.at, sizeof number);
        number *= number;
        memcpy(held.at, &number, sizeof number);
        must("send", scq_send(port, held.index, SQUARED, &place));
    }
    return NULL;
}

static void *send_all(void *port) {
    scq_held held;
    uint64_t place;
    uint32_t answer;
    for (uint64_t number = 1; number <= LAST; number++) {
        while ((answer = scq_lend(port, &held)) == SCQ_FULL) sched_yield();
        must("lend", answer);
        memcpy(held.at, &number, sizeof number);
        must("send", scq_send(port, held.index, RAW, &place));
    }
    return NULL;
}

int main(void) {
    scq_port ports[3] = {SCQ_NONE, SCQ_NONE, SCQ_NONE};
    pthread_t threads[2];
    scq_held held;
    uint64_t number, sum = 0;
    must("open", scq_open(4, TOPICS, sizeof number, 1, SCQ_MAX_LIMIT, ports, 3));
    if (pthread_create(&threads[0], NULL, send_all, &ports[0]) != 0) return 1;
    if (pthread_create(&threads[1], NULL, square_all, &ports[1]) != 0) return 1;
    for (int i = 0; i < LAST; i++) {
        take(&ports[2], SQUARED, &held);
        memcpy(&number, held.at, sizeof number);
        sum += number;
        must("give_back", scq_give_back(&ports[2], held.index));
    }
    for (int i = 0; i < 2; i++) pthread_join(threads[i], NULL);
    for (int i = 0; i < 3; i++) scq_close(&ports[i]);
    printf("the squares of the numbers from 1 to %d are %" PRIu64 " together\n", LAST, sum);
    return 0;
}
