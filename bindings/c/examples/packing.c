/* Several small messages in one buffer: a sender packs messages until one doesn't fit, and then
 * sends them all at once; a taker goes through those of a buffer. So the queue's two calls are paid
 * once for a buffer, and not for each message.
 *
 *     cc -pthread -I.. packing.c libscq.a -o packing
 */
#include "scq.h"

#include <pthread.h>
#include <sched.h>
#include <stdio.h>
#include <stdlib.h>
#include <string.h>

#ifndef LAST
#define LAST 1000000
#endif
enum { SIZE = 2048 };

static void must(const char *call, uint32_t answer) {
    if (answer == SCQ_OK) return;
    fprintf(stderr, "%s: %s\n", call, scq_text(answer));
    exit(1);
}

static void lend(scq_port *port, scq_held *held) {
    uint32_t answer;
    while ((answer = scq_lend(port, held)) == SCQ_FULL) sched_yield();
    must("lend", answer);
    scq_pack_begin(held);
}

static void *send_all(void *port) {
    scq_held held;
    uint64_t place;
    char message[32];
    lend(port, &held);
    for (int number = 1; number <= LAST; number++) {
        const size_t len = (size_t)snprintf(message, sizeof message, "message %d", number);
        if (scq_pack(&held, message, len)) continue;
        must("send", scq_send(port, held.index, 0, &place));
        lend(port, &held);
        if (!scq_pack(&held, message, len)) exit(1); /* it is larger than a buffer */
    }
    must("send", scq_send(port, held.index, 0, &place));
    return NULL;
}

int main(void) {
    scq_port ports[2] = {SCQ_NONE, SCQ_NONE};
    pthread_t sender;
    scq_held held;
    int messages = 0, buffers = 0;
    must("open", scq_open(4, 1, SIZE, 1, SCQ_MAX_LIMIT, ports, 2));
    if (pthread_create(&sender, NULL, send_all, &ports[0]) != 0) return 1;
    while (messages < LAST) {
        const uint32_t answer = scq_take(&ports[1], 0, &held);
        if (answer == SCQ_EMPTY) {
            sched_yield();
            continue;
        }
        must("take", answer);
        const unsigned char *at;
        size_t next = 0, len;
        while (scq_unpack(&held, &next, &at, &len)) {
            char wanted[32];
            const int all = snprintf(wanted, sizeof wanted, "message %d", ++messages);
            if ((size_t)all != len || memcmp(wanted, at, len) != 0) return 1;
        }
        must("give_back", scq_give_back(&ports[1], held.index));
        buffers++;
    }
    pthread_join(sender, NULL);
    scq_close(&ports[0]);
    scq_close(&ports[1]);
    printf("%d messages came in %d buffers\n", messages, buffers);
    return 0;
}
