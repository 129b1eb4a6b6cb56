/* A stock of buffers in each thread that both sends and takes: what it took it keeps for its next
 * send, and doesn't give back; it is lent one only where its stock is empty. A message then costs
 * two calls and not four.
 *
 * What that costs: a lend is answered SCQ_FULL while buffers lie idle in stocks. So there are
 * buffers for all stocks, ports times STOCK, and twice as many more, so that two thirds of all go
 * round. And a thread gives its stock back before it waits, by a bell or otherwise, before it
 * retires, and before it closes its port, which gives back by itself.
 *
 *     cc -pthread -I.. stock_of_buffers.c libscq.a -o stock_of_buffers
 */
#include "scq.h"

#include <inttypes.h>
#include <pthread.h>
#include <sched.h>
#include <stdio.h>
#include <stdlib.h>
#include <string.h>

enum { THREADS = 4, STOCK = 16, ORDER = 8, EACH = 20000 };

/* The stocks are a third of the buffers at most. */
typedef char stocks_are_small[3 * THREADS * STOCK <= 1 << ORDER ? 1 : -1];

typedef struct worker {
    scq_port port;
    scq_held stock[STOCK];
    size_t in_stock;
    uint64_t sum, lent;
} worker;

static uint64_t taken;

static void must(const char *call, uint32_t answer) {
    if (answer == SCQ_OK) return;
    fprintf(stderr, "%s: %s\n", call, scq_text(answer));
    exit(1);
}

/* A buffer out of the stock, or one that is lent. */
static uint32_t get(worker *me, scq_held *held) {
    if (me->in_stock == 0) {
        me->lent++;
        return scq_lend(&me->port, held);
    }
    *held = me->stock[--me->in_stock];
    held->begun = 0; /* for scq_pack: as of one that is lent */
    return SCQ_OK;
}

/* One that was taken goes to the stock, or back where that is full. */
static void put_by(worker *me, const scq_held *held) {
    if (me->in_stock < STOCK)
        me->stock[me->in_stock++] = *held;
    else
        must("give_back", scq_give_back(&me->port, held->index));
}

/* The whole stock goes back. */
static void give_back_stock(worker *me) {
    size_t done;
    must("give_back", scq_give_back_many(&me->port, me->stock, me->in_stock, &done));
    me->in_stock = 0;
}

/* Each thread sends its numbers, and takes what comes, until all were taken. */
static void *work(void *of) {
    worker *const me = (worker *)of;
    uint64_t sent = 0;
    while (__atomic_load_n(&taken, __ATOMIC_SEQ_CST) < THREADS * EACH) {
        scq_held held;
        uint64_t number = sent + 1, place;
        uint32_t answer;
        int is_idle = 1;
        if (sent < EACH && (answer = get(me, &held)) != SCQ_FULL) {
            must("lend", answer);
            memcpy(held.at, &number, sizeof number);
            must("send", scq_send(&me->port, held.index, 0, &place));
            sent++;
            is_idle = 0;
        }
        if ((answer = scq_take(&me->port, 0, &held)) != SCQ_EMPTY) {
            must("take", answer);
            memcpy(&number, held.at, sizeof number);
            me->sum += number;
            put_by(me, &held);
            __atomic_add_fetch(&taken, 1, __ATOMIC_SEQ_CST);
            is_idle = 0;
        }
        if (is_idle) {
            give_back_stock(me); /* before it waits */
            sched_yield();
        }
    }
    must("close", scq_close(&me->port)); /* which gives back what is in the stock */
    return NULL;
}

int main(void) {
    static worker workers[THREADS];
    scq_port ports[THREADS] = {SCQ_NONE, SCQ_NONE, SCQ_NONE, SCQ_NONE};
    pthread_t threads[THREADS];
    uint64_t sum = 0, lent = 0;
    /* A port may hold its stock, and a buffer that it is at work with. */
    must("open", scq_open(ORDER, 1, sizeof(uint64_t), STOCK + 1, SCQ_MAX_LIMIT, ports, THREADS));
    for (int i = 0; i < THREADS; i++) {
        workers[i].port = ports[i];
        if (pthread_create(&threads[i], NULL, work, &workers[i]) != 0) return 1;
    }
    for (int i = 0; i < THREADS; i++) {
        pthread_join(threads[i], NULL);
        sum += workers[i].sum;
        lent += workers[i].lent;
    }
    printf("%d messages, of which %" PRIu64 " asked for a lend\n", THREADS * EACH, lent);
    return sum != (uint64_t)THREADS * EACH * (EACH + 1) / 2;
}
