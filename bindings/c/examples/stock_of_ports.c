/* More threads than ports: a stock of open ports, behind a lock. A thread gets one, makes its
 * calls, and puts it back; it isn't closed, as a port that is closed can't be opened again. The
 * lock also orders memory, so that the port may go from thread to thread.
 *
 *     cc -pthread -I.. stock_of_ports.c libscq.a -o stock_of_ports
 */
#include "scq.h"

#include <inttypes.h>
#include <pthread.h>
#include <stdio.h>
#include <stdlib.h>
#include <string.h>

enum { PORTS = 3, THREADS = 20, EACH = 100 };

static scq_port stock[PORTS];
static size_t in_stock;
static pthread_mutex_t lock = PTHREAD_MUTEX_INITIALIZER;
static pthread_cond_t came_back = PTHREAD_COND_INITIALIZER;

static void must(const char *call, uint32_t answer) {
    if (answer == SCQ_OK) return;
    fprintf(stderr, "%s: %s\n", call, scq_text(answer));
    exit(1);
}

/* A port out of the stock, once there is one. It is moved: its old place isn't used. */
static scq_port get(void) {
    pthread_mutex_lock(&lock);
    while (in_stock == 0) pthread_cond_wait(&came_back, &lock);
    const scq_port port = stock[--in_stock];
    pthread_mutex_unlock(&lock);
    return port;
}

static void put(const scq_port *port) {
    pthread_mutex_lock(&lock);
    stock[in_stock++] = *port;
    pthread_cond_signal(&came_back);
    pthread_mutex_unlock(&lock);
}

/* Each thread sends a number and takes one. */
static void *work(void *sum) {
    for (uint64_t i = 1; i <= EACH; i++) {
        scq_port port = get();
        scq_held held;
        uint64_t number = i, place;
        must("lend", scq_lend(&port, &held));
        memcpy(held.at, &number, sizeof number);
        must("send", scq_send(&port, held.index, 0, &place));
        must("take", scq_take(&port, 0, &held));
        memcpy(&number, held.at, sizeof number);
        must("give_back", scq_give_back(&port, held.index));
        put(&port);
        *(uint64_t *)sum += number;
    }
    return NULL;
}

int main(void) {
    pthread_t threads[THREADS];
    uint64_t sums[THREADS] = {0}, sum = 0;
    must("open", scq_open(4, 1, sizeof(uint64_t), 1, SCQ_MAX_LIMIT, stock, PORTS));
    in_stock = PORTS;
    for (int i = 0; i < THREADS; i++) {
        if (pthread_create(&threads[i], NULL, work, &sums[i]) != 0) return 1;
    }
    for (int i = 0; i < THREADS; i++) {
        pthread_join(threads[i], NULL);
        sum += sums[i];
    }
    for (int i = 0; i < PORTS; i++) scq_close(&stock[i]);
    printf("%d threads took turns with %d ports: %" PRIu64 "\n", THREADS, PORTS, sum);
    return sum != (uint64_t)THREADS * EACH * (EACH + 1) / 2;
}
