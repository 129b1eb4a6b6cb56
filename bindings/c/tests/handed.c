/* A port that goes from thread to thread: by starts and joins, and through a lock; and ports that
 * are closed elsewhere than they were opened. Each thread takes the number that the one before has
 * sent, and sends the next. */
#include "scq.h"

#include "check.h"

#include <pthread.h>
#include <string.h>

enum { HANDS = 64, TURNS = 10000, PLAYERS = 4 };

static uint64_t next_one(scq_port *port) {
    scq_held held;
    uint64_t number, place;
    CHECK(scq_take(port, 0, &held) == SCQ_OK);
    memcpy(&number, held.at, 8);
    number++;
    memcpy(held.at, &number, 8);
    CHECK(scq_send(port, held.index, 0, &place) == SCQ_OK);
    return number;
}

static void *one_turn(void *port) {
    next_one(port);
    return NULL;
}

/* A port behind a lock, which whoever has the lock uses. */
struct table {
    pthread_mutex_t lock;
    scq_port port;
    uint64_t number;
};

static void *many_turns(void *handed) {
    struct table *table = handed;
    for (int turn = 0; turn < TURNS; turn++) {
        CHECK(pthread_mutex_lock(&table->lock) == 0);
        const uint64_t number = next_one(&table->port);
        CHECK(number == table->number + 1);
        table->number = number;
        CHECK(pthread_mutex_unlock(&table->lock) == 0);
    }
    return NULL;
}

static void *close_it(void *port) {
    CHECK(scq_close(port) == SCQ_OK);
    return NULL;
}

static void start(scq_port *port) {
    scq_held held;
    uint64_t place;
    CHECK(scq_lend(port, &held) == SCQ_OK);
    memset(held.at, 0, held.len);
    CHECK(scq_send(port, held.index, 0, &place) == SCQ_OK);
}

int main(void) {
    scq_port ports[2] = {SCQ_NONE, SCQ_NONE};
    pthread_t threads[PLAYERS];
    CHECK(scq_open(2, 1, 8, 1, SCQ_MAX_LIMIT, ports, 2) == SCQ_OK);
    start(&ports[0]);
    for (int hand = 0; hand < HANDS; hand++) {
        CHECK(pthread_create(&threads[0], NULL, one_turn, &ports[hand % 2]) == 0);
        CHECK(pthread_join(threads[0], NULL) == 0);
    }
    CHECK(next_one(&ports[0]) == HANDS + 1);

    struct table table = {PTHREAD_MUTEX_INITIALIZER, ports[1], HANDS + 1};
    ports[1].at = NULL;
    for (int i = 0; i < PLAYERS; i++)
        CHECK(pthread_create(&threads[i], NULL, many_turns, &table) == 0);
    for (int i = 0; i < PLAYERS; i++) CHECK(pthread_join(threads[i], NULL) == 0);
    CHECK(table.number == HANDS + 1 + PLAYERS * TURNS);

    CHECK(pthread_create(&threads[0], NULL, close_it, &ports[0]) == 0);
    CHECK(pthread_create(&threads[1], NULL, close_it, &table.port) == 0);
    for (int i = 0; i < 2; i++) CHECK(pthread_join(threads[i], NULL) == 0);
    CHECK(ports[0].at == NULL && table.port.at == NULL);
    printf("%d hands, and %d turns of %d threads\n", HANDS, TURNS, PLAYERS);
    return 0;
}
