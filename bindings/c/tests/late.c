/* A message that is written once more after it was sent: a race that tools which watch threads have
 * to report, whatever they are told of the library.
 */
#include "scq.h"

#include "check.h"

#include <pthread.h>
#include <sched.h>
#include <string.h>

static void *take_one(void *port) {
    scq_held held;
    uint32_t answer;
    while ((answer = scq_take(port, 0, &held)) == SCQ_EMPTY) sched_yield();
    CHECK(answer == SCQ_OK);
    CHECK(held.at[0] == 'm' || held.at[0] == 'M');
    CHECK(scq_give_back(port, held.index) == SCQ_OK);
    return NULL;
}

int main(void) {
    scq_port ports[2] = {SCQ_NONE, SCQ_NONE};
    scq_held held;
    uint64_t place;
    pthread_t thread;
    CHECK(scq_open(2, 1, 64, 1, SCQ_MAX_LIMIT, ports, 2) == SCQ_OK);
    CHECK(pthread_create(&thread, NULL, take_one, &ports[1]) == 0);
    CHECK(scq_lend(&ports[0], &held) == SCQ_OK);
    strcpy((char *)held.at, "message");
    CHECK(scq_send(&ports[0], held.index, 0, &place) == SCQ_OK);
    held.at[0] = 'M';
    CHECK(pthread_join(thread, NULL) == 0);
    CHECK(scq_close(&ports[0]) == SCQ_OK && scq_close(&ports[1]) == SCQ_OK);
    return puts("nobody said anything") < 0;
}
