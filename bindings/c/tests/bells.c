/* bells HANDS THREADS SECONDS SEED: hand-overs by a bell, in three ways, of which one has to come
 * in each so many seconds. In a ring of threads each takes from a topic of its own and sends on the
 * next one's, with as many tokens as the seed says, so that most of them sleep: where one wake is
 * lost all stop. Then senders and takers share topics over few buffers, so that they wait for
 * buffers too; the takers wait for one topic, for several, with and without an end of time; each
 * message has to come once. Then in each of many rounds three threads wait, for a topic, for another, and for either,
 * and two messages have to come to two of them.
 *
 * Compiled with -DPAUSES it pauses at random before each atomic step of the bell, before each call
 * of the queue and before each call of the system, so that these meet in every order. With
 * -DRETIRES the senders' topics end as all ports retire, and not by a counter. */
#include "scq.h"

#ifdef PAUSES
#include <sys/syscall.h>
static void pause_here(void);
#define __atomic_load_n(...) (pause_here(), __atomic_load_n(__VA_ARGS__))
#define __atomic_add_fetch(...) (pause_here(), __atomic_add_fetch(__VA_ARGS__))
#define __atomic_exchange_n(...) (pause_here(), __atomic_exchange_n(__VA_ARGS__))
#define __atomic_store_n(...) (pause_here(), __atomic_store_n(__VA_ARGS__))
#define __atomic_or_fetch(...) (pause_here(), __atomic_or_fetch(__VA_ARGS__))
#define __atomic_compare_exchange_n(...) (pause_here(), __atomic_compare_exchange_n(__VA_ARGS__))
static inline uint32_t paused_lend(scq_port *port, scq_held *out) {
    pause_here();
    return scq_lend(port, out);
}
static inline uint32_t paused_take(scq_port *port, uint32_t topic, scq_held *out) {
    pause_here();
    return scq_take(port, topic, out);
}
static inline uint32_t paused_send(scq_port *port, uint32_t index, uint32_t topic,
                                   uint64_t *place) {
    pause_here();
    return scq_send(port, index, topic, place);
}
static inline uint32_t paused_give_back(scq_port *port, uint32_t index) {
    pause_here();
    return scq_give_back(port, index);
}
#undef scq_lend
#undef scq_take
#undef scq_send
#undef scq_give_back
#define scq_lend paused_lend
#define scq_take paused_take
#define scq_send paused_send
#define scq_give_back paused_give_back
#undef SYS_futex
#define SYS_futex (pause_here(), __NR_futex)
#endif

#include "scq_bell.h"

#include "check.h"

#include <pthread.h>
#include <sched.h>
#include <semaphore.h>
#include <signal.h>
#include <time.h>
#include <unistd.h>

enum { MOST = 64 };

static scq_bell bell;
static scq_port ports[2 * MOST];
static uint64_t hands, seed;
static uint32_t threads, topics;

/* How many hand-overs there were, in each of the three ways. */
static uint64_t handed, drawn, taken_of_all;

/* Looks each so many seconds whether there were any since. */
static uint64_t seen_before;
static unsigned seconds;

static void look(int signal) {
    static const char text[] = "it hangs\n";
    const uint64_t seen = __sync_add_and_fetch(&handed, 0) + __sync_add_and_fetch(&drawn, 0) +
                          __sync_add_and_fetch(&taken_of_all, 0);
    (void)signal;
    if (seen == seen_before) {
        if (write(2, text, sizeof text - 1) < 0) _exit(4);
        _exit(3);
    }
    seen_before = seen;
    alarm(seconds);
}

/* Numbers of a thread's own, by xorshift. */
static uint64_t next(uint64_t *state) {
    *state ^= *state << 13;
    *state ^= *state >> 7;
    *state ^= *state << 17;
    return *state;
}

#ifdef PAUSES
static void pause_here(void) {
    static _Thread_local uint64_t state;
    static uint64_t states;
    const struct timespec shortly = {0, 1};
    if (state == 0) state = seed * 1000 + __sync_add_and_fetch(&states, 1);
    switch (next(&state) % 32) {
    case 0: nanosleep(&shortly, NULL); break;
    case 1:
    case 2: sched_yield(); break;
    default: break;
    }
}
#endif

static void run_all(void *(*const *runs)(void *), uint32_t count) {
    pthread_t ids[2 * MOST];
    static uint32_t numbers[2 * MOST];
    for (uint32_t i = 0; i < count; i++) {
        numbers[i] = i;
        CHECK(pthread_create(&ids[i], NULL, runs[i], &numbers[i]) == 0);
    }
    for (uint32_t i = 0; i < count; i++) CHECK(pthread_join(ids[i], NULL) == 0);
}

/* -- A ring of threads: what is on its way at the end stays on the topics -------------------------
 */

static scq_watch watches[MOST];
static sem_t flags[MOST];

static void post(void *flag) { CHECK(sem_post(flag) == 0); }

/* Takes by a watch, which posts what the thread waits for. */
static uint32_t take_watched(scq_watch *watch, uint32_t own, scq_held *held) {
    for (;;) {
        scq_bell_arm(&bell, watch, scq_line(own));
        const int has_ended = scq_bell_have_ended(&bell, scq_line(own));
        const uint32_t answer = scq_take(&ports[own], own, held);
        if (answer != SCQ_EMPTY || has_ended) {
            if (!scq_bell_disarm(&bell, watch)) CHECK(sem_wait(watch->with) == 0);
            return answer == SCQ_EMPTY ? (uint32_t)SCQ_ENDED : answer;
        }
        CHECK(sem_wait(watch->with) == 0);
    }
}

/* Each third thread takes by a watch. */
static void *hands_on(void *handed_over) {
    const uint32_t own = *(const uint32_t *)handed_over;
    sem_t *flag = &flags[own];
    scq_watch *watch = &watches[own];
    uint64_t place;
    scq_held held;
    *watch = (scq_watch){post, flag, 0, NULL};
    CHECK(sem_init(flag, 0, 0) == 0);
    scq_bell_watch(&bell, watch);
    for (;;) {
        const uint32_t answer = own % 3 == 1
                                    ? take_watched(watch, own, &held)
                                    : scq_bell_take(&bell, &ports[own], own, SCQ_FOREVER, &held);
        if (answer == SCQ_ENDED) return NULL;
        CHECK(answer == SCQ_OK);
        if (__atomic_add_fetch(&handed, 1, __ATOMIC_RELAXED) >= hands) {
            scq_bell_finish(&bell, scq_all_lines());
            CHECK(scq_bell_give_back(&bell, &ports[own], held.index) == SCQ_OK);
            return NULL;
        }
        const uint32_t sent =
            scq_bell_send(&bell, &ports[own], held.index, (own + 1) % threads, &place);
        if (sent == SCQ_ENDED)
            CHECK(scq_bell_give_back(&bell, &ports[own], held.index) == SCQ_OK);
        else
            CHECK(sent == SCQ_OK);
    }
}

static void ring_of_threads(void) {
    void *(*runs[MOST])(void *);
    const uint32_t tokens = 1 + (uint32_t)(seed % threads);
    uint64_t place;
    scq_held held;
    if (threads > 17) threads = 17;
    CHECK(scq_bell_init(&bell) == SCQ_OK);
    CHECK(scq_open(6, threads, 8, 1, SCQ_MAX_LIMIT, ports, threads) == SCQ_OK);
    for (uint32_t i = 0; i < tokens; i++) {
        CHECK(scq_lend(&ports[0], &held) == SCQ_OK);
        CHECK(scq_send(&ports[0], held.index, i % threads, &place) == SCQ_OK);
    }
    for (uint32_t i = 0; i < threads; i++) runs[i] = hands_on;
    run_all(runs, threads);
    CHECK(handed >= hands);
    for (uint32_t i = 0; i < threads; i++) CHECK(scq_bell_close(&bell, &ports[i]) == SCQ_OK);
    for (uint32_t i = 0; i < SCQ_LINES; i++) CHECK(bell.line[i].inside == 0);
    scq_bell_free(&bell);
}

/* -- Senders and takers --------------------------------------------------------------------------
 */

static uint32_t senders, senders_left;
static unsigned char *came;

/* What a message is. It is written and read as an atomic, as a checker of races doesn't see into
 * the library, which orders the two. */
static uint64_t *number_in(const scq_held *held) { return (void *)held->at; }

static void *sends(void *handed_over) {
    const uint32_t own = *(const uint32_t *)handed_over;
    scq_port *port = &ports[own];
    uint64_t state = seed * 1000 + own + 1, place, number;
    scq_held held;
    while ((number = __atomic_fetch_add(&drawn, 1, __ATOMIC_RELAXED)) < hands) {
        uint32_t answer;
        if (next(&state) % 8 == 0) sched_yield();
        const uint64_t most = (seed & own) % 2 ? next(&state) % 100000 : SCQ_FOREVER;
        while ((answer = scq_bell_lend(&bell, port, most, &held)) == SCQ_FULL)
            CHECK(most != SCQ_FOREVER);
        CHECK(answer == SCQ_OK);
        __atomic_store_n(number_in(&held), number, __ATOMIC_RELAXED);
        const uint32_t topic = (uint32_t)(next(&state) % topics);
        CHECK(scq_bell_send(&bell, port, held.index, topic, &place) == SCQ_OK);
    }
    CHECK(scq_bell_close(&bell, port) == SCQ_OK);
#ifndef RETIRES
    if (__atomic_sub_fetch(&senders_left, 1, __ATOMIC_SEQ_CST) == 0)
        scq_bell_finish(&bell, scq_topics(topics));
#endif
    return NULL;
}

static void *takes(void *handed_over) {
    const uint32_t own = *(const uint32_t *)handed_over, role = (own - senders) % 3;
    scq_port *port = &ports[own];
    uint64_t state = seed * 1000 + own + 1, number;
    scq_held held = {NULL, 0, 0, 0, 0};
#ifdef RETIRES
    CHECK(scq_bell_retire(&bell, port) == SCQ_OK);
#endif
    for (;;) {
        uint32_t answer, topic = own % topics;
        const scq_lines lines = scq_topics(topics);
        const uint64_t most = role == 2 ? next(&state) % 100000 : SCQ_FOREVER;
        if (role == 1) /* the first taker waits for all topics */
            answer = scq_bell_take(&bell, port, topic, most, &held);
        else
            answer = scq_bell_take_any(&bell, port, lines, most, &topic, &held);
        if (answer == SCQ_ENDED) break;
        if (answer == SCQ_EMPTY && most != SCQ_FOREVER) continue;
        CHECK(answer == SCQ_OK && topic < topics);
        number = __atomic_load_n(number_in(&held), __ATOMIC_RELAXED);
        CHECK(number < hands && __atomic_add_fetch(&came[number], 1, __ATOMIC_RELAXED) == 1);
        CHECK(scq_bell_give_back(&bell, port, held.index) == SCQ_OK);
        if (next(&state) % 16 == 0) sched_yield();
    }
    CHECK(scq_bell_close(&bell, port) == SCQ_OK);
    return NULL;
}

static void senders_and_takers(void) {
    void *(*runs[2 * MOST])(void *);
    const uint32_t order = 1 + (uint32_t)(seed % 3);
    senders = senders_left = 1 + threads / 2;
    topics = 1 + (uint32_t)(seed % 5);
    drawn = 0;
    CHECK((came = calloc(hands, 1)) != NULL);
    CHECK(scq_bell_init(&bell) == SCQ_OK);
    CHECK(scq_open(order, topics, 8, 1, SCQ_MAX_LIMIT, ports, senders + threads) == SCQ_OK);
    for (uint32_t i = 0; i < senders + threads; i++) runs[i] = i < senders ? sends : takes;
    run_all(runs, senders + threads);
    for (uint64_t i = 0; i < hands; i++) CHECK(came[i] == 1);
    for (uint32_t i = 0; i < SCQ_LINES; i++) CHECK(bell.line[i].inside == 0);
    scq_bell_free(&bell);
    free(came);
}

/* -- Rounds
 * ---------------------------------------------------------------------------------------- */

enum { ONE, OTHER };

static pthread_barrier_t begin;
static uint64_t rounds;

/* Waits for the lines of its number: both topics, or one. */
static void *takes_one(void *handed_over) {
    const uint32_t own = *(const uint32_t *)handed_over;
    const scq_lines lines =
        own == 2 ? scq_lines_both(scq_line(ONE), scq_line(OTHER)) : scq_line(own);
    uint32_t topic;
    scq_held held;
    for (uint64_t i = 0; i < rounds; i++) {
        pthread_barrier_wait(&begin);
        CHECK(scq_bell_take_any(&bell, &ports[own], lines, SCQ_FOREVER, &topic, &held) == SCQ_OK);
        CHECK(scq_bell_give_back(&bell, &ports[own], held.index) == SCQ_OK);
        __atomic_add_fetch(&taken_of_all, 1, __ATOMIC_SEQ_CST);
    }
    return NULL;
}

static void send_on(scq_port *port, uint32_t topic) {
    scq_held held;
    uint64_t place;
    CHECK(scq_bell_lend(&bell, port, SCQ_FOREVER, &held) == SCQ_OK);
    CHECK(scq_bell_send(&bell, port, held.index, topic, &place) == SCQ_OK);
}

static void wait_for(uint64_t taken) {
    while (__atomic_load_n(&taken_of_all, __ATOMIC_SEQ_CST) < taken) sched_yield();
}

/* Sends on a topic; the first of the two then has the third taker end too. */
static void *sends_one(void *handed_over) {
    const uint32_t own = *(const uint32_t *)handed_over, topic = own - 3;
    uint64_t state = seed * 1000 + own;
    for (uint64_t i = 0; i < rounds; i++) {
        uint32_t left;
        scq_held held;
        pthread_barrier_wait(&begin);
        if (next(&state) % 2) usleep((unsigned)(next(&state) % 60));
        send_on(&ports[own], topic);
        wait_for(3 * i + 2);
        if (topic == OTHER) continue;
        send_on(&ports[own], ONE);
        send_on(&ports[own], OTHER);
        wait_for(3 * i + 3);
        const scq_lines both = scq_lines_both(scq_line(ONE), scq_line(OTHER));
        CHECK(scq_bell_take_any(&bell, &ports[own], both, 0, &left, &held) == SCQ_OK);
        CHECK(scq_bell_give_back(&bell, &ports[own], held.index) == SCQ_OK);
    }
    return NULL;
}

static void rounds_of_three(void) {
    void *(*const runs[5])(void *) = {takes_one, takes_one, takes_one, sends_one, sends_one};
    rounds = hands / 20;
    CHECK(scq_bell_init(&bell) == SCQ_OK && pthread_barrier_init(&begin, NULL, 5) == 0);
    CHECK(scq_open(4, 2, 8, 1, SCQ_MAX_LIMIT, ports, 5) == SCQ_OK);
    run_all(runs, 5);
    for (uint32_t i = 0; i < 5; i++) CHECK(scq_bell_close(&bell, &ports[i]) == SCQ_OK);
    pthread_barrier_destroy(&begin);
    scq_bell_free(&bell);
}

int main(int count, char **words) {
    CHECK(count == 5);
    hands = strtoull(words[1], NULL, 10);
    threads = (uint32_t)strtoul(words[2], NULL, 10);
    seed = strtoull(words[4], NULL, 10);
    CHECK(threads >= 1 && threads <= MOST);
    seconds = (unsigned)strtoul(words[3], NULL, 10);
    signal(SIGALRM, look);
    alarm(seconds);
    ring_of_threads();
    senders_and_takers();
    rounds_of_three();
    const uint64_t all = handed + hands + taken_of_all;
    return printf("%llu hands of %s threads\n", (unsigned long long)all, words[2]) < 0;
}
