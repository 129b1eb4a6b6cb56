/* Calls that a user makes wrongly, or that meet what is merely unlucky: of each the answer is
 * clear, or the rule at the head of scq.h or scq_bell.h that makes it the caller's. Those that are
 * answered are made here, one after the other; a line says what became of each. Those of C++ are in
 * misuse.cpp.
 *
 *     misuse [CASE]
 */
#define _GNU_SOURCE
#include "scq.h"
#include "scq_bell.h"

#include "check.h"

#include <pthread.h>
#include <signal.h>
#include <stdio.h>
#include <stdlib.h>
#include <string.h>
#include <sys/time.h>
#include <sys/wait.h>
#include <time.h>
#include <unistd.h>

static scq_port p[4];
static scq_held h, g;
static uint64_t place;

static void open_n(uint32_t order, uint32_t topics, uint32_t size, uint32_t hold, size_t n) {
    CHECK(scq_open(order, topics, size, hold, SCQ_MAX_LIMIT, p, n) == SCQ_OK);
}

static void open_plain(void) { open_n(2, 2, 64, 2, 2); }

static void lend_one(void) { CHECK(scq_lend(&p[0], &h) == SCQ_OK); }

static void send_one(void) { CHECK(scq_send(&p[0], h.index, 0, &place) == SCQ_OK); }

/* Whether the queue still works; then it is closed. */
static void close_both(void) {
    CHECK(scq_lend(&p[0], &h) == SCQ_OK && scq_send(&p[0], h.index, 0, &place) == SCQ_OK);
    CHECK(scq_take(&p[1], 0, &g) == SCQ_OK && scq_give_back(&p[1], g.index) == SCQ_OK);
    CHECK(scq_close(&p[0]) == SCQ_OK && scq_close(&p[1]) == SCQ_OK);
}

/* -- ports
 * ------------------------------------------------------------------------------------------ */

static void zero_port_lend(void) {
    CHECK(scq_lend(&p[0], &h) == SCQ_CLOSED && h.at == NULL && h.len == 0);
}

static void open_twice(void) {
    open_plain();
    CHECK(scq_open(2, 1, 64, 1, SCQ_MAX_LIMIT, p, 2) == SCQ_IS_OPEN);
    close_both();
}

static void close_twice(void) {
    open_plain();
    CHECK(scq_close(&p[0]) == SCQ_OK && scq_close(&p[0]) == SCQ_CLOSED);
    CHECK(scq_close(&p[1]) == SCQ_OK);
}

static void call_after_close(void) {
    scq_counts counts;
    open_plain();
    CHECK(scq_close(&p[0]) == SCQ_OK);
    CHECK(scq_lend(&p[0], &h) == SCQ_CLOSED && scq_take(&p[0], 0, &h) == SCQ_CLOSED);
    CHECK(scq_send(&p[0], 0, 0, &place) == SCQ_CLOSED && scq_give_back(&p[0], 0) == SCQ_CLOSED);
    CHECK(scq_counts_of(&p[0], &counts) == SCQ_CLOSED && scq_spent(&p[0], &place) == SCQ_CLOSED);
    CHECK(scq_close(&p[1]) == SCQ_OK);
}

static void moved_port(void) {
    open_plain();
    scq_port q = p[0];
    p[0] = SCQ_NONE;
    CHECK(scq_lend(&q, &h) == SCQ_OK && scq_lend(&p[0], &h) == SCQ_CLOSED);
    CHECK(scq_close(&q) == SCQ_OK && scq_close(&p[1]) == SCQ_OK);
}

static void closed_with_messages(void) {
    scq_ended ended;
    scq_counts counts[2];
    open_plain();
    lend_one(), send_one();
    CHECK(scq_end(&p[1], &ended, counts, 2) == SCQ_OK && ended.last == 0);
    scq_free(&p[1]);
    /* The message goes with the queue. */
    CHECK(scq_end(&p[0], &ended, counts, 2) == SCQ_OK && ended.last == 1 && counts[0].sent == 1);
    scq_free(&p[0]);
}

/* -- indices
 * ---------------------------------------------------------------------------------------- */

static void send_not_held(void) {
    open_plain();
    CHECK(scq_send(&p[0], 1, 0, &place) == SCQ_NOT_HELD);
    close_both();
}

static void send_bad_index(void) {
    open_plain();
    CHECK(scq_send(&p[0], UINT32_MAX, 0, &place) == SCQ_NOT_HELD);
    CHECK(scq_send(&p[0], 4, 0, &place) == SCQ_NOT_HELD);
    CHECK(scq_give_back(&p[0], 65536) == SCQ_NOT_HELD);
    close_both();
}

static void send_twice(void) {
    open_plain();
    lend_one(), send_one();
    CHECK(scq_send(&p[0], h.index, 0, &place) == SCQ_NOT_HELD);
    CHECK(scq_take(&p[1], 0, &g) == SCQ_OK && scq_give_back(&p[1], g.index) == SCQ_OK);
    close_both();
}

static void send_by_other_port(void) {
    open_plain();
    lend_one();
    CHECK(scq_send(&p[1], h.index, 0, &place) == SCQ_NOT_HELD);
    CHECK(scq_give_back(&p[0], h.index) == SCQ_OK);
    close_both();
}

static void send_to_other_queue(void) {
    open_plain();
    lend_one();
    strcpy((char *)h.at, "of queue A");
    CHECK(scq_open(2, 1, 64, 2, SCQ_MAX_LIMIT, &p[2], 2) == SCQ_OK);
    CHECK(scq_send(&p[2], h.index, 0, &place) == SCQ_NOT_HELD);
    /* Where that port holds one of this number, its own goes. */
    CHECK(scq_lend(&p[2], &g) == SCQ_OK && g.index == h.index);
    strcpy((char *)g.at, "of queue B");
    CHECK(scq_send(&p[2], h.index, 0, &place) == SCQ_OK);
    CHECK(scq_take(&p[3], 0, &g) == SCQ_OK && strcmp((char *)g.at, "of queue B") == 0);
    CHECK(strcmp((char *)h.at, "of queue A") == 0);
    CHECK(scq_close(&p[2]) == SCQ_OK && scq_close(&p[3]) == SCQ_OK);
    close_both();
}

static void give_back_twice(void) {
    open_plain();
    lend_one();
    CHECK(scq_give_back(&p[0], h.index) == SCQ_OK);
    CHECK(scq_give_back(&p[0], h.index) == SCQ_NOT_HELD);
    close_both();
}

static void give_back_after_send(void) {
    open_plain();
    lend_one(), send_one();
    CHECK(scq_give_back(&p[0], h.index) == SCQ_NOT_HELD);
    CHECK(scq_take(&p[1], 0, &g) == SCQ_OK && scq_give_back(&p[1], g.index) == SCQ_OK);
    close_both();
}

/* An index is kept, and the port holds the same buffer again: it names that. */
static void stale_index_recycled(void) {
    scq_held now;
    open_n(1, 1, 64, 2, 2);
    lend_one(), send_one();
    CHECK(scq_take(&p[1], 0, &g) == SCQ_OK && scq_give_back(&p[1], g.index) == SCQ_OK);
    do CHECK(scq_lend(&p[0], &now) == SCQ_OK);
    while (now.index != h.index);
    CHECK(scq_give_back(&p[0], h.index) == SCQ_OK);
    CHECK(scq_send(&p[0], now.index, 0, &place) == SCQ_NOT_HELD);
    close_both();
}

/* -- bytes
 * ------------------------------------------------------------------------------------------ */

static void lend_unchecked_full(void) {
    open_n(1, 1, 64, 2, 2);
    for (int i = 0; i < 2; i++) {
        lend_one();
        snprintf((char *)h.at, h.len, "message %d", i);
        send_one();
    }
    /* Who doesn't look at the answer has no buffer to overwrite. */
    CHECK(scq_lend(&p[0], &h) == SCQ_FULL && h.at == NULL && h.len == 0);
    for (int i = 0; i < 2; i++) {
        char text[32];
        snprintf(text, sizeof text, "message %d", i);
        CHECK(scq_take(&p[1], 0, &g) == SCQ_OK && strcmp((char *)g.at, text) == 0);
        CHECK(scq_give_back(&p[1], g.index) == SCQ_OK);
    }
    CHECK(scq_take(&p[1], 0, &g) == SCQ_EMPTY && g.at == NULL && g.len == 0);
    close_both();
}

static void aligned_cast(void) {
    open_n(8, 1, 100, 64, 2);
    for (int i = 0; i < 64; i++) {
        lend_one();
        CHECK((uintptr_t)h.at % SCQ_CACHE_LINE == 0);
    }
    CHECK(scq_close(&p[0]) == SCQ_OK && scq_close(&p[1]) == SCQ_OK);
}

/* -- numbers
 * ---------------------------------------------------------------------------------------- */

static void topic_past(void) {
    open_plain();
    CHECK(scq_take(&p[0], 2, &h) == SCQ_NO_TOPIC);
    lend_one();
    CHECK(scq_send(&p[0], h.index, 2, &place) == SCQ_NO_TOPIC);
    CHECK(scq_send(&p[0], h.index, UINT32_MAX, &place) == SCQ_NO_TOPIC);
    CHECK(scq_send(&p[0], h.index, 1, &place) == SCQ_OK);
    close_both();
}

static void bad_numbers(void) {
    CHECK(scq_open(0, 1, 64, 1, SCQ_MAX_LIMIT, p, 1) == SCQ_BAD_ORDER);
    CHECK(scq_open(17, 1, 64, 1, SCQ_MAX_LIMIT, p, 1) == SCQ_BAD_ORDER);
    CHECK(scq_open(64, 1, 64, 1, SCQ_MAX_LIMIT, p, 1) == SCQ_BAD_ORDER);
    CHECK(scq_open(2, 0, 64, 1, SCQ_MAX_LIMIT, p, 1) == SCQ_BAD_TOPICS);
    CHECK(scq_open(2, 32, 64, 1, SCQ_MAX_LIMIT, p, 1) == SCQ_BAD_TOPICS);
    CHECK(scq_open(2, 1, 0, 1, SCQ_MAX_LIMIT, p, 1) == SCQ_BAD_SIZE);
    CHECK(scq_open(2, 1, 64, 0, SCQ_MAX_LIMIT, p, 1) == SCQ_BAD_HOLD);
    CHECK(scq_open(2, 1, 64, 5, SCQ_MAX_LIMIT, p, 1) == SCQ_BAD_HOLD);
    CHECK(scq_open(2, 1, 64, 1, 31, p, 1) == SCQ_BAD_LIMIT);
    CHECK(scq_open(2, 1, 64, 1, 0, p, 1) == SCQ_BAD_LIMIT);
    CHECK(scq_open(2, 1, 64, 1, SCQ_MAX_LIMIT + 1, p, 1) == SCQ_BAD_LIMIT);
    CHECK(scq_open(2, 1, 64, 1, SCQ_MAX_LIMIT, p, 0) == SCQ_BAD_PORTS);
    CHECK(scq_open(2, 1, 64, 1, SCQ_MAX_LIMIT, p, 4097) == SCQ_BAD_PORTS);
    CHECK(p[0].at == NULL);
}

/* No handle is read where there are too many: the array has one. */
static void ports_past_array_4097(void) {
    scq_port *const one = calloc(1, sizeof *one);
    CHECK(one != NULL && scq_open(2, 1, 64, 1, SCQ_MAX_LIMIT, one, (size_t)-1) == SCQ_BAD_PORTS);
    CHECK(scq_open(2, 1, 64, 1, SCQ_MAX_LIMIT, one, 4097) == SCQ_BAD_PORTS);
    free(one);
}

static void huge_size(void) {
    CHECK(scq_open(16, 1, UINT32_MAX, 1, SCQ_MAX_LIMIT, p, 1) == SCQ_NO_MEMORY && p[0].at == NULL);
}

static void no_room(void) {
    open_plain();
    lend_one(), lend_one();
    CHECK(scq_lend(&p[0], &g) == SCQ_NO_ROOM && scq_take(&p[0], 0, &g) == SCQ_NO_ROOM);
    CHECK(scq_give_back(&p[0], h.index) == SCQ_OK);
    close_both();
}

static void spent(void) {
    uint32_t answer = SCQ_OK;
    uint64_t ticket;
    CHECK(scq_open(1, 1, 8, 2, 16, p, 1) == SCQ_OK);
    while (answer == SCQ_OK) {
        answer = scq_lend(&p[0], &h);
        if (answer == SCQ_OK) answer = scq_give_back(&p[0], h.index);
    }
    CHECK(answer == SCQ_SPENT && scq_spent(&p[0], &ticket) == SCQ_SPENT && ticket >= 16);
    CHECK(scq_lend(&p[0], &g) == SCQ_SPENT && g.place == ticket && g.at == NULL);
    CHECK(scq_take(&p[0], 0, &g) == SCQ_SPENT && g.place == ticket);
    CHECK(scq_close(&p[0]) == SCQ_OK);
}

/* -- threads, processes and signals
 * ----------------------------------------------------------------- */

static void *hold_and_end(void *port) {
    scq_held held;
    CHECK(scq_lend(port, &held) == SCQ_OK);
    return NULL;
}

/* What a thread held that has ended is given back when its port is closed, by any thread. */
static void thread_exits_holding(void) {
    pthread_t thread;
    open_n(1, 1, 64, 2, 2);
    CHECK(pthread_create(&thread, NULL, hold_and_end, &p[0]) == 0);
    CHECK(pthread_join(thread, NULL) == 0);
    CHECK(scq_lend(&p[1], &g) == SCQ_OK && scq_lend(&p[1], &h) == SCQ_FULL);
    CHECK(scq_close(&p[0]) == SCQ_OK && scq_lend(&p[1], &g) == SCQ_OK);
    CHECK(scq_close(&p[1]) == SCQ_OK);
}

/* A process may end at any time, whatever its ports hold. */
static void exit_without_close(void) {
    int status;
    fflush(stdout);
    const pid_t child = fork();
    if (child == 0) {
        open_plain();
        lend_one();
        raise(SIGKILL);
    }
    CHECK(child > 0 && waitpid(child, &status, 0) == child);
    CHECK(WIFSIGNALED(status) && WTERMSIG(status) == SIGKILL);
}

static volatile sig_atomic_t ticks, wrong_ticks;

static void tick(int signal) {
    scq_held held;
    uint64_t at;
    (void)signal;
    ticks++;
    if (scq_lend(&p[1], &held) != SCQ_OK || scq_send(&p[1], held.index, 1, &at) != SCQ_OK) {
        wrong_ticks++;
    }
}

/* A signal handler has a port of its own. The next signal is asked for once the last has come, so
 * that each turn takes what the handler sent, however slow the machine is; and one has to come. */
static void signal_other_port(void) {
    const struct itimerval once = {{0, 0}, {0, 200}}, off = {{0, 0}, {0, 0}};
    struct sigaction action;
    struct timespec from, now;
    sig_atomic_t seen = -1;
    memset(&action, 0, sizeof action);
    action.sa_handler = tick;
    action.sa_flags = SA_RESTART;
    CHECK(sigaction(SIGALRM, &action, NULL) == 0);
    open_n(6, 2, 64, 4, 2);
    CHECK(clock_gettime(CLOCK_MONOTONIC, &from) == 0);
    do {
        if (seen != ticks) {
            seen = ticks;
            CHECK(setitimer(ITIMER_REAL, &once, NULL) == 0);
        }
        lend_one(), send_one();
        CHECK(scq_take(&p[0], 0, &g) == SCQ_OK && scq_give_back(&p[0], g.index) == SCQ_OK);
        while (scq_take(&p[0], 1, &g) == SCQ_OK) CHECK(scq_give_back(&p[0], g.index) == SCQ_OK);
        CHECK(clock_gettime(CLOCK_MONOTONIC, &now) == 0);
    } while (ticks == 0 ||
             (now.tv_sec - from.tv_sec) * 1000 + (now.tv_nsec - from.tv_nsec) / 1000000 < 100);
    CHECK(setitimer(ITIMER_REAL, &off, NULL) == 0);
    action.sa_handler = SIG_IGN; /* also where one is on its way */
    CHECK(sigaction(SIGALRM, &action, NULL) == 0);
    CHECK(wrong_ticks == 0);
    close_both();
}

static void header_of_other_version(void) { CHECK(scq_version() == SCQ_VERSION); }

/* -- what is handed over
 * ------------------------------------------------------------------------------------------ */

static void send_null_place(void) {
    open_plain();
    lend_one();
    CHECK(scq_send(&p[0], h.index, 0, NULL) == SCQ_OK);
    CHECK(scq_take(&p[1], 0, &g) == SCQ_OK && scq_give_back(&p[1], g.index) == SCQ_OK);
    close_both();
}

/* What stood in a buffer isn't sent again. */
static void pack_without_begin(void) {
    const unsigned char *at;
    size_t len, next = 0;
    open_n(1, 1, 64, 1, 2);
    for (int i = 0; i < 4; i++) {
        lend_one();
        CHECK(scq_pack(&h, "new", 4) == 1 && scq_pack(&h, "one", 4) == 1);
        send_one();
        CHECK(scq_take(&p[1], 0, &g) == SCQ_OK);
        for (next = 0, len = 0; scq_unpack(&g, &next, &at, &len);) CHECK(len == 4);
        CHECK(next == 4 + 2 * 8 && scq_give_back(&p[1], g.index) == SCQ_OK);
    }
    close_both();
}

static void memory_block_unset(void) {
    static unsigned char bytes[4 * 64];
    scq_memory memory;
    memset(&memory, 0xA5, sizeof memory); /* what stands on a stack */
    memory.base = bytes;
    memory.stride = memory.len = 64;
    CHECK(scq_open_over(2, 1, 1, SCQ_MAX_LIMIT, &memory, p, 2) == SCQ_OK);
    close_both();
}

/* The third number of an opening is its size or what a port may hold: names tell them apart. */
static void size_for_hold(void) {
    CHECK(scq_open_with(&(scq_options){.order = 2, .size = 100, .hold = 3}, p, 2) == SCQ_OK);
    CHECK(scq_lend(&p[0], &h) == SCQ_OK && h.len == 100 && scq_lend(&p[0], &g) == SCQ_OK);
    CHECK(scq_lend(&p[0], &g) == SCQ_OK && scq_lend(&p[0], &g) == SCQ_NO_ROOM);
    CHECK(scq_close(&p[0]) == SCQ_OK && scq_close(&p[1]) == SCQ_OK);
    CHECK(scq_open_with(NULL, p, 2) == SCQ_OK);
    CHECK(scq_lend(&p[0], &h) == SCQ_OK && h.len == 64);
    CHECK(scq_give_back(&p[0], h.index) == SCQ_OK);
    close_both();
}

/* -- a bell
 * ------------------------------------------------------------------------------------------ */

static scq_bell bell;

static void open_rung(void) {
    open_plain();
    CHECK(scq_bell_init(&bell) == SCQ_OK);
}

static void close_rung(void) {
    CHECK(scq_bell_close(&bell, &p[0]) == SCQ_OK && scq_bell_close(&bell, &p[1]) == SCQ_OK);
    CHECK(scq_bell_close(&bell, &p[0]) == SCQ_CLOSED);
    scq_bell_free(&bell);
}

static void bell_send_on_ended(void) {
    open_rung();
    scq_bell_finish(&bell, scq_line(0));
    CHECK(scq_bell_lend(&bell, &p[0], 0, &h) == SCQ_OK);
    CHECK(scq_bell_send(&bell, &p[0], h.index, 0, NULL) == SCQ_ENDED);
    /* The port holds it still, and another topic hasn't ended. */
    CHECK(scq_bell_send(&bell, &p[0], h.index, 1, NULL) == SCQ_OK);
    close_rung();
}

static void bell_time_over_and_ended(void) {
    open_rung();
    CHECK(scq_bell_take(&bell, &p[0], 0, 1000, &h) == SCQ_EMPTY);
    scq_bell_finish(&bell, scq_all_lines());
    CHECK(scq_bell_take(&bell, &p[0], 0, 1000, &h) == SCQ_ENDED);
    for (int i = 0; i < 2; i++) CHECK(scq_bell_lend(&bell, &p[0], 1000, &h) == SCQ_OK);
    CHECK(scq_bell_lend(&bell, &p[0], SCQ_FOREVER, &h) == SCQ_NO_ROOM);
    for (int i = 0; i < 2; i++) CHECK(scq_bell_lend(&bell, &p[1], 1000, &h) == SCQ_OK);
    CHECK(scq_give_back(&p[1], h.index) == SCQ_OK && scq_lend(&p[1], &h) == SCQ_OK);
    close_rung();
}

static void bell_no_lines(void) {
    uint32_t topic = 77;
    open_rung();
    CHECK(scq_bell_take_any(&bell, &p[0], scq_topics(0), SCQ_FOREVER, &topic, &h) == SCQ_NO_TOPIC);
    CHECK(scq_bell_take_any(&bell, &p[0], scq_line(40), SCQ_FOREVER, &topic, &h) == SCQ_NO_TOPIC);
    CHECK(topic == 77 && h.at == NULL);
    close_rung();
}

static void bell_topic_past(void) {
    uint32_t topic;
    open_rung();
    CHECK(scq_bell_take(&bell, &p[0], 2, SCQ_FOREVER, &h) == SCQ_NO_TOPIC);
    CHECK(scq_bell_take(&bell, &p[0], UINT32_MAX, SCQ_FOREVER, &h) == SCQ_NO_TOPIC);
    CHECK(scq_bell_take_any(&bell, &p[0], scq_topics(3), SCQ_FOREVER, &topic, &h) == SCQ_NO_TOPIC);
    lend_one();
    CHECK(scq_bell_send(&bell, &p[0], h.index, SCQ_FREE, NULL) == SCQ_NO_TOPIC);
    CHECK(scq_bell_send(&bell, &p[0], h.index, UINT32_MAX, NULL) == SCQ_NO_TOPIC);
    close_rung();
}

static void bell_ring_no_line(void) {
    open_rung();
    scq_bell_ring(&bell, SCQ_LINES);
    scq_bell_ring(&bell, UINT32_MAX);
    close_rung();
}

static void bell_ring_for_nothing(void) {
    open_rung();
    for (int i = 0; i < 3; i++) scq_bell_ring(&bell, 0);
    CHECK(scq_bell_take(&bell, &p[0], 0, 1000, &h) == SCQ_EMPTY);
    close_rung();
}

static void bell_on_closed_port(void) {
    open_rung();
    CHECK(scq_bell_take(&bell, &p[2], 0, SCQ_FOREVER, &h) == SCQ_CLOSED);
    CHECK(scq_bell_lend(&bell, &p[2], SCQ_FOREVER, &h) == SCQ_CLOSED);
    CHECK(scq_bell_send(&bell, &p[2], 0, 0, NULL) == SCQ_CLOSED);
    CHECK(scq_bell_give_back(&bell, &p[2], 0) == SCQ_CLOSED);
    CHECK(scq_bell_retire(&bell, &p[2]) == SCQ_CLOSED);
    close_rung();
}

static void bell_finish_twice(void) {
    open_rung();
    scq_bell_finish(&bell, scq_line(0));
    scq_bell_finish(&bell, scq_lines_both(scq_line(0), scq_line(1)));
    CHECK(scq_bell_take(&bell, &p[0], 1, SCQ_FOREVER, &h) == SCQ_ENDED);
    close_rung();
}

static void count_up(void *times) { ++*(int *)times; }

static void bell_arm_twice(void) {
    int times = 0;
    scq_watch watch = {count_up, &times, 0, NULL};
    open_rung();
    scq_bell_watch(&bell, &watch);
    scq_bell_arm(&bell, &watch, scq_line(0));
    scq_bell_arm(&bell, &watch, scq_line(1));
    scq_bell_ring(&bell, 0);
    CHECK(times == 0);
    scq_bell_ring(&bell, 1);
    scq_bell_ring(&bell, 1);
    CHECK(times == 1 && scq_bell_disarm(&bell, &watch) == 0);
    CHECK(bell.line[0].inside == 0 && bell.line[1].inside == 0);
    close_rung();
}

/* -- the table
 * -------------------------------------------------------------------------------------- */

/* What is done where it isn't answered here. */
enum { ANSWERED = 0, COMPILER = 100, OF_BELL = 200 };

#define A(name)                                                                                    \
    { #name, ANSWERED, name }
#define RULE(number, name)                                                                         \
    { #name, number, NULL }

static const struct {
    const char *name;
    unsigned rule; /* of those at the head of scq.h, or from OF_BELL on of scq_bell.h */
    void (*run)(void);
} cases[] = {
    RULE(2, lend_null_port),
    RULE(2, lend_null_out),
    RULE(2, take_null_out),
    A(send_null_place),
    RULE(2, open_null_ports),
    RULE(2, open_null_zero),
    RULE(2, close_null),
    RULE(1, uninit_open),
    RULE(1, uninit_lend),
    A(zero_port_lend),
    A(open_twice),
    RULE(2, open_more_than_array),
    A(close_twice),
    A(call_after_close),
    RULE(1, copy_both_used),
    RULE(1, copy_closed_twice),
    RULE(1, copy_used_after_close),
    RULE(1, copy_used_after_all_closed),
    A(send_not_held),
    A(send_bad_index),
    A(send_twice),
    A(send_by_other_port),
    A(send_to_other_queue),
    A(give_back_twice),
    A(give_back_after_send),
    A(stale_index_recycled),
    RULE(5, write_after_send),
    A(lend_unchecked_full),
    RULE(5, write_past_end),
    RULE(5, write_far_past_end),
    RULE(5, write_before),
    RULE(5, read_after_close),
    A(aligned_cast),
    A(topic_past),
    A(bad_numbers),
    A(ports_past_array_4097),
    A(huge_size),
    A(no_room),
    A(spent),
    RULE(3, two_threads_one_port),
    A(thread_exits_holding),
    RULE(3, async_cancel),
    RULE(1, forget_one_close),
    A(exit_without_close),
    RULE(6, fork_child_uses),
    RULE(3, signal_same_port),
    A(signal_other_port),
    RULE(5, place_in_buffer),
    RULE(2, place_is_port),
    RULE(2, out_is_port),
    RULE(2, out_unaligned),
    RULE(2, out_read_only),
    A(moved_port),
    A(closed_with_messages),
    A(header_of_other_version),
    A(pack_without_begin),
    A(memory_block_unset),
    A(size_for_hold),
    A(bell_send_on_ended),
    A(bell_time_over_and_ended),
    A(bell_no_lines),
    A(bell_topic_past),
    A(bell_ring_no_line),
    A(bell_ring_for_nothing),
    A(bell_on_closed_port),
    A(bell_finish_twice),
    A(bell_arm_twice),
    RULE(OF_BELL + 1, bell_not_made),
    RULE(OF_BELL + 1, bell_moved),
    RULE(OF_BELL + 1, bell_freed_while_one_waits),
    RULE(OF_BELL + 1, bell_of_two_queues),
    RULE(OF_BELL + 1, bell_in_child),
    RULE(OF_BELL + 2, send_that_rings_nobody),
    RULE(OF_BELL + 2, close_that_rings_nobody),
    RULE(OF_BELL + 3, bell_cancelled_in_wait),
    RULE(OF_BELL + 3, bell_waits_in_handler),
    RULE(OF_BELL + 3, bell_killed_before_ring),
    /* dropped.c */
    RULE(COMPILER, ignored_answers),
    /* numbers.c */
    RULE(COMPILER, bell_finish_number),
    RULE(COMPILER, bell_take_any_number),
};

int main(int count, char **words) {
    const size_t all = sizeof cases / sizeof *cases;
    size_t answered = 0, callers = 0, warned = 0;
    for (size_t i = 0; i < all; i++) {
        if (count > 1 && strcmp(words[1], cases[i].name) != 0) continue;
        if (cases[i].rule == ANSWERED) {
            cases[i].run();
            answered++;
            printf("%s: answered\n", cases[i].name);
        } else if (cases[i].rule == COMPILER) {
            warned++;
            printf("%s: the compiler warns\n", cases[i].name);
        } else {
            const unsigned rule = cases[i].rule;
            callers++;
            printf("%s: %srule %u\n", cases[i].name, rule > OF_BELL ? "bell " : "", rule % OF_BELL);
        }
    }
    printf("%zu misuses: %zu answered, %zu named as the caller's, %zu that the compiler sees\n",
           answered + callers + warned, answered, callers, warned);
    return 0;
}
