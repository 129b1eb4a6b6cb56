/* held EVERY: a wait and a ring meet while one of the two threads is held, by ptrace, behind each
 * of its instructions (or each EVERYth): the other does its part meanwhile, as far as it comes;
 * then the held one goes on, and both have to end. Three ways: one that waits is held while another
 * sends; one that sends is held while another comes to wait; and one that sends, while another
 * sleeps already. */
#include "scq_bell.h"

#include "check.h"

#include <pthread.h>
#include <sched.h>
#include <signal.h>
#include <sys/mman.h>
#include <sys/ptrace.h>
#include <sys/wait.h>
#include <time.h>
#include <unistd.h>

enum way { HELD_WAITS, HELD_SENDS, HELD_SENDS_LATE, WAYS };

/* What the tracer and the process that it traces share. */
static volatile struct { int begin, entered, go, done; } * shared;

static scq_bell bell;
static scq_port ports[2];

static void send_one(scq_port *port) {
    scq_held held;
    uint64_t place;
    CHECK(scq_lend(port, &held) == SCQ_OK);
    CHECK(scq_bell_send(&bell, port, held.index, 0, &place) == SCQ_OK);
}

static void take_one(scq_port *port) {
    scq_held held;
    CHECK(scq_bell_take(&bell, port, 0, SCQ_FOREVER, &held) == SCQ_OK);
    CHECK(scq_bell_give_back(&bell, port, held.index) == SCQ_OK);
}

static void *other_part(void *way) {
    while (!shared->go) sched_yield();
    if (*(enum way *)way == HELD_WAITS)
        send_one(&ports[1]);
    else
        take_one(&ports[1]);
    shared->done = 1;
    return NULL;
}

static void traced(enum way way) {
    pthread_t other;
    CHECK(scq_bell_init(&bell) == SCQ_OK);
    CHECK(scq_open(1, 1, 8, 1, SCQ_MAX_LIMIT, ports, 2) == SCQ_OK);
    CHECK(pthread_create(&other, NULL, other_part, &way) == 0);
    while (!shared->begin) {
    }
    shared->entered = 1;
    if (way == HELD_WAITS)
        take_one(&ports[0]);
    else
        send_one(&ports[0]);
    CHECK(pthread_join(other, NULL) == 0);
    _exit(0);
}

static void nap(long microseconds) {
    const struct timespec time = {0, microseconds * 1000};
    nanosleep(&time, NULL);
}

/* Waits a while for a stop or an end of the process: 0 where there is none. */
static int came(pid_t id, int *status, int naps) {
    for (int i = 0; i < naps; i++) {
        if (waitpid(id, status, WNOHANG) == id) return 1;
        if (i < 100)
            sched_yield();
        else
            nap(100);
    }
    return 0;
}

/* One instruction: 0 where it isn't over by then, as the thread sleeps in it, or where it has
 * ended. */
static int step(pid_t id, int naps) {
    int status;
    CHECK(ptrace(PTRACE_SINGLESTEP, id, 0, 0) == 0);
    return came(id, &status, naps) && WIFSTOPPED(status);
}

/* Holds the thread behind so many instructions. Answers 0 where it slept before that. */
static int hold(enum way way, long instructions) {
    int status, awake = 1;
    shared->begin = shared->entered = shared->go = shared->done = 0;
    const pid_t id = fork();
    CHECK(id >= 0);
    if (id == 0) traced(way);
    nap(300);
    CHECK(ptrace(PTRACE_SEIZE, id, 0, PTRACE_O_EXITKILL) == 0);
    CHECK(ptrace(PTRACE_INTERRUPT, id, 0, 0) == 0);
    CHECK(waitpid(id, &status, 0) == id && WIFSTOPPED(status));
    if (way == HELD_SENDS_LATE) {
        shared->go = 1;
        nap(3000);
    }
    shared->begin = 1;
    while (!shared->entered) CHECK(step(id, 100000));
    for (long i = 0; i < instructions && awake && !shared->done; i++) awake = step(id, 300);
    shared->go = 1;
    for (int i = 0; i < 20 && !shared->done; i++) nap(100);
    if (awake) CHECK(ptrace(PTRACE_DETACH, id, 0, 0) == 0);
    for (int i = 0; i < 5; i++) {
        if (!came(id, &status, 10000)) continue;
        if (WIFSTOPPED(status)) {
            CHECK(ptrace(PTRACE_DETACH, id, 0, 0) == 0);
            continue;
        }
        CHECK(WIFEXITED(status) && WEXITSTATUS(status) == 0);
        return awake;
    }
    kill(id, SIGKILL);
    fprintf(stderr, "way %d, held behind %ld instructions: it hangs\n", (int)way, instructions);
    exit(3);
}

int main(int count, char **words) {
    long all = 0;
    CHECK(count == 2);
    const long every = strtol(words[1], NULL, 10);
    CHECK(every > 0);
    shared = mmap(NULL, sizeof *shared, PROT_READ | PROT_WRITE, MAP_SHARED | MAP_ANONYMOUS, -1, 0);
    CHECK(shared != MAP_FAILED);
    for (enum way way = HELD_WAITS; way < WAYS; way++) {
        long at = 0;
        while (at < 5000 && hold(way, at)) at += every;
        printf("way %d: %ld instructions\n", (int)way, at);
        all += at / every;
    }
    return printf("held %ld times\n", all) < 0;
}
