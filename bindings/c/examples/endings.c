/* What becomes of ports where a thread or a process ends in the middle of its work: each function
 * shows what to do.
 *
 *     cc -pthread -I.. endings.c libscq.a -o endings
 */
#define _GNU_SOURCE
#include "scq.h"

#include <pthread.h>
#include <setjmp.h>
#include <stdio.h>
#include <stdlib.h>
#include <sys/wait.h>
#include <unistd.h>

static void must(const char *call, uint32_t answer) {
    if (answer == SCQ_OK) return;
    fprintf(stderr, "%s: %s\n", call, scq_text(answer));
    exit(1);
}

/* A queue of two buffers. */
static void open_two(scq_port *ports) {
    must("open", scq_open(1, 1, 64, 2, SCQ_MAX_LIMIT, ports, 2));
}

/* Both buffers can be lent: nothing was lost. Then the port is closed. */
static void close_with_all(const char *what, scq_port *port) {
    scq_held held;
    must(what, scq_lend(port, &held));
    must(what, scq_lend(port, &held));
    scq_close(port);
    printf("%s: nothing was lost\n", what);
}

/* A thread ends that holds a buffer: a key's destructor closes its port, however it ends. */
static pthread_key_t key;

static void close_at_end(void *port) { scq_close(port); }

static void *hold_and_end(void *port) {
    scq_held held;
    if (pthread_setspecific(key, port) != 0) exit(1);
    must("lend", scq_lend(port, &held));
    return NULL;
}

static void a_thread_ends_holding(void) {
    scq_port ports[2] = {SCQ_NONE, SCQ_NONE};
    pthread_t thread;
    open_two(ports);
    if (pthread_key_create(&key, close_at_end) != 0) exit(1);
    if (pthread_create(&thread, NULL, hold_and_end, &ports[0]) != 0) exit(1);
    pthread_join(thread, NULL);
    pthread_key_delete(key);
    close_with_all("a thread that ends", &ports[1]);
}

/* A thread is cancelled: at a cancellation point, which no call of the library is, so that none is
 * left in the middle; a cleanup handler closes the port. Not asynchronously: that may hit it within
 * a call. */
static void *wait_for_ever(void *port) {
    scq_held held;
    must("lend", scq_lend(port, &held));
    pthread_cleanup_push(close_at_end, port);
    for (;;) pause();
    pthread_cleanup_pop(1);
}

static void a_thread_is_cancelled(void) {
    scq_port ports[2] = {SCQ_NONE, SCQ_NONE};
    pthread_t thread;
    open_two(ports);
    if (pthread_create(&thread, NULL, wait_for_ever, &ports[0]) != 0) exit(1);
    pthread_cancel(thread);
    pthread_join(thread, NULL);
    close_with_all("a thread that is cancelled", &ports[1]);
}

/* An error is left by longjmp: what the port held then it still holds, and is given back by its
 * index; what is to be known behind the jump is volatile, or static. Not out of a signal handler
 * that may have interrupted a call. */
static jmp_buf on_error;

static void fail(void) { longjmp(on_error, 1); }

static void an_error_jumps(void) {
    scq_port ports[2] = {SCQ_NONE, SCQ_NONE};
    static scq_held held;
    open_two(ports);
    if (setjmp(on_error) == 0) {
        must("lend", scq_lend(&ports[0], &held));
        fail();
    }
    must("give_back", scq_give_back(&ports[0], held.index));
    scq_close(&ports[0]);
    close_with_all("an error that jumps", &ports[1]);
}

/* After fork the child has copies of the parent's ports and buffers. It makes no call with them,
 * nor does it close them; a queue of its own it may open. */
static void a_process_forks(void) {
    scq_port ports[2] = {SCQ_NONE, SCQ_NONE};
    scq_held held;
    int status;
    open_two(ports);
    must("lend", scq_lend(&ports[0], &held));
    fflush(stdout);
    const pid_t child = fork();
    if (child == 0) {
        static scq_port own[2];
        open_two(own);
        must("lend", scq_lend(&own[0], &held));
        scq_close(&own[0]);
        scq_close(&own[1]);
        _exit(0);
    }
    if (child < 0 || waitpid(child, &status, 0) != child || !WIFEXITED(status)) exit(1);
    must("give_back", scq_give_back(&ports[0], held.index));
    scq_close(&ports[0]);
    close_with_all("a process that forks", &ports[1]);
}

/* A process may exit without closing a port: the system has its memory, and nothing is to be done.
 * (Tools that look for leaks find that it can still be reached.) */
static void a_process_exits(void) {
    int status;
    fflush(stdout);
    const pid_t child = fork();
    if (child == 0) {
        static scq_port ports[2];
        scq_held held;
        open_two(ports);
        must("lend", scq_lend(&ports[0], &held));
        exit(0);
    }
    if (child < 0 || waitpid(child, &status, 0) != child || !WIFEXITED(status)) exit(1);
    puts("a process that exits without closing: the system has its memory");
}

int main(void) {
    a_thread_ends_holding();
    a_thread_is_cancelled();
    an_error_jumps();
    a_process_forks();
    a_process_exits();
    return 0;
}
