/* A pipeline of log lines: loggers pack lines into buffers, parsers go through them and pack what
 * they made of them into buffers of a second queue, and a writer goes through those. Each stage is
 * a queue of its own, so that its end is known by retiring alone: who sends no more closes its
 * port, and who only takes retires at once. There is no counter, and some seventy lines cost a lend
 * and a send, and a take and a give-back.
 *
 *     cc -pthread -I.. logs.c libscq.a -o logs
 */
#include "scq.h"

#include <pthread.h>
#include <sched.h>
#include <stdio.h>
#include <stdlib.h>
#include <string.h>

#ifndef LAST
#define LAST 100000
#endif
enum { LOGGERS = 2, PARSERS = 2, SIZE = 2048, MOST = 64 };

static void must(const char *call, uint32_t answer) {
    if (answer == SCQ_OK) return;
    fprintf(stderr, "%s: %s\n", call, scq_text(answer));
    exit(1);
}

/* Lines on their way to a queue: a port, and the buffer that is being packed. */
struct outlet {
    scq_port port;
    scq_held held;
};

static void begin(struct outlet *to) {
    uint32_t answer;
    while ((answer = scq_lend(&to->port, &to->held)) == SCQ_FULL) sched_yield();
    must("lend", answer);
    scq_pack_begin(&to->held);
}

static void flush(struct outlet *to) {
    uint64_t place;
    must("send", scq_send(&to->port, to->held.index, 0, &place));
}

static void put(struct outlet *to, const char *line, size_t len) {
    if (scq_pack(&to->held, line, len)) return;
    flush(to);
    begin(to);
    if (!scq_pack(&to->held, line, len)) exit(1); /* it is larger than a buffer */
}

/* The last buffer goes, and then no more. */
static void end(struct outlet *to) {
    flush(to);
    scq_close(&to->port);
}

/* Takes the next buffer, or waits for it: 0 where all have retired and nothing is left. */
static int next(scq_port *from, scq_held *held) {
    for (;;) {
        const int is_over = scq_retired(from) == SCQ_RETIRED;
        const uint32_t answer = scq_take(from, 0, held);
        if (answer == SCQ_OK) return 1;
        if (answer != SCQ_EMPTY) must("take", answer);
        if (is_over) return 0;
        sched_yield();
    }
}

struct job {
    scq_port from; /* of a parser */
    struct outlet to;
    int number;
};

static void *log_all(void *handed) {
    struct job *const job = handed;
    char line[MOST];
    begin(&job->to);
    for (int k = 1; k <= LAST; k++) {
        const int len = snprintf(line, sizeof line, "%s logger %d line %d",
                                 k % 10 ? "info" : "warn", job->number, k);
        put(&job->to, line, (size_t)len);
    }
    end(&job->to);
    return NULL;
}

/* Of each warning the line that says which logger's it is. */
static void *parse_all(void *handed) {
    struct job *const job = handed;
    scq_held held;
    must("retire", scq_retire(&job->from));
    begin(&job->to);
    while (next(&job->from, &held)) {
        const unsigned char *at;
        size_t so_far = 0, len;
        while (scq_unpack(&held, &so_far, &at, &len))
            if (len > 5 && memcmp(at, "warn ", 5) == 0)
                put(&job->to, (const char *)at + 5, len - 5);
        must("give_back", scq_give_back(&job->from, held.index));
    }
    scq_close(&job->from);
    end(&job->to);
    return NULL;
}

int main(void) {
    scq_port raw[LOGGERS + PARSERS] = {{0}}, parsed[PARSERS + 1] = {{0}};
    struct job jobs[LOGGERS + PARSERS];
    pthread_t threads[LOGGERS + PARSERS];
    scq_held held;
    unsigned long warnings = 0;
    must("open", scq_open(4, 1, SIZE, 1, SCQ_MAX_LIMIT, raw, LOGGERS + PARSERS));
    must("open", scq_open(4, 1, SIZE, 1, SCQ_MAX_LIMIT, parsed, PARSERS + 1));
    /* Ports are moved into the jobs: their old places are not used again. */
    for (int i = 0; i < LOGGERS + PARSERS; i++) {
        const int is_parser = i >= LOGGERS;
        jobs[i].number = i;
        if (is_parser) jobs[i].from = raw[i];
        jobs[i].to.port = is_parser ? parsed[i - LOGGERS] : raw[i];
        if (pthread_create(&threads[i], NULL, is_parser ? parse_all : log_all, &jobs[i]) != 0)
            return 1;
    }
    scq_port *const writer = &parsed[PARSERS];
    must("retire", scq_retire(writer));
    while (next(writer, &held)) {
        const unsigned char *at;
        size_t so_far = 0, len;
        while (scq_unpack(&held, &so_far, &at, &len)) {
            if (len < 7 || memcmp(at, "logger ", 7) != 0) return 1;
            warnings++;
        }
        must("give_back", scq_give_back(writer, held.index));
    }
    scq_close(writer);
    for (int i = 0; i < LOGGERS + PARSERS; i++) pthread_join(threads[i], NULL);
    printf("%lu warnings of %d lines\n", warnings, LOGGERS * LAST);
    return warnings != LOGGERS * (unsigned long)(LAST / 10);
}
