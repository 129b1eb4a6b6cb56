/* poisoned CASE, compiled with the address sanitizer: bad touches of bytes that no port holds, each
 * of which is reported; and `right`, many right ones by threads, and calls that are refused, of
 * which none is. */
#include "scq.h"

#include "check.h"

#include <pthread.h>
#include <sched.h>
#include <stdio.h>
#include <stdlib.h>
#include <string.h>

enum { SIZE = 20, MESSAGES = 20000 };

static scq_port p[4];
static scq_held h, g;

static void open_some(void) {
    CHECK(scq_open_with(&(scq_options){.order = 2, .size = SIZE, .hold = 2}, p, 2) == SCQ_OK);
    CHECK(scq_lend(&p[0], &h) == SCQ_OK);
    memset(h.at, 1, h.len);
}

static void write_after_send(void) {
    open_some();
    CHECK(scq_send(&p[0], h.index, 0, NULL) == SCQ_OK);
    h.at[0] = 2;
}

static void write_past_end(void) {
    open_some();
    h.at[SIZE] = 2;
}

static void write_into_next(void) {
    open_some();
    h.at[h.index < 3 ? SCQ_CACHE_LINE : -SCQ_CACHE_LINE] = 2;
}

static void read_after_give_back(void) {
    open_some();
    CHECK(scq_give_back(&p[0], h.index) == SCQ_OK);
    CHECK(*(volatile unsigned char *)h.at < 3);
}

static void write_after_send_of_several(void) {
    scq_held held[2];
    size_t done;
    open_some();
    CHECK(scq_give_back(&p[0], h.index) == SCQ_OK);
    CHECK(scq_lend_many(&p[0], held, 2, &done) == SCQ_OK);
    CHECK(scq_send_many(&p[0], held, 2, 0, &done) == SCQ_OK);
    held[1].at[SIZE - 1] = 2;
}

static void write_after_close(void) {
    open_some();
    CHECK(scq_close(&p[0]) == SCQ_OK);
    h.at[1] = 2;
}

static void write_after_send_over_memory(void) {
    static unsigned char bytes[4 * 32] __attribute__((aligned(8)));
    const scq_memory memory = {bytes, 32, SIZE, NULL};
    CHECK(scq_open_over(2, 1, 1, SCQ_MAX_LIMIT, &memory, p, 2) == SCQ_OK);
    CHECK(scq_lend(&p[0], &h) == SCQ_OK && scq_send(&p[0], h.index, 0, NULL) == SCQ_OK);
    h.at[0] = 2;
}

/* -- what is right ------------------------------------------------------------------------- */

static void *sends(void *port) {
    scq_held held;
    for (int i = 0; i < MESSAGES;) {
        if (scq_lend(port, &held) != SCQ_OK) {
            sched_yield();
            continue;
        }
        memset(held.at, i++ % 250, held.len);
        CHECK(scq_send(port, held.index, 9, NULL) == SCQ_NO_TOPIC);
        held.at[SIZE - 1] = held.at[0];
        CHECK(scq_send(port, held.index, 0, NULL) == SCQ_OK);
        /* Another has it by now, or nobody. */
        CHECK(scq_send(port, held.index, 0, NULL) == SCQ_NOT_HELD);
        CHECK(scq_give_back(port, held.index) == SCQ_NOT_HELD);
    }
    return NULL;
}

static void *takes(void *port) {
    scq_held held;
    for (int i = 0; i < MESSAGES;) {
        if (scq_take(port, 0, &held) != SCQ_OK) {
            sched_yield();
            continue;
        }
        for (int k = 0; k < SIZE; k++) CHECK(held.at[k] == held.at[0]);
        i++;
        CHECK(scq_give_back(port, held.index) == SCQ_OK);
    }
    return NULL;
}

static void right(void) {
    pthread_t threads[4];
    static unsigned char bytes[4 * 30];
    for (int way = 0; way < 3; way++) {
        /* What is the caller's may be touched once all is closed; and where buffers begin anywhere
         * nothing is told. */
        const scq_memory memory = {bytes + way - 1, way == 1 ? 24 : 29, SIZE, NULL};
        const scq_options options = {2, 1, SIZE, 2, 0, way == 0 ? NULL : &memory};
        CHECK(scq_open_with(&options, p, 4) == SCQ_OK);
        for (int i = 0; i < 4; i++)
            CHECK(pthread_create(&threads[i], NULL, i < 2 ? sends : takes, &p[i]) == 0);
        for (int i = 0; i < 4; i++) CHECK(pthread_join(threads[i], NULL) == 0);
        CHECK(scq_lend(&p[0], &h) == SCQ_OK && scq_lend(&p[0], &g) == SCQ_OK);
        CHECK(scq_give_back(&p[1], h.index) == SCQ_NOT_HELD);
        memset(h.at, 3, h.len);
        memset(g.at, 3, g.len);
        for (int i = 0; i < 4; i++) CHECK(scq_close(&p[i]) == SCQ_OK);
        memset(bytes, 4, sizeof bytes);
    }
}

static const struct {
    const char *name;
    void (*run)(void);
} cases[] = {
    {"write_after_send", write_after_send},
    {"write_past_end", write_past_end},
    {"write_into_next", write_into_next},
    {"read_after_give_back", read_after_give_back},
    {"write_after_send_of_several", write_after_send_of_several},
    {"write_after_close", write_after_close},
    {"write_after_send_over_memory", write_after_send_over_memory},
    {"right", right},
};

int main(int count, char **words) {
    for (size_t i = 0; i < sizeof cases / sizeof *cases; i++) {
        if (count < 2) CHECK(puts(cases[i].name) >= 0);
        if (count == 2 && strcmp(words[1], cases[i].name) == 0) cases[i].run();
    }
    return 0;
}
