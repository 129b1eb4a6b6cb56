/* A pipeline of four threads that waits: one reads lines, two turn them into capitals where they lie,
 * one writes them. Nobody asks again and again: who has nothing to do sleeps until the bell is rung.
 *
 *     cc -pthread -I.. pipeline.c libscq.a -o pipeline && ./pipeline [FILE]
 *
 * Without a file it has two lines of its own. Lines are written as they come out of the two threads; one
 * of more than SIZE - 1 bytes goes as several. */
#include "scq_bell.h"

#include <ctype.h>
#include <pthread.h>
#include <stdio.h>
#include <stdlib.h>
#include <string.h>

enum { RAW, DONE, TOPICS, WORKERS = 2, PORTS = WORKERS + 2, ORDER = 6, SIZE = 256 };

static scq_bell bell;
static scq_port ports[PORTS];
static uint32_t working = WORKERS;
static FILE *lines;

static void must(uint32_t answer) {
    if (answer == SCQ_OK) return;
    fprintf(stderr, "%s\n", scq_text(answer));
    exit(1);
}

/* Reads lines until there are none, and says that none comes. */
static void *read_lines(void *port) {
    scq_held held;
    uint64_t place;
    for (;;) {
        must(scq_bell_lend(&bell, port, SCQ_FOREVER, &held));
        if (fgets((char *)held.at, SIZE, lines) == NULL) break;
        must(scq_bell_send(&bell, port, held.index, RAW, &place));
    }
    must(scq_bell_give_back(&bell, port, held.index));
    scq_bell_finish(&bell, scq_line(RAW));
    return NULL;
}

/* Sends on what it takes; the last worker says that nothing comes from them. */
static void *work(void *port) {
    scq_held held;
    uint64_t place;
    uint32_t answer;
    while ((answer = scq_bell_take(&bell, port, RAW, SCQ_FOREVER, &held)) == SCQ_OK) {
        for (unsigned char *byte = held.at; *byte != 0; byte++) *byte = (unsigned char)toupper(*byte);
        must(scq_bell_send(&bell, port, held.index, DONE, &place));
    }
    if (answer != SCQ_ENDED) must(answer);
    if (__atomic_sub_fetch(&working, 1, __ATOMIC_SEQ_CST) == 0)
        scq_bell_finish(&bell, scq_line(DONE));
    return NULL;
}

static void *write_lines(void *port) {
    scq_held held;
    uint32_t answer;
    while ((answer = scq_bell_take(&bell, port, DONE, SCQ_FOREVER, &held)) == SCQ_OK) {
        fputs((const char *)held.at, stdout);
        must(scq_bell_give_back(&bell, port, held.index));
    }
    if (answer != SCQ_ENDED) must(answer);
    return NULL;
}

int main(int count, char **words) {
    void *(*const runs[PORTS])(void *) = {read_lines, work, work, write_lines};
    pthread_t threads[PORTS];
    lines = count > 1 ? fopen(words[1], "r") : tmpfile();
    if (lines == NULL) return perror("pipeline"), 1;
    if (count < 2) {
        fputs("a line\nand another\n", lines);
        rewind(lines);
    }
    must(scq_bell_init(&bell));
    must(scq_open(ORDER, TOPICS, SIZE, 1, SCQ_MAX_LIMIT, ports, PORTS));
    for (int i = 0; i < PORTS; i++)
        if (pthread_create(&threads[i], NULL, runs[i], &ports[i]) != 0) return 1;
    for (int i = 0; i < PORTS; i++) pthread_join(threads[i], NULL);
    for (int i = 0; i < PORTS; i++) scq_bell_close(&bell, &ports[i]);
    scq_bell_free(&bell);
    fclose(lines);
    return ferror(stdout) != 0;
}
