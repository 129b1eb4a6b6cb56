/* A queue under a lock whose program ends in the midst of calls: what its seats recorded is in their files all the same.
 * `ends FOLDER WAY` ends by WAY: exit, abort, crash, or hang, which another program ends by SIGTERM. `ends FOLDER several` moves up to
 * four values in a call, beside two opening tokens, and closes its seats.
 *   gcc -O2 -pthread -I recorders recorders/examples/ends.c -o ends
 *   rm -rf logs && mkdir logs; ./ends logs abort; ./scq judge logs/?.log
 */
#include "recorder.h"

#define THREADS 4
#define PLACES 64
#define LANES 4

static pthread_mutex_t lock = PTHREAD_MUTEX_INITIALIZER;
static uint64_t values[PLACES];
static size_t head, tail;
static scq_recorder recorder;
static scq_seat seats[THREADS];
static const char *way;

/* How many of these values the queue took. */
static size_t put(const uint64_t *from, size_t count) {
    size_t done = 0;
    pthread_mutex_lock(&lock);
    for (; done < count && tail - head < PLACES; done++) values[tail++ % PLACES] = from[done];
    pthread_mutex_unlock(&lock);
    return done;
}

static size_t get(uint64_t *to, size_t count) {
    size_t done = 0;
    pthread_mutex_lock(&lock);
    for (; done < count && head < tail; done++) to[done] = values[head++ % PLACES];
    pthread_mutex_unlock(&lock);
    return done;
}

/* What the first thread does in the midst of a call. */
static void end(void) {
    if (!strcmp(way, "exit")) exit(0);
    if (!strcmp(way, "abort")) abort();
    if (!strcmp(way, "crash")) raise(SIGSEGV);
    pthread_mutex_lock(&lock);
    for (;;) pause();
}

static void *run(void *argument) {
    scq_seat *seat = (scq_seat *)argument;
    for (size_t k = 0;; k++) {
        uint64_t value = scq_put_start(seat, 0);
        if (seat == seats && k == 20000) end();
        if (put(&value, 1)) scq_put_done(seat);
        else scq_put_refused(seat);
        scq_get_start(seat, 0);
        if (get(&value, 1)) scq_get_got(seat, value);
        else scq_get_nothing(seat);
    }
    return NULL;
}

static void *run_several(void *argument) {
    scq_seat *seat = (scq_seat *)argument;
    for (size_t k = 0; k < 20000; k++) {
        uint64_t moved[LANES];
        size_t count = k % LANES + 1;
        scq_puts_start(seat, 0, moved, count);
        scq_puts_end(seat, count, put(moved, count));
        scq_gets_start(seat, 0, count);
        size_t got = get(moved, count);
        scq_gets_end(seat, moved, count, got, SCQ_NOTHING);
    }
    return NULL;
}

int main(int argc, char **argv) {
    pthread_t threads[THREADS];
    char name[4096];
    if (argc < 3) return fprintf(stderr, "ends FOLDER exit|abort|crash|hang|several\n"), 2;
    way = argv[2];
    int several = !strcmp(way, "several");
    scq_recorder_init(&recorder);
    for (uint32_t i = 0; i < THREADS; i++) {
        snprintf(name, sizeof name, "%s/%u.log", argv[1], i + 1);
        if (!scq_lanes_open(&seats[i], &recorder, LANES * i, LANES, 1000, name)) return fprintf(stderr, "not opened\n"), 1;
    }
    if (several) {
        uint64_t tokens[2] = {scq_opening(0), scq_opening(1)};
        snprintf(name, sizeof name, "%s/0.log", argv[1]);
        if (!scq_openings_write(name, 2)) return fprintf(stderr, "not written\n"), 1;
        put(tokens, 2);
    }
    for (int i = 0; i < THREADS; i++) pthread_create(&threads[i], NULL, several ? run_several : run, &seats[i]);
    for (int i = 0; i < THREADS; i++) pthread_join(threads[i], NULL);
    for (int i = 0; i < THREADS; i++)
        if (!scq_seat_close(&seats[i])) return fprintf(stderr, "not written\n"), 1;
    return 0;
}
