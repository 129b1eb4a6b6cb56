/* ends QUEUES: ports that are closed in threads of their own, as it happens: of each queue just one
 * is told that it was the last; and once it is closed nothing is left of what the opening took.
 * No call but an opening asks for memory, and what a port couldn't give back is lent to nobody.
 * Link with -Wl,--wrap=malloc,--wrap=realloc,--wrap=calloc,--wrap=free. */
#include "scq.h"

#include "check.h"

#include <pthread.h>
#include <stdatomic.h>
#include <string.h>

enum { THREADS = 8, ROUNDS = 200, ORDER = 5, BUFFERS = 1 << ORDER };

/* How many blocks there are that the library or the header took and nobody freed, and how often
 * they asked for memory. */
static atomic_long blocks, asked;

static void *counted(void *block) {
    if (block != NULL) atomic_fetch_add(&blocks, 1);
    atomic_fetch_add(&asked, 1);
    return block;
}

void *__real_malloc(size_t size);
void *__real_realloc(void *old, size_t size);
void *__real_calloc(size_t count, size_t size);
void __real_free(void *block);
void *__wrap_malloc(size_t size);
void *__wrap_realloc(void *old, size_t size);
void *__wrap_calloc(size_t count, size_t size);
void __wrap_free(void *block);

void *__wrap_malloc(size_t size) { return counted(__real_malloc(size)); }
void *__wrap_calloc(size_t count, size_t size) { return counted(__real_calloc(count, size)); }

void *__wrap_realloc(void *old, size_t size) {
    void *const block = __real_realloc(old, size);
    if (old == NULL) return counted(block);
    atomic_fetch_add(&asked, 1);
    return block;
}

void __wrap_free(void *block) {
    if (block != NULL) atomic_fetch_sub(&blocks, 1);
    __real_free(block);
}

/* A port, and what its end told; `told` says whether it is asked. */
struct job {
    scq_port port;
    int told;
    scq_ended ended;
    scq_counts own, all[THREADS + 1];
};

/* Passes buffers on and keeps some, until it closes. Where tickets run out it goes on, and is
 * refused. */
static void *work(void *handed) {
    struct job *job = handed;
    scq_held held;
    uint64_t place;
    for (int n = 0; n < ROUNDS; n++) {
        if (scq_lend(&job->port, &held) == SCQ_OK && n % 3 != 0 &&
            scq_send(&job->port, held.index, 0, &place) != SCQ_OK)
            continue;
        if (scq_take(&job->port, 0, &held) == SCQ_OK && n % 5 != 0)
            scq_give_back(&job->port, held.index);
    }
    if (job->told) {
        CHECK(scq_counts_of(&job->port, &job->own) == SCQ_OK);
        CHECK(scq_end(&job->port, &job->ended, job->all, THREADS + 1) == SCQ_OK &&
              job->port.at == NULL);
        CHECK(scq_end(&job->port, &job->ended, job->all, THREADS + 1) == SCQ_CLOSED);
        scq_free(&job->port);
    } else {
        CHECK(scq_close(&job->port) == SCQ_OK);
    }
    CHECK(job->port.at == NULL && job->port.memory.base == NULL &&
          scq_close(&job->port) == SCQ_CLOSED);
    return NULL;
}

/* One queue, whose threads are asked to tell. */
static void queue_of(int told, uint64_t limit) {
    struct job jobs[THREADS];
    scq_port ports[THREADS];
    pthread_t threads[THREADS];
    uint32_t last = 0;
    CHECK(atomic_load(&blocks) == 0);
    for (int i = 0; i < THREADS; i++) ports[i] = SCQ_NONE;
    CHECK(scq_open(ORDER, 1, 16, BUFFERS, limit, ports, THREADS) == SCQ_OK &&
          atomic_load(&blocks) > 0);
    for (int i = 0; i < THREADS; i++) {
        jobs[i].port = ports[i];
        jobs[i].told = told;
        jobs[i].ended.last = 9;
        memset(jobs[i].all, 0xff, sizeof jobs[i].all);
        CHECK(pthread_create(&threads[i], NULL, work, &jobs[i]) == 0);
    }
    for (int i = 0; i < THREADS; i++) CHECK(pthread_join(threads[i], NULL) == 0);
    for (int i = 0; told && i < THREADS; i++) {
        const scq_counts *const all = jobs[i].all;
        CHECK(jobs[i].ended.last <= 1 && all[THREADS].sent == UINT64_MAX);
        for (int k = 0; k < THREADS; k++) {
            const scq_counts *const own = &jobs[k].own;
            if (jobs[i].ended.last)
                CHECK(all[k].sent == own->sent && all[k].taken == own->taken &&
                      all[k].full == own->full);
            else
                CHECK(all[k].sent == UINT64_MAX && all[k].taken == UINT64_MAX &&
                      all[k].full == UINT64_MAX);
        }
        last += jobs[i].ended.last;
    }
    CHECK((!told || last == 1) && atomic_load(&blocks) == 0);
}

/* An opening that is refused leaves nothing. */
static void refused(void) {
    scq_port port = SCQ_NONE;
    CHECK(scq_open(ORDER, 0, 16, 1, SCQ_MAX_LIMIT, &port, 1) == SCQ_BAD_TOPICS &&
          atomic_load(&blocks) == 0);
    CHECK(scq_open(ORDER, 1, 16, 1, SCQ_MAX_LIMIT, &port, 1) == SCQ_OK &&
          scq_open(ORDER, 1, 16, 1, SCQ_MAX_LIMIT, &port, 1) == SCQ_IS_OPEN);
    CHECK(scq_close(&port) == SCQ_OK && atomic_load(&blocks) == 0);
}

/* No call but an opening asks for memory. */
static void without_memory(void) {
    scq_port port = SCQ_NONE;
    scq_held held[BUFFERS];
    scq_ended ended;
    scq_counts counts;
    uint64_t place;
    uint32_t number;
    size_t done;
    CHECK(scq_open(ORDER, 1, 16, BUFFERS, SCQ_MAX_LIMIT, &port, 1) == SCQ_OK);
    const long before = atomic_load(&asked);
    for (int n = 0; n < 4 * BUFFERS; n++) {
        CHECK(scq_lend(&port, &held[0]) == SCQ_OK);
        CHECK(scq_send(&port, held[0].index, 0, &place) == SCQ_OK);
        CHECK(scq_take(&port, 0, &held[0]) == SCQ_OK);
        CHECK(scq_give_back(&port, held[0].index) == SCQ_OK);
        CHECK(scq_take(&port, 0, &held[0]) == SCQ_EMPTY);
    }
    CHECK(scq_lend_many(&port, held, BUFFERS, &done) == SCQ_OK);
    CHECK(scq_send_many(&port, held, BUFFERS, 0, &done) == SCQ_OK);
    CHECK(scq_take_many(&port, 0, held, BUFFERS, &done) == SCQ_OK);
    CHECK(scq_give_back_many(&port, held, BUFFERS - 1, &done) == SCQ_OK);
    CHECK(scq_count(&port, 0, &number) == SCQ_OK && scq_capacity(&port, &number) == SCQ_OK);
    CHECK(scq_counts_of(&port, &counts) == SCQ_OK && scq_spent(&port, &place) == SCQ_OK);
    CHECK(scq_retire(&port) == SCQ_OK && scq_retired(&port) == SCQ_RETIRED);
    CHECK(scq_end(&port, &ended, &counts, 1) == SCQ_OK && ended.last == 1);
    scq_free(&port);
    CHECK(atomic_load(&asked) == before && atomic_load(&blocks) == 0);
}

/* What a port couldn't give back, as tickets ran out, is lent to nobody. */
static void left_with_the_queue(void) {
    scq_port ports[3] = {SCQ_NONE, SCQ_NONE, SCQ_NONE};
    scq_held kept, held;
    uint64_t ticket;
    CHECK(scq_open(1, 1, 16, 2, 16, ports, 3) == SCQ_OK);
    CHECK(scq_lend(&ports[0], &kept) == SCQ_OK);
    while (scq_lend(&ports[1], &held) == SCQ_OK &&
           scq_give_back(&ports[1], held.index) == SCQ_OK) {
    }
    CHECK(scq_spent(&ports[1], &ticket) == SCQ_SPENT && ticket >= 16);
    CHECK(scq_close(&ports[0]) == SCQ_OK);
    while (scq_lend(&ports[2], &held) == SCQ_OK) CHECK(held.index != kept.index);
    CHECK(scq_close(&ports[1]) == SCQ_OK && scq_close(&ports[2]) == SCQ_OK);
    CHECK(atomic_load(&blocks) == 0);
}

int main(int count, char **words) {
    CHECK(count == 2);
    const long queues = strtol(words[1], NULL, 10);
    refused();
    without_memory();
    left_with_the_queue();
    for (long i = 0; i < queues; i++) queue_of(1, SCQ_MAX_LIMIT);
    for (long i = 0; i < queues; i++) queue_of(0, SCQ_MAX_LIMIT);
    /* Tickets run out while ports hold buffers. */
    for (long i = 0; i < queues; i++) queue_of(1, 8 * BUFFERS);
    printf("of %ld queues just one port each was told that it was the last, and of %ld nothing was "
           "left\n",
           2 * queues, 3 * queues);
    return 0;
}
