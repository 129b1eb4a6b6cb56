/* Rings of pointers: each answer, several at a time, tickets that run out, waiting by a bell, and
 * that each pointer comes out once, in order, between threads.
 *
 *     ring [POINTERS [THREADS]]
 *
 * sends so many pointers between so many threads (100000 between 8).
 */
#include "scq_ring.h"

#include "scq_bell.h"

#include "check.h"

#include <inttypes.h>
#include <pthread.h>
#include <sched.h>

static const uint64_t most = SCQ_MAX_LIMIT;
static uint64_t numbers[200];

static void closed_and_out_of_range(void) {
    scq_ring ring = SCQ_RING_NONE;
    void *got = &ring, *two[2] = {&ring, &ring};
    size_t done = 77;
    uint32_t order;
    CHECK(scq_ring_push(&ring, got) == SCQ_CLOSED && scq_ring_pop(&ring, &got) == SCQ_CLOSED);
    CHECK(got == NULL && scq_ring_close(&ring) == SCQ_CLOSED);
    CHECK(scq_ring_push_many(&ring, two, 2, &done) == SCQ_CLOSED && done == 0);
    done = 77;
    CHECK(scq_ring_pop_many(&ring, two, 0, &done) == SCQ_CLOSED && done == 0);
    CHECK(two[0] == &ring && two[1] == &ring);
    for (order = 17; order <= 64; order++)
        CHECK(scq_ring_open(order, most, &ring, 1) == SCQ_BAD_ORDER);
    CHECK(scq_ring_open(0, most, &ring, 1) == SCQ_BAD_ORDER);
    CHECK(scq_ring_open(1, most, &ring, 0) == SCQ_BAD_PORTS);
    CHECK(scq_ring_open(1, 15, &ring, 1) == SCQ_BAD_LIMIT);
    CHECK(scq_ring_open(16, most, &ring, 1) == SCQ_OK);
    CHECK(scq_ring_open(16, most, &ring, 1) == SCQ_IS_OPEN);
    CHECK(scq_capacity(&ring.port, &order) == SCQ_OK && order == 65536);
    CHECK(scq_ring_push_many(&ring, two, 0, &done) == SCQ_OK && done == 0);
    CHECK(scq_ring_pop_many(&ring, two, 0, &done) == SCQ_OK && done == 0);
    CHECK(scq_ring_close(&ring) == SCQ_OK && ring.port.at == NULL);
}

static void first_in_first_out(void) {
    scq_ring handles[2] = {SCQ_RING_NONE, SCQ_RING_NONE};
    void *got;
    uint32_t i, count;
    CHECK(scq_ring_open(2, most, handles, 2) == SCQ_OK);
    for (i = 0; i < 4; i++) CHECK(scq_ring_push(&handles[0], &numbers[i]) == SCQ_OK);
    CHECK(scq_ring_push(&handles[1], &numbers[4]) == SCQ_FULL);
    CHECK(scq_count(&handles[1].port, 0, &count) == SCQ_OK && count == 4);
    for (i = 0; i < 4; i++)
        CHECK(scq_ring_pop(&handles[1], &got) == SCQ_OK && got == &numbers[i]);
    CHECK(scq_ring_pop(&handles[1], &got) == SCQ_EMPTY && got == NULL);
    CHECK(scq_ring_push(&handles[1], NULL) == SCQ_OK);
    got = &got;
    CHECK(scq_ring_pop(&handles[0], &got) == SCQ_OK && got == NULL);
    /* What stands in the ring when it ends is left alone. */
    CHECK(scq_ring_push(&handles[0], &numbers[0]) == SCQ_OK);
    CHECK(scq_ring_close(&handles[0]) == SCQ_OK && scq_ring_close(&handles[1]) == SCQ_OK);
}

/* More than are handed on at once, up to the room and to what there is, and past both. */
static void several(void) {
    scq_ring handles[2] = {SCQ_RING_NONE, SCQ_RING_NONE};
    void *in[200], *out[200];
    size_t n, done, i, base = 0;
    for (i = 0; i < 200; i++) in[i] = &numbers[i];
    CHECK(scq_ring_open(7, most, handles, 2) == SCQ_OK);
    for (n = 0; n <= 200; n++) {
        const size_t go = n < 128 ? n : 128;
        for (i = 0; i < 200; i++) out[i] = &base;
        CHECK(scq_ring_push_many(&handles[n % 2], in, n, &done) == (n > 128 ? SCQ_FULL : SCQ_OK));
        CHECK(done == go);
        CHECK(scq_ring_pop_many(&handles[0], out, go / 2, &done) == SCQ_OK && done == go / 2);
        CHECK(scq_ring_pop_many(&handles[1], &out[go / 2], 200 - go / 2, &done) == SCQ_EMPTY);
        CHECK(done == go - go / 2);
        for (i = 0; i < 200; i++) CHECK(out[i] == (i < go ? in[i] : &base));
    }
    CHECK(scq_ring_close(&handles[0]) == SCQ_OK && scq_ring_close(&handles[1]) == SCQ_OK);
}

/* At the limit what was refused isn't in the ring, and what was popped was pushed. */
static void tickets_run_out(void) {
    int way;
    for (way = 0; way < 2; way++) {
        scq_ring handles[2] = {SCQ_RING_NONE, SCQ_RING_NONE};
        void *three[3], *out[3];
        uint64_t pushed = 0, popped = 0, ticket;
        int spent = 0, turn;
        CHECK(scq_ring_open(2, 32, handles, 2) == SCQ_OK);
        for (turn = 0; spent < 20; turn++) {
            scq_ring *const handle = &handles[turn % 2];
            size_t done = 0, i;
            uint32_t answer;
            CHECK(turn < 1000);
            for (i = 0; i < 3; i++) three[i] = &numbers[pushed + i];
            if (way == 0) {
                answer = scq_ring_push(handle, three[0]);
                done = answer == SCQ_OK;
            } else {
                answer = scq_ring_push_many(handle, three, 3, &done);
            }
            pushed += done;
            CHECK(answer == SCQ_OK || answer == SCQ_FULL || answer == SCQ_SPENT);
            spent += answer == SCQ_SPENT;
            CHECK(answer != SCQ_SPENT || scq_spent(&handle->port, &ticket) == SCQ_SPENT);
            answer = way == 0 ? scq_ring_pop(handle, out)
                              : scq_ring_pop_many(handle, out, 3, &done);
            if (way == 0) done = answer == SCQ_OK;
            CHECK(answer == SCQ_OK || answer == SCQ_EMPTY || answer == SCQ_SPENT);
            for (i = 0; i < done; i++) CHECK(out[i] == &numbers[popped + i]);
            popped += done;
        }
        CHECK(pushed >= 20 && popped <= pushed);
        CHECK(scq_ring_close(&handles[0]) == SCQ_OK && scq_ring_close(&handles[1]) == SCQ_OK);
    }
}

/* Who waits makes the steps of a push or a pop by the ring's bell. */
static scq_bell bell;

static void *wait_for_all(void *of) {
    scq_ring *const handle = (scq_ring *)of;
    uint64_t next = 0;
    scq_held held;
    while (scq_bell_take(&bell, &handle->port, 0, SCQ_FOREVER, &held) == SCQ_OK) {
        CHECK(scq_ring_read(&held) == &numbers[next++ % 200]);
        CHECK(scq_bell_give_back(&bell, &handle->port, held.index) == SCQ_OK);
    }
    CHECK(next == 5000);
    return NULL;
}

static void who_waits(void) {
    scq_ring handles[2] = {SCQ_RING_NONE, SCQ_RING_NONE};
    pthread_t thread;
    uint64_t i;
    CHECK(scq_bell_init(&bell) == SCQ_OK && scq_ring_open(1, most, handles, 2) == SCQ_OK);
    CHECK(pthread_create(&thread, NULL, wait_for_all, &handles[1]) == 0);
    for (i = 0; i < 5000; i++) {
        scq_held held;
        CHECK(scq_bell_lend(&bell, &handles[0].port, SCQ_FOREVER, &held) == SCQ_OK);
        scq_ring_write(&held, &numbers[i % 200]);
        CHECK(scq_bell_send(&bell, &handles[0].port, held.index, 0, NULL) == SCQ_OK);
    }
    scq_bell_finish(&bell, scq_line(0));
    pthread_join(thread, NULL);
    CHECK(scq_ring_close(&handles[0]) == SCQ_OK && scq_ring_close(&handles[1]) == SCQ_OK);
    scq_bell_free(&bell);
}

/* Each of the threads pushes boxes of its own and opens what it pops, one by one or several at a
 * time in turn. The boxes of one thread come to each other in their order. */
typedef struct box {
    uint64_t thread, number;
} box;

typedef struct worker {
    scq_ring handle;
    uint64_t number;
    unsigned char apart[SCQ_CACHE_LINE];
} worker;

enum { AT_ONCE = 48 };
static uint64_t each, threads, popped;
static unsigned char *seen; /* of each box */

static void *work(void *of) {
    worker *const me = (worker *)of;
    uint64_t *const next = (uint64_t *)calloc(threads, sizeof *next);
    uint64_t made = 0, round;
    void *mine[AT_ONCE], *got[AT_ONCE];
    size_t have = 0, done, k;
    CHECK(next != NULL);
    for (round = 0; __atomic_load_n(&popped, __ATOMIC_SEQ_CST) < threads * each; round++) {
        const int is_several = round / 8 % 2;
        uint32_t answer;
        for (; have < AT_ONCE && made < each; have++) {
            box *const it = (box *)malloc(sizeof *it);
            CHECK(it != NULL);
            it->thread = me->number;
            it->number = made++;
            mine[have] = it;
        }
        done = 0;
        if (is_several) {
            answer = scq_ring_push_many(&me->handle, mine, have, &done);
            CHECK(done <= have && (answer == SCQ_OK) == (done == have));
        } else if (have != 0) {
            answer = scq_ring_push(&me->handle, mine[0]);
            done = answer == SCQ_OK;
        }
        for (k = done; k < have; k++) mine[k - done] = mine[k];
        have -= done;
        if (is_several) {
            answer = scq_ring_pop_many(&me->handle, got, AT_ONCE - round % 16, &done);
        } else {
            answer = scq_ring_pop(&me->handle, got);
            done = answer == SCQ_OK;
        }
        CHECK(answer == SCQ_OK || answer == SCQ_EMPTY);
        for (k = 0; k < done; k++) {
            box *const it = (box *)got[k];
            CHECK(it->number >= next[it->thread] && it->number < each);
            next[it->thread] = it->number + 1;
            CHECK(__atomic_add_fetch(&seen[it->thread * each + it->number], 1, __ATOMIC_SEQ_CST) ==
                  1);
            free(it);
        }
        __atomic_add_fetch(&popped, done, __ATOMIC_SEQ_CST);
        if (done == 0) sched_yield();
    }
    free(next);
    return NULL;
}

static void between_threads(uint64_t pointers) {
    pthread_t *const all = (pthread_t *)calloc(threads, sizeof *all);
    worker *const workers = (worker *)calloc(threads, sizeof *workers);
    scq_ring *const handles = (scq_ring *)calloc(threads, sizeof *handles);
    uint64_t i;
    each = pointers / threads;
    seen = (unsigned char *)calloc(threads, each);
    CHECK(all != NULL && workers != NULL && handles != NULL && seen != NULL);
    CHECK(scq_ring_open(6, most, handles, threads) == SCQ_OK);
    for (i = 0; i < threads; i++) {
        workers[i].handle = handles[i];
        workers[i].number = i;
        CHECK(pthread_create(&all[i], NULL, work, &workers[i]) == 0);
    }
    for (i = 0; i < threads; i++) pthread_join(all[i], NULL);
    for (i = 0; i < threads * each; i++) CHECK(seen[i] == 1);
    for (i = 0; i < threads; i++) CHECK(scq_ring_close(&workers[i].handle) == SCQ_OK);
    free(all);
    free(workers);
    free(handles);
    free(seen);
    printf("%" PRIu64 " pointers between %" PRIu64 " threads, each once\n", threads * each,
           threads);
}

int main(int count, char **words) {
    const uint64_t pointers = count > 1 ? strtoull(words[1], NULL, 10) : 100000;
    threads = count > 2 ? strtoull(words[2], NULL, 10) : 8;
    closed_and_out_of_range();
    first_in_first_out();
    several();
    tickets_run_out();
    who_waits();
    between_threads(pointers);
    return 0;
}
