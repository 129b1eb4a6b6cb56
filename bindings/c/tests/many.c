/* Calls of several buffers, and counts: each answer, how many went, and which slots were written.
 */
#include "scq.h"

#include "check.h"

#include <string.h>

static const uint64_t most = SCQ_MAX_LIMIT;
enum { SLOTS = 8 };

/* Slots that no call has written. */
static const scq_held untouched = {NULL, 77, 77, 77, 77};

static void clear(scq_held held[SLOTS]) {
    for (int i = 0; i < SLOTS; i++) held[i] = untouched;
}

static int is_untouched(const scq_held *held) {
    return held->at == NULL && held->len == 77 && held->place == 77 && held->index == 77;
}

/* A port that is closed, and no slots at all. */
static void closed_and_none(void) {
    scq_port port = SCQ_NONE;
    scq_held held[SLOTS];
    size_t done = 77;
    uint32_t number = 77;
    clear(held);
    CHECK(scq_lend_many(&port, held, SLOTS, &done) == SCQ_CLOSED && done == 0);
    CHECK(scq_take_many(&port, 0, held, SLOTS, &done) == SCQ_CLOSED && done == 0);
    CHECK(scq_send_many(&port, held, SLOTS, 0, &done) == SCQ_CLOSED && done == 0);
    CHECK(scq_give_back_many(&port, held, SLOTS, &done) == SCQ_CLOSED && done == 0);
    CHECK(scq_capacity(&port, &number) == SCQ_CLOSED && scq_count(&port, 0, &number) == SCQ_CLOSED);
    CHECK(number == 77);
    for (int i = 0; i < SLOTS; i++) CHECK(is_untouched(&held[i]));
    CHECK(scq_open(1, 1, 8, 2, most, &port, 1) == SCQ_OK);
    CHECK(scq_lend_many(&port, held, 0, &done) == SCQ_OK && done == 0);
    CHECK(scq_take_many(&port, 9, held, 0, &done) == SCQ_OK && done == 0);
    CHECK(scq_send_many(&port, held, 0, 9, &done) == SCQ_OK && done == 0);
    CHECK(scq_give_back_many(&port, held, 0, &done) == SCQ_OK && done == 0);
    CHECK(is_untouched(&held[0]) && scq_close(&port) == SCQ_OK);
}

/* Rounds of several, with each refusal but that tickets have run out. */
static void rounds(void) {
    scq_port ports[2] = {SCQ_NONE, SCQ_NONE};
    scq_held held[SLOTS], taken[SLOTS];
    scq_counts counts;
    size_t done;
    uint32_t number;
    CHECK(scq_open(2, 2, 100, 3, most, ports, 2) == SCQ_OK);
    CHECK(scq_capacity(&ports[1], &number) == SCQ_OK && number == 4);
    CHECK(scq_count(&ports[1], 0, &number) == SCQ_OK && number == 0);
    number = 77;
    CHECK(scq_count(&ports[1], 2, &number) == SCQ_NO_TOPIC && number == 77);
    clear(held);
    clear(taken);
    CHECK(scq_lend_many(&ports[0], held, SLOTS, &done) == SCQ_NO_ROOM && done == 3);
    for (int i = 0; i < 3; i++) {
        CHECK(held[i].at != NULL && held[i].len == 100 && held[i].place == 0);
        for (int j = 0; j < i; j++) CHECK(held[i].index != held[j].index);
        memset(held[i].at, 'a' + i, 100);
    }
    for (int i = 3; i < SLOTS; i++) CHECK(is_untouched(&held[i]));
    CHECK(scq_lend_many(&ports[1], taken, 2, &done) == SCQ_FULL && done == 1);
    CHECK(taken[0].len == 100 && is_untouched(&taken[1]));
    CHECK(scq_give_back_many(&ports[1], taken, 1, &done) == SCQ_OK && done == 1);
    CHECK(scq_give_back_many(&ports[1], taken, 1, &done) == SCQ_NOT_HELD && done == 0);
    CHECK(scq_send_many(&ports[0], held, 3, 2, &done) == SCQ_NO_TOPIC && done == 0);
    /* The slot behind the three names no buffer that is held: it is as it was. */
    CHECK(scq_send_many(&ports[0], held, 4, 1, &done) == SCQ_NOT_HELD && done == 3);
    CHECK(held[0].place < held[1].place && held[1].place < held[2].place);
    CHECK(is_untouched(&held[3]));
    CHECK(scq_count(&ports[0], 1, &number) == SCQ_OK && number == 3);
    CHECK(scq_count(&ports[0], 0, &number) == SCQ_OK && number == 0);
    clear(taken);
    CHECK(scq_take_many(&ports[1], 2, taken, SLOTS, &done) == SCQ_NO_TOPIC && done == 0);
    CHECK(scq_take_many(&ports[1], 1, taken, 2, &done) == SCQ_OK && done == 2);
    CHECK(scq_take_many(&ports[1], 1, &taken[2], 2, &done) == SCQ_NO_ROOM && done == 1);
    CHECK(scq_take_many(&ports[0], 1, held, 2, &done) == SCQ_EMPTY && done == 0);
    for (int i = 0; i < 3; i++) {
        CHECK(taken[i].at == held[i].at && taken[i].len == 100 && taken[i].place == held[i].place);
        CHECK(taken[i].index == held[i].index && taken[i].at[99] == 'a' + i);
    }
    CHECK(is_untouched(&taken[3]));
    /* One that is named twice goes once. */
    taken[3] = taken[0];
    CHECK(scq_give_back_many(&ports[1], taken, 4, &done) == SCQ_NOT_HELD && done == 3);
    CHECK(scq_lend_many(&ports[0], held, 2, &done) == SCQ_OK && done == 2);
    CHECK(scq_retire(&ports[0]) == SCQ_OK);
    CHECK(scq_send_many(&ports[0], held, 2, 0, &done) == SCQ_RETIRED && done == 0);
    CHECK(scq_send_many(&ports[0], held, 2, 2, &done) == SCQ_NO_TOPIC && done == 0);
    CHECK(scq_counts_of(&ports[0], &counts) == SCQ_OK && counts.sent == 3 && counts.taken == 0);
    CHECK(scq_counts_of(&ports[1], &counts) == SCQ_OK && counts.taken == 3 && counts.full == 1);
    CHECK(scq_close(&ports[0]) == SCQ_OK && scq_close(&ports[1]) == SCQ_OK);
}

/* Tickets run out in the middle: of the free buffers, and of a topic. */
static void tickets(void) {
    scq_port ports[2] = {SCQ_NONE, SCQ_NONE};
    scq_held held[SLOTS];
    size_t done = 0;
    uint32_t answer;
    uint64_t ticket;
    CHECK(scq_open(1, 1, 8, 2, 16, ports, 2) == SCQ_OK);
    do {
        clear(held);
        answer = scq_lend_many(&ports[0], held, 2, &done);
        for (size_t i = done; i < SLOTS; i++) CHECK(is_untouched(&held[i]));
        if (answer == SCQ_OK) answer = scq_give_back_many(&ports[0], held, 2, &done);
    } while (answer == SCQ_OK);
    CHECK(answer == SCQ_SPENT && scq_spent(&ports[0], &ticket) == SCQ_SPENT && ticket >= 16);
    CHECK(scq_take_many(&ports[0], 0, held, 0, &done) == SCQ_OK);
    CHECK(scq_close(&ports[0]) == SCQ_OK && scq_close(&ports[1]) == SCQ_OK);
    CHECK(scq_open(1, 1, 8, 2, 16, ports, 2) == SCQ_OK);
    CHECK(scq_lend_many(&ports[0], held, 2, &done) == SCQ_OK);
    while ((answer = scq_send_many(&ports[0], held, 2, 0, &done)) == SCQ_OK) {
        if ((answer = scq_take_many(&ports[0], 0, held, 2, &done)) != SCQ_OK) break;
    }
    CHECK(answer == SCQ_SPENT && done < 2);
    CHECK(scq_close(&ports[0]) == SCQ_OK && scq_close(&ports[1]) == SCQ_OK);
}

/* A count is never above how many buffers there are, whatever was drawn before. */
static void counts(void) {
    scq_port port = SCQ_NONE;
    scq_held held[SLOTS];
    size_t done;
    uint32_t number;
    CHECK(scq_open(2, 1, 8, 4, most, &port, 1) == SCQ_OK);
    for (int turn = 0; turn < 100; turn++) {
        CHECK(scq_lend_many(&port, held, 4, &done) == SCQ_OK);
        CHECK(scq_send_many(&port, held, 4, 0, &done) == SCQ_OK && done == 4);
        CHECK(scq_count(&port, 0, &number) == SCQ_OK && number == 4);
        CHECK(scq_take_many(&port, 0, held, SLOTS, &done) == SCQ_NO_ROOM && done == 4);
        CHECK(scq_count(&port, 0, &number) == SCQ_OK && number == 0);
        CHECK(scq_give_back_many(&port, held, 4, &done) == SCQ_OK);
        while (turn % 10 == 0 && scq_take(&port, 0, held) != SCQ_EMPTY) continue;
        CHECK(scq_count(&port, 0, &number) == SCQ_OK && number <= 4);
    }
    CHECK(scq_close(&port) == SCQ_OK);
}

int main(void) {
    closed_and_none();
    rounds();
    tickets();
    counts();
    puts("each went that could, and no slot behind them was written");
    return 0;
}
