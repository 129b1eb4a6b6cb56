/* Makes each call so that it answers each of its answers, SCQ_NO_MEMORY aside, and looks at what it
 * left. */
#include "scq.h"

#include "check.h"

#include <string.h>

enum call { OPEN, LEND, TAKE, SEND, GIVE_BACK, RETIRE, RETIRED, COUNTS_OF, SPENT, CLOSE, CALLS };

/* For each call a bit for each answer that it had. */
static uint32_t had[CALLS];

static uint32_t noted(enum call call, uint32_t answer) {
    CHECK(answer <= SCQ_RETIRED);
    had[call] |= UINT32_C(1) << answer;
    return answer;
}

#define open_(order, topics, size, hold, limit, ports, n)                                          \
    noted(OPEN, scq_open(order, topics, size, hold, limit, ports, n))
#define lend(port, out) noted(LEND, scq_lend(port, out))
#define take(port, topic, out) noted(TAKE, scq_take(port, topic, out))
#define send(port, index, topic, place) noted(SEND, scq_send(port, index, topic, place))
#define give_back(port, index) noted(GIVE_BACK, scq_give_back(port, index))
#define retire(port) noted(RETIRE, scq_retire(port))
#define retired(port) noted(RETIRED, scq_retired(port))
#define counts_of(port, out) noted(COUNTS_OF, scq_counts_of(port, out))
#define spent(port, ticket) noted(SPENT, scq_spent(port, ticket))
#define close_(port) noted(CLOSE, scq_close(port))

static const uint64_t most = SCQ_MAX_LIMIT;

/* A port that was never opened, or was closed. */
static void closed_ones(scq_port *port) {
    unsigned char byte = 7;
    scq_held held = {&byte, 1, 77, 0, 0};
    scq_counts counts = {7, 7, 7};
    uint64_t number = 77;
    CHECK(lend(port, &held) == SCQ_CLOSED && held.at == NULL && held.len == 0);
    held.at = &byte;
    CHECK(take(port, 0, &held) == SCQ_CLOSED && held.at == NULL && held.len == 0);
    CHECK(send(port, 0, 0, &number) == SCQ_CLOSED);
    CHECK(give_back(port, 0) == SCQ_CLOSED);
    CHECK(counts_of(port, &counts) == SCQ_CLOSED);
    CHECK(spent(port, &number) == SCQ_CLOSED);
    CHECK(close_(port) == SCQ_CLOSED);
    CHECK(port->at == NULL && port->memory.base == NULL && port->memory.block == NULL);
    CHECK(held.place == 77 && number == 77 && counts.sent == 7);
}

static void openings(void) {
    scq_port ports[3] = {SCQ_NONE, SCQ_NONE, SCQ_NONE};
    scq_port *many = calloc(4097, sizeof *many);
    CHECK(many != NULL);
    CHECK(open_(0, 1, 8, 2, most, ports, 3) == SCQ_BAD_ORDER);
    CHECK(open_(17, 1, 8, 2, most, ports, 3) == SCQ_BAD_ORDER);
    CHECK(open_(UINT32_MAX, 1, 8, 2, most, ports, 3) == SCQ_BAD_ORDER);
    CHECK(open_(1, 0, 8, 2, most, ports, 3) == SCQ_BAD_TOPICS);
    CHECK(open_(1, 32, 8, 2, most, ports, 3) == SCQ_BAD_TOPICS);
    CHECK(open_(1, UINT32_MAX, 8, 2, most, ports, 3) == SCQ_BAD_TOPICS);
    CHECK(open_(1, 1, 0, 2, most, ports, 3) == SCQ_BAD_SIZE);
    CHECK(open_(1, 1, 8, 0, most, ports, 3) == SCQ_BAD_HOLD);
    CHECK(open_(1, 1, 8, 3, most, ports, 3) == SCQ_BAD_HOLD);
    CHECK(open_(16, 1, 8, 65537, most, ports, 3) == SCQ_BAD_HOLD);
    CHECK(open_(1, 1, 8, 2, 15, ports, 3) == SCQ_BAD_LIMIT);
    CHECK(open_(1, 1, 8, 2, most + 1, ports, 3) == SCQ_BAD_LIMIT);
    CHECK(open_(1, 1, 8, 2, UINT64_MAX, ports, 3) == SCQ_BAD_LIMIT);
    CHECK(open_(1, 1, 8, 2, most, ports, 0) == SCQ_BAD_PORTS);
    CHECK(open_(1, 1, 8, 2, most, many, 4097) == SCQ_BAD_PORTS);
    CHECK(open_(1, 1, 8, 2, most, ports, SIZE_MAX) ==
          SCQ_BAD_PORTS); /* none of them is looked at */
    for (int i = 0; i < 3; i++) CHECK(ports[i].at == NULL);
    CHECK(open_(12, 31, 1, 4096, most, many, 4096) == SCQ_OK);
    for (int i = 0; i < 4096; i++) CHECK(close_(&many[i]) == SCQ_OK);
    CHECK(open_(1, 1, 1, 1, 16, &ports[1], 1) == SCQ_OK);
    void *was = ports[1].at;
    CHECK(open_(1, 1, 8, 2, most, ports, 3) == SCQ_IS_OPEN);
    CHECK(ports[0].at == NULL && ports[1].at == was && ports[2].at == NULL);
    CHECK(close_(&ports[1]) == SCQ_OK);
    for (int i = 0; i < 3; i++) closed_ones(&ports[i]);
    free(many);
}

/* A round between two ports, on the second of two topics. */
static void round_of(scq_port *one, scq_port *two) {
    scq_held lent, taken;
    scq_counts counts;
    uint64_t place, number = 77;
    CHECK(lend(one, &lent) == SCQ_OK && lent.len == 8 && lent.place == 0 && lent.index < 2);
    CHECK(memcmp(lent.at, "\0\0\0\0\0\0\0\0", 8) == 0);
    memcpy(lent.at, "message", 8);
    for (uint32_t index = 0; index < 5000; index++) {
        if (index != lent.index)
            CHECK(send(one, index, 1, &number) == SCQ_NOT_HELD &&
                  give_back(one, index) == SCQ_NOT_HELD);
        CHECK(send(two, index, 1, &number) == SCQ_NOT_HELD &&
              give_back(two, index) == SCQ_NOT_HELD);
    }
    CHECK(send(one, UINT32_MAX, 1, &number) == SCQ_NOT_HELD &&
          give_back(one, UINT32_MAX) == SCQ_NOT_HELD);
    CHECK(send(one, lent.index, 2, &number) == SCQ_NO_TOPIC &&
          send(one, lent.index, UINT32_MAX, &number) == SCQ_NO_TOPIC);
    CHECK(number == 77 && memcmp(lent.at, "message", 8) == 0);
    CHECK(send(one, lent.index, 1, &place) == SCQ_OK);
    CHECK(send(one, lent.index, 1, &number) == SCQ_NOT_HELD &&
          give_back(one, lent.index) == SCQ_NOT_HELD);
    CHECK(take(two, 2, &taken) == SCQ_NO_TOPIC && take(two, UINT32_MAX, &taken) == SCQ_NO_TOPIC);
    CHECK(take(two, 0, &taken) == SCQ_EMPTY);
    CHECK(take(two, 1, &taken) == SCQ_OK && taken.place == place && taken.index == lent.index &&
          taken.at == lent.at && taken.len == 8);
    CHECK(memcmp(taken.at, "message", 8) == 0);
    CHECK(take(two, 1, &lent) == SCQ_EMPTY && lent.place > place && lent.at == NULL &&
          lent.len == 0);
    CHECK(send(two, taken.index, 0, &place) == SCQ_OK);
    CHECK(take(one, 0, &lent) == SCQ_OK && lent.at == taken.at && lent.place == place &&
          memcmp(lent.at, "message", 8) == 0);
    CHECK(give_back(one, lent.index) == SCQ_OK && give_back(one, lent.index) == SCQ_NOT_HELD);
    CHECK(counts_of(one, &counts) == SCQ_OK && counts.sent == 1 && counts.taken == 1 &&
          counts.full == 0);
    CHECK(counts_of(two, &counts) == SCQ_OK && counts.sent == 1 && counts.taken == 1 &&
          counts.full == 0);
}

/* Several buffers held, sent in another order than they came; a port that may hold no more; and
 * none that is free. */
static void several(void) {
    scq_port ports[2] = {SCQ_NONE, SCQ_NONE};
    scq_held held[5], last;
    scq_counts counts;
    uint64_t place, before = 0;
    CHECK(open_(2, 1, 100, 3, most, ports, 2) == SCQ_OK);
    for (int i = 0; i < 3; i++) CHECK(lend(&ports[0], &held[i]) == SCQ_OK && held[i].place == 0);
    CHECK(lend(&ports[0], &held[3]) == SCQ_NO_ROOM && take(&ports[0], 0, &held[3]) == SCQ_NO_ROOM &&
          held[3].at == NULL && held[3].len == 0);
    CHECK(lend(&ports[1], &held[3]) == SCQ_OK && lend(&ports[1], &held[4]) == SCQ_FULL &&
          held[4].at == NULL && held[4].len == 0);
    for (int i = 0; i < 4; i++) {
        memset(held[i].at, 'a' + i, 100);
        for (int j = 0; j < i; j++) CHECK(held[i].index != held[j].index);
    }
    for (int i = 0; i < 4; i++)
        for (int j = 0; j < 100; j++) CHECK(held[i].at[j] == 'a' + i);
    CHECK(counts_of(&ports[1], &counts) == SCQ_OK && counts.full == 1);
    const int order[3] = {1, 2, 0};
    for (int i = 0; i < 3; i++) {
        CHECK(send(&ports[0], held[order[i]].index, 0, &place) == SCQ_OK &&
              (i == 0 || place > before));
        before = place;
    }
    CHECK(give_back(&ports[1], held[3].index) == SCQ_OK);
    for (int i = 0; i < 3; i++)
        CHECK(take(&ports[1], 0, &last) == SCQ_OK && last.index == held[order[i]].index &&
              last.at[99] == 'a' + order[i]);
    CHECK(take(&ports[1], 0, &last) == SCQ_NO_ROOM);
    /* What the one port holds is lent to the other, once the one is closed. */
    CHECK(lend(&ports[0], &last) == SCQ_OK && last.index == held[3].index && last.place == 0);
    CHECK(lend(&ports[0], &last) == SCQ_FULL);
    CHECK(close_(&ports[1]) == SCQ_OK);
    CHECK(lend(&ports[0], &last) == SCQ_OK && lend(&ports[0], &last) == SCQ_OK &&
          lend(&ports[0], &last) == SCQ_NO_ROOM);
    CHECK(close_(&ports[0]) == SCQ_OK);
}

/* What a port is answered to each call that needs a ticket, once it has drawn one at or past the
 * limit. */
static void spent_ones(scq_port *port, uint64_t limit, const scq_held *held, uint32_t count) {
    scq_held out = {NULL, 0, 0, 0, 0};
    uint64_t ticket = 0, number = 0;
    CHECK(spent(port, &ticket) == SCQ_SPENT && ticket >= limit);
    CHECK(take(port, 0, &out) == SCQ_SPENT && out.place == ticket && out.at == NULL);
    if (count == 0) {
        out.place = 0;
        CHECK(lend(port, &out) == SCQ_SPENT && out.place == ticket && out.at == NULL);
        return;
    }
    CHECK(send(port, held->index, 0, &number) == SCQ_SPENT && number == ticket);
    CHECK(give_back(port, held->index) == SCQ_SPENT);
    CHECK(send(port, held->index, 1, &number) == SCQ_NO_TOPIC &&
          send(port, held->index + 1, 0, &number) == SCQ_NOT_HELD);
}

/* Each of three ports lends and gives back until it meets the limit: the first ones in giving back,
 * and keep their buffer. */
static void tickets(void) {
    scq_port ports[3] = {SCQ_NONE, SCQ_NONE, SCQ_NONE};
    scq_held held;
    uint64_t ticket;
    CHECK(open_(1, 1, 8, 2, 16, ports, 3) == SCQ_OK);
    for (int i = 0; i < 3; i++) {
        uint32_t answer, holds = 0;
        CHECK(spent(&ports[i], &ticket) == SCQ_OK);
        while ((answer = lend(&ports[i], &held)) == SCQ_OK) {
            holds = 1;
            if ((answer = give_back(&ports[i], held.index)) != SCQ_OK) break;
            holds = 0;
        }
        if (answer == SCQ_FULL) break; /* the others keep both buffers */
        CHECK(answer == SCQ_SPENT);
        spent_ones(&ports[i], 16, &held, holds);
    }
    for (int i = 0; i < 3; i++)
        CHECK(close_(&ports[i]) == SCQ_OK && close_(&ports[i]) == SCQ_CLOSED);
    /* The same on a topic, where a send meets it, and then a take. */
    CHECK(open_(1, 1, 8, 1, 16, ports, 3) == SCQ_OK);
    for (int i = 0; i < 2; i++) {
        uint64_t place;
        uint32_t answer;
        for (;;) {
            if ((answer = lend(&ports[i], &held)) != SCQ_OK) break;
            if ((answer = send(&ports[i], held.index, 0, &place)) != SCQ_OK) break;
            if ((answer = take(&ports[i], 0, &held)) != SCQ_OK) break;
            if ((answer = give_back(&ports[i], held.index)) != SCQ_OK) break;
        }
        CHECK(answer == SCQ_SPENT && spent(&ports[i], &ticket) == SCQ_SPENT);
    }
    for (int i = 0; i < 3; i++) CHECK(close_(&ports[i]) == SCQ_OK);
}

/* Two queues side by side, and a port that is moved. */
static void queues(void) {
    scq_port one[2] = {SCQ_NONE, SCQ_NONE}, two[2] = {SCQ_NONE, SCQ_NONE};
    scq_held held, other;
    uint64_t place;
    CHECK(open_(1, 2, 8, 2, most, one, 2) == SCQ_OK && open_(3, 2, 8, 2, most, two, 2) == SCQ_OK);
    CHECK(lend(&one[0], &held) == SCQ_OK);
    for (uint32_t index = 0; index < 8; index++)
        CHECK(send(&two[0], index, 0, &place) == SCQ_NOT_HELD);
    CHECK(send(&one[0], held.index, 0, &place) == SCQ_OK && take(&two[1], 0, &other) == SCQ_EMPTY);
    scq_port moved = one[1];
    one[1] = SCQ_NONE;
    closed_ones(&one[1]);
    CHECK(take(&moved, 0, &other) == SCQ_OK && other.at == held.at);
    CHECK(close_(&one[0]) == SCQ_OK && close_(&moved) == SCQ_OK);
    CHECK(lend(&two[1], &held) == SCQ_OK && close_(&two[1]) == SCQ_OK && close_(&two[0]) == SCQ_OK);
}

/* Ports that retire, one after the other, the last by its close: none sends then, and all else goes
 * on. */
static void retiring(void) {
    scq_port ports[3] = {SCQ_NONE, SCQ_NONE, SCQ_NONE};
    scq_held first, second, taken;
    uint64_t place = 0, number = 77;
    CHECK(open_(1, 1, 8, 2, most, ports, 3) == SCQ_OK && retired(&ports[0]) == SCQ_OK);
    CHECK(lend(&ports[0], &first) == SCQ_OK && lend(&ports[0], &second) == SCQ_OK &&
          send(&ports[0], first.index, 0, &place) == SCQ_OK);
    CHECK(retire(&ports[0]) == SCQ_OK && retire(&ports[0]) == SCQ_OK &&
          retired(&ports[0]) == SCQ_OK);
    CHECK(send(&ports[0], second.index, 0, &number) == SCQ_RETIRED &&
          send(&ports[0], second.index, 1, &number) == SCQ_NO_TOPIC && number == 77);
    CHECK(give_back(&ports[0], second.index) == SCQ_OK && lend(&ports[0], &second) == SCQ_OK &&
          give_back(&ports[0], second.index) == SCQ_OK);
    CHECK(retire(&ports[1]) == SCQ_OK && retired(&ports[1]) == SCQ_OK &&
          close_(&ports[2]) == SCQ_OK);
    CHECK(retire(&ports[2]) == SCQ_CLOSED && retired(&ports[2]) == SCQ_CLOSED);
    CHECK(retired(&ports[1]) == SCQ_RETIRED && retired(&ports[0]) == SCQ_RETIRED &&
          retired(&ports[1]) == SCQ_RETIRED);
    CHECK(take(&ports[1], 0, &taken) == SCQ_OK && taken.place == place &&
          take(&ports[1], 0, &taken) == SCQ_EMPTY);
    CHECK(close_(&ports[0]) == SCQ_OK && retired(&ports[1]) == SCQ_RETIRED &&
          close_(&ports[1]) == SCQ_OK);
}

int main(void) {
    static const uint32_t all[CALLS] = {
        [OPEN] = 1u << SCQ_OK | 1u << SCQ_BAD_ORDER | 1u << SCQ_BAD_TOPICS | 1u << SCQ_BAD_PORTS |
                 1u << SCQ_BAD_LIMIT | 1u << SCQ_BAD_SIZE | 1u << SCQ_BAD_HOLD | 1u << SCQ_IS_OPEN,
        [LEND] =
            1u << SCQ_OK | 1u << SCQ_FULL | 1u << SCQ_SPENT | 1u << SCQ_CLOSED | 1u << SCQ_NO_ROOM,
        [TAKE] = 1u << SCQ_OK | 1u << SCQ_EMPTY | 1u << SCQ_SPENT | 1u << SCQ_CLOSED |
                 1u << SCQ_NO_TOPIC | 1u << SCQ_NO_ROOM,
        [SEND] = 1u << SCQ_OK | 1u << SCQ_SPENT | 1u << SCQ_CLOSED | 1u << SCQ_NO_TOPIC |
                 1u << SCQ_NOT_HELD | 1u << SCQ_RETIRED,
        [RETIRE] = 1u << SCQ_OK | 1u << SCQ_CLOSED,
        [RETIRED] = 1u << SCQ_OK | 1u << SCQ_RETIRED | 1u << SCQ_CLOSED,
        [GIVE_BACK] = 1u << SCQ_OK | 1u << SCQ_SPENT | 1u << SCQ_CLOSED | 1u << SCQ_NOT_HELD,
        [COUNTS_OF] = 1u << SCQ_OK | 1u << SCQ_CLOSED,
        [SPENT] = 1u << SCQ_OK | 1u << SCQ_SPENT | 1u << SCQ_CLOSED,
        [CLOSE] = 1u << SCQ_OK | 1u << SCQ_CLOSED,
    };
    scq_port ports[2] = {SCQ_NONE, SCQ_NONE};
    int count = 0;
    CHECK(scq_version() == SCQ_VERSION);
    for (uint32_t answer = 0; answer <= SCQ_RETIRED; answer++)
        CHECK(strcmp(scq_text(answer), scq_text(SCQ_RETIRED + 1)) != 0);
    openings();
    CHECK(open_(1, 2, 8, 2, most, ports, 2) == SCQ_OK);
    round_of(&ports[0], &ports[1]);
    CHECK(close_(&ports[0]) == SCQ_OK && close_(&ports[1]) == SCQ_OK);
    several();
    retiring();
    tickets();
    queues();
    for (int call = 0; call < CALLS; call++) {
        CHECK(had[call] == all[call]);
        for (uint32_t bits = had[call]; bits != 0; bits &= bits - 1) count++;
    }
    printf("%d answers, each as it should be\n", count);
    return 0;
}
