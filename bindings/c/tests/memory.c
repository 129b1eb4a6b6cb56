/* memory [resident]: where the bytes of buffers lie: that scq_open begins each at a line of its
 * own, and that none of two buffers meet; that a queue over memory of the caller's lies there, and
 * nobody but the caller writes it; and what is refused. With a word it also sees that opening
 * touches no byte of the buffers, by what the process has in memory. */
#include "scq.h"

#include "check.h"

#include <string.h>

enum { ORDER = 4, BUFFERS = 1 << ORDER };

/* Where a buffer with this index has to lie. */
static unsigned char *place_of(const scq_port *port, uint32_t index) {
    return port->memory.base + index * port->memory.stride;
}

/* Lends all buffers of a queue, each of which is to lie where its index says. */
static void lend_all(scq_port *port, scq_held *held, size_t len) {
    for (uint32_t i = 0; i < BUFFERS; i++) {
        CHECK(scq_lend(port, &held[i]) == SCQ_OK);
        CHECK(held[i].index < BUFFERS && held[i].at == place_of(port, held[i].index) &&
              held[i].len == len);
        for (uint32_t j = 0; j < i; j++) CHECK(held[i].index != held[j].index);
    }
}

/* Fills each buffer with bytes of its own, sends them all, and takes them at another port, with the
 * bytes that were sent. */
static void pass_all(scq_port *from, scq_port *to, size_t len) {
    scq_held held[BUFFERS], taken;
    uint64_t place;
    lend_all(from, held, len);
    for (uint32_t i = 0; i < BUFFERS; i++) memset(held[i].at, 'a' + (int)i, len);
    for (uint32_t i = 0; i < BUFFERS; i++)
        CHECK(scq_send(from, held[i].index, 0, &place) == SCQ_OK);
    for (uint32_t i = 0; i < BUFFERS; i++) {
        CHECK(scq_take(to, 0, &taken) == SCQ_OK && taken.index == held[i].index &&
              taken.at == held[i].at && taken.len == len);
        for (size_t at = 0; at < len; at++) CHECK(taken.at[at] == 'a' + (int)i);
        CHECK(scq_give_back(to, taken.index) == SCQ_OK);
    }
}

static void lines(void) {
    for (uint32_t size = 1; size <= 200; size++) {
        scq_port ports[2] = {SCQ_NONE, SCQ_NONE};
        scq_held held[BUFFERS];
        CHECK(scq_open(ORDER, 1, size, BUFFERS, SCQ_MAX_LIMIT, ports, 2) == SCQ_OK);
        CHECK((uintptr_t)ports[0].memory.base % SCQ_CACHE_LINE == 0 &&
              ports[0].memory.stride % SCQ_CACHE_LINE == 0);
        CHECK(ports[0].memory.stride >= size && ports[0].memory.stride < size + SCQ_CACHE_LINE);
        lend_all(&ports[0], held, size);
        for (uint32_t i = 0; i < BUFFERS; i++) {
            for (size_t at = 0; at < size; at++) CHECK(held[i].at[at] == 0);
            CHECK(scq_give_back(&ports[0], held[i].index) == SCQ_OK);
        }
        pass_all(&ports[0], &ports[1], size);
        CHECK(scq_close(&ports[0]) == SCQ_OK && scq_close(&ports[1]) == SCQ_OK &&
              ports[1].memory.block == NULL);
    }
}

/* Over memory of the caller's, which begins anywhere: every call is made, and not a byte changes
 * but those that are written here. */
static void own_memory(void) {
    enum { STRIDE = 37, LEN = 30, BEFORE = 3 };
    static unsigned char bytes[BEFORE + BUFFERS * STRIDE], as_they_were[sizeof bytes];
    const scq_memory memory = {bytes + BEFORE, STRIDE, LEN, NULL};
    scq_port ports[2] = {SCQ_NONE, SCQ_NONE};
    scq_held held[BUFFERS], taken;
    scq_ended ended = {7};
    scq_counts counts[2] = {{0, 0, 0}, {0, 0, 0}};
    uint64_t place;
    for (size_t at = 0; at < sizeof bytes; at++)
        bytes[at] = as_they_were[at] = (unsigned char)(at * 7 + 1);
    CHECK(scq_open_over(ORDER, 2, BUFFERS, SCQ_MAX_LIMIT, &memory, ports, 2) == SCQ_OK);
    lend_all(&ports[0], held, LEN);
    CHECK(scq_lend(&ports[1], &taken) == SCQ_FULL);
    for (uint32_t i = 0; i < BUFFERS; i += 2)
        CHECK(scq_send(&ports[0], held[i].index, i % 4 / 2, &place) == SCQ_OK);
    for (uint32_t i = 0; i < BUFFERS; i += 4)
        CHECK(scq_take(&ports[1], 1, &taken) == SCQ_OK &&
              scq_send(&ports[1], taken.index, 0, &place) == SCQ_OK);
    for (uint32_t i = 1; i < BUFFERS; i += 4)
        CHECK(scq_give_back(&ports[0], held[i].index) == SCQ_OK);
    CHECK(memcmp(bytes, as_they_were, sizeof bytes) == 0);
    CHECK(scq_end(&ports[0], &ended, counts, 2) == SCQ_OK && ended.last == 0 &&
          counts[0].sent == 0);
    CHECK(scq_end(&ports[1], &ended, counts, 1) == SCQ_OK && ended.last == 1 &&
          counts[0].sent == BUFFERS / 2 && counts[1].sent == 0);
    CHECK(scq_end(&ports[1], &ended, counts, 2) == SCQ_CLOSED && ended.last == 1 &&
          counts[0].sent == BUFFERS / 2);
    CHECK(memcmp(bytes, as_they_were, sizeof bytes) == 0);

    ports[0] = ports[1] = SCQ_NONE;
    CHECK(scq_open_over(ORDER, 1, BUFFERS, SCQ_MAX_LIMIT, &memory, ports, 2) == SCQ_OK);
    pass_all(&ports[0], &ports[1], LEN);
    CHECK(scq_close(&ports[1]) == SCQ_OK && scq_close(&ports[0]) == SCQ_OK &&
          ports[0].memory.base == NULL);
    for (size_t at = 0; at < sizeof bytes; at++) {
        const int between = at < BEFORE || (at - BEFORE) % STRIDE >= LEN;
        CHECK(!between || bytes[at] == as_they_were[at]);
    }
}

static void refusals(void) {
    unsigned char bytes[64];
    scq_memory memory = {bytes, 32, 0, NULL};
    scq_port port = SCQ_NONE;
    CHECK(scq_open_over(1, 1, 1, SCQ_MAX_LIMIT, &memory, &port, 1) == SCQ_BAD_SIZE);
    memory.len = 33;
    CHECK(scq_open_over(1, 1, 1, SCQ_MAX_LIMIT, &memory, &port, 1) == SCQ_BAD_SIZE);
    memory.len = 32;
    CHECK(scq_open_over(1, 0, 1, SCQ_MAX_LIMIT, &memory, &port, 1) == SCQ_BAD_TOPICS);
    CHECK(port.at == NULL && port.memory.base == NULL && port.memory.stride == 0);
    CHECK(scq_open_over(1, 1, 1, SCQ_MAX_LIMIT, &memory, &port, 1) == SCQ_OK &&
          port.memory.base == bytes);
    memory.base = NULL;
    CHECK(scq_open_over(1, 1, 1, SCQ_MAX_LIMIT, &memory, &port, 1) == SCQ_IS_OPEN &&
          port.memory.base == bytes);
    CHECK(scq_close(&port) == SCQ_OK);
    /* 16 terabytes, which no processor's memory has. */
    CHECK(scq_open(SCQ_MAX_ORDER, 1, UINT32_MAX, 1, SCQ_MAX_LIMIT, &port, 1) == SCQ_NO_MEMORY &&
          port.at == NULL);
}

/* How many bytes of the process are in memory. */
static uint64_t resident(void) {
    unsigned long long all, here;
    FILE *file = fopen("/proc/self/statm", "r");
    CHECK(file != NULL && fscanf(file, "%llu %llu", &all, &here) == 2 && fclose(file) == 0);
    return here * 4096;
}

static void nothing_is_touched(void) {
    scq_port port = SCQ_NONE;
    scq_held held;
    const uint64_t before = resident();
    CHECK(scq_open(ORDER, 1, UINT32_C(1) << 24, 1, SCQ_MAX_LIMIT, &port, 1) == SCQ_OK);
    CHECK(scq_lend(&port, &held) == SCQ_OK && resident() - before < UINT32_C(1) << 20);
    memset(held.at, 1, held.len);
    CHECK(resident() - before >= UINT32_C(1) << 24);
    CHECK(scq_close(&port) == SCQ_OK);
}

int main(int count, char **words) {
    (void)words;
    lines();
    own_memory();
    refusals();
    if (count > 1) nothing_is_touched();
    puts("buffers lie where they should");
    return 0;
}
