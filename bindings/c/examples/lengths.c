/* A message's own length. All buffers of a queue have the same size; where messages differ in
 * length, the length stands in the first bytes of the buffer. The taker tests it before it is
 * believed.
 *
 *     cc -I.. lengths.c libscq.a -o lengths
 */
#include "scq.h"

#include <stdio.h>
#include <stdlib.h>
#include <string.h>

enum { SIZE = 64 };

static void must(const char *call, uint32_t answer) {
    if (answer == SCQ_OK) return;
    fprintf(stderr, "%s: %s\n", call, scq_text(answer));
    exit(1);
}

/* Writes a message behind its length, or answers 0 where it is too long. */
static int write_message(const scq_held *held, const void *bytes, uint32_t len) {
    if (held->len < sizeof len || held->len - sizeof len < len) return 0;
    memcpy(held->at, &len, sizeof len);
    memcpy(held->at + sizeof len, bytes, len);
    return 1;
}

/* Where a message lies and its length, or null where what stands there can't be one. */
static const unsigned char *read_message(const scq_held *held, uint32_t *len) {
    if (held->len < sizeof *len) return NULL;
    memcpy(len, held->at, sizeof *len);
    return held->len - sizeof *len < *len ? NULL : held->at + sizeof *len;
}

int main(void) {
    static const char *const texts[] = {"a", "longer", "the longest of these messages"};
    scq_port ports[2] = {SCQ_NONE, SCQ_NONE};
    scq_held held;
    uint64_t place;
    uint32_t len;
    must("open", scq_open(2, 1, SIZE, 1, SCQ_MAX_LIMIT, ports, 2));
    for (int i = 0; i < 3; i++) {
        must("lend", scq_lend(&ports[0], &held));
        if (!write_message(&held, texts[i], (uint32_t)strlen(texts[i]))) return 1;
        must("send", scq_send(&ports[0], held.index, 0, &place));
    }
    while (scq_take(&ports[1], 0, &held) == SCQ_OK) {
        const unsigned char *const text = read_message(&held, &len);
        if (text == NULL) return 1;
        printf("%u: %.*s\n", len, (int)len, (const char *)text);
        must("give_back", scq_give_back(&ports[1], held.index));
    }
    scq_close(&ports[0]);
    scq_close(&ports[1]);
    return 0;
}
