/* What scq_pack and scq_unpack do with any bytes: what was appended is found again, nothing else
 * is, and no byte past a buffer is touched: each buffer is an allocation of its own, of just its
 * length, so that the address sanitizer and valgrind see it.
 *
 *     packed [ROUNDS [SEED]]
 *
 * makes so many rounds (100000) with bytes that are drawn. Compiled with -DFUZZ it has no main: a
 * fuzzer has the bytes.
 */
#include "scq.h"

#include "check.h"

#include <stdio.h>
#include <stdlib.h>
#include <string.h>

/* Bytes that are drawn, or those of a fuzzer. */
struct source {
    const unsigned char *at;
    size_t left;
    uint64_t drawn;
};

static unsigned byte_of(struct source *from) {
    if (from->at != NULL) {
        if (from->left == 0) return 0;
        from->left--;
        return *from->at++;
    }
    from->drawn = from->drawn * UINT64_C(6364136223846793005) + UINT64_C(1442695040888963407);
    return (unsigned)(from->drawn >> 56);
}

static scq_held buffer_of(size_t len) {
    scq_held held = {NULL, 0, 0, 0, 0};
    held.at = malloc(len > 0 ? len : 1);
    held.len = len;
    CHECK(held.at != NULL);
    return held;
}

/* What a message has, whose number is this. */
static int is_of(const unsigned char *bytes, size_t len, unsigned number) {
    for (size_t i = 0; i < len; i++)
        if (bytes[i] != (unsigned char)(number + i)) return 0;
    return 1;
}

/* Messages are appended until one doesn't fit, and found again. */
static void pack_all(struct source *from) {
    const size_t size = byte_of(from) + (size_t)(byte_of(from) % 4) * 256;
    scq_held held = buffer_of(size);
    size_t lens[256], count = 0, used = 4, next = 0, len;
    const unsigned char *at;
    unsigned char message[64];
    memset(held.at, 0xff, size > 0 ? size : 1);
    scq_pack_begin(&held);
    while (count < 256) {
        const unsigned number = (unsigned)count;
        len = byte_of(from) % 64;
        for (size_t i = 0; i < len; i++) message[i] = (unsigned char)(number + i);
        if (!scq_pack(&held, message, len)) {
            CHECK(size < 4 || used + 4 + len > size);
            break;
        }
        used += 4 + len;
        CHECK(used <= size);
        lens[count++] = len;
    }
    for (size_t i = 0; i < count; i++) {
        CHECK(scq_unpack(&held, &next, &at, &len) == 1 && len == lens[i]);
        CHECK(is_of(at, len, (unsigned)i));
    }
    CHECK(scq_unpack(&held, &next, &at, &len) == 0 && scq_unpack(&held, &next, &at, &len) == 0);
    free(held.at);
}

/* Any bytes, and any place to go on from: what is found lies in the buffer, and it ends. */
static void unpack_any(struct source *from) {
    const size_t size = byte_of(from);
    scq_held held = buffer_of(size);
    size_t next, len, count = 0;
    const unsigned char *at;
    for (size_t i = 0; i < size; i++) held.at[i] = (unsigned char)byte_of(from);
    /* Numbers that are nearly right, so that more than the first test is made. */
    if (size >= 8 && byte_of(from) % 4 != 0) scq_pack_set_number(held.at, byte_of(from));
    for (size_t i = 4; i + 4 <= size && byte_of(from) % 8 != 0; i += 4 + held.at[i]) {
        scq_pack_set_number(held.at + i, byte_of(from) % 16);
    }
    next = byte_of(from) % 8 != 0 ? 0 : byte_of(from) % 16 != 0 ? byte_of(from) : SIZE_MAX - 2;
    unsigned sum = 0;
    while (scq_unpack(&held, &next, &at, &len)) {
        CHECK(at >= held.at + 8 && len <= size && at + len <= held.at + size);
        for (size_t i = 0; i < len; i++) sum += at[i];
        CHECK(++count <= size);
    }
    /* Nor does what is appended to them go past it. */
    unsigned char *const room = scq_pack_room(&held, byte_of(from) % 32 + sum % 2);
    if (room != NULL) CHECK(room >= held.at + 8 && room <= held.at + size);
    free(held.at);
}

static void round_of(struct source *from) {
    if (byte_of(from) % 2 == 0)
        pack_all(from);
    else
        unpack_any(from);
}

int LLVMFuzzerTestOneInput(const unsigned char *bytes, size_t count);

int LLVMFuzzerTestOneInput(const unsigned char *bytes, size_t count) {
    struct source from = {bytes, count, 0};
    round_of(&from);
    return 0;
}

#ifndef FUZZ
static void edges(void) {
    scq_held held = {NULL, 0, 0, 0, 0};
    size_t next = 0, len = 0;
    const unsigned char *at = NULL;
    /* A buffer that was refused. */
    scq_pack_begin(&held);
    CHECK(scq_pack(&held, "x", 1) == 0 && scq_unpack(&held, &next, &at, &len) == 0);
    for (size_t size = 0; size < 20; size++) {
        held = buffer_of(size);
        scq_pack_begin(&held);
        CHECK(scq_pack(&held, "123456", 6) == (size >= 14));
        CHECK(scq_pack_room(&held, SIZE_MAX) == NULL);
        CHECK(scq_pack(&held, NULL, 0) == (size >= 18 || (size >= 8 && size < 14)));
        next = 0;
        CHECK(scq_unpack(&held, &next, &at, &len) == (size >= 8));
        CHECK(size < 14 || (len == 6 && memcmp(at, "123456", 6) == 0));
        free(held.at);
    }
    /* As many as the page says: 32 of 60 bytes in 2 KB less 4. */
    held = buffer_of(4 + 32 * 64);
    scq_pack_begin(&held);
    unsigned count = 0;
    while (scq_pack_room(&held, 60) != NULL) count++;
    CHECK(count == 32);
    free(held.at);
}

int main(int count, char **words) {
    const unsigned long rounds = count > 1 ? strtoul(words[1], NULL, 10) : 100000;
    struct source from = {NULL, 0, count > 2 ? strtoul(words[2], NULL, 10) : 1};
    edges();
    for (unsigned long i = 0; i < rounds; i++) round_of(&from);
    printf("%lu buffers were packed and unpacked\n", rounds);
    return 0;
}
#endif
