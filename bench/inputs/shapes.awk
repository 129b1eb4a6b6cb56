# Histories that are hard on a judge's tables, of `calls` calls, and without a shape the shapes'
# names, one a line. Seats, queues and numbers that share low or high bits, or a hash, or rise, or
# fall, and calls that break an aspect each, wait, overlap, or never end.
#
#     awk -v shape=SHAPE -v calls=N -f bench/inputs/shapes.awk
function start_put(s, q) { print "start " s " put " q " -" }
function start_get(s, q) { print "start " s " get " q }
function done(s) { print "end " s " done" }
function spent(s) { print "end " s " spent" }
function nothing(s) { print "end " s " nothing" }
function got(s, by, number) { print "end " s " got " by " " number " -" }
function put(s, q) { start_put(s, q); done(s) }
function get(s, q, by, number) { start_get(s, q); got(s, by, number) }
# Below 2^32, with the same low 16 bits where there are at most 2^16 of them.
function apart(i) { return i % 65536 * 65536 + int(i / 65536) }
# The bits of a number of 32 bits in the reverse order.
function reversed(i, it, k) {
    for (k = it = 0; k < 32; k++) { it = it * 2 + i % 2; i = int(i / 2) }
    return it
}
# The bits in which two numbers of 16 bits differ.
function differ(a, b) {
    return bits[int(a / 256) * 256 + int(b / 256)] * 256 + bits[a % 256 * 256 + b % 256]
}
# The number for which a name of this seat has the hash 0 by the hasher of std's `HashMap`, so that
# all these names share one hash. It is the lower half of a product of 128 bits, xor the upper half:
# here of parts of 16 bits, and then in parts of 7 digits.
function sharing(seat, it, i, j, p, x, high, middle, low) {
    for (i = 0; i < 4; i++) x[i] = differ(start[i], i % 2 ? int(seat / 65536) : seat % 65536)
    for (i = 0; i < 4; i++) for (j = 0; j < 4; j++) p[i + j] += x[i] * by[j]
    for (i = 0; i < 7; i++) { p[i + 1] += int(p[i] / 65536); p[i] %= 65536 }
    for (i = 3; i >= 0; i--) {
        low = low * 65536 + differ(p[i], p[i + 4])
        middle = middle * 65536 + int(low / 10000000); low %= 10000000
        high = high * 65536 + int(middle / 10000000); middle %= 10000000
    }
    it = sprintf("%d%07d%07d", high, middle, low)
    sub(/^0+/, "", it)
    return it
}
# Gets that have got such names; of 20 digits a number isn't read.
function get_sharing(it, i, j, number, seat) {
    for (i = 0; i < 256; i++) for (j = 0; j < 256; j++)
        bits[i * 256 + j] = 2 * bits[int(i / 2) * 256 + int(j / 2)] + (i % 2 != j % 2)
    split("2259 34211 27272 9279", it, " ")
    for (i = 0; i < 4; i++) start[i] = it[i + 1]
    split("31773 32586 31161 40503", it, " ")
    for (i = 0; i < 4; i++) by[i] = it[i + 1]
    for (i = seat = 0; i < calls; seat++) if (length(number = sharing(seat)) < 20) {
        get(0, 0, seat, number)
        i++
    }
}
BEGIN {
    CONVFMT = OFMT = "%.0f"
    split("one-seat seats-rise seats-fall seats-apart seats-reversed queues-rise queues-apart" \
        " queues-reversed first-all-puts got-in-reverse never-got refused refused-and-got" \
        " wrong-nothing got-again nobody-rises nobody-apart nobody-shares-hash" \
        " tokens-in-reverse all-overlap gets-never-end", shapes, " ")
    if (shape == "") for (k = 1; k in shapes; k++) print shapes[k]
    half = int(calls / 2)
    if (shape == "tokens-in-reverse") for (i = 0; i < calls; i++) print "opening -"
    if (shape == "all-overlap") for (i = 0; i < calls; i++) start_put(i, 0)
    if (shape == "gets-never-end") for (i = 0; i < half; i++) start_get(calls + i, 0)
    if (shape ~ /^(first-all-puts|got-in-reverse|wrong-nothing|refused-and-got)$/)
        for (i = 0; i < half; i++) {
            start_put(0, 0)
            if (shape == "refused-and-got") spent(0); else done(0)
        }
    if (shape == "got-again") put(0, 0)
    if (shape == "nobody-shares-hash") get_sharing()
    for (i = 0; i < half; i++) {
        if (shape == "one-seat") { put(0, 0); get(0, 0, 0, i + 1) }
        if (shape == "seats-rise") { put(i, 0); get(i, 0, i, 1) }
        if (shape == "seats-fall") { put(4294967295 - i, 0); get(i, 0, 4294967295 - i, 1) }
        if (shape == "seats-apart") { put(apart(i), 0); get(apart(i), 0, apart(i), 1) }
        if (shape == "seats-reversed") {
            put(reversed(i), 0); get(reversed(i), 0, reversed(i), 1)
        }
        if (shape == "queues-rise") { put(0, i); get(0, i, 0, i + 1) }
        if (shape == "queues-apart") { put(0, apart(i)); get(0, apart(i), 0, i + 1) }
        if (shape == "queues-reversed") { put(0, reversed(i)); get(0, reversed(i), 0, i + 1) }
        if (shape == "first-all-puts" || shape == "refused-and-got") get(0, 0, 0, i + 1)
        if (shape == "got-in-reverse") get(0, 0, 0, half - i)
        if (shape == "never-got") { put(0, 0); put(0, 0) }
        if (shape == "refused") { start_put(0, 0); spent(0); start_put(0, 0); spent(0) }
        if (shape == "wrong-nothing") { start_get(0, 0); nothing(0) }
        if (shape == "got-again") { get(0, 0, 0, 1); get(0, 0, 0, 1) }
        if (shape == "nobody-rises") { get(0, 0, 1, i + 1); get(0, 0, 1, i + 1 + half) }
        if (shape == "nobody-apart") {
            get(0, 0, apart(i), 4294967296 * (i + 1))
            get(0, 0, 1, 4294967296 * (i + 1))
        }
        if (shape == "gets-never-end") put(i, 0)
    }
    if (shape == "tokens-in-reverse") for (i = calls - 1; i >= 0; i--) get(0, 0, "o", i)
    if (shape == "all-overlap") for (i = 0; i < calls; i++) done(i)
}
