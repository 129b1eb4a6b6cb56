// What a Batch of scq.hpp does: several buffers got, sent and given back together, given back where
// it ends, and late calls answered; and what a port tells of its queue.
#include "scq.hpp"

#include "check.h"

#include <cstdio>
#include <cstring>
#include <type_traits>
#include <utility>

using scq::Answer;
using scq::Batch;
using scq::Port;
using scq::Queue;
using scq::Setup;
using scq::Several;

static_assert(!std::is_copy_constructible<Batch<4>>::value, "a batch isn't copied");

static Setup small() {
    Setup setup;
    setup.order = 2;
    setup.topics = 2;
    setup.size = 8;
    setup.hold = 3;
    return setup;
}

static void is(const Several &came, Answer answer, std::size_t done) {
    CHECK(came.answer == answer && came.done == done &&
          static_cast<bool>(came) == (answer == Answer::Ok));
}

static std::uint32_t count(Port &port, std::uint32_t topic) {
    std::uint32_t number = 77;
    CHECK(port.count(topic, number) == Answer::Ok);
    return number;
}

static void rounds() {
    Port ports[2];
    std::uint32_t number = 77;
    CHECK(ports[0].capacity(number) == Answer::Closed &&
          ports[0].count(0, number) == Answer::Closed);
    CHECK(Queue::open(small(), ports) == Answer::Ok);
    CHECK(ports[0].count(2, number) == Answer::NoTopic && number == 77);
    CHECK(ports[0].capacity(number) == Answer::Ok && number == 4);
    Batch<5> one(ports[0]);
    is(one.lend(2), Answer::Ok, 2);
    is(one.lend(), Answer::NoRoom, 1);
    CHECK(one.size() == 3 && one[2].size() == 8 && one.place(2) == 0);
    for (std::size_t k = 0; k < 3; k++)
        std::memset(one[k].data(), static_cast<int>('a' + k), one[k].size());
    is(one.send(2), Answer::NoTopic, 0);
    CHECK(one.size() == 3 && one[0][0] == 'a');
    is(one.send(1), Answer::Ok, 3);
    is(one.send(1), Answer::Ok, 0);
    CHECK(one.size() == 0 && count(ports[1], 1) == 3 && count(ports[1], 0) == 0);
    {
        Batch<2> two(ports[1]);
        is(two.take(1), Answer::Ok, 2);
        is(two.take(1), Answer::Ok, 0); // it is full
        CHECK(two[0][7] == 'a' && two[1][7] == 'b' && two.place(0) < two.place(1));
        is(two.give_back(), Answer::Ok, 2);
        is(two.take(1), Answer::Empty, 1);
        CHECK(two.size() == 1 && *two[0].begin() == 'c');
    } // and is given back
    is(one.lend(), Answer::NoRoom, 3);
    ports[0].retire();
    is(one.send(0), Answer::Retired, 0);
    is(one.give_back(), Answer::Ok, 3);
}

// The port is moved, and closed, under its batch.
static void late() {
    Port ports[2];
    CHECK(Queue::open(small(), ports) == Answer::Ok);
    Batch<3> batch(ports[0]);
    is(batch.lend(), Answer::Ok, 3);
    Port moved = std::move(ports[0]);
    is(batch.send(0), Answer::Ok, 3);
    is(batch.take(0, 1), Answer::Ok, 1);
    moved.close();
    CHECK(batch.size() == 0);
    is(batch.lend(), Answer::Closed, 0);
    is(batch.take(0), Answer::Closed, 0);
    is(batch.send(0), Answer::Closed, 0);
    is(batch.give_back(), Answer::Closed, 0);
    Batch<3> none(ports[0]);
    is(none.lend(), Answer::Closed, 0);
    is(none.give_back(), Answer::Closed, 0);
    Batch<3> other(ports[1]);
    is(other.take(0), Answer::Empty, 2);
}

int main() {
    rounds();
    late();
    std::puts("batches do what they say");
    return 0;
}
