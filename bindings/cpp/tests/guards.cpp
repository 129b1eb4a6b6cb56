// What the owners of scq.hpp do: each answer as a value, buffers that are given back where they
// end, ports and buffers that are moved, and calls that come too late, which are answered.
#include "scq.hpp"

#include "check.h"

#include <algorithm>
#include <array>
#include <cstdio>
#include <cstring>
#include <string>
#include <thread>
#include <type_traits>
#include <utility>
#include <vector>

using scq::Answer;
using scq::Lent;
using scq::Port;
using scq::Queue;
using scq::Setup;
using scq::Taken;

template <class Owner> struct MovesOnly {
    static_assert(std::is_nothrow_move_constructible<Owner>::value &&
                      std::is_nothrow_move_assignable<Owner>::value,
                  "it can be moved");
    static_assert(!std::is_copy_constructible<Owner>::value &&
                      !std::is_copy_assignable<Owner>::value,
                  "it can't be copied");
    static_assert(std::is_nothrow_destructible<Owner>::value, "its end doesn't throw");
};
template struct MovesOnly<Port>;
template struct MovesOnly<Lent>;
template struct MovesOnly<Taken>;

static Setup small() {
    Setup setup;
    setup.order = 1;
    setup.topics = 2;
    setup.size = 8;
    return setup;
}

static bool is_zero(unsigned char byte) { return byte == 0; }

static void round_of() {
    Port ports[2];
    CHECK(Queue::open(small(), ports) == Answer::Ok && ports[0] && ports[1]);
    Lent lent = ports[0].lend();
    CHECK(lent && lent.answer() == Answer::Ok && lent.size() == 8 &&
          std::all_of(lent.begin(), lent.end(), is_zero));
    std::memcpy(lent.data(), "message", 8);
    CHECK(lent[6] == 'e');
    const scq::Sent refused = lent.send(2);
    CHECK(!refused && refused.answer == Answer::NoTopic && lent);
    const scq::Sent sent = lent.send(1);
    CHECK(sent && !lent);
    const Taken none = ports[1].take(0);
    CHECK(!none && none.answer() == Answer::Empty);
    Taken taken = ports[1].take(1);
    CHECK(taken && taken.place() == sent.place && taken.size() == 8 &&
          std::memcmp(taken.data(), "message", 8) == 0);
    CHECK(taken.send(0) && !taken);
    taken = ports[1].take(0);
    CHECK(taken && taken.give_back() == Answer::Ok && !taken);
    scq_counts counts;
    CHECK(ports[1].counts(counts) == Answer::Ok && counts.sent == 1 && counts.taken == 2 &&
          counts.full == 0);
}

static void answers() {
    Port port;
    CHECK(!port && port.close() == Answer::Closed && port.lend().answer() == Answer::Closed &&
          port.take(0).answer() == Answer::Closed);
    Setup setup = small();
    setup.order = 17;
    CHECK(Queue::open(setup, &port, 1) == Answer::BadOrder && !port);
    setup = small();
    setup.topics = 32;
    CHECK(Queue::open(setup, &port, 1) == Answer::BadTopics);
    setup = small();
    setup.size = 0;
    CHECK(Queue::open(setup, &port, 1) == Answer::BadSize);
    setup = small();
    setup.limit = 15;
    CHECK(Queue::open(setup, &port, 1) == Answer::BadLimit);
    setup = small();
    setup.hold = 3;
    CHECK(Queue::open(setup, &port, 1) == Answer::BadHold);
    std::vector<Port> none;
    CHECK(Queue::open(small(), none) == Answer::BadPorts);
    CHECK(Queue::open(small(), &port, 1) == Answer::Ok &&
          Queue::open(small(), &port, 1) == Answer::IsOpen);
    setup.hold = 3;
    CHECK(Queue::open(setup, &port, 1) == Answer::BadHold && port);
    CHECK(port.take(2).answer() == Answer::NoTopic);
    const Lent one = port.lend(), two = port.lend();
    CHECK(one && two && one.index() != two.index() && port.lend().answer() == Answer::NoRoom &&
          port.take(0).answer() == Answer::NoRoom);
    CHECK(std::strcmp(scq::text(Answer::Full), "no buffer is free") == 0);
}

static void buffers_that_end_are_given_back() {
    Port ports[2];
    CHECK(Queue::open(small(), ports) == Answer::Ok);
    for (int i = 0; i < 10; i++) {
        const Lent one = ports[0].lend();
        CHECK(one);
        Lent two = ports[1].lend();
        CHECK(two && ports[1].lend().answer() == Answer::Full);
        CHECK(two.send(0));
        const Taken taken = ports[1].take(0);
        CHECK(taken);
    }
}

static void what_is_moved_stays_one() {
    std::array<Port, 2> ports;
    CHECK(Queue::open(small(), ports) == Answer::Ok);
    Lent one = ports[0].lend();
    const std::uint32_t index = one.index();
    Lent other = std::move(one);
    CHECK(!one && other && other.index() == index);
    Lent two = ports[0].lend();
    CHECK(two && ports[1].lend().answer() == Answer::Full);
    two = std::move(other); // gives back what it had
    CHECK(two && two.index() == index && !other);
    CHECK(ports[1].lend());
    Lent &same = two;
    two = std::move(same);
    CHECK(two && two.give_back() == Answer::Ok);

    std::vector<Port> moved;
    for (Port &port : ports) moved.push_back(std::move(port));
    CHECK(!ports[0] && ports[0].close() == Answer::Closed && moved[0] && moved[1]);
    CHECK(moved[0].lend());
    moved[0] = std::move(moved[1]); // closes what it was
    CHECK(moved[0] && !moved[1] && moved[0].lend());
    std::thread([](Port port) { CHECK(port.lend()); }, std::move(moved[0])).join();
    CHECK(!moved[0]);
}

static void a_closed_port_has_given_back() {
    Port ports[2];
    CHECK(Queue::open(small(), ports) == Answer::Ok);
    Lent lent = ports[0].lend();
    CHECK(lent && ports[0].close() == Answer::Ok && !ports[0]);
    CHECK(lent.give_back() == Answer::Closed && lent.send(0).answer == Answer::Closed);
    const Lent one = ports[1].lend(), two = ports[1].lend();
    CHECK(one && two);
}

// A port that ends without a close, while it holds a buffer that it was lent and one that it took.
static void a_port_that_ends_gives_back_what_it_holds() {
    std::vector<Lent> lent;
    std::vector<Taken> taken;
    Port ports[2];
    CHECK(Queue::open(small(), ports) == Answer::Ok);
    {
        Port port = std::move(ports[0]);
        CHECK(port.lend().send(1));
        taken.push_back(port.take(1));
        lent.push_back(port.lend());
        CHECK(taken[0] && lent[0] && ports[1].lend().answer() == Answer::Full);
    }
    CHECK(taken[0].give_back() == Answer::Closed && lent[0].give_back() == Answer::Closed);
    {
        const Lent one = ports[1].lend(), two = ports[1].lend();
        CHECK(one && two && one.index() != two.index());
    }
    scq_counts counts[2] = {{9, 9, 9}, {9, 9, 9}};
    bool last = false;
    CHECK(ports[1].close(last, counts, 2) == Answer::Ok && last);
    CHECK(counts[0].sent == 1 && counts[0].taken == 1 && counts[0].full == 0);
    CHECK(counts[1].sent == 0 && counts[1].taken == 0 && counts[1].full == 1);
}

static void a_second_send_is_answered() {
    Port ports[2];
    CHECK(Queue::open(small(), ports) == Answer::Ok);
    Lent lent = ports[0].lend();
    CHECK(lent.send(0) && !lent && lent.data() == nullptr && lent.size() == 0);
    CHECK(lent.begin() == lent.end() && lent.answer() == Answer::NotHeld);
    CHECK(lent.send(0).answer == Answer::NotHeld && lent.give_back() == Answer::NotHeld);
    // The port holds a buffer of the same number again: it isn't this one's.
    Taken taken = ports[0].take(0);
    CHECK(taken && taken.index() == lent.index() && lent.send(0).answer == Answer::NotHeld);
    CHECK(lent.give_back() == Answer::NotHeld && taken && taken.data() != nullptr);
    CHECK(taken.give_back() == Answer::Ok && taken.data() == nullptr);
    CHECK(taken.give_back() == Answer::NotHeld && taken.send(0).answer == Answer::NotHeld);
}

static void a_guard_that_was_moved_from_is_answered() {
    Port ports[1];
    CHECK(Queue::open(small(), ports) == Answer::Ok);
    Lent one = ports[0].lend();
    Lent other = std::move(one);
    CHECK(!one && one.data() == nullptr && one.size() == 0 && one.answer() == Answer::NotHeld);
    CHECK(one.send(0).answer == Answer::NotHeld && one.give_back() == Answer::NotHeld && other);
    one = std::move(other);
    CHECK(one && !other && other.give_back() == Answer::NotHeld && one.send(0));
}

static void a_guard_that_was_refused_is_answered() {
    Port port, closed;
    Setup setup = small();
    setup.hold = 1;
    CHECK(Queue::open(setup, &port, 1) == Answer::Ok);
    Taken none = port.take(0);
    CHECK(none.answer() == Answer::Empty && none.data() == nullptr && none.begin() == none.end());
    CHECK(none.send(0).answer == Answer::NotHeld && none.give_back() == Answer::NotHeld);
    CHECK(none.answer() == Answer::Empty);
    const Lent lent = port.lend();
    Lent more = port.lend();
    CHECK(lent && more.answer() == Answer::NoRoom && more.send(0).answer == Answer::NotHeld);
    CHECK(lent.data() != nullptr);
    Lent late = closed.lend();
    CHECK(late.answer() == Answer::Closed && late.send(0).answer == Answer::Closed);
    CHECK(late.give_back() == Answer::Closed);
}

static void ports_move_under_their_guards() {
    std::vector<Port> ports(1);
    CHECK(Queue::open(small(), ports) == Answer::Ok);
    Lent lent = ports[0].lend();
    std::memcpy(lent.data(), "message", 8);
    for (int i = 0; i < 100; i++) ports.emplace_back(); // it grows, and its ports move
    CHECK(lent && std::memcmp(lent.data(), "message", 8) == 0 && lent.send(1));
    Taken taken = ports[0].take(1);
    CHECK(taken);
    Port elsewhere = std::move(ports[0]);
    ports.clear();
    CHECK(taken && std::memcmp(taken.data(), "message", 8) == 0);
    CHECK(taken.give_back() == Answer::Ok && elsewhere.lend());
}

static void guards_outlive_their_port() {
    std::vector<Lent> kept;
    std::vector<Port> ports(2);
    CHECK(Queue::open(small(), ports) == Answer::Ok);
    kept.push_back(ports[0].lend());
    kept.push_back(ports[1].lend());
    CHECK(kept[0] && kept[1]);
    ports.clear(); // the queue is gone
    for (Lent &lent : kept) {
        CHECK(!lent && lent.data() == nullptr && lent.size() == 0);
        CHECK(lent.send(0).answer == Answer::Closed && lent.give_back() == Answer::Closed);
    }
    CHECK(Queue::open(small(), ports) == Answer::BadPorts);
    ports.resize(1);
    CHECK(Queue::open(small(), ports) == Answer::Ok && !kept[0]);
    kept[0] = ports[0].lend();
    CHECK(kept[0] && ports[0].close() == Answer::Ok && !kept[0]);
    CHECK(Queue::open(small(), ports) == Answer::Ok && !kept[0] && ports[0].lend());
    CHECK(kept[0].give_back() == Answer::Closed);
}

// A port and its buffer in one value, whatever the order in which they end.
struct Stage {
    std::vector<Lent> batch;
    Port port;
};

static void a_port_and_its_buffers_live_in_one_value() {
    Port ports[2];
    CHECK(Queue::open(small(), ports) == Answer::Ok);
    {
        Stage stage{{}, std::move(ports[0])};
        stage.batch.push_back(stage.port.lend());
        Stage moved = std::move(stage);
        moved.batch.push_back(moved.port.lend());
        CHECK(moved.batch[0] && moved.batch[1] && ports[1].lend().answer() == Answer::Full);
    }
    const Lent one = ports[1].lend(), two = ports[1].lend();
    CHECK(one && two);
}

static void bytes_are_a_span() {
#ifdef __cpp_lib_span
    Port port;
    CHECK(Queue::open(small(), &port, 1) == Answer::Ok);
    Lent lent = port.lend();
    const std::span<unsigned char> bytes = lent.bytes();
    CHECK(bytes.data() == lent.data() && bytes.size() == 8);
    CHECK(lent.send(0) && lent.bytes().empty());
    const Taken taken = port.take(0);
    static_assert(std::is_same<decltype(taken.bytes()), std::span<const unsigned char>>::value,
                  "bytes that can't be written");
    CHECK(taken.bytes().size() == 8);
#endif
}

static void messages_are_packed() {
    Port port;
    Setup setup = small();
    setup.size = 32;
    CHECK(Queue::open(setup, &port, 1) == Answer::Ok);
    Lent lent = port.lend();
    lent.pack_begin();
    CHECK(lent.pack("first", 5) && lent.pack("second", 6) && !lent.pack("third", 10));
    CHECK(lent.pack_room(1) != nullptr && lent.send(0));
    CHECK(!lent.pack("x", 1) && lent.pack_room(0) == nullptr);
    const Taken taken = port.take(0);
    std::vector<std::string> all;
    for (const scq::Message message : taken.messages()) {
        all.emplace_back(message.begin(), message.end());
    }
    CHECK(all.size() == 3 && all[0] == "first" && all[1] == "second" && all[2].size() == 1);
    lent.pack_begin();
    for (const scq::Message message : lent.messages()) CHECK(message.size() > SIZE_MAX);
}

static void tickets_run_out() {
    Setup setup = small();
    setup.limit = 16;
    Port port;
    std::uint64_t ticket = 0;
    CHECK(Queue::open(setup, &port, 1) == Answer::Ok && port.spent(ticket) == Answer::Ok);
    for (;;) {
        Lent lent = port.lend();
        CHECK(lent);
        if (lent.give_back() == Answer::Ok) continue;
        CHECK(lent && lent.give_back() == Answer::Spent && port.spent(ticket) == Answer::Spent &&
              ticket >= 16);
        const scq::Sent sent = lent.send(0);
        CHECK(sent.answer == Answer::Spent && sent.place == ticket && lent);
        break;
    }
    const Lent none = port.lend();
    CHECK(none.answer() == Answer::Spent && none.number() == ticket);
}

// Ports that retire, and the last one's end, which tells what all did.
static void a_stream_ends() {
    Port ports[2];
    scq_counts counts[2] = {{9, 9, 9}, {9, 9, 9}};
    bool last = true;
    CHECK(Queue::open(small(), ports) == Answer::Ok && ports[1].retire() == Answer::Ok &&
          ports[0].retired() == Answer::Ok);
    CHECK(ports[0].lend().send(0).answer == Answer::Ok && ports[0].retire() == Answer::Ok &&
          ports[0].retired() == Answer::Retired);
    {
        Taken taken = ports[1].take(0);
        CHECK(taken && taken.send(1).answer == Answer::Retired && taken &&
              ports[1].retired() == Answer::Retired);
    }
    CHECK(ports[1].take(0).answer() == Answer::Empty);
    CHECK(ports[1].close(last, counts, 2) == Answer::Ok && !last && counts[0].sent == 9 &&
          !ports[1]);
    CHECK(ports[0].close(last, counts, 2) == Answer::Ok && last && counts[0].sent == 1 &&
          counts[0].taken == 0);
    CHECK(counts[1].sent == 0 && counts[1].taken == 1 &&
          ports[0].close(last, counts, 2) == Answer::Closed);
}

int main() {
    round_of();
    a_stream_ends();
    answers();
    buffers_that_end_are_given_back();
    what_is_moved_stays_one();
    a_closed_port_has_given_back();
    a_port_that_ends_gives_back_what_it_holds();
    a_second_send_is_answered();
    a_guard_that_was_moved_from_is_answered();
    a_guard_that_was_refused_is_answered();
    ports_move_under_their_guards();
    guards_outlive_their_port();
    a_port_and_its_buffers_live_in_one_value();
    bytes_are_a_span();
    messages_are_packed();
    tickets_run_out();
    std::puts("owners end what they have");
    return 0;
}
