// Misuses of C++ that users made, or that are merely unlucky, and what becomes of each: it doesn't
// compile, or has an answer, and nothing is lost. Those of C are in misuse.c.
#include "scq_bell.hpp"

#include "check.h"

#include <atomic>
#include <cstdio>
#include <cstring>
#include <memory>
#include <string>
#include <thread>
#include <type_traits>
#include <utility>
#include <vector>

using scq::Answer;
using scq::Role;

// Whether a bell's calls take a number for a set of lines.
template <class Set, class = void> struct Finishes : std::false_type {};
template <class Set>
struct Finishes<Set, decltype(std::declval<scq::Bell &>().finish(std::declval<Set>()))>
    : std::true_type {};
template <class Set, class = void> struct TakesAny : std::false_type {};
template <class Set>
struct TakesAny<Set,
                decltype(static_cast<void>(std::declval<scq::Bell &>().take_any(
                    std::declval<scq::Port &>(), std::declval<Set>(), std::declval<unsigned &>())))>
    : std::true_type {};

static void numbers_for_sets() {
    static_assert(Finishes<scq::Lines>::value && TakesAny<scq::Lines>::value, "a set does");
    static_assert(!Finishes<int>::value && !Finishes<unsigned>::value, "finish(0)");
    static_assert(!TakesAny<int>::value && !TakesAny<unsigned>::value, "take_any(1)");
    static_assert(!std::is_convertible<decltype(SCQ_FREE), scq::Lines>::value, "SCQ_FREE");
    static_assert(scq::topics(99).has(16) && scq::line(99).is_none(), "what is no line");
}

using Handle = scq::Ring<std::unique_ptr<int>>::Handle;

static void fill(Handle &handle, int count) {
    for (int i = 0; i < count; i++) {
        CHECK(handle.push(std::unique_ptr<int>(new int(i))) == Answer::Ok);
    }
}

// What is done with a value replaces, moves or ends the handle that it came by.
static void handle_goes_meanwhile() {
    scq::Ring<std::unique_ptr<int>> ring;
    CHECK(ring.open(2, 2) == Answer::Ok);
    for (int way = 0; way < 4; way++) {
        Handle handle = ring.handle(), other;
        fill(handle, 4);
        std::unique_ptr<int> first;
        const Answer answer = handle.consume_one([&](std::unique_ptr<int> &&value) {
            if (way == 0) handle = ring.handle();
            if (way == 1) other = std::move(handle);
            if (way == 2) handle = Handle();
            if (way == 3) {
                CHECK(handle.consume_one([&](std::unique_ptr<int> &&second) {
                    CHECK(*second == 1);
                    handle = Handle();
                }) == Answer::Ok);
                CHECK(!handle);
            }
            first = std::move(value);
        });
        CHECK(answer == Answer::Ok && *first == 0);
        Handle &left = way == 1 ? other : handle;
        if (!left) left = ring.handle();
        std::unique_ptr<int> value;
        for (int i = way == 3 ? 2 : 1; i < 4; i++) {
            CHECK(left.pop(value) == Answer::Ok && *value == i);
        }
        // No room and no handle was lost.
        fill(left, 4);
        CHECK(left.push(std::unique_ptr<int>()) == Answer::Full);
        while (left.pop(value) == Answer::Ok) {
        }
        Handle second = ring.handle();
        CHECK(second && !ring.handle());
    }
}

// The ring ends while a value is used.
static void ring_goes_meanwhile() {
    std::unique_ptr<scq::Ring<std::string>> ring(new scq::Ring<std::string>);
    CHECK(ring->open(1, 1) == Answer::Ok);
    scq::Ring<std::string>::Handle handle = ring->handle();
    CHECK(handle.push(std::string(100, 'x')) == Answer::Ok);
    CHECK(handle.consume_one([&](std::string &&value) {
        handle = scq::Ring<std::string>::Handle();
        ring.reset();
        CHECK(value.size() == 100);
    }) == Answer::Ok);
}

static void pack_without_begin() {
    scq::Port ports[2];
    scq::Setup setup;
    setup.order = 1;
    CHECK(scq::Queue::open(setup, ports) == Answer::Ok);
    for (int i = 0; i < 4; i++) {
        scq::Lent lent = ports[0].lend();
        CHECK(lent.pack("new", 4) && lent.pack("one", 4) && lent.send(0));
        const scq::Taken taken = ports[1].take(0);
        int count = 0;
        for (const scq::Message &message : taken.messages()) {
            CHECK(message.size() == 4);
            count++;
        }
        CHECK(count == 2);
    }
}

static void open_tied(scq::Bell &bell, std::vector<scq::Port> &ports) {
    scq::Setup setup;
    setup.order = 1;
    CHECK(scq::Queue::open(setup, ports) == Answer::Ok);
    for (scq::Port &port : ports) CHECK(bell.tie(port) == Answer::Ok);
}

static void ties_that_are_refused() {
    scq::Bell bell, other;
    scq::Port closed;
    std::vector<scq::Port> ports(2);
    open_tied(bell, ports);
    CHECK(bell.tie(ports[0]) == Answer::IsOpen && other.tie(ports[0]) == Answer::IsOpen);
    CHECK(bell.tie(closed) == Answer::Closed);
    scq::Ring<int> ring;
    CHECK(ring.open(1, 1) == Answer::Ok);
    scq::Ring<int>::Handle handle = ring.handle(), none;
    CHECK(other.tie(handle) == Answer::Ok && other.tie(handle) == Answer::IsOpen);
    CHECK(other.tie(none) == Answer::Closed);
}

// A bell ends before what is tied to it.
static void bell_goes_first() {
    std::vector<scq::Port> ports(2);
    std::unique_ptr<scq::Bell> bell(new scq::Bell);
    open_tied(*bell, ports);
    scq::Lent lent = ports[0].lend();
    bell.reset();
    CHECK(lent.send(0) && ports[1].take(0));
}

static void send_where_it_ended() {
    scq::Bell bell;
    std::vector<scq::Port> ports(2);
    open_tied(bell, ports);
    bell.finish(scq::line(0));
    scq::Lent lent = ports[0].lend();
    CHECK(lent && lent.send(0).answer == Answer::Ended && lent);
    scq::Rung<scq::Lent> rung = bell.lend(ports[0]);
    CHECK(rung && rung.send(0).answer == Answer::Ended && rung);
    CHECK(lent.give_back() == Answer::Ok && rung.give_back() == Answer::Ok);
    scq::Batch<2> batch(ports[0]);
    CHECK(batch.lend() && batch.send(0).answer == Answer::Ended && batch.size() == 2);
    CHECK(bell.take(ports[1], 0).answer() == Answer::Ended);
    CHECK(bell.take_for(ports[1], 0, std::chrono::hours(1)).ended());
}

// What goes by the port alone, and what ends while it is held, rings where the port is tied.
static void plain_calls_ring() {
    for (int way = 0; way < 4; way++) {
        scq::Bell bell;
        std::vector<scq::Port> ports(2);
        open_tied(bell, ports);
        scq::Batch<2> all(ports[0]);
        CHECK(all.lend());
        std::thread waits([&bell, &ports, way] {
            if (way < 3) CHECK(bell.lend(ports[1]));
            if (way == 3) CHECK(bell.take(ports[1], 0));
        });
        std::this_thread::sleep_for(std::chrono::milliseconds(2));
        if (way == 0) CHECK(all.give_back());
        if (way == 1) CHECK(ports[0].close() == Answer::Ok);
        if (way == 2) ports[0] = scq::Port();
        if (way == 3) CHECK(all.send(0));
        waits.join();
    }
}

static void use_of_a_guard_that_is_gone() {
    scq::Bell bell;
    std::vector<scq::Port> ports(2);
    open_tied(bell, ports);
    scq::Rung<scq::Lent> lent = bell.lend(ports[0]);
    scq::Rung<scq::Lent> moved = std::move(lent);
    CHECK(moved.send(0) && moved.send(0).answer == Answer::NotHeld);
    CHECK(moved.give_back() == Answer::NotHeld && !moved && moved.data() == nullptr);
    CHECK(moved.answer() == Answer::NotHeld && !moved.ended());
}

// Copies beyond the handles share one; an end that was moved from, or never was, is closed.
static void channels() {
    scq::Channel<std::string> channel = scq::channel<std::string>(2, 1);
    CHECK(channel.answer == Answer::Ok);
    std::vector<scq::Sender<std::string>> senders(20, channel.sender);
    std::string value = "kept";
    for (int i = 0; i < 4; i++)
        CHECK(senders[static_cast<std::size_t>(i)].try_send("x") == Answer::Ok);
    CHECK(senders[9].try_send(std::move(value)) == Answer::Full && value == "kept");
    CHECK(senders[9].send_for(value, std::chrono::milliseconds(1)) == Answer::Full);
    scq::Receiver<std::string> other = channel.receiver;
    for (int i = 0; i < 4; i++) CHECK(other.recv(value) == Answer::Ok && value == "x");
    CHECK(other.try_recv(value) == Answer::Empty);
    CHECK(other.recv_for(value, std::chrono::milliseconds(1)) == Answer::Empty);
    CHECK(channel.sender.send("last") == Answer::Ok);
    senders.clear();
    channel.sender = scq::Sender<std::string>();
    CHECK(channel.sender.send("none") == Answer::Closed && !channel.sender);
    int count = 0;
    for (const std::string &each : other) {
        CHECK(each == "last");
        count++;
    }
    CHECK(count == 1 && other.recv(value) == Answer::Ended);
    CHECK(channel.receiver.recv_for(value, std::chrono::hours(1)) == Answer::Ended);
    scq::Channel<int> second = scq::channel<int>();
    scq::Sender<int> sender = second.sender;
    second.receiver = scq::Receiver<int>();
    CHECK(sender.send(1) == Answer::Ended && sender.try_send(1) == Answer::Ended);
    CHECK(second.receiver.begin() == second.receiver.end());
    CHECK(scq::channel<int>(0).answer == Answer::BadOrder && !scq::channel<int>(17).sender);
    CHECK(scq::channel<int>(1, 5000).answer == Answer::BadPorts);
}

int main() {
    numbers_for_sets();
    handle_goes_meanwhile();
    ring_goes_meanwhile();
    pack_without_begin();
    ties_that_are_refused();
    bell_goes_first();
    send_where_it_ended();
    plain_calls_ring();
    use_of_a_guard_that_is_gone();
    channels();
    return std::puts("each misuse is answered") < 0;
}
