// waits MESSAGES: waiting in C++. What is got through a bell rings where it is sent, given back,
// ended and assigned to; a wait ends at its time, and where nothing comes any more; and 4 senders
// and 6 takers over 2 buffers hand over all messages, each once.
#include "scq_bell.hpp"

#include "check.h"

#include <atomic>
#include <cstdio>
#include <cstdlib>
#include <cstring>
#include <stdexcept>
#include <thread>
#include <vector>

using std::chrono::hours;
using std::chrono::microseconds;
using std::chrono::milliseconds;
using std::chrono::steady_clock;

static void answers() {
    scq::Bell bell;
    scq::Port ports[3];
    scq::Setup setup;
    setup.order = 1;
    setup.topics = 3;
    std::uint32_t topic = 77;
    CHECK(bell && scq::Queue::open(setup, ports) == scq::Answer::Ok);
    CHECK(bell.take(ports[0], 3).answer() == scq::Answer::NoTopic);
    CHECK(bell.take(ports[0], SCQ_FREE).answer() == scq::Answer::NoTopic);
    CHECK(bell.take_any(ports[0], scq::Lines(), topic).answer() == scq::Answer::NoTopic);
    CHECK(bell.take_any(ports[0], scq::line(0) | scq::line(SCQ_FREE), topic).answer() ==
          scq::Answer::NoTopic);
    CHECK(bell.take_for(ports[0], 0, milliseconds(-5)).answer() == scq::Answer::Empty);
    const steady_clock::time_point from = steady_clock::now();
    const scq::Rung<scq::Taken> none = bell.take_for(ports[0], 1, milliseconds(20));
    CHECK(steady_clock::now() - from >= milliseconds(20) && !none && !none.ended());
    CHECK(none.answer() == scq::Answer::Empty);
    scq::Rung<scq::Lent> one = bell.lend(ports[0]), other = bell.lend_for(ports[0], hours::max());
    CHECK(one && other && one.index() != other.index() && one.data() != other.data());
    CHECK(bell.lend_for(ports[1], milliseconds(1)).answer() == scq::Answer::Full);
    CHECK(bell.lend(ports[0]).answer() == scq::Answer::NoRoom);
    other.pack_begin();
    CHECK(other.pack("packed", 6));
    for (const scq::Message &message : other.messages()) CHECK(message.size() == 6);
    std::memcpy(one.data(), "one", 4);
    CHECK(one.send(3).answer == scq::Answer::NoTopic && one);
    CHECK(one.send(2) && !one);
    scq::Rung<scq::Taken> taken = bell.take_any(ports[1], scq::line(0) | scq::line(2), topic);
    CHECK(taken && topic == 2 &&
          std::strcmp(reinterpret_cast<const char *>(taken.data()), "one") == 0);
    // Who waits for a buffer is woken by each way in which one comes back.
    for (int way = 0; way < 5; way++) {
        std::thread waits([&bell, &ports, way] {
            const scq::Rung<scq::Lent> lent = bell.lend(ports[2]);
            CHECK(way < 4 ? !!lent : lent.ended());
        });
        std::this_thread::sleep_for(milliseconds(5));
        if (way == 0) CHECK(other.give_back() == scq::Answer::Ok);
        if (way == 1) other = bell.lend_for(ports[0], milliseconds(0));
        if (way == 2) {
            const scq::Rung<scq::Lent> ends = std::move(other);
        }
        if (way == 3) CHECK(bell.close(ports[0]) == scq::Answer::Ok);
        if (way == 4) bell.finish(scq::line(SCQ_FREE));
        waits.join();
        if (way < 3) other = bell.lend(ports[0]);
        if (way == 3) one = bell.lend(ports[1]);
    }
}

static void hand_over(std::uint64_t messages) {
    constexpr std::uint32_t SENDERS = 4, TAKERS = 6, TOPICS = 3;
    scq::Bell bell;
    std::vector<scq::Port> ports(SENDERS + TAKERS);
    std::vector<std::thread> threads;
    std::vector<std::atomic<unsigned>> came(messages);
    std::atomic<std::uint64_t> drawn(0);
    std::atomic<std::uint32_t> senders(SENDERS);
    scq::Setup setup;
    setup.order = 1;
    setup.topics = TOPICS;
    setup.hold = 1;
    for (std::atomic<unsigned> &times : came) times = 0;
    CHECK(scq::Queue::open(setup, ports) == scq::Answer::Ok);
    for (std::uint32_t i = 0; i < SENDERS; i++) {
        threads.emplace_back([&, i] {
            for (std::uint64_t number; (number = drawn++) < messages;) {
                scq::Rung<scq::Lent> lent = bell.lend(ports[i]);
                CHECK(lent);
                std::memcpy(lent.data(), &number, sizeof number);
                CHECK(lent.send(static_cast<std::uint32_t>(number % TOPICS)));
            }
            if (--senders == 0) bell.finish(scq::topics(TOPICS));
        });
    }
    for (std::uint32_t i = SENDERS; i < SENDERS + TAKERS; i++) {
        threads.emplace_back([&, i] {
            for (;;) {
                std::uint32_t topic = i % TOPICS;
                const scq::Lines lines = scq::topics(TOPICS);
                scq::Rung<scq::Taken> taken =
                    i % 3 == 0   ? bell.take(ports[i], topic)
                    : i % 3 == 1 ? bell.take_any(ports[i], lines, topic)
                                 : bell.take_any_for(ports[i], lines, microseconds(50), topic);
                if (taken.ended()) return;
                if (!taken) {
                    CHECK(i % 3 == 2 && taken.answer() == scq::Answer::Empty);
                    continue;
                }
                std::uint64_t number;
                std::memcpy(&number, taken.data(), sizeof number);
                CHECK(number % TOPICS == topic && came[number]++ == 0);
            }
        });
    }
    for (std::thread &thread : threads) thread.join();
    for (std::atomic<unsigned> &times : came) CHECK(times == 1);
}

// Values of a ring go between threads that wait; some throw where they are moved out.
struct Number {
    std::uint64_t number = 0;
    bool throws = false;

    Number() = default;
    explicit Number(std::uint64_t of) : number(of), throws(of % 1000 == 7) {}
    Number(const Number &) = default;
    Number &operator=(const Number &other) {
        if (other.throws) throw std::runtime_error("assigned");
        number = other.number;
        return *this;
    }
};

static void ring_of_values(std::uint64_t messages) {
    scq::Bell bell;
    scq::Ring<Number> ring;
    CHECK(ring.open(1, 5) == scq::Answer::Ok);
    std::atomic<std::uint64_t> popped(0), threw(0), pushing(2);
    std::vector<std::thread> threads;
    for (std::uint64_t i = 0; i < 2; i++) {
        threads.emplace_back([&, i] {
            auto handle = ring.handle();
            for (std::uint64_t n = i; n < messages; n += 2) {
                CHECK(bell.push(handle, Number(n)) == scq::Answer::Ok);
            }
            if (--pushing == 0) bell.finish(scq::line(0));
        });
    }
    for (int i = 0; i < 3; i++) {
        threads.emplace_back([&] {
            auto handle = ring.handle();
            Number number;
            for (scq::Answer answer = scq::Answer::Ok; answer == scq::Answer::Ok;) {
                try {
                    answer = bell.pop(handle, number);
                    CHECK(answer == scq::Answer::Ok || answer == scq::Answer::Ended);
                    if (answer == scq::Answer::Ok) popped++;
                } catch (const std::runtime_error &) {
                    threw++;
                }
            }
        });
    }
    for (std::thread &thread : threads) thread.join();
    CHECK(popped + threw == messages && threw == (messages + 992) / 1000);
    auto handle = ring.handle();
    Number number(1);
    CHECK(handle.push(number) == scq::Answer::Ok && handle.push(number) == scq::Answer::Ok);
    CHECK(bell.push(handle, number, 1000000) == scq::Answer::Ended);
    // The time is over, it has ended, the tickets are spent: three answers.
    CHECK(bell.push(handle, number) == scq::Answer::Ended);
    CHECK(bell.pop(handle, number, 1000) == scq::Answer::Ok);
    CHECK(bell.pop(handle, number) == scq::Answer::Ok);
    CHECK(bell.pop(handle, number) == scq::Answer::Ended);
    scq::Bell other;
    scq::Ring<Number> spent;
    CHECK(spent.open(1, 1, 16) == scq::Answer::Ok);
    auto only = spent.handle();
    CHECK(other.pop(only, number, 1000) == scq::Answer::Empty);
    scq::Answer answer = scq::Answer::Ok;
    while (answer == scq::Answer::Ok) {
        answer = other.push(only, number);
        if (answer == scq::Answer::Ok) answer = other.pop(only, number);
    }
    CHECK(answer == scq::Answer::Spent && other.pop(only, number) == scq::Answer::Spent);
}

int main(int count, char **words) {
    const std::uint64_t messages = count > 1 ? std::strtoull(words[1], nullptr, 10) : 10000;
    answers();
    hand_over(messages);
    ring_of_values(messages);
    return std::printf("%llu messages, each once\n", static_cast<unsigned long long>(messages)) < 0;
}
