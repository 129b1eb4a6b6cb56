// endings RUNS SEED MOST: threads that end at a random call, by an exception or an early return,
// whatever they hold. In each run all of one side do so, those who send or those who take: by ports
// that are tied to a bell, by handles of a ring that are, or by a channel's ends. Each thread of
// the other side, which waits by a bell or a channel and has no code for it, has to be told the
// end. Prints the longest time that this took, and how often it took more than MOST milliseconds.
#include "scq_bell.hpp"

#include "check.h"

#include <atomic>
#include <chrono>
#include <cstdint>
#include <cstdio>
#include <cstdlib>
#include <memory>
#include <stdexcept>
#include <thread>
#include <utility>
#include <vector>

using Clock = std::chrono::steady_clock;
using scq::Answer;
using scq::Role;

namespace {

constexpr int Side = 3; // threads of each side

struct Numbers {
    std::uint64_t state;
    std::uint64_t next() noexcept {
        state ^= state << 13;
        state ^= state >> 7;
        state ^= state << 17;
        return state;
    }
};

// The moment when the last thread of a side has ended, and how long the others took to be told.
struct Run {
    std::atomic<int> left{Side};
    std::atomic<std::int64_t> ended{0}, longest{0};

    void one_ends() noexcept {
        if (--left == 0) ended = Clock::now().time_since_epoch().count();
    }
    void told() noexcept {
        const std::int64_t now = Clock::now().time_since_epoch().count();
        // (What is told comes behind the last one's end, which may not have noted its time yet.)
        const std::int64_t took = ended == 0 ? 0 : now - ended;
        for (std::int64_t most = longest;
             took > most && !longest.compare_exchange_weak(most, took);) {
        }
    }
};

// Ends here or goes on; where it ends, by an exception or by the answer.
struct Fuse {
    std::uint64_t calls; // that are left
    bool throws;

    bool burns() {
        if (calls-- != 0) return false;
        if (throws) throw std::runtime_error("at a random call");
        return true;
    }
};

template <class Work> void run_to_its_end(Work work) {
    try {
        work();
    } catch (const std::runtime_error &) {
    }
}

// -- Ports ----------------------------------------------------------------------------------------

void send_until_burnt(scq::Bell &bell, scq::Port port, Numbers numbers, Fuse fuse) {
    for (;;) {
        scq::Rung<scq::Lent> lent = bell.lend(port);
        if (!lent || fuse.burns()) return;
        if (numbers.next() % 8 == 0) {
            scq::Lent plain = port.lend();
            if (fuse.burns()) return;
            if (plain && !plain.send(0)) return;
        }
        scq::Rung<scq::Lent> moved = std::move(lent);
        if (fuse.burns()) return;
        lent = std::move(moved);
        if (!lent.send(0) || fuse.burns()) return;
        scq::Batch<2> batch(port);
        static_cast<void>(batch.lend());
        if (fuse.burns()) return;
        static_cast<void>(batch.send(0));
    }
}

void take_until_burnt(scq::Bell &bell, scq::Port port, Numbers numbers, Fuse fuse) {
    for (;;) {
        scq::Rung<scq::Taken> taken = bell.take(port, 0);
        if (!taken || fuse.burns()) return;
        scq::Rung<scq::Taken> other = bell.take_for(port, 0, std::chrono::microseconds(50));
        if (fuse.burns()) return;
        if (numbers.next() % 2 == 0) taken = std::move(other);
        if (fuse.burns()) return;
    }
}

constexpr std::uint64_t Never = UINT64_MAX;

void by_ports(Numbers numbers, bool senders_burn, Run &run) {
    scq::Bell bell;
    std::vector<scq::Port> ports(2 * Side);
    std::vector<std::thread> threads;
    scq::Setup setup;
    setup.order = 3;
    setup.hold = 4;
    CHECK(scq::Queue::open(setup, ports) == Answer::Ok);
    for (int i = 0; i < 2 * Side; i++) {
        const Role role = i < Side ? Role::Sends : Role::Takes;
        CHECK(bell.tie(ports[static_cast<std::size_t>(i)], role) == Answer::Ok);
    }
    for (int i = 0; i < 2 * Side; i++) {
        scq::Port port = std::move(ports[static_cast<std::size_t>(i)]);
        const bool sends = i < Side, burns = sends == senders_burn;
        const Numbers own{numbers.next() | 1};
        const Fuse fuse{burns ? numbers.next() % 60 : Never, numbers.next() % 2 == 0};
        threads.emplace_back(
            [&bell, &run, own, fuse, sends, burns](scq::Port at) {
                run_to_its_end([&] {
                    if (sends) {
                        send_until_burnt(bell, std::move(at), own, fuse);
                    } else {
                        take_until_burnt(bell, std::move(at), own, fuse);
                    }
                });
                if (burns) run.one_ends();
                if (!burns) run.told();
            },
            std::move(port));
    }
    for (std::thread &thread : threads) thread.join();
}

// -- Handles of a ring ----------------------------------------------------------------------------

using Value = std::unique_ptr<int>;

void by_handles(Numbers numbers, bool senders_burn, Run &run) {
    scq::Bell bell;
    scq::Ring<Value> ring;
    std::vector<scq::Ring<Value>::Handle> handles;
    std::vector<std::thread> threads;
    CHECK(ring.open(2, 2 * Side) == Answer::Ok);
    for (int i = 0; i < 2 * Side; i++) {
        handles.push_back(ring.handle());
        CHECK(bell.tie(handles.back(), i < Side ? Role::Sends : Role::Takes) == Answer::Ok);
    }
    for (int i = 0; i < 2 * Side; i++) {
        const bool sends = i < Side, burns = sends == senders_burn;
        const Fuse made{burns ? numbers.next() % 60 : Never, numbers.next() % 2 == 0};
        threads.emplace_back(
            [&bell, &run, made, sends, burns](scq::Ring<Value>::Handle of) {
                run_to_its_end([&] {
                    Fuse fuse = made;
                    scq::Ring<Value>::Handle handle = std::move(of);
                    bool burnt = false;
                    for (int n = 0; !burnt; n++) {
                        Value value(new int(n));
                        const Answer answer =
                            sends ? bell.push(handle, std::move(value))
                            : n % 2 != 0
                                ? bell.pop(handle, value)
                                : handle.consume_one([&](Value &&) { burnt = fuse.burns(); });
                        const bool is_nothing = !sends && n % 2 == 0 && answer == Answer::Empty;
                        if ((answer != Answer::Ok && !is_nothing) || burnt || fuse.burns()) return;
                    }
                });
                if (burns) run.one_ends();
                if (!burns) run.told();
            },
            std::move(handles[static_cast<std::size_t>(i)]));
    }
    for (std::thread &thread : threads) thread.join();
}

// -- A channel ------------------------------------------------------------------------------------

void by_channel(Numbers numbers, bool senders_burn, Run &run) {
    std::vector<std::thread> threads;
    {
        // (Some ends share a handle.)
        scq::Channel<Value> channel = scq::channel<Value>(2, 1 + numbers.next() % 8);
        CHECK(channel.answer == Answer::Ok);
        for (int i = 0; i < 2 * Side; i++) {
            const bool sends = i < Side, burns = sends == senders_burn;
            const Fuse made{burns ? numbers.next() % 60 : Never, numbers.next() % 2 == 0};
            threads.emplace_back(
                [&run, made, sends, burns](scq::Sender<Value> sender,
                                           scq::Receiver<Value> receiver) {
                    run_to_its_end([&] {
                        Fuse fuse = made;
                        if (sends) {
                            const scq::Sender<Value> own = std::move(sender);
                            for (scq::Sender<Value> mine = own;;) {
                                Value value(new int(1));
                                if (mine.send(std::move(value)) != Answer::Ok) {
                                    CHECK(value != nullptr);
                                    return;
                                }
                                if (fuse.burns()) return;
                            }
                        }
                        scq::Receiver<Value> mine = std::move(receiver);
                        for (const Value &value : mine) {
                            CHECK(value != nullptr);
                            if (fuse.burns()) return;
                        }
                    });
                    if (burns) run.one_ends();
                    if (!burns) run.told();
                },
                sends ? channel.sender : scq::Sender<Value>(),
                sends ? scq::Receiver<Value>() : channel.receiver);
        }
    }
    for (std::thread &thread : threads) thread.join();
}

} // namespace

int main(int count, char **words) {
    const int runs = count > 1 ? std::atoi(words[1]) : 100;
    const std::uint64_t seed = count > 2 ? std::strtoull(words[2], nullptr, 10) : 1;
    const std::int64_t most = count > 3 ? std::atoi(words[3]) : 100;
    std::int64_t longest = 0;
    int late = 0;
    for (int i = 0; i < runs; i++) {
        Run run;
        Numbers numbers{(seed + static_cast<std::uint64_t>(i)) * 0x9E3779B97F4A7C15u | 1};
        for (int k = 0; k < 8; k++) numbers.next();
        const bool senders_burn = numbers.next() % 2 == 0;
        if (i % 3 == 0) by_ports(numbers, senders_burn, run);
        if (i % 3 == 1) by_handles(numbers, senders_burn, run);
        if (i % 3 == 2) by_channel(numbers, senders_burn, run);
        if (run.longest > longest) longest = run.longest;
        late += run.longest > most * 1000000;
    }
    std::printf("%d runs, each told its end, %.1f ms at most, %d times later than %d ms\n", runs,
                static_cast<double>(longest) / 1e6, late, static_cast<int>(most));
    return late != 0;
}
