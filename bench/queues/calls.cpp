// Measures one queue, which is named to the compiler (queue.hpp):
//
//     calls ROLES ORDER MANY
//
// ROLES has a letter for each thread: p puts, g gets, b does both in turn, and e gets from an empty queue; or all have
//
// t   the time of a put and the get behind it in threads that do nothing else
// c   the same in threads that pause for about ten such times in between
// s   two threads put and get in turn, and one of them is stopped for 50 ms, MANY times
//
// MANY is how many each thread makes. Ends with 1 where what was got isn't what was put. Prints the nanoseconds that
// all took, and the sum of the values that were got; for t and c the nanoseconds which 50, 99 and 99.9 percent of the
// pairs took at most, and 99.9 percent of the puts and of the gets; for s in how many stops the other was held up for
// more than 20 ms, and its longest wait in milliseconds.
#include "loops.hpp"
#include QUEUE
#include <algorithm>
#include <chrono>
#include <csignal>
#include <functional>
#include <string>
#include <thread>
#include <unistd.h>

using namespace std::chrono_literals;
using Clock = std::chrono::steady_clock;
using Work = std::function<void(size_t number, Port &port, Seen &mine)>;

static uint64_t nanos_since(Clock::time_point start) { return (Clock::now() - start) / 1ns; }

// What a pair took of the processor's clock, and of it the put and the get.
struct Took {
    uint64_t pair, put, get;
};

struct Run {
    const std::string roles;
    const uint64_t many;
    Queue queue;
    std::vector<std::unique_ptr<Port>> ports;
    std::vector<Seen> seen;

    Run(const std::string &roles, uint32_t order, uint64_t many)
        : roles(roles), many(many), queue(order, roles.size()), ports(roles.size()), seen(roles.size()) {}

    // Has each thread do the work with a port of its own, and tells how long it took. All begin together.
    uint64_t in_threads(const Work &work) {
        std::atomic<size_t> waiting{ports.size()};
        Clock::time_point start;
        const auto begin = [&](size_t number) {
            Port &port = *(ports[number] = std::make_unique<Port>(queue, number));
            Seen mine = {};
            waiting--;
            while (waiting) std::this_thread::yield();
            if (number == 0) start = Clock::now();
            work(number, port, mine);
            seen[number] = mine;
        };
        std::vector<std::thread> others;
        for (size_t number = 1; number < ports.size(); number++) others.emplace_back(begin, number);
        begin(0);
        for (std::thread &other : others) other.join();
        return nanos_since(start);
    }

    // Gets what is left, and tells whether as much was got as put.
    bool is_complete() {
        Seen all = {};
        for (auto &port : ports) {
            port->flush();
            while (all.get(*port))
                ;
        }
        for (const Seen &one : seen) {
            all.puts += one.puts, all.put_sum += one.put_sum;
            all.gets += one.gets, all.got_sum += one.got_sum;
        }
        return all.puts == all.gets && (bare || all.put_sum == all.got_sum);
    }

    bool pairs() {
        std::atomic<int> putting{int(std::count(roles.begin(), roles.end(), 'p'))};
        const uint64_t took = in_threads([&](size_t number, Port &port, Seen &mine) {
            switch (roles[number]) {
            case 'p':
                put_many(port, many, mine);
                putting--;
                break;
            case 'g': get_all(port, putting, mine); break;
            case 'b': both_many(port, many, mine); break;
            default: get_none(port, many, mine);
            }
        });
        uint64_t sum = 0;
        for (const Seen &one : seen) sum += one.got_sum;
        std::printf("%zu %zu\n", took, sum);
        return roles == "e" || is_complete();
    }

    // Ends when the first thread is through: what that one keeps, where messages go packed, others would wait for.
    bool times(bool pauses) {
        std::vector<std::vector<Took>> times(ports.size());
        std::atomic<bool> is_over{false};
        const auto until_over = [&](auto call) {
            bool is_done;
            while (!(is_done = call()) && !is_over) __builtin_ia32_pause();
            return is_done;
        };
        for (auto &its : times) its.reserve(many);
        const uint64_t first = __builtin_ia32_rdtsc();
        const auto begun = Clock::now();
        in_threads([&](size_t number, Port &port, Seen &mine) {
            uint64_t last = 0;
            while (mine.puts < many && !is_over) {
                for (uint64_t until = __builtin_ia32_rdtsc() + 10 * std::min(last, uint64_t(10000));
                     pauses && __builtin_ia32_rdtsc() < until;)
                    __builtin_ia32_pause();
                const uint64_t start = __builtin_ia32_rdtsc();
                if (!until_over([&] { return mine.put(port); })) break;
                const uint64_t sent = __builtin_ia32_rdtsc();
                if (!until_over([&] { return mine.get(port); })) break;
                const uint64_t taken = __builtin_ia32_rdtsc();
                last = taken - start;
                times[number].push_back({last, sent - start, taken - sent});
            }
            is_over = true;
        });
        const double nanos = double(nanos_since(begun)) / double(__builtin_ia32_rdtsc() - first);
        const auto print = [&](double part, uint64_t Took::*of) {
            std::vector<uint64_t> all;
            for (const auto &its : times)
                for (const Took &one : its) all.push_back(one.*of);
            const auto at = all.begin() + long(part * double(all.size()));
            std::nth_element(all.begin(), at, all.end());
            std::printf("%zu ", uint64_t(double(*at) * nanos));
        };
        for (const double part : {0.5, 0.99, 0.999}) print(part, &Took::pair);
        print(0.999, &Took::put), print(0.999, &Took::get);
        return is_complete();
    }

    // Another thread stops the second, wherever it is, and looks how long the first waits.
    bool stops() {
        std::atomic<bool> is_over{false};
        std::atomic<uint64_t> longest{0};
        std::atomic<pthread_t> victim{};
        uint64_t held = 0, most = 0;
        std::signal(SIGUSR1, [](int) { usleep(50000); });
        std::thread stopper([&] {
            while (!victim.load()) std::this_thread::yield();
            for (uint64_t stop = 0; stop < many; stop++) {
                usleep(10000 + unsigned(stop * 7919 % 1000));
                longest = 0;
                pthread_kill(victim, SIGUSR1);
                usleep(70000);
                held += longest > 20000000;
                most = std::max(most, longest.load());
            }
            is_over = true;
        });
        in_threads([&](size_t number, Port &port, Seen &mine) {
            auto last = Clock::now();
            if (number == 1) victim = pthread_self();
            while (!is_over) {
                mine.put(port);
                if (!mine.get(port)) continue;
                const uint64_t wait = nanos_since(last);
                if (number == 0 && wait > longest) longest = wait;
                last = Clock::now();
            }
        });
        stopper.join();
        std::printf("%zu %zu\n", held, most / 1000000);
        return is_complete();
    }
};

int main(int argc, char **argv) {
    if (argc != 4) return 2;
    const char kind = *argv[1];
    Run run(argv[1], uint32_t(std::atoi(argv[2])), std::strtoull(argv[3], nullptr, 10));
    const bool is_right = kind == 's' ? run.stops() : kind == 't' || kind == 'c' ? run.times(kind == 'c') : run.pairs();
    std::fflush(stdout);
    if (!is_right) std::fprintf(stderr, "what was got isn't what was put\n");
    std::_Exit(!is_right);
}
