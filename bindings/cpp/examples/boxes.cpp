// Owned work between threads: makers push jobs, workers pop them and push results, which are
// summed. A stage has ended once those before it have, and it finds nothing.
//
//     c++ -pthread -I.. -I../../c boxes.cpp libscq.a -o boxes
#include "scq.hpp"

#include <atomic>
#include <cstdio>
#include <cstdlib>
#include <functional>
#include <memory>
#include <string>
#include <thread>
#include <utility>
#include <vector>

#ifndef LAST
#define LAST 200000
#endif

struct Job {
    std::uint64_t number;
    std::string text;
};
using Jobs = scq::Ring<std::unique_ptr<Job>>;
using Sums = scq::Ring<std::uint64_t>;

// Waits for room.
template <class Handle, class T> static void push(Handle &handle, T value) {
    scq::Answer answer;
    while ((answer = handle.push(std::move(value))) == scq::Answer::Full) std::this_thread::yield();
    if (answer != scq::Answer::Ok) std::abort();
}

// Waits for a value; false once nobody is left to push one.
template <class Handle, class T>
static bool pop(Handle &handle, T &value, const std::atomic<int> &pushers_left) {
    for (;;) {
        // Asked first: what was pushed before the last of them left is found below.
        const bool is_over = pushers_left == 0;
        const scq::Answer answer = handle.pop(value);
        if (answer == scq::Answer::Ok) return true;
        if (answer != scq::Answer::Empty) std::abort();
        if (is_over) return false;
        std::this_thread::yield();
    }
}

static void make(Jobs::Handle to, std::uint64_t from, std::atomic<int> &left) {
    for (std::uint64_t number = from; number < from + LAST / 2; number++) {
        push(to, std::unique_ptr<Job>(new Job{number, "job " + std::to_string(number)}));
    }
    left--;
}

static void work(Jobs::Handle from, Sums::Handle to, const std::atomic<int> &makers,
                 std::atomic<int> &left) {
    std::unique_ptr<Job> job;
    while (pop(from, job, makers)) {
        if (job->text != "job " + std::to_string(job->number)) std::abort();
        push(to, job->number);
    }
    left--;
}

int main() {
    Jobs jobs;
    Sums sums;
    if (jobs.open(6, 4) != scq::Answer::Ok || sums.open(6, 3) != scq::Answer::Ok) return 1;
    std::atomic<int> makers(2), workers(2);
    std::vector<std::thread> threads;
    for (std::uint64_t i = 0; i < 2; i++) {
        threads.emplace_back(make, jobs.handle(), i * (LAST / 2), std::ref(makers));
        threads.emplace_back(work, jobs.handle(), sums.handle(), std::cref(makers),
                             std::ref(workers));
    }
    Sums::Handle handle = sums.handle();
    std::uint64_t number = 0, sum = 0;
    while (pop(handle, number, workers)) sum += number;
    for (std::thread &thread : threads) thread.join();
    std::printf("the numbers of %d jobs are %llu together\n", LAST,
                static_cast<unsigned long long>(sum));
    return 0;
}
