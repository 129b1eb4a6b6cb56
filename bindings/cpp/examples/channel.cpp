// Jobs by a channel, and what happens where somebody gives up: makers send jobs, workers receive
// them and send results, which are summed. Nobody counts who is left: where the last sender of a
// channel has ended, also by an exception, its receivers take what is left and are through.
//
//     c++ -pthread -I.. -I../../c channel.cpp libscq.a -o channel
#include "scq_bell.hpp"

#include <cstdint>
#include <cstdio>
#include <stdexcept>
#include <string>
#include <thread>
#include <utility>
#include <vector>

#ifndef LAST
#define LAST 200000
#endif

struct Job {
    std::uint64_t number;
    std::string text;
};

static void make(scq::Sender<Job> jobs, std::uint64_t from) {
    for (std::uint64_t number = from; number < from + LAST / 2; number++) {
        if (jobs.send(Job{number, "job " + std::to_string(number)}) != scq::Answer::Ok) return;
    }
}

static void work(scq::Receiver<Job> jobs, scq::Sender<std::uint64_t> results) {
    for (const Job &job : jobs) {
        if (job.text.empty()) throw std::runtime_error("a job without a text");
        if (results.send(job.number) != scq::Answer::Ok) return;
    }
}

int main() {
    std::vector<std::thread> threads;
    scq::Channel<Job> jobs = scq::channel<Job>();
    scq::Channel<std::uint64_t> results = scq::channel<std::uint64_t>();
    if (jobs.answer != scq::Answer::Ok || results.answer != scq::Answer::Ok) return 1;
    for (std::uint64_t i = 0; i < 2; i++) {
        threads.emplace_back(make, jobs.sender, i * (LAST / 2));
        threads.emplace_back(work, jobs.receiver, results.sender);
    }
    // A worker that gives up in the middle: the others go on.
    threads.emplace_back(
        [](scq::Receiver<Job> from, scq::Sender<std::uint64_t> to) {
            try {
                Job job;
                if (from.recv(job) == scq::Answer::Ok && to.send(job.number) == scq::Answer::Ok) {
                    throw std::runtime_error("gives up");
                }
            } catch (const std::runtime_error &) {
            }
        },
        jobs.receiver, results.sender);
    // Here nobody sends any more, nor receives jobs.
    jobs.sender = scq::Sender<Job>();
    jobs.receiver = scq::Receiver<Job>();
    results.sender = scq::Sender<std::uint64_t>();
    std::uint64_t sum = 0;
    for (const std::uint64_t number : results.receiver) sum += number;
    for (std::thread &thread : threads) thread.join();
    std::printf("the numbers of %d jobs are %llu together\n", LAST,
                static_cast<unsigned long long>(sum));
    return 0;
}
