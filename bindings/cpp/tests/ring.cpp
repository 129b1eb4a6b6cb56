// What a Ring does with values of any type: move-only ones, ones whose constructors and assignments
// throw, ones that are aligned; threads that come and go; and that each value is destroyed once.
//
//     ring [BOXES [THREADS]]
//
// sends so many boxes between so many threads (100000 between 16).
#include "scq.hpp"

#include "check.h"

#include <atomic>
#include <cstdio>
#include <cstdlib>
#include <memory>
#include <stdexcept>
#include <string>
#include <thread>
#include <type_traits>
#include <utility>
#include <vector>

using scq::Answer;
using scq::Ring;

static std::atomic<long> alive{0};

// A value that is counted. A copy, a move or an assignment of one that is `angry` throws.
struct Counted {
    std::uint64_t number = 0;
    bool angry = false;

    Counted() { alive++; }
    explicit Counted(std::uint64_t of) : number(of) { alive++; }
    Counted(const Counted &other) : number(other.number), angry(other.angry) {
        if (angry) throw std::runtime_error("copied");
        alive++;
    }
    Counted(Counted &&other) : number(other.number), angry(other.angry) {
        if (angry) throw std::runtime_error("moved");
        alive++;
    }
    Counted &operator=(const Counted &other) {
        if (other.angry) throw std::runtime_error("assigned");
        number = other.number;
        return *this;
    }
    ~Counted() { alive--; }
};

using Box = std::unique_ptr<Counted>;

static_assert(!std::is_copy_constructible<Ring<Box>>::value, "a ring isn't copied");
static_assert(!std::is_copy_constructible<Ring<Box>::Handle>::value, "a handle isn't copied");
static_assert(std::is_nothrow_move_constructible<Ring<Box>::Handle>::value, "it is moved");
static_assert(std::is_nothrow_move_assignable<Ring<Box>::Handle>::value, "it is moved");
static_assert(noexcept(std::declval<Ring<Box>::Handle &>().push(Box())), "no throw, where true");
static_assert(!noexcept(std::declval<Ring<Counted>::Handle &>().push(Counted())), "else it may");

template <class Call> static bool throws(Call call) {
    try {
        call();
    } catch (const std::runtime_error &) {
        return true;
    }
    return false;
}

static void first_in_first_out() {
    Ring<Box> ring;
    CHECK(!ring.handle() && ring.capacity() == 0);
    CHECK(ring.open(2, 2) == Answer::Ok && ring.open(2, 2) == Answer::IsOpen);
    auto one = ring.handle(), other = ring.handle();
    CHECK(one && other && !ring.handle() && ring.capacity() == 4 && one.capacity() == 4);
    for (std::uint64_t i = 0; i < 4; i++) CHECK(one.push(Box(new Counted(i))) == Answer::Ok);
    Box box(new Counted(4));
    CHECK(one.push(std::move(box)) == Answer::Full && box && box->number == 4);
    for (std::uint64_t i = 0; i < 4; i++) {
        Box got;
        CHECK(other.pop(got) == Answer::Ok && got && got->number == i);
        CHECK(alive == static_cast<long>(5 - i));
    }
    CHECK(other.pop(box) == Answer::Empty && box->number == 4);
    CHECK(one.push(std::move(box)) == Answer::Ok && !box);
    std::uint64_t seen = 0;
    CHECK(other.consume_one([&seen](Box &&it) { seen = it->number; }) == Answer::Ok && seen == 4);
    CHECK(alive == 0 && other.consume_one([](Box &&) {}) == Answer::Empty);
    Ring<Box>::Handle none;
    CHECK(!none && none.push(Box()) == Answer::Closed && none.pop(box) == Answer::Closed);
    none = std::move(one);
    CHECK(none && !one && one.push(Box()) == Answer::Closed && none.push(Box()) == Answer::Ok);
}

static void what_is_out_of_range_is_refused() {
    Ring<int> ring, wide;
    CHECK(ring.open(0, 1) == Answer::BadOrder && ring.open(17, 1) == Answer::BadOrder);
    CHECK(ring.open(1, 0) == Answer::BadPorts && ring.open(1, 4097) == Answer::BadPorts);
    CHECK(ring.open(1, 1, 15) == Answer::BadLimit);
    CHECK(ring.open(1, 4096) == Answer::Ok && ring.capacity() == 2);
    CHECK(wide.open(16, 1) == Answer::Ok && wide.capacity() == 65536);
}

static void what_is_left_ends_with_the_last_owner() {
    for (int last = 0; last < 2; last++) {
        std::unique_ptr<Ring<Box>> ring(new Ring<Box>);
        CHECK(ring->open(3, 2) == Answer::Ok);
        auto handle = ring->handle();
        for (std::uint64_t i = 0; i < 5; i++) CHECK(handle.push(Box(new Counted(i))) == Answer::Ok);
        Box got;
        CHECK(handle.pop(got) == Answer::Ok && alive == 5);
        got.reset();
        if (last == 0) handle = Ring<Box>::Handle();
        ring.reset();
        CHECK(alive == (last == 0 ? 0 : 4));
    }
    CHECK(alive == 0);
}

static void what_throws_is_handed_on() {
    Ring<Counted> ring;
    CHECK(ring.open(1, 1) == Answer::Ok);
    auto handle = ring.handle();
    Counted value(7);
    for (int i = 0; i < 100; i++) {
        value.angry = true;
        // Neither a move nor a copy that throws costs the ring a place, or leaves a value there.
        CHECK(throws([&] { (void)handle.push(std::move(value)); }));
        CHECK(throws([&] { (void)handle.push(value); }));
        value.angry = false;
        CHECK(handle.push(value) == Answer::Ok && handle.emplace(8u) == Answer::Ok);
        CHECK(handle.emplace(9u) == Answer::Full && alive == 3);
        // Where the assignment throws the value is lost, and its place is free.
        CHECK(handle.consume_one([](Counted &&it) { CHECK(it.number == 7); }) == Answer::Ok);
        CHECK(throws([&] {
            (void)handle.consume_one([](Counted &&) { throw std::runtime_error("used"); });
        }));
        CHECK(alive == 1 && handle.pop(value) == Answer::Empty);
        CHECK(handle.emplace(1u) == Answer::Ok);
        Counted *inside = nullptr;
        CHECK(handle.consume_one([&](Counted &&it) {
            inside = &it;
            // The handle may be used meanwhile.
            CHECK(handle.emplace(2u) == Answer::Ok && handle.emplace(3u) == Answer::Full);
        }) == Answer::Ok);
        CHECK(inside != nullptr && handle.pop(value) == Answer::Ok && value.number == 2);
        value.number = 7;
        CHECK(alive == 1);
    }
}

// More than are handed on at once, up to the room and to what there is, and past both.
static void several_at_a_time() {
    {
        Ring<Box> ring;
        CHECK(ring.open(7, 2) == Answer::Ok);
        auto one = ring.handle(), other = ring.handle();
        for (std::size_t count = 0; count <= 200; count++) {
            const std::size_t go = count < 128 ? count : 128;
            std::vector<Box> in, out(200);
            for (std::size_t k = 0; k < 200; k++) in.emplace_back(new Counted(k));
            const scq::Several pushed = one.push_many(in.data(), count);
            CHECK(pushed.done == go && pushed.answer == (count > 128 ? Answer::Full : Answer::Ok));
            for (std::size_t k = 0; k < 200; k++) CHECK((k < go) == !in[k]);
            const scq::Several first = other.pop_many(out.data(), go / 2);
            CHECK(first && first.done == go / 2);
            const scq::Several rest = one.pop_many(out.data() + go / 2, 200 - go / 2);
            CHECK(rest.answer == Answer::Empty && rest.done == go - go / 2);
            for (std::size_t k = 0; k < 200; k++)
                CHECK(k < go ? out[k] && out[k]->number == k : !out[k]);
            CHECK(alive == 200);
        }
        Ring<Box>::Handle none;
        Box box(new Counted(7));
        const scq::Several closed = none.push_many(&box, 1);
        CHECK(closed.answer == Answer::Closed && closed.done == 0 && box);
        CHECK(none.pop_many(&box, 1).answer == Answer::Closed && box);
        CHECK(one.push_many(&box, 1) && !box); // which goes with the ring
    }
    CHECK(alive == 0);
}

// A value that can be neither copied nor assigned.
struct Fixed {
    const std::uint64_t number;
    Box box;
    explicit Fixed(std::uint64_t of) : number(of), box(new Counted(of)) {}
    Fixed(Fixed &&) noexcept = default;
};

static void tickets_run_out() {
    for (int way = 0; way < 2; way++) {
        Ring<Fixed> ring;
        CHECK(ring.open(1, 2, 16) == Answer::Ok);
        Answer answer = Answer::Ok;
        for (std::uint64_t i = 0; answer == Answer::Ok || answer == Answer::Full; i++) {
            auto handle = ring.handle();
            if (way == 0) {
                Fixed value(i);
                answer = handle.push(std::move(value));
                // What is refused comes back.
                CHECK((answer == Answer::Ok) == !value.box);
                CHECK(!value.box || value.box->number == i);
            } else {
                answer = handle.emplace(i);
            }
            if (answer == Answer::Ok) {
                const Answer taken = handle.consume_one([i](Fixed &&it) { CHECK(it.number == i); });
                CHECK(taken == Answer::Ok || taken == Answer::Spent);
            }
        }
        CHECK(answer == Answer::Spent);
    }
    CHECK(alive == 0);
}

// The same several at a time: what is refused comes back, in its order.
static void tickets_run_out_between() {
    {
        Ring<Box> ring;
        CHECK(ring.open(2, 2, 32) == Answer::Ok);
        Ring<Box>::Handle handles[2] = {ring.handle(), ring.handle()};
        std::uint64_t pushed = 0, popped = 0;
        for (int turn = 0, spent = 0; spent < 20; turn++) {
            auto &handle = handles[turn % 2];
            Box in[3], out[3];
            for (std::uint64_t k = 0; k < 3; k++) in[k].reset(new Counted(pushed + k));
            const scq::Several went = handle.push_many(in, 3);
            for (std::uint64_t k = 0; k < 3; k++) {
                CHECK((k < went.done) == !in[k]);
                CHECK(!in[k] || in[k]->number == pushed + k);
            }
            pushed += went.done;
            spent += went.answer == Answer::Spent ? 1 : 0;
            const scq::Several came = handle.pop_many(out, 3);
            for (std::uint64_t k = 0; k < came.done; k++) CHECK(out[k]->number == popped + k);
            popped += came.done;
            CHECK(turn < 1000);
        }
        CHECK(pushed >= 20 && popped <= pushed);
    }
    CHECK(alive == 0);
}

// A value whose end calls this, if it is there; one that it is assigned to leaves it there.
struct Calls {
    void (*at_end)() = nullptr;

    Calls() = default;
    Calls(Calls &&other) noexcept : at_end(other.at_end) { other.at_end = nullptr; }
    Calls &operator=(Calls &&) noexcept { return *this; }
    ~Calls() {
        if (at_end != nullptr) at_end();
    }
};

static Ring<Calls> *calling;
static Ring<Calls>::Handle *called_by;

static void a_value_that_ends_may_replace_the_handle() {
    Ring<Calls> ring;
    CHECK(ring.open(2, 1) == Answer::Ok);
    auto handle = ring.handle();
    calling = &ring;
    called_by = &handle;
    for (int turn = 0; turn < 100; turn++) {
        Calls in[4], out[4];
        in[1].at_end = [] {
            *called_by = Ring<Calls>::Handle();
            CHECK(!calling->handle()); // it is at work as long as the call
        };
        CHECK(handle.push_many(in, 4).done == 4);
        for (std::size_t popped = 0; popped < 4;) {
            const scq::Several came = handle.pop_many(out, turn % 2 == 0 ? 1 : 4);
            CHECK(came.done > 0);
            popped += came.done;
            if (!handle) handle = ring.handle();
            CHECK(handle);
        }
    }
}

struct alignas(128) Wide {
    unsigned char bytes[200];
};

static void values_are_aligned() {
    Ring<Wide> ring;
    CHECK(ring.open(4, 1) == Answer::Ok);
    auto handle = ring.handle();
    for (int i = 0; i < 16; i++) CHECK(handle.emplace(Wide()) == Answer::Ok);
    for (int i = 0; i < 16; i++) {
        CHECK(handle.consume_one([](Wide &&it) {
            CHECK(reinterpret_cast<std::uintptr_t>(&it) % 128 == 0);
        }) == Answer::Ok);
    }
}

static void values_come_as_optional() {
#if __cplusplus >= 201703L
    Ring<std::string> ring;
    CHECK(ring.open(2, 1) == Answer::Ok);
    auto handle = ring.handle();
    CHECK(handle.push("a text that is longer than a small string") == Answer::Ok);
    const std::optional<std::string> got = handle.pop();
    CHECK(got && got->size() == 41 && !handle.pop());
#endif
}

// Each of the threads pushes its boxes and pops what it finds, one by one or several at a time,
// with a handle that it lets go of now and then; some boxes are angry, so that their copies throw
// in between.
static void boxes_between_threads(std::uint64_t boxes, std::uint64_t threads) {
    Ring<Box> ring;
    Ring<Counted> copies;
    CHECK(ring.open(6, threads / 2 + 1) == Answer::Ok && copies.open(6, threads) == Answer::Ok);
    std::vector<std::atomic<unsigned char>> seen(boxes);
    std::atomic<std::uint64_t> popped{0}, threw{0};
    std::vector<std::thread> all;
    for (std::uint64_t t = 0; t < threads; t++) {
        all.emplace_back([&, t] {
            auto thrown = copies.handle();
            std::uint64_t next = t;
            Box mine[40], got[40];
            std::size_t have = 0;
            for (; popped < boxes; std::this_thread::yield()) { // so that another gets the handle
                auto handle = ring.handle();
                for (int i = 0; handle && i < 1000 && popped < boxes; i++) {
                    for (; have < 40 && next < boxes; next += threads)
                        mine[have++].reset(new Counted(next));
                    const std::size_t at_once = i / 8 % 2 == 0 ? 1 : 40;
                    scq::Several went{Answer::Ok, 0}, came{Answer::Ok, 0};
                    if (at_once > 1) {
                        went = handle.push_many(mine, have);
                        came = handle.pop_many(got, at_once);
                    } else {
                        if (have != 0) went.answer = handle.push(std::move(mine[0]));
                        went.done = have != 0 && went ? 1 : 0;
                        came.answer = handle.pop(got[0]);
                        came.done = came ? 1 : 0;
                    }
                    for (std::size_t k = went.done; k < have; k++)
                        mine[k - went.done] = std::move(mine[k]);
                    have -= went.done;
                    const bool is_full = went.answer == Answer::Full;
                    for (std::size_t k = 0; k < came.done; k++) {
                        CHECK(seen[got[k]->number].fetch_add(1) == 0);
                        popped++;
                        got[k]->angry = got[k]->number % 1000 == 7;
                        try {
                            CHECK(thrown.push(*got[k]) == Answer::Ok);
                            CHECK(thrown.pop(*got[k]) == Answer::Ok);
                        } catch (const std::runtime_error &) {
                            threw++;
                        }
                        got[k].reset();
                    }
                    if (came.done == 0 && (is_full || next >= boxes)) {
                        std::this_thread::yield();
                    }
                }
            }
        });
    }
    for (std::thread &thread : all) thread.join();
    for (auto &number : seen) CHECK(number == 1);
    CHECK(threw == (boxes + 992) / 1000);
    // Some are left for the end.
    auto handle = ring.handle();
    for (std::uint64_t i = 0; i < 10; i++) CHECK(handle.push(Box(new Counted(i))) == Answer::Ok);
}

int main(int count, char **words) {
    const std::uint64_t boxes = count > 1 ? std::strtoull(words[1], nullptr, 10) : 100000;
    const std::uint64_t threads = count > 2 ? std::strtoull(words[2], nullptr, 10) : 16;
    first_in_first_out();
    CHECK(alive == 0);
    what_is_out_of_range_is_refused();
    what_is_left_ends_with_the_last_owner();
    what_throws_is_handed_on();
    CHECK(alive == 0);
    several_at_a_time();
    tickets_run_out();
    tickets_run_out_between();
    a_value_that_ends_may_replace_the_handle();
    values_are_aligned();
    values_come_as_optional();
    boxes_between_threads(boxes, threads);
    CHECK(alive == 0);
    std::printf("%llu boxes between %llu threads, each destroyed once\n",
                static_cast<unsigned long long>(boxes), static_cast<unsigned long long>(threads));
    return 0;
}
