// scq_bell: waiting for a queue of scq.hpp. The bell of scq_bell.h, with owners: what is got
// through it, and what is done with a port that is tied to it, rings by itself. Channels of values
// too. C++11 or later; include it with scq.hpp, scq.h and scq_bell.h beside it. Plain code, tested
// and not proved.
//
//     scq::Bell bell;
//     if (bell.tie(ports[0], scq::Role::Sends) != scq::Answer::Ok ||
//         bell.tie(ports[1], scq::Role::Takes) != scq::Answer::Ok) return 1;
//     // one thread
//     scq::Rung<scq::Lent> lent = bell.lend(ports[0]);      waits until a buffer is free
//     if (lent && lent.send(0)) ...
//     // another one
//     while (scq::Rung<scq::Taken> taken = bell.take(ports[1], 0)) use(taken.data());
//
// However the first one's port ends, also where something is thrown, the loop of the other ends.
//
// What scq_bell.h asks of a caller holds here too, but what a tie sees to. Where a port isn't tied
// and somebody waits for a buffer, all its buffers are got through the bell, as those of the Port
// alone are given back without a ring; or who gives back calls `ring`. A bell lasts longer than
// what was got through it; a tie keeps what it needs of one.
#ifndef SCQ_BELL_HPP
#define SCQ_BELL_HPP

#include "scq.hpp"
#include "scq_bell.h"

#include <atomic>
#include <chrono>
#include <cstddef>
#include <cstdint>
#include <iterator>
#include <mutex>
#include <new>
#include <utility>

#if __cplusplus >= 201703L
#define SCQ_BELL_NODISCARD [[nodiscard]]
#else
#define SCQ_BELL_NODISCARD
#endif

namespace scq {

// A set of lines: of topics, and SCQ_FREE. Two are joined by `|`.
class Lines {
  public:
    constexpr Lines() noexcept = default;
    constexpr explicit Lines(scq_lines lines) noexcept : set_(lines.set) {}
    friend constexpr Lines operator|(Lines one, Lines other) noexcept {
        return Lines(scq_lines{one.set_ | other.set_});
    }
    constexpr bool is_none() const noexcept { return set_ == 0; }
    constexpr bool has(std::uint32_t topic) const noexcept {
        return topic < SCQ_LINES && (set_ >> topic & 1) != 0;
    }
    scq_lines get() const noexcept { return scq_lines_of(set_); }

  private:
    std::uint32_t set_ = 0;
};

// A topic, or SCQ_FREE, as a set; the first `count` topics; all lines. What is no line is left out.
constexpr Lines line(std::uint32_t topic) noexcept {
    return Lines(scq_lines{topic < SCQ_LINES ? std::uint32_t{1} << topic : 0});
}
constexpr Lines topics(std::uint32_t count) noexcept {
    return Lines(scq_lines{(std::uint32_t{1} << (count < SCQ_FREE ? count : SCQ_FREE)) - 1});
}
constexpr Lines all_lines() noexcept { return topics(SCQ_FREE) | line(SCQ_FREE); }

// What a port or a handle is for that is tied to a bell.
enum class Role { Sends, Takes, Both };

// For this file alone.
namespace detail {

inline bool finds_nothing(Answer answer) noexcept {
    return answer == Answer::Empty || answer == Answer::Full;
}

template <class Rep, class Period>
std::uint64_t nanoseconds(const std::chrono::duration<Rep, Period> &most) noexcept {
    if (most <= most.zero()) return 0;
    if (most >= std::chrono::hours(1000000)) return SCQ_FOREVER;
    const auto in_all = std::chrono::duration_cast<std::chrono::nanoseconds>(most).count();
    return static_cast<std::uint64_t>(in_all);
}

// A bell, and what is tied to it; the last of its owners ends it.
class BellCore {
    // What is tied in one role.
    class TieOf final : public Tie {
      public:
        TieOf(BellCore &core, Role role) noexcept : core_(core), role_(role) {}
        bool sends() const noexcept { return role_ != Role::Takes; }
        bool takes() const noexcept { return role_ != Role::Sends; }
        void keep() noexcept override { core_.keep(); }
        void let_go() noexcept override { core_.let_go(); }
        bool has_ended(std::uint32_t topic) noexcept override {
            return scq_bell_have_ended(&core_.bell, scq_line(topic)) != 0 && topic < SCQ_LINES;
        }
        void ring(std::uint32_t topic) noexcept override { scq_bell_ring(&core_.bell, topic); }
        std::uint32_t retire(scq_port *port) noexcept override {
            return scq_bell_retire(&core_.bell, port);
        }
        std::uint32_t end(scq_port *port, scq_ended *ended, scq_counts *counts,
                          std::size_t count) noexcept override {
            const std::uint32_t answer = scq_bell_end(&core_.bell, port, ended, counts, count);
            if (answer == SCQ_OK && takes()) core_.end_one(core_.takers, SCQ_FREE);
            return answer;
        }
        void end_handle() noexcept override {
            if (sends()) core_.end_one(core_.senders, 0);
            if (takes()) core_.end_one(core_.takers, SCQ_FREE);
        }

      private:
        BellCore &core_;
        Role role_;
    };

  public:
    BellCore() noexcept
        : is_made(scq_bell_init(&bell) == SCQ_OK), sends_(*this, Role::Sends),
          takes_(*this, Role::Takes), both_(*this, Role::Both) {}
    BellCore(const BellCore &) = delete;
    BellCore &operator=(const BellCore &) = delete;

    void keep() noexcept { owners_.fetch_add(1, std::memory_order_relaxed); }
    void let_go() noexcept {
        scq_tell_before(this);
        if (owners_.fetch_sub(1, std::memory_order_acq_rel) != 1) return;
        scq_tell_after(this);
        if (is_made) scq_bell_free(&bell);
        delete this;
    }

    // One more that is tied in a role. Of ports who sends isn't counted, as it retires.
    TieRef tie(Role role, bool is_handle) noexcept {
        TieOf &tie = role == Role::Sends ? sends_ : role == Role::Takes ? takes_ : both_;
        if (is_handle && tie.sends()) senders++;
        if (tie.takes()) takers++;
        return TieRef(&tie);
    }

    // One that was counted ends: with the last of them, a line.
    void end_one(std::atomic<std::size_t> &count, std::uint32_t topic) noexcept {
        if (--count == 0) scq_bell_finish(&bell, scq_line(topic));
    }

    scq_bell bell;
    const bool is_made;
    std::atomic<std::size_t> senders{0}, takers{0};

  private:
    ~BellCore() = default;

    std::atomic<std::size_t> owners_{1};
    TieOf sends_, takes_, both_;
};

// Rings for a line where it ends, as where something is thrown.
struct RingsAtEnd {
    RingsAtEnd(scq_bell *of, std::uint32_t line_of) noexcept : bell(of), topic(line_of) {}
    RingsAtEnd(const RingsAtEnd &) = delete;
    RingsAtEnd &operator=(const RingsAtEnd &) = delete;
    ~RingsAtEnd() {
        if (!is_off) scq_bell_ring(bell, topic);
    }

    scq_bell *bell;
    std::uint32_t topic;
    bool is_off = false;
};

// A thread's wait for these lines, with the steps of scq_bell_take_any. Where it ends, also as
// something is thrown, the thread is out, and what it owes a look is rung.
class Waiting {
  public:
    Waiting(scq_bell *bell, scq_lines lines) noexcept : bell_(bell), lines_(lines) {}
    Waiting(const Waiting &) = delete;
    Waiting &operator=(const Waiting &) = delete;
    ~Waiting() {
        leave();
        scq_bell_pass(bell_, owed_);
    }

    void enter() noexcept {
        owed_ = scq_lines_of(0);
        scq_bell_enter(bell_, lines_);
        is_inside_ = true;
    }
    void leave() noexcept {
        if (is_inside_) scq_bell_leave(bell_, lines_);
        is_inside_ = false;
    }
    // Answers false where the time is over.
    bool sleep(std::uint64_t until) noexcept {
        const bool in_time = scq_bell_sleep(bell_, lines_, until) != 0;
        owed_ = scq_bell_wake_up(bell_, lines_);
        is_inside_ = false;
        return in_time;
    }
    // A look came to this answer on this line.
    void looked(std::uint32_t topic, Answer answer) noexcept {
        owed_ = scq_bell_unseen(owed_, topic, static_cast<std::uint32_t>(answer));
    }

  private:
    scq_bell *bell_;
    scq_lines lines_, owed_ = {0};
    bool is_inside_ = false;
};

// Asks until the answer is neither Empty nor Full, or the time is over; Ended where the line has
// and there is nothing.
template <class Ask>
Answer wait_for(scq_bell *bell, std::uint32_t topic, std::uint64_t most, Ask ask) {
    const scq_lines lines = scq_line(topic);
    const auto look = [&]() {
        const bool has_ended = scq_bell_have_ended(bell, lines) != 0;
        const Answer answer = ask();
        return has_ended && finds_nothing(answer) ? Answer::Ended : answer;
    };
    Answer answer = look();
    if (!finds_nothing(answer) || most == 0) return answer;
    const std::uint64_t until = scq_bell_until(most);
    Waiting waiting(bell, lines);
    for (bool in_time = true; in_time && finds_nothing(answer);) {
        waiting.enter();
        answer = look();
        if (!finds_nothing(answer)) return answer;
        in_time = waiting.sleep(until);
        answer = look();
        waiting.looked(topic, answer);
    }
    return answer;
}

// Puts a value in by `put`, or takes one by `get`, and rings. What throws leaves its room, or its
// value's, to another.
template <class Put> Answer put_value(scq_bell *bell, bool rings, std::uint64_t most, Put put) {
    RingsAtEnd throws(bell, SCQ_FREE);
    const Answer answer = wait_for(bell, SCQ_FREE, most, put);
    throws.is_off = true;
    if (answer == Answer::Ok && rings) scq_bell_ring(bell, 0);
    return answer;
}
template <class Get> Answer get_value(scq_bell *bell, bool rings, std::uint64_t most, Get get) {
    RingsAtEnd throws(bell, SCQ_FREE);
    const Answer answer = wait_for(bell, 0, most, get);
    throws.is_off = answer != Answer::Ok || !rings;
    return answer;
}

} // namespace detail

// A Lent or a Taken that was got through a bell, or none and why.
template <class Guard> class Rung : private Guard {
  public:
    Rung(Rung &&) noexcept = default;
    Rung &operator=(Rung &&other) noexcept {
        if (this != &other) {
            end_here();
            Guard::operator=(std::move(other));
            bell_ = other.bell_;
            ended_ = other.ended_;
        }
        return *this;
    }
    ~Rung() { end_here(); }

    // What was answered: Empty or Full where a wait was over, Ended where nothing comes any more.
    Answer answer() const noexcept { return ended_ ? Answer::Ended : Guard::answer(); }

    // As of the guard.
    using Guard::operator bool;
    using Guard::operator[];
    using Guard::begin;
    using Guard::data;
    using Guard::end;
    using Guard::index;
    using Guard::messages;
    using Guard::number;
    using Guard::pack;
    using Guard::pack_begin;
    using Guard::pack_room;
    using Guard::size;
#ifdef __cpp_lib_span
    using Guard::bytes;
#endif
    std::uint64_t place() const noexcept { return Guard::place(); }

    // Whether there is none as nothing comes any more.
    bool ended() const noexcept { return ended_; }

    // Sends the buffer as the guard's `send`, and wakes one that waits for the topic. Where the
    // topic has ended the answer is Ended, and the buffer stays.
    SCQ_BELL_NODISCARD Sent send(std::uint32_t topic) noexcept {
        if (*this && scq_bell_have_ended(bell_, scq_line(topic)) != 0 && topic < SCQ_FREE) {
            return Sent{Answer::Ended, 0};
        }
        const bool rings = !Guard::is_tied();
        const Sent sent = Guard::send(topic);
        if (sent && rings) scq_bell_ring(bell_, topic);
        return sent;
    }

    // Gives the buffer back as the guard's `give_back`, and wakes one that waits for a buffer.
    Answer give_back() noexcept {
        const bool rings = !Guard::is_tied();
        const Answer given = Guard::give_back();
        if (given == Answer::Ok && rings) scq_bell_ring(bell_, SCQ_FREE);
        return given;
    }

  private:
    friend class Bell;

    Rung(Guard &&guard, scq_bell *bell) noexcept : Guard(std::move(guard)), bell_(bell) {}

    void end_here() noexcept {
        if (*this) give_back();
    }

    scq_bell *bell_;
    bool ended_ = false;
};

// A bell: it is neither copied nor moved. Where it is false, no call is made with it.
class Bell {
  public:
    Bell() noexcept : core_(new (std::nothrow) detail::BellCore) {}
    Bell(const Bell &) = delete;
    Bell &operator=(const Bell &) = delete;
    ~Bell() {
        if (core_ != nullptr) core_->let_go();
    }

    // Whether there was memory for it.
    explicit operator bool() const noexcept { return core_ != nullptr && core_->is_made; }

    // Ties a port to the bell until it ends, in a role: before the threads start, as the last of
    // those that are tied ends its line. What is done with it rings by itself then, also by the
    // port's own calls. However it ends: what it held is rung for those who wait for a buffer;
    // where all ports of the queue have retired, the topics end; and with the last one that takes,
    // SCQ_FREE ends, so that who waits for a buffer is told so where none is free. One that takes
    // alone retires here. Ok; Closed; IsOpen where it is tied already.
    Answer tie(Port &port, Role role = Role::Both) noexcept {
        if (!port) return Answer::Closed;
        if (port.shared_.tie()) return Answer::IsOpen;
        port.shared_.tie() = core_->tie(role, false);
        return role == Role::Takes ? port.retire() : Answer::Ok;
    }

    // The same of a handle of a Ring: line 0 ends with the last one that sends, SCQ_FREE with the
    // last one that takes.
    template <class Handle> Answer tie(Handle &handle, Role role = Role::Both) noexcept {
        if (!handle) return Answer::Closed;
        if (handle.is_tied()) return Answer::IsOpen;
        handle.worker_.tie = core_->tie(role, true);
        return Answer::Ok;
    }

    // Is lent a buffer, and waits until there is one: there is none where the answer is Spent,
    // NoRoom or Closed, or where SCQ_FREE has ended.
    SCQ_BELL_NODISCARD Rung<Lent> lend(Port &port) noexcept {
        return lend_until(port, SCQ_FOREVER);
    }

    // Waits that long at most; where it is over the answer is Full.
    template <class Rep, class Period>
    SCQ_BELL_NODISCARD Rung<Lent>
    lend_for(Port &port, const std::chrono::duration<Rep, Period> &most) noexcept {
        return lend_until(port, detail::nanoseconds(most));
    }

    // Takes a buffer off a topic, and waits until there is one: there is none where the answer is
    // Spent, NoTopic, NoRoom or Closed, or where the topic has ended.
    SCQ_BELL_NODISCARD Rung<Taken> take(Port &port, std::uint32_t topic) noexcept {
        return take_until(port, topic, SCQ_FOREVER);
    }

    // Waits that long at most; where it is over the answer is Empty.
    template <class Rep, class Period>
    SCQ_BELL_NODISCARD Rung<Taken>
    take_for(Port &port, std::uint32_t topic,
             const std::chrono::duration<Rep, Period> &most) noexcept {
        return take_until(port, topic, detail::nanoseconds(most));
    }

    // The same of the first of several topics that has something, the lowest where several have.
    // Writes which it is.
    SCQ_BELL_NODISCARD Rung<Taken> take_any(Port &port, Lines lines,
                                            std::uint32_t &topic) noexcept {
        return take_any_until(port, lines, SCQ_FOREVER, topic);
    }

    template <class Rep, class Period>
    SCQ_BELL_NODISCARD Rung<Taken> take_any_for(Port &port, Lines lines,
                                                const std::chrono::duration<Rep, Period> &most,
                                                std::uint32_t &topic) noexcept {
        return take_any_until(port, lines, detail::nanoseconds(most), topic);
    }

    // Puts a value at the end of a Ring, by a handle of it, and waits up to so many nanoseconds
    // until there is room: as the handle's `push`, Full where that is over, Ended where line 0 has,
    // or SCQ_FREE and there is no room. The bell is of this ring alone, and whoever pushes or pops
    // does so by it, or by a tied handle, where somebody waits.
    template <class Handle, class T>
    SCQ_BELL_NODISCARD Answer push(Handle &handle, T &&value, std::uint64_t most = SCQ_FOREVER) {
        if (scq_bell_have_ended(get(), scq_line(0)) != 0) return Answer::Ended;
        return detail::put_value(get(), !handle.is_tied(), most,
                                 [&]() { return handle.push(std::forward<T>(value)); });
    }

    // Takes the first value off a Ring, moved to `to`, and waits until there is one: as the
    // handle's `pop`, Empty where the time is over, Ended where line 0 has.
    template <class Handle, class T>
    SCQ_BELL_NODISCARD Answer pop(Handle &handle, T &to, std::uint64_t most = SCQ_FOREVER) {
        return detail::get_value(get(), !handle.is_tied(), most, [&]() { return handle.pop(to); });
    }

    // Says that nothing is sent on these topics any more; or, of SCQ_FREE, that who waits there is
    // to give up. Who waits is woken, and takes what is left before his wait ends.
    void finish(Lines lines) noexcept { scq_bell_finish(get(), lines.get()); }

    // Retires a port, and ends all topics where all ports have retired.
    Answer retire(Port &port) noexcept {
        if (port.shared_.is_none()) return Answer::Closed;
        return static_cast<Answer>(scq_bell_retire(get(), port.shared_.port()));
    }

    // Rings for a topic or for SCQ_FREE, behind what was sent or given back without the bell.
    void ring(std::uint32_t topic) noexcept { scq_bell_ring(get(), topic); }

    // Closes a port: it retires, and all that wait for a buffer are woken, as it may have held
    // several.
    Answer close(Port &port) noexcept {
        retire(port);
        const Answer answer = port.close();
        scq_bell_ring_all(get(), scq_line(SCQ_FREE));
        return answer;
    }

    // The bell of scq_bell.h, for watches.
    scq_bell *get() noexcept { return &core_->bell; }

  private:
    // What scq_bell_take_any does: `ask` asks for one line, and is asked for none but these.
    template <class Guard, class Ask>
    Rung<Guard> wait(scq_lines lines, std::uint64_t most, std::uint32_t &topic, Ask ask) noexcept {
        Rung<Guard> got = look<Guard>(lines, topic, ask);
        if (!detail::finds_nothing(got.answer()) || most == 0) return got;
        const std::uint64_t until = scq_bell_until(most);
        detail::Waiting waiting(get(), lines);
        for (bool in_time = true; in_time && detail::finds_nothing(got.answer());) {
            waiting.enter();
            got = look<Guard>(lines, topic, ask);
            if (!detail::finds_nothing(got.answer())) return got;
            in_time = waiting.sleep(until);
            got = look<Guard>(lines, topic, ask);
            waiting.looked(topic, got.answer());
        }
        return got;
    }

    template <class Guard, class Ask>
    Rung<Guard> look(scq_lines lines, std::uint32_t &topic, Ask &ask) noexcept {
        const bool have_ended = scq_bell_have_ended(get(), lines) != 0;
        for (;; lines = scq_bell_rest(lines)) {
            topic = scq_bell_first(lines);
            Rung<Guard> got(ask(topic), get());
            const bool is_last = scq_bell_rest(lines).set == 0;
            if (detail::finds_nothing(got.answer()) && !is_last) continue;
            got.ended_ = have_ended && detail::finds_nothing(got.answer());
            return got;
        }
    }

    Rung<Lent> lend_until(Port &port, std::uint64_t most) noexcept {
        std::uint32_t topic;
        return wait<Lent>(scq_line(SCQ_FREE), most, topic,
                          [&port](std::uint32_t) noexcept { return port.lend(); });
    }

    Rung<Taken> take_until(Port &port, std::uint32_t topic, std::uint64_t most) noexcept {
        if (topic >= SCQ_FREE) return Rung<Taken>(port.take(topic), get());
        return take_any_until(port, line(topic), most, topic);
    }

    Rung<Taken> take_any_until(Port &port, Lines lines, std::uint64_t most,
                               std::uint32_t &topic) noexcept {
        topic = SCQ_FREE;
        if (lines.is_none() || lines.has(SCQ_FREE)) return Rung<Taken>(port.take(topic), get());
        return wait<Taken>(lines.get(), most, topic,
                           [&port](std::uint32_t one) noexcept { return port.take(one); });
    }

    detail::BellCore *core_;
};

template <class T> class Sender;
template <class T> class Receiver;

namespace detail {

// What the ends of a channel share; the last of them ends it.
template <class T> struct ChannelCore {
    std::atomic<std::size_t> owners{0}, senders{0}, receivers{0};
    Ring<T> ring;
    Bell bell;
    std::mutex lock; // over the handle that those ends share that got none of their own
    typename Ring<T>::Handle shared;
};

// An end of a channel, or none: one that sends, or one that receives.
template <class T, bool sends> class ChannelEnd {
  public:
    ChannelEnd() noexcept = default;
    explicit ChannelEnd(ChannelCore<T> *core) noexcept : core_(core) {
        if (core_ == nullptr) return;
        core_->owners.fetch_add(1, std::memory_order_relaxed);
        alike().fetch_add(1, std::memory_order_relaxed);
        handle_ = core_->ring.handle();
    }
    ChannelEnd(const ChannelEnd &other) noexcept : ChannelEnd(other.core_) {}
    ChannelEnd(ChannelEnd &&other) noexcept
        : core_(other.core_), handle_(std::move(other.handle_)) {
        other.core_ = nullptr;
    }
    ChannelEnd &operator=(ChannelEnd other) noexcept {
        std::swap(core_, other.core_);
        std::swap(handle_, other.handle_);
        return *this;
    }
    ~ChannelEnd() {
        if (core_ == nullptr) return;
        handle_ = typename Ring<T>::Handle();
        if (--alike() == 0) core_->bell.finish(line(sends ? 0 : SCQ_FREE));
        scq_tell_before(core_);
        if (--core_->owners != 0) return;
        scq_tell_after(core_);
        delete core_;
    }

    bool is_none() const noexcept { return core_ == nullptr; }
    scq_bell *bell() const noexcept { return core_->bell.get(); }

    // Calls with a handle: its own, or the one that is shared.
    template <class Call> Answer with_handle(Call call) {
        if (handle_) return call(handle_);
        const std::lock_guard<std::mutex> hold(core_->lock);
        return call(core_->shared);
    }

  private:
    std::atomic<std::size_t> &alike() const noexcept {
        return sends ? core_->senders : core_->receivers;
    }

    ChannelCore<T> *core_ = nullptr;
    typename Ring<T>::Handle handle_;
};

} // namespace detail

// The sending end of a channel. A copy is one more: each thread has its own. Where the last one
// ends, who receives takes what is left, and then is answered Ended.
template <class T> class Sender {
  public:
    // No end: each call is answered Closed.
    Sender() noexcept = default;
    explicit operator bool() const noexcept { return !end_.is_none(); }

    // Sends a value, and waits until there is room: Ok; Ended where no receiver is left; Spent;
    // Closed. Where it isn't Ok the value is there as it was.
    SCQ_BELL_NODISCARD Answer send(T &&value) { return send_until(std::move(value), SCQ_FOREVER); }
    SCQ_BELL_NODISCARD Answer send(const T &value) { return send_until(value, SCQ_FOREVER); }

    // Doesn't wait, or that long at most: Full too, where there was no room.
    SCQ_BELL_NODISCARD Answer try_send(T &&value) { return send_until(std::move(value), 0); }
    SCQ_BELL_NODISCARD Answer try_send(const T &value) { return send_until(value, 0); }
    template <class Rep, class Period>
    SCQ_BELL_NODISCARD Answer send_for(T &&value, const std::chrono::duration<Rep, Period> &most) {
        return send_until(std::move(value), detail::nanoseconds(most));
    }
    template <class Rep, class Period>
    SCQ_BELL_NODISCARD Answer send_for(const T &value,
                                       const std::chrono::duration<Rep, Period> &most) {
        return send_until(value, detail::nanoseconds(most));
    }

  private:
    template <class U> friend struct Channel;
    using Handle = typename Ring<T>::Handle;

    explicit Sender(detail::ChannelCore<T> *core) noexcept : end_(core) {}

    template <class Value> Answer send_until(Value &&value, std::uint64_t most) {
        if (end_.is_none()) return Answer::Closed;
        return detail::put_value(end_.bell(), true, most, [&]() {
            if (scq_bell_have_ended(end_.bell(), scq_line(SCQ_FREE)) != 0) return Answer::Ended;
            return end_.with_handle(
                [&](Handle &handle) { return handle.push(std::forward<Value>(value)); });
        });
    }

    detail::ChannelEnd<T, true> end_;
};

// The receiving end of a channel. A copy is one more; each value comes to one of them. Where the
// last one ends, who sends is answered Ended.
//
//     for (Job &job : receiver) run(job);      until the last sender has ended, and nothing is left
template <class T> class Receiver {
    // A value, or none.
    class Place {
      public:
        Place() noexcept = default;
        Place(const Place &) = delete;
        Place &operator=(const Place &) = delete;
        ~Place() { end(); }
        void make(T &&value) {
            ::new (static_cast<void *>(bytes_)) T(std::move(value));
            is_full_ = true;
        }
        void end() noexcept {
            if (is_full_) value().~T();
            is_full_ = false;
        }
        T &value() noexcept { return *reinterpret_cast<T *>(bytes_); }

      private:
        alignas(T) unsigned char bytes_[sizeof(T)];
        bool is_full_ = false;
    };

  public:
    Receiver() noexcept = default;
    Receiver(const Receiver &other) noexcept : end_(other.end_) {}
    Receiver(Receiver &&other) noexcept : end_(std::move(other.end_)) {}
    Receiver &operator=(Receiver other) noexcept {
        end_ = std::move(other.end_);
        return *this;
    }
    explicit operator bool() const noexcept { return !end_.is_none(); }

    // Receives a value, moved to `to`, and waits until there is one: Ok; Ended where no sender is
    // left and nothing is; Spent; Closed.
    SCQ_BELL_NODISCARD Answer recv(T &to) { return recv_until(to, SCQ_FOREVER); }

    // Doesn't wait, or that long at most: Empty too, where there was none.
    SCQ_BELL_NODISCARD Answer try_recv(T &to) { return recv_until(to, 0); }
    template <class Rep, class Period>
    SCQ_BELL_NODISCARD Answer recv_for(T &to, const std::chrono::duration<Rep, Period> &most) {
        return recv_until(to, detail::nanoseconds(most));
    }

#if __cplusplus >= 201703L
    // The same, without why there is none.
    SCQ_BELL_NODISCARD std::optional<T> recv() { return recv_until(SCQ_FOREVER); }
    SCQ_BELL_NODISCARD std::optional<T> try_recv() { return recv_until(0); }
    template <class Rep, class Period>
    SCQ_BELL_NODISCARD std::optional<T> recv_for(const std::chrono::duration<Rep, Period> &most) {
        return recv_until(detail::nanoseconds(most));
    }
#endif

    // The values as they come, for one loop at a time.
    class iterator {
      public:
        using iterator_category = std::input_iterator_tag;
        using value_type = T;
        using difference_type = std::ptrdiff_t;
        using pointer = T *;
        using reference = T &;

        explicit iterator(Receiver *of) : of_(of) {
            if (of_ != nullptr) ++*this;
        }
        T &operator*() const noexcept { return of_->place_.value(); }
        T *operator->() const noexcept { return &of_->place_.value(); }
        iterator &operator++() {
            if (!of_->next()) of_ = nullptr;
            return *this;
        }
        bool operator==(const iterator &other) const noexcept { return of_ == other.of_; }
        bool operator!=(const iterator &other) const noexcept { return of_ != other.of_; }

      private:
        Receiver *of_;
    };

    iterator begin() { return iterator(this); }
    iterator end() noexcept { return iterator(nullptr); }

  private:
    template <class U> friend struct Channel;
    using Handle = typename Ring<T>::Handle;

    explicit Receiver(detail::ChannelCore<T> *core) noexcept : end_(core) {}

    template <class Use> Answer use_one(std::uint64_t most, Use use) {
        if (end_.is_none()) return Answer::Closed;
        return detail::get_value(end_.bell(), true, most, [&]() {
            return end_.with_handle([&](Handle &handle) { return handle.consume_one(use); });
        });
    }
    Answer recv_until(T &to, std::uint64_t most) {
        return use_one(most, [&to](T &&value) { to = std::move(value); });
    }
#if __cplusplus >= 201703L
    std::optional<T> recv_until(std::uint64_t most) {
        std::optional<T> got;
        static_cast<void>(use_one(most, [&got](T &&value) { got.emplace(std::move(value)); }));
        return got;
    }
#endif
    bool next() {
        place_.end();
        return use_one(SCQ_FOREVER, [this](T &&value) { place_.make(std::move(value)); }) ==
               Answer::Ok;
    }

    detail::ChannelEnd<T, false> end_;
    Place place_;
};

// Both ends of a channel over a Ring, or none and why: `answer` is what Ring::open answered.
//
//     scq::Channel<Job> channel = scq::channel<Job>();
//     if (channel.answer != scq::Answer::Ok) return 1;
template <class T> struct Channel {
    Answer answer;
    Sender<T> sender;
    Receiver<T> receiver;

    // With room for 2^order values. So many ends have a handle of their own; what is copied beyond
    // them shares one behind a lock, which nobody holds while he waits.
    Channel(std::uint32_t order, std::size_t handles) noexcept : answer(Answer::NoMemory) {
        detail::ChannelCore<T> *const core = new (std::nothrow) detail::ChannelCore<T>;
        if (core == nullptr) return;
        core->owners = 1;
        if (core->bell) answer = core->ring.open(order, handles + 1);
        if (answer == Answer::Ok) {
            core->shared = core->ring.handle();
            sender = Sender<T>(core);
            receiver = Receiver<T>(core);
        }
        if (--core->owners == 0) delete core;
    }
};

template <class T>
SCQ_BELL_NODISCARD Channel<T> channel(std::uint32_t order = 6, std::size_t handles = 16) noexcept {
    return Channel<T>(order, handles);
}

} // namespace scq

#undef SCQ_BELL_NODISCARD
#endif
