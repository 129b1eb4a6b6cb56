// scq: fixed buffers that threads pass to one another, without locks. The calls of
// bindings/c/scq.h, with owners: a Port closes itself, and the Lent and Taken that it gives are
// given back where they end. A Batch has several buffers, and a Ring values of any type in place of
// bytes. C++11 or later; include it with scq.h beside it, and link with libscq.a.
//
//     scq::Port ports[2];
//     if (scq::Queue::open(scq::Setup(), ports) != scq::Answer::Ok) return 1;
//     if (scq::Lent lent = ports[0].lend()) {
//         lent[0] = 'x';
//         if (!lent.send(0)) return 1;
//     }
//     if (scq::Taken taken = ports[1].take(0)) std::putchar(taken[0]);
//
// Nothing of the library throws: a call that was refused says so in what it returns. Only
// Queue::open and Ring::open take memory. What scq.h asks of a caller the owners see to: that a
// port isn't copied, that a buffer is sent or given back once. A Lent and a Taken may be moved, as
// may their Port, in any order, and may outlive it: a call that comes too late is answered, as in
// C. What is left to you:
//
// - One thread at a time uses a port, the buffers that it holds and its batches: so a Batch, also
//   one without buffers, ends before its port goes to another thread, or in that thread.
// - A pointer that you got of a buffer isn't used once the buffer is sent, given back, or its port
//   closed; and operator[] is for a number below size(), which is 0 where there is no buffer.
// - After fork the child uses none of its parent's.
#ifndef SCQ_HPP
#define SCQ_HPP

#include "scq.h"

#include <atomic>
#include <cstddef>
#include <cstdint>
#include <cstdlib>
#include <mutex>
#include <new>
#include <type_traits>
#include <utility>
#if __cplusplus >= 201703L
#include <optional>
#define SCQ_NODISCARD [[nodiscard]]
#else
#define SCQ_NODISCARD
#endif
#if __cplusplus >= 202002L
#include <version>
#endif
#ifdef __cpp_lib_span
#include <span>
#endif

namespace scq {

// What a call answers; scq.h says of each when it comes.
enum class Answer : std::uint32_t {
    Ok = SCQ_OK,
    Empty = SCQ_EMPTY,
    Full = SCQ_FULL,
    Spent = SCQ_SPENT,
    Closed = SCQ_CLOSED,
    NotHeld = SCQ_NOT_HELD,
    NoTopic = SCQ_NO_TOPIC,
    NoRoom = SCQ_NO_ROOM,
    NoMemory = SCQ_NO_MEMORY,
    BadOrder = SCQ_BAD_ORDER,
    BadTopics = SCQ_BAD_TOPICS,
    BadPorts = SCQ_BAD_PORTS,
    BadLimit = SCQ_BAD_LIMIT,
    BadSize = SCQ_BAD_SIZE,
    BadHold = SCQ_BAD_HOLD,
    IsOpen = SCQ_IS_OPEN,
    Retired = SCQ_RETIRED,
    Ended = SCQ_ENDED,
    BadVersion = SCQ_BAD_VERSION
};

// The text of an answer.
inline const char *text(Answer answer) noexcept {
    return scq_text(static_cast<std::uint32_t>(answer));
}

// What a queue is made of: 2^order buffers of `size` bytes and so many topics; how many buffers a
// port may hold at a time; and the limit of tickets. Change what you need.
struct Setup {
    std::uint32_t order = 6;
    std::uint32_t topics = 1;
    std::uint32_t size = 64;
    std::uint32_t hold = 2;
    std::uint64_t limit = SCQ_MAX_LIMIT;
};

// What came of a send: whether it was sent, at which place, and where it wasn't, why. Where that is
// Spent, `place` is the ticket.
struct Sent {
    Answer answer;
    std::uint64_t place;

    explicit operator bool() const noexcept { return answer == Answer::Ok; }
};

// For this file and scq_bell.hpp alone.
namespace detail {

// What is told of what is done with a port or a handle that is tied to a bell: see scq_bell.hpp.
class Tie {
  public:
    virtual void keep() noexcept = 0; // there is one reference more, or less
    virtual void let_go() noexcept = 0;
    virtual bool has_ended(std::uint32_t line) noexcept = 0;
    virtual void ring(std::uint32_t line) noexcept = 0;
    virtual std::uint32_t retire(scq_port *port) noexcept = 0;
    virtual std::uint32_t end(scq_port *port, scq_ended *ended, scq_counts *counts,
                              std::size_t count) noexcept = 0; // of a port
    virtual void end_handle() noexcept = 0;                    // of a Ring

  protected:
    ~Tie() = default;
};

// A reference to one, or to none.
class TieRef {
  public:
    TieRef() noexcept = default;
    explicit TieRef(Tie *tie) noexcept : tie_(tie) {
        if (tie_ != nullptr) tie_->keep();
    }
    TieRef(TieRef &&other) noexcept : tie_(other.tie_) { other.tie_ = nullptr; }
    TieRef &operator=(TieRef other) noexcept {
        std::swap(tie_, other.tie_);
        return *this;
    }
    ~TieRef() {
        if (tie_ != nullptr) tie_->let_go();
    }

    Tie *get() const noexcept { return tie_; }
    explicit operator bool() const noexcept { return tie_ != nullptr; }
    bool has_ended(std::uint32_t line) const noexcept {
        return tie_ != nullptr && tie_->has_ended(line);
    }
    void ring(std::uint32_t line, std::size_t times = 1) const noexcept {
        for (std::size_t k = 0; tie_ != nullptr && k < times; k++) tie_->ring(line);
    }

  private:
    Tie *tie_ = nullptr;
};

// The line of a bell for those who wait for a free buffer.
constexpr std::uint32_t FreeLine = SCQ_MAX_TOPICS;

// The library's handle of a port, which stays where it is while the port and the guards of its
// buffers are moved, and lasts as long as one of them. Between two of them lies a line of the
// cache, since threads write their own all the time.
class Shared {
  public:
    Shared() noexcept = default;
    Shared(const Shared &other) noexcept : cell_(other.cell_) {
        if (cell_ != nullptr) cell_->users++;
    }
    Shared(Shared &&other) noexcept : cell_(other.cell_) { other.cell_ = nullptr; }
    Shared &operator=(Shared other) noexcept {
        std::swap(cell_, other.cell_);
        return *this;
    }
    ~Shared() {
        if (cell_ != nullptr && --cell_->users == 0) delete cell_;
    }

    // A handle that is closed; or none, where no memory was found.
    static Shared make() noexcept {
        Shared made;
        made.cell_ = new (std::nothrow) Cell;
        return made;
    }

    bool is_none() const noexcept { return cell_ == nullptr; }
    bool is_open() const noexcept { return cell_ != nullptr && cell_->port.at != nullptr; }
    scq_port *port() const noexcept { return &cell_->port; }
    TieRef &tie() const noexcept { return cell_->tie; }

    // The calls that a bell is told of.
    std::uint32_t send(std::uint32_t index, std::uint32_t topic,
                       std::uint64_t *place) const noexcept {
        if (tie().has_ended(topic) && is_open()) return SCQ_ENDED;
        const std::uint32_t answer = scq_send(port(), index, topic, place);
        if (answer == SCQ_OK) tie().ring(topic);
        return answer;
    }
    std::uint32_t give_back(std::uint32_t index) const noexcept {
        const std::uint32_t answer = scq_give_back(port(), index);
        if (answer == SCQ_OK) tie().ring(FreeLine);
        return answer;
    }
    std::uint32_t send_many(scq_held *held, std::size_t count, std::uint32_t topic,
                            std::size_t *done) const noexcept {
        *done = 0;
        if (tie().has_ended(topic) && is_open()) return SCQ_ENDED;
        const std::uint32_t answer = scq_send_many(port(), held, count, topic, done);
        tie().ring(topic, *done);
        return answer;
    }
    std::uint32_t give_back_many(const scq_held *held, std::size_t count,
                                 std::size_t *done) const noexcept {
        const std::uint32_t answer = scq_give_back_many(port(), held, count, done);
        tie().ring(FreeLine, *done);
        return answer;
    }
    std::uint32_t retire() const noexcept {
        return tie() ? tie().get()->retire(port()) : scq_retire(port());
    }
    std::uint32_t end(scq_ended *ended, scq_counts *counts, std::size_t count) const noexcept {
        const std::uint32_t answer = tie() ? tie().get()->end(port(), ended, counts, count)
                                           : scq_end(port(), ended, counts, count);
        if (answer == SCQ_OK) {
            scq_free(port());
            tie() = TieRef();
        }
        return answer;
    }

  private:
    struct Cell {
        scq_port port = SCQ_NONE;
        TieRef tie;
        std::size_t users = 1;
        unsigned char apart[SCQ_CACHE_LINE];
    };

    Cell *cell_ = nullptr;
};

} // namespace detail

// A message that was packed with others: bytes in the buffer that it came with.
class Message {
  public:
    Message(const unsigned char *data, std::size_t size) noexcept : data_(data), size_(size) {}
    const unsigned char *data() const noexcept { return data_; }
    std::size_t size() const noexcept { return size_; }
    const unsigned char *begin() const noexcept { return data_; }
    const unsigned char *end() const noexcept { return data_ + size_; }

  private:
    const unsigned char *data_;
    std::size_t size_;
};

// The messages that stand in a buffer, in their order: a range for a loop.
class Messages {
  public:
    class iterator {
      public:
        explicit iterator(const scq_held *held) noexcept : held_(held) { ++*this; }
        Message operator*() const noexcept { return Message(at_, len_); }
        iterator &operator++() noexcept {
            if (held_ != nullptr && scq_unpack(held_, &next_, &at_, &len_) == 0) held_ = nullptr;
            return *this;
        }
        // (For the end of a loop: whether both are at the end.)
        bool operator!=(const iterator &other) const noexcept { return held_ != other.held_; }

      private:
        const scq_held *held_;
        std::size_t next_ = 0;
        const unsigned char *at_ = nullptr;
        std::size_t len_ = 0;
    };

    explicit Messages(const scq_held &held) noexcept : held_(held) {}
    iterator begin() const noexcept { return iterator(&held_); }
    iterator end() const noexcept { return iterator(nullptr); }

  private:
    scq_held held_;
};

// A buffer that a port holds, or none and why. Where it ends it is given back, or stays with the
// port.
class Held {
  public:
    Held(const Held &) = delete;
    Held &operator=(const Held &) = delete;

    // Whether there is a buffer. There is none where the call was refused, where the buffer was
    // sent, given back or moved from here, and where the port was closed.
    explicit operator bool() const noexcept { return shared_.is_open(); }

    // What was answered to the call that this came from: Ok where a buffer was got. Once that was
    // sent, given back or moved from here: NotHeld.
    Answer answer() const noexcept { return answer_; }

    // Where the answer is Full or Empty, the head; where it is Spent, the ticket.
    std::uint64_t number() const noexcept { return held_.place; }

    // The bytes: null and 0 where there is no buffer.
    unsigned char *data() noexcept { return *this ? held_.at : nullptr; }
    const unsigned char *data() const noexcept { return *this ? held_.at : nullptr; }
    std::size_t size() const noexcept { return *this ? held_.len : 0; }
    unsigned char *begin() noexcept { return data(); }
    unsigned char *end() noexcept { return data() + size(); }
    const unsigned char *begin() const noexcept { return data(); }
    const unsigned char *end() const noexcept { return data() + size(); }
    unsigned char &operator[](std::size_t at) noexcept { return held_.at[at]; }
    const unsigned char &operator[](std::size_t at) const noexcept { return held_.at[at]; }
#ifdef __cpp_lib_span
    std::span<unsigned char> bytes() noexcept { return {data(), size()}; }
    std::span<const unsigned char> bytes() const noexcept { return {data(), size()}; }
#endif

    // Several small messages in one buffer, each behind its length: scq.h says how they stand
    // there. `pack` answers whether there was room, `pack_room` where a message of `size` bytes is
    // to be written, or null.
    void pack_begin() noexcept {
        if (*this) scq_pack_begin(&held_);
    }
    SCQ_NODISCARD bool pack(const void *message, std::size_t size) noexcept {
        return *this && scq_pack(&held_, message, size) != 0;
    }
    SCQ_NODISCARD unsigned char *pack_room(std::size_t size) noexcept {
        return *this ? scq_pack_room(&held_, size) : nullptr;
    }
    Messages messages() const noexcept { return Messages(here()); }

    // The buffer's number, below the number of buffers.
    std::uint32_t index() const noexcept { return held_.index; }

    // Sends the buffer on a topic. Where it is sent there is none left here; where it is refused it
    // stays. Where there is none the answer is NotHeld, or Closed if that is why.
    SCQ_NODISCARD Sent send(std::uint32_t topic) noexcept {
        std::uint64_t place = 0;
        if (shared_.is_none()) return Sent{none(), place};
        const Answer answer = static_cast<Answer>(shared_.send(held_.index, topic, &place));
        if (answer == Answer::Ok) let_go();
        return Sent{answer, place};
    }

    // Gives the buffer back. Where that is refused it stays. Where there is none the answer is
    // NotHeld, or Closed if that is why.
    Answer give_back() noexcept {
        if (shared_.is_none()) return none();
        const Answer answer = static_cast<Answer>(shared_.give_back(held_.index));
        if (answer == Answer::Ok) let_go();
        return answer;
    }

  protected:
    Held(const detail::Shared &shared, Answer answer, const scq_held &held) noexcept
        : shared_(answer == Answer::Ok ? shared : detail::Shared()), held_(held), answer_(answer) {}
    Held(Held &&other) noexcept
        : shared_(std::move(other.shared_)), held_(other.held_), answer_(other.answer_) {
        other.let_go();
    }
    Held &operator=(Held &&other) noexcept {
        if (this != &other) {
            end_here();
            shared_ = std::move(other.shared_);
            held_ = other.held_;
            answer_ = other.answer_;
            other.let_go();
        }
        return *this;
    }
    ~Held() { end_here(); }

    // Whether its port is tied to a bell.
    bool is_tied() const noexcept { return !shared_.is_none() && shared_.tie(); }

  private:
    // The buffer, or one without bytes.
    scq_held here() const noexcept {
        scq_held held = held_;
        if (!*this) held.len = 0;
        return held;
    }

    Answer none() const noexcept {
        return answer_ == Answer::Closed ? Answer::Closed : Answer::NotHeld;
    }

    void let_go() noexcept {
        shared_ = detail::Shared();
        held_.at = nullptr;
        if (answer_ == Answer::Ok) answer_ = Answer::NotHeld;
    }

    // (What is refused here stays with the port.)
    void end_here() noexcept {
        if (!shared_.is_none()) shared_.give_back(held_.index);
    }

    detail::Shared shared_;

  protected:
    scq_held held_;

  private:
    Answer answer_;
};

// A buffer that was lent, to be written and sent, with whatever bytes its last user left.
class Lent : public Held {
  public:
    Lent(Lent &&) noexcept = default;
    Lent &operator=(Lent &&) noexcept = default;

  private:
    friend class Port;
    using Held::Held;
};

// A buffer that was taken off a topic, with the bytes that were sent. It may be changed and sent
// on.
class Taken : public Held {
  public:
    Taken(Taken &&) noexcept = default;
    Taken &operator=(Taken &&) noexcept = default;

    // The place at which it was sent.
    std::uint64_t place() const noexcept { return held_.place; }

  private:
    friend class Port;
    using Held::Held;
};

// What a thread makes its calls with. Where it ends, it is closed: what it holds is given back, and
// the last port frees the queue.
class Port {
  public:
    // A port that is closed.
    Port() noexcept = default;
    Port(const Port &) = delete;
    Port &operator=(const Port &) = delete;
    Port(Port &&other) noexcept = default;
    Port &operator=(Port &&other) noexcept {
        if (this != &other) {
            close();
            shared_ = std::move(other.shared_);
        }
        return *this;
    }
    ~Port() { close(); }

    // Whether the port is open.
    explicit operator bool() const noexcept { return shared_.is_open(); }

    // Lends a buffer that nobody holds: there is none where the answer is Full, Spent, NoRoom or
    // Closed.
    SCQ_NODISCARD Lent lend() noexcept {
        scq_held held = {nullptr, 0, 0, 0, 0};
        Answer answer = Answer::Closed;
        if (!shared_.is_none()) answer = static_cast<Answer>(scq_lend(shared_.port(), &held));
        return Lent(shared_, answer, held);
    }

    // Takes a buffer off a topic: there is none where the answer is Empty, Spent, NoTopic, NoRoom
    // or Closed.
    SCQ_NODISCARD Taken take(std::uint32_t topic) noexcept {
        scq_held held = {nullptr, 0, 0, 0, 0};
        Answer answer = Answer::Closed;
        if (!shared_.is_none()) {
            answer = static_cast<Answer>(scq_take(shared_.port(), topic, &held));
        }
        return Taken(shared_, answer, held);
    }

    // Writes how many buffers the queue has: Ok or Closed.
    Answer capacity(std::uint32_t &out) noexcept {
        if (shared_.is_none()) return Answer::Closed;
        return static_cast<Answer>(scq_capacity(shared_.port(), &out));
    }

    // Writes about how many buffers stand on a topic, never above the queue's capacity: Ok, NoTopic
    // or Closed. It is a hint: others send and take meanwhile, and places that were drawn and not
    // used count too. Only a take tells whether a topic is empty.
    SCQ_NODISCARD Answer count(std::uint32_t topic, std::uint32_t &out) noexcept {
        if (shared_.is_none()) return Answer::Closed;
        return static_cast<Answer>(scq_count(shared_.port(), topic, &out));
    }

    // Sends no more: Ok or Closed. It still lends, takes and gives back.
    Answer retire() noexcept {
        if (shared_.is_none()) return Answer::Closed;
        return static_cast<Answer>(shared_.retire());
    }

    // Retired where all ports of the queue have, or Ok where some hadn't, as far as the call read;
    // or Closed. Ask first, and then take: a topic that is found empty then has ended.
    SCQ_NODISCARD Answer retired() noexcept {
        if (shared_.is_none()) return Answer::Closed;
        return static_cast<Answer>(scq_retired(shared_.port()));
    }

    // Writes how many sends, takes and Full answers the port had: Ok or Closed.
    Answer counts(scq_counts &out) noexcept {
        if (shared_.is_none()) return Answer::Closed;
        return static_cast<Answer>(scq_counts_of(shared_.port(), &out));
    }

    // Ok, or Spent where the port has drawn a ticket at or past the limit, which is written; or
    // Closed.
    Answer spent(std::uint64_t &ticket) noexcept {
        if (shared_.is_none()) return Answer::Closed;
        return static_cast<Answer>(scq_spent(shared_.port(), &ticket));
    }

    // Closes the port before its end: Ok or Closed.
    Answer close() noexcept {
        if (shared_.is_none()) return Answer::Closed;
        scq_ended ended;
        scq_counts none;
        return static_cast<Answer>(shared_.end(&ended, &none, 0));
    }

    // The same, and whether it was the queue's last port; where it was, what each port did is
    // written, in the order in which they were opened: of the first `count`. Where the answer is
    // Closed nothing is written.
    Answer close(bool &last, scq_counts *counts, std::size_t count) noexcept {
        if (shared_.is_none()) return Answer::Closed;
        scq_ended ended;
        const Answer answer = static_cast<Answer>(shared_.end(&ended, counts, count));
        if (answer == Answer::Ok) last = ended.last == 1;
        return answer;
    }

  private:
    friend struct Queue;
    friend class Bell;
    template <std::size_t most> friend class Batch;

    detail::Shared shared_;
};

// What came of a call of several: how many buffers, or values, went, and Ok where all did, or why
// the next didn't.
struct Several {
    Answer answer;
    std::size_t done;

    explicit operator bool() const noexcept { return answer == Answer::Ok; }
};

// The bytes of one buffer of a Batch.
struct Bytes {
    unsigned char *data_;
    std::size_t size_;

    unsigned char *data() const noexcept { return data_; }
    std::size_t size() const noexcept { return size_; }
    unsigned char *begin() const noexcept { return data_; }
    unsigned char *end() const noexcept { return data_ + size_; }
    unsigned char &operator[](std::size_t at) const noexcept { return data_[at]; }
};

// Up to `most` buffers that a port holds, which are got, sent and given back together: as many
// calls of the queue as buffers, and one into the library. It takes no memory. Where it ends, the
// buffers are given back; what can't be stays with the port.
//
//     scq::Batch<8> batch(port);
//     if (!batch.take(0) && batch.size() == 0) std::this_thread::yield();
//     for (std::size_t k = 0; k < batch.size(); k++) work_on(batch[k]);
//     if (!batch.send(1)) return 1;
template <std::size_t most> class Batch {
    static_assert(most > 0, "a batch has room for a buffer");

  public:
    explicit Batch(const Port &port) noexcept : shared_(port.shared_) {}
    Batch(const Batch &) = delete;
    Batch &operator=(const Batch &) = delete;
    ~Batch() {
        if (size_ != 0) give_back();
    }

    // How many buffers there are: none once the port is closed.
    std::size_t size() const noexcept { return shared_.is_open() ? size_ : 0; }

    // The bytes of a buffer, below size(), and the place at which it was taken: 0 where it was
    // lent.
    Bytes operator[](std::size_t at) const noexcept { return Bytes{held_[at].at, held_[at].len}; }
    std::uint64_t place(std::size_t at) const noexcept { return held_[at].place; }

    // Lends up to `count` buffers more, but no more than there is room for: Ok, Full, Spent, NoRoom
    // or Closed.
    SCQ_NODISCARD Several lend(std::size_t count = most) noexcept {
        Several came{Answer::Closed, 0};
        if (shared_.is_none()) return came;
        came.answer = static_cast<Answer>(
            scq_lend_many(shared_.port(), held_ + size_, room(count), &came.done));
        size_ += came.done;
        return came;
    }

    // Takes up to `count` buffers more off a topic, but no more than there is room for: Ok, Empty,
    // Spent, NoTopic, NoRoom or Closed.
    SCQ_NODISCARD Several take(std::uint32_t topic, std::size_t count = most) noexcept {
        Several came{Answer::Closed, 0};
        if (shared_.is_none()) return came;
        came.answer = static_cast<Answer>(
            scq_take_many(shared_.port(), topic, held_ + size_, room(count), &came.done));
        size_ += came.done;
        return came;
    }

    // Sends all buffers on a topic, in their order: Ok, Spent, NoTopic, Retired or Closed. What was
    // sent is gone from here; what wasn't stays, in its order.
    SCQ_NODISCARD Several send(std::uint32_t topic) noexcept {
        Several sent{Answer::Closed, 0};
        if (shared_.is_none()) return sent;
        sent.answer = static_cast<Answer>(shared_.send_many(held_, size_, topic, &sent.done));
        let_go(sent.done);
        return sent;
    }

    // Gives all buffers back: Ok, Spent or Closed. What wasn't given back stays.
    Several give_back() noexcept {
        Several given{Answer::Closed, 0};
        if (shared_.is_none()) return given;
        given.answer = static_cast<Answer>(shared_.give_back_many(held_, size_, &given.done));
        let_go(given.done);
        return given;
    }

  private:
    std::size_t room(std::size_t count) const noexcept {
        return count < most - size_ ? count : most - size_;
    }

    void let_go(std::size_t count) noexcept {
        for (std::size_t k = count; k < size_; k++) held_[k - count] = held_[k];
        size_ -= count;
    }

    detail::Shared shared_;
    scq_held held_[most];
    std::size_t size_ = 0;
};

// The most ports of a queue.
constexpr std::size_t MaxPorts = 4096;

// Makes queues, as their ports.
struct Queue {
    // Makes a queue, and opens these ports, which are closed before. They are an array, or what has
    // `data` and `size` as std::vector has.
    SCQ_NODISCARD static Answer open(const Setup &setup, Port *ports, std::size_t count) noexcept {
        if (count < 1 || count > MaxPorts) return Answer::BadPorts;
        bool is_open = false;
        for (std::size_t i = 0; i < count; i++) is_open = is_open || ports[i];
        scq_port *const handles = new (std::nothrow) scq_port[count]();
        bool room = handles != nullptr;
        for (std::size_t i = 0; room && !is_open && i < count; i++) {
            ports[i].shared_ = detail::Shared::make();
            room = !ports[i].shared_.is_none();
        }
        Answer answer = Answer::NoMemory;
        if (room) {
            answer = static_cast<Answer>(scq_open(setup.order, setup.topics, setup.size, setup.hold,
                                                  setup.limit, handles, count));
        }
        // (That a port is open is answered last, as in C.)
        for (std::size_t i = 0; answer == Answer::Ok && i < count; i++) {
            if (is_open)
                scq_close(&handles[i]);
            else
                *ports[i].shared_.port() = handles[i];
        }
        if (answer == Answer::Ok && is_open) answer = Answer::IsOpen;
        delete[] handles;
        return answer;
    }

    template <std::size_t count>
    SCQ_NODISCARD static Answer open(const Setup &setup, Port (&ports)[count]) noexcept {
        return open(setup, ports, count);
    }

    template <class Ports>
    SCQ_NODISCARD static Answer open(const Setup &setup, Ports &ports) noexcept {
        return open(setup, ports.data(), ports.size());
    }
};

// A bounded queue of values of any type that can be moved, first in first out, for threads that
// come and go. Each thread has a Handle; where that ends it goes back to a stock, from which the
// next thread's comes.
//
//     scq::Ring<std::unique_ptr<Job>> ring;
//     if (ring.open(6, 4) != scq::Answer::Ok) return 1; // 2^6 values, 4 handles
//     auto handle = ring.handle();
//     while (handle.push(std::move(job)) == scq::Answer::Full) std::this_thread::yield();
//     if (handle.pop(job) == scq::Answer::Ok) job->run();
//
// A value lies in an array, at the number of a buffer; push and pop take no lock and no memory, and
// hand on what the value's own constructors and assignments throw. Each value is destroyed once:
// what still stands in the ring, where the Ring and its handles have all ended.
template <class T> class Ring {
    static_assert(std::is_object<T>::value && !std::is_const<T>::value, "a ring is of values");
    static_assert(std::is_nothrow_destructible<T>::value, "the end of a value doesn't throw");

    // Where a value lies, and whether one does. Both belong to who holds the buffer of this number.
    struct Slot {
        alignas(T) unsigned char bytes[sizeof(T)];
        bool live;

        T *value() noexcept { return reinterpret_cast<T *>(bytes); }
        void end() noexcept {
            if (!live) return;
            live = false;
            value()->~T();
        }
    };

    // What the Ring and its handles share; the last of them ends it.
    struct Core {
        std::atomic<std::size_t> owners{1};
        std::size_t capacity = 0;
        void *block = nullptr; // of which the slots are
        Slot *slots = nullptr;
        std::mutex lock; // over the stock
        scq_port *stock = nullptr;
        std::size_t in_stock = 0;

        Core() noexcept = default;
        Core(const Core &) = delete;
        Core &operator=(const Core &) = delete;
        ~Core() {
            for (std::size_t i = 0; i < in_stock; i++) scq_close(&stock[i]);
            for (std::size_t i = 0; slots != nullptr && i < capacity; i++) slots[i].end();
            delete[] stock;
            std::free(block);
        }

        Answer open(std::uint32_t order, std::size_t handles, std::uint64_t limit) noexcept {
            if (order < 1 || order > SCQ_MAX_ORDER) return Answer::BadOrder;
            if (handles < 1 || handles > MaxPorts) return Answer::BadPorts;
            const std::size_t all = std::size_t{1} << order, aligned = alignof(Slot);
            if (sizeof(Slot) > (SIZE_MAX - aligned) / all) return Answer::NoMemory;
            block = std::calloc(1, sizeof(Slot) * all + aligned - 1);
            stock = new (std::nothrow) scq_port[handles]();
            if (block == nullptr || stock == nullptr) return Answer::NoMemory;
            const std::uintptr_t past = reinterpret_cast<std::uintptr_t>(block) % aligned;
            unsigned char *const base =
                static_cast<unsigned char *>(block) + (aligned - past) % aligned;
            const scq_memory memory = {base, sizeof(Slot), sizeof(Slot), nullptr};
            const Answer answer = static_cast<Answer>(scq_open_over(
                order, 1, static_cast<std::uint32_t>(all), limit, &memory, stock, handles));
            if (answer != Answer::Ok) return answer;
            slots = reinterpret_cast<Slot *>(base);
            capacity = all;
            in_stock = handles;
            return answer;
        }
    };

    // A share in a core. One more needs no order: who copies a share has one, so that none was the
    // last. One less releases and acquires, which is enough on every processor: what its thread did
    // with the core comes before that step, and so before the last one, behind which it is deleted.
    class Share {
      public:
        Share() noexcept = default;
        explicit Share(Core *core) noexcept : core_(core) {}
        Share(const Share &other) noexcept : core_(other.core_) {
            if (core_ != nullptr) core_->owners.fetch_add(1, std::memory_order_relaxed);
        }
        Share(Share &&other) noexcept : core_(other.core_) { other.core_ = nullptr; }
        Share &operator=(Share other) noexcept {
            std::swap(core_, other.core_);
            return *this;
        }
        ~Share() {
            if (core_ == nullptr) return;
            scq_tell_before(core_);
            if (core_->owners.fetch_sub(1, std::memory_order_acq_rel) != 1) return;
            scq_tell_after(core_);
            delete core_;
        }
        Core *get() const noexcept { return core_; }

      private:
        Core *core_ = nullptr;
    };

  public:
    // A thread's end of the ring, or none. One thread at a time uses it. Where it ends it goes back
    // to the stock.
    class Handle {
        class Room;

        // What a thread works with: a port of the stock, to which it goes back; and its bell.
        struct Worker {
            Share share;
            scq_port port = SCQ_NONE;
            detail::TieRef tie;

            Worker() noexcept = default;
            Worker(Worker &&other) noexcept
                : share(std::move(other.share)), port(other.port), tie(std::move(other.tie)) {
                other.port = SCQ_NONE;
            }
            Worker &operator=(Worker &&other) noexcept {
                share = std::move(other.share);
                port = other.port;
                other.port = SCQ_NONE;
                tie = std::move(other.tie);
                return *this;
            }
            ~Worker() { end(); }

            Slot *slots() const noexcept {
                return share.get() != nullptr ? share.get()->slots : nullptr;
            }

            void end() noexcept {
                if (share.get() == nullptr) return;
                {
                    Core &core = *share.get();
                    const std::lock_guard<std::mutex> hold(core.lock);
                    core.stock[core.in_stock++] = port;
                    port = SCQ_NONE;
                }
                if (tie) tie.get()->end_handle();
                tie = detail::TieRef();
                share = Share();
            }
        };

        // A slot that the port holds; where it ends, so does the value in it, and the buffer is
        // given back. What is done with the value may move the handle, or replace it: then the
        // outermost room keeps what the handle worked with.
        class Room {
          public:
            explicit Room(Handle &handle) noexcept
                : handle_(&handle), worker_(&handle.worker_), slots_(worker_->slots()),
                  outer_(handle.rooms_) {
                handle.rooms_ = this;
            }
            Room(const Room &) = delete;
            Room &operator=(const Room &) = delete;
            ~Room() {
                if (is_held_) {
                    slot().end();
                    if (scq_give_back(&worker_->port, held_.index) == SCQ_OK)
                        worker_->tie.ring(detail::FreeLine);
                }
                if (handle_ != nullptr) handle_->rooms_ = outer_;
                if (handle_ == nullptr && outer_ == nullptr) worker_->~Worker();
            }

            Answer lend() noexcept { return got(scq_lend(&worker_->port, &held_)); }
            Answer take() noexcept { return got(scq_take(&worker_->port, 0, &held_)); }

            template <class... Args> void make(Args &&...args) {
                ::new (static_cast<void *>(slot().bytes)) T(std::forward<Args>(args)...);
                slot().live = true;
            }

            Answer send() noexcept {
                const Answer answer =
                    static_cast<Answer>(scq_send(&worker_->port, held_.index, 0, nullptr));
                if (answer != Answer::Ok) return answer;
                is_held_ = false;
                worker_->tie.ring(0);
                return answer;
            }

            T &value() noexcept { return *slot().value(); }

            // The handle is elsewhere now, or none: the rooms from this one outwards follow.
            void follow(Handle &handle) noexcept {
                for (Room *room = this; room != nullptr; room = room->outer_) {
                    room->handle_ = &handle;
                    room->worker_ = &handle.worker_;
                }
            }
            void keep(Worker &&worker) noexcept {
                Room *last = this;
                while (last->outer_ != nullptr) last = last->outer_;
                Worker *const kept =
                    ::new (static_cast<void *>(last->own_)) Worker(std::move(worker));
                for (Room *room = this; room != nullptr; room = room->outer_) {
                    room->handle_ = nullptr;
                    room->worker_ = kept;
                }
            }

          private:
            Slot &slot() noexcept { return slots_[held_.index]; }
            Answer got(std::uint32_t answer) noexcept {
                is_held_ = answer == SCQ_OK;
                return static_cast<Answer>(answer);
            }

            Handle *handle_;
            Worker *worker_;
            Slot *slots_;
            Room *outer_;
            alignas(Worker) unsigned char own_[sizeof(Worker)];
            scq_held held_ = {nullptr, 0, 0, 0, 0};
            bool is_held_ = false;
        };

      public:
        // No handle: each call is answered Closed.
        Handle() noexcept = default;
        Handle(const Handle &) = delete;
        Handle &operator=(const Handle &) = delete;
        Handle(Handle &&other) noexcept { move_from(other); }
        Handle &operator=(Handle &&other) noexcept {
            if (this != &other) {
                end_here();
                move_from(other);
            }
            return *this;
        }
        ~Handle() { end_here(); }

        // Whether there is one.
        explicit operator bool() const noexcept { return worker_.share.get() != nullptr; }

        // Puts the value at the end: Ok; Full; Spent where tickets have run out at the limit; Ended
        // where it is tied to a bell, and nobody is to push any more; Closed. Where it isn't Ok the
        // value is there as it was. (Where it is Spent, it may have been moved and moved back.)
        SCQ_NODISCARD Answer push(T &&value) noexcept(is_nothrow_pushed) {
            static_assert(std::is_move_assignable<T>::value ||
                              std::is_nothrow_move_constructible<T>::value,
                          "a value that is refused can be moved back");
            if (worker_.tie.has_ended(0)) return Answer::Ended;
            Room room(*this);
            Answer answer = room.lend();
            if (answer != Answer::Ok) return answer;
            room.make(std::move(value));
            answer = room.send();
            if (answer != Answer::Ok) restore(value, room.value(), std::is_move_assignable<T>());
            return answer;
        }

        SCQ_NODISCARD Answer
        push(const T &value) noexcept(std::is_nothrow_copy_constructible<T>::value) {
            return emplace(value);
        }

        // The same for a value that is made of these where it lies. Where there is no room none is
        // made.
        template <class... Args>
        SCQ_NODISCARD Answer
        emplace(Args &&...args) noexcept(std::is_nothrow_constructible<T, Args &&...>::value) {
            if (worker_.tie.has_ended(0)) return Answer::Ended;
            Room room(*this);
            const Answer answer = room.lend();
            if (answer != Answer::Ok) return answer;
            room.make(std::forward<Args>(args)...);
            return room.send();
        }

        // Takes the first value off, and hands it to `use`: Ok; Empty; Spent; Closed. The value
        // ends with the call, also where `use` throws.
        template <class Use> SCQ_NODISCARD Answer consume_one(Use &&use) {
            Room room(*this);
            const Answer answer = room.take();
            if (answer == Answer::Ok) use(std::move(room.value()));
            return answer;
        }

        // The same, moved to `to`. Where the assignment throws the value is lost.
        SCQ_NODISCARD Answer pop(T &to) noexcept(std::is_nothrow_move_assignable<T>::value) {
            Room room(*this);
            const Answer answer = room.take();
            if (answer == Answer::Ok) to = std::move(room.value());
            return answer;
        }

#if __cplusplus >= 201703L
        // The same: none where it is Empty, Spent or Closed.
        SCQ_NODISCARD std::optional<T>
        pop() noexcept(std::is_nothrow_move_constructible<T>::value) {
            Room room(*this);
            if (room.take() != Answer::Ok) return std::nullopt;
            return std::optional<T>(std::move(room.value()));
        }
#endif

        // Several at a time: the call of one value for each, in their order, until one is refused:
        // how many went, and why that one didn't. For values whose moves don't throw.
        //
        // Moves the values from here to the end of the ring. Those that didn't go are there as they
        // were.
        SCQ_NODISCARD Several push_many(T *values, std::size_t count) noexcept {
            static_assert(is_nothrow_pushed, "a move of several doesn't throw");
            Several went{*this ? Answer::Ok : Answer::Closed, 0};
            while (went && went.done < count) {
                went.answer = push(std::move(values[went.done]));
                if (went) went.done++;
            }
            return went;
        }

        // Moves the first values of the ring to here.
        SCQ_NODISCARD Several pop_many(T *values, std::size_t count) noexcept {
            static_assert(std::is_nothrow_move_assignable<T>::value,
                          "a move of several doesn't throw");
            Several came{*this ? Answer::Ok : Answer::Closed, 0};
            while (came && came.done < count) {
                came.answer = pop(values[came.done]);
                if (came) came.done++;
            }
            return came;
        }

        // How many values there is room for.
        std::size_t capacity() const noexcept { return *this ? worker_.share.get()->capacity : 0; }

      private:
        friend class Ring;
        friend class Bell;

        static constexpr bool is_nothrow_restored =
            std::is_move_assignable<T>::value ? std::is_nothrow_move_assignable<T>::value
                                              : std::is_nothrow_move_constructible<T>::value;
        static constexpr bool is_nothrow_pushed =
            std::is_nothrow_move_constructible<T>::value && is_nothrow_restored;

        explicit Handle(const Share &share) noexcept {
            Core &core = *share.get();
            const std::lock_guard<std::mutex> hold(core.lock);
            if (core.in_stock == 0) return;
            worker_.share = share;
            worker_.port = core.stock[--core.in_stock];
            core.stock[core.in_stock] = SCQ_NONE;
        }

        void move_from(Handle &other) noexcept {
            worker_ = std::move(other.worker_);
            rooms_ = other.rooms_;
            other.rooms_ = nullptr;
            if (rooms_ != nullptr) rooms_->follow(*this);
        }

        void end_here() noexcept {
            if (rooms_ != nullptr) rooms_->keep(std::move(worker_));
            rooms_ = nullptr;
            worker_.end();
        }

        bool is_tied() const noexcept { return worker_.tie.get() != nullptr; }

        static void restore(T &value, T &from, std::true_type) noexcept(is_nothrow_restored) {
            value = std::move(from);
        }
        static void restore(T &value, T &from, std::false_type) noexcept {
            value.~T();
            ::new (static_cast<void *>(&value)) T(std::move(from));
        }

        Worker worker_;
        Room *rooms_ = nullptr; // the innermost
    };

    // No ring: it has no handles.
    Ring() noexcept = default;
    Ring(const Ring &) = delete;
    Ring &operator=(const Ring &) = delete;
    Ring(Ring &&) noexcept = default;
    Ring &operator=(Ring &&) noexcept = default;

    // Makes a ring with room for 2^order values and so many handles: Ok; BadOrder, BadPorts or
    // BadLimit where one is out of range; BadVersion; NoMemory; IsOpen where it was made before.
    SCQ_NODISCARD Answer open(std::uint32_t order, std::size_t handles,
                              std::uint64_t limit = SCQ_MAX_LIMIT) noexcept {
        if (share_.get() != nullptr) return Answer::IsOpen;
        Core *const core = new (std::nothrow) Core;
        if (core == nullptr) return Answer::NoMemory;
        Share made(core);
        const Answer answer = core->open(order, handles, limit);
        if (answer == Answer::Ok) share_ = std::move(made);
        return answer;
    }

    // A handle out of the stock, or none where all are in use. Any thread may ask for one. This and
    // a handle's end take a lock.
    SCQ_NODISCARD Handle handle() const noexcept {
        return share_.get() != nullptr ? Handle(share_) : Handle();
    }

    // How many values there is room for.
    std::size_t capacity() const noexcept {
        return share_.get() != nullptr ? share_.get()->capacity : 0;
    }

  private:
    Share share_;
};

} // namespace scq

#undef SCQ_NODISCARD
#endif
