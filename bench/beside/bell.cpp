// bell [FAULT]: the words of a bell (scq_bell.h) as a small machine, searched exhaustively: three threads, two lines, time-outs, the end and a
// watch, in all orders of their steps. Each thread has a script of waits, sends and ends, and all triples of scripts are gone through. In each state
// it is tested that as many threads stand counted on a line as are inside; and where nobody can go on but by a time-out, that nobody sleeps for a
// line that has something or has ended. With a FAULT, a number of the list below, one step is wrong, and a lost wake has to be found.
//
// Sleeping is by a futex, of which a wake finds any sleeper of the line; and again by POSIX conditions, one for each line and one for those who wait
// for several, where a thread that was told may say that its time is over.
#include <algorithm>
#include <array>
#include <cstdint>
#include <cstdio>
#include <cstdlib>
#include <cstring>
#include <string>
#include <unordered_set>
#include <vector>

namespace {

enum Fault {
    None,
    NoSecondLook,
    LeavesTakingToken,
    WokenLeavesToken,
    TokenBehindWake,
    CountsAsleepBeforeTurn,
    TurnStays,
    NothingPassed,
    EndWakesOne,
    EndWakesNobody,
    CountsBehindLook,
    WatchArmedBehindLook,
    TimeOverWithoutLook,
    RingOfTwoSteps,
    TakesOneTokenOfSeveral,
    EndedIsNotAsked,
    CloseRingsOnce,
    EndWakesTheUnrung,
    NeverCountedAsleep,
    WokenIsUncounted,
    NothingPassedByTheRefused,
    Faults
};
const char *const fault_names[] = {"none",
                                   "no look behind the entry",
                                   "who leaves awake takes the token of one who sleeps",
                                   "who was woken leaves the token",
                                   "the token comes behind the wake",
                                   "who sleeps is counted so before the turn is read",
                                   "a turn that doesn't move",
                                   "nothing is passed on",
                                   "an end that wakes one",
                                   "an end that wakes nobody",
                                   "who waits is counted behind his look",
                                   "a watch that is armed behind the look",
                                   "who is over time and was rung doesn't look",
                                   "a ring that reads and writes apart",
                                   "who was woken takes one token of two",
                                   "the end isn't asked for before the sleep",
                                   "several that are freed ring once",
                                   "an end that wakes but those who weren't rung",
                                   "who sleeps isn't counted so",
                                   "who goes out is taken off those asleep, though a ring did so",
                                   "who is refused passes nothing on"};

Fault fault = None;
bool posix = false;

constexpr int threads = 3, lines = 2, most = 4;

// Refused: a wait whose look behind a token is refused, or throws. Free: two things in one, and all are rung for.
enum Kind : std::uint8_t { End, Wait, TimedWait, Refused, Send, Free, Finish, Watch };
bool waits(Kind kind) { return kind == Wait || kind == TimedWait || kind == Refused; }
struct Operation {
    Kind kind;
    std::uint8_t set; // its lines; of a send one
};
using Script = std::array<Operation, most>;

enum Step : std::uint8_t {
    Begin,
    ReadEnded,
    Look,
    Enter,
    Commit,
    ReadTurn,
    CheckEnded,
    Sleep,
    Asleep,
    Woken,
    WakeUp,
    Leave,
    Change,
    Ring,
    Restore,
    MoveTurn,
    Wake,
    PutToken,
    RingWatches,
    Ends,
    EndLines,
    CountWatch,
    Arm,
    AwaitFlag,
    Disarm,
    Next
};

struct Thread {
    std::uint8_t at, step, line, phase; // operation, step, the line that it is at, which look
    std::uint8_t turn, owed, has_ended, over, found;
    std::uint8_t ringing, watched, all, kept; // of a ring
    std::uint8_t armed, flag;                 // its watch
};

struct State {
    std::uint8_t things[lines], w[lines], s[lines], z[lines], a[lines]; // sleepers, tokens, those asleep, watches
    std::uint8_t turn, ended;
    Thread thread[threads];

    bool operator==(const State &other) const { return std::memcmp(this, &other, sizeof *this) == 0; }
};

struct Hash {
    std::size_t operator()(const State &state) const {
        std::uint64_t hash = 1469598103934665603u;
        const auto *bytes = reinterpret_cast<const unsigned char *>(&state);
        for (std::size_t i = 0; i < sizeof state; i++) hash = (hash ^ bytes[i]) * 1099511628211u;
        return hash;
    }
};

struct Machine {
    std::array<Script, threads> scripts;
    std::vector<State> next;

    Operation operation(const State &state, int t) const { return scripts[t][state.thread[t].at]; }
    bool covers(const State &state, int t, int line) const { return operation(state, t).set >> line & 1; }
    bool is_timed(const State &state, int t) const { return operation(state, t).kind == TimedWait; }

    // The first line of a set from this one on, or `lines`.
    static int first(unsigned set, int from) {
        while (from < lines && !(set >> from & 1)) from++;
        return from;
    }

    void done(State state, int t) {
        Thread &me = state.thread[t];
        const std::uint8_t at = me.at, armed = me.armed, flag = me.flag;
        me = Thread{};
        me.at = static_cast<std::uint8_t>(at + 1), me.armed = armed, me.flag = flag;
        next.push_back(state);
    }

    void go(State state, int t, Step step, int line = 0) {
        state.thread[t].step = step, state.thread[t].line = static_cast<std::uint8_t>(line);
        next.push_back(state);
    }

    // Rings the lines of `owed` one after the other, and ends the operation.
    void pass(State state, int t) {
        Thread &me = state.thread[t];
        if (me.owed == 0) return done(state, t);
        me.ringing = static_cast<std::uint8_t>(first(me.owed, 0));
        me.owed &= static_cast<std::uint8_t>(me.owed - 1);
        go(state, t, Ring);
    }

    // No more are asleep than sleepers.
    static void cap(State &state, int line) { state.z[line] = std::min(state.z[line], state.w[line]); }

    // What a look has come to.
    void looked(State state, int t, bool is_through, int line) {
        Thread &me = state.thread[t];
        const unsigned set = operation(state, t).set;
        if (operation(state, t).kind == Watch) {
            me.found = is_through;
            if (fault == WatchArmedBehindLook && me.phase == 0 && !is_through) return go(state, t, CountWatch, first(set, 0));
            if (is_through && fault == WatchArmedBehindLook) return done(state, t);
            return go(state, t, is_through ? Disarm : AwaitFlag, first(set, 0));
        }
        if (me.phase == 0) return is_through ? done(state, t) : go(state, t, Enter, first(set, 0));
        if (me.phase == 1) {
            if (fault == CountsBehindLook) return is_through ? done(state, t) : go(state, t, ReadTurn);
            return is_through ? go(state, t, Leave, first(set, 0)) : go(state, t, ReadTurn);
        }
        if (!is_through && !me.over) return go(state, t, Enter, first(set, 0));
        me.owed &= static_cast<std::uint8_t>(is_through && line < lines ? ~((2u << line) - 1) : 0);
        if (fault == NothingPassed) me.owed = 0;
        pass(state, t);
    }

    void step(const State &from, int t) {
        State state = from;
        Thread &me = state.thread[t];
        const Operation now = operation(state, t);
        const int line = me.line, behind = first(now.set, line + 1);
        switch (me.step) {
        case Begin:
            if (waits(now.kind)) return go(state, t, ReadEnded);
            if (now.kind == Send || now.kind == Free) return go(state, t, Change);
            if (now.kind == Finish) return go(state, t, Ends);
            if (now.kind == Watch) return fault == WatchArmedBehindLook ? go(state, t, ReadEnded) : go(state, t, CountWatch, first(now.set, 0));
            return;
        case ReadEnded:
            if (now.kind == Refused && me.phase == 2) {
                if (fault == NothingPassedByTheRefused) me.owed = 0;
                return pass(state, t);
            }
            me.has_ended = (now.set & ~state.ended) == 0;
            return go(state, t, Look, first(now.set, 0));
        case Look:
            if (state.things[line] > 0) {
                state.things[line]--;
                return looked(state, t, true, line);
            }
            if (behind < lines) return go(state, t, Look, behind);
            return looked(state, t, me.has_ended, lines);
        case Enter:
            if (fault == CountsBehindLook && me.phase == 0 && line == first(now.set, 0)) {
                me.phase = 3; // a look, and the count behind it
            }
            state.w[line]++;
            if (behind < lines) return go(state, t, Enter, behind);
            me.phase = 1;
            return fault == NoSecondLook || fault == CountsBehindLook ? go(state, t, ReadTurn) : go(state, t, ReadEnded);
        case ReadTurn:
            me.turn = state.turn;
            return go(state, t, Commit, first(now.set, 0));
        case Commit: // is asleep from here on, for who rings; unless a token is there
            if (state.s[line] > 0) return go(state, t, WakeUp, first(now.set, 0));
            if (state.z[line] < state.w[line] && fault != NeverCountedAsleep) state.z[line]++;
            if (behind < lines) return go(state, t, Commit, behind);
            if (fault == CountsAsleepBeforeTurn) me.turn = state.turn;
            return go(state, t, CheckEnded);
        case CheckEnded: // a token of the end may be another's by now
            if ((now.set & ~state.ended) == 0 && fault != EndedIsNotAsked) return go(state, t, WakeUp, first(now.set, 0));
            return go(state, t, Sleep);
        case Sleep:
            return state.turn == me.turn ? go(state, t, Asleep) : go(state, t, ReadTurn);
        case Asleep: // by time alone
            if (!is_timed(state, t)) return;
            me.over = 1;
            return go(state, t, WakeUp, first(now.set, 0));
        case Woken:
            go(state, t, ReadTurn);
            if (!is_timed(state, t) || !posix) return;
            me.over = 1;
            return go(state, t, WakeUp, first(now.set, 0));
        case WakeUp: {
            const bool leaves = fault == WokenLeavesToken && me.over && state.w[line] > 0;
            const bool has_one = fault == TakesOneTokenOfSeveral && me.owed != 0 && state.w[line] > 0;
            if (state.s[line] > 0 && !leaves && !has_one) {
                state.s[line]--;
                me.owed |= static_cast<std::uint8_t>(1 << line);
            } else {
                state.w[line]--;
            }
            if (fault == WokenIsUncounted && state.z[line] > 0) state.z[line]--;
            cap(state, line);
            if (behind < lines) return go(state, t, WakeUp, behind);
            me.phase = 2;
            if (fault == TimeOverWithoutLook && me.over) {
                me.owed = 0;
                return pass(state, t);
            }
            return go(state, t, ReadEnded);
        }
        case Leave:
            if (state.w[line] > 0 && (fault != LeavesTakingToken || state.s[line] == 0)) {
                state.w[line]--;
            } else {
                state.s[line]--;
            }
            cap(state, line);
            if (behind < lines) return go(state, t, Leave, behind);
            return done(state, t);
        case Change:
            if (state.ended & now.set) return done(state, t); // refused
            state.things[first(now.set, 0) % lines]++;
            me.ringing = static_cast<std::uint8_t>(first(now.set, 0));
            if (now.kind == Send) return go(state, t, Ring);
            if (me.found == 0) {
                me.found = 1;
                return go(state, t, Change);
            }
            if (fault == CloseRingsOnce) return go(state, t, Ring);
            me.all = 1;
            return go(state, t, EndLines, first(now.set, 0));
        case Ring: { // a load, and the exchange that succeeds
            const int rung = me.ringing;
            me.watched = state.a[rung] > 0;
            if (state.w[rung] == 0) return me.watched ? go(state, t, RingWatches) : pass(state, t);
            if (fault == TokenBehindWake) return go(state, t, MoveTurn);
            if (fault == RingOfTwoSteps) {
                me.kept = static_cast<std::uint8_t>(state.w[rung] | state.s[rung] << 4);
                return go(state, t, Restore);
            }
            state.w[rung]--, state.s[rung]++;
            if (state.z[rung] == 0) return me.watched ? go(state, t, RingWatches) : pass(state, t); // an awake one sees the token
            state.z[rung]--;
            return go(state, t, MoveTurn);
        }
        case Restore:
            state.w[me.ringing] = static_cast<std::uint8_t>((me.kept & 15) - 1);
            state.s[me.ringing] = static_cast<std::uint8_t>((me.kept >> 4) + 1);
            return go(state, t, MoveTurn);
        case MoveTurn:
            if (fault != TurnStays) state.turn++;
            return go(state, t, Wake);
        case Wake:
            return wake(state, t);
        case PutToken:
            if (state.w[me.ringing] > 0) state.w[me.ringing]--, state.s[me.ringing]++;
            return me.watched ? go(state, t, RingWatches) : pass(state, t);
        case RingWatches: { // each watch in one step, as they touch no word of one another
            const unsigned rung = me.all ? now.set : 1u << me.ringing;
            if (line == threads) return me.all ? done(state, t) : pass(state, t);
            Thread &other = state.thread[line];
            if (other.armed & rung) {
                for (int k = 0; k < lines; k++)
                    if (other.armed >> k & 1) state.a[k]--;
                other.armed = 0, other.flag = 1;
            }
            return go(state, t, RingWatches, line + 1);
        }
        case Ends:
            state.ended |= now.set;
            me.all = 1;
            if (fault == EndWakesNobody) return done(state, t);
            return go(state, t, EndLines, first(now.set, 0));
        case EndLines:
            me.watched |= state.a[line] > 0;
            if (fault == EndWakesOne) {
                if (state.w[line] > 0) state.w[line]--, state.s[line]++, me.kept = 1;
                cap(state, line);
            } else if (state.w[line] + state.s[line] > 0) { // also where all are rung: one may take the token of another, who asks for the end
                me.kept = fault != EndWakesTheUnrung || state.w[line] > 0;
                state.s[line] = static_cast<std::uint8_t>(state.s[line] + state.w[line]), state.w[line] = state.z[line] = 0;
            }
            if (behind < lines) return go(state, t, EndLines, behind);
            if (me.kept) return go(state, t, MoveTurn);
            return me.watched ? go(state, t, RingWatches) : done(state, t);
        case CountWatch:
            state.a[line]++;
            return behind < lines ? go(state, t, CountWatch, behind) : go(state, t, Arm);
        case Arm:
            me.armed = now.set;
            if (fault == WatchArmedBehindLook) return go(state, t, AwaitFlag);
            return go(state, t, ReadEnded);
        case AwaitFlag:
            if (!me.flag) return;
            me.flag = 0;
            if (me.found) return done(state, t);
            return fault == WatchArmedBehindLook ? go(state, t, ReadEnded) : go(state, t, CountWatch, first(now.set, 0));
        case Disarm:
            if (!me.armed) return go(state, t, AwaitFlag);
            for (int k = 0; k < lines; k++)
                if (me.armed >> k & 1) state.a[k]--;
            me.armed = 0;
            return done(state, t);
        default:
            return;
        }
    }

    void woken(State state, int t, int other) {
        state.thread[other].step = Woken;
        woken_behind(state, t);
    }
    void woken_behind(State state, int t) {
        const Thread &me = state.thread[t];
        if (fault == TokenBehindWake && !me.all) return go(state, t, PutToken);
        if (me.watched) return go(state, t, RingWatches);
        if (me.all) return done(state, t);
        pass(state, t);
    }

    void wake(State state, int t) {
        const Thread &me = state.thread[t];
        const unsigned rung = me.all ? operation(state, t).set : 1u << me.ringing;
        const bool all = me.all && fault != EndWakesOne;
        bool any = false;
        std::vector<int> sleepers;
        for (int other = 0; other < threads; other++) {
            if (state.thread[other].step != Asleep) continue;
            const unsigned set = operation(state, other).set;
            // By POSIX, who waits for several is told of each ring.
            if (posix && (set & (set - 1)) != 0) state.thread[other].step = Woken;
            else if (all && (set & rung)) state.thread[other].step = Woken;
            else if (set & rung) sleepers.push_back(other);
        }
        if (!all) {
            for (const int other : sleepers) woken(state, t, other), any = true;
        }
        if (!any) woken_behind(state, t);
    }

    // How many are inside a line, by where they stand.
    int inside(const State &state, int line) const {
        int count = 0;
        for (int t = 0; t < threads; t++) {
            const Thread &me = state.thread[t];
            const Kind kind = operation(state, t).kind;
            if (!waits(kind) || !covers(state, t, line)) continue;
            switch (me.step) {
            case Enter: count += line < me.line; break;
            case WakeUp:
            case Leave: count += line >= me.line; break;
            case Commit:
            case ReadTurn:
            case CheckEnded:
            case Sleep:
            case Asleep:
            case Woken: count++; break;
            case ReadEnded:
            case Look: count += me.phase == 1; break;
            default: break;
            }
        }
        return count;
    }

    // What is wrong with a state: null where nothing is.
    const char *wrong(const State &state, bool is_still) const {
        for (int line = 0; line < lines; line++) {
            if (fault == None && state.w[line] + state.s[line] != inside(state, line)) return "the count is wrong";
        }
        if (!is_still) return nullptr;
        for (int t = 0; t < threads; t++) {
            const Thread &me = state.thread[t];
            if (me.step != Asleep && (me.step != AwaitFlag || me.found)) {
                if (operation(state, t).kind != End) return "one can't go on";
                continue;
            }
            const unsigned set = operation(state, t).set;
            for (int line = 0; line < lines; line++)
                if ((set >> line & 1) && state.things[line] > 0) return "one sleeps for what is there";
            if ((set & ~state.ended) == 0) return "one sleeps for what has ended";
        }
        return nullptr;
    }
};

std::uint64_t states = 0;

// Goes through all states of these scripts. Answers what is wrong with one, or null.
const char *search(const std::array<Script, threads> &scripts) {
    Machine machine{scripts, {}};
    std::unordered_set<State, Hash> seen;
    std::vector<State> open;
    State first;
    std::memset(&first, 0, sizeof first);
    open.push_back(first), seen.insert(first);
    while (!open.empty()) {
        const State state = open.back();
        open.pop_back();
        states++;
        bool is_still = true;
        for (int t = 0; t < threads; t++) {
            machine.next.clear();
            machine.step(state, t);
            is_still &= machine.next.empty() || state.thread[t].step == Asleep;
            for (const State &after : machine.next)
                if (seen.insert(after).second) open.push_back(after);
        }
        const char *wrong = machine.wrong(state, is_still);
        if (wrong != nullptr) return wrong;
    }
    return nullptr;
}

constexpr Operation end{End, 0};
constexpr Operation wait(Kind kind, unsigned set) { return Operation{kind, static_cast<std::uint8_t>(set)}; }

std::vector<Script> all_scripts() {
    std::vector<Script> scripts;
    for (const Kind kind : {Wait, TimedWait})
        for (const unsigned set : {1u, 2u, 3u}) scripts.push_back({wait(kind, set), end, end, end});
    for (const unsigned set : {1u, 3u}) {
        scripts.push_back({wait(Watch, set), end, end, end});
        scripts.push_back({wait(Wait, set), wait(Wait, set), end, end});
    }
    scripts.push_back({wait(TimedWait, 1), wait(Wait, 3), end, end});
    scripts.push_back({wait(TimedWait, 3), wait(Wait, 1), end, end});
    scripts.push_back({wait(Wait, 1), wait(Send, 2), end, end});
    scripts.push_back({wait(Wait, 3), wait(Send, 1), end, end});
    for (const unsigned one : {1u, 2u}) {
        scripts.push_back({wait(Send, one), end, end, end});
        for (const unsigned other : {1u, 2u}) scripts.push_back({wait(Send, one), wait(Send, other), end, end});
    }
    scripts.push_back({wait(Send, 1), wait(Send, 2), wait(Finish, 3), end});
    scripts.push_back({wait(Send, 1), wait(Finish, 1), end, end});
    scripts.push_back({wait(Finish, 2), wait(Send, 1), wait(Finish, 1), end});
    scripts.push_back({wait(Finish, 3), end, end, end});
    for (const unsigned set : {1u, 3u}) scripts.push_back({wait(Refused, set), end, end, end});
    scripts.push_back({wait(Free, 1), end, end, end});
    scripts.push_back({wait(Free, 1), wait(Free, 2), end, end});
    return scripts;
}

// All triples of scripts, by a futex and by POSIX. Answers what is wrong with one, and says where.
const char *search_all() {
    const std::vector<Script> scripts = all_scripts();
    for (std::size_t i = 0; i < scripts.size(); i++)
        for (std::size_t j = i; j < scripts.size(); j++)
            for (std::size_t k = j; k < scripts.size(); k++)
                for (const bool by : {false, true}) {
                    posix = by;
                    const char *wrong = search({scripts[i], scripts[j], scripts[k]});
                    if (wrong == nullptr) continue;
                    std::fprintf(stderr, "scripts %zu, %zu, %zu, %s\n", i, j, k, by ? "POSIX" : "futex");
                    return wrong;
                }
    return nullptr;
}

} // namespace

int main(int count, char **words) {
    fault = count > 1 ? static_cast<Fault>(std::atoi(words[1])) : None;
    if (fault >= Faults) return 2;
    const char *wrong = search_all();
    std::printf("%s: %llu states, %s\n", fault_names[fault], static_cast<unsigned long long>(states), wrong == nullptr ? "nothing is wrong" : wrong);
    return (wrong == nullptr) != (fault == None);
}
