// Small random histories, for each of which every one-thread order is tried, beside what `scq judge` says of it:
//
//     orders SCQ SEED COUNT plain|rooms CASES
//
// An order keeps "ended before started", and each reply is that of a plain queue, or of one with so many places. Refused calls stand in no
// order, but in rooms the refused puts do. Calls that never ended may stand or not. It counts, a line each:
//
//     histories, and how many have an order
//     holds without an order: for its opening tokens, which another order of theirs would mend; for its room, without which there is an order;
//         else
//     fails with an order
//
// with the first history of each kind behind. CASES gets each history that has an order with it, and one changed at random with whether it is
// an order too, by the definition, for `orders.py`.
#include <algorithm>
#include <cstdio>
#include <cstdlib>
#include <cstring>
#include <map>
#include <random>
#include <set>
#include <string>
#include <vector>

enum Reply { UNDER_WAY, DONE, SPENT, NOTHING, GOT };

// What is put: the opening token J as (-1, J), or the put N of a seat.
struct Value {
    int seat, number;
    char content;
    bool operator==(const Value &other) const {
        return seat == other.seat && number == other.number && content == other.content;
    }
    bool operator<(const Value &other) const {
        return std::make_pair(seat, number) < std::make_pair(other.seat, other.number);
    }
};

struct Call {
    int seat, number, queue, start, end;
    bool is_put;
    Reply reply;
    Value value;
};

struct History {
    std::string text, opening;
    std::vector<Call> calls;
};

static std::mt19937 chance;
static int below(int many) { return int(chance() % unsigned(many)); }
static bool is_one_in(double share) { return chance() < share * 4294967296.0; }
template <class T> static T one_of(const std::vector<T> &these) { return these[size_t(below(int(these.size())))]; }

static std::string hex(char content) { return content == '-' ? "-" : content == 'a' ? "61" : "7a"; }

// --- a history ---

// A run of queues, in which each call takes effect at a moment, or, where it is wild, answers as it likes.
class Maker {
  public:
    History make(int room) {
        const int seats = one_of<int>({2, 3, 3, 4}), calls = one_of<int>({4, 5, 6, 7});
        queues = one_of<int>({1, 1, 2});
        wild = one_of<double>({0, 0, 0.25, 0.25, 0.9});
        refused = room ? 0.4 : 0.04;
        const bool closes = is_one_in(0.6);
        for (int tokens = one_of<int>({0, 0, 1, 2, 3}), j = 0; j < tokens && (!room || j < room); j++) {
            const Value token = {-1, j, one_of<char>({'-', 'a'})};
            history.opening += token.content;
            history.text += "opening " + hex(token.content) + "\n";
            known.push_back(token);
            held[0].push_back(token);
        }
        under.assign(size_t(seats), -1);
        numbers.assign(size_t(seats), {0, 0});
        for (;;) {
            std::vector<int> can;
            for (int seat = 0; seat < seats; seat++)
                if (under[size_t(seat)] >= 0 || int(history.calls.size()) < calls) can.push_back(seat);
            if (can.empty() || (!closes && is_one_in(0.05))) return history;
            step(one_of(can));
        }
    }

  private:
    History history;
    int queues = 1, events = 0;
    double wild = 0, refused = 0;
    std::vector<int> under; // the call that a seat has under way
    std::vector<std::pair<int, int>> numbers;
    std::vector<Value> known;
    std::map<int, std::vector<Value>> held;
    std::map<int, Reply> effects;

    void step(int seat) {
        const int index = under[size_t(seat)];
        if (index < 0) return start(seat);
        Call &call = history.calls[size_t(index)];
        if (!effects.count(index)) {
            if (is_one_in(0.5)) effects[index] = take_effect(call);
            return;
        }
        call.reply = effects[index];
        call.end = events++;
        under[size_t(seat)] = -1;
        history.text += "end " + std::to_string(seat);
        if (call.reply == GOT && call.value.seat < 0) history.text += " got o " + std::to_string(call.value.number);
        else if (call.reply == GOT) history.text += " got " + std::to_string(call.value.seat) + " " + std::to_string(call.value.number);
        else history.text += call.reply == DONE ? " done" : call.reply == SPENT ? " spent" : " nothing";
        history.text += (call.reply == GOT ? " " + hex(call.value.content) : "") + "\n";
    }

    void start(int seat) {
        std::pair<int, int> &number = numbers[size_t(seat)];
        Call call = {seat, ++number.first, below(queues), events++, -1, is_one_in(0.5), UNDER_WAY, {}};
        history.text += "start " + std::to_string(seat) + (call.is_put ? " put " : " get ") + std::to_string(call.queue);
        if (call.is_put) {
            call.value = {seat, ++number.second, one_of<char>({'-', 'a'})};
            history.text += " " + hex(call.value.content);
            known.push_back(call.value);
        }
        history.text += "\n";
        under[size_t(seat)] = int(history.calls.size());
        history.calls.push_back(call);
    }

    Reply take_effect(Call &call) {
        std::vector<Value> &queue = held[call.queue];
        if (call.is_put) {
            const Reply reply = is_one_in(refused) ? SPENT : DONE;
            if (reply == DONE || is_one_in(0.05)) queue.push_back(call.value);
            return reply;
        }
        if (is_one_in(wild)) {
            if (known.empty() || is_one_in(0.2)) return NOTHING;
            call.value = one_of(known);
            if (is_one_in(0.05)) call.value.content = 'z';
            return GOT;
        }
        if (queue.empty()) return is_one_in(0.05) ? SPENT : NOTHING;
        const long at = wild > 0 && is_one_in(0.2) ? below(int(queue.size())) : 0;
        call.value = queue[size_t(at)];
        queue.erase(queue.begin() + at);
        return GOT;
    }
};

// --- its orders ---

using Order = std::vector<int>; // calls of one queue, by their places in the history

// Makes a call of a plain queue; whether it answers so. `room` is 0 where there is no bound.
static bool answers(const Call &call, std::vector<Value> &held, int room) {
    const bool is_full = room && int(held.size()) >= room;
    if (call.is_put && call.reply == SPENT) return is_full;
    if (call.is_put) return held.push_back(call.value), !is_full;
    if (call.reply == NOTHING) return held.empty();
    if (held.empty()) return call.reply == UNDER_WAY;
    const Value front = held.front();
    held.erase(held.begin());
    return call.reply == UNDER_WAY || front == call.value;
}

static bool may_stand(const Call &call, int room) { return call.reply != SPENT || (room && call.is_put); }
static bool has_to_stand(const Call &call, int room) { return call.end >= 0 && may_stand(call, room); }

class Search {
  public:
    Search(const History &history, int queue, int room) : history(history), queue(queue), room(room) {}

    bool from(const std::vector<Value> &held) { return go(0, held); }
    Order order;

  private:
    const History &history;
    const int queue, room;
    std::set<std::pair<unsigned, std::vector<Value>>> seen;

    bool is_ours(size_t i) const { return history.calls[i].queue == queue && may_stand(history.calls[i], room); }

    // Whether the calls that aren't among these can stand behind them, where the queue holds this.
    bool go(unsigned taken, const std::vector<Value> &held) {
        int first_end = 1 << 30;
        bool is_whole = true;
        for (size_t i = 0; i < history.calls.size(); i++) {
            if (!is_ours(i) || taken >> i & 1 || history.calls[i].end < 0) continue;
            is_whole = false;
            first_end = std::min(first_end, history.calls[i].end);
        }
        if (is_whole) return true;
        if (!seen.insert({taken, held}).second) return false;
        for (size_t i = 0; i < history.calls.size(); i++) {
            if (!is_ours(i) || taken >> i & 1 || history.calls[i].start > first_end) continue;
            std::vector<Value> then = held;
            if (!answers(history.calls[i], then, room)) continue;
            order.push_back(int(i));
            if (go(taken | 1u << i, then)) return true;
            order.pop_back();
        }
        return false;
    }
};

static std::vector<Value> tokens_of(const History &history, int queue) {
    std::vector<Value> tokens;
    for (size_t j = 0; queue == 0 && j < history.opening.size(); j++) tokens.push_back({-1, int(j), history.opening[j]});
    return tokens;
}

// An order of each queue, with the opening tokens in order, or in any.
static bool has_orders(const History &history, int room, bool any_tokens, std::map<int, Order> *orders) {
    for (int queue = 0; queue < 2; queue++) {
        std::vector<Value> tokens = tokens_of(history, queue);
        bool is_found = false;
        do {
            Search search(history, queue, room);
            is_found = search.from(tokens);
            if (is_found && orders) (*orders)[queue] = search.order;
        } while (!is_found && any_tokens && std::next_permutation(tokens.begin(), tokens.end()));
        if (!is_found) return false;
    }
    return true;
}

// Whether this is an order, by the definition.
static bool is_order(const History &history, int queue, const Order &order, int room) {
    std::vector<Value> held = tokens_of(history, queue);
    for (size_t i = 0; i < order.size(); i++) {
        const Call &call = history.calls[size_t(order[i])];
        if (call.queue != queue || !may_stand(call, room) || !answers(call, held, room)) return false;
        for (size_t j = 0; j < i; j++) {
            if (order[i] == order[j]) return false;
            if (call.end >= 0 && call.end < history.calls[size_t(order[j])].start) return false;
        }
    }
    for (size_t i = 0; i < history.calls.size(); i++)
        if (history.calls[i].queue == queue && has_to_stand(history.calls[i], room) &&
            std::find(order.begin(), order.end(), int(i)) == order.end())
            return false;
    return true;
}

static void change(Order &order, size_t calls) {
    if (calls == 0) return;
    const int kind = below(4);
    const size_t at = order.empty() ? 0 : size_t(below(int(order.size())));
    if (order.empty() || kind == 0) order.insert(order.begin() + long(at), below(int(calls)));
    else if (kind == 1) order.erase(order.begin() + long(at));
    else if (kind == 2) std::swap(order[at], order[size_t(below(int(order.size())))]);
    else std::reverse(order.begin(), order.begin() + long(at) + 1);
}

static void write_case(FILE *cases, const History &history, std::map<int, Order> orders, int room, bool is_right) {
    std::fprintf(cases, "case %d %s\n%s", room, is_right ? "right" : "wrong", history.text.c_str());
    for (const auto &order : orders) {
        std::fprintf(cases, "order\nqueue %d\n", order.first);
        for (int i : order.second)
            std::fprintf(cases, "%d %d\n", history.calls[size_t(i)].seat, history.calls[size_t(i)].number);
    }
}

// --- the judge ---

static bool judge_holds(const std::string &scq, const History &history, int room) {
    FILE *file = std::fopen("history", "w");
    if (!file || std::fputs(history.text.c_str(), file) < 0 || std::fclose(file) != 0) std::exit(2);
    const std::string command = scq + " judge " + (room ? "--room " + std::to_string(room) + " " : "") + "history 2>&1";
    FILE *from = popen(command.c_str(), "r");
    char line[4096];
    bool holds = true, is_judged = false;
    while (from && std::fgets(line, sizeof line, from)) {
        holds = holds && !std::strstr(line, " fails at ");
        is_judged = is_judged || !std::strncmp(line, "events ", 7);
    }
    if (!from) std::exit(2);
    pclose(from);
    if (!is_judged) std::fprintf(stderr, "not judged: %s\n%s", line, history.text.c_str()), std::exit(2);
    return holds;
}

class Kind {
  public:
    explicit Kind(const char *name) : name(name) {}
    void note(const History &history, int room) {
        if (count++ == 0 || history.text.size() < first.size()) first = history.text, first_room = room;
    }
    void say(bool with_first) const {
        std::printf("%s: %ld\n", name, count);
        if (with_first && count && first_room) std::printf("  of room %d\n", first_room);
        for (size_t at = 0; with_first && at < first.size(); at = first.find('\n', at) + 1)
            std::printf("  %s\n", first.substr(at, first.find('\n', at) - at).c_str());
    }

  private:
    const char *name;
    long count = 0;
    std::string first;
    int first_room = 0;
};

int main(int words, char **word) {
    if (words != 6) return 2;
    const std::string scq = word[1];
    const long count = std::strtol(word[3], nullptr, 10);
    const bool in_rooms = !std::strcmp(word[4], "rooms");
    FILE *cases = std::fopen(word[5], "w");
    if (!cases) return 2;
    chance.seed(unsigned(std::strtoul(word[2], nullptr, 10)));
    Kind all{"histories"}, with{"with an order"}, held{"hold"}, tokens{"hold without an order, for opening tokens"},
        rooms{"hold without an order, for their room"}, others{"hold without an order, for nothing known"},
        alarms{"fail with an order"};
    for (long i = 0; i < count; i++) {
        const int room = in_rooms ? one_of<int>({1, 1, 2, 3}) : 0;
        const History history = Maker().make(room);
        std::map<int, Order> orders;
        const bool has = has_orders(history, room, false, &orders), holds = judge_holds(scq, history, room);
        all.note(history, room);
        if (has) with.note(history, room);
        if (holds) held.note(history, room);
        if (!holds && has) alarms.note(history, room);
        if (holds && !has) {
            if (room && has_orders(history, 0, false, nullptr)) rooms.note(history, room);
            else if (has_orders(history, 0, true, nullptr)) tokens.note(history, room);
            else others.note(history, room);
        }
        if (!has) continue;
        write_case(cases, history, orders, room, true);
        change(orders[below(2)], history.calls.size());
        bool is_right = true;
        for (const auto &order : orders) is_right = is_right && is_order(history, order.first, order.second, room);
        write_case(cases, history, orders, room, is_right);
    }
    for (const Kind *kind : {&all, &with, &held}) kind->say(false);
    for (const Kind *kind : {&tokens, &rooms, &others, &alarms}) kind->say(true);
    return std::fclose(cases) != 0;
}
