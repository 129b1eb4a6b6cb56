// Runs a program, and interrupts calls of functions of these names at any of their instructions, without a change of its code:
//
//     steps NAME[,NAME..] PROGRAM WORD..
//
// One in 40 of the calls makes up to 64 single steps, and then its thread stands still until the others have made some calls, up to 128, or
// for a hundredth of a second none. Which calls these are, how many steps and how many calls, says the seed: SCQ_SHAKE_SEED and
// SCQ_SHAKE_SHARE of the environment are those of shake.h. What the other threads do meanwhile is the system's. A name is a function's as
// `nm -C` tells it, up to its parameters, or what stands behind a `::` of it; a function that was inlined has none: -fno-inline, or the one
// that it is in, if that is called often. Of x86-64 with Linux.
#include <chrono>
#include <cstdint>
#include <cstdio>
#include <cstdlib>
#include <cstring>
#include <elf.h>
#include <fstream>
#include <map>
#include <sstream>
#include <string>
#include <sys/ptrace.h>
#include <sys/user.h>
#include <sys/wait.h>
#include <unistd.h>
#include <vector>

static void must(bool is, const char *what) {
    if (is) return;
    std::perror(what);
    std::exit(2);
}

// The lines that a command writes.
static std::vector<std::string> lines_of(const std::string &command) {
    std::vector<std::string> lines;
    FILE *from = popen(command.c_str(), "r");
    must(from, "popen");
    for (char line[65536]; std::fgets(line, sizeof line, from);) lines.emplace_back(line, std::strcspn(line, "\n"));
    pclose(from);
    return lines;
}

// A function's name without its parameters.
static std::string without_parameters(const std::string &function) {
    size_t at = function.rfind(')'), open = 0;
    if (at == std::string::npos) return function;
    for (at++; at > 0; at--) {
        open += function[at - 1] == ')';
        if (function[at - 1] == '(' && --open == 0) break;
    }
    return function.substr(0, at ? at - 1 : 0);
}

// Whether the function is of this name, which may be the end of a longer one behind `::`.
static bool is_named(const std::string &function, const std::string &name) {
    const std::string whole = without_parameters(function);
    if (whole.size() < name.size()) return false;
    const size_t more = whole.size() - name.size();
    return whole.compare(more, std::string::npos, name) == 0 && (more == 0 || whole[more - 1] == ':' || whole[more - 1] == ' ');
}

// Where the functions of these names begin in the file.
static std::vector<uint64_t> places_of(const std::string &names, const std::string &program) {
    std::vector<uint64_t> places;
    for (const std::string &line : lines_of("nm -C --defined-only '" + program + "' 2>/dev/null")) {
        std::istringstream words(line);
        uint64_t place;
        char kind;
        std::string function, name;
        if (!(words >> std::hex >> place >> kind) || !std::strchr("tTwW", kind)) continue;
        std::getline(words >> std::ws, function);
        std::istringstream each(names);
        while (std::getline(each, name, ','))
            if (is_named(function, name)) places.push_back(place);
    }
    return places;
}

// How far the program is from where its file says.
static uint64_t base_of(pid_t pid, const std::string &program) {
    Elf64_Ehdr head;
    std::ifstream(program, std::ios::binary).read(reinterpret_cast<char *>(&head), sizeof head);
    if (head.e_type != ET_DYN) return 0;
    std::ifstream maps("/proc/" + std::to_string(pid) + "/maps");
    uint64_t base = 0;
    maps >> std::hex >> base;
    return base;
}

static uint64_t mixed(uint64_t number) {
    number = (number ^ number >> 30) * 0xbf58476d1ce4e5b9;
    number = (number ^ number >> 27) * 0x94d049bb133111eb;
    return number ^ number >> 31;
}

using Clock = std::chrono::steady_clock;

class Shaker {
  public:
    Shaker(pid_t pid, uint64_t seed, uint64_t share) : first(pid), seed(seed), share(share) {}

    // Until the program has ended, whose status this is.
    int run(const std::string &program, const std::vector<uint64_t> &in_file) {
        while (!has_ended) {
            int state;
            const pid_t id = waitpid(-1, &state, __WALL | (held.empty() ? 0 : WNOHANG));
            if (id < 0) break;
            if (id == 0) usleep(10);
            else if (WIFSTOPPED(state) && state >> 16 == PTRACE_EVENT_EXEC) begin(program, in_file);
            else meet(id, state);
            let_go();
        }
        std::fprintf(stderr, "steps: %llu calls, %llu interrupted\n", (unsigned long long)calls, (unsigned long long)interrupted);
        return status;
    }

  private:
    // Until when a thread stands: so many calls, or a moment.
    struct Held {
        uint64_t calls;
        Clock::time_point moment;
    };
    static constexpr unsigned char TRAP = 0xcc;

    const pid_t first;
    const uint64_t seed, share;
    uint64_t calls = 0, interrupted = 0;
    bool has_ended = false;
    int status = 2;
    std::map<pid_t, Held> held;
    std::map<uint64_t, unsigned char> first_bytes; // of the functions

    static uint64_t taken(uint64_t &from, uint64_t below) {
        const uint64_t it = from % below;
        from = mixed(from);
        return it;
    }

    // Puts a byte where a thread's program lies; which one was there.
    static unsigned char put_byte(pid_t id, uint64_t at, unsigned char byte) {
        const long word = ptrace(PTRACE_PEEKTEXT, id, at, 0);
        ptrace(PTRACE_POKETEXT, id, at, (word & ~0xffL) | byte);
        return (unsigned char)word;
    }

    void begin(const std::string &program, const std::vector<uint64_t> &in_file) {
        const uint64_t base = base_of(first, program);
        for (uint64_t place : in_file) {
            const unsigned char was = put_byte(first, base + place, TRAP);
            if (was != TRAP) first_bytes[base + place] = was;
        }
        ptrace(PTRACE_CONT, first, 0, 0);
    }

    void meet(pid_t id, int state) {
        if (WIFEXITED(state) || WIFSIGNALED(state)) {
            held.erase(id);
            if (id != first) return;
            has_ended = true;
            status = WIFEXITED(state) ? WEXITSTATUS(state) : 128 + WTERMSIG(state);
            return;
        }
        const bool is_ours = state >> 16 != 0 || WSTOPSIG(state) == SIGTRAP;
        user_regs_struct registers;
        if (state >> 8 == SIGTRAP && ptrace(PTRACE_GETREGS, id, 0, &registers) == 0 && first_bytes.count(registers.rip - 1)) {
            registers.rip--;
            ptrace(PTRACE_SETREGS, id, 0, &registers);
            if (called(id, registers.rsp)) return;
        }
        ptrace(PTRACE_CONT, id, 0, is_ours ? 0 : WSTOPSIG(state));
    }

    // One step. Whether the thread stands behind it, where it is then, and its stack's end.
    bool step(pid_t id, uint64_t &at, uint64_t &stack) {
        const auto place = first_bytes.find(at);
        if (place != first_bytes.end()) put_byte(id, at, place->second);
        const bool stands = ptrace(PTRACE_SINGLESTEP, id, 0, 0) == 0 && stops(id);
        if (stands && place != first_bytes.end()) put_byte(id, at, TRAP);
        user_regs_struct registers;
        if (!stands || ptrace(PTRACE_GETREGS, id, 0, &registers) != 0) return false;
        at = registers.rip;
        stack = registers.rsp;
        return true;
    }

    // Waits a little until the thread stops; whether it did, for no other cause than ours. Where it waits for something it goes on once it can.
    bool stops(pid_t id) {
        int state;
        for (int tries = 0; tries < 1000; tries++) {
            const pid_t met = waitpid(id, &state, __WALL | WNOHANG);
            if (met < 0) return false;
            if (met == 0) {
                if (tries > 500) usleep(1);
                continue;
            }
            if (state >> 8 == SIGTRAP) return true;
            meet(id, state);
            return false;
        }
        return false;
    }

    // The thread begins a call. Whether it goes on by itself, or is gone.
    bool called(pid_t id, uint64_t stack) {
        user_regs_struct registers;
        if (ptrace(PTRACE_GETREGS, id, 0, &registers) != 0) return true;
        uint64_t chosen = mixed(mixed(seed) + ++calls), at = registers.rip, now = stack;
        const bool is_chosen = taken(chosen, share) == 0;
        uint64_t steps = is_chosen ? 1 + taken(chosen, 64) : 1;
        for (; steps > 0 && now <= stack; steps--)
            if (!step(id, at, now)) return true;
        if (!is_chosen || now > stack) return false;
        interrupted++;
        const uint64_t others = 1 + taken(chosen, uint64_t(1) << (1 + taken(chosen, 7)));
        held[id] = {calls + others, Clock::now() + std::chrono::milliseconds(10)};
        return true;
    }

    void let_go() {
        for (auto it = held.begin(); it != held.end();) {
            if (it->second.calls > calls && it->second.moment > Clock::now()) {
                it++;
                continue;
            }
            ptrace(PTRACE_CONT, it->first, 0, 0);
            it = held.erase(it);
        }
    }
};

static uint64_t word_of(const char *name, uint64_t without) {
    const char *word = std::getenv(name);
    return word && *word ? std::strtoull(word, nullptr, 10) : without;
}

int main(int words, char **word) {
    if (words < 3) return std::fprintf(stderr, "steps NAME[,NAME..] PROGRAM WORD..\n"), 2;
    const std::string program = word[2];
    const std::vector<uint64_t> places = places_of(word[1], program);
    if (places.empty()) return std::fprintf(stderr, "steps: %s has no function %s\n", word[2], word[1]), 2;
    const uint64_t seed = word_of("SCQ_SHAKE_SEED", 1), share = word_of("SCQ_SHAKE_SHARE", 40);
    const pid_t pid = fork();
    if (pid == 0) {
        raise(SIGSTOP);
        execvp(word[2], word + 2);
        _exit(127);
    }
    int state;
    must(pid > 0 && waitpid(pid, &state, WUNTRACED) == pid, "fork");
    const long options = PTRACE_O_TRACECLONE | PTRACE_O_TRACEEXEC | PTRACE_O_EXITKILL;
    must(ptrace(PTRACE_SEIZE, pid, 0, options) == 0, "ptrace");
    kill(pid, SIGCONT);
    return Shaker(pid, seed, share ? share : UINT64_MAX).run(program, places);
}
