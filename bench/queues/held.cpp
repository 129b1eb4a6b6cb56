// Runs a program, and holds one of its threads in the middle of a call:
//
//     held kill|go KIND NUMBER THREADS PROGRAM WORD..
//
// right behind the atomic instruction of this number and kind that it comes to, until all its others are done, of whom
// there have to be so many. A compare_exchange may be a fetch_or, which is compiled as one; a load has no instruction
// of its own. Then the program is killed, or the thread goes on, and the program runs to its end, whose status this is.
#include <algorithm>
#include <cstdint>
#include <cstdio>
#include <cstdlib>
#include <cstring>
#include <filesystem>
#include <string>
#include <sys/prctl.h>
#include <sys/ptrace.h>
#include <sys/uio.h>
#include <sys/user.h>
#include <sys/wait.h>
#include <unistd.h>
#include <vector>

static void must(bool is, const char *what) {
    if (is) return;
    std::perror(what);
    std::exit(2);
}

// The threads of a program but its first, the oldest first, once there are so many.
static std::vector<pid_t> others_of(pid_t pid, size_t many) {
    std::vector<pid_t> ids;
    long tries = 0;
    do {
        usleep(1000);
        must(tries++ < 20000, "threads are not there");
        ids.clear();
        for (const auto &it : std::filesystem::directory_iterator("/proc/" + std::to_string(pid) + "/task"))
            ids.push_back(std::stoi(it.path().filename()));
        ids.erase(std::remove(ids.begin(), ids.end(), pid), ids.end());
    } while (ids.size() < many);
    std::sort(ids.begin(), ids.end());
    return ids;
}

static void tell(__ptrace_request what, pid_t id) { must(!ptrace(what, id, 0, 0), "ptrace"); }
static void wait(pid_t id) {
    int status;
    must(waitpid(id, &status, __WALL) == id && WIFSTOPPED(status), "stop");
}

// Which atomic instruction this is: a for an add or a subtraction, of which the answer may not be
// needed, x for a compare_exchange, s for a store; or 0.
static char kind_of(const unsigned char *code) {
    const bool is_locked = *code == 0xf0;
    code += is_locked;
    if ((*code & 0xf0) == 0x40) code++;
    // An exchange with memory, which a store is, locks without a prefix.
    if (!is_locked) return code[0] == 0x87 && code[1] < 0xc0 ? 's' : 0;
    if (code[0] == 0x0f) return code[1] == 0xb1 ? 'x' : code[1] == 0xc1 ? 'a' : 0;
    return std::strchr("\xff\x29\x83\x01", code[0]) ? 'a' : 0;
}

static int hold(pid_t pid, bool goes, char kind, uint64_t number, size_t threads) {
    const std::vector<pid_t> ids = others_of(pid, threads);
    usleep(5000 + 1000 * unsigned(number));
    // The newest have most of their calls before them.
    const pid_t id = ids[ids.size() - 1 - (number - 1) % ids.size()];
    tell(PTRACE_SEIZE, id);
    tell(PTRACE_INTERRUPT, id);
    wait(id);
    uint64_t at = 0, found = 0;
    for (long steps = 0; steps < 2000000 && found < number; steps++) {
        user_regs_struct regs;
        unsigned char code[16] = {0};
        must(!ptrace(PTRACE_GETREGS, id, 0, &regs), "registers");
        const iovec mine = {code, sizeof code}, its = {reinterpret_cast<void *>(regs.rip), sizeof code};
        process_vm_readv(pid, &mine, 1, &its, 1, 0);
        tell(PTRACE_SINGLESTEP, id);
        wait(id);
        // Where the libraries lie, it is none of the calls'.
        if (kind_of(code) == kind && regs.rip < 0x700000000000) found++, at = regs.rip;
    }
    must(found == number, "no such instruction was met");
    int ticks = 0;
    for (; others_of(pid, 1).size() > 1; ticks++) {
        usleep(100000);
        must(ticks < 1200, "others did not come to their end");
    }
    std::printf("held behind %c at ..%03zx: the others came to their end in %.1f s; %s\n", kind, at & 0xfff,
                ticks / 10., goes ? "let go" : "killed");
    std::fflush(stdout);
    if (!goes) return 0;
    int status = 0;
    tell(PTRACE_DETACH, id);
    while (waitpid(pid, &status, __WALL) == pid && !WIFEXITED(status) && !WIFSIGNALED(status))
        ;
    return WIFEXITED(status) ? WEXITSTATUS(status) : 1;
}

int main(int words, char **word) {
    if (words < 6) return 2;
    const pid_t pid = fork();
    if (!pid) {
        // It ends with this one.
        prctl(PR_SET_PDEATHSIG, SIGKILL);
        execv(word[5], word + 5);
        _exit(127);
    }
    return hold(pid, *word[1] == 'g', *word[2], std::strtoull(word[3], nullptr, 10), std::stoul(word[4]));
}
