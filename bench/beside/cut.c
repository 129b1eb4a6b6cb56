/* Recordings that are cut, one way each; `bench/recorders` says how each is told:
 *     cut FOLDER WAY
 * room       a seat has too little room
 * forgotten  a seat is never written
 * fork       a child ends by `exit` and by a signal while its parent's seats are open, and the recording is whole
 * child      a child records on its parent's seat
 * own        a child opens a seat of its own, and the recording is whole
 * kill, now  the program ends by SIGKILL, or `_exit`, behind some of what it recorded */
#include "recorder.h"
#include <sys/mman.h>
#include <sys/wait.h>

static scq_recorder *recorder;
static uint64_t values[64];
static size_t head, tail;

static void pairs(scq_seat *seat, int count) {
    for (int i = 0; i < count; i++) {
        values[tail++ % 64] = scq_put_start(seat, 0);
        scq_put_done(seat);
        scq_get_start(seat, 0);
        scq_get_got(seat, values[head++ % 64]);
    }
}

/* Waits for a child that does this. */
static void in_child(void (*what)(scq_seat *), scq_seat *seat) {
    pid_t child = fork();
    if (child == 0) what(seat);
    if (child < 0 || waitpid(child, NULL, 0) != child) exit(3);
}

static void ends(scq_seat *seat) { exit(seat == NULL); }
static void is_ended(scq_seat *seat) { exit(raise(SIGTERM) + (seat == NULL)); }
static void records(scq_seat *seat) {
    pairs(seat, 3);
    exit(0);
}
static const char *own_name;
static void opens(scq_seat *seat) {
    if (!scq_seat_open(seat, recorder, 1, 100, own_name)) exit(3);
    records(seat);
}

int main(int argc, char **argv) {
    scq_seat seat;
    char name[4096], other[4096];
    if (argc != 3) return 2;
    const char *way = argv[2];
    recorder = (scq_recorder *)mmap(NULL, sizeof *recorder, PROT_READ | PROT_WRITE, MAP_SHARED | MAP_ANONYMOUS, -1, 0);
    scq_recorder_init_as(recorder, SCQ_COUNTER);
    snprintf(name, sizeof name, "%s/1.log", argv[1]);
    snprintf(other, sizeof other, "%s/2.log", argv[1]);
    own_name = other;
    if (!strcmp(way, "room") || !strcmp(way, "forgotten")) {
        if (!scq_seat_init(&seat, recorder, 0, 100)) return 3;
        pairs(&seat, 30);
        return strcmp(way, "room") || scq_seat_write(&seat, name) ? 0 : 1;
    }
    if (!scq_seat_open(&seat, recorder, 0, 100, name)) return 3;
    pairs(&seat, 60);
    if (!strcmp(way, "fork")) {
        in_child(ends, &seat);
        in_child(is_ended, &seat);
    }
    if (!strcmp(way, "child")) in_child(records, &seat);
    if (!strcmp(way, "own")) {
        scq_seat mine;
        in_child(opens, &mine);
    }
    if (!strcmp(way, "kill")) raise(SIGKILL);
    if (!strcmp(way, "now")) _exit(0);
    pairs(&seat, 60);
    return !scq_seat_close(&seat);
}
