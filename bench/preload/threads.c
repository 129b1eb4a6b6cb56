// Keeps the threads of a program each to a processor of its own, the last PIN ones, where there are so many. Refuses
// start number N, from 0, where bit N of REFUSE is set, and tells it by a byte on descriptor 9. Takes 16 times PLACE
// bytes off the heap before the program does, so that all that it allocates lies as much further.
#define _GNU_SOURCE
#include <dlfcn.h>
#include <errno.h>
#include <pthread.h>
#include <sched.h>
#include <stdlib.h>
#include <unistd.h>

static cpu_set_t all;
static int count;
void *taken;

static void keep(pthread_t thread, int number) {
    cpu_set_t one;
    int at = -1;
    if (number >= count) return;
    for (int before = CPU_COUNT(&all) - count + number; before >= 0; at++)
        if (CPU_ISSET(at + 1, &all)) before--;
    CPU_ZERO(&one);
    CPU_SET(at, &one);
    pthread_setaffinity_np(thread, sizeof one, &one);
}

__attribute__((constructor)) static void begin(void) {
    const char *pin = getenv("PIN"), *place = getenv("PLACE");
    if (place) taken = malloc(24 + 16 * strtoul(place, NULL, 10));
    sched_getaffinity(0, sizeof all, &all);
    if (pin && atoi(pin) <= CPU_COUNT(&all)) count = atoi(pin);
    keep(pthread_self(), 0);
}

int pthread_create(pthread_t *thread, const pthread_attr_t *how, void *(*call)(void *), void *with) {
    static int started;
    int (*start)(pthread_t *, const pthread_attr_t *, void *(*)(void *), void *) = dlsym(RTLD_NEXT, "pthread_create");
    const int number = __atomic_add_fetch(&started, 1, __ATOMIC_SEQ_CST);
    const char *refused = getenv("REFUSE");
    if (refused && strtoul(refused, NULL, 10) >> (number - 1) & 1 && write(9, "x", 1) == 1) return EAGAIN;
    const int answer = start(thread, how, call, with);
    if (answer == 0) keep(*thread, number);
    return answer;
}
