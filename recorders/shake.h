/* Interrupts the calls of a queue at places inside them, so that few recorded calls show what else takes millions. For C11 and C++11 and
 * later, with POSIX.
 *
 * How to use it:
 *   1. `SCQ_SHAKE();` stands in the code of the queue wherever another thread may come between: behind each step that others see, and
 *      before it. None stands between a recorder's call and the queue's: it would make the call longer, and hide what is wrong.
 *   2. The program is compiled with `-DSCQ_SHAKEN`. Without it the places are nothing.
 *   3. `recorders/shake ./program {}` runs and judges it, by one seed after the other.
 *
 * At one in 40 places the thread is interrupted: it waits a microsecond or so, or yields; now and then it sleeps a millisecond, and seldom
 * 20. Which places these are, and for how long, says the seed: of the k-th place of the n-th thread always the same, where threads are
 * numbered as they come to their first place, or as SCQ_SHAKE_THREAD(n) says. What the other threads do meanwhile is the system's.
 * SCQ_SHAKE_SEED and SCQ_SHAKE_SHARE, of the environment, are the seed (1) and one in how many places it is (40; 0 for none).
 */
#ifndef SCQ_SHAKE_H
#define SCQ_SHAKE_H

#ifndef SCQ_SHAKEN
#define SCQ_SHAKE() ((void)0)
#define SCQ_SHAKE_THREAD(number) ((void)(number))
#else

#include <poll.h>
#include <sched.h>
#include <stdint.h>
#include <stdlib.h>

#define SCQ_SHAKE() scq_shake_here()
#define SCQ_SHAKE_THREAD(number) (scq_shake_now()->thread = (uint64_t)(number) + 1)

/* How many threads have a number, and where one of them is; its number counts from 1. */
__attribute__((weak)) uint64_t scq_shake_threads;
typedef struct {
    uint64_t thread, place, seed, share;
} scq_shake_place;

static inline scq_shake_place *scq_shake_now(void) {
    static __thread scq_shake_place here;
    return &here;
}

static inline uint64_t scq_shake_word(const char *name, uint64_t without) {
    const char *word = getenv(name);
    return word && *word ? strtoull(word, NULL, 10) : without;
}

/* A number that looks like any other (the finisher of splitmix64). */
static inline uint64_t scq_shake_mixed(uint64_t number) {
    number = (number ^ number >> 30) * UINT64_C(0xbf58476d1ce4e5b9);
    number = (number ^ number >> 27) * UINT64_C(0x94d049bb133111eb);
    return number ^ number >> 31;
}

static inline void scq_shake_begin(scq_shake_place *here) {
    here->seed = scq_shake_word("SCQ_SHAKE_SEED", 1);
    here->share = scq_shake_word("SCQ_SHAKE_SHARE", 40);
    if (!here->thread) here->thread = __atomic_add_fetch(&scq_shake_threads, 1, __ATOMIC_RELAXED);
}

static inline void scq_shake_pause(uint64_t chosen) {
    if (chosen % 512 == 0) poll(NULL, 0, 20);
    else if (chosen % 16 == 0) poll(NULL, 0, 1);
    else if (chosen % 2) sched_yield();
    else
        for (uint64_t times = chosen / 512 % 4096; times; times--) __asm__ volatile("");
}

static inline void scq_shake_here(void) {
    scq_shake_place *here = scq_shake_now();
    if (here->place++ == 0) scq_shake_begin(here);
    if (here->share == 0) return;
    uint64_t chosen = scq_shake_mixed(scq_shake_mixed(here->seed * 65536 + here->thread) + here->place);
    if (chosen % here->share == 0) scq_shake_pause(chosen / here->share);
}
#endif
#endif
