/* storm THREADS ORDER MESSAGES [TOPICS]: so many threads share 2^ORDER buffers and send each other
 * so many messages on three topics, or so many. Each has to come once, whole and on its topic, and
 * those of one sender on one topic in order; at the end all buffers have to be free. A thread is
 * done when it has sent its share; what is left then the first takes. None waits for another, and
 * only calls have atomics, so that bench/storm can hold one behind these. */
#include "scq.h"

#include "check.h"

#include <pthread.h>
#include <sched.h>
#include <string.h>

enum { WORDS = 16, MOST = 64 };

static uint64_t messages, each;
static uint32_t topics = 3;

struct job {
    scq_port port;
    pthread_t thread;
    uint64_t next, end;
    uint64_t *seen; /* a bit for each message that came */
    /* Of each sender and topic one more than the message that came last. */
    uint64_t last[MOST][SCQ_MAX_TOPICS];
};

/* Every word of a message tells its number and the word's own. */
static uint64_t word_of(uint64_t number, uint64_t at) {
    return (number ^ at << 56) * UINT64_C(0x9E3779B97F4A7C15);
}

static int send_next(struct job *job) {
    scq_held held;
    uint64_t place;
    const uint32_t answer = scq_lend(&job->port, &held);
    if (answer == SCQ_FULL) return 0;
    CHECK(answer == SCQ_OK && held.len == 8 * WORDS);
    memcpy(held.at, &job->next, 8);
    for (uint64_t at = 1; at < WORDS; at++) {
        const uint64_t word = word_of(job->next, at);
        memcpy(held.at + 8 * at, &word, 8);
    }
    CHECK(scq_send(&job->port, held.index, (uint32_t)(job->next % topics), &place) == SCQ_OK);
    job->next++;
    return 1;
}

static int take_one(struct job *job, uint32_t topic) {
    scq_held held;
    uint64_t number, word;
    const uint32_t answer = scq_take(&job->port, topic, &held);
    if (answer == SCQ_EMPTY) return 0;
    CHECK(answer == SCQ_OK && held.len == 8 * WORDS);
    memcpy(&number, held.at, 8);
    CHECK(number < messages && number % topics == topic);
    for (uint64_t at = 1; at < WORDS; at++) {
        memcpy(&word, held.at + 8 * at, 8);
        CHECK(word == word_of(number, at));
    }
    CHECK((job->seen[number / 64] >> number % 64 & 1) == 0);
    job->seen[number / 64] |= UINT64_C(1) << number % 64;
    CHECK(number >= job->last[number / each][topic]);
    job->last[number / each][topic] = number + 1;
    CHECK(scq_give_back(&job->port, held.index) == SCQ_OK);
    return 1;
}

static void *work(void *handed) {
    struct job *job = handed;
    for (uint32_t turn = 0; job->next < job->end; turn++) {
        const int sent = send_next(job);
        if (!take_one(job, turn % topics) && !sent) sched_yield();
        /* Now and then a topic is emptied, so that SCQ_EMPTY comes. */
        while (turn % 64 == 0 && take_one(job, turn / 64 % topics)) continue;
    }
    return NULL;
}

/* What is left is taken, and each buffer is free. */
static void take_rest(struct job *job, uint32_t buffers) {
    scq_held held;
    uint64_t free_ones = 0;
    for (uint32_t topic = 0; topic < topics; topic++)
        while (take_one(job, topic)) continue;
    for (uint32_t i = 0; i < buffers; i++) {
        CHECK(scq_lend(&job->port, &held) == SCQ_OK);
        CHECK(scq_give_back(&job->port, held.index) == SCQ_OK);
        free_ones |= buffers > 64 ? 0 : UINT64_C(1) << held.index;
    }
    CHECK(buffers >= 64 || free_ones == (UINT64_C(1) << buffers) - 1);
}

int main(int count, char **words) {
    scq_port ports[MOST];
    CHECK(count == 4 || count == 5);
    const uint64_t threads = strtoull(words[1], NULL, 10);
    const uint32_t order = (uint32_t)strtoul(words[2], NULL, 10);
    messages = strtoull(words[3], NULL, 10);
    if (count == 5) topics = (uint32_t)strtoul(words[4], NULL, 10);
    CHECK(threads >= 1 && threads <= MOST && messages >= threads && topics <= SCQ_MAX_TOPICS);
    each = (messages + threads - 1) / threads;
    struct job *jobs = calloc(threads, sizeof *jobs);
    CHECK(jobs != NULL);
    memset(ports, 0, sizeof ports);
    CHECK(scq_open(order, topics, 8 * WORDS, 1, SCQ_MAX_LIMIT, ports, threads) == SCQ_OK);
    for (uint64_t i = 0; i < threads; i++) {
        jobs[i].port = ports[i];
        jobs[i].seen = calloc(messages / 64 + 1, sizeof *jobs[i].seen);
        CHECK(jobs[i].seen != NULL);
        jobs[i].next = i * each < messages ? i * each : messages;
        jobs[i].end = (i + 1) * each < messages ? (i + 1) * each : messages;
    }
    for (uint64_t i = 0; i < threads; i++)
        CHECK(pthread_create(&jobs[i].thread, NULL, work, &jobs[i]) == 0);
    for (uint64_t i = 0; i < threads; i++) CHECK(pthread_join(jobs[i].thread, NULL) == 0);
    take_rest(jobs, 1u << order);
    for (uint64_t number = 0; number < messages; number++) {
        uint64_t came = 0;
        for (uint64_t i = 0; i < threads; i++)
            came += jobs[i].seen[number / 64] >> number % 64 & 1;
        CHECK(came == 1);
    }
    for (uint64_t i = 0; i < threads; i++) {
        CHECK(scq_close(&jobs[i].port) == SCQ_OK);
        free(jobs[i].seen);
    }
    printf("%llu messages of %llu threads over %u buffers, each whole and once\n",
           (unsigned long long)messages, (unsigned long long)threads, 1u << order);
    free(jobs);
    return 0;
}
