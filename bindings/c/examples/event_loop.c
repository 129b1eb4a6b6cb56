/* A loop of events that takes from a queue and from a socket: the bell of the queue rings an
 * eventfd, so that one epoll waits for both. A thread sends numbers by the queue, another by the
 * socket, and the loop sums them.
 *
 *     cc -pthread -I.. event_loop.c libscq.a -o event_loop
 */
#define _GNU_SOURCE
#include "scq_bell.h"

#include <pthread.h>
#include <stdio.h>
#include <stdlib.h>
#include <string.h>
#include <sys/epoll.h>
#include <sys/eventfd.h>
#include <sys/socket.h>
#include <unistd.h>

enum { NUMBERS = 1000 };

static scq_bell bell;
static scq_port ports[2];

static void must(int fact, const char *what) {
    if (fact) return;
    fprintf(stderr, "%s failed\n", what);
    exit(1);
}

/* What the bell calls, in the thread that rings. */
static void ring_event(void *event) {
    const uint64_t one = 1;
    must(write(*(const int *)event, &one, sizeof one) == sizeof one, "write to an eventfd");
}

static void *send_by_queue(void *port) {
    for (uint64_t number = 1; number <= NUMBERS; number++) {
        scq_held held;
        uint64_t place;
        must(scq_bell_lend(&bell, port, SCQ_FOREVER, &held) == SCQ_OK, "lend");
        memcpy(held.at, &number, sizeof number);
        must(scq_bell_send(&bell, port, held.index, 0, &place) == SCQ_OK, "send");
        if (number % 100 == 0) usleep(1000);
    }
    scq_bell_finish(&bell, scq_line(0));
    return NULL;
}

static void *send_by_socket(void *end) {
    const int socket = *(const int *)end;
    for (uint64_t number = 1; number <= NUMBERS; number++) {
        must(write(socket, &number, sizeof number) == sizeof number, "write to a socket");
        if (number % 70 == 0) usleep(1000);
    }
    close(socket);
    return NULL;
}

/* Sums what is on the topic, until it is empty. */
static uint64_t take_all(scq_port *port) {
    uint64_t sum = 0, number;
    uint32_t answer;
    scq_held held;
    while ((answer = scq_take(port, 0, &held)) == SCQ_OK) {
        memcpy(&number, held.at, sizeof number);
        sum += number;
        scq_bell_give_back(&bell, port, held.index);
    }
    must(answer == SCQ_EMPTY, "take");
    return sum;
}

int main(void) {
    const int poll = epoll_create1(0);
    int event = eventfd(0, EFD_NONBLOCK), ends[2], queue_is_open = 1, socket_is_open = 1;
    scq_watch watch = {ring_event, &event, 0, NULL};
    struct epoll_event of_queue = {EPOLLIN, {.fd = event}}, of_socket = {EPOLLIN, {.fd = 0}};
    uint64_t sum = 0;
    pthread_t threads[2];
    must(poll >= 0 && event >= 0 && socketpair(AF_UNIX, SOCK_SEQPACKET, 0, ends) == 0, "opening");
    must(scq_bell_init(&bell) == SCQ_OK && scq_open(4, 1, 8, 1, SCQ_MAX_LIMIT, ports, 2) == SCQ_OK,
         "scq_open");
    scq_bell_watch(&bell, &watch);
    of_socket.data.fd = ends[0];
    must(epoll_ctl(poll, EPOLL_CTL_ADD, event, &of_queue) == 0, "epoll_ctl");
    must(epoll_ctl(poll, EPOLL_CTL_ADD, ends[0], &of_socket) == 0, "epoll_ctl");
    must(pthread_create(&threads[0], NULL, send_by_queue, &ports[0]) == 0, "pthread_create");
    must(pthread_create(&threads[1], NULL, send_by_socket, &ends[1]) == 0, "pthread_create");
    while (queue_is_open || socket_is_open) {
        struct epoll_event came;
        uint64_t number;
        /* Armed first, and then looked: so what is sent behind the look rings the eventfd. */
        scq_bell_arm(&bell, &watch, scq_line(0));
        queue_is_open = !scq_bell_have_ended(&bell, scq_line(0));
        sum += take_all(&ports[1]);
        if (!queue_is_open && !socket_is_open) break;
        must(epoll_wait(poll, &came, 1, -1) == 1, "epoll_wait");
        scq_bell_disarm(&bell, &watch);
        if (came.data.fd == event) {
            must(read(event, &number, sizeof number) == sizeof number, "read from an eventfd");
        } else if (read(ends[0], &number, sizeof number) == sizeof number) {
            sum += number;
        } else {
            socket_is_open = 0;
            epoll_ctl(poll, EPOLL_CTL_DEL, ends[0], NULL);
        }
    }
    for (int i = 0; i < 2; i++) {
        pthread_join(threads[i], NULL);
        scq_bell_close(&bell, &ports[i]);
    }
    scq_bell_free(&bell);
    close(event);
    close(ends[0]);
    close(poll);
    return printf("the numbers from 1 to %d, twice, are %llu together\n", NUMBERS,
                  (unsigned long long)sum) < 0;
}
