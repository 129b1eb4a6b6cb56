/* A stock of buffers for one topic, so that another topic can't starve it. Topic STOCK holds the
 * buffers of topic REPLIES: who sends a reply takes its buffer from there, and who took a reply
 * sends it back there. Requests take what is lent, as much as there is, and the replies still go
 * through.
 *
 *     cc -I.. stock_for_a_topic.c libscq.a -o stock_for_a_topic
 */
#include "scq.h"

#include <stdio.h>
#include <stdlib.h>

enum { REQUESTS, REPLIES, STOCK, TOPICS };
enum { ORDER = 3, FOR_REPLIES = 2 };

static void must(const char *call, uint32_t answer) {
    if (answer == SCQ_OK) return;
    fprintf(stderr, "%s: %s\n", call, scq_text(answer));
    exit(1);
}

int main(void) {
    scq_port ports[2] = {SCQ_NONE, SCQ_NONE}, *const client = &ports[0], *const server = &ports[1];
    scq_held held, reply;
    uint64_t place;
    uint32_t answer;
    int requests = 0, served = 0;
    must("open", scq_open(ORDER, TOPICS, 64, 2, SCQ_MAX_LIMIT, ports, 2));
    for (int i = 0; i < FOR_REPLIES; i++) {
        must("lend", scq_lend(server, &held));
        must("send", scq_send(server, held.index, STOCK, &place));
    }
    /* Requests until nothing can be lent. */
    while ((answer = scq_lend(client, &held)) == SCQ_OK) {
        must("send", scq_send(client, held.index, REQUESTS, &place));
        requests++;
    }
    printf("%d requests, and then: %s\n", requests, scq_text(answer));
    /* Each is served, with a reply in a buffer of the replies' own. */
    while (scq_take(server, REQUESTS, &held) == SCQ_OK) {
        must("take", scq_take(server, STOCK, &reply));
        must("send", scq_send(server, reply.index, REPLIES, &place));
        must("take", scq_take(client, REPLIES, &reply));
        must("send", scq_send(client, reply.index, STOCK, &place));
        must("give_back", scq_give_back(server, held.index));
        served++;
    }
    printf("%d were served\n", served);
    scq_close(client);
    scq_close(server);
    return served != requests;
}
