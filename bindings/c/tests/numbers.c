/* Where a set of lines is asked for, a number isn't one: no compiler takes these lines. */
#include "scq_bell.h"

static scq_bell bell;
static scq_port port;
static scq_watch watch;

int main(void) {
    uint32_t topic;
    scq_held held;
    scq_bell_finish(&bell, 0);
    scq_bell_finish(&bell, SCQ_FREE);
    scq_bell_arm(&bell, &watch, 1);
    return scq_bell_take_any(&bell, &port, 1, 0, &topic, &held) == SCQ_OK;
}
