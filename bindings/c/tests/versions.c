/* Opens a queue in each way. Where the library is of the header's version the openings are well;
 * where it isn't each is answered SCQ_BAD_VERSION, first of all that could be said, and no port is
 * changed. Prints which it was. Compiled with -DPLUGIN it has no main: a program calls `opens`. */
#include "scq.h"

#include "check.h"

#include <string.h>

const char *opens(void);

const char *opens(void) {
    static unsigned char bytes[2 * 8];
    const scq_memory memory = {bytes, 8, 8, NULL}, wrong = {bytes, 8, 0, NULL};
    uint32_t (*const over)(uint32_t, uint32_t, uint32_t, uint64_t, const scq_memory *, scq_port *,
                           size_t) = scq_open_over;
    const int same = scq_version() == SCQ_VERSION;
    const uint32_t wanted = same ? SCQ_OK : SCQ_BAD_VERSION;
    scq_port port = SCQ_NONE, was;
    memset(&was, 0, sizeof was);
    CHECK(scq_open(1, 1, 8, 1, SCQ_MAX_LIMIT, &port, 1) == wanted);
    CHECK((port.at != NULL) == same && (!same || scq_close(&port) == SCQ_OK));
    CHECK(scq_open_over(1, 1, 1, SCQ_MAX_LIMIT, &memory, &port, 1) == wanted);
    CHECK((port.at != NULL) == same && (!same || scq_close(&port) == SCQ_OK));
    CHECK(over(1, 1, 1, SCQ_MAX_LIMIT, &memory, &port, 1) == wanted);
    CHECK((port.at != NULL) == same && (!same || scq_close(&port) == SCQ_OK));
    if (!same) {
        was = port;
        CHECK(scq_open(0, 0, 0, 0, 0, &port, 0) == SCQ_BAD_VERSION);
        CHECK(scq_open(12, 17, UINT32_MAX, 1, SCQ_MAX_LIMIT, &port, 1) == SCQ_BAD_VERSION);
        CHECK(scq_open_over(0, 0, 0, 0, &wrong, &port, 0) == SCQ_BAD_VERSION);
        CHECK(memcmp(&port, &was, sizeof port) == 0);
        CHECK(strcmp(scq_text(SCQ_BAD_VERSION), scq_text(30)) != 0);
    }
    return same ? "opened" : "refused";
}

#ifndef PLUGIN
int main(void) { return puts(opens()) < 0; }
#endif
