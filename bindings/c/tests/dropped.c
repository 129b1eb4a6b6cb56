/* Each call that may be refused, with its answer dropped: compilers warn of each, so that with
 * -Werror this must not compile.
 */
#include "scq.h"

int main(void) {
    scq_port p = SCQ_NONE;
    scq_memory m = {0};
    scq_held h = {0};
    uint64_t at;
    uint32_t k;
    size_t n;
    scq_open(1, 1, 1, 1, SCQ_MAX_LIMIT, &p, 1);
    scq_open_over(1, 1, 1, SCQ_MAX_LIMIT, &m, &p, 1);
    scq_lend(&p, &h);
    scq_take(&p, 0, &h);
    scq_send(&p, 0, 0, &at);
    scq_lend_many(&p, &h, 1, &n);
    scq_take_many(&p, 0, &h, 1, &n);
    scq_send_many(&p, &h, 1, 0, &n);
    scq_count(&p, 0, &k);
    scq_pack(&h, "", 0);
    return 0;
}
