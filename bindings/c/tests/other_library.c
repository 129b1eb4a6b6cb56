/* A shared object of the version OTHER, with the calls that versions.c makes: it answers its
 * version, and whoever makes another call of it ends, whatever that one takes. */
#include <stdint.h>
#include <stdlib.h>

uint32_t scq_version(void) { return OTHER; }

uint32_t scq_open_over(void) { abort(); }

uint32_t scq_end(void) { abort(); }
