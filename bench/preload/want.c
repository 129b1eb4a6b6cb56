#include <stddef.h>
#include <stdlib.h>
#include <unistd.h>

void *__libc_malloc(size_t);
void *__libc_realloc(void *, size_t);

// Whether this call is the one that gets nothing; that it came is told by a byte on descriptor 9.
static int fails(void) {
    static long calls;
    const char *which = getenv("WANT");
    if (!which || __atomic_add_fetch(&calls, 1, __ATOMIC_SEQ_CST) != atol(which)) return 0;
    return write(9, "x", 1) == 1;
}

void *malloc(size_t size) { return fails() ? NULL : __libc_malloc(size); }
void *realloc(void *old, size_t size) { return fails() ? NULL : __libc_realloc(old, size); }
