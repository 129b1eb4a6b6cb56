#define _GNU_SOURCE
#include <dlfcn.h>
#include <errno.h>
#include <unistd.h>

/* Two of three reads and writes are interrupted by a signal before they move a byte. That one was
 * is told by a byte on descriptor 9. */
static int interrupted(int file) {
    static long calls;
    ssize_t (*tell)(int, const void *, size_t) = dlsym(RTLD_NEXT, "write");
    if (file == 9 || __atomic_add_fetch(&calls, 1, __ATOMIC_SEQ_CST) % 3 == 0) return 0;
    if (tell(9, "x", 1) != 1) return 0;
    errno = EINTR;
    return 1;
}

ssize_t read(int file, void *into, size_t size) {
    ssize_t (*next)(int, void *, size_t) = dlsym(RTLD_NEXT, "read");
    return interrupted(file) ? -1 : next(file, into, size);
}

ssize_t write(int file, const void *piece, size_t size) {
    ssize_t (*next)(int, const void *, size_t) = dlsym(RTLD_NEXT, "write");
    return interrupted(file) ? -1 : next(file, piece, size);
}
