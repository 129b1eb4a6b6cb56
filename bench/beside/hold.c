// Reads a file of at most a gigabyte, 4,096 bytes at a time, and copies it to memory that it keeps.
#include <fcntl.h>
#include <stdlib.h>
#include <string.h>
#include <unistd.h>

char *held;

int main(int count, char **words) {
    int file = count == 2 ? open(words[1], O_RDONLY) : -1;
    char bytes[4096];
    ssize_t got = -1;
    held = malloc(1 << 30);
    for (size_t at = 0; held && (got = read(file, bytes, sizeof bytes)) > 0; at += (size_t)got)
        memcpy(held + at, bytes, (size_t)got);
    return got < 0;
}
