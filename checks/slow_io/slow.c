/* Each read and write moves at most MOVE bytes, and the one with the number in FAIL, from 1, fails (reads and writes are counted
   together; 0: none): with an odd number it is interrupted. */
#define _GNU_SOURCE
#include <dlfcn.h>
#include <errno.h>
#include <stdlib.h>
#include <unistd.h>

static long number_in(const char *name) {
    const char *number = getenv(name);
    return number ? atol(number) : 0;
}

/* How many bytes may move now, or -1 with errno where the call fails. */
static ssize_t moves(size_t size) {
    static long number, left = -1, most;
    if (left < 0) {
        left = number = number_in("FAIL");
        most = number_in("MOVE");
    }
    if (size == 0) return 0;
    if (left > 0 && --left == 0) {
        errno = number % 2 == 1 ? EINTR : EIO;
        return -1;
    }
    return size < (size_t)most ? (ssize_t)size : most;
}

ssize_t read(int file, void *into, size_t size) {
    static ssize_t (*real)(int, void *, size_t);
    if (!real) real = (ssize_t (*)(int, void *, size_t))dlsym(RTLD_NEXT, "read");
    ssize_t some = moves(size);
    return some < 0 ? -1 : real(file, into, some);
}

ssize_t write(int file, const void *from, size_t size) {
    static ssize_t (*real)(int, const void *, size_t);
    if (!real) real = (ssize_t (*)(int, const void *, size_t))dlsym(RTLD_NEXT, "write");
    ssize_t some = moves(size);
    return some < 0 ? -1 : real(file, from, some);
}
