/* Refuses one allocation: that with the number in REFUSE, from 1 (malloc and realloc are counted together). Where the file
   in TOLD is named, it is made once that allocation is refused. */
#define _GNU_SOURCE
#include <dlfcn.h>
#include <fcntl.h>
#include <stdlib.h>
#include <unistd.h>

static void tell(void) {
    const char *name = getenv("TOLD");
    if (name) close(open(name, O_CREAT | O_WRONLY, 0600));
}

static int is_refused(void) {
    static long left = -1;
    if (left < 0) {
        const char *number = getenv("REFUSE");
        left = number ? atol(number) : 0;
    }
    if (left == 0 || --left > 0) return 0;
    tell();
    return 1;
}

void *malloc(size_t size) {
    static void *(*real)(size_t);
    if (!real) real = (void *(*)(size_t))dlsym(RTLD_NEXT, "malloc");
    return is_refused() ? NULL : real(size);
}

void *realloc(void *old, size_t size) {
    static void *(*real)(void *, size_t);
    if (!real) real = (void *(*)(void *, size_t))dlsym(RTLD_NEXT, "realloc");
    return is_refused() ? NULL : real(old, size);
}
