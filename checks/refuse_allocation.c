// Preloaded into a program, this refuses one of its allocations, the one of the number in REFUSED_ALLOCATION, counted
// from 1, and then makes the file that REFUSED_MARK names.
#define _GNU_SOURCE
#include <dlfcn.h>
#include <fcntl.h>
#include <stdlib.h>
#include <unistd.h>

static int is_refused(void) {
    static long count, number = -1;
    if (number < 0) {
        const char *word = getenv("REFUSED_ALLOCATION");
        number = word ? atol(word) : 0;
    }
    if (++count != number)
        return 0;
    const char *mark = getenv("REFUSED_MARK");
    if (mark)
        close(open(mark, O_CREAT | O_WRONLY, 0600));
    return 1;
}

void *malloc(size_t size) {
    static void *(*next)(size_t);
    if (!next)
        next = dlsym(RTLD_NEXT, "malloc");
    return is_refused() ? NULL : next(size);
}

void *realloc(void *block, size_t size) {
    static void *(*next)(void *, size_t);
    if (!next)
        next = dlsym(RTLD_NEXT, "realloc");
    return is_refused() ? NULL : next(block, size);
}
