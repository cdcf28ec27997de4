// Preloaded into a program, this lets the reads of standard input give at most READ_STEP bytes each, and the writes to
// standard output take at most WRITE_STEP, and fails the read and the write of the numbers READ_FAILS and WRITE_FAILS,
// counted from 1. What is not in the environment changes nothing.
#define _GNU_SOURCE
#include <dlfcn.h>
#include <errno.h>
#include <stdlib.h>
#include <sys/uio.h>
#include <unistd.h>

static size_t number(const char *name, size_t usual) {
    const char *text = getenv(name);
    return text ? strtoul(text, NULL, 10) : usual;
}

ssize_t read(int file, void *bytes, size_t size) {
    static size_t count;
    ssize_t (*next)(int, void *, size_t) = dlsym(RTLD_NEXT, "read");
    size_t step = number("READ_STEP", size);
    if (file == STDIN_FILENO && ++count == number("READ_FAILS", (size_t)-1)) {
        errno = EIO;
        return -1;
    }
    return next(file, bytes, file == STDIN_FILENO && size > step ? step : size);
}

ssize_t write(int file, const void *bytes, size_t size) {
    static size_t count;
    ssize_t (*next)(int, const void *, size_t) = dlsym(RTLD_NEXT, "write");
    size_t step = number("WRITE_STEP", size);
    if (file == STDOUT_FILENO && ++count == number("WRITE_FAILS", (size_t)-1)) {
        errno = EIO;
        return -1;
    }
    return next(file, bytes, file == STDOUT_FILENO && size > step ? step : size);
}

ssize_t writev(int file, const struct iovec *pieces, int count) {
    for (int i = 0; i < count; i++) {
        if (pieces[i].iov_len > 0) {
            return write(file, pieces[i].iov_base, pieces[i].iov_len);
        }
    }
    return 0;
}

// The names by which Rattle's programs call these.
ssize_t __read(int file, void *bytes, size_t size) __attribute__((alias("read")));
ssize_t __write(int file, const void *bytes, size_t size) __attribute__((alias("write")));
