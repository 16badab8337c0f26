// Stands between a program and the C library: a pause takes no time. With INTERRUPTED set, every other read and write is
// interrupted, and the rest move few bytes.
#define _GNU_SOURCE
#include <errno.h>
#include <stdlib.h>
#include <sys/syscall.h>
#include <time.h>
#include <unistd.h>

static size_t few(size_t most) {
    static int calls;
    if (getenv("INTERRUPTED") == NULL)
        return most;
    if (calls++ % 2 == 0)
        return 0;
    return most < 1009 ? most : 1009;
}

ssize_t read(int file, void *to, size_t most) {
    size_t n = few(most);
    if (n == 0 && most > 0) {
        errno = EINTR;
        return -1;
    }
    return syscall(SYS_read, file, to, n);
}

ssize_t write(int file, const void *from, size_t most) {
    size_t n = few(most);
    if (n == 0 && most > 0) {
        errno = EINTR;
        return -1;
    }
    return syscall(SYS_write, file, from, n);
}

int nanosleep(const struct timespec *asked, struct timespec *left) {
    (void)asked;
    (void)left;
    return 0;
}
