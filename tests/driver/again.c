/* Preloaded under a program: of three reads, and of three writes, one is interrupted, one finds nothing ready, and one
 * moves at most a few bytes. */
#define _GNU_SOURCE
#include <errno.h>
#include <sys/syscall.h>
#include <unistd.h>

enum { FEW = 1000 };

static long turn(unsigned *calls, long call, int fd, const void *bytes, size_t length) {
    switch ((*calls)++ % 3) {
    case 0:
        errno = EINTR;
        return -1;
    case 1:
        errno = EAGAIN;
        return -1;
    default:
        return syscall(call, fd, bytes, length < FEW ? length : FEW);
    }
}

ssize_t read(int fd, void *bytes, size_t length) {
    static unsigned calls;
    return turn(&calls, SYS_read, fd, bytes, length);
}

ssize_t write(int fd, const void *bytes, size_t length) {
    static unsigned calls;
    return turn(&calls, SYS_write, fd, bytes, length);
}
