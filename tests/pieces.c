/* Loaded before the C library, gives files away in pieces: a read brings at most 7 bytes, and the call numbered
 * READ_FAILS, from 1, fails as a bad disk does. */
#define _GNU_SOURCE
#include <errno.h>
#include <stdlib.h>
#include <sys/syscall.h>
#include <unistd.h>

ssize_t read(int fd, void *buf, size_t room)
{
    static long calls;
    const char *fails = getenv("READ_FAILS");
    if (fails && ++calls == atol(fails)) {
        errno = EIO;
        return -1;
    }
    return syscall(SYS_read, fd, buf, room < 7 ? room : 7);
}
