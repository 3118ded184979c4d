/* A `read` to preload: of every READS_INTERRUPTED + 1 calls the first ones fail with EINTR, any other gives at most READS_PART bytes, and
 * behind READS_BYTES bytes the calls fail with EIO. A number that is not given, or 0, sets nothing. */
#include <errno.h>
#include <stdlib.h>
#include <sys/syscall.h>
#include <sys/types.h>
#include <unistd.h>

static size_t number(const char *name) {
    const char *text = getenv(name);
    return text ? strtoul(text, NULL, 10) : 0;
}

ssize_t read(int fd, void *buf, size_t count) {
    static size_t calls, bytes;
    size_t interrupted = number("READS_INTERRUPTED"), part = number("READS_PART"), most = number("READS_BYTES");
    if (calls++ % (interrupted + 1) < interrupted) {
        errno = EINTR;
        return -1;
    }
    if (most > 0 && bytes >= most) {
        errno = EIO;
        return -1;
    }
    if (part > 0 && count > part)
        count = part;
    if (most > 0 && count > most - bytes)
        count = most - bytes;
    ssize_t got = syscall(SYS_read, fd, buf, count);
    if (got > 0)
        bytes += (size_t)got;
    return got;
}
