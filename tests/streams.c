/*
 * For tests/card.sh and tests/inventory.sh: reads and writes that a program does not expect.
 *
 * Loaded before a program (LD_PRELOAD), it answers the program's own read and write by a fixed round: interrupted,
 * not ready, one byte, some bytes, all. With STREAMS=full, write fails for good after ten lines, or after so many calls
 * as STREAMS_WRITES says: the device is full.
 */
#define _GNU_SOURCE
#include <errno.h>
#include <stdlib.h>
#include <string.h>
#include <sys/syscall.h>
#include <unistd.h>

static unsigned long turns[2];

/* What call number n of a kind may move of these bytes: 0 where it fails. */
static size_t allowed(unsigned long n, size_t length)
{
    static const int errors[] = {EINTR, EAGAIN};
    switch (n % 5) {
    case 0:
    case 1:
        errno = errors[n % 5];
        return 0;
    case 2:
        return length < 1 ? length : 1;
    case 3:
        return length < 7 ? length : 7;
    default:
        return length;
    }
}

/* How many calls of write there are before the device is full. */
static unsigned long writes_before_full(void)
{
    const char *said = getenv("STREAMS_WRITES");
    return said == NULL ? 20 : strtoul(said, NULL, 10);
}

ssize_t read(int fd, void *bytes, size_t length)
{
    size_t most = fd == 0 ? allowed(turns[0]++, length) : length;
    if (most == 0 && length != 0) {
        return -1;
    }
    return syscall(SYS_read, fd, bytes, most);
}

ssize_t write(int fd, const void *bytes, size_t length)
{
    const char *kind = getenv("STREAMS");
    size_t most = fd == 1 ? allowed(turns[1]++, length) : length;
    if (fd == 1 && kind != NULL && strcmp(kind, "full") == 0 && turns[1] > writes_before_full()) {
        errno = ENOSPC;
        return -1;
    }
    if (most == 0 && length != 0) {
        return -1;
    }
    return syscall(SYS_write, fd, bytes, most);
}
