/* Makes reads and writes of a program fail, to be loaded before the C library (LD_PRELOAD).
 *   FAIL=read FAIL_AT=2 FAIL_WITH=5        the second read of standard input fails with errno 5
 *   FAIL=write FAIL_AT=1 FAIL_WITH=4       the first write to standard output is interrupted
 *   FAIL=short                             each write takes one byte
 *   FAIL=file ..                           as read, of every other file */
#define _GNU_SOURCE
#include <errno.h>
#include <stdlib.h>
#include <string.h>
#include <sys/syscall.h>
#include <unistd.h>

static int fails(const char *what)
{
    static int calls;
    const char *kind = getenv("FAIL"), *at = getenv("FAIL_AT"), *with = getenv("FAIL_WITH");
    if (!kind || strcmp(kind, what) || !at || !with || ++calls != atoi(at))
        return 0;
    errno = atoi(with);
    return 1;
}

ssize_t read(int fd, void *buffer, size_t size)
{
    if (fails(fd == 0 ? "read" : "file"))
        return -1;
    return syscall(SYS_read, fd, buffer, size);
}

ssize_t write(int fd, const void *buffer, size_t size)
{
    const char *kind = getenv("FAIL");
    if (fd == 1 && fails("write"))
        return -1;
    if (fd == 1 && kind && !strcmp(kind, "short") && size > 1)
        size = 1;
    return syscall(SYS_write, fd, buffer, size);
}
