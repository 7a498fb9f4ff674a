/* Preloaded: each write to a place in a file and each wait for the disk is a line of the file that CALLS_LOG names, and the
   call whose number stands in FAILED_CALL, counted from 1, fails as on a bad disk and does nothing. */
#define _GNU_SOURCE
#include <errno.h>
#include <fcntl.h>
#include <stdio.h>
#include <stdlib.h>
#include <sys/syscall.h>
#include <sys/types.h>
#include <unistd.h>

static int is_failed(const char *call, int fd)
{
    static long calls;
    const char *path = getenv("CALLS_LOG"), *wanted = getenv("FAILED_CALL");
    char line[64];
    int size = snprintf(line, sizeof line, "%s %d\n", call, fd);
    int log = path ? open(path, O_WRONLY | O_APPEND | O_CREAT, 0666) : -1;
    if (log < 0 || write(log, line, size) != size)
        abort();
    close(log);
    if (++calls != (wanted ? atol(wanted) : 0))
        return 0;
    errno = EIO;
    return 1;
}

ssize_t pwrite(int fd, const void *bytes, size_t size, off_t place)
{
    return is_failed("write", fd) ? -1 : syscall(SYS_pwrite64, fd, bytes, size, place);
}

int fdatasync(int fd)
{
    return is_failed("sync", fd) ? -1 : syscall(SYS_fdatasync, fd);
}

int fsync(int fd)
{
    return is_failed("sync", fd) ? -1 : syscall(SYS_fsync, fd);
}
