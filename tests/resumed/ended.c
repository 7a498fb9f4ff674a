/* Preloaded: counts the calls by which a process makes, writes, cuts, syncs, renames or removes files, from 1, but for writes to standard
   output and standard error. At the one whose number stands in ENDED_CALL something happens, by ENDED_HOW:

       before  the process is killed, and the call has done nothing
       half    the process is killed, and the first half of a write's sectors is written
       after   the process is killed, and the call is done
       fail    the call fails as on a bad disk, once, and has done nothing
       stop    the process stops itself before it, and goes on once it gets SIGCONT

   Each of these calls is a line of the file that ENDED_LOG names. Where ENDED_STEP is set, the monotonic clock goes on by so many
   milliseconds each time that it is asked, and not otherwise. */
#define _GNU_SOURCE
#include <errno.h>
#include <fcntl.h>
#include <signal.h>
#include <stdarg.h>
#include <stdio.h>
#include <stdlib.h>
#include <string.h>
#include <sys/syscall.h>
#include <sys/types.h>
#include <time.h>
#include <unistd.h>

enum { GO_ON, DO_HALF, FAIL };

static void end(void)
{
    syscall(SYS_kill, getpid(), SIGKILL);
}

static int is(const char *word)
{
    const char *how = getenv("ENDED_HOW");
    return how && !strcmp(how, word);
}

static int is_after;

static int turn(const char *call)
{
    static long count;
    const char *number = getenv("ENDED_CALL");
    const char *path = getenv("ENDED_LOG");
    char line[64];
    int log = path ? (int)syscall(SYS_openat, AT_FDCWD, path, O_WRONLY | O_APPEND) : -1;
    count += 1;
    is_after = 0;
    if (log >= 0) {
        int length = snprintf(line, sizeof line, "%s\n", call);
        if (syscall(SYS_write, log, line, length) != length)
            abort();
        close(log);
    }
    if (!number || atol(number) != count)
        return GO_ON;
    if (is("before"))
        end();
    if (is("stop"))
        syscall(SYS_kill, getpid(), SIGSTOP);
    is_after = is("after");
    return is("half") ? DO_HALF : is("fail") ? FAIL : GO_ON;
}

static long done(long answer)
{
    if (is_after)
        end();
    if (answer < 0 && answer > -4096) {
        errno = -answer;
        return -1;
    }
    return answer;
}

static long raw(long number, long a, long b, long c, long d)
{
    long answer = syscall(number, a, b, c, d);
    return answer < 0 ? -errno : answer;
}

static int failed(void)
{
    errno = EIO;
    return -1;
}

ssize_t pwrite64(int fd, const void *bytes, size_t size, off_t place)
{
    switch (turn("write")) {
    case DO_HALF:
        raw(SYS_pwrite64, fd, (long)bytes, size / 1024 * 512, place);
        end();
    case FAIL:
        return failed();
    }
    return done(raw(SYS_pwrite64, fd, (long)bytes, size, place));
}

ssize_t pwrite(int fd, const void *bytes, size_t size, off_t place)
{
    return pwrite64(fd, bytes, size, place);
}

static int change(const char *call, long number, long a, long b)
{
    switch (turn(call)) {
    case DO_HALF:
        end();
    case FAIL:
        return failed();
    }
    return done(raw(number, a, b, 0, 0));
}

int ftruncate64(int fd, off_t size)
{
    return change("cut", SYS_ftruncate, fd, size);
}

int ftruncate(int fd, off_t size)
{
    return ftruncate64(fd, size);
}

int fdatasync(int fd)
{
    return change("sync", SYS_fdatasync, fd, 0);
}

int fsync(int fd)
{
    return change("sync", SYS_fsync, fd, 0);
}

int rename(const char *from, const char *to)
{
    return change("rename", SYS_rename, (long)from, (long)to);
}

int unlink(const char *path)
{
    return change("remove", SYS_unlink, (long)path, 0);
}

int clock_gettime(clockid_t clock, struct timespec *time)
{
    static long long milliseconds = 1000;
    const char *step = getenv("ENDED_STEP");
    if (!step || clock != CLOCK_MONOTONIC)
        return (int)done(raw(SYS_clock_gettime, clock, (long)time, 0, 0));
    milliseconds += atol(step);
    time->tv_sec = milliseconds / 1000;
    time->tv_nsec = milliseconds % 1000 * 1000000;
    return 0;
}

/* Only a call that may make a file counts. */
static int make(int folder, const char *path, int flags, mode_t mode)
{
    if (flags & O_CREAT) {
        switch (turn("make")) {
        case DO_HALF:
            end();
        case FAIL:
            return failed();
        }
        return done(raw(SYS_openat, folder, (long)path, flags, mode));
    }
    is_after = 0;
    return done(raw(SYS_openat, folder, (long)path, flags, mode));
}

int open64(const char *path, int flags, ...)
{
    va_list rest;
    mode_t mode;
    va_start(rest, flags);
    mode = flags & O_CREAT ? va_arg(rest, mode_t) : 0;
    va_end(rest);
    return make(AT_FDCWD, path, flags, mode);
}

int open(const char *path, int flags, ...)
{
    va_list rest;
    mode_t mode;
    va_start(rest, flags);
    mode = flags & O_CREAT ? va_arg(rest, mode_t) : 0;
    va_end(rest);
    return make(AT_FDCWD, path, flags, mode);
}

int openat64(int folder, const char *path, int flags, ...)
{
    va_list rest;
    mode_t mode;
    va_start(rest, flags);
    mode = flags & O_CREAT ? va_arg(rest, mode_t) : 0;
    va_end(rest);
    return make(folder, path, flags, mode);
}

int openat(int folder, const char *path, int flags, ...)
{
    va_list rest;
    mode_t mode;
    va_start(rest, flags);
    mode = flags & O_CREAT ? va_arg(rest, mode_t) : 0;
    va_end(rest);
    return make(folder, path, flags, mode);
}
