/* Preloaded: before a process reads standard input from the place HELD_AT on, it stops itself, once. Whoever holds it sends SIGCONT. Where
   HELD_FAILS is set that read, and each after it, fails as on a bad disk. */
#define _GNU_SOURCE
#include <errno.h>
#include <signal.h>
#include <stdlib.h>
#include <sys/syscall.h>
#include <unistd.h>

ssize_t read(int fd, void *bytes, size_t size)
{
    static int is_held;
    const char *place = getenv("HELD_AT");
    if (fd == STDIN_FILENO && place && lseek(fd, 0, SEEK_CUR) >= atoll(place)) {
        if (!is_held) {
            is_held = 1;
            syscall(SYS_kill, getpid(), SIGSTOP);
        }
        if (getenv("HELD_FAILS")) {
            errno = EIO;
            return -1;
        }
    }
    return syscall(SYS_read, fd, bytes, size);
}
