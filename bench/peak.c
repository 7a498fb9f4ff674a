/* Runs a command without its output, and prints its status, its nanoseconds and its peak memory in KiB. A small program of its
   own: a process counts the memory of the one that it was forked from. */
#include <fcntl.h>
#include <stdio.h>
#include <sys/resource.h>
#include <sys/wait.h>
#include <time.h>
#include <unistd.h>

static long long now(void)
{
    struct timespec t;
    clock_gettime(CLOCK_MONOTONIC, &t);
    return t.tv_sec * 1000000000LL + t.tv_nsec;
}

int main(int count, char **words)
{
    struct rusage used;
    int status = -1;
    long long begun = now();
    pid_t child;
    if (count < 2)
        return 2;
    child = fork();
    if (child == 0) {
        int null = open("/dev/null", O_RDWR);
        dup2(null, 0);
        dup2(null, 1);
        dup2(null, 2);
        execv(words[1], words + 1);
        _exit(127);
    }
    if (child < 0 || wait4(child, &status, 0, &used) != child)
        return 1;
    printf("%d %lld %ld\n", status, now() - begun, used.ru_maxrss);
    return 0;
}
