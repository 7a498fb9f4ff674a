/* Preloaded: as the file that EXCHANGED names is opened for the first time, the one of that name with .other at its end takes its
   place. What was asked of the name before was of the file that it had then. */
#define _GNU_SOURCE
#include <fcntl.h>
#include <stdarg.h>
#include <stdio.h>
#include <stdlib.h>
#include <string.h>
#include <sys/syscall.h>
#include <sys/types.h>
#include <unistd.h>

int openat(int folder, const char *path, int how, ...)
{
    const char *name = getenv("EXCHANGED");
    char other[4096];
    va_list words;
    mode_t mode;
    va_start(words, how);
    mode = how & (O_CREAT | O_TMPFILE) ? va_arg(words, mode_t) : 0;
    va_end(words);
    if (name && !strcmp(path, name)) {
        snprintf(other, sizeof other, "%s.other", name);
        /* The second time there is none. */
        (void)!rename(other, name);
    }
    return syscall(SYS_openat, folder, path, how, mode);
}

int open(const char *path, int how, ...)
{
    va_list words;
    mode_t mode;
    va_start(words, how);
    mode = how & (O_CREAT | O_TMPFILE) ? va_arg(words, mode_t) : 0;
    va_end(words);
    return openat(AT_FDCWD, path, how, mode);
}
