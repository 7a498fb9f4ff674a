/* Preloaded: counts the calls that write to an image (a file whose name ends with .img) or wait for its disk, from 1. At the
   one whose number stands in STOPPED_CALL something happens, by STOPPED_HOW:

       before  the process ends, and the call has done nothing
       half    the process ends, and the first half of the call's sectors is written
       fail    the call fails as on a bad disk, and has done nothing
       torn    it fails, and the first half of its sectors is written
       junk    it fails, and other bytes are written to all of its sectors
       short   it writes the first half of its sectors and says so

   Of the reads of images the one whose number stands in FAILED_READ fails, and so does each that meets the bytes of the image
   FAILED_IMAGE from FAILED_FROM up to FAILED_TO, or those of a line of the file FAILED_PLACES, which has both numbers and the
   image. Each of them first waits for READ_WAIT microseconds. Each of these calls is a line of the file that CALLS_LOG names,
   where CALLS_BYTES is set followed by the bytes of a write. No disk is waited for: what a process wrote is there once it has
   ended. */
#define _GNU_SOURCE
#include <errno.h>
#include <fcntl.h>
#include <signal.h>
#include <stdio.h>
#include <stdlib.h>
#include <string.h>
#include <sys/syscall.h>
#include <sys/types.h>
#include <sys/uio.h>
#include <unistd.h>

enum { SECTOR = 512, JUNK = 0xa5 };

/* The path of an image's descriptor, or none. */
static const char *image_of(int fd)
{
    static _Thread_local char path[4096];
    char link[64];
    ssize_t size;
    snprintf(link, sizeof link, "/proc/self/fd/%d", fd);
    size = readlink(link, path, sizeof path - 1);
    if (size < 4)
        return NULL;
    path[size] = 0;
    return strcmp(path + size - 4, ".img") ? NULL : path;
}

static void note(const char *call, const char *image, off_t place, size_t size, const void *bytes)
{
    const char *path = getenv("CALLS_LOG");
    char line[4200];
    int length = snprintf(line, sizeof line, "%s %lld %zu %s\n", call, (long long)place, size, image);
    int log = path ? open(path, O_WRONLY | O_APPEND | O_CREAT, 0666) : -1;
    struct iovec parts[2] = {{line, length}, {(void *)bytes, bytes && getenv("CALLS_BYTES") ? size : 0}};
    if (log < 0)
        return;
    if (syscall(SYS_writev, log, parts, 2) != (ssize_t)(parts[0].iov_len + parts[1].iov_len))
        abort();
    close(log);
}

static long number_in(const char *name)
{
    const char *word = getenv(name);
    return word ? atol(word) : 0;
}

/* What happens to a call that writes, or NULL. */
static const char *turn(const char *call, const char *image, off_t place, size_t size, const void *bytes)
{
    static long calls;
    note(call, image, place, size, bytes);
    return __atomic_add_fetch(&calls, 1, __ATOMIC_SEQ_CST) == number_in("STOPPED_CALL") ? getenv("STOPPED_HOW") : NULL;
}

static int is(const char *how, const char *word)
{
    return !strcmp(how, word);
}

static void end(void)
{
    syscall(SYS_kill, getpid(), SIGKILL);
    abort();
}

static ssize_t fail(void)
{
    errno = EIO;
    return -1;
}

static void write_all(int fd, const char *bytes, size_t size, off_t place)
{
    while (size > 0) {
        ssize_t done = syscall(SYS_pwrite64, fd, bytes, size, place);
        if (done <= 0)
            abort();
        bytes += done;
        size -= done;
        place += done;
    }
}

static void write_junk(int fd, size_t size, off_t place)
{
    char junk[SECTOR];
    size_t at;
    memset(junk, JUNK, sizeof junk);
    for (at = 0; at < size; at += SECTOR)
        write_all(fd, junk, size - at < SECTOR ? size - at : SECTOR, place + at);
}

static ssize_t write_at(int fd, const void *bytes, size_t size, off_t place)
{
    const char *image = image_of(fd);
    const char *how = image ? turn("write", image, place, size, bytes) : NULL;
    size_t half = size / SECTOR / 2 * SECTOR;
    if (!how)
        return syscall(SYS_pwrite64, fd, bytes, size, place);
    if (is(how, "before"))
        end();
    if (is(how, "short") && half == 0)
        return syscall(SYS_pwrite64, fd, bytes, size, place);
    if (is(how, "junk"))
        write_junk(fd, size, place);
    else if (!is(how, "fail"))
        write_all(fd, bytes, half, place);
    if (is(how, "half"))
        end();
    return is(how, "short") ? (ssize_t)half : fail();
}

static ssize_t write_parts(int fd, const struct iovec *parts, int count, off_t place)
{
    size_t size = 0, at = 0;
    ssize_t done;
    char *bytes;
    int part;
    for (part = 0; part < count; part++)
        size += parts[part].iov_len;
    bytes = malloc(size ? size : 1);
    if (!bytes)
        abort();
    for (part = 0; part < count; at += parts[part++].iov_len)
        memcpy(bytes + at, parts[part].iov_base, parts[part].iov_len);
    done = write_at(fd, bytes, size, place);
    free(bytes);
    return done;
}

static ssize_t moved(int fd, ssize_t done)
{
    if (done > 0)
        lseek(fd, done, SEEK_CUR);
    return done;
}

ssize_t pwrite(int fd, const void *bytes, size_t size, off_t place)
{
    return write_at(fd, bytes, size, place);
}

ssize_t pwrite64(int fd, const void *bytes, size_t size, off_t place)
{
    return write_at(fd, bytes, size, place);
}

ssize_t pwritev(int fd, const struct iovec *parts, int count, off_t place)
{
    return image_of(fd) ? write_parts(fd, parts, count, place) : syscall(SYS_pwritev, fd, parts, count, place, 0L);
}

ssize_t pwritev64(int fd, const struct iovec *parts, int count, off_t place)
{
    return pwritev(fd, parts, count, place);
}

ssize_t write(int fd, const void *bytes, size_t size)
{
    if (!image_of(fd))
        return syscall(SYS_write, fd, bytes, size);
    return moved(fd, write_at(fd, bytes, size, lseek(fd, 0, SEEK_CUR)));
}

ssize_t writev(int fd, const struct iovec *parts, int count)
{
    if (!image_of(fd))
        return syscall(SYS_writev, fd, parts, count);
    return moved(fd, write_parts(fd, parts, count, lseek(fd, 0, SEEK_CUR)));
}

static int sync_of(int fd, long call)
{
    const char *image = image_of(fd);
    const char *how = image ? turn("sync", image, 0, 0, NULL) : NULL;
    if (!image)
        return syscall(call, fd);
    if (!how || is(how, "short"))
        return 0;
    if (is(how, "before") || is(how, "half"))
        end();
    return fail();
}

int fdatasync(int fd)
{
    return sync_of(fd, SYS_fdatasync);
}

int fsync(int fd)
{
    return sync_of(fd, SYS_fsync);
}

static int meets(off_t place, size_t size, long from, long to)
{
    return place < to && from < place + (off_t)size;
}

/* Whether these bytes of an image can't be read, as a line of FAILED_PLACES says. */
static int is_in_places(const char *image, off_t place, size_t size)
{
    const char *path = getenv("FAILED_PLACES");
    FILE *places = path ? fopen(path, "r") : NULL;
    char named[4096];
    long from, to;
    int found = 0;
    if (!places)
        return 0;
    while (!found && fscanf(places, "%ld %ld %4095[^\n]", &from, &to, named) == 3)
        found = !strcmp(named, image) && meets(place, size, from, to);
    fclose(places);
    return found;
}

static int is_bad(const char *image, off_t place, size_t size)
{
    const char *bad = getenv("FAILED_IMAGE");
    if (bad && !strcmp(bad, image) && meets(place, size, number_in("FAILED_FROM"), number_in("FAILED_TO")))
        return 1;
    return is_in_places(image, place, size);
}

static ssize_t read_at(int fd, void *bytes, size_t size, off_t place)
{
    static long calls;
    const char *image = image_of(fd);
    if (image) {
        if (number_in("READ_WAIT") > 0)
            usleep(number_in("READ_WAIT"));
        note("read", image, place, size, NULL);
        if (__atomic_add_fetch(&calls, 1, __ATOMIC_SEQ_CST) == number_in("FAILED_READ"))
            return fail();
        if (is_bad(image, place, size))
            return fail();
    }
    return syscall(SYS_pread64, fd, bytes, size, place);
}

ssize_t pread(int fd, void *bytes, size_t size, off_t place)
{
    return read_at(fd, bytes, size, place);
}

ssize_t pread64(int fd, void *bytes, size_t size, off_t place)
{
    return read_at(fd, bytes, size, place);
}
