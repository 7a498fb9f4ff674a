/* Preloaded: a system that forgets what a disk refused. The image A.img is what the system shows. Beside it A.img.disk is what
   its disk has, and A.img.dirty has a line for each write that no sync has brought there yet: its place and its size. A sync
   brings these writes to the disk. Syncs that have writes to bring are counted from 1. The one whose number FAILED_SYNC has
   answers EIO and forgets its writes, as ext4 and XFS do: the system still shows what they wrote, and later syncs answer that
   all is well. With FAILED_AFTER=1 each later one fails too. Each sync that is counted is a line of SYNCS_LOG. */
#define _GNU_SOURCE
#include <errno.h>
#include <fcntl.h>
#include <stdio.h>
#include <stdlib.h>
#include <string.h>
#include <sys/syscall.h>
#include <sys/types.h>
#include <unistd.h>

/* The path of the file beside the image of a descriptor; 0 if the descriptor is of no image. */
static int beside(int fd, const char *name, char *path, size_t room)
{
    char link[64];
    ssize_t size;
    snprintf(link, sizeof link, "/proc/self/fd/%d", fd);
    size = readlink(link, path, room - strlen(name) - 1);
    if (size < 4 || strncmp(path + size - 4, ".img", 4))
        return 0;
    strcpy(path + size, name);
    return 1;
}

static long number_in(const char *name)
{
    const char *word = getenv(name);
    return word ? atol(word) : 0;
}

static int opened(const char *path, int how)
{
    int file = open(path, how, 0666);
    if (file < 0)
        abort();
    return file;
}

static void note(const char *path, const char *line)
{
    int file = opened(path, O_WRONLY | O_APPEND | O_CREAT);
    if (write(file, line, strlen(line)) != (ssize_t)strlen(line))
        abort();
    close(file);
}

ssize_t pwrite(int fd, const void *bytes, size_t size, off_t place)
{
    char path[4096], line[64];
    ssize_t done = syscall(SYS_pwrite64, fd, bytes, size, place);
    if (done > 0 && beside(fd, ".dirty", path, sizeof path)) {
        snprintf(line, sizeof line, "%lld %zd\n", (long long)place, done);
        note(path, line);
    }
    return done;
}

ssize_t pwrite64(int fd, const void *bytes, size_t size, off_t place)
{
    return pwrite(fd, bytes, size, place);
}

/* Brings a write to the disk: what the system shows there now. */
static void bring(int from, int to, long long place, size_t size)
{
    char *bytes = malloc(size);
    if (!bytes || pread(from, bytes, size, place) != (ssize_t)size)
        abort();
    if (syscall(SYS_pwrite64, to, bytes, size, place) != (long)size)
        abort();
    free(bytes);
}

static int is_failed(void)
{
    static long syncs;
    long wanted = number_in("FAILED_SYNC"), number = ++syncs;
    const char *log = getenv("SYNCS_LOG");
    if (log)
        note(log, "sync\n");
    return number == wanted || (wanted && number > wanted && number_in("FAILED_AFTER"));
}

static int sync_of(int fd)
{
    char path[4096], disk[4096], image[4096];
    long long place;
    size_t size;
    FILE *dirty;
    int from, to, failed;
    if (!beside(fd, ".dirty", path, sizeof path))
        return 0;
    dirty = fopen(path, "r+");
    if (!dirty)
        return 0;
    if (fscanf(dirty, "%lld %zu\n", &place, &size) != 2) {
        fclose(dirty);
        return 0;
    }
    failed = is_failed();
    beside(fd, ".disk", disk, sizeof disk);
    beside(fd, "", image, sizeof image);
    from = opened(image, O_RDONLY);
    to = opened(disk, O_WRONLY);
    do {
        if (!failed)
            bring(from, to, place, size);
    } while (fscanf(dirty, "%lld %zu\n", &place, &size) == 2);
    close(from);
    close(to);
    if (ftruncate(fileno(dirty), 0))
        abort();
    fclose(dirty);
    if (failed)
        errno = EIO;
    return failed ? -1 : 0;
}

int fdatasync(int fd)
{
    return sync_of(fd);
}

int fsync(int fd)
{
    return sync_of(fd);
}
