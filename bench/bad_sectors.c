/* Preloaded by bench/rebuild. Reads of the file BAD_IMAGE fail where they meet one of BAD_SECTORS sectors, which lie evenly over its
   bytes from BAD_FROM on. */
#define _GNU_SOURCE
#include <errno.h>
#include <stdlib.h>
#include <sys/stat.h>
#include <sys/syscall.h>
#include <sys/types.h>
#include <unistd.h>

enum { SECTOR = 512 };

static struct stat bad;
static off_t from, step;

__attribute__((constructor)) static void begin(void)
{
    const char *image = getenv("BAD_IMAGE"), *first = getenv("BAD_FROM"), *count = getenv("BAD_SECTORS");
    if (!image || !first || !count || atoll(count) < 1 || stat(image, &bad))
        abort();
    from = atoll(first);
    step = (bad.st_size - from) / SECTOR / atoll(count) * SECTOR;
    if (step < SECTOR)
        abort();
}

/* Whether the last bad sector that begins before the end of a read ends after its beginning. */
static int is_bad(int fd, size_t size, off_t place)
{
    struct stat here;
    off_t last = place + (off_t)size - 1 - from;
    if (last < 0 || fstat(fd, &here) || here.st_ino != bad.st_ino || here.st_dev != bad.st_dev)
        return 0;
    return from + last / step * step + SECTOR > place;
}

ssize_t pread64(int fd, void *bytes, size_t size, off_t place)
{
    if (is_bad(fd, size, place)) {
        errno = EIO;
        return -1;
    }
    return syscall(SYS_pread64, fd, bytes, size, place);
}

ssize_t pread(int fd, void *bytes, size_t size, off_t place)
{
    return pread64(fd, bytes, size, place);
}

/* ddrescue seeks and then reads. */
ssize_t read(int fd, void *bytes, size_t size)
{
    off_t place = lseek(fd, 0, SEEK_CUR);
    if (place >= 0 && is_bad(fd, size, place)) {
        errno = EIO;
        return -1;
    }
    return syscall(SYS_read, fd, bytes, size);
}
