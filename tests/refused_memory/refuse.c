/* Preloaded: one call for memory is refused, the one whose number stands in REFUSED_CALL, counted from 1. Where REFUSED_NOTE
   names a file, that is there then, so that whoever sweeps knows when the calls have come to their end. Where LEFT_BLOCKS is
   set, a program that ends with blocks that it did not free has the status 99. */
#include <errno.h>
#include <fcntl.h>
#include <stddef.h>
#include <stdlib.h>
#include <unistd.h>

void *__libc_malloc(size_t size);
void *__libc_realloc(void *old, size_t size);
void __libc_free(void *old);

static long blocks;

static void *taken(void *block)
{
    if (block)
        __atomic_add_fetch(&blocks, 1, __ATOMIC_RELAXED);
    return block;
}

static void note(void)
{
    const char *name = getenv("REFUSED_NOTE");
    int file = name ? open(name, O_CREAT | O_WRONLY, 0600) : -1;
    if (file >= 0)
        close(file);
}

static int is_refused(void)
{
    static long wanted = -1, calls;
    if (wanted < 0) {
        const char *word = getenv("REFUSED_CALL");
        wanted = word ? atol(word) : 0;
    }
    if (__atomic_add_fetch(&calls, 1, __ATOMIC_RELAXED) != wanted)
        return 0;
    note();
    errno = ENOMEM;
    return 1;
}

void *malloc(size_t size)
{
    return is_refused() ? NULL : taken(__libc_malloc(size));
}

void *realloc(void *old, size_t size)
{
    if (is_refused())
        return NULL;
    return old ? __libc_realloc(old, size) : taken(__libc_realloc(old, size));
}

void free(void *old)
{
    if (old)
        __atomic_sub_fetch(&blocks, 1, __ATOMIC_RELAXED);
    __libc_free(old);
}

__attribute__((destructor)) static void look_for_blocks(void)
{
    if (getenv("LEFT_BLOCKS") && __atomic_load_n(&blocks, __ATOMIC_RELAXED))
        _exit(99);
}
