/* Loaded before the C library: refuses one allocation of a program, and leaves a file where it did; and counts the
   blocks that are taken and not given back. REFUSED_ALLOCATION is its number, from 1, and REFUSED_MARK the file's
   path. Who has `blocks_taken` as a weak name is told how many blocks are taken now, and by `blocks_asked` how
   often one was asked for. */
#define _GNU_SOURCE
#include <errno.h>
#include <fcntl.h>
#include <stdatomic.h>
#include <stdlib.h>
#include <unistd.h>

/* The C library's own, by the names under which it has them too. */
void *__libc_malloc(size_t size);
void *__libc_calloc(size_t count, size_t size);
void *__libc_memalign(size_t alignment, size_t size);
void *__libc_realloc(void *block, size_t size);
void __libc_free(void *block);

static atomic_long asked, taken;

long blocks_taken(void)
{
    return atomic_load(&taken);
}

long blocks_asked(void)
{
    return atomic_load(&asked);
}

static int refused(void)
{
    long number = atomic_fetch_add(&asked, 1) + 1;
    const char *wanted = getenv("REFUSED_ALLOCATION"), *mark = getenv("REFUSED_MARK");
    int file;

    if (wanted == NULL || mark == NULL || number != atol(wanted))
        return 0;
    file = open(mark, O_CREAT | O_WRONLY, 0600);
    if (file >= 0)
        close(file);
    errno = ENOMEM;
    return 1;
}

static void *counted(void *block)
{
    if (block != NULL)
        atomic_fetch_add(&taken, 1);
    return block;
}

void *malloc(size_t size)
{
    return refused() ? NULL : counted(__libc_malloc(size));
}

void *calloc(size_t count, size_t size)
{
    return refused() ? NULL : counted(__libc_calloc(count, size));
}

void *aligned_alloc(size_t alignment, size_t size)
{
    return refused() ? NULL : counted(__libc_memalign(alignment, size));
}

void *realloc(void *block, size_t size)
{
    void *grown = refused() ? NULL : __libc_realloc(block, size);

    if (block == NULL)
        counted(grown);
    else if (size == 0 && grown == NULL)
        atomic_fetch_sub(&taken, 1);
    return grown;
}

void free(void *block)
{
    if (block != NULL)
        atomic_fetch_sub(&taken, 1);
    __libc_free(block);
}
