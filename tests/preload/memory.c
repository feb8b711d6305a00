/* A library for LD_PRELOAD that refuses a program one allocation, or all from one on.
 *
 *   MEMORY_REFUSE=N   the N-th allocation, counted from 1, finds no memory
 *   MEMORY_ONWARD=1   neither does any that follows it
 *   MEMORY_LAST=N     neither do those that follow it up to the N-th
 *   MEMORY_LEAST=N    allocations of fewer bytes are not counted, and find memory
 *   MEMORY_COUNT=PATH where the program ends, the number of its allocations is written there
 *
 * Allocations are malloc, calloc, realloc to another place or size, aligned_alloc and posix_memalign.
 */
#define _GNU_SOURCE
#include <errno.h>
#include <fcntl.h>
#include <limits.h>
#include <stdio.h>
#include <stdlib.h>
#include <sys/syscall.h>
#include <unistd.h>

extern void *__libc_malloc(size_t size);
extern void *__libc_calloc(size_t count, size_t size);
extern void *__libc_realloc(void *former, size_t size);
extern void *__libc_memalign(size_t align, size_t size);

static long made, first = -1, last, least;

static int is_refused(size_t size)
{
    if (first < 0) {
        const char *text = getenv("MEMORY_REFUSE"), *end = getenv("MEMORY_LAST"), *size_text = getenv("MEMORY_LEAST");
        least = size_text ? atol(size_text) : 0;
        long number = text ? atol(text) : 0;
        last = getenv("MEMORY_ONWARD") ? LONG_MAX : end ? atol(end) : number;
        first = number;
    }
    if (size < (size_t)least)
        return 0;
    /* Threads count together. */
    long number = __atomic_add_fetch(&made, 1, __ATOMIC_RELAXED);
    if (first == 0 || number < first || number > last)
        return 0;
    errno = ENOMEM;
    return 1;
}

void *malloc(size_t size)
{
    return is_refused(size) ? NULL : __libc_malloc(size);
}

void *calloc(size_t count, size_t size)
{
    return is_refused(count * size) ? NULL : __libc_calloc(count, size);
}

void *realloc(void *former, size_t size)
{
    return is_refused(size) ? NULL : __libc_realloc(former, size);
}

void *aligned_alloc(size_t align, size_t size)
{
    return is_refused(size) ? NULL : __libc_memalign(align, size);
}

int posix_memalign(void **block, size_t align, size_t size)
{
    if (is_refused(size))
        return ENOMEM;
    *block = __libc_memalign(align, size);
    return *block ? 0 : ENOMEM;
}

__attribute__((destructor)) static void tell(void)
{
    const char *path = getenv("MEMORY_COUNT");
    if (!path)
        return;
    char line[32];
    int len = snprintf(line, sizeof line, "%ld\n", made);
    int file = (int)syscall(SYS_openat, AT_FDCWD, path, O_WRONLY | O_CREAT | O_TRUNC, 0600);
    if (file >= 0) {
        syscall(SYS_write, file, line, (size_t)len);
        syscall(SYS_close, file);
    }
}

/* A program with threads ends by this call, and then no destructor is run. */
void _exit(int status)
{
    tell();
    for (;;)
        syscall(SYS_exit_group, status);
}
