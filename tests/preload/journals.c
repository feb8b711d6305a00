/* A library for LD_PRELOAD that keeps each batch that a program writes to a journal, also where the journal is given up later.
 *
 *   JOURNALS_KEPT=PATH   appends each batch to PATH: the length of its body in 4 bytes, high byte first, and the body
 *
 * A batch is kept before it is written, so one that a kill cut off in PATH was not written. Files are journals by their names: journal0, journal1.
 */
#define _GNU_SOURCE
#include <dlfcn.h>
#include <errno.h>
#include <fcntl.h>
#include <stdarg.h>
#include <stdio.h>
#include <stdlib.h>
#include <string.h>
#include <sys/stat.h>
#include <sys/syscall.h>
#include <unistd.h>

#define MOST_FILES 1024
/* Where batches begin. What is written before that is the front of a journal. */
#define BATCHES_AT 17

static char is_journal[MOST_FILES];

#define REAL(name) ((__typeof__(&name))dlsym(RTLD_NEXT, #name))

int open(const char *path, int flags, ...)
{
    va_list words;
    va_start(words, flags);
    mode_t mode = va_arg(words, mode_t);
    va_end(words);
    int fd = REAL(open)(path, flags, mode);
    const char *name = strrchr(path, '/');
    if (fd >= 0 && fd < MOST_FILES)
        is_journal[fd] = name && (!strcmp(name, "/journal0") || !strcmp(name, "/journal1"));
    return fd;
}

ssize_t pwrite(int fd, const void *data, size_t len, off_t at)
{
    const char *path = getenv("JOURNALS_KEPT");
    /* The length and the body of a batch, and the next gate; a gate has one byte. */
    if (path && fd >= 0 && fd < MOST_FILES && is_journal[fd] && at > BATCHES_AT && len > 5) {
        int kept = (int)syscall(SYS_openat, AT_FDCWD, path, O_WRONLY | O_APPEND | O_CREAT, 0600);
        if (kept < 0 || syscall(SYS_write, kept, data, len - 1) != (long)len - 1)
            abort();
        syscall(SYS_close, kept);
    }
    return REAL(pwrite)(fd, data, len, at);
}
