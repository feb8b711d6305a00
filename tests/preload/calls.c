/* A library for LD_PRELOAD that writes down the system's calls of a program, and lets them fail or stop it.
 *
 *   CALLS_LOG=PATH      appends a line for each call, as it returned
 *   CALLS_FAIL=N        the N-th call fails with EIO
 *   CALLS_FAIL_FROM=N   the N-th pwrite, and each one after it, fails with ENOSPC
 *   CALLS_KILL=N        the program is killed as it makes the N-th call
 *   CALLS_STOP=N        it is stopped there, until it gets SIGCONT
 *   CALLS_NO_SYNC=1     the file system knows no fsync, but for scratch files: it answers EINVAL
 *   CALLS_READ_ONLY=1   files that are opened for writing, or to be made, answer EROFS
 *   CALLS_SHORT=N       a read or write of a standard stream takes N bytes at most
 *   CALLS_ROOM=N        standard output takes N bytes in all, and then fails with ENOSPC
 *   CALLS_INTERRUPT=N   each N-th read or write of a standard stream is interrupted, with EINTR, and does nothing
 *   CALLS_TICK=1        a signal comes each millisecond, and interrupts a call that waits
 *
 * Calls are counted from 1: open, mkdir, unlink, statx, flock, ftruncate, fsync, pread, pwrite, read, write.
 */
#define _GNU_SOURCE
#include <dlfcn.h>
#include <errno.h>
#include <fcntl.h>
#include <signal.h>
#include <stdarg.h>
#include <stdio.h>
#include <stdlib.h>
#include <string.h>
#include <sys/stat.h>
#include <sys/syscall.h>
#include <sys/time.h>
#include <sys/types.h>
#include <unistd.h>

#define MOST_FILES 64

static char names[MOST_FILES][256];
static long calls, writes;

static long number(const char *name)
{
    const char *text = getenv(name);
    return text ? atol(text) : 0;
}

/* Writes a line to the log, by calls of its own. */
static void note(const char *form, ...)
{
    const char *path = getenv("CALLS_LOG");
    if (!path)
        return;
    char line[512];
    va_list words;
    va_start(words, form);
    int len = vsnprintf(line, sizeof line - 1, form, words);
    va_end(words);
    if (len > (int)sizeof line - 2)
        len = sizeof line - 2;
    line[len] = '\n';
    int saved = errno;
    int log = (int)syscall(SYS_openat, AT_FDCWD, path, O_WRONLY | O_APPEND | O_CREAT, 0600);
    if (log >= 0) {
        syscall(SYS_write, log, line, (size_t)len + 1);
        syscall(SYS_close, log);
    }
    errno = saved;
}

static const char *name_of(int fd)
{
    static const char *streams[] = {"stdin", "stdout", "stderr"};
    if (fd >= 0 && fd < MOST_FILES && names[fd][0])
        return names[fd];
    return fd >= 0 && fd < 3 ? streams[fd] : "?";
}

/* Counts a call. Whether it is to fail, with errno set. */
static int fails(int is_write)
{
    calls++;
    if (is_write)
        writes++;
    if (calls == number("CALLS_KILL"))
        kill(getpid(), SIGKILL);
    if (calls == number("CALLS_STOP"))
        kill(getpid(), SIGSTOP);
    if (calls == number("CALLS_FAIL")) {
        errno = EIO;
        return 1;
    }
    long from = number("CALLS_FAIL_FROM");
    if (is_write && from && writes >= from) {
        errno = ENOSPC;
        return 1;
    }
    return 0;
}

static void nothing(int signal)
{
    (void)signal;
}

/* Has a signal come each millisecond, after which no call is made again by the system itself. */
__attribute__((constructor)) static void tick(void)
{
    if (!number("CALLS_TICK"))
        return;
    struct sigaction action = {.sa_handler = nothing};
    sigaction(SIGALRM, &action, NULL);
    struct itimerval each = {{0, 1000}, {0, 1000}};
    setitimer(ITIMER_REAL, &each, NULL);
}

/* Whether a call of a standard stream is interrupted, with errno set. */
static int is_interrupted(int fd)
{
    static long made;
    long each = number("CALLS_INTERRUPT");
    if (fd > 2 || !each || ++made % each)
        return 0;
    errno = EINTR;
    return 1;
}

/* How many bytes a call of a standard stream takes of so many. */
static size_t shortened(int fd, size_t len)
{
    size_t most = (size_t)number("CALLS_SHORT");
    return fd <= 2 && most && len > most ? most : len;
}

static size_t printed;

/* How many bytes a write takes of so many, as long as standard output has room; less than 0 where it has none, with errno set. */
static ssize_t roomy(int fd, size_t len)
{
    const char *text = getenv("CALLS_ROOM");
    if (fd != 1 || !text)
        return (ssize_t)shortened(fd, len);
    size_t room = (size_t)atol(text) - printed;
    if (room == 0 && len > 0) {
        errno = ENOSPC;
        return -1;
    }
    len = len < room ? len : room;
    printed += len;
    return (ssize_t)len;
}

#define REAL(name) ((__typeof__(&name))dlsym(RTLD_NEXT, #name))

int open(const char *path, int flags, ...)
{
    va_list words;
    va_start(words, flags);
    mode_t mode = va_arg(words, mode_t);
    va_end(words);
    int fd = -1;
    if (number("CALLS_READ_ONLY") && (flags & (O_WRONLY | O_RDWR | O_CREAT))) {
        calls++;
        errno = EROFS;
    } else if (!fails(0)) {
        fd = REAL(open)(path, flags, mode);
    }
    if (fd >= 0 && fd < MOST_FILES)
        snprintf(names[fd], sizeof names[fd], "%s", path);
    if (flags & O_CREAT)
        note("open %s make %o = %d", path, (unsigned)mode, fd);
    else
        note("open %s %s = %d", path, flags & (O_WRONLY | O_RDWR) ? "change" : "look", fd);
    return fd;
}

int close(int fd)
{
    note("close %s", name_of(fd));
    if (fd >= 0 && fd < MOST_FILES)
        names[fd][0] = 0;
    return REAL(close)(fd);
}

int mkdir(const char *path, mode_t mode)
{
    int result = number("CALLS_READ_ONLY") ? (calls++, errno = EROFS, -1) : fails(0) ? -1 : REAL(mkdir)(path, mode);
    note("mkdir %s = %d", path, result);
    return result;
}

int unlink(const char *path)
{
    int result = fails(0) ? -1 : REAL(unlink)(path);
    note("unlink %s = %d", path, result);
    return result;
}

int statx(int folder, const char *restrict path, int flags, unsigned mask, struct statx *restrict out)
{
    int result = fails(0) ? -1 : REAL(statx)(folder, path, flags, mask, out);
    note("statx %s = %d", path[0] ? path : name_of(folder), result);
    return result;
}

int flock(int fd, int how)
{
    int result = fails(0) ? -1 : REAL(flock)(fd, how);
    note("flock %s %d = %d", name_of(fd), how, result);
    return result;
}

int ftruncate(int fd, off_t len)
{
    int result = fails(0) ? -1 : REAL(ftruncate)(fd, len);
    note("ftruncate %s %ld = %d", name_of(fd), (long)len, result);
    return result;
}

int fsync(int fd)
{
    int result = fails(0) ? -1 : REAL(fsync)(fd);
    if (number("CALLS_NO_SYNC") && result == 0 && !strstr(name_of(fd), "hgd-")) {
        errno = EINVAL;
        result = -1;
    }
    note("fsync %s = %d", name_of(fd), result);
    return result;
}

ssize_t pread(int fd, void *buffer, size_t len, off_t at)
{
    ssize_t result = fails(0) ? -1 : REAL(pread)(fd, buffer, len, at);
    note("pread %s %ld %zu = %zd", name_of(fd), (long)at, len, result);
    return result;
}

ssize_t pwrite(int fd, const void *buffer, size_t len, off_t at)
{
    ssize_t result = fails(1) ? -1 : REAL(pwrite)(fd, buffer, len, at);
    note("pwrite %s %ld %zu = %zd", name_of(fd), (long)at, len, result);
    return result;
}

ssize_t read(int fd, void *buffer, size_t len)
{
    ssize_t result = is_interrupted(fd) || fails(0) ? -1 : REAL(read)(fd, buffer, shortened(fd, len));
    note("read %s = %zd", name_of(fd), result);
    return result;
}

ssize_t write(int fd, const void *buffer, size_t len)
{
    ssize_t taken = is_interrupted(fd) || fails(0) ? -1 : roomy(fd, len);
    ssize_t result = taken < 0 ? -1 : REAL(write)(fd, buffer, (size_t)taken);
    int shown = len > 200 ? 200 : (int)len;
    while (shown > 0 && ((const char *)buffer)[shown - 1] == '\n')
        shown--;
    note("write %s %.*s = %zd", name_of(fd), shown, (const char *)buffer, result);
    return result;
}

ssize_t __write(int fd, const void *buffer, size_t len)
{
    return write(fd, buffer, len);
}
