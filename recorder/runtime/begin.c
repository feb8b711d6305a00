/* How recording begins in a process, and where it ends. */
#include <errno.h>
#include <fcntl.h>
#include <stdlib.h>
#include <sys/mman.h>
#include <sys/syscall.h>
#include <unistd.h>

#include "recorder.h"

/* What is looked at where nothing is recorded. */
static struct control no_control;
struct control *control = &no_control;

void stop_recording(void)
{
    atomic_store(&control->is_recording, false);
}

/* A page that a forked process sees as zeros. */
static struct control *make_control(void)
{
    size_t length = (size_t)sysconf(_SC_PAGESIZE);
    void *page = mmap(NULL, length, PROT_READ | PROT_WRITE, MAP_PRIVATE | MAP_ANONYMOUS, -1, 0);
    if (page == MAP_FAILED) {
        return NULL;
    }
    madvise(page, length, MADV_WIPEONFORK);
    return page;
}

/* A forked process has one thread, which may hold what the others left half made. It records nothing. */
static void in_forked_process(void)
{
    if (ring) {
        atomic_fetch_add(&ring->counts[COUNT_FORKED_PROCESSES], 1);
    }
    control = &no_control;
    self.inside = 0;
}

/* Null where hgd-record has not begun this process. The file is closed at once: a program may close all that it didn't open. */
static struct ring *open_ring(void)
{
    const char *name = getenv(RING_VARIABLE);
    int file = name && *name ? open(name, O_RDWR | O_CLOEXEC) : -1;
    if (file < 0) {
        return NULL;
    }
    void *found = mmap(NULL, sizeof(struct ring), PROT_READ | PROT_WRITE, MAP_SHARED, file, 0);
    close(file);
    if (found == MAP_FAILED || ((struct ring *)found)->magic != RING_MAGIC) {
        return NULL;
    }
    return found;
}

/* The first process that asks is the one that is recorded: one trace has the threads of one. */
static bool claim(struct ring *found)
{
    int32_t nobody = 0;
    if (atomic_compare_exchange_strong(&found->owner, &nobody, (int32_t)getpid())) {
        return true;
    }
    atomic_fetch_add(&found->counts[COUNT_OTHER_PROGRAMS], 1);
    munmap(found, sizeof *found);
    return false;
}

static void begin_recording(void)
{
    struct control *made = make_control();
    struct ring *found = made ? open_ring() : NULL;
    if (!found || !claim(found)) {
        return;
    }
    ring = found;
    self.inside = (uintptr_t)__builtin_frame_address(0);
    if (ring->filter) {
        make_filter();
    }
    make_lock_table();
    make_channels();
    make_stacks();
    pthread_atfork(NULL, NULL, in_forked_process);
    begin_main_thread();
    self.inside = 0;
    control = made;
    atomic_store(&control->is_recording, true);
}

/* Called by the compiler's own code before the C library is ready, and again by its constructors. */
CALLED_BY_COMPILER void __tsan_init(void)
{
    static bool has_begun;
    if (has_begun || !environ) {
        return;
    }
    has_begun = true;
    int error = errno;
    begin_recording();
    errno = error;
}

__attribute__((constructor(101))) static void begin(void)
{
    __tsan_init();
}
