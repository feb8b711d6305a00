/* Traces for `hgd`, written by a program, a runtime or a simulator about what it does.
 *
 *     hgd_trace_open("run.trace");
 *     hgd_fork(0, 1);
 *     hgd_write(1, (uintptr_t)&counter, sizeof counter);
 *     return hgd_trace_close() ? 1 : 0;
 *
 * Threads are numbers from 0 (the one that is there at the beginning) to 1023, and never used twice; locks are numbers from 0 to
 * 65535; messages are numbers from 0 to 4294967295, each sent once, and received once at most. Each call writes its lines whole,
 * from whichever thread it is called. Their order is the order of the calls, and has to be one that could have happened: call hgd_lock
 * after the lock was taken and hgd_unlock before it is let go, hgd_fork before the thread runs, hgd_join after it has ended, hgd_send
 * before any thread can see what it tells of and hgd_recv after the receiver has seen it, hgd_alloc after the memory was given and
 * hgd_free before it is given back.
 *
 * One file of a program includes this, since each that does has a trace of its own. It needs C99 or C++, and stdio.
 */
#ifndef HGD_TRACE_H
#define HGD_TRACE_H

#include <inttypes.h>
#include <stdint.h>
#include <stdio.h>

enum { HGD_LONGEST_ACCESS = 64, HGD_LONGEST_BLOCK = 1 << 20 };

static FILE *hgd_trace_file;

/* Begins a trace in a file; `-` is standard output. Returns 0, or -1 where it can't be opened (errno says why). */
static inline int hgd_trace_open(const char *name)
{
    int is_output = name[0] == '-' && name[1] == '\0';
    hgd_trace_file = is_output ? stdout : fopen(name, "w");
    return hgd_trace_file ? 0 : -1;
}

/* Ends the trace. Returns 0, or -1 where a line of it could not be written. */
static inline int hgd_trace_close(void)
{
    FILE *file = hgd_trace_file;
    hgd_trace_file = NULL;
    int failed = !file || ferror(file);
    if (file && (file == stdout ? fflush(file) : fclose(file))) {
        failed = 1;
    }
    return failed ? -1 : 0;
}

static inline void hgd_pair_(const char *verb, unsigned thread, unsigned other)
{
    if (hgd_trace_file) {
        fprintf(hgd_trace_file, "%s %u %u\n", verb, thread, other);
    }
}

/* Longer ranges become several lines, none of which crosses a multiple of `longest`. */
static inline void hgd_range_(const char *verb, unsigned thread, uint64_t address, uint64_t length, unsigned longest)
{
    while (hgd_trace_file && length) {
        uint64_t rest = longest - address % longest;
        uint64_t part = length < rest ? length : rest;
        fprintf(hgd_trace_file, "%s %u 0x%" PRIx64 " %" PRIu64 "\n", verb, thread, address, part);
        address += part;
        length -= part;
    }
}

/* A thread starts another one, or waits for its end. */
static inline void hgd_fork(unsigned thread, unsigned child) { hgd_pair_("fork", thread, child); }
static inline void hgd_join(unsigned thread, unsigned child) { hgd_pair_("join", thread, child); }

/* A thread takes a lock for itself alone, or together with other readers; it lets it go. A lock that it holds already is not taken
 * again: of a recursive lock the outermost hold counts. */
static inline void hgd_lock(unsigned thread, unsigned lock) { hgd_pair_("lock", thread, lock); }
static inline void hgd_rdlock(unsigned thread, unsigned lock) { hgd_pair_("rdlock", thread, lock); }
static inline void hgd_unlock(unsigned thread, unsigned lock) { hgd_pair_("unlock", thread, lock); }

/* A thread sends a message, or receives it: what the sender did before the send comes before what the receiver does from the receive
 * on. Whatever hands memory over is one: an item that is put into a queue and taken out, a post and a wait of a semaphore. Send no
 * message that nobody will receive: the detector keeps it. */
static inline void hgd_send(unsigned thread, uint32_t message) { hgd_pair_("send", thread, message); }
static inline void hgd_recv(unsigned thread, uint32_t message) { hgd_pair_("recv", thread, message); }

/* A thread reads or writes memory. A length of 0 is nothing. */
static inline void hgd_read(unsigned thread, uint64_t address, uint64_t length)
{
    hgd_range_("read", thread, address, length, HGD_LONGEST_ACCESS);
}
static inline void hgd_write(unsigned thread, uint64_t address, uint64_t length)
{
    hgd_range_("write", thread, address, length, HGD_LONGEST_ACCESS);
}

/* A thread gets memory that belongs to nobody yet, or gives it back. */
static inline void hgd_alloc(unsigned thread, uint64_t address, uint64_t length)
{
    hgd_range_("alloc", thread, address, length, HGD_LONGEST_BLOCK);
}
static inline void hgd_free(unsigned thread, uint64_t address, uint64_t length)
{
    hgd_range_("free", thread, address, length, HGD_LONGEST_BLOCK);
}

#endif
