/* What the files of the runtime use of one another. */
#ifndef HGD_RECORDER_H
#define HGD_RECORDER_H

#include <pthread.h>
#include <stdatomic.h>
#include <stdbool.h>
#include <stddef.h>
#include <stdint.h>

#include "ring.h"

/* A program may have a function of the same name, as its own malloc: then that one is taken. */
#define REPLACES __attribute__((weak, visibility("default")))
/* What the compiler calls. */
#define CALLED_BY_COMPILER __attribute__((visibility("default")))
#define CALLER ((uintptr_t)__builtin_return_address(0))
#define LIKELY(truth) __builtin_expect(!!(truth), 1)

#define NO_TICKET_YET UINT64_MAX

enum { MOST_HOLDS = 64, LONGEST_ACCESS = 64, WORD = 4 };

/* A lock that a thread holds, as the trace has it. Another thread may end the hold: it then sets `lock` to null. */
struct hold {
    struct lock *_Atomic lock;
    _Atomic uint32_t number;
    bool for_writing;
    uint32_t depth;
};

/* A thread of the program, under its number in the trace. */
struct thread {
    _Alignas(CACHE_LINE) _Atomic(pthread_t) handle;
    /* whether `handle` names this thread: it doesn't once the thread was joined, or has ended detached */
    _Atomic bool has_handle;
    _Atomic bool is_detached;
    /* moved on whenever the thread's locks or segment change, so that accesses before and after are told apart */
    _Atomic uint64_t epoch;
    _Atomic uintptr_t stack_low, stack_high;
    /* the lowest address of its stack that the thread touched */
    _Atomic uintptr_t stack_touched;
    /* the ticket and 1 of an event that is not published yet, NO_TICKET_YET while it takes one, or 0 */
    _Atomic uint64_t pending;
    struct hold holds[MOST_HOLDS];
    _Atomic int holds_used;
};

/* A function that was entered: the address behind its call, where its frame lies, and the number of the stack up to it, or 0. */
struct frame {
    uintptr_t caller;
    uintptr_t place;
    uint32_t stack;
};

/* What a thread knows of itself. */
struct self {
    int number;
    /* the frame that is recording now, or 0 */
    uintptr_t inside;
    /* whether it is the runtime itself that calls the C library now, and no handler of a signal */
    bool is_own_call;
    /* the filter's line that this thread has locked, or null */
    struct line *line;
    uintptr_t stack_low, stack_high, stack_touched;
    uint64_t cycle;
    /* the segment of the program's code in which the latest event lay */
    uintptr_t code_low, code_high;
    /* the latest atomic load, so that a loop which waits is written once */
    uintptr_t latest_load;
    uint64_t latest_value;
    unsigned latest_order;
    /* what the thread is running once now */
    struct once *once;
    /* how often the program asked to leave its reads and its writes alone, and has not taken it back */
    unsigned ignores_reads, ignores_writes;
    /* the functions that the thread is in, and how many of them; above MOST_FRAMES they are only counted */
    struct frame *frames;
    size_t depth;
};

extern __thread struct self self __attribute__((tls_model("initial-exec")));
extern struct ring *ring;
extern struct thread threads[MOST_THREADS];
extern _Atomic int threads_used;
/* whether a second thread was ever begun */
extern _Atomic bool has_forked;
/* how many threads were begun and not joined */
extern _Atomic int others;

/* ---- begin.c ---- */
/* A page that reads as zeros in a forked process, so that no such process records, however it was forked. */
struct control {
    _Atomic bool is_recording;
};
extern struct control *control;
void stop_recording(void);

/* ---- events.c ---- */
/* True where the calling thread's events are recorded; then `end_event` follows. */
bool begin_event_at(uintptr_t frame);
void end_event(void);
void publish(unsigned kind, int thread, uint64_t value, uint64_t length, uintptr_t code);
void publish_atomic(enum kind kind, uintptr_t address, uint32_t length, uint64_t value, unsigned order, uintptr_t code);
/* Whether the ring has room now. */
bool has_room(void);
void publish_block(unsigned kind, int thread, uintptr_t address, size_t length, uintptr_t code);
void count(enum count what);
void drop_pending(void);
void nap(void);
#define begin_event() begin_event_at((uintptr_t)__builtin_frame_address(0))

static inline bool is_recording(void)
{
    return atomic_load_explicit(&control->is_recording, memory_order_relaxed);
}

static inline void next_epoch(int thread)
{
    atomic_fetch_add_explicit(&threads[thread].epoch, 1, memory_order_relaxed);
}

/* ---- accesses.c ---- */
struct line {
    /* the address of the line, and above it the number and 1 of the thread that has it locked, or 0 */
    _Atomic uintptr_t key;
    /* who knows it: 10 bits of thread and 22 of epoch; then a bit for each word written and one for each word touched */
    _Atomic uint64_t known;
};

void make_filter(void);
/* One line at a time, while an event has begun. */
void lock_line(struct line *line);
void record_own_block(enum kind kind, uintptr_t address, size_t length, uintptr_t code);
void record_block(enum kind kind, uintptr_t address, size_t length, uintptr_t code);
void record_access(bool is_write, uintptr_t address, size_t length, uintptr_t code);
void forget(uintptr_t address, size_t length);
void unlock_line(struct line *line);

/* ---- stacks.c ---- */
extern bool wants_stacks;
void make_stacks(void);
void function_is_entered(uintptr_t caller, uintptr_t place);
/* The number of the calling thread's stack. */
uint32_t current_stack(void);
void drop_frames(void);

static inline void function_is_left(void)
{
    self.depth -= self.depth > 0;
}

/* ---- annotations.c ---- */
extern _Atomic bool has_benign_ranges;
/* Whether each byte is of memory whose races the program calls benign. */
bool is_benign(uintptr_t address, size_t length);
/* The memory is another's now. */
void forget_benign(uintptr_t address, size_t length);

/* ---- threads.c ---- */
void begin_main_thread(void);

/* ---- locks.c ---- */
void make_lock_table(void);
void lock_was_taken(const void *address, bool for_writing, uintptr_t code);
/* Before a lock is let go. False where the thread holds it not, as far as was recorded. */
bool lock_is_let_go(const void *address, uintptr_t code);
void others_lock_is_let_go(const void *address, uintptr_t code);
void lock_is_new(const void *address);
void let_all_go(int thread);
/* How often the thread has taken the lock, and lets it go wholly. */
uint32_t let_go_wholly(const void *address, uintptr_t code);
void take_again(const void *address, uint32_t depth, uintptr_t code);

/* ---- code.c ---- */
void note_code(uintptr_t code);

/* ---- messages.c ---- */
void make_channels(void);
void message_is_sent(const void *channel, enum count what, uintptr_t code);
void message_is_received(const void *channel, uintptr_t code);
void channel_is_new(const void *channel, unsigned parties);
void wait_begins(const void *channel);
void wait_ends(const void *channel, bool was_woken, uintptr_t code);
void waiters_are_woken(const void *channel, bool all, uintptr_t code);
/* What is released at an address is acquired there by any number of threads. */
void place_is_released(const void *address, uintptr_t code);
void place_is_acquired(const void *address, uintptr_t code);
bool barrier_is_reached(const void *channel, uintptr_t code);

/* ---- real.c ---- */
/* The function of the C library that one of this runtime stands before. */
void *real_function(const char *name, const char *version);

#define REAL_VERSIONED(name, version)                                                   \
    ({                                                                                  \
        static _Atomic(void *) known;                                                   \
        void *found = atomic_load_explicit(&known, memory_order_relaxed);               \
        if (!found) {                                                                   \
            found = real_function(#name, version);                                      \
            atomic_store_explicit(&known, found, memory_order_relaxed);                 \
        }                                                                               \
        (__typeof__(&name))found;                                                       \
    })
#define REAL(name) REAL_VERSIONED(name, NULL)

#endif
