/* What a recorded program and hgd-record share: a ring of events in memory that both have mapped.
 *
 * Threads of the program take a ticket each for their next event, which is its place in the trace. They fill the slot
 * of the ticket, and then publish it by its number. hgd-record takes the slots in order and makes lines of them. So no
 * thread waits for another, nothing is formatted in the program, and a program that is killed loses no event that it
 * had published.
 */
#ifndef HGD_RING_H
#define HGD_RING_H

#include <stdatomic.h>
#include <stdint.h>

/* The variable of the environment that names the ring's file. */
#define RING_VARIABLE "HGD_RECORDER"

enum {
    RING_EVENTS = 1 << 16,
    RING_MAGIC = 0x68676432,
    MOST_THREADS = 1024,
    MOST_LOCKS = 65536,
    MOST_STACKS = 1 << 17,
    /* an address of code has so many bits; above them an event has the number of its stack */
    CODE_BITS = 47,
    CACHE_LINE = 64,
};

enum kind {
    KIND_NOTHING,
    KIND_FORK,
    KIND_JOIN,
    KIND_LOCK,
    KIND_READ_LOCK,
    KIND_UNLOCK,
    KIND_READ,
    KIND_WRITE,
    KIND_ALLOC,
    KIND_FREE,
    /* one message, by a number that it has alone */
    KIND_SEND,
    KIND_RECEIVE,
    /* all that was done before is released at an address, to whoever acquires it there */
    KIND_RELEASE,
    KIND_ACQUIRE,
    /* `length` has the bytes, and above them the value */
    KIND_ATOMIC_LOAD,
    KIND_ATOMIC_STORE,
    KIND_FENCE,
    /* where a lock lies: `value` is the address, `length` its number */
    KIND_LOCK_PLACE,
    /* a block that was allocated before there was a second thread, which is no event of the trace */
    KIND_EARLY_BLOCK,
    /* the trace ends here; `value` says why */
    KIND_STOP,
};

enum {
    /* the bits of `order` that are the memory order; the next one says that an atomic access loads and stores at once */
    ATOMIC_ORDER = 7,
    ATOMIC_UPDATE = 8,
    /* above so many bits of `length` stands the value, as far as it fits there */
    ATOMIC_LENGTH_BITS = 8,
};

/* Set in the kind of an event that the filter leaves out, where all events were asked for. */
enum { LEFT_OUT = 0x80 };

enum filter { FILTER_NOTHING, FILTER_LEAVES_OUT, FILTER_MARKS };

enum stop_reason { STOP_THREADS, STOP_LOCKS };

struct event {
    /* the ticket and 1, once the other fields are filled */
    _Atomic uint64_t published;
    /* an address, a child, a lock, a message or a reason */
    uint64_t value;
    /* the address of the code, and above it the number of the stack that it was called by, or 0 */
    uint64_t code;
    uint32_t length;
    uint16_t thread;
    uint8_t kind;
    /* the memory order of an atomic access */
    uint8_t order;
};

/* What is counted and told at the end. */
enum count {
    COUNT_SEMAPHORES,
    COUNT_BARRIERS,
    COUNT_CONDITIONS,
    COUNT_ATOMICS,
    COUNT_IN_HANDLERS,
    COUNT_OTHERS_UNLOCKS,
    COUNT_HOLDS_OVER_64,
    COUNT_STALE_HOLDS,
    COUNT_UNKNOWN_THREADS,
    COUNT_LARGE_UNMAPS,
    COUNT_FORKED_PROCESSES,
    COUNT_OTHER_PROGRAMS,
    COUNT_LOST_MESSAGES,
    COUNT_ANNOTATIONS,
    COUNT_BENIGN,
    COUNT_IGNORED,
    COUNT_UNSAID,
    COUNT_FIBERS,
    COUNT_LOST_STACKS,
    COUNTS,
};

/* One frame of a call stack, and the number of the frames that called it, or 0. */
struct stack {
    uint64_t caller;
    uint32_t outer;
    uint32_t unused;
};

/* A counter alone in its cache line, so that threads don't wait for one another's. */
struct lone_counter {
    _Alignas(CACHE_LINE) uint64_t value;
};

struct ring {
    uint32_t magic;
    /* what was asked for on the command line of hgd-record */
    /* an `enum filter` */
    uint8_t filter;
    uint8_t comments;
    uint8_t messages;
    uint8_t wants_codes;
    uint8_t wants_stacks;
    /* the process that records; 0 until one has begun */
    _Atomic int32_t owner;
    _Atomic int32_t reader;
    /* set by the reader when it takes no more events */
    _Atomic uint32_t closed;
    _Atomic uint64_t counts[COUNTS];
    /* accesses that were left out because they change nothing, by thread */
    struct lone_counter left_out[MOST_THREADS];
    /* accesses that were left out because all other threads had been joined */
    struct lone_counter left_out_alone;
    /* the stacks that events name: number 0 is none, and a number is greater than that of its outer frames */
    _Atomic uint32_t stacks_used;
    struct stack stacks[MOST_STACKS];
    /* lines `map LOW HIGH OFFSET FILE` of the files whose code had events */
    _Atomic uint32_t maps_used;
    char maps[1 << 18];
    _Alignas(CACHE_LINE) _Atomic uint64_t next_ticket;
    _Alignas(CACHE_LINE) _Atomic uint64_t taken;
    _Alignas(CACHE_LINE) struct event events[RING_EVENTS];
};

#endif
