/* Puts events into the ring, in an order that could have happened. */
#include <errno.h>
#include <poll.h>
#include <sys/syscall.h>
#include <time.h>
#include <unistd.h>

#include "recorder.h"

enum {
    /* 20 milliseconds and more: a thread that only was not run for a while has its ticket by then */
    NAPS_UNTIL_LOST = 200,
};

__thread struct self self __attribute__((tls_model("initial-exec"))) = {.number = -1};
struct ring *ring;

void count(enum count what)
{
    if (is_recording()) {
        atomic_fetch_add_explicit(&ring->counts[what], 1, memory_order_relaxed);
    }
}

/* Sleeps a little. This is a bare call of the system: it is no point where the thread can be cancelled. */
void nap(void)
{
    int error = errno;
    struct timespec time = {.tv_nsec = 50 * 1000};
    syscall(SYS_nanosleep, &time, NULL);
    errno = error;
}

/* A reader that was killed takes nothing any more, and nobody is to wait for it. */
static bool reader_has_died(void)
{
    int error = errno;
    int process = (int)syscall(SYS_pidfd_open, atomic_load(&ring->reader), 0);
    bool has_died = process < 0 && errno == ESRCH;
    if (process >= 0) {
        struct pollfd ended = {.fd = process, .events = POLLIN};
        struct timespec none = {0};
        has_died = syscall(SYS_ppoll, &ended, 1, &none, NULL, 0) == 1;
        syscall(SYS_close, process);
    }
    errno = error;
    return has_died;
}

static bool has_room_for(uint64_t ticket)
{
    return ticket - atomic_load_explicit(&ring->taken, memory_order_acquire) < RING_EVENTS;
}

bool has_room(void)
{
    return has_room_for(atomic_load_explicit(&ring->next_ticket, memory_order_relaxed));
}

/* False where the reader takes no more events. */
static bool wait_for_room(uint64_t ticket)
{
    for (unsigned naps = 0; !has_room_for(ticket); naps++) {
        if (atomic_load(&ring->closed) || (naps % 1024 == 1023 && reader_has_died())) {
            stop_recording();
            return false;
        }
        nap();
    }
    return true;
}

static void set_pending(uint64_t pending)
{
    atomic_store_explicit(&threads[self.number].pending, pending, memory_order_relaxed);
    atomic_signal_fence(memory_order_seq_cst);
}

static bool is_published(uint64_t ticket)
{
    return ticket < atomic_load(&ring->taken) || atomic_load(&ring->events[ticket % RING_EVENTS].published) == ticket + 1;
}

static bool is_pending_elsewhere(uint64_t ticket)
{
    int used = atomic_load(&threads_used);
    for (int i = 0; i < used && i < MOST_THREADS; i++) {
        if (i != self.number && atomic_load(&threads[i].pending) == ticket + 1) {
            return true;
        }
    }
    return false;
}

/* The first ticket that was taken and that no other thread is known to have. False where there is none. */
static bool find_orphan(uint64_t *ticket)
{
    uint64_t next = atomic_load(&ring->next_ticket);
    for (*ticket = atomic_load(&ring->taken); *ticket < next; ++*ticket) {
        if (!is_published(*ticket) && !is_pending_elsewhere(*ticket)) {
            return true;
        }
    }
    return false;
}

/* The thread was stopped while it took a ticket, and may have one that it doesn't know. Another thread that takes one now will know it
 * soon; a ticket that nobody knows for long is this one's. */
static uint64_t find_lost_ticket(void)
{
    uint64_t ticket, before = NO_TICKET_YET;
    for (int naps = 0; naps < NAPS_UNTIL_LOST && find_orphan(&ticket); naps++) {
        if (ticket != before) {
            naps = 0;
        }
        before = ticket;
        if (naps == NAPS_UNTIL_LOST - 1) {
            return ticket + 1;
        }
        nap();
    }
    return 0;
}

/* A jump out of a signal's handler may have left an event half made. The slot is given up, so that nobody waits for it. */
void drop_pending(void)
{
    if (self.line) {
        unlock_line(self.line);
        self.line = NULL;
    }
    uint64_t pending = atomic_load(&threads[self.number].pending);
    if (pending == NO_TICKET_YET) {
        pending = find_lost_ticket();
    }
    if (pending && !is_published(pending - 1) && wait_for_room(pending - 1)) {
        struct event *slot = &ring->events[(pending - 1) % RING_EVENTS];
        slot->kind = KIND_NOTHING;
        atomic_store_explicit(&slot->published, pending, memory_order_release);
    }
    set_pending(0);
    self.inside = 0;
}

static bool is_on_own_stack(uintptr_t address)
{
    return address >= self.stack_low && address < self.stack_high;
}

/* Recording is under way in this thread: by a frame below which a signal's handler runs now, or by one that a jump has left. On the
 * thread's own stack the latter is seen by its place: a frame that still is lies above those that it has called. */
static bool was_left_by_a_jump(uintptr_t frame)
{
    return is_on_own_stack(self.inside) && is_on_own_stack(frame) && frame >= self.inside;
}

/* A thread that was begun by other means than pthread_create has no number. It is counted once. */
static bool has_number(void)
{
    if (self.number == -1) {
        self.number = -2;
        count(COUNT_UNKNOWN_THREADS);
    }
    return self.number >= 0;
}

bool begin_event_at(uintptr_t frame)
{
    if (!is_recording() || !has_number()) {
        return false;
    }
    if (self.inside) {
        if (!was_left_by_a_jump(frame)) {
            return false;
        }
        drop_pending();
    }
    self.inside = frame;
    atomic_signal_fence(memory_order_seq_cst);
    return true;
}

void end_event(void)
{
    atomic_signal_fence(memory_order_seq_cst);
    self.inside = 0;
}

static void publish_event(unsigned kind, int thread, uint64_t value, uint32_t length, int order, uintptr_t code)
{
    if (ring->wants_codes && code && (code < self.code_low || code >= self.code_high)) {
        note_code(code);
    }
    uint64_t stack = wants_stacks && code ? current_stack() : 0;
    set_pending(NO_TICKET_YET);
    uint64_t ticket = atomic_fetch_add_explicit(&ring->next_ticket, 1, memory_order_acq_rel);
    set_pending(ticket + 1);
    if (!wait_for_room(ticket)) {
        set_pending(0);
        return;
    }
    struct event *slot = &ring->events[ticket % RING_EVENTS];
    slot->value = value;
    slot->code = code | stack << CODE_BITS;
    slot->length = length;
    slot->thread = (uint16_t)thread;
    slot->kind = (uint8_t)kind;
    slot->order = (uint8_t)order;
    atomic_store_explicit(&slot->published, ticket + 1, memory_order_release);
    set_pending(0);
}

void publish(unsigned kind, int thread, uint64_t value, uint64_t length, uintptr_t code)
{
    publish_event(kind, thread, value, (uint32_t)length, 0, code);
}

/* As much of a value as fits beside a length: small ones wholly. */
static uint32_t folded(uint64_t value)
{
    enum { BITS = 32 - ATOMIC_LENGTH_BITS };
    return (uint32_t)(value ^ value >> BITS ^ value >> 2 * BITS) << ATOMIC_LENGTH_BITS;
}

/* An access that acquires or releases may order threads, so it moves the epoch on. */
void publish_atomic(enum kind kind, uintptr_t address, uint32_t length, uint64_t value, unsigned order, uintptr_t code)
{
    /* A loop that waits for an atomic loads the same value again and again: once is enough. */
    bool is_load = kind == KIND_ATOMIC_LOAD;
    if (is_load && self.latest_load == address && self.latest_value == value && self.latest_order == order) {
        return;
    }
    publish_event(kind, self.number, address, length | folded(value), (int)order, code);
    if ((order & ATOMIC_ORDER) != memory_order_relaxed) {
        next_epoch(self.number);
    }
    self.latest_load = is_load ? address : 0;
    self.latest_value = value;
    self.latest_order = order;
}

/* A block is one event of the ring, as long as its length can be written there. */
void publish_block(unsigned kind, int thread, uintptr_t address, size_t length, uintptr_t code)
{
    enum { LONGEST = 1 << 30 };
    if (atomic_load_explicit(&has_benign_ranges, memory_order_relaxed)) {
        forget_benign(address, length);
    }
    while (length) {
        size_t part = length < LONGEST ? length : LONGEST;
        publish(kind, thread, address, part, code);
        forget(address, part);
        address += part;
        length -= part;
    }
}
