/* Reads and writes of memory, and the filter of those that cannot change anything.
 *
 * An access leaves everything as it is where each of its words was last touched by the same thread, holding the same locks, in the
 * same segment, by a write or by the same kind of access. This is so whatever the word's state is, and the filter keeps what
 * is needed to know it: for each line of 64 bytes, who touched it last, in which epoch, and which words of it.
 */
#include <sched.h>
#include <sys/mman.h>
#include <sys/syscall.h>
#include <unistd.h>

#include "recorder.h"

enum {
    LINES = 1 << 20,
    LINE_BYTES = 64,
    EPOCH_BITS = 22,
    SPINS_BEFORE_NAP = 256,
    /* a second or more: whoever holds a line so long has left it */
    MOST_NAPS = 10000,
    ADDRESS_BITS = 48,
};

static struct line *lines;

static uintptr_t address_of(const struct line *line, memory_order order)
{
    return atomic_load_explicit(&line->key, order) & (((uintptr_t)1 << ADDRESS_BITS) - 1);
}

static uintptr_t own_lock(void)
{
    return (uintptr_t)(self.number + 1) << ADDRESS_BITS;
}

void make_filter(void)
{
    void *made = mmap(NULL, LINES * sizeof *lines, PROT_READ | PROT_WRITE, MAP_PRIVATE | MAP_ANONYMOUS | MAP_NORESERVE, -1, 0);
    lines = made == MAP_FAILED ? NULL : made;
}

static struct line *line_of(uintptr_t address)
{
    /* Arenas of threads begin at the same low bits, so higher ones are mixed in. */
    uintptr_t number = address / LINE_BYTES;
    return &lines[(number ^ (number >> 14) * 0x9E3779B1u) % LINES];
}

/* The thread's epochs are many more than the filter tells apart. Where they begin anew, all that the thread knew is dropped. */
static void begin_cycle(int thread, uint64_t cycle)
{
    for (size_t i = 0; i < LINES; i++) {
        uint64_t known = atomic_load_explicit(&lines[i].known, memory_order_relaxed);
        if (known && (int)(known >> (32 + EPOCH_BITS)) == thread) {
            atomic_compare_exchange_strong(&lines[i].known, &known, 0);
        }
    }
    self.cycle = cycle;
}

/* The thread and its epoch, at the place that they have in `known`. */
static uint64_t own_stamp(void)
{
    uint64_t epoch = atomic_load_explicit(&threads[self.number].epoch, memory_order_relaxed);
    if (epoch >> EPOCH_BITS != self.cycle) {
        begin_cycle(self.number, epoch >> EPOCH_BITS);
    }
    return ((uint64_t)self.number << EPOCH_BITS | (epoch & ((1u << EPOCH_BITS) - 1))) << 32;
}

/* The line's words that the access touches, as bits. */
static uint64_t words_of(uintptr_t address, size_t length)
{
    unsigned first = address % LINE_BYTES / WORD;
    unsigned last = (address + length - 1) % LINE_BYTES / WORD;
    return ((2ull << last) - 1) & ~((1ull << first) - 1);
}

static bool is_known(struct line *line, uintptr_t key, uint64_t stamp, uint64_t wanted)
{
    /* In this order: whoever takes the line for another address first drops what was known, and then changes the key. */
    if (address_of(line, memory_order_acquire) != key) {
        return false;
    }
    uint64_t known = atomic_load_explicit(&line->known, memory_order_relaxed);
    return known >> 32 == stamp >> 32 && (known & wanted) == wanted;
}

static bool try_line(struct line *line)
{
    uintptr_t address = address_of(line, memory_order_relaxed);
    return atomic_compare_exchange_strong_explicit(&line->key, &address, address | own_lock(), memory_order_acquire,
                                                   memory_order_relaxed);
}

void lock_line(struct line *line)
{
    unsigned spins = 0, naps = 0;
    /* Told before: should a jump leave it locked, this thread will know. */
    self.line = line;
    atomic_signal_fence(memory_order_seq_cst);
    while (!try_line(line) && naps < MOST_NAPS) {
        if (++spins % SPINS_BEFORE_NAP == 0) {
            nap();
            naps = has_room() ? naps + 1 : 0;
        }
    }
    if (naps == MOST_NAPS) {
        atomic_store(&line->key, address_of(line, memory_order_relaxed) | own_lock());
    }
}

/* If this thread has it locked. */
void unlock_line(struct line *line)
{
    uintptr_t address = address_of(line, memory_order_relaxed), key = address | own_lock();
    atomic_compare_exchange_strong_explicit(&line->key, &key, address, memory_order_release, memory_order_relaxed);
    self.line = NULL;
}

static void remember(struct line *line, uintptr_t key, uint64_t stamp, uint64_t words)
{
    uint64_t known = atomic_load_explicit(&line->known, memory_order_relaxed);
    bool is_ours = address_of(line, memory_order_relaxed) == key && known >> 32 == stamp >> 32;
    if (!is_ours) {
        atomic_store_explicit(&line->known, 0, memory_order_relaxed);
        atomic_store_explicit(&line->key, key | own_lock(), memory_order_release);
        known = stamp;
    }
    atomic_store_explicit(&line->known, known | words, memory_order_relaxed);
}

/* An access that lies in one line. The place in the trace is taken while the line is locked, so that what is known of the line
 * is always of its last access in the trace. */
static void access_in_line(bool is_write, uintptr_t address, size_t length, uintptr_t code)
{
    enum kind kind = is_write ? KIND_WRITE : KIND_READ;
    if (!lines) {
        publish(kind, self.number, address, length, code);
        return;
    }
    uint64_t stamp = own_stamp();
    uint64_t words = words_of(address, length);
    uint64_t wanted = is_write ? words << 16 : words;
    uintptr_t key = address / LINE_BYTES * LINE_BYTES;
    struct line *line = line_of(address);
    bool marks = ring->filter == FILTER_MARKS;
    if (!marks && is_known(line, key, stamp, wanted)) {
        ring->left_out[self.number].value++;
        return;
    }
    lock_line(line);
    bool is_left_out = marks && is_known(line, key, stamp, wanted);
    publish(is_left_out ? kind | LEFT_OUT : kind, self.number, address, length, code);
    remember(line, key, stamp, is_write ? words << 16 | words : words);
    unlock_line(line);
}

/* While there has been one thread alone, all that it touched stands before whatever any thread will do: such a word behaves as
 * one that was never touched. */
static bool is_before_all_threads(void)
{
    return lines && !atomic_load_explicit(&has_forked, memory_order_relaxed);
}

/* While all other threads have been joined, the one that is left comes behind all that they did. What it reads and writes changes no
 * word that has one owner; of a shared word it would only be told what is in good order. Blocks are another matter: memory that is
 * given to another use is new, also then. */
static bool is_alone(void)
{
    return ring->filter && !atomic_load_explicit(&others, memory_order_relaxed);
}

/* Memory that is new from here on, or nobody's any more, while an event has begun. */
void record_own_block(enum kind kind, uintptr_t address, size_t length, uintptr_t code)
{
    if (!is_before_all_threads()) {
        publish_block(kind, self.number, address, length, code);
        return;
    }
    if (ring->filter == FILTER_MARKS) {
        publish_block(kind | LEFT_OUT, self.number, address, length, code);
    }
    if (ring->wants_codes && kind == KIND_ALLOC && length <= UINT32_MAX) {
        publish(KIND_EARLY_BLOCK, self.number, address, length, code);
    }
}

void record_block(enum kind kind, uintptr_t address, size_t length, uintptr_t code)
{
    if (!begin_event()) {
        return;
    }
    record_own_block(kind, address, length, code);
    end_event();
}

static void note_stack(uintptr_t address)
{
    if (address >= self.stack_low && address < self.stack_touched) {
        self.stack_touched = address;
        atomic_store_explicit(&threads[self.number].stack_touched, address, memory_order_relaxed);
    }
}

static void access_before_all_threads(enum kind kind, uintptr_t address, size_t length, uintptr_t code)
{
    ring->left_out[self.number].value++;
    while (length && ring->filter == FILTER_MARKS) {
        size_t part = length < LONGEST_ACCESS ? length : LONGEST_ACCESS;
        publish(kind | LEFT_OUT, self.number, address, part, code);
        address += part;
        length -= part;
    }
}

void record_access(bool is_write, uintptr_t address, size_t length, uintptr_t code)
{
    if (!begin_event()) {
        if (self.inside && !self.is_own_call && is_recording()) {
            count(COUNT_IN_HANDLERS);
        }
        return;
    }
    note_stack(address);
    if (is_write ? self.ignores_writes : self.ignores_reads) {
        count(COUNT_IGNORED);
        length = 0;
    } else if (atomic_load_explicit(&has_benign_ranges, memory_order_relaxed) && is_benign(address, length)) {
        count(COUNT_BENIGN);
        length = 0;
    } else if (is_before_all_threads()) {
        access_before_all_threads(is_write ? KIND_WRITE : KIND_READ, address, length, code);
        length = 0;
    } else if (is_alone()) {
        ring->left_out_alone.value++;
        length = 0;
    }
    while (length) {
        size_t rest = LONGEST_ACCESS - address % LONGEST_ACCESS;
        size_t part = length < rest ? length : rest;
        access_in_line(is_write, address, part, code);
        address += part;
        length -= part;
    }
    end_event();
}

/* What was known of these words holds no more. */
void forget(uintptr_t address, size_t length)
{
    if (!lines || !length) {
        return;
    }
    uintptr_t last = address + length - 1;
    for (uintptr_t key = address / LINE_BYTES * LINE_BYTES; key <= last; key += LINE_BYTES) {
        struct line *line = line_of(key);
        if (address_of(line, memory_order_relaxed) == key) {
            lock_line(line);
            if (address_of(line, memory_order_relaxed) == key) {
                atomic_store_explicit(&line->known, 0, memory_order_relaxed);
            }
            unlock_line(line);
        }
    }
}
