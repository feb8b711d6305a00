/* Mutexes, reader-writer locks and spin locks, and who holds them.
 *
 * A lock is a place in memory. It gets its number in the trace when it is first taken. What is known of it stands in one atomic
 * word, so that no lock of this runtime's own is needed. An event of taking is published after the lock was taken, one of letting
 * go before it is let go; so no hold overlaps another in the trace that did not in the program.
 */
#include <sys/mman.h>

#include "recorder.h"

enum { LOCK_PLACES = 1 << 17, NO_OWNER = 0xFFFF };

/* The state of a lock: 0 before it has a number. */
struct lock_state {
    uint32_t number;
    uint16_t owner;
    uint16_t readers;
    bool is_numbered;
};

struct lock {
    _Atomic uintptr_t address;
    _Atomic uint64_t state;
};

static struct lock *locks;
static _Atomic uint32_t numbers_used;

void make_lock_table(void)
{
    void *made = mmap(NULL, LOCK_PLACES * sizeof *locks, PROT_READ | PROT_WRITE, MAP_PRIVATE | MAP_ANONYMOUS, -1, 0);
    locks = made == MAP_FAILED ? NULL : made;
}

static struct lock_state unpack(uint64_t state)
{
    return (struct lock_state){
        .number = (uint32_t)(state >> 33),
        .is_numbered = state >> 32 & 1,
        .owner = (uint16_t)(state >> 16),
        .readers = (uint16_t)state,
    };
}

static uint64_t pack(struct lock_state state)
{
    return (uint64_t)state.number << 33 | (uint64_t)state.is_numbered << 32 | (uint64_t)state.owner << 16 | state.readers;
}

/* The lock at an address; where it is not known, a new place for it or null. */
static struct lock *find_lock(uintptr_t address, bool make)
{
    size_t place = (address >> 2) * 0x9E3779B97F4A7C15ull >> 47;
    for (size_t tries = 0; locks && tries < LOCK_PLACES; tries++) {
        struct lock *lock = &locks[(place + tries) % LOCK_PLACES];
        uintptr_t found = atomic_load_explicit(&lock->address, memory_order_acquire);
        if (!found && !make) {
            return NULL;
        }
        if (found == address || (!found && atomic_compare_exchange_strong(&lock->address, &found, address)) ||
            found == address) {
            return lock;
        }
    }
    return NULL;
}

/* A new number, or none where all are used: then the trace ends here. */
static bool take_number(uint32_t *number)
{
    *number = atomic_fetch_add(&numbers_used, 1);
    if (*number < MOST_LOCKS) {
        return true;
    }
    publish(KIND_STOP, self.number, STOP_LOCKS, 0, 0);
    stop_recording();
    return false;
}

static bool excludes(struct lock_state state, bool for_writing)
{
    return state.owner != NO_OWNER || (for_writing && state.readers);
}

/* The thread has the lock now, so nobody's hold can exclude it. Where one seems to, that lock was lost without a word (its memory was
 * freed while it was held): this is another one, and gets a number of its own. */
static bool enter(struct lock *lock, bool for_writing, uint32_t *number)
{
    uint64_t before = atomic_load(&lock->state);
    struct lock_state state;
    bool is_new = false;
    do {
        state = unpack(before);
        bool is_stale = state.is_numbered && excludes(state, for_writing);
        if (is_stale) {
            count(COUNT_STALE_HOLDS);
        }
        if (!state.is_numbered || is_stale) {
            state = (struct lock_state){.owner = NO_OWNER, .is_numbered = true};
            if (!take_number(&state.number)) {
                return false;
            }
            is_new = true;
        }
        if (for_writing) {
            state.owner = (uint16_t)self.number;
        } else {
            state.readers++;
        }
    } while (!atomic_compare_exchange_strong(&lock->state, &before, pack(state)));
    *number = state.number;
    if (is_new && ring->wants_codes) {
        publish(KIND_LOCK_PLACE, self.number, atomic_load(&lock->address), state.number, 0);
    }
    return true;
}

static void leave(struct lock *lock, uint32_t number, bool for_writing)
{
    uint64_t before = atomic_load(&lock->state);
    struct lock_state state;
    do {
        state = unpack(before);
        if (state.number != number || !state.is_numbered) {
            return;
        }
        if (for_writing) {
            state.owner = NO_OWNER;
        } else if (state.readers) {
            state.readers--;
        }
    } while (!atomic_compare_exchange_strong(&lock->state, &before, pack(state)));
}

static struct hold *find_hold(int thread, const struct lock *lock)
{
    int used = atomic_load_explicit(&threads[thread].holds_used, memory_order_acquire);
    for (int i = used; i-- > 0;) {
        struct hold *hold = &threads[thread].holds[i];
        if (atomic_load_explicit(&hold->lock, memory_order_acquire) == lock) {
            return hold;
        }
    }
    return NULL;
}

static struct hold *free_hold(void)
{
    struct thread *thread = &threads[self.number];
    int used = atomic_load_explicit(&thread->holds_used, memory_order_relaxed);
    while (used && !atomic_load_explicit(&thread->holds[used - 1].lock, memory_order_relaxed)) {
        used--;
    }
    for (int i = 0; i < MOST_HOLDS; i++) {
        if (!atomic_load_explicit(&thread->holds[i].lock, memory_order_relaxed)) {
            atomic_store_explicit(&thread->holds_used, i < used ? used : i + 1, memory_order_release);
            return &thread->holds[i];
        }
    }
    return NULL;
}

/* Ends a hold, if no other thread has. The event stands before the lock is seen as free. */
static bool end_hold(int thread, struct hold *hold, uintptr_t code)
{
    struct lock *lock = atomic_load(&hold->lock);
    uint32_t number = atomic_load(&hold->number);
    bool for_writing = hold->for_writing;
    if (!lock || !atomic_compare_exchange_strong(&hold->lock, &lock, NULL)) {
        return false;
    }
    publish(KIND_UNLOCK, thread, number, 0, code);
    next_epoch(thread);
    leave(lock, number, for_writing);
    return true;
}

static bool is_held_still(const struct hold *hold, const struct lock *lock)
{
    struct lock_state state = unpack(atomic_load(&lock->state));
    bool is_same = state.is_numbered && state.number == atomic_load(&hold->number);
    return is_same && (hold->for_writing ? state.owner == self.number : state.readers > 0);
}

static void begin_hold(struct lock *lock, bool for_writing, uint32_t depth, uintptr_t code)
{
    struct hold *hold = find_hold(self.number, lock);
    if (hold && is_held_still(hold, lock)) {
        hold->depth += depth;
        return;
    }
    if (hold) {
        end_hold(self.number, hold, code);
    }
    uint32_t number;
    hold = free_hold();
    if (!hold) {
        count(COUNT_HOLDS_OVER_64);
        return;
    }
    if (!enter(lock, for_writing, &number)) {
        return;
    }
    hold->for_writing = for_writing;
    hold->depth = depth;
    atomic_store(&hold->number, number);
    atomic_store_explicit(&hold->lock, lock, memory_order_release);
    publish(for_writing ? KIND_LOCK : KIND_READ_LOCK, self.number, number, 0, code);
    next_epoch(self.number);
}

void take_again(const void *address, uint32_t depth, uintptr_t code)
{
    if (!begin_event()) {
        return;
    }
    struct lock *lock = find_lock((uintptr_t)address, true);
    if (lock) {
        begin_hold(lock, true, depth, code);
    }
    end_event();
}

void lock_was_taken(const void *address, bool for_writing, uintptr_t code)
{
    if (!begin_event()) {
        return;
    }
    struct lock *lock = find_lock((uintptr_t)address, true);
    if (lock) {
        begin_hold(lock, for_writing, 1, code);
    }
    end_event();
}

bool lock_is_let_go(const void *address, uintptr_t code)
{
    if (!begin_event()) {
        return true;
    }
    struct lock *lock = find_lock((uintptr_t)address, false);
    struct hold *hold = lock ? find_hold(self.number, lock) : NULL;
    if (hold && --hold->depth == 0) {
        end_hold(self.number, hold, code);
    }
    end_event();
    return hold != NULL;
}

uint32_t let_go_wholly(const void *address, uintptr_t code)
{
    if (!begin_event()) {
        return 0;
    }
    struct lock *lock = find_lock((uintptr_t)address, false);
    struct hold *hold = lock ? find_hold(self.number, lock) : NULL;
    uint32_t depth = hold ? hold->depth : 0;
    if (hold) {
        end_hold(self.number, hold, code);
    }
    end_event();
    return depth;
}

/* A thread may let go what another one holds. In the trace the holder lets it go. */
void others_lock_is_let_go(const void *address, uintptr_t code)
{
    if (!begin_event()) {
        return;
    }
    struct lock *lock = find_lock((uintptr_t)address, false);
    int used = lock ? atomic_load(&threads_used) : 0;
    for (int i = 0; i < used && i < MOST_THREADS; i++) {
        struct hold *hold = find_hold(i, lock);
        if (hold && end_hold(i, hold, code)) {
            count(COUNT_OTHERS_UNLOCKS);
            break;
        }
    }
    end_event();
}

/* A lock is made anew. It keeps its number, unless somebody seems to hold it: the next hold gets a new one then. */
void lock_is_new(const void *address)
{
    struct lock *lock = is_recording() ? find_lock((uintptr_t)address, false) : NULL;
    if (!lock) {
        return;
    }
    struct lock_state state = unpack(atomic_load(&lock->state));
    if (state.owner != NO_OWNER || state.readers) {
        atomic_store(&lock->state, 0);
    }
}

/* A thread that has ended is joined only when it holds nothing. */
void let_all_go(int thread)
{
    for (int i = 0; i < MOST_HOLDS; i++) {
        end_hold(thread, &threads[thread].holds[i], 0);
    }
}
