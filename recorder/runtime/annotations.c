/* What a program tells a race detector itself: the interface of the compiler's own runtime (`__tsan_acquire`, `__tsan_mutex_post_lock` and
 * their like) and the older `Annotate..` calls. Locks become events, hand-overs messages. What the language of traces cannot say is
 * counted, and told at the end.
 *
 * A program may define a call of these itself, so each gives way to one of the program's.
 */
#include "recorder.h"

/* ---- memory whose races are called benign ---- */

enum {
    MOST_RANGES = 4096,
    /* a second or more: whoever changes them so long was stopped by a signal in the midst */
    MOST_NAPS = 10000,
};

struct range {
    _Atomic uintptr_t low, high;
};

_Atomic bool has_benign_ranges;
/* By rising address; no two meet. The version is odd while they are changed. */
static struct range ranges[MOST_RANGES];
static _Atomic size_t ranges_used;
static _Atomic unsigned version;
static _Atomic bool is_changing;

static uintptr_t low_of(size_t place)
{
    return atomic_load_explicit(&ranges[place].low, memory_order_relaxed);
}

static uintptr_t high_of(size_t place)
{
    return atomic_load_explicit(&ranges[place].high, memory_order_relaxed);
}

/* The first range that ends above the address, or how many there are. */
static size_t place_of(uintptr_t address)
{
    size_t low = 0, high = atomic_load_explicit(&ranges_used, memory_order_relaxed);
    while (low < high) {
        size_t middle = low + (high - low) / 2;
        if (high_of(middle) > address) {
            high = middle;
        } else {
            low = middle + 1;
        }
    }
    return low;
}

/* The range that has the address, or the next one above it. False where there is none, or where they can't be read. */
static bool find_range(uintptr_t address, uintptr_t *low, uintptr_t *high)
{
    for (unsigned naps = 0; naps < MOST_NAPS; naps++) {
        unsigned before = atomic_load_explicit(&version, memory_order_acquire);
        size_t place = place_of(address);
        bool is_there = place < atomic_load_explicit(&ranges_used, memory_order_relaxed);
        *low = is_there ? low_of(place) : 0;
        *high = is_there ? high_of(place) : 0;
        atomic_thread_fence(memory_order_acquire);
        if (before % 2 == 0 && atomic_load_explicit(&version, memory_order_relaxed) == before) {
            return is_there;
        }
        nap();
    }
    return false;
}

bool is_benign(uintptr_t address, size_t length)
{
    uintptr_t low, high;
    return find_range(address, &low, &high) && low <= address && address + length <= high;
}

static void put_range(size_t place, uintptr_t low, uintptr_t high)
{
    atomic_store_explicit(&ranges[place].low, low, memory_order_relaxed);
    atomic_store_explicit(&ranges[place].high, high, memory_order_relaxed);
}

static void move_ranges(size_t from, size_t to, size_t used)
{
    if (to < from) {
        for (size_t i = from; i < used; i++) {
            put_range(to + i - from, low_of(i), high_of(i));
        }
    } else {
        for (size_t i = used; i-- > from;) {
            put_range(to + i - from, low_of(i), high_of(i));
        }
    }
}

/* Leaves these bytes in no range, and then puts them into one of their own where that is asked for. */
static void replace_bytes(uintptr_t low, uintptr_t high, bool is_range)
{
    size_t used = atomic_load(&ranges_used), first = place_of(low), last = first;
    while (last < used && low_of(last) < high) {
        last++;
    }
    struct { uintptr_t low, high; } kept[3];
    size_t count = 0;
    if (first < last && low_of(first) < low) {
        kept[count].low = low_of(first), kept[count++].high = low;
    }
    if (is_range) {
        kept[count].low = low, kept[count++].high = high;
    }
    if (first < last && high_of(last - 1) > high) {
        kept[count].low = high, kept[count++].high = high_of(last - 1);
    }
    move_ranges(last, first + count, used);
    for (size_t i = 0; i < count; i++) {
        put_range(first + i, kept[i].low, kept[i].high);
    }
    atomic_store(&ranges_used, used - (last - first) + count);
}

static void change_ranges(uintptr_t low, uintptr_t high, bool is_range)
{
    for (unsigned naps = 0; atomic_exchange_explicit(&is_changing, true, memory_order_acquire); naps++) {
        if (naps == MOST_NAPS) {
            count(COUNT_UNSAID);
            return;
        }
        nap();
    }
    if (atomic_load(&ranges_used) > MOST_RANGES - 2) {
        count(COUNT_UNSAID);
    } else {
        atomic_fetch_add(&version, 1);
        replace_bytes(low, high, is_range);
        atomic_fetch_add(&version, 1);
        atomic_store(&has_benign_ranges, atomic_load(&ranges_used) > 0);
    }
    atomic_store_explicit(&is_changing, false, memory_order_release);
}

void forget_benign(uintptr_t address, size_t length)
{
    uintptr_t low, high;
    if (find_range(address, &low, &high) && low < address + length) {
        change_ranges(address, address + length, false);
    }
}

static void call_benign(const volatile void *address, size_t length)
{
    if (length && begin_event()) {
        change_ranges((uintptr_t)address, (uintptr_t)address + length, true);
        end_event();
    }
}

/* ---- what is said of threads and locks ---- */

/* An end that has no beginning is none. */
static unsigned moved(unsigned count, int by)
{
    return by < 0 && count == 0 ? 0 : count + (unsigned)by;
}

static void ignore(int reads, int writes)
{
    self.ignores_reads = moved(self.ignores_reads, reads);
    self.ignores_writes = moved(self.ignores_writes, writes);
}

/* The flags of <sanitizer/tsan_interface.h>. */
enum {
    MUTEX_READ_LOCK = 1 << 3,
    MUTEX_TRY_LOCK_FAILED = 1 << 5,
    MUTEX_RECURSIVE_LOCK = 1 << 6,
    MUTEX_RECURSIVE_UNLOCK = 1 << 7,
};

static void said_release(const void *address, uintptr_t code)
{
    count(COUNT_ANNOTATIONS);
    place_is_released(address, code);
}

REPLACES void __tsan_acquire(void *address)
{
    place_is_acquired(address, CALLER);
}

REPLACES void __tsan_release(void *address)
{
    said_release(address, CALLER);
}

REPLACES void __tsan_mutex_create(void *address, unsigned flags)
{
    (void)flags;
    lock_is_new(address);
}

REPLACES void __tsan_mutex_destroy(void *address, unsigned flags)
{
    (void)flags;
    lock_is_new(address);
}

/* How the program's own lock is made is nobody's business: what it touches between these calls is left alone. */
REPLACES void __tsan_mutex_pre_lock(void *address, unsigned flags)
{
    (void)address, (void)flags;
    ignore(1, 1);
}

REPLACES void __tsan_mutex_post_lock(void *address, unsigned flags, int depth)
{
    ignore(-1, -1);
    if (flags & MUTEX_TRY_LOCK_FAILED) {
        return;
    }
    if (flags & MUTEX_RECURSIVE_LOCK && depth > 0) {
        take_again(address, (uint32_t)depth, CALLER);
    } else {
        lock_was_taken(address, !(flags & MUTEX_READ_LOCK), CALLER);
    }
}

REPLACES int __tsan_mutex_pre_unlock(void *address, unsigned flags)
{
    int depth = 0;
    if (flags & MUTEX_RECURSIVE_UNLOCK) {
        depth = (int)let_go_wholly(address, CALLER);
    } else if (!lock_is_let_go(address, CALLER)) {
        others_lock_is_let_go(address, CALLER);
    }
    ignore(1, 1);
    return depth;
}

REPLACES void __tsan_mutex_post_unlock(void *address, unsigned flags)
{
    (void)address, (void)flags;
    ignore(-1, -1);
}

REPLACES void __tsan_mutex_pre_signal(void *address, unsigned flags)
{
    (void)address, (void)flags;
    ignore(1, 1);
}

REPLACES void __tsan_mutex_post_signal(void *address, unsigned flags)
{
    (void)address, (void)flags;
    ignore(-1, -1);
}

REPLACES void __tsan_mutex_pre_divert(void *address, unsigned flags)
{
    (void)address, (void)flags;
    ignore(-1, -1);
}

REPLACES void __tsan_mutex_post_divert(void *address, unsigned flags)
{
    (void)address, (void)flags;
    ignore(1, 1);
}

/* Fibers: the events are those of the thread that runs them. */
REPLACES void *__tsan_get_current_fiber(void)
{
    return NULL;
}

REPLACES void *__tsan_create_fiber(unsigned flags)
{
    (void)flags;
    return &self;
}

REPLACES void __tsan_destroy_fiber(void *fiber)
{
    (void)fiber;
}

REPLACES void __tsan_switch_to_fiber(void *fiber, unsigned flags)
{
    (void)fiber, (void)flags;
    count(COUNT_FIBERS);
}

REPLACES void __tsan_set_fiber_name(void *fiber, const char *name)
{
    (void)fiber, (void)name;
}

REPLACES void __tsan_flush_memory(void) {}

/* ---- the older calls ---- */

#define PLACE const char *file, int line
#define NO_PLACE (void)file, (void)line

REPLACES void AnnotateHappensBefore(PLACE, const volatile void *address)
{
    NO_PLACE;
    said_release((const void *)address, CALLER);
}

REPLACES void AnnotateHappensAfter(PLACE, const volatile void *address)
{
    NO_PLACE;
    place_is_acquired((const void *)address, CALLER);
}

REPLACES void WTFAnnotateHappensBefore(PLACE, const volatile void *address)
{
    NO_PLACE;
    said_release((const void *)address, CALLER);
}

REPLACES void WTFAnnotateHappensAfter(PLACE, const volatile void *address)
{
    NO_PLACE;
    place_is_acquired((const void *)address, CALLER);
}

REPLACES void AnnotateBenignRace(PLACE, const volatile void *address, const char *reason)
{
    NO_PLACE, (void)reason;
    call_benign(address, WORD);
}

REPLACES void AnnotateBenignRaceSized(PLACE, const volatile void *address, size_t length, const char *reason)
{
    NO_PLACE, (void)reason;
    call_benign(address, length);
}

REPLACES void WTFAnnotateBenignRaceSized(PLACE, const volatile void *address, size_t length, const char *reason)
{
    NO_PLACE, (void)reason;
    call_benign(address, length);
}

REPLACES void AnnotateRWLockCreate(PLACE, const volatile void *lock)
{
    NO_PLACE;
    lock_is_new((const void *)lock);
}

REPLACES void AnnotateRWLockCreateStatic(PLACE, const volatile void *lock)
{
    NO_PLACE;
    lock_is_new((const void *)lock);
}

REPLACES void AnnotateRWLockDestroy(PLACE, const volatile void *lock)
{
    NO_PLACE;
    lock_is_new((const void *)lock);
}

REPLACES void AnnotateRWLockAcquired(PLACE, const volatile void *lock, long is_for_writing)
{
    NO_PLACE;
    lock_was_taken((const void *)lock, is_for_writing, CALLER);
}

REPLACES void AnnotateRWLockReleased(PLACE, const volatile void *lock, long is_for_writing)
{
    NO_PLACE, (void)is_for_writing;
    if (!lock_is_let_go((const void *)lock, CALLER)) {
        others_lock_is_let_go((const void *)lock, CALLER);
    }
}

REPLACES void AnnotateNewMemory(PLACE, const volatile void *address, size_t length)
{
    NO_PLACE;
    record_block(KIND_ALLOC, (uintptr_t)address, length, CALLER);
}

REPLACES void AnnotateIgnoreReadsBegin(PLACE)
{
    NO_PLACE;
    ignore(1, 0);
}

REPLACES void AnnotateIgnoreReadsEnd(PLACE)
{
    NO_PLACE;
    ignore(-1, 0);
}

REPLACES void AnnotateIgnoreWritesBegin(PLACE)
{
    NO_PLACE;
    ignore(0, 1);
}

REPLACES void AnnotateIgnoreWritesEnd(PLACE)
{
    NO_PLACE;
    ignore(0, -1);
}

/* What has no word in a trace. */
#define UNSAID(name, ...)                    \
    REPLACES void name(PLACE, ##__VA_ARGS__) \
    {                                        \
        count(COUNT_UNSAID);                 \
    }
#pragma GCC diagnostic ignored "-Wunused-parameter"
UNSAID(AnnotateIgnoreSyncBegin)
UNSAID(AnnotateIgnoreSyncEnd)
UNSAID(AnnotateCondVarSignal, const volatile void *condition)
UNSAID(AnnotateCondVarSignalAll, const volatile void *condition)
UNSAID(AnnotateCondVarWait, const volatile void *condition, const volatile void *lock)
UNSAID(AnnotateMutexIsNotPHB, const volatile void *lock)
UNSAID(AnnotateMutexIsUsedAsCondVar, const volatile void *lock)
UNSAID(AnnotatePublishMemoryRange, const volatile void *address, size_t length)
UNSAID(AnnotateUnpublishMemoryRange, const volatile void *address, size_t length)
UNSAID(AnnotatePCQCreate, const volatile void *queue)
UNSAID(AnnotatePCQDestroy, const volatile void *queue)
UNSAID(AnnotatePCQPut, const volatile void *queue)
UNSAID(AnnotatePCQGet, const volatile void *queue)
UNSAID(AnnotateEnableRaceDetection, int is_enabled)

/* What means nothing to a trace. */
REPLACES void AnnotateExpectRace(PLACE, const volatile void *address, const char *reason) {}
REPLACES void AnnotateFlushExpectedRaces(PLACE) {}
REPLACES void AnnotateFlushState(PLACE) {}
REPLACES void AnnotateMemoryIsInitialized(PLACE, const volatile void *address, size_t length) {}
REPLACES void AnnotateMemoryIsUninitialized(PLACE, const volatile void *address, size_t length) {}
REPLACES void AnnotateNoOp(PLACE, const volatile void *address) {}
REPLACES void AnnotateThreadName(PLACE, const char *name) {}
REPLACES void AnnotateTraceMemory(PLACE, const volatile void *address) {}

REPLACES int RunningOnValgrind(void)
{
    return 0;
}

REPLACES double ValgrindSlowdown(void)
{
    return 1;
}
