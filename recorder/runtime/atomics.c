/* Atomic accesses. No other thread makes one of the same atomic between an access and its event: so the events of an atomic stand in the order
 * of its values, and a load stands behind the store that it read. hgd-record makes messages of them; and each is a comment of the trace: a
 * `#load`, a `#store`, both for one that does both.
 */
#include "recorder.h"

/* Every access is made in the strongest order; the one that the program wrote stands in the comment. */
#define ORDER memory_order_seq_cst

enum { PLACES = 4096 };

/* What is locked for it, by a hash of the address. */
static struct line places[PLACES];

static bool is_wanted(void)
{
    return is_recording() && (ring->comments || ring->messages);
}

/* Null where nothing is recorded. It is part of its caller, whose frame is the one that records. */
static inline __attribute__((always_inline)) struct line *begin_atomic(const volatile void *address)
{
    if (is_recording()) {
        count(COUNT_ATOMICS);
    }
    if (!is_wanted() || !begin_event()) {
        return NULL;
    }
    struct line *line = &places[((uintptr_t)address >> 3) * 0x9E3779B97F4A7C15ull >> 52];
    lock_line(line);
    return line;
}

static void end_atomic(struct line *line)
{
    unlock_line(line);
    end_event();
}

static void end_load(struct line *line, const volatile void *address, size_t length, uint64_t value, int order, uintptr_t code)
{
    if (line) {
        publish_atomic(KIND_ATOMIC_LOAD, (uintptr_t)address, (uint32_t)length, value, (unsigned)order, code);
        end_atomic(line);
    }
}

static void end_store(struct line *line, const volatile void *address, size_t length, uint64_t value, int order, uintptr_t code)
{
    if (line) {
        publish_atomic(KIND_ATOMIC_STORE, (uintptr_t)address, (uint32_t)length, value, (unsigned)order, code);
        end_atomic(line);
    }
}

static void end_update(struct line *line, const volatile void *address, size_t length, uint64_t old, uint64_t new, int order, uintptr_t code)
{
    if (line) {
        publish_atomic(KIND_ATOMIC_LOAD, (uintptr_t)address, (uint32_t)length, old, (unsigned)order | ATOMIC_UPDATE, code);
        publish_atomic(KIND_ATOMIC_STORE, (uintptr_t)address, (uint32_t)length, new, (unsigned)order | ATOMIC_UPDATE, code);
        end_atomic(line);
    }
}

/* A loop that waits keeps nobody from storing: what it has loaded already is no event. */
static bool is_loaded_already(const volatile void *address, uint64_t value, int order)
{
    return self.latest_load == (uintptr_t)address && self.latest_value == value && self.latest_order == (unsigned)order;
}

#define UPDATE(bits, type, name, function, result)                                                           \
    CALLED_BY_COMPILER type __tsan_atomic##bits##_##name(volatile type *atomic, type value, int order)       \
    {                                                                                                        \
        struct line *line = begin_atomic(atomic);                                                            \
        type old = function(atomic, value, ORDER);                                                           \
        end_update(line, atomic, sizeof *atomic, old, (type)(result), order, CALLER);                        \
        return old;                                                                                          \
    }

/* A comparison that fails is a load alone. */
#define COMPARE(bits, type)                                                                                  \
    static bool compare##bits(volatile type *atomic, type *expected, type value, int order, int failure, uintptr_t code) \
    {                                                                                                        \
        struct line *line = begin_atomic(atomic);                                                            \
        type found = *expected;                                                                              \
        bool is_exchanged = __atomic_compare_exchange_n(atomic, &found, value, false, ORDER, ORDER);         \
        if (is_exchanged) {                                                                                  \
            end_update(line, atomic, sizeof *atomic, found, value, order, code);                             \
        } else {                                                                                             \
            end_load(line, atomic, sizeof *atomic, found, failure, code);                                    \
        }                                                                                                    \
        *expected = found;                                                                                   \
        return is_exchanged;                                                                                 \
    }

#define COMPARISONS(bits, type)                                                                              \
    CALLED_BY_COMPILER int __tsan_atomic##bits##_compare_exchange_strong(                                    \
        volatile type *atomic, type *expected, type value, int order, int failure)                           \
    {                                                                                                        \
        return compare##bits(atomic, expected, value, order, failure, CALLER);                               \
    }                                                                                                        \
    CALLED_BY_COMPILER int __tsan_atomic##bits##_compare_exchange_weak(                                      \
        volatile type *atomic, type *expected, type value, int order, int failure)                           \
    {                                                                                                        \
        return compare##bits(atomic, expected, value, order, failure, CALLER);                               \
    }                                                                                                        \
    CALLED_BY_COMPILER type __tsan_atomic##bits##_compare_exchange_val(                                      \
        volatile type *atomic, type expected, type value, int order, int failure)                            \
    {                                                                                                        \
        compare##bits(atomic, &expected, value, order, failure, CALLER);                                     \
        return expected;                                                                                     \
    }

#define ATOMICS(bits, type)                                                                                  \
    CALLED_BY_COMPILER type __tsan_atomic##bits##_load(const volatile type *atomic, int order)               \
    {                                                                                                        \
        type value = __atomic_load_n(atomic, ORDER);                                                         \
        if (is_loaded_already(atomic, value, order)) {                                                       \
            return value;                                                                                    \
        }                                                                                                    \
        struct line *line = begin_atomic(atomic);                                                            \
        value = __atomic_load_n(atomic, ORDER);                                                              \
        end_load(line, atomic, sizeof *atomic, value, order, CALLER);                                        \
        return value;                                                                                        \
    }                                                                                                        \
    CALLED_BY_COMPILER void __tsan_atomic##bits##_store(volatile type *atomic, type value, int order)        \
    {                                                                                                        \
        struct line *line = begin_atomic(atomic);                                                            \
        __atomic_store_n(atomic, value, ORDER);                                                              \
        end_store(line, atomic, sizeof *atomic, value, order, CALLER);                                       \
    }                                                                                                        \
    UPDATE(bits, type, exchange, __atomic_exchange_n, value)                                                 \
    UPDATE(bits, type, fetch_add, __atomic_fetch_add, old + value)                                           \
    UPDATE(bits, type, fetch_sub, __atomic_fetch_sub, old - value)                                           \
    UPDATE(bits, type, fetch_and, __atomic_fetch_and, old &value)                                            \
    UPDATE(bits, type, fetch_or, __atomic_fetch_or, old | value)                                             \
    UPDATE(bits, type, fetch_xor, __atomic_fetch_xor, old ^ value)                                           \
    UPDATE(bits, type, fetch_nand, __atomic_fetch_nand, ~(old & value))                                      \
    COMPARE(bits, type)                                                                                      \
    COMPARISONS(bits, type)

ATOMICS(8, uint8_t)
ATOMICS(16, uint16_t)
ATOMICS(32, uint32_t)
ATOMICS(64, uint64_t)

/* Of 16 bytes the processor has one operation. */
typedef unsigned __int128 uint128;

static uint128 exchange_if(volatile uint128 *atomic, uint128 expected, uint128 value)
{
    return __sync_val_compare_and_swap(atomic, expected, value);
}

/* A load may store what stands there again, so the memory has to be one that can be written. */
static uint128 load_16_bytes(const volatile uint128 *atomic)
{
    return exchange_if((volatile uint128 *)atomic, 0, 0);
}

static uint64_t half_of(uint128 value)
{
    return (uint64_t)(value ^ value >> 64);
}

#define UPDATE_16_BYTES(name, result)                                                                        \
    CALLED_BY_COMPILER uint128 __tsan_atomic128_##name(volatile uint128 *atomic, uint128 value, int order)   \
    {                                                                                                        \
        struct line *line = begin_atomic(atomic);                                                            \
        uint128 old = load_16_bytes(atomic), found;                                                          \
        while ((found = exchange_if(atomic, old, result)) != old) {                                          \
            old = found;                                                                                     \
        }                                                                                                    \
        end_update(line, atomic, sizeof *atomic, half_of(old), half_of(result), order, CALLER);              \
        return old;                                                                                          \
    }

UPDATE_16_BYTES(exchange, value)
UPDATE_16_BYTES(fetch_add, old + value)
UPDATE_16_BYTES(fetch_sub, old - value)
UPDATE_16_BYTES(fetch_and, old &value)
UPDATE_16_BYTES(fetch_or, old | value)
UPDATE_16_BYTES(fetch_xor, old ^ value)
UPDATE_16_BYTES(fetch_nand, ~(old & value))

CALLED_BY_COMPILER uint128 __tsan_atomic128_load(const volatile uint128 *atomic, int order)
{
    uint128 value = load_16_bytes(atomic);
    if (is_loaded_already(atomic, half_of(value), order)) {
        return value;
    }
    struct line *line = begin_atomic(atomic);
    value = load_16_bytes(atomic);
    end_load(line, atomic, sizeof *atomic, half_of(value), order, CALLER);
    return value;
}

CALLED_BY_COMPILER void __tsan_atomic128_store(volatile uint128 *atomic, uint128 value, int order)
{
    struct line *line = begin_atomic(atomic);
    uint128 old = load_16_bytes(atomic), found;
    while ((found = exchange_if(atomic, old, value)) != old) {
        old = found;
    }
    end_store(line, atomic, sizeof *atomic, half_of(value), order, CALLER);
}

static bool compare128(volatile uint128 *atomic, uint128 *expected, uint128 value, int order, int failure, uintptr_t code)
{
    struct line *line = begin_atomic(atomic);
    uint128 found = exchange_if(atomic, *expected, value);
    bool is_exchanged = found == *expected;
    if (is_exchanged) {
        end_update(line, atomic, sizeof *atomic, half_of(found), half_of(value), order, code);
    } else {
        end_load(line, atomic, sizeof *atomic, half_of(found), failure, code);
    }
    *expected = found;
    return is_exchanged;
}

COMPARISONS(128, uint128)

CALLED_BY_COMPILER void __tsan_atomic_thread_fence(int order)
{
    __atomic_thread_fence(ORDER);
    if (is_wanted() && begin_event()) {
        count(COUNT_ATOMICS);
        publish_atomic(KIND_FENCE, 0, 0, 0, (unsigned)order, CALLER);
        end_event();
    }
}

CALLED_BY_COMPILER void __tsan_atomic_signal_fence(int order)
{
    (void)order;
}

/* ---- static variables of C++ that are made when they are first met ---- */

/* The compiler itself looks at the guard's first byte by an atomic load: what is handed over by it stands there. */
extern int __cxa_guard_acquire(int64_t *guard);
extern void __cxa_guard_release(int64_t *guard);

REPLACES int __cxa_guard_acquire(int64_t *guard)
{
    int is_to_be_made = REAL(__cxa_guard_acquire)(guard);
    if (!is_to_be_made) {
        end_load(begin_atomic(guard), guard, 1, 1, memory_order_acquire, CALLER);
    }
    return is_to_be_made;
}

REPLACES void __cxa_guard_release(int64_t *guard)
{
    end_store(begin_atomic(guard), guard, 1, 1, memory_order_release, CALLER);
    REAL(__cxa_guard_release)(guard);
}
