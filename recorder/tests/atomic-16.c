/* Atomics of 16 bytes are no accesses of memory: they are comments, as the others are.
 * expect threads 3, locks 0, races none, comments load store
 */
#include "threads.h"

typedef unsigned __int128 uint128;
uint128 __tsan_atomic128_load(const volatile void *atomic, int order);
void __tsan_atomic128_store(volatile void *atomic, uint128 value, int order);
uint128 __tsan_atomic128_fetch_add(volatile void *atomic, uint128 value, int order);
_Bool __tsan_atomic128_compare_exchange_strong(volatile void *atomic, void *expected, uint128 value, int order, int failure);

static uint128 counter;

static void *count(void *given)
{
    for (int i = 0; i < 1000; i++) {
        uint128 seen = __tsan_atomic128_load(&counter, 5);
        while (!__tsan_atomic128_compare_exchange_strong(&counter, &seen, seen + ((uint128)1 << 64), 5, 5)) {
        }
        __tsan_atomic128_fetch_add(&counter, 1, 5);
    }
    return given;
}

int main(void)
{
    __tsan_atomic128_store(&counter, 0, 5);
    run_threads(2, count);
    return __tsan_atomic128_load(&counter, 5) == (((uint128)2000 << 64) | 2000) ? 0 : 1;
}
