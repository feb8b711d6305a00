/* An atomic flag hands `value` over. A loop that waits for the flag is written as often as it sees another value.
   expect threads 2, locks 0, races none, comments load store, lines #load 2 #store 1 send 1 recv 1 */
#include <stdatomic.h>

#include "threads.h"

int value;
static _Atomic int is_ready;

static void *take(void *ignored)
{
    if (atomic_load_explicit(&is_ready, memory_order_acquire)) {
        abort();
    }
    give_turn(0);
    while (!atomic_load_explicit(&is_ready, memory_order_acquire)) {
    }
    value++;
    return ignored;
}

int main(void)
{
    pthread_t taker;
    make_turns();
    pthread_create(&taker, NULL, take, NULL);
    value = 1;
    wait_for_turn(0);
    atomic_store_explicit(&is_ready, 1, memory_order_release);
    pthread_join(taker, NULL);
    return 0;
}
