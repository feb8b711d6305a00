/* A flag that is stored and loaded with no order hands nothing over.
   expect threads 2, locks 0, races value, comments load store, lines send 0 recv 0 */
#include <stdatomic.h>

#include "threads.h"

int value;
static _Atomic int is_ready;

static void *take(void *ignored)
{
    while (!atomic_load_explicit(&is_ready, memory_order_relaxed)) {
        sleep_a_little();
    }
    value++;
    return ignored;
}

int main(void)
{
    pthread_t taker;
    pthread_create(&taker, NULL, take, NULL);
    value = 1;
    atomic_store_explicit(&is_ready, 1, memory_order_relaxed);
    pthread_join(taker, NULL);
    return 0;
}
