/* A lock of the program's own, made of an atomic: what it protects is handed over with it.
   expect threads 4, locks 0, races none, events send recv, comments load store */
#include <sched.h>
#include <stdatomic.h>

#include "threads.h"

int counter;
static _Atomic int lock;

static void *work(void *ignored)
{
    for (int i = 0; i < 20; i++) {
        while (atomic_exchange_explicit(&lock, 1, memory_order_acquire)) {
            sched_yield();
        }
        counter++;
        atomic_store_explicit(&lock, 0, memory_order_release);
    }
    return ignored;
}

int main(void)
{
    run_threads(3, work);
    return 0;
}
