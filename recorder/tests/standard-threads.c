/* Threads, mutexes and condition variables of C11.
   expect threads 3, locks 1, races unprotected, events send recv */
#include <threads.h>

#include "threads.h"

int protected, unprotected, is_ready, waiting;
static mtx_t lock;
static cnd_t ready;

static int work(void *ignored)
{
    (void)ignored;
    unprotected++;
    mtx_lock(&lock);
    waiting++;
    while (!is_ready) {
        cnd_wait(&ready, &lock);
    }
    protected++;
    mtx_unlock(&lock);
    return 42;
}

int main(void)
{
    thrd_t threads[2];
    mtx_init(&lock, mtx_plain);
    cnd_init(&ready);
    for (int i = 0; i < 2; i++) {
        thrd_create(&threads[i], work, NULL);
    }
    mtx_lock(&lock);
    while (waiting < 2) {
        mtx_unlock(&lock);
        sleep_a_little();
        mtx_lock(&lock);
    }
    is_ready = 1;
    cnd_broadcast(&ready);
    mtx_unlock(&lock);
    for (int i = 0; i < 2; i++) {
        int result;
        if (thrd_join(threads[i], &result) != thrd_success || result != 42) {
            return 1;
        }
    }
    return 0;
}
