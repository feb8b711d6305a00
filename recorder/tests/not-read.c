/* As in hidden-by-luck.c, but what the second thread does under the lock reads nothing that the first one wrote: that the lock came to it
   after the other is luck and no hand-over, and the race of `value` is reported.
   expect threads 3, locks 1, races value, lines send 0 recv 0 */
#include "threads.h"

int value, counters[2];
static pthread_mutex_t lock = PTHREAD_MUTEX_INITIALIZER;

static void *work(void *number)
{
    if (number) {
        wait_for_turn(1);
    } else {
        value++;
    }
    pthread_mutex_lock(&lock);
    counters[(intptr_t)number]++;
    pthread_mutex_unlock(&lock);
    if (number) {
        value++;
    } else {
        give_turn(1);
    }
    return NULL;
}

int main(void)
{
    make_turns();
    run_threads(2, work);
    return 0;
}
