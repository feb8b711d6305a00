/* `value` is written by both threads without a lock. In this run the first one has let the lock go before the second one takes it, and what
   the second one reads under the lock was written by the first: that is a hand-over, and the race is not seen. Without messages it is.
   expect threads 3, locks 1, races none, events send recv */
#include "threads.h"

int value, counter;
static pthread_mutex_t lock = PTHREAD_MUTEX_INITIALIZER;

static void *work(void *number)
{
    if (number) {
        wait_for_turn(1);
    } else {
        value++;
    }
    pthread_mutex_lock(&lock);
    counter++;
    pthread_mutex_unlock(&lock);
    if (number) {
        value++;
    } else {
        give_turn(1);
    }
    return NULL;
}

int main(void)
{
    make_turns();
    run_threads(2, work);
    return 0;
}
