/* Both threads change `value` under the lock, one after the other by luck, and the second one then changes it with no lock. It has read under
   the lock what the first one wrote, but that read itself comes before what it takes over: `value` is shared, and reported.
   expect threads 3, locks 1, races value, lines send 1 recv 1 */
#include "threads.h"

int value;
static pthread_mutex_t lock = PTHREAD_MUTEX_INITIALIZER;

static void *work(void *number)
{
    if (number) {
        wait_for_turn(1);
    }
    pthread_mutex_lock(&lock);
    value++;
    pthread_mutex_unlock(&lock);
    if (number) {
        value++;
    } else {
        give_turn(1);
    }
    return NULL;
}

int main(void)
{
    make_turns();
    run_threads(2, work);
    return 0;
}
