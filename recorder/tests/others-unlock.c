/* One thread lets go what another one holds: in the trace the holder does. The lock protects nothing for it any more.
   expect threads 3, locks 1, races late, told 1 locks were let go */
#include "threads.h"

int late;
static pthread_mutex_t lock = PTHREAD_MUTEX_INITIALIZER;

static void *work(void *number)
{
    if (!number) {
        pthread_mutex_lock(&lock);
        give_turn(1);
        wait_for_turn(0);
        late++;
    } else {
        wait_for_turn(1);
        pthread_mutex_unlock(&lock);
        pthread_mutex_lock(&lock);
        late++;
        pthread_mutex_unlock(&lock);
        give_turn(0);
    }
    return NULL;
}

int main(void)
{
    make_turns();
    run_threads(2, work);
    return 0;
}
