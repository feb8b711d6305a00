/* Three threads come by what is made once: whoever finds it made changes it under a lock that the maker did not hold.
   expect threads 4, locks 1, races none, events send recv */
#include "threads.h"

static pthread_once_t is_made = PTHREAD_ONCE_INIT;
static pthread_mutex_t lock = PTHREAD_MUTEX_INITIALIZER;
int made[4];

static void make(void)
{
    for (int i = 0; i < 4; i++) {
        made[i] = i;
    }
    sleep_a_little();
}

static void *work(void *ignored)
{
    pthread_once(&is_made, make);
    pthread_mutex_lock(&lock);
    made[1]++;
    pthread_mutex_unlock(&lock);
    return ignored;
}

int main(void)
{
    run_threads(3, work);
    return 0;
}
