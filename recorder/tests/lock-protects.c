/* Four threads count under one lock.
   expect threads 5, locks 1, races none */
#include "threads.h"

int counter;
static pthread_mutex_t lock = PTHREAD_MUTEX_INITIALIZER;

static void *count(void *ignored)
{
    for (int i = 0; i < 50; i++) {
        pthread_mutex_lock(&lock);
        counter++;
        pthread_mutex_unlock(&lock);
    }
    return ignored;
}

int main(void)
{
    run_threads(4, count);
    return 0;
}
