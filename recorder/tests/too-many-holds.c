/* A thread that holds 64 locks has no more of them in the trace.
   expect threads 2, locks 64, races none, told 6 holds */
#include "threads.h"

int counter;
static pthread_mutex_t locks[70];

static void *count(void *ignored)
{
    for (int i = 0; i < 70; i++) {
        pthread_mutex_lock(&locks[i]);
    }
    counter++;
    for (int i = 0; i < 70; i++) {
        pthread_mutex_unlock(&locks[i]);
    }
    return ignored;
}

int main(void)
{
    run_threads(1, count);
    return 0;
}
