/* A worker makes a result, and tells so by a condition variable; main waits for it, and goes on with the result. What orders them is the
   condition variable, and what main reads under its mutex.
   expect threads 2, locks 1, races none, events send recv */
#include "threads.h"

int result, is_done;
static pthread_mutex_t lock = PTHREAD_MUTEX_INITIALIZER;
static pthread_cond_t done = PTHREAD_COND_INITIALIZER;

static void *work(void *ignored)
{
    result = 6;
    pthread_mutex_lock(&lock);
    is_done = 1;
    pthread_cond_signal(&done);
    pthread_mutex_unlock(&lock);
    return ignored;
}

int main(void)
{
    pthread_t worker;
    pthread_mutex_lock(&lock);
    pthread_create(&worker, NULL, work, NULL);
    while (!is_done) {
        pthread_cond_wait(&done, &lock);
    }
    pthread_mutex_unlock(&lock);
    result *= 7;
    pthread_join(worker, NULL);
    return 0;
}
