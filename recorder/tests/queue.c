/* A job is written by one thread, handed over through a queue under a mutex and a condition variable, and changed by the other. The
   consumer reads under the mutex that there is a job, so it is handed over. Without messages it is reported.
   expect threads 2, locks 1, races none, events send recv */
#include "threads.h"

int job, queued, waiting;
static pthread_mutex_t lock = PTHREAD_MUTEX_INITIALIZER;
static pthread_cond_t is_queued = PTHREAD_COND_INITIALIZER;

static void *consume(void *ignored)
{
    pthread_mutex_lock(&lock);
    waiting = 1;
    while (!queued) {
        pthread_cond_wait(&is_queued, &lock);
    }
    pthread_mutex_unlock(&lock);
    job++;
    return ignored;
}

int main(void)
{
    pthread_t consumer;
    pthread_create(&consumer, NULL, consume, NULL);
    job = 7;
    pthread_mutex_lock(&lock);
    while (!waiting) {
        pthread_mutex_unlock(&lock);
        sleep_a_little();
        pthread_mutex_lock(&lock);
    }
    queued = 1;
    pthread_cond_signal(&is_queued);
    pthread_mutex_unlock(&lock);
    pthread_join(consumer, NULL);
    return 0;
}
