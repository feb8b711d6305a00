/* Jobs go through a queue under a mutex to three workers that look again and again, and their results go back in the same way: none of it
   waits for a condition. The jobs are changed with no lock.
   expect threads 4, locks 1, races none, events send recv */
#include "threads.h"

enum { JOBS = 60 };

struct job {
    int number, result;
};

static struct job jobs[JOBS];
static int queued, taken, finished;
static pthread_mutex_t lock = PTHREAD_MUTEX_INITIALIZER;

static int next_job(void)
{
    pthread_mutex_lock(&lock);
    int next = taken < queued ? taken++ : taken < JOBS ? -1 : JOBS;
    pthread_mutex_unlock(&lock);
    return next;
}

static void *work(void *ignored)
{
    for (int next = next_job(); next < JOBS; next = next_job()) {
        if (next < 0) {
            sched_yield();
            continue;
        }
        jobs[next].result = jobs[next].number * 2;
        pthread_mutex_lock(&lock);
        finished++;
        pthread_mutex_unlock(&lock);
    }
    return ignored;
}

static int all_finished(void)
{
    pthread_mutex_lock(&lock);
    int are_all = finished == JOBS;
    pthread_mutex_unlock(&lock);
    return are_all;
}

int main(void)
{
    pthread_t threads[3];
    for (int i = 0; i < 3; i++) {
        pthread_create(&threads[i], NULL, work, NULL);
    }
    for (int i = 0; i < JOBS; i++) {
        jobs[i].number = i;
        pthread_mutex_lock(&lock);
        queued++;
        pthread_mutex_unlock(&lock);
    }
    while (!all_finished()) {
        sched_yield();
    }
    int sum = 0;
    for (int i = 0; i < JOBS; i++) {
        sum += jobs[i].result--;
    }
    for (int i = 0; i < 3; i++) {
        pthread_join(threads[i], NULL);
    }
    return sum != JOBS * (JOBS - 1);
}
