/* A thread that is cancelled while it waits has the mutex when it is cleaned up, and ends with a lock that it never lets go.
   expect threads 3, locks 2, races none, lines join 2 */
#include "threads.h"

int value;
static pthread_mutex_t lock = PTHREAD_MUTEX_INITIALIZER, kept[1] = {PTHREAD_MUTEX_INITIALIZER};
static pthread_cond_t never = PTHREAD_COND_INITIALIZER;

static void clean_up(void *ignored)
{
    (void)ignored;
    value++;
    pthread_mutex_unlock(&lock);
}

static void *wait_for_it(void *number)
{
    if (!number) {
        pthread_mutex_lock(&kept[0]);
    }
    pthread_mutex_lock(&lock);
    value++;
    pthread_cleanup_push(clean_up, NULL);
    for (;;) {
        pthread_cond_wait(&never, &lock);
    }
    pthread_cleanup_pop(0);
    return NULL;
}

int main(void)
{
    pthread_t threads[2];
    for (int i = 0; i < 2; i++) {
        pthread_create(&threads[i], NULL, wait_for_it, (void *)(intptr_t)i);
    }
    sleep_a_little();
    for (int i = 0; i < 2; i++) {
        pthread_cancel(threads[i]);
        pthread_join(threads[i], NULL);
    }
    return 0;
}
