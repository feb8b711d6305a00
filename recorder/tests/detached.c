/* Detached threads are never joined, and their handles are used again: one after them is joined, and it is the right one. Each begins when
   main has read under the lock that the one before it is done, so `left` is handed over.
   expect threads 12, locks 1, races none, lines join 1 fork 11 */
#include "threads.h"

int done, left;
static pthread_mutex_t lock = PTHREAD_MUTEX_INITIALIZER;

static void *work(void *ignored)
{
    left++;
    pthread_mutex_lock(&lock);
    done++;
    pthread_mutex_unlock(&lock);
    return ignored;
}

static int all_done(int wanted)
{
    pthread_mutex_lock(&lock);
    int is_so = done >= wanted;
    pthread_mutex_unlock(&lock);
    return is_so;
}

int main(void)
{
    pthread_t thread;
    for (int i = 0; i < 10; i++) {
        pthread_create(&thread, NULL, work, NULL);
        pthread_detach(thread);
        while (!all_done(i + 1)) {
            sleep_a_little();
        }
        sleep_a_little();
    }
    pthread_create(&thread, NULL, work, NULL);
    pthread_join(thread, NULL);
    return 0;
}
