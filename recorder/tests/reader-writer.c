/* Readers and writers of `table` take the lock in the right mode; `hits` is written under the lock in read mode.
   expect threads 4, locks 1, races hits */
#include "threads.h"

int table, hits;
static pthread_rwlock_t lock = PTHREAD_RWLOCK_INITIALIZER;

static void *use(void *number)
{
    struct timespec soon = {.tv_sec = time(NULL) + 60};
    for (int i = 0; i < 20; i++) {
        if (number) {
            if (pthread_rwlock_timedrdlock(&lock, &soon)) {
                abort();
            }
            hits += table;
        } else {
            pthread_rwlock_wrlock(&lock);
            table++;
        }
        pthread_rwlock_unlock(&lock);
    }
    return NULL;
}

int main(void)
{
    run_threads(3, use);
    return 0;
}
