/* A table is made under a reader-writer lock for writing, and found under it for reading; its rows are then the finder's. Two holds for reading
   hand nothing over: `hits` is written under them.
   expect threads 3, locks 1, races hits, events send recv */
#include "threads.h"

static pthread_rwlock_t lock = PTHREAD_RWLOCK_INITIALIZER;
static int made, rows[2];
int hits;

static void *work(void *number)
{
    int is_made = 0;
    while (!is_made) {
        pthread_rwlock_rdlock(&lock);
        is_made = made;
        hits += is_made;
        pthread_rwlock_unlock(&lock);
        sleep_a_little();
    }
    rows[(intptr_t)number]++;
    return NULL;
}

int main(void)
{
    pthread_t threads[2];
    for (int i = 0; i < 2; i++) {
        pthread_create(&threads[i], NULL, work, (void *)(intptr_t)i);
    }
    rows[0] = rows[1] = 1;
    pthread_rwlock_wrlock(&lock);
    made = 1;
    pthread_rwlock_unlock(&lock);
    for (int i = 0; i < 2; i++) {
        pthread_join(threads[i], NULL);
    }
    return 0;
}
