/* 64 threads: what they count under the lock is right, and `seen` is not.
   expect threads 65, locks 1, races seen */
#include "threads.h"

int counter, seen;
static pthread_mutex_t lock = PTHREAD_MUTEX_INITIALIZER;

static void *count(void *ignored)
{
    for (int i = 0; i < 10; i++) {
        pthread_mutex_lock(&lock);
        counter++;
        pthread_mutex_unlock(&lock);
        seen++;
    }
    return ignored;
}

int main(void)
{
    run_threads(64, count);
    return 0;
}
