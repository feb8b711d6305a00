/* The trace ends before the lock above 65535; the program does not. A lock that is made anew keeps its number.
   expect threads 3, locks 65536, races counter, status 9, told more than 65,536 locks */
#include "threads.h"

int counter, later;
static pthread_mutex_t locks[66000];

static void *count(void *ignored)
{
    counter++;
    return ignored;
}

static void *spoil(void *ignored)
{
    later++;
    return ignored;
}

static void use(pthread_mutex_t *lock)
{
    pthread_mutex_init(lock, NULL);
    pthread_mutex_lock(lock);
    pthread_mutex_unlock(lock);
    pthread_mutex_destroy(lock);
}

int main(void)
{
    run_threads(2, count);
    for (int i = 0; i < 1000; i++) {
        use(&locks[0]);
    }
    for (int i = 0; i < 66000; i++) {
        use(&locks[i]);
    }
    run_threads(2, spoil);
    return later ? 9 : 1;
}
