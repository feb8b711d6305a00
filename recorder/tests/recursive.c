/* Of a recursive lock the outermost hold is in the trace: 20 of them, whatever is held inside.
   expect threads 3, locks 1, races none, lines lock 20 unlock 20 */
#include "threads.h"

int counter;
static pthread_mutex_t lock;

static void count(int depth)
{
    pthread_mutex_lock(&lock);
    counter++;
    if (depth) {
        count(depth - 1);
        if (pthread_mutex_trylock(&lock)) {
            abort();
        }
        counter++;
        pthread_mutex_unlock(&lock);
    }
    pthread_mutex_unlock(&lock);
}

static void *work(void *ignored)
{
    for (int i = 0; i < 10; i++) {
        count(3);
    }
    return ignored;
}

int main(void)
{
    pthread_mutexattr_t attributes;
    pthread_mutexattr_init(&attributes);
    pthread_mutexattr_settype(&attributes, PTHREAD_MUTEX_RECURSIVE);
    pthread_mutex_init(&lock, &attributes);
    run_threads(2, work);
    return 0;
}
