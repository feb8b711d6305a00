/* Spin locks, locks that are tried, locks that are waited for in vain: what was not taken is not in the trace.
   expect threads 3, locks 2, races none, lines lock 41 unlock 41 */
#include "threads.h"

int counter, other;
static pthread_spinlock_t spin;
static pthread_mutex_t lock = PTHREAD_MUTEX_INITIALIZER;

static void *count(void *ignored)
{
    struct timespec past = {0};
    if (!pthread_mutex_timedlock(&lock, &past) || !pthread_mutex_trylock(&lock)) {
        abort();
    }
    for (int i = 0; i < 20; i++) {
        if (i % 2) {
            pthread_spin_lock(&spin);
        } else {
            while (pthread_spin_trylock(&spin)) {
            }
        }
        counter++;
        pthread_spin_unlock(&spin);
    }
    return ignored;
}

int main(void)
{
    pthread_spin_init(&spin, 0);
    pthread_mutex_lock(&lock);
    run_threads(2, count);
    pthread_mutex_unlock(&lock);
    return 0;
}
