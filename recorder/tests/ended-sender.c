/* Who handed over was joined long before it is read: the thread that joined it sends in its place.
   expect threads 3, locks 1, races none, lines send 1 recv 1 */
#include "threads.h"

int job, queued;
static pthread_mutex_t lock = PTHREAD_MUTEX_INITIALIZER;

static void *put(void *ignored)
{
    job = 1;
    pthread_mutex_lock(&lock);
    queued = 1;
    pthread_mutex_unlock(&lock);
    return ignored;
}

static void *take(void *ignored)
{
    wait_for_turn(1);
    for (int i = 0; i < 1100; i++) {
        sleep_a_little();
    }
    pthread_mutex_lock(&lock);
    int is_there = queued;
    pthread_mutex_unlock(&lock);
    job += is_there;
    return ignored;
}

int main(void)
{
    pthread_t putter, taker;
    make_turns();
    pthread_create(&taker, NULL, take, NULL);
    pthread_create(&putter, NULL, put, NULL);
    pthread_join(putter, NULL);
    give_turn(1);
    pthread_join(taker, NULL);
    return 0;
}
