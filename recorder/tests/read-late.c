/* The hand-over is read long after it was written, when its unlock is in the trace already: the message stands later, and is there.
   expect threads 2, locks 1, races none, lines send 1 recv 1, told 1 of them later */
#include "threads.h"

int job, queued;
static pthread_mutex_t lock = PTHREAD_MUTEX_INITIALIZER;

static void *work(void *ignored)
{
    wait_for_turn(1);
    for (int i = 0; i < 1100; i++) {
        sleep_a_little();
    }
    pthread_mutex_lock(&lock);
    int is_there = queued;
    pthread_mutex_unlock(&lock);
    job += is_there;
    return ignored;
}

int main(void)
{
    pthread_t thread;
    make_turns();
    pthread_create(&thread, NULL, work, NULL);
    job = 1;
    pthread_mutex_lock(&lock);
    queued = 1;
    pthread_mutex_unlock(&lock);
    give_turn(1);
    pthread_join(thread, NULL);
    return 0;
}
