/* What a thread does after it has posted is not handed over, also where the semaphore is waited for long after.
   expect threads 2, locks 0, races late, lines send 1 recv 1 */
#include <semaphore.h>

#include "threads.h"

int early, late;
static sem_t is_posted;

static void *work(void *ignored)
{
    wait_for_turn(1);
    for (int i = 0; i < 1100; i++) {
        sleep_a_little();
    }
    sem_wait(&is_posted);
    early++;
    late++;
    return ignored;
}

int main(void)
{
    pthread_t thread;
    make_turns();
    sem_init(&is_posted, 0, 0);
    pthread_create(&thread, NULL, work, NULL);
    early++;
    sem_post(&is_posted);
    late++;
    give_turn(1);
    pthread_join(thread, NULL);
    return 0;
}
