/* A semaphore hands a value over: the first of five posts, since nothing is written between them.
   expect threads 2, locks 0, races none, told 5 semaphore, lines send 1 recv 1 */
#include <semaphore.h>

#include "threads.h"

int value;
static sem_t is_ready;

static void *take(void *ignored)
{
    for (int i = 0; i < 5; i++) {
        sem_wait(&is_ready);
    }
    value++;
    return ignored;
}

int main(void)
{
    pthread_t taker;
    sem_init(&is_ready, 0, 0);
    pthread_create(&taker, NULL, take, NULL);
    value = 1;
    for (int i = 0; i < 5; i++) {
        sem_post(&is_ready);
    }
    pthread_join(taker, NULL);
    return 0;
}
