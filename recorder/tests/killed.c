/* A program that ends in the midst, while its threads work on, has all in its trace up to what they were at.
   expect threads 3, locks 1, races counter, status 137 */
#include <signal.h>

#include "threads.h"

int counter, protected;
static pthread_mutex_t lock = PTHREAD_MUTEX_INITIALIZER;

static void *work_on(void *ignored)
{
    counter++;
    give_turn(0);
    wait_for_turn(1);
    for (;;) {
        pthread_mutex_lock(&lock);
        protected++;
        pthread_mutex_unlock(&lock);
    }
    return ignored;
}

int main(void)
{
    pthread_t threads[2];
    make_turns();
    for (int i = 0; i < 2; i++) {
        pthread_create(&threads[i], NULL, work_on, NULL);
    }
    pthread_mutex_lock(&lock);
    pthread_mutex_unlock(&lock);
    for (int i = 0; i < 2; i++) {
        wait_for_turn(0);
    }
    for (int i = 0; i < 2; i++) {
        give_turn(1);
    }
    sleep_a_little();
    kill(getpid(), SIGKILL);
    return 0;
}
