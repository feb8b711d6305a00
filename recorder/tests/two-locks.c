/* Each thread has a lock of its own, which protects nothing from the other.
   expect threads 3, locks 2, races value */
#include "threads.h"

int value;
static pthread_mutex_t locks[2] = {PTHREAD_MUTEX_INITIALIZER, PTHREAD_MUTEX_INITIALIZER};

static void change(int number)
{
    pthread_mutex_lock(&locks[number]);
    value++;
    pthread_mutex_unlock(&locks[number]);
}

static void *take_turns(void *given)
{
    int number = (int)(intptr_t)given;
    for (int i = 0; i < 3; i++) {
        wait_for_turn(number);
        change(number);
        give_turn(1 - number);
    }
    return NULL;
}

int main(void)
{
    make_turns();
    give_turn(0);
    run_threads(2, take_turns);
    return 0;
}
