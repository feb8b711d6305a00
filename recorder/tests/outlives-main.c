/* main ends its thread, and a detached thread ends the program.
   expect threads 3, locks 0, races counter, status 4 */
#include "threads.h"

int counter;

static void *count(void *number)
{
    counter++;
    if (number) {
        wait_for_turn(1);
        exit(4);
    }
    give_turn(1);
    return NULL;
}

int main(void)
{
    make_turns();
    for (int i = 0; i < 2; i++) {
        pthread_t thread;
        pthread_create(&thread, NULL, count, (void *)(intptr_t)i);
        pthread_detach(thread);
    }
    pthread_exit(NULL);
}
