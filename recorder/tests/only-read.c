/* A thread writes, and later another one only reads, with no order: a race that the rules do not see, since a word that is only read by
   others may have been handed over.
   expect threads 3, locks 0, races none */
#include "threads.h"

int value, seen;

static void *work(void *number)
{
    if (!number) {
        value = 1;
        give_turn(1);
    } else {
        wait_for_turn(1);
        seen = value;
    }
    return NULL;
}

int main(void)
{
    make_turns();
    run_threads(2, work);
    return seen != 1;
}
