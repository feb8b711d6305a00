/* Two threads count without a lock.
   expect threads 3, locks 0, races counter */
#include "threads.h"

int counter;

static void *count(void *ignored)
{
    counter++;
    return ignored;
}

int main(void)
{
    run_threads(2, count);
    return 0;
}
