/* A program that a signal ends has all that it did in its trace.
   expect threads 3, locks 0, races counter, status 139 */
#include "threads.h"

int counter;
int *volatile nowhere;

static void *count(void *ignored)
{
    counter++;
    return ignored;
}

int main(void)
{
    run_threads(2, count);
    *nowhere = 1;
    return 0;
}
