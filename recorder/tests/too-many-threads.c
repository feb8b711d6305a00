/* The trace ends before the thread above 1023; the program does not.
   expect threads 1024, locks 0, races counter, status 9, told more than 1,024 threads */
#include "threads.h"

int counter, later;

static void *count(void *ignored)
{
    counter++;
    return ignored;
}

static void *spoil(void *ignored)
{
    later++;
    return ignored;
}

int main(void)
{
    run_threads(2, count);
    for (int i = 0; i < 1040; i++) {
        run_threads(1, count);
    }
    run_threads(2, spoil);
    return later ? 9 : 1;
}
