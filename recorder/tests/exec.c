/* The trace ends where the process becomes another program, which is not recorded.
   expect threads 3, locks 0, races counter, status 5, told 1 other programs */
#include "threads.h"

int counter, later;

static void *count(void *ignored)
{
    counter++;
    return ignored;
}

static void *spoil(void *ignored)
{
    later++;
    return ignored;
}

int main(int argc, char **argv)
{
    if (argc > 1) {
        run_threads(2, spoil);
        return 5;
    }
    run_threads(2, count);
    execl("/proc/self/exe", argv[0], "again", NULL);
    return 1;
}
