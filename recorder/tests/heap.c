/* Blocks go from thread to thread through the heap, stacks through the C library: that is new memory each time. A block is reported where
   two threads have it at one time.
   expect threads 41, locks 0, races heap */
#include <string.h>

#include "threads.h"

static int *shared;

static void *churn(void *ignored)
{
    char local[4096];
    memset(local, 1, sizeof local);
    for (int i = 0; i < 30; i++) {
        int *block = malloc(5000);
        block[0] = block[1000] = local[i];
        block = realloc(block, 9000);
        block[2000] = 1;
        free(block);
    }
    return ignored;
}

static void *share(void *ignored)
{
    shared[3]++;
    return ignored;
}

int main(void)
{
    for (int i = 0; i < 12; i++) {
        run_threads(3, churn);
    }
    shared = calloc(10, sizeof *shared);
    run_threads(4, share);
    free(shared);
    return 0;
}
