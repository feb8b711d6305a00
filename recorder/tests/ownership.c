/* Memory is handed over where a thread is begun and where it is joined, with no lock.
   expect threads 2, locks 0, races none */
#include "threads.h"

int shared[64];

static void *work(void *ignored)
{
    for (int i = 0; i < 64; i++) {
        shared[i]++;
    }
    return ignored;
}

int main(void)
{
    for (int i = 0; i < 64; i++) {
        shared[i] = i;
    }
    run_threads(1, work);
    for (int i = 0; i < 64; i++) {
        shared[i]--;
    }
    return 0;
}
