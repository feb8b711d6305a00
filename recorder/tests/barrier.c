/* Three threads meet at a barrier four times: six messages each time.
   expect threads 4, locks 0, races none, told 12 arrivals, lines send 16 recv 16 */
#include "threads.h"

int cells[3];
static pthread_barrier_t barrier;

static void *work(void *given)
{
    intptr_t number = (intptr_t)given;
    for (int round = 0; round < 4; round++) {
        cells[(number + round) % 3]++;
        pthread_barrier_wait(&barrier);
    }
    return NULL;
}

int main(void)
{
    pthread_barrier_init(&barrier, NULL, 3);
    run_threads(3, work);
    return 0;
}
