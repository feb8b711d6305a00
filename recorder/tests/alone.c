/* Three rounds of two threads. Between them and at the end, with all threads joined, the main thread reads and changes what they counted
 * under a lock. Nothing of that is a race, though no lock is held. A block that is used for another purpose then is new memory.
 * expect threads 7, locks 1, races none, told since all other threads had been joined
 */
#include <pthread.h>

#include "threads.h"

static pthread_mutex_t mutex = PTHREAD_MUTEX_INITIALIZER;
static int counter;
static int *block;

static void *count(void *ignored)
{
    pthread_mutex_lock(&mutex);
    counter++;
    block[0]++;
    pthread_mutex_unlock(&mutex);
    return ignored;
}

/* The same words under no lock, each by one thread alone. */
static void *fill(void *given)
{
    int *own = given;
    *own = 7;
    return NULL;
}

int main(void)
{
    block = calloc(1, 64);
    run_threads(2, count);
    counter += 2;
    block[0] += counter;
    run_threads(2, count);
    printf("%d %d\n", counter, block[0]);
    free(block);
    block = malloc(64);
    pthread_t threads[2];
    pthread_create(&threads[0], NULL, fill, block);
    pthread_create(&threads[1], NULL, fill, block + 4);
    pthread_join(threads[0], NULL);
    pthread_join(threads[1], NULL);
    return block[0] + block[4] == 14 ? 0 : 1;
}
