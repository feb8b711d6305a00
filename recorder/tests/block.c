/* A block that one thread changes under one lock, and another thread under another one, in turns. The atomic that gives the turns is
 * relaxed, and so hands nothing over.
 * expect threads 3, locks 2, races heap, comments load store
 */
#include <pthread.h>
#include <sched.h>
#include <stdlib.h>

int turn;
struct node { long value; };
struct node *node;
static pthread_mutex_t first_lock = PTHREAD_MUTEX_INITIALIZER, second_lock = PTHREAD_MUTEX_INITIALIZER;

static void wait_for(int wanted)
{
    while (__atomic_load_n(&turn, __ATOMIC_RELAXED) != wanted) {
        sched_yield();
    }
}

static void *one(void *given)
{
    pthread_mutex_lock(&first_lock);
    node->value = 7;
    pthread_mutex_unlock(&first_lock);
    __atomic_store_n(&turn, 1, __ATOMIC_RELAXED);
    wait_for(2);
    pthread_mutex_lock(&first_lock);
    node->value--;
    pthread_mutex_unlock(&first_lock);
    return given;
}

static void *two(void *given)
{
    wait_for(1);
    pthread_mutex_lock(&second_lock);
    node->value += 2;
    pthread_mutex_unlock(&second_lock);
    __atomic_store_n(&turn, 2, __ATOMIC_RELAXED);
    return given;
}

int main(void)
{
    pthread_t threads[2];
    node = calloc(1, sizeof *node);
    pthread_create(&threads[0], NULL, one, NULL);
    pthread_create(&threads[1], NULL, two, NULL);
    pthread_join(threads[0], NULL);
    pthread_join(threads[1], NULL);
    return 0;
}
