/* A list is walked with a lock for each node, the next one taken before the one before it is let go.
   expect threads 4, locks 5, races none, events send recv */
#include "threads.h"

struct node {
    pthread_mutex_t lock;
    int value;
};

static struct node nodes[5];

static void *work(void *ignored)
{
    for (int round = 0; round < 10; round++) {
        pthread_mutex_lock(&nodes[0].lock);
        for (int i = 1; i < 5; i++) {
            pthread_mutex_lock(&nodes[i].lock);
            nodes[i - 1].value++;
            pthread_mutex_unlock(&nodes[i - 1].lock);
            nodes[i].value++;
        }
        pthread_mutex_unlock(&nodes[4].lock);
    }
    return ignored;
}

int main(void)
{
    for (int i = 0; i < 5; i++) {
        pthread_mutex_init(&nodes[i].lock, NULL);
    }
    run_threads(3, work);
    return 0;
}
