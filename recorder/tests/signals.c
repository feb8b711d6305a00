/* Signals arrive at any moment of the recorder, and some handlers never return: they jump. All lines are whole, and nobody waits for one
   that was left in the midst.
   expect threads 4, locks 1, races handled is_over, status 0, at least 5000 */
#include <setjmp.h>
#include <signal.h>
#include <sys/time.h>

#include "threads.h"

int values[600], handled, protected;
static pthread_mutex_t lock = PTHREAD_MUTEX_INITIALIZER;
static __thread sigjmp_buf before;
static __thread volatile sig_atomic_t may_jump, signals;
static volatile sig_atomic_t is_over;

static void handle(int number)
{
    (void)number;
    handled++;
    if (may_jump && ++signals % 3 == 0) {
        siglongjmp(before, 1);
    }
}

static void *work(void *given)
{
    int *own = &values[(intptr_t)given * 300];
    pthread_kill(pthread_self(), SIGUSR1);
    while (!is_over) {
        may_jump = 0;
        pthread_mutex_lock(&lock);
        protected++;
        pthread_mutex_unlock(&lock);
        sigsetjmp(before, 1);
        may_jump = 1;
        for (int i = 0; i < 300; i++) {
            own[i]++;
        }
        may_jump = 0;
    }
    return NULL;
}

static void *annoy(void *given)
{
    pthread_t *threads = given;
    for (int i = 0; i < 400; i++) {
        struct timespec little = {.tv_nsec = 100000};
        nanosleep(&little, NULL);
        pthread_kill(threads[i % 2], SIGUSR1);
    }
    is_over = 1;
    return NULL;
}

int main(void)
{
    pthread_t threads[2], annoyer;
    struct sigaction action = {.sa_handler = handle};
    sigaction(SIGUSR1, &action, NULL);
    for (int i = 0; i < 2; i++) {
        pthread_create(&threads[i], NULL, work, (void *)(intptr_t)i);
    }
    pthread_create(&annoyer, NULL, annoy, threads);
    pthread_join(annoyer, NULL);
    for (int i = 0; i < 2; i++) {
        pthread_join(threads[i], NULL);
    }
    return 0;
}
