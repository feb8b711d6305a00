/* A function's variables are others in each call: a thread lends one to a helper, and the next function's variable at the same place is no
   race of the two.
   expect threads 3, locks 2, races none */
#include "threads.h"

static pthread_mutex_t lock = PTHREAD_MUTEX_INITIALIZER, other = PTHREAD_MUTEX_INITIALIZER;
static int *lent;
static int turn;

/* The helper writes what was lent to it, under the lock that the lender takes for it. */
static void *help(void *ignored)
{
    for (int served = 0; served < 10;) {
        pthread_mutex_lock(&lock);
        if (lent) {
            *lent = 1;
            lent = NULL;
            served++;
        }
        pthread_mutex_unlock(&lock);
    }
    return ignored;
}

__attribute__((noinline)) static void lend(void)
{
    int variable;
    pthread_mutex_lock(&lock);
    variable = 0;
    lent = &variable;
    pthread_mutex_unlock(&lock);
    for (int done = 0; !done;) {
        pthread_mutex_lock(&lock);
        done = variable;
        pthread_mutex_unlock(&lock);
    }
}

__attribute__((noinline)) static void use_alone(void)
{
    volatile int variable[8];
    for (int i = 0; i < 8; i++) {
        variable[i] = i;
    }
    pthread_mutex_lock(&other);
    turn += variable[7];
    pthread_mutex_unlock(&other);
}

static void *lend_often(void *ignored)
{
    for (int i = 0; i < 10; i++) {
        lend();
        use_alone();
    }
    return ignored;
}

int main(void)
{
    pthread_t threads[2];
    pthread_create(&threads[0], NULL, help, NULL);
    pthread_create(&threads[1], NULL, lend_often, NULL);
    pthread_join(threads[0], NULL);
    pthread_join(threads[1], NULL);
    return 0;
}
