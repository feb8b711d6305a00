/* What a forked process does is not in the trace, be it forked past the C library. The trace goes on with the parent's.
   expect threads 3, locks 1, races counter, told 1 processes were forked */
#include <sys/wait.h>

#include "threads.h"

int counter, of_the_child;
static pthread_mutex_t lock = PTHREAD_MUTEX_INITIALIZER;

static void *count(void *ignored)
{
    counter++;
    return ignored;
}

static void *spoil(void *ignored)
{
    pthread_mutex_lock(&lock);
    of_the_child++;
    pthread_mutex_unlock(&lock);
    return ignored;
}

static void wait_for(pid_t process)
{
    if (process == 0) {
        of_the_child++;
        run_threads(2, spoil);
        of_the_child++;
        _exit(3);
    }
    int status;
    if (waitpid(process, &status, 0) != process || WEXITSTATUS(status) != 3) {
        abort();
    }
}

int main(void)
{
    pthread_mutex_lock(&lock);
    pthread_mutex_unlock(&lock);
    wait_for(fork());
    wait_for((pid_t)syscall(SYS_fork));
    run_threads(2, count);
    return 0;
}
