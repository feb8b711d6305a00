/* What most of these programs need: some threads that run one function, a short sleep, and turns. */
#ifndef TEST_THREADS_H
#define TEST_THREADS_H

#include <pthread.h>
#include <stdint.h>
#include <stdio.h>
#include <stdlib.h>
#include <sys/syscall.h>
#include <time.h>
#include <unistd.h>

__attribute__((unused)) static void run_threads(int number, void *(*function)(void *))
{
    pthread_t threads[64];
    for (int i = 0; i < number; i++) {
        if (pthread_create(&threads[i], NULL, function, (void *)(intptr_t)i)) {
            abort();
        }
    }
    for (int i = 0; i < number; i++) {
        pthread_join(threads[i], NULL);
    }
}

/* Two milliseconds. */
static inline void sleep_a_little(void)
{
    struct timespec time = {.tv_nsec = 2000000};
    nanosleep(&time, NULL);
}

/* Threads give one another turns through pipes: that orders them in time, and is no event of the trace. */
__attribute__((unused)) static int turns[2][2];

static inline void make_turns(void)
{
    if (pipe(turns[0]) || pipe(turns[1])) {
        abort();
    }
}

static inline void give_turn(int to)
{
    if (write(turns[to][1], "", 1) != 1) {
        abort();
    }
}

static inline void wait_for_turn(int of)
{
    char byte;
    if (read(turns[of][0], &byte, 1) != 1) {
        abort();
    }
}

#endif
