/* The functions of pthreads and of C11 that the program calls for its locks. Threads are in threads.c. */
#include <errno.h>
#include <semaphore.h>
#include <threads.h>
#include <time.h>

#include "recorder.h"

/* The C library kept the condition variables of its beginnings under the same names. */
#define CONDITIONS "GLIBC_2.3.2"

/* A mutex whose owner died is taken all the same. */
static int after_taking(int error, const void *lock, bool for_writing, uintptr_t code)
{
    if (!error || error == EOWNERDEAD) {
        int kept = errno;
        lock_was_taken(lock, for_writing, code);
        errno = kept;
    }
    return error;
}

/* ---- mutexes ---- */

REPLACES int pthread_mutex_init(pthread_mutex_t *mutex, const pthread_mutexattr_t *attributes)
{
    lock_is_new(mutex);
    return REAL(pthread_mutex_init)(mutex, attributes);
}

REPLACES int pthread_mutex_lock(pthread_mutex_t *mutex)
{
    return after_taking(REAL(pthread_mutex_lock)(mutex), mutex, true, CALLER);
}

REPLACES int pthread_mutex_trylock(pthread_mutex_t *mutex)
{
    return after_taking(REAL(pthread_mutex_trylock)(mutex), mutex, true, CALLER);
}

REPLACES int pthread_mutex_timedlock(pthread_mutex_t *mutex, const struct timespec *time)
{
    return after_taking(REAL(pthread_mutex_timedlock)(mutex, time), mutex, true, CALLER);
}

REPLACES int pthread_mutex_clocklock(pthread_mutex_t *mutex, clockid_t clock, const struct timespec *time)
{
    return after_taking(REAL(pthread_mutex_clocklock)(mutex, clock, time), mutex, true, CALLER);
}

/* Mutexes of the kinds that look at their owner refuse another thread; plain and adaptive ones don't. */
static bool is_let_go_by_any(const pthread_mutex_t *mutex)
{
    int kind = mutex->__data.__kind & 0x7F;
    return kind == PTHREAD_MUTEX_NORMAL || kind == PTHREAD_MUTEX_ADAPTIVE_NP;
}

REPLACES int pthread_mutex_unlock(pthread_mutex_t *mutex)
{
    if (!lock_is_let_go(mutex, CALLER) && is_let_go_by_any(mutex)) {
        others_lock_is_let_go(mutex, CALLER);
    }
    return REAL(pthread_mutex_unlock)(mutex);
}

/* ---- reader-writer locks ---- */

REPLACES int pthread_rwlock_init(pthread_rwlock_t *lock, const pthread_rwlockattr_t *attributes)
{
    lock_is_new(lock);
    return REAL(pthread_rwlock_init)(lock, attributes);
}

REPLACES int pthread_rwlock_rdlock(pthread_rwlock_t *lock)
{
    return after_taking(REAL(pthread_rwlock_rdlock)(lock), lock, false, CALLER);
}

REPLACES int pthread_rwlock_tryrdlock(pthread_rwlock_t *lock)
{
    return after_taking(REAL(pthread_rwlock_tryrdlock)(lock), lock, false, CALLER);
}

REPLACES int pthread_rwlock_timedrdlock(pthread_rwlock_t *lock, const struct timespec *time)
{
    return after_taking(REAL(pthread_rwlock_timedrdlock)(lock, time), lock, false, CALLER);
}

REPLACES int pthread_rwlock_clockrdlock(pthread_rwlock_t *lock, clockid_t clock, const struct timespec *time)
{
    return after_taking(REAL(pthread_rwlock_clockrdlock)(lock, clock, time), lock, false, CALLER);
}

REPLACES int pthread_rwlock_wrlock(pthread_rwlock_t *lock)
{
    return after_taking(REAL(pthread_rwlock_wrlock)(lock), lock, true, CALLER);
}

REPLACES int pthread_rwlock_trywrlock(pthread_rwlock_t *lock)
{
    return after_taking(REAL(pthread_rwlock_trywrlock)(lock), lock, true, CALLER);
}

REPLACES int pthread_rwlock_timedwrlock(pthread_rwlock_t *lock, const struct timespec *time)
{
    return after_taking(REAL(pthread_rwlock_timedwrlock)(lock, time), lock, true, CALLER);
}

REPLACES int pthread_rwlock_clockwrlock(pthread_rwlock_t *lock, clockid_t clock, const struct timespec *time)
{
    return after_taking(REAL(pthread_rwlock_clockwrlock)(lock, clock, time), lock, true, CALLER);
}

REPLACES int pthread_rwlock_unlock(pthread_rwlock_t *lock)
{
    if (!lock_is_let_go(lock, CALLER)) {
        others_lock_is_let_go(lock, CALLER);
    }
    return REAL(pthread_rwlock_unlock)(lock);
}

/* ---- spin locks ---- */

REPLACES int pthread_spin_init(pthread_spinlock_t *lock, int shared)
{
    lock_is_new((const void *)lock);
    return REAL(pthread_spin_init)(lock, shared);
}

REPLACES int pthread_spin_lock(pthread_spinlock_t *lock)
{
    return after_taking(REAL(pthread_spin_lock)(lock), (const void *)lock, true, CALLER);
}

REPLACES int pthread_spin_trylock(pthread_spinlock_t *lock)
{
    return after_taking(REAL(pthread_spin_trylock)(lock), (const void *)lock, true, CALLER);
}

REPLACES int pthread_spin_unlock(pthread_spinlock_t *lock)
{
    if (!lock_is_let_go((const void *)lock, CALLER)) {
        others_lock_is_let_go((const void *)lock, CALLER);
    }
    return REAL(pthread_spin_unlock)(lock);
}

/* ---- mutexes of C11 ---- */

REPLACES int mtx_init(mtx_t *mutex, int type)
{
    lock_is_new(mutex);
    return REAL(mtx_init)(mutex, type);
}

REPLACES int mtx_lock(mtx_t *mutex)
{
    int answer = REAL(mtx_lock)(mutex);
    after_taking(answer == thrd_success ? 0 : EINVAL, mutex, true, CALLER);
    return answer;
}

REPLACES int mtx_trylock(mtx_t *mutex)
{
    int answer = REAL(mtx_trylock)(mutex);
    after_taking(answer == thrd_success ? 0 : EBUSY, mutex, true, CALLER);
    return answer;
}

REPLACES int mtx_timedlock(mtx_t *restrict mutex, const struct timespec *restrict time)
{
    int answer = REAL(mtx_timedlock)(mutex, time);
    after_taking(answer == thrd_success ? 0 : ETIMEDOUT, mutex, true, CALLER);
    return answer;
}

REPLACES int mtx_unlock(mtx_t *mutex)
{
    lock_is_let_go(mutex, CALLER);
    return REAL(mtx_unlock)(mutex);
}

/* ---- condition variables: the mutex is let go, and taken again ---- */

struct waiting {
    const void *condition, *mutex;
    uint32_t depth;
    bool was_woken;
    uintptr_t code;
};

static struct waiting before_waiting(const void *condition, const void *mutex, uintptr_t code)
{
    wait_begins(condition);
    return (struct waiting){.condition = condition, .mutex = mutex, .depth = let_go_wholly(mutex, code), .code = code};
}

/* Also where the waiting thread is cancelled: it has the mutex then, while it is cleaned up. */
static void after_waiting(void *given)
{
    struct waiting *waiting = given;
    int kept = errno;
    if (waiting->depth) {
        take_again(waiting->mutex, waiting->depth, waiting->code);
    }
    wait_ends(waiting->condition, waiting->was_woken, waiting->code);
    errno = kept;
}

#define WAIT(condition, mutex, success, call)                                  \
    int answer;                                                                \
    struct waiting waiting = before_waiting(condition, mutex, CALLER);         \
    pthread_cleanup_push(after_waiting, &waiting);                             \
    answer = call;                                                             \
    waiting.was_woken = answer == (success);                                   \
    pthread_cleanup_pop(1);                                                    \
    return answer

REPLACES int pthread_cond_wait(pthread_cond_t *condition, pthread_mutex_t *mutex)
{
    WAIT(condition, mutex, 0, REAL_VERSIONED(pthread_cond_wait, CONDITIONS)(condition, mutex));
}

REPLACES int pthread_cond_timedwait(pthread_cond_t *condition, pthread_mutex_t *mutex, const struct timespec *time)
{
    WAIT(condition, mutex, 0, REAL_VERSIONED(pthread_cond_timedwait, CONDITIONS)(condition, mutex, time));
}

REPLACES int pthread_cond_clockwait(pthread_cond_t *condition, pthread_mutex_t *mutex, clockid_t clock, const struct timespec *time)
{
    WAIT(condition, mutex, 0, REAL(pthread_cond_clockwait)(condition, mutex, clock, time));
}

REPLACES int pthread_cond_signal(pthread_cond_t *condition)
{
    waiters_are_woken(condition, false, CALLER);
    return REAL_VERSIONED(pthread_cond_signal, CONDITIONS)(condition);
}

REPLACES int pthread_cond_broadcast(pthread_cond_t *condition)
{
    waiters_are_woken(condition, true, CALLER);
    return REAL_VERSIONED(pthread_cond_broadcast, CONDITIONS)(condition);
}

REPLACES int cnd_wait(cnd_t *condition, mtx_t *mutex)
{
    WAIT(condition, mutex, thrd_success, REAL(cnd_wait)(condition, mutex));
}

REPLACES int cnd_timedwait(cnd_t *restrict condition, mtx_t *restrict mutex, const struct timespec *restrict time)
{
    WAIT(condition, mutex, thrd_success, REAL(cnd_timedwait)(condition, mutex, time));
}

REPLACES int cnd_signal(cnd_t *condition)
{
    waiters_are_woken(condition, false, CALLER);
    return REAL(cnd_signal)(condition);
}

REPLACES int cnd_broadcast(cnd_t *condition)
{
    waiters_are_woken(condition, true, CALLER);
    return REAL(cnd_broadcast)(condition);
}

/* ---- semaphores and barriers: messages alone ---- */

static int after_semaphore(int answer, const void *semaphore, uintptr_t code)
{
    if (answer == 0) {
        int kept = errno;
        message_is_received(semaphore, code);
        errno = kept;
    }
    return answer;
}

REPLACES int sem_init(sem_t *semaphore, int shared, unsigned value)
{
    channel_is_new(semaphore, 0);
    return REAL(sem_init)(semaphore, shared, value);
}

REPLACES int sem_post(sem_t *semaphore)
{
    message_is_sent(semaphore, COUNT_SEMAPHORES, CALLER);
    return REAL(sem_post)(semaphore);
}

REPLACES int sem_wait(sem_t *semaphore)
{
    return after_semaphore(REAL(sem_wait)(semaphore), semaphore, CALLER);
}

REPLACES int sem_trywait(sem_t *semaphore)
{
    return after_semaphore(REAL(sem_trywait)(semaphore), semaphore, CALLER);
}

REPLACES int sem_timedwait(sem_t *restrict semaphore, const struct timespec *restrict time)
{
    return after_semaphore(REAL(sem_timedwait)(semaphore, time), semaphore, CALLER);
}

REPLACES int sem_clockwait(sem_t *restrict semaphore, clockid_t clock, const struct timespec *restrict time)
{
    return after_semaphore(REAL(sem_clockwait)(semaphore, clock, time), semaphore, CALLER);
}

REPLACES int pthread_barrier_init(pthread_barrier_t *barrier, const pthread_barrierattr_t *attributes, unsigned parties)
{
    channel_is_new(barrier, parties);
    return REAL(pthread_barrier_init)(barrier, attributes, parties);
}

REPLACES int pthread_barrier_wait(pthread_barrier_t *barrier)
{
    bool is_last = barrier_is_reached(barrier, CALLER);
    int answer = REAL(pthread_barrier_wait)(barrier);
    if (!is_last) {
        message_is_received(barrier, CALLER);
    }
    return answer;
}

/* ---- what runs once ---- */

/* What the thread is running once, and what it was running around that. */
struct once {
    void (*routine)(void);
    const void *control;
    struct once *outer;
    bool has_run;
    uintptr_t code;
};

static void run_once(void)
{
    struct once *once = self.once;
    once->has_run = true;
    once->routine();
    place_is_released(once->control, once->code);
}

/* Also where the routine ends by an exception. */
static void end_once(struct once **given)
{
    self.once = (*given)->outer;
}

REPLACES int pthread_once(pthread_once_t *control, void (*routine)(void))
{
    struct once once = {.routine = routine, .control = control, .outer = self.once, .code = CALLER};
    int error;
    {
        __attribute__((cleanup(end_once))) struct once *running = &once;
        self.once = running;
        error = REAL(pthread_once)(control, run_once);
    }
    if (!error && !once.has_run) {
        place_is_acquired(control, CALLER);
    }
    return error;
}

REPLACES void call_once(once_flag *flag, void (*routine)(void))
{
    pthread_once((pthread_once_t *)flag, routine);
}
