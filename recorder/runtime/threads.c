/* Threads: their numbers, their beginning and end, and their stacks. */
#include <stdlib.h>
#include <threads.h>

#include "recorder.h"

struct thread threads[MOST_THREADS];
_Atomic int threads_used;
_Atomic bool has_forked;
_Atomic int others;

extern void *__libc_malloc(size_t length);
extern void __libc_free(void *block);

/* What a new thread is handed. */
struct start {
    void *(*function)(void *);
    void *argument;
    int number;
};

/* Where the calling thread's stack lies. Thread-local variables of threads but the first lie there too. */
static void find_own_stack(void)
{
    pthread_attr_t attributes;
    void *low;
    size_t length;
    if (pthread_getattr_np(pthread_self(), &attributes)) {
        return;
    }
    if (!pthread_attr_getstack(&attributes, &low, &length)) {
        self.stack_low = (uintptr_t)low;
        self.stack_high = self.stack_touched = (uintptr_t)low + length;
    }
    pthread_attr_destroy(&attributes);
}

static void show_own_stack(void)
{
    struct thread *thread = &threads[self.number];
    atomic_store(&thread->stack_touched, self.stack_touched);
    atomic_store(&thread->stack_low, self.stack_low);
    atomic_store(&thread->stack_high, self.stack_high);
}

static void begin_thread(int number)
{
    self.number = number;
    /* 1 is the epoch of a thread that did nothing yet. */
    atomic_store(&threads[number].epoch, 1);
    find_own_stack();
    atomic_store(&threads[number].handle, pthread_self());
    atomic_store(&threads[number].has_handle, true);
}

void begin_main_thread(void)
{
    atomic_store(&threads_used, 1);
    begin_thread(0);
    show_own_stack();
}

/* The C library uses the stacks of ended threads again. What those left there is of nobody's business: it is new memory. */
static void renew_stack(void)
{
    uintptr_t touched = self.stack_high;
    for (int i = 0; i < atomic_load(&threads_used) && i < MOST_THREADS; i++) {
        uintptr_t low = atomic_load(&threads[i].stack_low), high = atomic_load(&threads[i].stack_high);
        uintptr_t reached = atomic_load(&threads[i].stack_touched);
        if (i != self.number && low < self.stack_high && high > self.stack_low && reached < touched) {
            touched = reached;
        }
    }
    if (touched < self.stack_low) {
        touched = self.stack_low;
    }
    touched -= touched % WORD;
    publish_block(KIND_ALLOC, self.number, touched, self.stack_high - touched, 0);
}

/* What becomes of a detached thread's handle: another thread may have it next. */
static void end_thread(void *ignored)
{
    (void)ignored;
    drop_frames();
    if (self.number >= 0 && is_recording()) {
        drop_pending();
        if (atomic_load(&threads[self.number].is_detached)) {
            atomic_store(&threads[self.number].has_handle, false);
        }
    }
}

static void *run_thread(void *given)
{
    struct start start = *(struct start *)given;
    __libc_free(given);
    void *result = NULL;
    self.inside = (uintptr_t)__builtin_frame_address(0);
    begin_thread(start.number);
    if (is_recording()) {
        renew_stack();
    }
    show_own_stack();
    self.inside = 0;
    pthread_cleanup_push(end_thread, NULL);
    result = start.function(start.argument);
    pthread_cleanup_pop(1);
    return result;
}

/* The number of a thread that is to be begun, whose `fork` stands in the trace; -1 where there is none. */
static int fork_thread(bool is_detached, uintptr_t code)
{
    if (!begin_event()) {
        return -1;
    }
    int number = atomic_fetch_add(&threads_used, 1);
    if (number >= MOST_THREADS) {
        publish(KIND_STOP, self.number, STOP_THREADS, 0, 0);
        stop_recording();
        number = -1;
    } else {
        atomic_store(&threads[number].is_detached, is_detached);
        publish(KIND_FORK, self.number, (uint64_t)number, 0, code);
        next_epoch(self.number);
        atomic_fetch_add(&others, 1);
        atomic_store(&has_forked, true);
    }
    end_event();
    return number;
}

static void join_thread(int number, uintptr_t code)
{
    if (number < 0 || !begin_event()) {
        return;
    }
    atomic_store(&threads[number].has_handle, false);
    let_all_go(number);
    publish(KIND_JOIN, self.number, (uint64_t)number, 0, code);
    next_epoch(self.number);
    atomic_fetch_sub(&others, 1);
    end_event();
}

static bool begins_detached(const pthread_attr_t *attributes)
{
    int state = PTHREAD_CREATE_JOINABLE;
    return attributes && !pthread_attr_getdetachstate(attributes, &state) && state == PTHREAD_CREATE_DETACHED;
}

REPLACES int pthread_create(pthread_t *handle, const pthread_attr_t *attributes, void *(*function)(void *), void *argument)
{
    __typeof__(&pthread_create) real = REAL(pthread_create);
    struct start *start = is_recording() ? __libc_malloc(sizeof *start) : NULL;
    int number = start ? fork_thread(begins_detached(attributes), CALLER) : -1;
    if (number < 0) {
        __libc_free(start);
        return real(handle, attributes, function, argument);
    }
    *start = (struct start){.function = function, .argument = argument, .number = number};
    /* The C library's own memory for the thread is none of the program's. */
    self.inside = (uintptr_t)__builtin_frame_address(0);
    self.is_own_call = true;
    int error = real(handle, attributes, run_thread, start);
    self.is_own_call = false;
    self.inside = 0;
    if (error) {
        /* It was forked in the trace, so it is joined there: it did nothing. */
        __libc_free(start);
        join_thread(number, CALLER);
    } else {
        record_access(true, (uintptr_t)handle, sizeof *handle, CALLER);
    }
    return error;
}

/* Of the threads that had a handle one after another, the newest is meant. */
static int thread_of(pthread_t handle)
{
    int used = is_recording() ? atomic_load(&threads_used) : 0;
    for (int i = (used < MOST_THREADS ? used : MOST_THREADS) - 1; i >= 0; i--) {
        if (atomic_load(&threads[i].has_handle) && pthread_equal(atomic_load(&threads[i].handle), handle)) {
            return i;
        }
    }
    return -1;
}

static int after_join(int error, int number, void **result, uintptr_t code)
{
    if (!error) {
        join_thread(number, code);
        if (result) {
            record_access(true, (uintptr_t)result, sizeof *result, code);
        }
    }
    return error;
}

/* A thread is joined after it has begun, but it may not have told its handle when the joining begins: so it is looked up after. Its
 * handle is nobody else's until then, unless another thread was begun since; that one is newer, and would be found instead. So it is
 * looked up before too. */
REPLACES int pthread_join(pthread_t handle, void **result)
{
    int number = thread_of(handle);
    int error = REAL(pthread_join)(handle, result);
    return after_join(error, number < 0 ? thread_of(handle) : number, result, CALLER);
}

REPLACES int pthread_tryjoin_np(pthread_t handle, void **result)
{
    int number = thread_of(handle);
    int error = REAL(pthread_tryjoin_np)(handle, result);
    return after_join(error, number < 0 ? thread_of(handle) : number, result, CALLER);
}

REPLACES int pthread_timedjoin_np(pthread_t handle, void **result, const struct timespec *time)
{
    int number = thread_of(handle);
    int error = REAL(pthread_timedjoin_np)(handle, result, time);
    return after_join(error, number < 0 ? thread_of(handle) : number, result, CALLER);
}

REPLACES int pthread_clockjoin_np(pthread_t handle, void **result, clockid_t clock, const struct timespec *time)
{
    int number = thread_of(handle);
    int error = REAL(pthread_clockjoin_np)(handle, result, clock, time);
    return after_join(error, number < 0 ? thread_of(handle) : number, result, CALLER);
}

REPLACES int pthread_detach(pthread_t handle)
{
    int number = thread_of(handle);
    if (number >= 0) {
        atomic_store(&threads[number].is_detached, true);
    }
    return REAL(pthread_detach)(handle);
}

/* Threads of C11: the C library begins them as others, with a result of another type. */
struct standard_start {
    thrd_start_t function;
    void *argument;
};

static void *run_standard_thread(void *given)
{
    struct standard_start start = *(struct standard_start *)given;
    __libc_free(given);
    return (void *)(intptr_t)start.function(start.argument);
}

REPLACES int thrd_create(thrd_t *handle, thrd_start_t function, void *argument)
{
    struct standard_start *start = __libc_malloc(sizeof *start);
    if (!start) {
        return thrd_nomem;
    }
    *start = (struct standard_start){.function = function, .argument = argument};
    int error = pthread_create(handle, NULL, run_standard_thread, start);
    if (error) {
        __libc_free(start);
    }
    return !error ? thrd_success : thrd_error;
}

REPLACES int thrd_join(thrd_t handle, int *result)
{
    void *returned;
    if (pthread_join(handle, &returned)) {
        return thrd_error;
    }
    if (result) {
        *result = (int)(intptr_t)returned;
        record_access(true, (uintptr_t)result, sizeof *result, CALLER);
    }
    return thrd_success;
}

REPLACES int thrd_detach(thrd_t handle)
{
    return pthread_detach(handle) ? thrd_error : thrd_success;
}
