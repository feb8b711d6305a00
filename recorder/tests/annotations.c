/* A lock of the program's own, which it tells of; memory whose races it calls benign; accesses that it asks to ignore; a hand-over by a
 * flag. `counter` has the lock. `shared` has none, and `later` is benign only at first.
 * expect threads 3, locks 1, races shared, events send recv, told whose races the program calls benign
 */
#include <stdatomic.h>

#include "threads.h"

void __tsan_acquire(void *address);
void __tsan_release(void *address);
void __tsan_mutex_pre_lock(void *address, unsigned flags);
void __tsan_mutex_post_lock(void *address, unsigned flags, int depth);
int __tsan_mutex_pre_unlock(void *address, unsigned flags);
void __tsan_mutex_post_unlock(void *address, unsigned flags);
void AnnotateBenignRaceSized(const char *file, int line, const volatile void *address, size_t length, const char *reason);
void AnnotateIgnoreWritesBegin(const char *file, int line);
void AnnotateIgnoreWritesEnd(const char *file, int line);
void AnnotateIgnoreReadsBegin(const char *file, int line);
void AnnotateIgnoreReadsEnd(const char *file, int line);
int RunningOnValgrind(void);

static int counter, statistics[4], ignored_word, shared;
static _Atomic int own_lock, flag;
/* what the lock's own code touches */
static int held_by;

static void take_own_lock(void)
{
    __tsan_mutex_pre_lock(&own_lock, 0);
    while (atomic_exchange(&own_lock, 1)) {
        sched_yield();
    }
    held_by++;
    __tsan_mutex_post_lock(&own_lock, 0, 0);
}

static void let_own_lock_go(void)
{
    __tsan_mutex_pre_unlock(&own_lock, 0);
    held_by--;
    atomic_store(&own_lock, 0);
    __tsan_mutex_post_unlock(&own_lock, 0);
}

static void *work(void *given)
{
    statistics[1]++;
    AnnotateIgnoreReadsBegin(__FILE__, __LINE__);
    AnnotateIgnoreWritesBegin(__FILE__, __LINE__);
    ignored_word++;
    AnnotateIgnoreWritesEnd(__FILE__, __LINE__);
    AnnotateIgnoreReadsEnd(__FILE__, __LINE__);
    take_own_lock();
    counter++;
    let_own_lock_go();
    shared++;
    __tsan_release(&flag);
    if (atomic_fetch_add(&flag, 1) == 1) {
        __tsan_acquire(&flag);
    }
    return given;
}

int main(void)
{
    AnnotateBenignRaceSized(__FILE__, __LINE__, statistics, sizeof statistics, "a counter for show");
    run_threads(2, work);
    return RunningOnValgrind();
}
