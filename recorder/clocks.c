/* A clock for each thread: up to which tick of each other thread it comes behind. It may know less than the trace says, never more. */
#include "clocks.h"

#include "runtime/ring.h"

struct clock {
    uint64_t tick;
    uint32_t version;
    bool has_accessed;
    /* whether the thread comes behind more than its clock says */
    bool is_incomplete;
    /* of each thread its latest tick that is known, and its latest version that was received from itself */
    uint64_t ticks[MOST_THREADS];
    uint32_t versions[MOST_THREADS];
};

static struct clock clocks[MOST_THREADS];
/* all threads that are known have smaller numbers */
static unsigned threads_known = 1;

void memory_is_accessed(unsigned thread)
{
    clocks[thread].has_accessed = true;
}

struct moment moment_of(unsigned thread, uint64_t place)
{
    struct clock *own = &clocks[thread];
    own->tick += own->has_accessed;
    own->has_accessed = false;
    return (struct moment){.place = place, .tick = own->tick, .version = own->version, .thread = (uint16_t)thread};
}

/* Whether the thread comes behind all that another one comes behind now, as far as that is known. */
static bool knows_clock(unsigned thread, const struct clock *other)
{
    const struct clock *own = &clocks[thread];
    for (unsigned i = 0; i < threads_known; i++) {
        if (own->ticks[i] < other->ticks[i] && i != thread) {
            return false;
        }
    }
    return !other->is_incomplete;
}

bool knows(unsigned thread, const struct moment *moment)
{
    struct clock *own = &clocks[thread];
    unsigned other = moment->thread;
    if (thread == other) {
        return true;
    }
    if (own->ticks[other] < moment->tick) {
        return false;
    }
    if (own->versions[other] < moment->version && knows_clock(thread, &clocks[other])) {
        own->versions[other] = moment->version;
    }
    return own->versions[other] >= moment->version;
}

static void merge(struct clock *own, const struct clock *other)
{
    for (unsigned i = 0; i < threads_known; i++) {
        own->ticks[i] = own->ticks[i] > other->ticks[i] ? own->ticks[i] : other->ticks[i];
    }
}

void learn(unsigned thread, const struct moment *moment)
{
    struct clock *own = &clocks[thread];
    const struct clock *other = &clocks[moment->thread];
    threads_known = thread < threads_known ? threads_known : thread + 1;
    /* What the other one knew then is not kept, once it has received more. */
    bool is_whole = other->version == moment->version;
    if (is_whole) {
        merge(own, other);
    }
    if (own->ticks[moment->thread] < moment->tick) {
        own->ticks[moment->thread] = moment->tick;
    }
    if (own->versions[moment->thread] < moment->version) {
        own->versions[moment->thread] = moment->version;
    }
    own->is_incomplete |= moment->version > 0 && (!is_whole || other->is_incomplete);
    own->version++;
}
