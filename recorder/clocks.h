/* What the order of a trace says already: which moments of other threads each thread comes behind. */
#ifndef HGD_CLOCKS_H
#define HGD_CLOCKS_H

#include <stdbool.h>
#include <stdint.h>

/* A moment of a thread: all that it did up to the event at `place` comes before what it hands over there. */
struct moment {
    uint64_t place;
    /* the thread's own time: it moves on where memory was accessed since the moment before */
    uint64_t tick;
    /* how often the thread had received something by then */
    uint32_t version;
    uint16_t thread;
};

/* The thread's moment now. */
struct moment moment_of(unsigned thread, uint64_t place);
void memory_is_accessed(unsigned thread);
/* Whether the thread comes behind all that was accessed before the moment. It may, and this not know it; never the other way round. */
bool knows(unsigned thread, const struct moment *moment);
/* From here on it does. */
void learn(unsigned thread, const struct moment *moment);

#endif
