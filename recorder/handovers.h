/* Hand-overs between threads: which messages stand in the trace, and where. */
#ifndef HGD_HANDOVERS_H
#define HGD_HANDOVERS_H

#include <stdbool.h>
#include <stdint.h>

#include "runtime/ring.h"

enum messages {
    MESSAGES_NONE,
    /* of condition waits, semaphores, barriers, what runs once, annotations and atomics */
    MESSAGES_WAITS,
    /* and of a hold of a lock that read what another thread's hold of it wrote */
    MESSAGES_READ,
    /* and of each lock that another thread had before */
    MESSAGES_LOCKS,
};

/* Who writes the lines. An event or a message that is the last one of the trace answers false. */
struct writer {
    bool (*put_event)(const struct event *event);
    bool (*put_message)(bool is_send, unsigned thread, uint32_t number, uint64_t code);
    /* No message follows for what happens from the next event on. */
    void (*messages_end)(void);
};

struct message_counts {
    uint64_t pairs;
    /* of these, how many stand later than what they tell of */
    uint64_t late;
    /* how often all that was known of memory was forgotten for want of room */
    uint64_t forgotten;
};

/* No event is held back for longer than these milliseconds, where `write_old` is called often. */
void begin_hand_overs(enum messages which, uint64_t milliseconds, struct event *slots, const struct writer *writer);
/* Takes the event behind the latest one that was taken. It stays in its slot of the ring until it is written. These are false where the
 * trace has ended. */
bool take_event(void);
/* Writes what was held back for long, by the time now. */
bool write_old(uint64_t milliseconds);
bool write_all(void);
/* The places in the ring of the first event that is not written, and of the next one to be taken. */
uint64_t first_held(void);
uint64_t next_taken(void);
struct message_counts message_counts(void);

#endif
