/* Semaphores, condition variables, barriers, what runs once and what a program says of itself: what one thread hands to another
 * through them.
 *
 * A message has a number of its own, and is received once at most. Where it isn't known which message a thread was woken by, the oldest
 * one that waits is taken. What is released at an address hands over to each who acquires it there. Which of these become events of the
 * trace is hgd-record's business.
 */
#include <sys/mman.h>

#include "recorder.h"

enum {
    CHANNELS = 1 << 14,
    MESSAGES = 1 << 20,
    NO_MESSAGE = 0,
    SPINS_BEFORE_NAP = 256,
    /* a second or more: whoever has it so long was stopped by a signal in the midst */
    MOST_NAPS = 10000,
};

struct channel {
    uintptr_t address;
    /* the places of the first and the last message that wait; NO_MESSAGE where there is none */
    uint32_t first, last;
    uint32_t pending, waiting;
    uint32_t parties, arrived;
};

struct message {
    uint32_t number;
    uint32_t next;
};

static struct channel *channels;
static struct message *messages;
static uint32_t messages_used = 1, first_free;
static uint32_t next_number;
static _Atomic bool is_locked;

static void *make_table(size_t length)
{
    void *made = mmap(NULL, length, PROT_READ | PROT_WRITE, MAP_PRIVATE | MAP_ANONYMOUS | MAP_NORESERVE, -1, 0);
    return made == MAP_FAILED ? NULL : made;
}

void make_channels(void)
{
    if (ring->messages) {
        channels = make_table(CHANNELS * sizeof *channels);
        messages = make_table(MESSAGES * sizeof *messages);
    }
}

/* Where the lock is not to be had, a message is left out rather than waited for without end. */
static bool take_lock(void)
{
    unsigned spins = 0, naps = 0;
    while (atomic_exchange_explicit(&is_locked, true, memory_order_acquire)) {
        if (++spins % SPINS_BEFORE_NAP == 0) {
            nap();
            naps = has_room() ? naps + 1 : 0;
        }
        if (naps == MOST_NAPS) {
            count(COUNT_LOST_MESSAGES);
            return false;
        }
    }
    return true;
}

static void give_lock(void)
{
    atomic_store_explicit(&is_locked, false, memory_order_release);
}

static struct channel *find_channel(const void *address)
{
    size_t place = ((uintptr_t)address >> 2) * 0x9E3779B97F4A7C15ull >> 50;
    for (size_t tries = 0; tries < CHANNELS; tries++) {
        struct channel *channel = &channels[(place + tries) % CHANNELS];
        if (!channel->address) {
            channel->address = (uintptr_t)address;
        }
        if (channel->address == (uintptr_t)address) {
            return channel;
        }
    }
    return NULL;
}

/* The channel, with the lock taken and an event begun; or null. */
static struct channel *enter_channel(const void *address)
{
    if (!channels || !messages || !begin_event()) {
        return NULL;
    }
    if (take_lock()) {
        struct channel *channel = find_channel(address);
        if (channel) {
            return channel;
        }
        count(COUNT_LOST_MESSAGES);
        give_lock();
    }
    end_event();
    return NULL;
}

static void leave_channel(void)
{
    give_lock();
    end_event();
}

static uint32_t take_place(void)
{
    uint32_t place = first_free;
    if (place) {
        first_free = messages[place].next;
        return place;
    }
    return messages_used < MESSAGES ? messages_used++ : NO_MESSAGE;
}

static void send(struct channel *channel, uintptr_t code)
{
    uint32_t place = take_place();
    if (!place) {
        count(COUNT_LOST_MESSAGES);
        return;
    }
    messages[place] = (struct message){.number = next_number++};
    if (channel->pending++) {
        messages[channel->last].next = place;
    } else {
        channel->first = place;
    }
    channel->last = place;
    publish(KIND_SEND, self.number, messages[place].number, 0, code);
    next_epoch(self.number);
}

static bool drop_oldest(struct channel *channel, uint32_t *number)
{
    if (!channel->pending) {
        return false;
    }
    uint32_t place = channel->first;
    *number = messages[place].number;
    channel->first = messages[place].next;
    channel->pending--;
    messages[place].next = first_free;
    first_free = place;
    return true;
}

static void receive(struct channel *channel, uintptr_t code)
{
    uint32_t number;
    if (drop_oldest(channel, &number)) {
        publish(KIND_RECEIVE, self.number, number, 0, code);
        next_epoch(self.number);
    }
}

static void drop_all_but(struct channel *channel, uint32_t kept)
{
    uint32_t ignored;
    while (channel->pending > kept && drop_oldest(channel, &ignored)) {
    }
}

void channel_is_new(const void *address, unsigned parties)
{
    struct channel *channel = enter_channel(address);
    if (channel) {
        drop_all_but(channel, 0);
        channel->parties = parties;
        channel->arrived = channel->waiting = 0;
        leave_channel();
    }
}

void message_is_sent(const void *address, enum count what, uintptr_t code)
{
    count(what);
    struct channel *channel = enter_channel(address);
    if (channel) {
        send(channel, code);
        leave_channel();
    }
}

void message_is_received(const void *address, uintptr_t code)
{
    struct channel *channel = enter_channel(address);
    if (channel) {
        receive(channel, code);
        leave_channel();
    }
}

static void publish_place(enum kind kind, const void *address, uintptr_t code)
{
    if (ring->messages && begin_event()) {
        publish(kind, self.number, (uintptr_t)address, 0, code);
        next_epoch(self.number);
        end_event();
    }
}

void place_is_released(const void *address, uintptr_t code)
{
    if (is_recording()) {
        publish_place(KIND_RELEASE, address, code);
    }
}

void place_is_acquired(const void *address, uintptr_t code)
{
    if (is_recording()) {
        publish_place(KIND_ACQUIRE, address, code);
    }
}

void wait_begins(const void *address)
{
    struct channel *channel = enter_channel(address);
    if (channel) {
        channel->waiting++;
        leave_channel();
    }
}

/* A signal that woke nobody is no message to one who waits later. */
void wait_ends(const void *address, bool was_woken, uintptr_t code)
{
    struct channel *channel = enter_channel(address);
    if (channel) {
        channel->waiting -= channel->waiting > 0;
        if (was_woken) {
            receive(channel, code);
        }
        drop_all_but(channel, channel->waiting);
        leave_channel();
    }
}

void waiters_are_woken(const void *address, bool all, uintptr_t code)
{
    count(COUNT_CONDITIONS);
    struct channel *channel = enter_channel(address);
    if (channel) {
        uint32_t room = channel->waiting > channel->pending ? channel->waiting - channel->pending : 0;
        for (uint32_t i = 0; i < (all ? room : room > 0); i++) {
            send(channel, code);
        }
        leave_channel();
    }
}

/* True for the last of the threads that meet at a barrier. It receives a message of each other, and then sends one to each. */
bool barrier_is_reached(const void *address, uintptr_t code)
{
    count(COUNT_BARRIERS);
    struct channel *channel = enter_channel(address);
    if (!channel) {
        return true;
    }
    bool is_last = ++channel->arrived >= channel->parties;
    if (!is_last) {
        send(channel, code);
    } else {
        channel->arrived = 0;
        for (uint32_t i = 1; i < channel->parties; i++) {
            receive(channel, code);
        }
        for (uint32_t i = 1; i < channel->parties; i++) {
            send(channel, code);
        }
    }
    leave_channel();
    return is_last;
}
