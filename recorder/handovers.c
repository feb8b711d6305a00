/* Hand-overs between threads: which messages stand in the trace, and where.
 *
 * The latest 8,192 events stay in their slots of the ring before they are written, for a time that is given. So when it is seen that a
 * thread took what another one handed over, `recv` stands behind the event by which it did (the read of a word, say), and `send` can stand
 * where that was handed over (behind an unlock). What has been written is past: then `send` stands before the first event that is held,
 * which is as near as can be. So a message that was sent is received within these events, but for those of semaphores and conditions, which
 * are sent when their place is written, since they may be received at any time.
 *
 * A pair that the order of the trace has already is left out, and so is one that hands over nothing (clocks.c).
 *
 * Memory: a page of 4 KiB for each one that was written under locks (words.c, at most 256 MiB), 48 bytes for each hold in which a word was
 * written last (at most 48 MiB), 12 KiB of clock for each thread (clocks.c, at most 12 MiB), and some 20 MiB for the rest where all of it is
 * used. Where something is used up, all that is known of memory is forgotten: hand-overs of before are not told then.
 */
#include "handovers.h"

#include <stddef.h>
#include <string.h>
#include <sys/mman.h>

#include "clocks.h"
#include "words.h"

enum {
    WINDOW = 8192,
    /* what hgd has room for, and how many of them are left to forks and joins */
    MOST_SEGMENTS = 1 << 20,
    SEGMENTS_LEFT = 1 << 16,
    MOST_OPEN = 64,
    NOTES = 1 << 16,
    HOLDS = 1 << 20,
    OBJECTS = 1 << 17,
    OBJECT_LISTS = 1 << 16,
    RELEASES = 1 << 18,
    WAITING = 1 << 16,
    /* of memory orders */
    ORDER_RELAXED = 0,
    ORDER_RELEASE = 3,
};

#define NEVER UINT64_MAX

/* A hold of a lock, in which a word was written. `outer` is the hold inside of which it is. */
struct hold {
    struct moment end;
    uint32_t references;
    uint32_t outer;
    /* what the same hold was before one outside of it ended; in a free place the next free one */
    uint32_t former;
    uint16_t lock;
    bool for_writing;
};

/* A hold that has not ended. Its places in `holds` are made when a word is written. */
struct open_hold {
    uint64_t place;
    uint32_t hold, former;
    uint16_t lock;
    bool for_writing;
};

struct thread {
    uint64_t joined_at;
    uint16_t joiner;
    uint16_t opened;
    /* the hold that words get that are written now, or 0 where it is not known */
    uint32_t writes_in;
    struct open_hold open[MOST_OPEN];
};

/* A line that stands behind an event which is held. */
struct note {
    uint32_t number;
    uint32_t next;
    uint16_t thread;
    bool is_send;
};

/* A message of a semaphore, a condition or a barrier, which the program has numbered. */
struct waiting {
    struct moment sent;
    uint32_t name;
    uint32_t number;
    bool is_open, is_sent;
};

/* What threads hand over by: an atomic, a place that an annotation names, a lock. */
enum object_kind { OBJECT_ATOMIC, OBJECT_SAID, OBJECT_WRITE_HOLDS, OBJECT_READ_HOLDS };

struct object {
    uint64_t address;
    /* of an atomic: what was stored */
    uint32_t value;
    uint32_t releases;
    uint32_t next;
    uint8_t kind;
};

struct release {
    struct moment moment;
    uint32_t next;
};

static enum messages which;
static uint64_t longest_milliseconds;
static struct event *slots;
static struct writer writer;
/* the first event that is held, and the one behind the latest that was taken */
static uint64_t first, end;
static bool has_ended;
static struct message_counts counts;
static uint64_t segments = 1, messages_end_at = NEVER;
static uint32_t next_number;

static struct thread threads[MOST_THREADS];

static uint32_t behind[RING_EVENTS];
static struct note notes[NOTES];
static uint32_t notes_used = 1, free_note, notes_taken;

/* made when it is first used */
static struct hold *holds;
static uint32_t holds_used = 1, free_hold;

static uint32_t lists[OBJECT_LISTS];
static struct object objects[OBJECTS];
static uint32_t objects_used = 1, free_object;
static struct release releases[RELEASES];
static uint32_t releases_used = 1, free_release;
static struct waiting waiting[WAITING];

/* ---- lines ---- */

static bool is_held(uint64_t place)
{
    return place >= first;
}

static struct event *event_at(uint64_t place)
{
    return &slots[place % RING_EVENTS];
}

static void put_message(bool is_send, unsigned thread, uint32_t number, uint64_t code)
{
    if (!has_ended) {
        has_ended = !writer.put_message(is_send, thread, number, code);
    }
}

static void put_notes(uint64_t place)
{
    uint32_t *head = &behind[place % RING_EVENTS];
    while (*head) {
        uint32_t at = *head;
        put_message(notes[at].is_send, notes[at].thread, notes[at].number, event_at(place)->code);
        *head = notes[at].next;
        notes[at].next = free_note;
        free_note = at;
        notes_taken--;
    }
}

static bool may_pair(void)
{
    if (messages_end_at == NEVER && segments + 2 > MOST_SEGMENTS - SEGMENTS_LEFT) {
        messages_end_at = end;
    }
    return messages_end_at == NEVER;
}

/* A message that nobody has received as long as it was held may be received at any time. */
static void send_what_waits(uint64_t place)
{
    const struct event *event = event_at(place);
    struct waiting *sent = &waiting[event->value % WAITING];
    if (sent->is_open && sent->sent.place == place && may_pair()) {
        sent->is_sent = true;
        sent->number = next_number++;
        segments += 2;
        counts.pairs++;
        put_message(true, sent->sent.thread, sent->number, event->code);
    }
}

static void write_first(void)
{
    if (first == messages_end_at) {
        writer.messages_end();
    }
    has_ended = !writer.put_event(event_at(first));
    put_notes(first);
    if (event_at(first)->kind == KIND_SEND) {
        send_what_waits(first);
    }
    first++;
}

static bool write_until(uint64_t place)
{
    while (first < place && !has_ended) {
        write_first();
    }
    return !has_ended;
}

bool write_all(void)
{
    return write_until(end);
}

bool write_old(uint64_t milliseconds)
{
    static uint64_t looked_at, taken_by_then;
    if (milliseconds - looked_at >= longest_milliseconds / 2) {
        write_until(taken_by_then);
        taken_by_then = end;
        looked_at = milliseconds;
    }
    return !has_ended;
}

/* ---- threads ---- */

static void thread_is_forked(unsigned parent, unsigned child)
{
    struct moment now = moment_of(parent, end);
    learn(child, &now);
    segments += 2;
}

static void thread_is_joined(unsigned joiner, unsigned child)
{
    struct moment last = moment_of(child, end);
    learn(joiner, &last);
    threads[child].joined_at = end;
    threads[child].joiner = (uint16_t)joiner;
    segments += 1;
}

/* Who can speak for a thread before the first event that is held: a thread that was joined is known by its joiner. */
static unsigned speaker_for(unsigned thread)
{
    for (unsigned tries = 0; threads[thread].joined_at < first && tries < MOST_THREADS; tries++) {
        thread = threads[thread].joiner;
    }
    return thread;
}

/* ---- pairs ---- */

static void put_behind(uint64_t place, bool is_send, unsigned thread, uint32_t number)
{
    uint32_t at = free_note;
    if (at) {
        free_note = notes[at].next;
    } else {
        at = notes_used++;
    }
    uint32_t *head = &behind[place % RING_EVENTS];
    notes[at] = (struct note){.number = number, .next = *head, .thread = (uint16_t)thread, .is_send = is_send};
    *head = at;
    notes_taken++;
}

/* There is room for the notes of one pair. */
static void make_room_for_notes(void)
{
    if (notes_taken + 2 >= NOTES) {
        write_all();
    }
}

static void put_send(const struct moment *from, uint32_t number)
{
    if (is_held(from->place)) {
        put_behind(from->place, true, from->thread, number);
    } else {
        counts.late++;
        put_message(true, speaker_for(from->thread), number, event_at(end)->code);
    }
}

/* What was done up to the moment comes before what the thread does behind the latest event. */
static void hand_over(const struct moment *from, unsigned to)
{
    if (knows(to, from) || !may_pair()) {
        return;
    }
    make_room_for_notes();
    learn(to, from);
    if (!is_held(from->place) && speaker_for(from->thread) == to) {
        return;
    }
    put_send(from, next_number);
    put_behind(end, false, to, next_number);
    next_number++;
    segments += 2;
    counts.pairs++;
}

/* ---- messages that the program has numbered ---- */

static void message_is_sent(const struct event *event)
{
    waiting[event->value % WAITING] =
        (struct waiting){.sent = moment_of(event->thread, end), .name = (uint32_t)event->value, .is_open = true};
}

static void message_is_received(const struct event *event)
{
    struct waiting *sent = &waiting[event->value % WAITING];
    if (!sent->is_open || sent->name != (uint32_t)event->value) {
        return;
    }
    sent->is_open = false;
    if (!sent->is_sent) {
        hand_over(&sent->sent, event->thread);
        return;
    }
    make_room_for_notes();
    put_behind(end, false, event->thread, sent->number);
    learn(event->thread, &sent->sent);
}

/* ---- holds in which words were written ---- */

/* Nobody has it any more: its place is used again, and it no longer needs the one outside of it. */
static void drop_hold(uint32_t at)
{
    while (at && --holds[at].references == 0) {
        uint32_t outer = holds[at].outer;
        holds[at].former = free_hold;
        free_hold = at;
        at = outer;
    }
}

static void forget_memory(void)
{
    forget_pages();
    memset(lists, 0, sizeof lists);
    objects_used = releases_used = holds_used = 1;
    free_object = free_release = free_hold = 0;
    for (unsigned i = 0; i < MOST_THREADS; i++) {
        threads[i].writes_in = 0;
        for (unsigned k = 0; k < threads[i].opened; k++) {
            threads[i].open[k].hold = threads[i].open[k].former = 0;
        }
    }
    counts.forgotten++;
}

static uint32_t take_hold(void)
{
    uint32_t at = free_hold;
    if (at) {
        free_hold = holds[at].former;
        return at;
    }
    return holds_used < HOLDS ? holds_used++ : 0;
}

/* 0 where there is no room. */
static uint32_t make_hold(unsigned thread, struct open_hold *open, uint32_t outer)
{
    uint32_t at = take_hold();
    if (!at) {
        return 0;
    }
    holds[at] = (struct hold){
        .end = {.place = NEVER, .tick = NEVER, .thread = (uint16_t)thread},
        .references = 1,
        .outer = outer,
        .former = open->former,
        .lock = open->lock,
        .for_writing = open->for_writing,
    };
    if (outer) {
        holds[outer].references++;
    }
    open->hold = at;
    return at;
}

/* The innermost hold of the thread's, with those outside of it. */
static uint32_t hold_of_writes(unsigned thread)
{
    struct thread *own = &threads[thread];
    uint32_t outer = 0;
    for (unsigned i = 0; i < own->opened && !own->writes_in; i++) {
        uint32_t made = own->open[i].hold ? own->open[i].hold : make_hold(thread, &own->open[i], outer);
        if (!made) {
            forget_memory();
            return 0;
        }
        outer = made;
    }
    own->writes_in = own->writes_in ? own->writes_in : outer;
    return own->writes_in;
}

/* All that the hold has been has its end now. */
static void end_holds(const struct open_hold *open, struct moment now)
{
    uint32_t at = open->hold ? open->hold : open->former;
    while (at) {
        uint32_t former = holds[at].former;
        holds[at].end = now;
        drop_hold(at);
        at = former;
    }
}

/* A hold inside of one that has ended is another one from now on: words that are written in it now are not written in both. */
static void renew_hold(struct open_hold *open)
{
    if (open->hold) {
        open->former = open->hold;
        open->hold = 0;
    }
}

/* ---- objects ---- */

static uint32_t *list_of(uint64_t address)
{
    return &lists[(address / WORD_BYTES) * 0x9E3779B97F4A7C15ull >> 48];
}

static bool has_address(enum object_kind kind)
{
    return kind == OBJECT_ATOMIC || kind == OBJECT_SAID;
}

static struct object *find_object(enum object_kind kind, uint64_t address)
{
    uint32_t at = *list_of(address);
    while (at && (objects[at].kind != kind || objects[at].address != address)) {
        at = objects[at].next;
    }
    return at ? &objects[at] : NULL;
}

static struct object *make_object(enum object_kind kind, uint64_t address)
{
    struct object *found = find_object(kind, address);
    struct page *page = !found && has_address(kind) ? make_page(address / PAGE_BYTES) : NULL;
    if (found) {
        return found;
    }
    uint32_t at = free_object;
    if (at) {
        free_object = objects[at].next;
    } else if (objects_used < OBJECTS) {
        at = objects_used++;
    }
    if (!at || (has_address(kind) && !page)) {
        forget_memory();
        return NULL;
    }
    if (page) {
        page->objects++;
    }
    uint32_t *list = list_of(address);
    objects[at] = (struct object){.address = address, .next = *list, .kind = (uint8_t)kind};
    *list = at;
    return &objects[at];
}

static void drop_releases(struct object *object)
{
    while (object->releases) {
        uint32_t at = object->releases;
        object->releases = releases[at].next;
        releases[at].next = free_release;
        free_release = at;
    }
}

/* What a thread hands over now has all that it did before. */
static void add_release(struct object *object, struct moment moment)
{
    uint32_t at = object->releases;
    while (at && releases[at].moment.thread != moment.thread) {
        at = releases[at].next;
    }
    if (at) {
        releases[at].moment = moment;
        return;
    }
    at = free_release;
    if (at) {
        free_release = releases[at].next;
    } else if (releases_used < RELEASES) {
        at = releases_used++;
    } else {
        forget_memory();
        return;
    }
    releases[at] = (struct release){.moment = moment, .next = object->releases};
    object->releases = at;
}

static void acquire(const struct object *object, unsigned thread)
{
    for (uint32_t at = object ? object->releases : 0; at; at = releases[at].next) {
        hand_over(&releases[at].moment, thread);
    }
}

/* The objects of one word, where the memory is new or nobody's any more. */
static void forget_objects(struct page *page, uint64_t word)
{
    for (uint32_t *at = list_of(word); *at;) {
        struct object *object = &objects[*at];
        if (has_address(object->kind) && object->address / WORD_BYTES == word / WORD_BYTES) {
            uint32_t place = *at;
            *at = object->next;
            drop_releases(object);
            object->next = free_object;
            free_object = place;
            page->objects--;
        } else {
            at = &object->next;
        }
    }
}

static bool is_acquiring(unsigned order)
{
    return order != ORDER_RELAXED && order != ORDER_RELEASE;
}

static bool is_releasing(unsigned order)
{
    return order >= ORDER_RELEASE;
}

/* A store begins anew what the atomic hands over; an update adds to it. */
static void atomic_is_stored(const struct event *event)
{
    unsigned order = event->order & ATOMIC_ORDER;
    struct object *object = is_releasing(order) ? make_object(OBJECT_ATOMIC, event->value) : find_object(OBJECT_ATOMIC, event->value);
    if (!object) {
        return;
    }
    object->value = event->length >> ATOMIC_LENGTH_BITS;
    if (!(event->order & ATOMIC_UPDATE)) {
        drop_releases(object);
    }
    if (is_releasing(order)) {
        add_release(object, moment_of(event->thread, end));
    }
}

static void atomic_is_loaded(const struct event *event)
{
    struct object *object = is_acquiring(event->order & ATOMIC_ORDER) ? find_object(OBJECT_ATOMIC, event->value) : NULL;
    if (object && object->value == event->length >> ATOMIC_LENGTH_BITS) {
        acquire(object, event->thread);
    }
}

/* ---- locks ---- */

static void lock_hands_over(unsigned thread, uint16_t lock, bool for_writing)
{
    acquire(find_object(OBJECT_WRITE_HOLDS, lock), thread);
    if (for_writing) {
        acquire(find_object(OBJECT_READ_HOLDS, lock), thread);
    }
}

static void lock_is_handed_over(uint16_t lock, bool for_writing, struct moment now)
{
    struct object *writes = make_object(OBJECT_WRITE_HOLDS, lock);
    struct object *reads = writes ? make_object(OBJECT_READ_HOLDS, lock) : NULL;
    if (reads && for_writing) {
        drop_releases(writes);
        drop_releases(reads);
    }
    if (reads) {
        add_release(for_writing ? writes : reads, now);
    }
}

static void lock_is_taken(const struct event *event, bool for_writing)
{
    struct thread *own = &threads[event->thread];
    if (own->opened < MOST_OPEN) {
        own->open[own->opened++] = (struct open_hold){.place = end, .lock = (uint16_t)event->value, .for_writing = for_writing};
        own->writes_in = 0;
    }
    if (which == MESSAGES_LOCKS) {
        lock_hands_over(event->thread, (uint16_t)event->value, for_writing);
    }
}

static struct open_hold *find_open(unsigned thread, uint16_t lock)
{
    struct thread *own = &threads[thread];
    for (unsigned i = own->opened; i-- > 0;) {
        if (own->open[i].lock == lock) {
            return &own->open[i];
        }
    }
    return NULL;
}

static void lock_is_let_go(const struct event *event)
{
    struct thread *own = &threads[event->thread];
    struct open_hold *open = find_open(event->thread, (uint16_t)event->value);
    if (!open) {
        return;
    }
    struct moment now = moment_of(event->thread, end);
    end_holds(open, now);
    if (which == MESSAGES_LOCKS) {
        lock_is_handed_over(open->lock, open->for_writing, now);
    }
    for (struct open_hold *inner = open + 1; inner < own->open + own->opened; inner++) {
        renew_hold(inner);
        inner[-1] = *inner;
    }
    own->opened--;
    own->writes_in = 0;
}

/* ---- words ---- */

/* A word is read that was written in hold `at`, by whoever that was. */
static void word_is_read(unsigned thread, uint32_t at)
{
    const struct hold *latest = NULL;
    for (; at; at = holds[at].outer) {
        const struct hold *hold = &holds[at];
        if (hold->end.place == NEVER || knows(thread, &hold->end) || (latest && latest->end.tick > hold->end.tick)) {
            continue;
        }
        const struct open_hold *open = find_open(thread, hold->lock);
        if (open && open->place > hold->end.place && (open->for_writing || hold->for_writing)) {
            latest = hold;
        }
    }
    if (latest) {
        hand_over(&latest->end, thread);
    }
}

/* The words of the access that lie in one page. */
struct span {
    struct page *page;
    uint32_t from, to;
};

static struct span span_at(struct page *page, uint64_t address, uint64_t beyond)
{
    uint64_t last = (beyond - 1) / PAGE_BYTES == address / PAGE_BYTES ? (beyond - 1) % PAGE_BYTES : PAGE_BYTES - 1;
    return (struct span){.page = page, .from = address % PAGE_BYTES / WORD_BYTES, .to = (uint32_t)last / WORD_BYTES + 1};
}

static void words_are_read(unsigned thread, struct span span)
{
    uint32_t before = 0;
    for (uint32_t i = span.from; i < span.to; i++) {
        uint32_t hold = span.page->holds[i];
        if (hold && hold != before) {
            word_is_read(thread, hold);
        }
        before = hold;
    }
}

static void words_are_written(struct span span, uint32_t hold)
{
    for (uint32_t i = span.from; i < span.to; i++) {
        uint32_t before = span.page->holds[i];
        if (before != hold) {
            span.page->holds[i] = hold;
            holds[hold].references += hold > 0;
            drop_hold(before);
        }
    }
}

static void words_are_new(struct span span)
{
    words_are_written(span, 0);
    for (uint32_t i = span.from; i < span.to && span.page->objects; i++) {
        forget_objects(span.page, span.page->number * PAGE_BYTES + i * WORD_BYTES);
    }
}

static void memory_is_read(const struct event *event)
{
    memory_is_accessed(event->thread);
    if (which != MESSAGES_READ) {
        return;
    }
    uint64_t beyond = event->value + event->length;
    for (uint64_t at = event->value; at < beyond && threads[event->thread].opened; at = (at / PAGE_BYTES + 1) * PAGE_BYTES) {
        struct page *page = find_page(at / PAGE_BYTES);
        if (page) {
            words_are_read(event->thread, span_at(page, at, beyond));
        }
    }
}

static void memory_is_written(const struct event *event)
{
    memory_is_accessed(event->thread);
    if (which != MESSAGES_READ) {
        return;
    }
    uint64_t beyond = event->value + event->length;
    for (uint64_t at = event->value; at < beyond; at = (at / PAGE_BYTES + 1) * PAGE_BYTES) {
        uint32_t hold = hold_of_writes(event->thread);
        struct page *page = hold ? make_page(at / PAGE_BYTES) : find_page(at / PAGE_BYTES);
        if (page) {
            words_are_written(span_at(page, at, beyond), hold);
        } else if (hold) {
            forget_memory();
        }
    }
}

static void memory_is_new(const struct event *event)
{
    memory_is_accessed(event->thread);
    uint64_t beyond = event->value + event->length;
    if (event->length / PAGE_BYTES > pages_in_use()) {
        for (uint32_t i = 0; i < pages_in_use(); i++) {
            struct page *page = page_in_use(i);
            uint64_t low = page->number * PAGE_BYTES, high = low + PAGE_BYTES;
            if (low < beyond && high > event->value) {
                words_are_new(span_at(page, low > event->value ? low : event->value, beyond));
            }
        }
        return;
    }
    for (uint64_t at = event->value; at < beyond; at = (at / PAGE_BYTES + 1) * PAGE_BYTES) {
        struct page *page = find_page(at / PAGE_BYTES);
        if (page) {
            words_are_new(span_at(page, at, beyond));
        }
    }
}

/* ---- events ---- */

static void place_is_released(const struct event *event)
{
    struct object *object = make_object(OBJECT_SAID, event->value);
    if (object) {
        add_release(object, moment_of(event->thread, end));
    }
}

/* Whether the event says anything where these messages are wanted. A program that writes to memory of others may have written to the ring:
 * no thread is looked at that can't be there. */
static bool is_wanted(const struct event *event)
{
    if (event->thread >= MOST_THREADS) {
        return false;
    }
    switch (event->kind) {
    case KIND_FORK:
    case KIND_JOIN:
        return which != MESSAGES_NONE && event->value < MOST_THREADS;
    case KIND_LOCK:
    case KIND_READ_LOCK:
    case KIND_UNLOCK:
        return which >= MESSAGES_READ;
    default:
        return which != MESSAGES_NONE;
    }
}

static void look_at(const struct event *event)
{
    switch (event->kind) {
    case KIND_FORK:
        return thread_is_forked(event->thread, (unsigned)event->value);
    case KIND_JOIN:
        return thread_is_joined(event->thread, (unsigned)event->value);
    case KIND_LOCK:
    case KIND_READ_LOCK:
        return lock_is_taken(event, event->kind == KIND_LOCK);
    case KIND_UNLOCK:
        return lock_is_let_go(event);
    case KIND_READ:
        return memory_is_read(event);
    case KIND_WRITE:
        return memory_is_written(event);
    case KIND_ALLOC:
    case KIND_FREE:
        return memory_is_new(event);
    case KIND_SEND:
        return message_is_sent(event);
    case KIND_RECEIVE:
        return message_is_received(event);
    case KIND_ATOMIC_STORE:
        return atomic_is_stored(event);
    case KIND_ATOMIC_LOAD:
        return atomic_is_loaded(event);
    case KIND_RELEASE:
        return place_is_released(event);
    case KIND_ACQUIRE:
        return acquire(find_object(OBJECT_SAID, event->value), event->thread);
    }
}

void begin_hand_overs(enum messages wanted, uint64_t milliseconds, struct event *ring_slots, const struct writer *how)
{
    which = wanted;
    longest_milliseconds = milliseconds;
    slots = ring_slots;
    writer = *how;
    for (unsigned i = 0; i < MOST_THREADS; i++) {
        threads[i].joined_at = NEVER;
    }
    if (which >= MESSAGES_READ) {
        void *made = mmap(NULL, HOLDS * sizeof *holds, PROT_READ | PROT_WRITE, MAP_PRIVATE | MAP_ANONYMOUS | MAP_NORESERVE, -1, 0);
        holds = made == MAP_FAILED ? NULL : made;
        which = holds ? which : MESSAGES_WAITS;
    }
}

bool take_event(void)
{
    const struct event *event = event_at(end);
    if (is_wanted(event)) {
        look_at(event);
    }
    end++;
    uint64_t held = which == MESSAGES_NONE ? 0 : WINDOW;
    return write_until(end > held ? end - held : 0);
}

uint64_t first_held(void)
{
    return first;
}

uint64_t next_taken(void)
{
    return end;
}

struct message_counts message_counts(void)
{
    return counts;
}
