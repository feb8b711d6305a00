/* What hgd-record does about hand-overs, over a list of events on standard input: hand-over-filter none|waits|read|locks
 *
 * The lines are those of a trace, and `#send T K`, `#recv T K`, `#release T A`, `#acquire T A`, `#load T A ORDER VALUE`, `#store T A ORDER
 * VALUE` with `update` behind it where it is one; order is `relaxed`, `acquire`, `release` or `acq_rel`. `#wait` lets what is held go, as
 * time does. The events are printed with their messages, and comments as they are.
 */
#include <inttypes.h>
#include <stdio.h>
#include <stdlib.h>
#include <string.h>

#include "../../handovers.h"

enum { LONGEST = 128 };

static struct event slots[RING_EVENTS];
static char lines[RING_EVENTS][LONGEST];

static bool put_event(const struct event *event)
{
    fputs(lines[event - slots], stdout);
    return true;
}

static bool put_message(bool is_send, unsigned thread, uint32_t number, uint64_t code)
{
    (void)code;
    printf("%s %u %" PRIu32 "\n", is_send ? "send" : "recv", thread, number);
    return true;
}

static void messages_end(void)
{
    puts("# messages end");
}

static uint8_t order_of(const char *word)
{
    return strcmp(word, "relaxed") == 0 ? 0 : strcmp(word, "acquire") == 0 ? 2 : strcmp(word, "release") == 0 ? 3 : 4;
}

static struct event read_event(const char *line)
{
    static const char *const verbs[] = {
        [KIND_FORK] = "fork",     [KIND_JOIN] = "join",       [KIND_LOCK] = "lock",         [KIND_READ_LOCK] = "rdlock", [KIND_UNLOCK] = "unlock",
        [KIND_READ] = "read",     [KIND_WRITE] = "write",     [KIND_ALLOC] = "alloc",       [KIND_FREE] = "free",        [KIND_SEND] = "#send",
        [KIND_RECEIVE] = "#recv", [KIND_RELEASE] = "#release", [KIND_ACQUIRE] = "#acquire", [KIND_ATOMIC_LOAD] = "#load", [KIND_ATOMIC_STORE] = "#store",
    };
    char verb[16], third[16] = "", fourth[16] = "", fifth[16] = "";
    unsigned thread = 0;
    uint64_t value = 0;
    struct event event = {.kind = KIND_NOTHING};
    sscanf(line, "%15s %u %" SCNi64 " %15s %15s %15s", verb, &thread, (int64_t *)&value, third, fourth, fifth);
    for (size_t i = 1; i < sizeof verbs / sizeof *verbs; i++) {
        if (strcmp(verb, verbs[i]) == 0) {
            event.kind = (uint8_t)i;
        }
    }
    event.thread = (uint16_t)thread;
    event.value = value;
    event.length = (uint32_t)strtoul(third, NULL, 0);
    if (event.kind == KIND_ATOMIC_LOAD || event.kind == KIND_ATOMIC_STORE) {
        event.order = order_of(third) | (*fifth ? ATOMIC_UPDATE : 0);
        event.length = (uint32_t)strtoul(fourth, NULL, 0) << ATOMIC_LENGTH_BITS | 4;
    }
    return event;
}

static enum messages mode_of(const char *word)
{
    return strcmp(word, "none") == 0 ? MESSAGES_NONE : strcmp(word, "waits") == 0 ? MESSAGES_WAITS : strcmp(word, "read") == 0 ? MESSAGES_READ : MESSAGES_LOCKS;
}

int main(int number, char **words)
{
    static const struct writer writer = {.put_event = put_event, .put_message = put_message, .messages_end = messages_end};
    begin_hand_overs(mode_of(number > 1 ? words[1] : "read"), 100, slots, &writer);
    char *line;
    uint64_t now = 1000;
    while ((line = fgets(lines[next_taken() % RING_EVENTS], LONGEST, stdin))) {
        if (strcmp(line, "#wait\n") == 0) {
            write_old(now += 1000);
            write_old(now += 1000);
            continue;
        }
        slots[next_taken() % RING_EVENTS] = read_event(line);
        take_event();
    }
    write_all();
    struct message_counts counts = message_counts();
    fprintf(stderr, "pairs %" PRIu64 " late %" PRIu64 " forgotten %" PRIu64 "\n", counts.pairs, counts.late, counts.forgotten);
    return 0;
}
