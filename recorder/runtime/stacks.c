/* Call stacks: by what calls a thread came to an event.
 *
 * The compiler tells each entry and each exit of a function. A stack has a number: that of its innermost frame, which names the number of
 * the frames outside of it. So a stack that was seen before costs one look, and one that shares its outer frames only its own.
 */
#include <sys/mman.h>

#include "recorder.h"

enum { MOST_FRAMES = 1024, PLACES = 1 << 18, MOST_TRIES = 64 };

bool wants_stacks;
/* numbers of stacks, by a hash of the caller and the outer frames */
static _Atomic uint32_t *places;

static void *make_memory(size_t length)
{
    void *made = mmap(NULL, length, PROT_READ | PROT_WRITE, MAP_PRIVATE | MAP_ANONYMOUS | MAP_NORESERVE, -1, 0);
    return made == MAP_FAILED ? NULL : made;
}

void make_stacks(void)
{
    places = ring->wants_stacks ? make_memory(PLACES * sizeof *places) : NULL;
    wants_stacks = places != NULL;
}

static bool is_on_own_stack(uintptr_t address)
{
    return address >= self.stack_low && address < self.stack_high;
}

/* A jump leaves functions without a word. Their frames lie below the one that is entered now, or in its place. */
static void drop_left_frames(uintptr_t place)
{
    while (self.depth && self.depth <= MOST_FRAMES && is_on_own_stack(self.frames[self.depth - 1].place) &&
           self.frames[self.depth - 1].place <= place) {
        self.depth--;
    }
}

void function_is_entered(uintptr_t caller, uintptr_t place)
{
    if (!self.frames) {
        self.frames = make_memory(MOST_FRAMES * sizeof *self.frames);
        if (!self.frames) {
            return;
        }
    }
    if (is_on_own_stack(place)) {
        drop_left_frames(place);
    }
    if (self.depth < MOST_FRAMES) {
        self.frames[self.depth] = (struct frame){.caller = caller, .place = place};
    }
    self.depth++;
}

/* The thread ends. */
void drop_frames(void)
{
    struct frame *frames = self.frames;
    self.frames = NULL;
    self.depth = 0;
    if (frames) {
        munmap(frames, MOST_FRAMES * sizeof *frames);
    }
}

static size_t place_of(uintptr_t caller, uint32_t outer)
{
    return (size_t)((caller ^ (uint64_t)outer << 40 ^ outer) * 0x9E3779B97F4A7C15ull >> 46);
}

static uint32_t make_stack(uintptr_t caller, uint32_t outer)
{
    uint32_t number = atomic_fetch_add(&ring->stacks_used, 1) + 1;
    if (number >= MOST_STACKS) {
        atomic_fetch_sub(&ring->stacks_used, 1);
        count(COUNT_LOST_STACKS);
        return 0;
    }
    ring->stacks[number] = (struct stack){.caller = caller, .outer = outer};
    if (caller < self.code_low || caller >= self.code_high) {
        note_code(caller);
    }
    return number;
}

static bool is_stack(uint32_t number, uintptr_t caller, uint32_t outer)
{
    return ring->stacks[number].caller == caller && ring->stacks[number].outer == outer;
}

/* Two threads that meet a stack at the same time may each give it a number. Both are right. */
static uint32_t number_of(uintptr_t caller, uint32_t outer)
{
    size_t place = place_of(caller, outer);
    for (int tries = 0; tries < MOST_TRIES; tries++, place = (place + 1) % PLACES) {
        uint32_t found = atomic_load_explicit(&places[place], memory_order_acquire);
        if (found && is_stack(found, caller, outer)) {
            return found;
        }
        if (!found) {
            uint32_t made = make_stack(caller, outer);
            if (made) {
                atomic_compare_exchange_strong(&places[place], &found, made);
            }
            return made;
        }
    }
    count(COUNT_LOST_STACKS);
    return 0;
}

uint32_t current_stack(void)
{
    size_t depth = self.depth < MOST_FRAMES ? self.depth : MOST_FRAMES, known = depth;
    while (known && !self.frames[known - 1].stack) {
        known--;
    }
    uint32_t stack = known ? self.frames[known - 1].stack : 0;
    for (; known < depth; known++) {
        stack = number_of(self.frames[known].caller, stack);
        if (!stack) {
            return 0;
        }
        self.frames[known].stack = stack;
    }
    return stack;
}
