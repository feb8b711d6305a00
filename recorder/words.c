/* A table of pages, each with a number for each of its words. It takes 4 KiB for each page of which a word was written under a lock, at most
 * 256 MiB: whoever finds it full forgets all of it. */
#include "words.h"

#include <stddef.h>
#include <stdlib.h>
#include <string.h>
#include <sys/mman.h>

enum { PLACES = 2 * MOST_PAGES, LATEST = 256 };

/* What was asked for lately, also where there was no such page. */
struct latest {
    uint64_t number;
    struct page *page;
};

static struct page *pages;
static uint32_t pages_used;
/* the page's index and 1, by a hash of its number */
static uint32_t places[PLACES];
static struct latest latest[LATEST];

static void forget_latest(void)
{
    for (size_t i = 0; i < LATEST; i++) {
        latest[i] = (struct latest){.number = UINT64_MAX};
    }
}

static size_t place_of(uint64_t number)
{
    return number * 0x9E3779B97F4A7C15ull >> 47;
}

static struct page *look_up(uint64_t number)
{
    for (size_t place = place_of(number); places[place]; place = (place + 1) % PLACES) {
        struct page *page = &pages[places[place] - 1];
        if (page->number == number) {
            return page;
        }
    }
    return NULL;
}

struct page *find_page(uint64_t number)
{
    if (!pages_used) {
        return NULL;
    }
    struct latest *known = &latest[number % LATEST];
    if (known->number != number) {
        *known = (struct latest){.number = number, .page = look_up(number)};
    }
    return known->page;
}

static struct page *add_page(uint64_t number)
{
    if (pages_used == MOST_PAGES) {
        return NULL;
    }
    size_t place = place_of(number);
    while (places[place]) {
        place = (place + 1) % PLACES;
    }
    struct page *page = &pages[pages_used];
    places[place] = ++pages_used;
    page->number = number;
    latest[number % LATEST] = (struct latest){.number = number, .page = page};
    return page;
}

static struct page *reserve(void)
{
    void *made = mmap(NULL, MOST_PAGES * sizeof *pages, PROT_READ | PROT_WRITE, MAP_PRIVATE | MAP_ANONYMOUS | MAP_NORESERVE, -1, 0);
    forget_latest();
    return made == MAP_FAILED ? NULL : made;
}

struct page *make_page(uint64_t number)
{
    if (!pages) {
        pages = reserve();
    }
    struct page *found = find_page(number);
    return found || !pages ? found : add_page(number);
}

uint32_t pages_in_use(void)
{
    return pages_used;
}

struct page *page_in_use(uint32_t index)
{
    return &pages[index];
}

void forget_pages(void)
{
    if (pages) {
        madvise(pages, MOST_PAGES * sizeof *pages, MADV_DONTNEED);
    }
    memset(places, 0, sizeof places);
    forget_latest();
    pages_used = 0;
}
