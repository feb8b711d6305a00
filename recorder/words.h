/* For each word of memory the hold of a lock in which it was last written, by its number; 0 where there is none. */
#ifndef HGD_WORDS_H
#define HGD_WORDS_H

#include <stdint.h>

enum { WORD_BYTES = 4, PAGE_BYTES = 4096, WORDS_OF_A_PAGE = PAGE_BYTES / WORD_BYTES, MOST_PAGES = 1 << 16 };

struct page {
    uint64_t number;
    /* how many objects (atomics and their like) lie in the page */
    uint32_t objects;
    uint32_t holds[WORDS_OF_A_PAGE];
};

/* Null where the page has none of all this. */
struct page *find_page(uint64_t number);
/* The same, but the page is made where there is none; null where there is no room for one more. */
struct page *make_page(uint64_t number);
uint32_t pages_in_use(void);
/* Page `index` of those in use, from 0 on. */
struct page *page_in_use(uint32_t index);
void forget_pages(void);

#endif
