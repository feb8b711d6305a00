/* Each thread changes its part of a block, and lets go its reference; the last one reads all parts and frees the block.
   expect threads 4, locks 0, races none, events send recv, comments load store */
#include <stdatomic.h>

#include "threads.h"

struct block {
    _Atomic int references;
    int parts[3], sum;
};

static struct block *block;

static void *work(void *number)
{
    struct block *own = block;
    own->parts[(intptr_t)number]++;
    if (atomic_fetch_sub_explicit(&own->references, 1, memory_order_acq_rel) == 1) {
        for (int i = 0; i < 3; i++) {
            own->sum += own->parts[i]--;
        }
        free(own);
    }
    return NULL;
}

int main(void)
{
    block = calloc(1, sizeof *block);
    block->references = 3;
    run_threads(3, work);
    return 0;
}
