/* A program's own malloc and memcpy are taken, and what they do is recorded as any code of the program.
   expect threads 3, locks 1, races arena copies */
#include <string.h>

#include "threads.h"

char arena[1 << 20];
int used, copies;
static pthread_mutex_t lock = PTHREAD_MUTEX_INITIALIZER;

void *malloc(size_t length)
{
    pthread_mutex_lock(&lock);
    void *block = arena + used;
    used += (int)(length + 15) / 16 * 16;
    pthread_mutex_unlock(&lock);
    return block;
}

void free(void *block)
{
    (void)block;
}

void *calloc(size_t number, size_t length)
{
    return malloc(number * length);
}

void *realloc(void *block, size_t length)
{
    return block ? NULL : malloc(length);
}

void *memcpy(void *restrict to, const void *restrict from, size_t length)
{
    copies++;
    for (size_t i = 0; i < length; i++) {
        ((volatile char *)to)[i] = ((const char *)from)[i];
    }
    return to;
}

static char *shared;

static void *work(void *ignored)
{
    char *own = malloc(16);
    memcpy(own, "of this thread", 15);
    memcpy(shared, own, 15);
    return ignored;
}

int main(void)
{
    shared = malloc(16);
    run_threads(2, work);
    return 0;
}
