/* A program may give its own things the names that the recorder uses inside.
   expect threads 3, locks 0, races count */
#include "threads.h"

int count, ring, threads, self, control, publish, lines, locks, forget, nap, messages, begin;

static void *work(void *ignored)
{
    count++;
    return ignored;
}

int main(void)
{
    run_threads(2, work);
    return ring + threads + self + control + publish + lines + locks + forget + nap + messages + begin;
}
