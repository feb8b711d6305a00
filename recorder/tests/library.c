/* What the C library writes for the program is recorded, though it is not compiled for it.
   expect threads 3, locks 0, races copied printed filled */
#include <string.h>

#include "threads.h"

char copied[64], printed[64], filled[64];
static const char source[64] = "the same for both";

static void *work(void *number)
{
    memcpy(copied, source, sizeof copied);
    snprintf(printed, sizeof printed, "%d", (int)(intptr_t)number);
    memset(filled, 1, sizeof filled);
    return (void *)strlen(source);
}

int main(void)
{
    run_threads(2, work);
    return 0;
}
