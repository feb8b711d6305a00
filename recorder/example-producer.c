/* A program that writes its own trace: a simulator of a shop with two clerks. Each clerk serves a customer under the lock of the till,
 * and both forget to take it when they count what is left in stock.
 *
 *     cc -I recorder recorder/example-producer.c -o producer && ./producer shop.trace && hgd check < shop.trace
 */
#include <stdlib.h>

#include "hgd_trace.h"

enum { OWNER = 0, CLERKS = 2, TILL_LOCK = 7 };

static int64_t till, stock = 100;

static void serve(unsigned clerk)
{
    hgd_lock(clerk, TILL_LOCK);
    hgd_read(clerk, (uintptr_t)&till, sizeof till);
    till += 5;
    hgd_write(clerk, (uintptr_t)&till, sizeof till);
    hgd_unlock(clerk, TILL_LOCK);
    hgd_read(clerk, (uintptr_t)&stock, sizeof stock);
    stock--;
    hgd_write(clerk, (uintptr_t)&stock, sizeof stock);
}

int main(int argc, char **argv)
{
    if (hgd_trace_open(argc > 1 ? argv[1] : "-")) {
        perror(argv[1]);
        return EXIT_FAILURE;
    }

    for (unsigned clerk = 1; clerk <= CLERKS; clerk++)
        hgd_fork(OWNER, clerk);
    for (unsigned customer = 0; customer < 4; customer++)
        serve(1 + customer % CLERKS);
    for (unsigned clerk = 1; clerk <= CLERKS; clerk++)
        hgd_join(OWNER, clerk);
    return hgd_trace_close() ? EXIT_FAILURE : EXIT_SUCCESS;
}
