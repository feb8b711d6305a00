/* A variable of a function that is made when it is first met: the threads that find it made change it under a lock that its maker did not
   hold.
   expect threads 4, locks 1, races none, events send recv */
#include "threads.h"

#include <mutex>
#include <vector>

static std::mutex lock;

static std::vector<int> *make()
{
    sleep_a_little();
    return new std::vector<int>(8);
}

static std::vector<int> &shared()
{
    static std::vector<int> &made = *make();
    return made;
}

static void *work(void *ignored)
{
    std::vector<int> &numbers = shared();
    std::lock_guard<std::mutex> hold(lock);
    numbers[3]++;
    return ignored;
}

int main()
{
    run_threads(3, work);
    return 0;
}
