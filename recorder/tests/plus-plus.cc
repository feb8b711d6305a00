/* Threads, locks and containers of C++.
   expect threads 4, locks 1, races unprotected */
#include <memory>
#include <mutex>
#include <string>
#include <thread>
#include <vector>

int unprotected;
static std::mutex lock;
/* Never destroyed: that would be without the lock. */
static auto &words = *new std::vector<std::string>;

int main()
{
    std::vector<std::thread> threads;
    for (int i = 0; i < 3; i++) {
        threads.emplace_back([i] {
            auto own = std::make_unique<std::string>("word " + std::to_string(i));
            unprotected++;
            std::lock_guard<std::mutex> hold(lock);
            words.push_back(*own);
        });
    }
    for (auto &thread : threads) {
        thread.join();
    }
    std::lock_guard<std::mutex> hold(lock);
    return words.size() == 3 ? 0 : 1;
}
