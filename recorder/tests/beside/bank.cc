// Orders go through a queue to three workers, which add up balances under a reader-writer lock. One race: `last_id`.
#include <atomic>
#include <condition_variable>
#include <deque>
#include <future>
#include <iostream>
#include <map>
#include <memory>
#include <mutex>
#include <shared_mutex>
#include <string>
#include <thread>
#include <vector>

template <class T> class Queue {
    std::mutex m; std::condition_variable cv; std::deque<T> q; bool closed = false;
public:
    void put(T v) { { std::lock_guard<std::mutex> g(m); q.push_back(std::move(v)); } cv.notify_one(); }
    bool get(T &v) {
        std::unique_lock<std::mutex> l(m);
        cv.wait(l, [&] { return !q.empty() || closed; });
        if (q.empty()) return false;
        v = std::move(q.front()); q.pop_front(); return true;
    }
    void close() { { std::lock_guard<std::mutex> g(m); closed = true; } cv.notify_all(); }
};

struct Order { int id; long amount; std::string who; };
static Queue<std::unique_ptr<Order>> orders;
static std::map<std::string, long> balance; static std::shared_mutex balance_lock;
static std::atomic<long> done{0};
static std::once_flag once; static int *table;
static long last_id; // written by each worker with no lock
static std::atomic<int *> published{nullptr};

static void worker() {
    std::unique_ptr<Order> o;
    while (orders.get(o)) {
        std::call_once(once, [] { table = new int[8]{1, 2, 3, 4, 5, 6, 7, 8}; });
        o->amount *= table[o->id % 8];                       // handed over by the queue
        { std::unique_lock<std::shared_mutex> w(balance_lock); balance[o->who] += o->amount; }
        last_id = o->id;                                     // the race
        done.fetch_add(1, std::memory_order_relaxed);
    }
}
static long sum() { std::shared_lock<std::shared_mutex> r(balance_lock); long s = 0; for (auto &p : balance) s += p.second; return s; }

int main() {
    std::vector<std::thread> ts;
    for (int i = 0; i < 3; i++) ts.emplace_back(worker);
    auto f = std::async(std::launch::async, [] { long s = 0; for (int i = 0; i < 20; i++) s = sum(); return s; });
    std::thread pub([] { int *p = new int(42); published.store(p, std::memory_order_release); });
    for (int i = 0; i < 300; i++) orders.put(std::make_unique<Order>(Order{i, i, "c" + std::to_string(i % 7)}));
    orders.close();
    for (auto &t : ts) t.join();
    int *p; while (!(p = published.load(std::memory_order_acquire))) std::this_thread::yield();
    *p += 1;                                                 // handed over by an atomic
    f.get(); pub.join();
    std::cout << sum() << ' ' << done << ' ' << last_id << ' ' << *p << '\n';
}
