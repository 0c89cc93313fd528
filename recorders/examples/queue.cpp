// A queue under a lock, which four threads share: right.
#include "../recorder.hpp"
#include <iostream>
#include <mutex>
#include <queue>
#include <thread>

int main() {
    std::mutex lock;
    std::queue<int> queue;
    std::vector<Log> logs;
    for (int i = 0; i < 4; i++) logs.emplace_back("T" + std::to_string(i));
    std::vector<std::thread> threads;
    for (int i = 0; i < 4; i++) {
        threads.emplace_back([&, i] {
            for (int call = 0; call < 2000; call++) {
                int number = i * 2000 + call;
                if (call % 2 == 0) {
                    logs[i].call("enq " + std::to_string(number), [&] {
                        std::lock_guard<std::mutex> held(lock);
                        queue.push(number);
                        return std::string("ok");
                    });
                } else {
                    logs[i].call("deq", [&] {
                        std::lock_guard<std::mutex> held(lock);
                        if (queue.empty()) return std::string("empty");
                        std::string taken = std::to_string(queue.front());
                        queue.pop();
                        return taken;
                    });
                }
            }
        });
    }
    for (auto &thread : threads) thread.join();
    for (const auto &log : logs) log.print(std::cout);
}
