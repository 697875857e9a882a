// A client of examples/queue.model in one process (--shared): a queue whose `take` looks and removes under one lock, or under two (--racy).
// g++ -O1 -pthread -o queue queue.cpp
#include "pst_client.hpp"
#include <deque>
#include <mutex>

std::deque<int> items;
std::mutex lock;

std::string take(bool is_racy) {
  std::unique_lock<std::mutex> held(lock);
  if (items.empty()) return "[]";
  int oldest = items.front();
  if (is_racy) { held.unlock(); std::this_thread::sleep_for(std::chrono::milliseconds(1)); held.lock(); }
  if (!items.empty()) items.pop_front();
  return "[" + std::to_string(oldest) + "]";
}

int main(int count, char **) {
  bool is_racy = count > 1;
  serve([=](const std::string &line) -> std::string {
    if (line == "[\"take\"]") return take(is_racy);
    std::lock_guard<std::mutex> held(lock);
    int item;
    if (sscanf(line.c_str(), "[\"put\",%d]", &item) == 1) items.push_back(item);
    else items.clear();
    return "true";
  });
}
