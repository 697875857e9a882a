// A client of examples/counter.model in one process (--shared): an atomic number, or one that is looked at and then stored (--racy).
// g++ -O1 -pthread -o counter counter.cpp
#include "pst_client.hpp"
#include <atomic>

std::atomic<int> number;

int inc(bool is_racy) {
  if (!is_racy) return ++number;
  int next = number + 1;
  std::this_thread::sleep_for(std::chrono::milliseconds(1));
  return number = next;
}

int main(int count, char **) {
  bool is_racy = count > 1;
  serve([=](const std::string &line) -> std::string {
    if (line == "[\"reset\"]") return std::to_string(number = 0);
    if (line == "[\"inc\"]") return std::to_string(inc(is_racy));
    return std::to_string(number);
  });
}
