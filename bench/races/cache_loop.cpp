// Drives a fill beside a `set` on the cache of tests/jitter, by two threads: cache_loop SECONDS.
// g++ -O2 -pthread -o cache_loop cache_loop.cpp
#include "../../tests/jitter/cache.hpp"
#include "loop.hpp"
#include <cstdlib>

int main(int, char **words) {
  auto reset = [] { set(0); };
  auto branch = [](int which) { which ? set(1) : void(get()); };
  run_loop(std::atof(words[1]), reset, branch, [] { return get() != 1; });
}
