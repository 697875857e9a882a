// A store and a cache of it. `get` reads the store and then keeps the value, each under its own lock. If a whole `set` comes in between, the cache stays wrong.
// This window has some 50 nanoseconds.
#include <mutex>

std::mutex cache_lock, store_lock;
int kept = -1, stored = 0;

void keep(int value) {
  std::lock_guard<std::mutex> held(cache_lock);
  kept = value;
}

void set(int value) {
  {
    std::lock_guard<std::mutex> held(store_lock);
    stored = value;
  }
  keep(-1);
}

int get() {
  {
    std::lock_guard<std::mutex> held(cache_lock);
    if (kept >= 0) return kept;
  }
  int value;
  {
    std::lock_guard<std::mutex> held(store_lock);
    value = stored;
  }
  keep(value);
  return value;
}
