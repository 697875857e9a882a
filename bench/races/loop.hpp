// What a test by hand would do: two threads drive a case again and again, and meet at a spinning barrier.
#include <atomic>
#include <chrono>
#include <cstdio>
#include <thread>

// Lets two threads go on at the same time. After some microseconds the other one may wait for this processor.
class Barrier {
  std::atomic<unsigned> arrived{0};

public:
  void meet() {
    unsigned round = arrived++ / 2;
    for (int spins = 0; arrived / 2 == round; spins++)
      if (spins > 1000) std::this_thread::yield();
  }
};

// Drives a case for some seconds: `reset()`, then `branch(0)` and `branch(1)` at the same time. Prints the number of drives, of those after which
// `has_failed()`, and the seconds until the first of them, -1 if there is none.
template <class Reset, class Branch, class Check> void run_loop(double seconds, Reset reset, Branch branch, Check has_failed) {
  using Clock = std::chrono::steady_clock;
  Barrier barrier;
  std::atomic<bool> is_over{false};
  long drives = 0, failures = 0;
  double first = -1;
  std::thread other([&] {
    for (;;) {
      barrier.meet();
      if (is_over) return;
      branch(1);
      barrier.meet();
    }
  });
  for (auto begun = Clock::now(); !is_over;) {
    reset();
    is_over = std::chrono::duration<double>(Clock::now() - begun).count() > seconds;
    barrier.meet();
    if (is_over) break;
    branch(0);
    barrier.meet();
    drives++;
    if (!has_failed()) continue;
    if (!failures++) first = std::chrono::duration<double>(Clock::now() - begun).count();
  }
  other.join();
  std::printf("%ld %ld %.3f\n", drives, failures, first);
}
