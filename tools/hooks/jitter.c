// Pauses at random at the locks, reads and writes of a program that preloads this library. `pst jitter` builds it and names it in LD_PRELOAD.
//
// PST_JITTER_PAUSES has the longest pauses in microseconds, as 5,50,300, which each thread takes by turns. PST_JITTER_SEED chooses the pauses, with the
// number of the thread, PST_WORKER and PST_BRANCH, so that two clients of one campaign do not pause at the same calls.
#define _GNU_SOURCE
#include <dlfcn.h>
#include <errno.h>
#include <pthread.h>
#include <semaphore.h>
#include <stdatomic.h>
#include <stdint.h>
#include <stdlib.h>
#include <sys/file.h>
#include <sys/socket.h>
#include <sys/syscall.h>
#include <sys/uio.h>
#include <time.h>
#include <unistd.h>

enum { MOST_PAUSES = 8, CALLS_FOR_A_PAUSE = 4, LONGEST_SPIN = 50000 };

static uint64_t longest[MOST_PAUSES]; // in nanoseconds
static unsigned longest_count;        // 0 until `begin` has read the settings: nothing pauses before
static uint64_t process_seed;
static atomic_uint thread_count;

static __thread struct {
  uint64_t random; // 0 before the first draw
  unsigned turn;
} self __attribute__((tls_model("initial-exec")));

static uint64_t mixed(uint64_t word) {
  word = (word ^ word >> 30) * 0xbf58476d1ce4e5b9;
  word = (word ^ word >> 27) * 0x94d049bb133111eb;
  return word ^ word >> 31;
}

// A random word of this thread (SplitMix64).
static uint64_t drawn(void) {
  if (!self.random) self.random = mixed(process_seed + ++thread_count) | 1;
  self.random += 0x9e3779b97f4a7c15;
  return mixed(self.random);
}

static uint64_t now(void) {
  struct timespec time;
  clock_gettime(CLOCK_MONOTONIC, &time);
  return time.tv_sec * 1000000000ull + time.tv_nsec;
}

// A short pause spins, since a sleep takes some 50 microseconds more than it should. A longer one leaves the processor to others, by a system call that is
// no cancellation point.
static void wait_for(uint64_t nanoseconds) {
  if (nanoseconds > LONGEST_SPIN) {
    struct timespec time = {nanoseconds / 1000000000, nanoseconds % 1000000000};
    syscall(SYS_clock_nanosleep, CLOCK_MONOTONIC, 0, &time, NULL);
    return;
  }
  for (uint64_t end = now() + nanoseconds; now() < end;) {}
}

// Pauses at one call in four. A signal handler may call this.
static void disturb(void) {
  if (!longest_count) return;
  uint64_t word = drawn();
  if (word % CALLS_FOR_A_PAUSE) return;
  int kept = errno;
  wait_for(word / CALLS_FOR_A_PAUSE % longest[self.turn++ % longest_count]);
  errno = kept;
}

static uint64_t seed_of_child;

static void before_fork(void) { seed_of_child = drawn(); }

// A child would else draw what its parent draws.
static void after_fork(void) {
  process_seed = seed_of_child;
  thread_count = 0;
  self.random = 0;
}

static uint64_t number(const char *name) {
  const char *text = getenv(name);
  return text ? strtoull(text, NULL, 10) : 0;
}

__attribute__((constructor)) static void begin(void) {
  process_seed = mixed(number("PST_JITTER_SEED") * 256 + number("PST_WORKER") * 16 + number("PST_BRANCH"));
  pthread_atfork(before_fork, NULL, after_fork);
  unsigned count = 0;
  char *text = getenv("PST_JITTER_PAUSES");
  while (text && *text && count < MOST_PAUSES) {
    uint64_t microseconds = strtoull(text, &text, 10);
    if (microseconds) longest[count++] = microseconds * 1000;
    if (*text) text++;
  }
  longest_count = count;
}

// `next` is the function that the program would call without this library.
#define FIND_NEXT(name) \
  static _Atomic(__typeof__(&name)) next; \
  if (!next) next = (__typeof__(&name))dlsym(RTLD_NEXT, #name)
#define PAUSE_BEFORE(type, name, parameters, arguments) \
  type name parameters { \
    FIND_NEXT(name); \
    disturb(); \
    return next arguments; \
  }
#define PAUSE_AFTER(type, name, parameters, arguments) \
  type name parameters { \
    FIND_NEXT(name); \
    type result = next arguments; \
    disturb(); \
    return result; \
  }

PAUSE_BEFORE(int, pthread_mutex_lock, (pthread_mutex_t * lock), (lock))
PAUSE_BEFORE(int, pthread_mutex_trylock, (pthread_mutex_t * lock), (lock))
PAUSE_AFTER(int, pthread_mutex_unlock, (pthread_mutex_t * lock), (lock))
PAUSE_BEFORE(int, pthread_rwlock_rdlock, (pthread_rwlock_t * lock), (lock))
PAUSE_BEFORE(int, pthread_rwlock_wrlock, (pthread_rwlock_t * lock), (lock))
PAUSE_AFTER(int, pthread_rwlock_unlock, (pthread_rwlock_t * lock), (lock))
PAUSE_BEFORE(int, pthread_spin_lock, (pthread_spinlock_t * lock), (lock))
PAUSE_AFTER(int, pthread_spin_unlock, (pthread_spinlock_t * lock), (lock))
PAUSE_BEFORE(int, sem_wait, (sem_t * semaphore), (semaphore))
PAUSE_AFTER(int, sem_post, (sem_t * semaphore), (semaphore))
PAUSE_BEFORE(int, flock, (int file, int operation), (file, operation))

PAUSE_AFTER(ssize_t, read, (int file, void *bytes, size_t count), (file, bytes, count))
PAUSE_AFTER(ssize_t, readv, (int file, const struct iovec *parts, int count), (file, parts, count))
PAUSE_AFTER(ssize_t, pread, (int file, void *bytes, size_t count, off_t at), (file, bytes, count, at))
PAUSE_AFTER(ssize_t, recv, (int file, void *bytes, size_t count, int flags), (file, bytes, count, flags))
PAUSE_AFTER(ssize_t, recvfrom, (int file, void *bytes, size_t count, int flags, struct sockaddr *from, socklen_t *size), (file, bytes, count, flags, from, size))
PAUSE_AFTER(ssize_t, recvmsg, (int file, struct msghdr *message, int flags), (file, message, flags))

PAUSE_BEFORE(ssize_t, write, (int file, const void *bytes, size_t count), (file, bytes, count))
PAUSE_BEFORE(ssize_t, writev, (int file, const struct iovec *parts, int count), (file, parts, count))
PAUSE_BEFORE(ssize_t, pwrite, (int file, const void *bytes, size_t count, off_t at), (file, bytes, count, at))
PAUSE_BEFORE(ssize_t, send, (int file, const void *bytes, size_t count, int flags), (file, bytes, count, flags))
PAUSE_BEFORE(ssize_t, sendto, (int file, const void *bytes, size_t count, int flags, const struct sockaddr *to, socklen_t size), (file, bytes, count, flags, to, size))
PAUSE_BEFORE(ssize_t, sendmsg, (int file, const struct msghdr *message, int flags), (file, message, flags))

#ifdef __GLIBC__ // elsewhere these are other names of the functions above
PAUSE_AFTER(ssize_t, pread64, (int file, void *bytes, size_t count, off64_t at), (file, bytes, count, at))
PAUSE_BEFORE(ssize_t, pwrite64, (int file, const void *bytes, size_t count, off64_t at), (file, bytes, count, at))
#endif
