// A client of @NAME@.model: each branch is a thread that reads calls and prints answers. Call your own system in place of `add` and `get`.
#include <pthread.h>
#include <sched.h>
#include <stdio.h>
#include <stdlib.h>
#include <string.h>

static long number;
static pthread_mutex_t lock = PTHREAD_MUTEX_INITIALIZER;

static long add(long n) {
  pthread_mutex_lock(&lock); // without this line a campaign finds a race
  long next = number + n;
  sched_yield();
  number = next;
  pthread_mutex_unlock(&lock);
  return next;
}

static long get(void) {
  pthread_mutex_lock(&lock);
  long now = number;
  pthread_mutex_unlock(&lock);
  return now;
}

static FILE *pipe_of(long branch, const char *end, const char *mode) {
  char path[4096];
  snprintf(path, sizeof path, "%s-%ld.%s", getenv("PST_PIPES"), branch, end);
  return fopen(path, mode);
}

static void *answer(void *argument) {
  long branch = (long)argument, n;
  FILE *calls = pipe_of(branch, "calls", "r"), *answers = pipe_of(branch, "answers", "w");
  char line[65536];
  while (calls && answers && fgets(line, sizeof line, calls)) {
    if (!strcmp(line, "[\"reset\"]\n")) fprintf(answers, "%ld\n", number = 0);
    else if (sscanf(line, "[\"add\",%ld]", &n) == 1) fprintf(answers, "%ld\n", add(n));
    else fprintf(answers, "%ld\n", get());
    fflush(answers);
  }
  return NULL;
}

int main(void) {
  if (!getenv("PST_PIPES")) {
    fputs("PST_PIPES is not set: run this client by pst campaign --client ./client --shared\n", stderr);
    return 1;
  }
  long branches = atol(getenv("PST_BRANCHES"));
  pthread_t threads[4];
  for (long branch = 1; branch <= branches; branch++) pthread_create(&threads[branch - 1], NULL, answer, (void *)branch);
  for (long branch = 0; branch < branches; branch++) pthread_join(threads[branch], NULL);
}
