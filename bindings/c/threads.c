/* The calls in eight threads at once, while signals interrupt these: the handler makes each call too, and so does a forked
 * child. All write what they write in one thread. Prints counts; the status is 0 if nothing is wrong. */
#define _POSIX_C_SOURCE 200809L
#define ROOM 300
#include "digest.h"

#include <pthread.h>
#include <signal.h>
#include <stdio.h>
#include <stdlib.h>
#include <sys/wait.h>
#include <time.h>
#include <unistd.h>

enum { THREADS = 8, CHILDREN = 20, ENOUGH = 50, MOST_ROUNDS = 200000 };

static const char *const texts[] = {
    "", "g", "../../x/./y", "http://a/b/c/d;p?q", "HTTP://U%7e:P%7E@H%41:080/%7e/.././/a?%7e#%7e", "x-own:.//..//b", "?%7e&b=c",
    "//[1:2:3:4:5:6:1.2.3.4]:7/%41", "//[v1.X]", "//1.2.3.4/a/b/c/d/e/f/g/h/i/j/k/l", "%", "1:2", "//h:65536", "s://u@h?q#f^"};
enum { TEXTS = sizeof texts / sizeof texts[0] };

static uint64_t expected[CALLS][TEXTS];
static pthread_barrier_t started;
static bool stop;

/* What a thread counts: signals, also those during a call, and wrong answers. */
struct counts {
  long calls, handled, handled_inside, wrong;
};

static struct counts counts[THREADS];
static __thread struct counts *own;
static __thread volatile sig_atomic_t inside;

static void add(long *to, long count) { __atomic_fetch_add(to, count, __ATOMIC_RELAXED); }

static long of(long *from) { return __atomic_load_n(from, __ATOMIC_RELAXED); }

/* The digest of a call. The base is another of the texts. */
static uint64_t answer(int which, int i) {
  const char *base = texts[(i + 4) % TEXTS];
  inside = 1;
  uint64_t sum = digest(which, base, strlen(base), texts[i], strlen(texts[i]));
  inside = 0;
  return sum;
}

static bool all_right(int i) {
  for (int which = 0; which < CALLS; which++) {
    if (answer(which, i) != expected[which][i]) {
      return false;
    }
  }
  return true;
}

static void handle(int number) {
  (void)number;
  sig_atomic_t was_inside = inside;
  add(&own->wrong, !all_right((int)(of(&own->handled) % TEXTS)));
  add(&own->handled, 1);
  add(&own->handled_inside, was_inside);
  inside = was_inside;
}

static void *work(void *to) {
  own = to;
  pthread_barrier_wait(&started);
  for (int i = 0; !__atomic_load_n(&stop, __ATOMIC_RELAXED); i = (i + 1) % TEXTS) {
    add(&own->wrong, !all_right(i));
    add(&own->calls, CALLS);
  }
  return NULL;
}

static void require(bool holds, const char *what) {
  if (!holds) {
    printf("FAILED %s\n", what);
    exit(1);
  }
}

/* Whether a forked child makes each call as it should. */
static bool forks(int i) {
  int status = 1;
  pid_t child = fork();
  if (child == 0) {
    _exit(!all_right(i % TEXTS));
  }
  return child > 0 && waitpid(child, &status, 0) == child && status == 0;
}

int main(void) {
  pthread_t threads[THREADS];
  struct sigaction action;
  memset(&action, 0, sizeof action);
  action.sa_handler = handle;
  action.sa_flags = SA_RESTART;
  for (int which = 0; which < CALLS; which++) {
    for (int i = 0; i < TEXTS; i++) {
      expected[which][i] = answer(which, i);
    }
  }
  require(sigaction(SIGUSR1, &action, NULL) == 0, "sigaction");
  require(pthread_barrier_init(&started, NULL, THREADS + 1) == 0, "pthread_barrier_init");
  for (int t = 0; t < THREADS; t++) {
    require(pthread_create(&threads[t], NULL, work, &counts[t]) == 0, "pthread_create");
  }
  pthread_barrier_wait(&started);
  int children = 0, right_children = 0;
  long least = 0;
  for (int round = 0; round < MOST_ROUNDS && (least < ENOUGH || children < CHILDREN); round++) {
    struct timespec pause = {0, 100000};
    least = ENOUGH;
    for (int t = 0; t < THREADS; t++) {
      require(pthread_kill(threads[t], SIGUSR1) == 0, "pthread_kill");
      long inside_calls = of(&counts[t].handled_inside);
      least = inside_calls < least ? inside_calls : least;
    }
    nanosleep(&pause, NULL);
    if (round % 10 == 0 && children < CHILDREN) {
      children++;
      right_children += forks(round);
    }
  }
  __atomic_store_n(&stop, true, __ATOMIC_RELAXED);
  struct counts all = {0, 0, 0, 0};
  for (int t = 0; t < THREADS; t++) {
    require(pthread_join(threads[t], NULL) == 0, "pthread_join");
    all.calls += counts[t].calls;
    all.handled += counts[t].handled;
    all.handled_inside += counts[t].handled_inside;
    all.wrong += counts[t].wrong;
  }
  require(least == ENOUGH, "enough signals in each thread during a call");
  require(right_children == CHILDREN, "the calls in forked children");
  printf("%d threads, %ld calls, %ld signals (%ld during a call), %d forked children, %ld wrong\n", THREADS, all.calls, all.handled,
         all.handled_inside, right_children, all.wrong);
  return all.wrong != 0;
}
