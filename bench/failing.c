/* What bench/failing-allocations and bench/little-memory preload: an allocator that refuses some requests, starts of threads that are refused,
   and stacks of STACK bytes for threads that would have others. At the end it writes to the descriptor REPORT how many requests and starts
   of threads there were, how many of them were refused, how many blocks are left of those that were given, and how many threads are left. */
#define _GNU_SOURCE
#include <dirent.h>
#include <dlfcn.h>
#include <errno.h>
#include <pthread.h>
#include <stdio.h>
#include <stdlib.h>
#include <sys/syscall.h>
#include <unistd.h>

extern void *__libc_malloc(size_t), *__libc_calloc(size_t, size_t), *__libc_realloc(void *, size_t), *__libc_memalign(size_t, size_t);
extern void __libc_free(void *);

/* Requests are counted from 1. FAIL_AT: that one is refused. FAIL_EVERY: from FAIL_FROM on each one whose distance from it that number divides.
   FAIL_SEED: from FAIL_FROM on one in ten, drawn. FAIL_THREAD: that start of a thread, and with FAIL_THREADS all after it. */
static unsigned long report, fail_at, fail_every, fail_from, fail_seed, fail_thread, fail_threads;
static unsigned long requests, refused, starts, unstarted, live;
static int is_over;

/* Blocks that the C library took by calloc, for its threads: they aren't the program's. */
enum { MOST = 4096 };
static void *besides[MOST];

static unsigned long number(const char *name) { const char *text = getenv(name); return text ? strtoul(text, 0, 10) : 0; }

__attribute__((constructor)) static void begin(void) {
  report = number("REPORT");
  fail_at = number("FAIL_AT");
  fail_every = number("FAIL_EVERY");
  fail_from = number("FAIL_FROM");
  fail_seed = number("FAIL_SEED");
  fail_thread = number("FAIL_THREAD");
  fail_threads = number("FAIL_THREADS");
}

static unsigned long tasks_now(void) {
  DIR *tasks = opendir("/proc/self/task");
  unsigned long count = 0;
  while (tasks && readdir(tasks)) count++;
  if (tasks) closedir(tasks);
  return count - 2;
}

/* A thread that was joined may stand in the list for a moment after that: one that is left stands there two seconds later too. */
static unsigned long left_threads(void) {
  unsigned long count = tasks_now();
  for (int look = 0; look < 200 && count > 1; look++) {
    usleep(10000);
    count = tasks_now();
  }
  return count;
}

__attribute__((destructor)) static void end(void) {
  char text[160];
  if (is_over) return;
  is_over = 1;
  int size = snprintf(text, sizeof text, "%lu %lu %lu %lu %lu %lu\n", requests, refused, starts, unstarted, live, left_threads());
  if (report && write(report, text, size) != size) syscall(SYS_exit_group, 99);
}

/* The program's runtime ends so. */
void _exit(int status) {
  end();
  syscall(SYS_exit_group, status);
  __builtin_unreachable();
}

static int is_drawn(unsigned long n) {
  unsigned long x = (n * 0x9E3779B97F4A7C15ul) ^ (fail_seed * 0xD1B54A32D192ED03ul);
  x ^= x >> 32; x *= 0xBF58476D1CE4E5B9ul; x ^= x >> 29; x *= 0x94D049BB133111EBul; x ^= x >> 32;
  return x % 10 == 0;
}

static int refuses(void) {
  if (is_over) return 0;
  unsigned long n = __atomic_add_fetch(&requests, 1, __ATOMIC_SEQ_CST);
  int is_refused = n == fail_at || (n >= fail_from && ((fail_every && (n - fail_from) % fail_every == 0) || (fail_seed && is_drawn(n))));
  if (is_refused) { __atomic_add_fetch(&refused, 1, __ATOMIC_SEQ_CST); errno = ENOMEM; }
  return is_refused;
}

static void *given(void *block) { if (block && !is_over) __atomic_add_fetch(&live, 1, __ATOMIC_SEQ_CST); return block; }

void *malloc(size_t size) { return refuses() ? 0 : given(__libc_malloc(size)); }

void *calloc(size_t count, size_t size) {
  void *block = __libc_calloc(count, size);
  for (int place = 0; block && place < MOST; place++) {
    void *none = 0;
    if (__atomic_compare_exchange_n(&besides[place], &none, block, 0, __ATOMIC_SEQ_CST, __ATOMIC_SEQ_CST)) return block;
  }
  return block;
}

void *realloc(void *block, size_t size) {
  if (refuses()) return 0;
  void *other = __libc_realloc(block, size);
  return block ? other : given(other);
}

void *aligned_alloc(size_t alignment, size_t size) { return refuses() ? 0 : given(__libc_memalign(alignment, size)); }

int posix_memalign(void **place, size_t alignment, size_t size) {
  if (refuses()) return ENOMEM;
  *place = given(__libc_memalign(alignment, size));
  return *place ? 0 : ENOMEM;
}

void free(void *block) {
  int is_beside = 0;
  for (int place = 0; block && !is_beside && place < MOST; place++) {
    void *it = block;
    is_beside = besides[place] == block && __atomic_compare_exchange_n(&besides[place], &it, 0, 0, __ATOMIC_SEQ_CST, __ATOMIC_SEQ_CST);
  }
  if (block && !is_beside && !is_over) __atomic_sub_fetch(&live, 1, __ATOMIC_SEQ_CST);
  __libc_free(block);
}

int pthread_create(pthread_t *thread, const pthread_attr_t *attributes, void *(*body)(void *), void *argument) {
  static int (*real)(pthread_t *, const pthread_attr_t *, void *(*)(void *), void *);
  if (!real) real = (__typeof__(real))dlsym(RTLD_NEXT, "pthread_create");
  unsigned long n = __atomic_add_fetch(&starts, 1, __ATOMIC_SEQ_CST);
  if (fail_thread && (n == fail_thread || (fail_threads && n > fail_thread))) { __atomic_add_fetch(&unstarted, 1, __ATOMIC_SEQ_CST); return EAGAIN; }
  return real(thread, attributes, body, argument);
}

int pthread_attr_setstacksize(pthread_attr_t *attributes, size_t size) {
  static int (*real)(pthread_attr_t *, size_t);
  unsigned long other = number("STACK");
  if (!real) real = (__typeof__(real))dlsym(RTLD_NEXT, "pthread_attr_setstacksize");
  return real(attributes, other ? other : size);
}
