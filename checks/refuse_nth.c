// Loaded before the C library: refuses the allocation numbered REFUSE of a program, and tells how many it asked for.
//
// The numbers count the calls of malloc, calloc and realloc, from 1; 0 refuses none. At the end the number of calls goes
// into the file named COUNT.
#define _GNU_SOURCE
#include <dlfcn.h>
#include <errno.h>
#include <fcntl.h>
#include <stdio.h>
#include <stdlib.h>
#include <string.h>
#include <unistd.h>

static void *(*real_malloc)(size_t);
static void *(*real_calloc)(size_t, size_t);
static void *(*real_realloc)(void *, size_t);
static unsigned long calls, refused;
static char count_path[4096];

__attribute__((constructor)) static void start(void) {
  real_malloc = dlsym(RTLD_NEXT, "malloc");
  real_calloc = dlsym(RTLD_NEXT, "calloc");
  real_realloc = dlsym(RTLD_NEXT, "realloc");
  const char *number = getenv("REFUSE");
  refused = number ? strtoul(number, NULL, 10) : 0;
  const char *path = getenv("COUNT");
  if (path)
    strncpy(count_path, path, sizeof count_path - 1);
  calls = 0;
}

static int is_refused(void) {
  calls++;
  if (calls != refused)
    return 0;
  errno = ENOMEM;
  return 1;
}

// dlsym may allocate before the program's own calls are known.
static char early[1 << 16];
static size_t early_used;

static void *from_early(size_t size) {
  void *block = early + early_used;
  early_used += (size + 15) & ~(size_t)15;
  return early_used <= sizeof early ? block : NULL;
}

static int is_early(void *block) { return (char *)block >= early && (char *)block < early + sizeof early; }

void *malloc(size_t size) {
  if (!real_malloc)
    return from_early(size);
  return is_refused() ? NULL : real_malloc(size);
}

void *calloc(size_t count, size_t size) {
  if (!real_calloc)
    return from_early(count * size);
  return is_refused() ? NULL : real_calloc(count, size);
}

void *realloc(void *block, size_t size) {
  if (is_early(block)) {
    void *moved = malloc(size);
    if (moved)
      memcpy(moved, block, size);
    return moved;
  }
  return is_refused() ? NULL : real_realloc(block, size);
}

void free(void *block) {
  static void (*real_free)(void *);
  if (!block || is_early(block))
    return;
  if (!real_free)
    real_free = dlsym(RTLD_NEXT, "free");
  real_free(block);
}

static void finish(void) {
  if (!count_path[0])
    return;
  char text[32];
  int length = snprintf(text, sizeof text, "%lu\n", calls);
  int file = open(count_path, O_WRONLY | O_CREAT | O_TRUNC, 0644);
  if (file < 0 || write(file, text, length) != length)
    abort();
}

// The program ends by this call, which runs no destructors.
void _exit(int status) {
  finish();
  ((void (*)(int))dlsym(RTLD_NEXT, "_exit"))(status);
  __builtin_unreachable();
}
