// Loaded before the C library: makes the call numbered FAIL of one kind fail, and tells how many there were.
//
// KIND is open, read, pread, pwrite, fsync, fdatasync, flock, statx, realpath, write or nanosleep; the numbers count its calls from 1,
// and 0 fails none. A call that fails answers the error ERROR, or else one of the device (EIO). With SHORT set a pwrite takes one byte
// before it fails, the first part of a torn write, and a write takes one byte and answers so, and the next one fails. With SLOW set each
// fdatasync takes so many microseconds more. At the end the number of calls of that kind goes into the file named COUNT, and what was done
// to the device into the file named TRACE, a line for each pwrite, with its offset and length, fdatasync and fsync; with WRITES set also
// one for each write, with its length, and with READS set one for each pread, with its offset and length.
//
// Two outsides that are hard to come by are played: with TYPE set each regular file is told to be of that type (of st_mode, in octal)
// and, as a device is, of no bytes; with READ_ONLY set no file is opened for writing, and locks and syncs aren't known, as on some
// read-only media.
#define _GNU_SOURCE
#include <dlfcn.h>
#include <errno.h>
#include <fcntl.h>
#include <stdarg.h>
#include <stdio.h>
#include <stdlib.h>
#include <string.h>
#include <sys/stat.h>
#include <sys/types.h>
#include <time.h>
#include <unistd.h>

static unsigned long calls, failing, slow, type;
static int error = EIO, is_short, is_read_only, tells_writes, tells_reads, next_fails;
static char kind[16], count_path[4096];
static FILE *trace;

static unsigned long number_of(const char *name, int base, unsigned long otherwise) {
  const char *text = getenv(name);
  return text ? strtoul(text, NULL, base) : otherwise;
}

__attribute__((constructor)) static void start(void) {
  const char *of = getenv("KIND"), *path = getenv("COUNT"), *told = getenv("TRACE");
  slow = number_of("SLOW", 10, 0);
  failing = number_of("FAIL", 10, 0);
  error = number_of("ERROR", 10, EIO);
  type = number_of("TYPE", 8, 0);
  is_short = getenv("SHORT") != NULL;
  is_read_only = getenv("READ_ONLY") != NULL;
  tells_writes = getenv("WRITES") != NULL;
  tells_reads = getenv("READS") != NULL;
  trace = told ? fopen(told, "w") : NULL;
  if (of)
    strncpy(kind, of, sizeof kind - 1);
  if (path)
    strncpy(count_path, path, sizeof count_path - 1);
}

static int fails(const char *of) {
  if (strcmp(kind, of) != 0 || ++calls != failing)
    return 0;
  errno = error;
  return 1;
}

// Whether the medium that is played is read-only; its answer is that error then.
static int refuses(int answer) {
  if (is_read_only)
    errno = answer;
  return is_read_only;
}

#define REAL(type, name, ...) ((type(*)(__VA_ARGS__))dlsym(RTLD_NEXT, name))

static int open_as(const char *name, const char *path, int flags, mode_t mode) {
  if (fails("open") || ((flags & O_ACCMODE) != O_RDONLY && refuses(EROFS)))
    return -1;
  return REAL(int, name, const char *, int, ...)(path, flags, mode);
}

int open(const char *path, int flags, ...) {
  va_list rest;
  va_start(rest, flags);
  mode_t mode = (flags & O_CREAT) ? va_arg(rest, mode_t) : 0;
  va_end(rest);
  return open_as("open", path, flags, mode);
}

int open64(const char *path, int flags, ...) {
  va_list rest;
  va_start(rest, flags);
  mode_t mode = (flags & O_CREAT) ? va_arg(rest, mode_t) : 0;
  va_end(rest);
  return open_as("open64", path, flags, mode);
}

ssize_t read(int file, void *out, size_t size) {
  return fails("read") ? -1 : REAL(ssize_t, "read", int, void *, size_t)(file, out, size);
}

ssize_t pread(int file, void *out, size_t size, off_t at) {
  if (trace && tells_reads)
    fprintf(trace, "pread %ld %lu\n", (long)at, (unsigned long)size);
  if (fails("pread"))
    return -1;
  return REAL(ssize_t, "pread", int, void *, size_t, off_t)(file, out, size, at);
}

ssize_t pread64(int file, void *out, size_t size, off64_t at) { return pread(file, out, size, at); }

ssize_t pwrite(int file, const void *bytes, size_t size, off_t at) {
  if (trace)
    fprintf(trace, "pwrite %ld %lu\n", (long)at, (unsigned long)size);
  if (fails("pwrite")) {
    if (is_short && REAL(ssize_t, "pwrite", int, const void *, size_t, off_t)(file, bytes, 1, at) != 1)
      _exit(70);
    errno = error;
    return -1;
  }
  return REAL(ssize_t, "pwrite", int, const void *, size_t, off_t)(file, bytes, size, at);
}

ssize_t pwrite64(int file, const void *bytes, size_t size, off64_t at) { return pwrite(file, bytes, size, at); }

ssize_t write(int file, const void *bytes, size_t size) {
  if (trace && tells_writes)
    fprintf(trace, "write %lu\n", (unsigned long)size);
  if (next_fails || (fails("write") && !is_short)) {
    next_fails = 0;
    errno = error;
    return -1;
  }
  if (is_short && calls == failing && strcmp(kind, "write") == 0) {
    is_short = 0;
    next_fails = 1;
    size = 1;
  }
  return REAL(ssize_t, "write", int, const void *, size_t)(file, bytes, size);
}

int fsync(int file) {
  if (trace)
    fputs("fsync\n", trace);
  return fails("fsync") ? -1 : REAL(int, "fsync", int)(file);
}

int fdatasync(int file) {
  if (trace)
    fputs("fdatasync\n", trace);
  if (slow)
    usleep(slow);
  return fails("fdatasync") || refuses(EINVAL) ? -1 : REAL(int, "fdatasync", int)(file);
}

int flock(int file, int how) { return fails("flock") || refuses(ENOLCK) ? -1 : REAL(int, "flock", int, int)(file, how); }

int nanosleep(const struct timespec *time, struct timespec *left) {
  return fails("nanosleep") ? -1 : REAL(int, "nanosleep", const struct timespec *, struct timespec *)(time, left);
}

int statx(int folder, const char *path, int flags, unsigned mask, struct statx *found) {
  if (fails("statx") || REAL(int, "statx", int, const char *, int, unsigned, struct statx *)(folder, path, flags, mask, found) != 0)
    return -1;
  if (type && S_ISREG(found->stx_mode)) {
    found->stx_mode = (found->stx_mode & ~S_IFMT) | type;
    found->stx_size = 0;
  }
  return 0;
}

char *realpath(const char *path, char *out) {
  return fails("realpath") ? NULL : REAL(char *, "realpath", const char *, char *)(path, out);
}

static void finish(void) {
  if (trace)
    fclose(trace);
  if (!count_path[0])
    return;
  char text[32];
  int length = snprintf(text, sizeof text, "%lu\n", calls);
  int file = REAL(int, "open", const char *, int, ...)(count_path, O_WRONLY | O_CREAT | O_TRUNC, 0644);
  if (file < 0 || REAL(ssize_t, "write", int, const void *, size_t)(file, text, length) != length)
    abort();
}

// The program ends by this call, which runs no destructors.
void _exit(int status) {
  finish();
  REAL(void, "_exit", int)(status);
  __builtin_unreachable();
}
