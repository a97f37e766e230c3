// The scan of the waiters as a twin in C: in the order of their arrival, with one watched resource each. Two tables tell which sessions
// wait, and of which jobs. Nothing is read, written or printed for a grant, so its time is that of the scan alone.
//
//   waiting nobody WAITERS GRANTS   each grant leaves full what all watch
//   waiting first WAITERS GRANTS    every second grant makes room for the first of them, which is served; who left waits again, as the last
//
// Prints the nanoseconds of a grant, as the best of nine turns.
#include <stdint.h>
#include <stdio.h>
#include <stdlib.h>
#include <string.h>
#include <time.h>

enum { MOST = 4096, PLACES = 16 * MOST + 1, SESSIONS = 65536, TURNS = 9 };

typedef struct {
  uint16_t session;
  uint32_t request[3]; // its kind, the resource that it would enter, the job
  uint32_t refusal[3];
} Waiter;

static Waiter waiters[MOST + 1];
static uint32_t watches[MOST + 1]; // a bit that there is one, and the number of the resource
static uint16_t jobs[PLACES];      // for each place the number of waiters whose jobs share it
static uint64_t waits[SESSIONS / 64];
static int count, is_stale;
static uint64_t watched;
static volatile uint64_t full;

// Stands for the decision of a request: the first full resource that it would enter, or -1.
static __attribute__((noinline)) int decide(const Waiter *waiter) {
  uint64_t entered = 1ull << (waiter->request[1] & 63) & full;
  return entered ? __builtin_ctzll(entered) : -1;
}

static __attribute__((noinline)) int is_waiting(uint16_t session) { return waits[session / 64] >> session % 64 & 1; }

static __attribute__((noinline)) void push(uint16_t session, uint32_t job, uint32_t at) {
  waiters[count] = (Waiter){session, {0, at, job}, {6, at, 1}};
  watches[count++] = at << 1 | 1;
  watched |= 1ull << at;
  jobs[job % PLACES]++;
  waits[session / 64] |= 1ull << session % 64;
}

static __attribute__((noinline)) void note(uint32_t job) {
  if (!jobs[job % PLACES])
    return;
  for (int i = 0; i < count; i++)
    if (waiters[i].request[2] == job) {
      watches[i] = 0;
      is_stale = 1;
    }
}

static __attribute__((noinline)) void take(int at, Waiter *taken) {
  *taken = waiters[at];
  count--;
  memmove(watches + at, watches + at + 1, (count - at) * sizeof *watches);
  memmove(waiters + at, waiters + at + 1, (count - at) * sizeof *waiters);
  jobs[taken->request[2] % PLACES]--;
  waits[taken->session / 64] &= ~(1ull << taken->session % 64);
}

// Takes out the first whose request is not refused for want of room.
static __attribute__((noinline)) int take_ready(Waiter *taken) {
  uint64_t now = full, exactly = 0;
  if (!is_stale && !(watched & ~now))
    return 0;
  for (int i = 0; i < count; i++) {
    uint32_t watch = watches[i];
    int at = watch & 1 && now >> (watch >> 1) & 1 ? (int)(watch >> 1) : decide(waiters + i);
    if (at < 0) {
      take(i, taken);
      return 1;
    }
    watches[i] = at << 1 | 1;
    watched |= 1ull << at;
    exactly |= 1ull << at;
  }
  watched = exactly;
  is_stale = 0;
  return 0;
}

static long nobody(long grants) {
  Waiter taken;
  long served = 0;
  for (long i = 0; i < grants; i++) {
    served += is_waiting(30000);
    note(30000);
    served += take_ready(&taken);
  }
  return served;
}

static long first(long grants) {
  static uint16_t holder;
  Waiter taken;
  long served = 0;
  if (!holder)
    holder = 10000 + count;
  for (long i = 0; i < grants / 2; i++) {
    served += is_waiting(holder);
    full &= ~1ull;
    note(holder);
    while (take_ready(&taken)) {
      full |= 1;
      note(taken.request[2]);
      served++;
    }
    if (!is_waiting(holder))
      push(holder, holder, 0);
    holder = taken.session;
  }
  return served;
}

static double now(void) {
  struct timespec time;
  clock_gettime(CLOCK_PROCESS_CPUTIME_ID, &time);
  return time.tv_sec * 1e9 + time.tv_nsec;
}

int main(int words, char **word) {
  int is_first = words == 4 && !strcmp(word[1], "first");
  if (!is_first && !(words == 4 && !strcmp(word[1], "nobody")))
    return 1;
  long most = atol(word[2]), grants = atol(word[3]);
  if (most < is_first || most > MOST)
    return 1;
  full = ~0ull;
  for (long i = 0; i < most; i++)
    push(10000 + i, 10000 + i, 0);
  double best = 1e18;
  for (int turn = 0; turn < TURNS; turn++) {
    double began = now();
    long served = is_first ? first(grants) : nobody(grants);
    double time = now() - began;
    if (served != (is_first ? grants / 2 : 0))
      return 1;
    if (time < best)
      best = time;
  }
  printf("%.2f\n", best / grants);
  return 0;
}
