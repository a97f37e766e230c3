// The appends of sessions under a lock that sleeps: sleeping_lock FILE SESSIONS GRANTS
//
// So many threads share the grants. Each rests for a millisecond before each of its grants but the first, takes a mutex of the C library,
// and writes and syncs as an append does: 17 bytes written and synced, and one byte written and synced.
#include <fcntl.h>
#include <pthread.h>
#include <stdio.h>
#include <stdlib.h>
#include <unistd.h>

static pthread_mutex_t turn = PTHREAD_MUTEX_INITIALIZER;
static int file;
static off_t gate;
static long share;

static void append(void) {
  static const char record[17], open_gate = 1;
  if (pwrite(file, record, sizeof record, gate + 1) != sizeof record || fdatasync(file) != 0 || pwrite(file, &open_gate, 1, gate) != 1 ||
      fdatasync(file) != 0)
    exit(1);
  gate += sizeof record;
}

static void *session(void *nothing) {
  for (long grant = 0; grant < share; grant++) {
    if (grant > 0)
      usleep(1000);
    pthread_mutex_lock(&turn);
    append();
    pthread_mutex_unlock(&turn);
  }
  return nothing;
}

int main(int count, char **words) {
  if (count != 4)
    return 2;
  long sessions = atol(words[2]);
  pthread_t threads[64];
  if (sessions < 1 || sessions > 64 || (file = open(words[1], O_RDWR | O_CREAT, 0644)) < 0)
    return 2;
  share = atol(words[3]) / sessions;
  for (long k = 0; k < sessions; k++)
    if (pthread_create(&threads[k], NULL, session, NULL) != 0)
      return 1;
  for (long k = 0; k < sessions; k++)
    pthread_join(threads[k], NULL);
  return 0;
}
