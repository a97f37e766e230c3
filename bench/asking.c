// Asks servers with so many requests in flight, beside the writes and syncs of as many grants without one.
//
//   asking rate CELL FOLDER SLICES GROUPS AIR PROGRAM..   in turns: at each server AIR sessions load and unload a job each, GROUPS requests
//                                                         each, one in flight at each; and GROUPS groups of AIR grants go to a file: 17
//                                                         bytes each are written and synced, and one byte more. Prints the seconds of each
//                                                         server and of the file, added up over SLICES turns
//   asking room CELL FOLDER SLICES GRANTS AIR PROGRAM PROGRAM
//                                                         in turns, until GRANTS are told: AIR sessions load and unload a job each, and not
//                                                         all have room in the cell. At the first server a load that is refused is asked
//                                                         again at once, at the second it waits. Prints the seconds of both, added up over
//                                                         SLICES turns, and how many lines were sent to each
//   asking refused CELL FOLDER SLICES REQUESTS PROGRAM..  in turns: each server is asked for what is refused, REQUESTS times one after the
//                                                         other. Prints for each the median of the microseconds from a line to its refusal
//
// The servers' journals are FOLDER/journal-0 and so on, and the file is FOLDER/bare. Ends with status 1 where a reply is another one.
#define _GNU_SOURCE
#include <fcntl.h>
#include <stdio.h>
#include <stdlib.h>
#include <string.h>
#include <sys/wait.h>
#include <time.h>
#include <unistd.h>

#define MOST 4

struct server {
  int to, from;
  long said;
  size_t have, taken;
  char replies[1 << 16];
};

static struct server servers[MOST];
static int many;

static void fail(const char *what) {
  fprintf(stderr, "asking: %s\n", what);
  exit(1);
}

static double now(void) {
  struct timespec time;
  clock_gettime(CLOCK_MONOTONIC, &time);
  return time.tv_sec + time.tv_nsec / 1e9;
}

// The next line of a server; waits for it where none is here.
static char *reply(struct server *server) {
  for (;;) {
    char *end = memchr(server->replies + server->taken, '\n', server->have - server->taken);
    if (end) {
      char *line = server->replies + server->taken;
      *end = 0;
      server->taken = end + 1 - server->replies;
      return line;
    }
    memmove(server->replies, server->replies + server->taken, server->have - server->taken);
    server->have -= server->taken;
    server->taken = 0;
    ssize_t more = read(server->from, server->replies + server->have, sizeof server->replies - server->have);
    if (more <= 0)
      fail("the server has ended");
    server->have += more;
  }
}

static int is_here(struct server *server) {
  return memchr(server->replies + server->taken, '\n', server->have - server->taken) != NULL;
}

static void send(struct server *server, const char *text, size_t length) {
  if (write(server->to, text, length) != (ssize_t)length)
    fail("the server takes no more");
}

// Starts a server as a child with pipes.
static void start(char *program, char *cell, const char *folder) {
  struct server *server = &servers[many];
  int in[2], out[2];
  char journal[4096];
  snprintf(journal, sizeof journal, "%s/journal-%d", folder, many++);
  unlink(journal);
  if (pipe2(in, O_CLOEXEC) || pipe2(out, O_CLOEXEC))
    fail("no pipe");
  if (fork() == 0) {
    dup2(in[0], 0);
    dup2(out[1], 1);
    execl(program, program, "serve", cell, journal, (char *)NULL);
    _exit(127);
  }
  close(in[0]);
  close(out[1]);
  server->to = in[1];
  server->from = out[0];
  char *head = reply(server);
  if (strcmp(head, "shift 0 after 0"))
    fail(head);
}

// Each job is a session's own, and is loaded and unloaded in turn. A reply brings the next line of its session.
static double ask(struct server *server, long requests, long air) {
  static char lines[1 << 16];
  long asked = 0, told = 0;
  size_t length = 0;
  double began = now();
  for (; asked < air; asked++)
    length += sprintf(lines + length, "%ld load %ld K\n", asked + 1, asked + 1);
  send(server, lines, length);
  while (told < requests) {
    length = 0;
    do {
      long session;
      char verb[8], *line = reply(server);
      if (sscanf(line, "%ld %7s", &session, verb) != 2 || strcmp(strrchr(line, ' '), " granted"))
        fail(line);
      told++;
      if (asked < requests) {
        length += sprintf(lines + length, *verb == 'l' ? "%ld unload %ld\n" : "%ld load %ld K\n", session, session);
        asked++;
      }
    } while (told < requests && is_here(server) && length < sizeof lines / 2);
    if (length)
      send(server, lines, length);
  }
  return now() - began;
}

// The writes and syncs of groups of grants, after those that are in the file.
static double bare(int file, long groups, long air) {
  static off_t gate;
  char *records = calloc(air, 17);
  double began = now();
  for (long done = 0; done < groups; done++) {
    if (pwrite(file, records, 17 * air, gate + 1) < 0 || fdatasync(file) || pwrite(file, "\1", 1, gate) < 0 || fdatasync(file))
      fail("the device fails");
    gate += 17 * air;
  }
  free(records);
  return now() - began;
}

static void rate(const char *folder, long slices, long groups, long air) {
  char path[4096];
  snprintf(path, sizeof path, "%s/bare", folder);
  int file = open(path, O_RDWR | O_CREAT | O_TRUNC, 0644);
  double served[MOST] = {0}, alone = 0;
  if (file < 0)
    fail(path);
  bare(file, 1, air);
  for (long slice = 0; slice < slices; slice++) {
    for (int which = 0; which < many; which++)
      served[which] += ask(&servers[which], groups * air, air);
    alone += bare(file, groups, air);
  }
  for (int which = 0; which < many; which++)
    printf("%.6f ", served[which]);
  printf("%.6f\n", alone);
}

static const char *const loads[] = {"%ld load %ld K\n", "%ld wait load %ld K\n"};

// A reply brings the next line of its session: after a grant the other step, and after a refusal the same one. Who waits says nothing.
static double contend(struct server *server, long grants, int waits) {
  static char lines[1 << 16];
  double began = now();
  while (grants > 0) {
    size_t length = 0;
    do {
      long session;
      char told[9], *line = reply(server);
      int is_load = sscanf(line, "%ld load %*d K %8s", &session, told) == 2;
      if (!is_load && sscanf(line, "%ld unload %*d %8s", &session, told) != 2)
        fail(line);
      int is_granted = !strcmp(told, "granted") || !strcmp(told, "served");
      if (!is_granted && strcmp(told, waits ? "waits" : "refused"))
        fail(line);
      grants -= is_granted;
      if (is_granted && is_load)
        length += sprintf(lines + length, "%ld unload %ld\n", session, session);
      else if (is_granted || !waits)
        length += sprintf(lines + length, loads[waits], session, session);
      server->said += is_granted || !waits;
    } while (is_here(server) && length < sizeof lines / 2);
    if (length)
      send(server, lines, length);
  }
  return now() - began;
}

static void room(long slices, long grants, long air) {
  static char lines[1 << 16];
  double seconds[2] = {0};
  for (int waits = 0; waits < 2; waits++) {
    size_t length = 0;
    for (long session = 1; session <= air; session++)
      length += sprintf(lines + length, loads[waits], session, session);
    send(&servers[waits], lines, length);
  }
  for (long slice = 0; slice < slices; slice++)
    for (int waits = 0; waits < 2; waits++)
      seconds[waits] += contend(&servers[waits], grants, waits);
  printf("%.6f %.6f %ld %ld\n", seconds[0], seconds[1], servers[0].said, servers[1].said);
}

static int by_size(const void *left, const void *right) {
  double difference = *(const double *)left - *(const double *)right;
  return (difference > 0) - (difference < 0);
}

static void refused(long slices, long requests) {
  double *times[MOST];
  for (int which = 0; which < many; which++)
    times[which] = calloc(slices * requests, sizeof **times);
  for (long slice = 0; slice < slices; slice++)
    for (int which = 0; which < many; which++)
      for (long asked = 0; asked < requests; asked++) {
        double began = now();
        send(&servers[which], "1 unload 9\n", 11);
        char *line = reply(&servers[which]);
        times[which][slice * requests + asked] = 1e6 * (now() - began);
        if (strcmp(line, "1 unload 9 refused no-such-job"))
          fail(line);
      }
  for (int which = 0; which < many; which++) {
    qsort(times[which], slices * requests, sizeof **times, by_size);
    printf("%.3f ", times[which][slices * requests / 2]);
  }
  printf("\n");
}

int main(int count, char **words) {
  const char *kind = count > 6 ? words[1] : "";
  int is_rate = !strcmp(kind, "rate"), is_room = !strcmp(kind, "room"), first = is_rate || is_room ? 7 : 6;
  if (count <= first || count > first + MOST || (is_room ? count != first + 2 : !is_rate && strcmp(kind, "refused")))
    fail("no words");
  for (int word = first; word < count; word++)
    start(words[word], words[2], words[3]);
  if (is_rate)
    rate(words[3], atol(words[4]), atol(words[5]), atol(words[6]));
  else if (is_room)
    room(atol(words[4]), atol(words[5]), atol(words[6]));
  else
    refused(atol(words[4]), atol(words[5]));
  int worst = 0;
  for (int which = 0; which < many; which++) {
    int status;
    close(servers[which].to);
    worst |= wait(&status) < 0 || status != 0;
  }
  return worst;
}
