// A server that decides nothing but whether a job is loaded: what a host allows with pipes, lines and the syncs of `serve`.
//
//   bare_server serve CELL JOURNAL
//
// It reads what stands in its input, up to 64 KB, writes 17 bytes for each line that it grants and syncs, writes one byte and syncs, and
// answers the lines by one write. It reads no cell and recovers no journal.
#define _GNU_SOURCE
#include <fcntl.h>
#include <stdlib.h>
#include <string.h>
#include <unistd.h>

#define RECORD 17

static char lines[1 << 16], replies[1 << 18], records[RECORD << 16], is_loaded[1 << 16];
static size_t said, granted;

static void add(const char *text, size_t length) {
  memcpy(replies + said, text, length);
  said += length;
}

// Answers `SESSION load JOB TYPE` or `SESSION unload JOB`.
static void answer(const char *line, size_t length) {
  const char *verb = memchr(line, ' ', length);
  int loads = verb && verb[1] == 'l';
  unsigned long job = verb ? strtoul(verb + (loads ? 6 : 8), NULL, 10) & 0xffff : 0;
  add(line, length);
  if (is_loaded[job] == loads) {
    const char *why = loads ? " refused job-loaded\n" : " refused no-such-job\n";
    add(why, strlen(why));
    return;
  }
  is_loaded[job] = loads;
  memset(records + RECORD * granted++, 1, RECORD);
  add(" granted\n", 9);
}

int main(int count, char **words) {
  if (count != 4)
    return 2;
  int file = open(words[3], O_RDWR | O_CREAT, 0644);
  off_t gate = 203;
  size_t have = 0;
  add("shift 0 after 0\n", 16);
  for (;;) {
    if (said && write(1, replies, said) != (ssize_t)said)
      return 8;
    ssize_t more = read(0, lines + have, sizeof lines - have);
    if (more <= 0)
      return 0;
    have += more;
    said = granted = 0;
    char *line = lines, *end;
    while ((end = memchr(line, '\n', lines + have - line))) {
      answer(line, end - line);
      line = end + 1;
    }
    size_t length = RECORD * granted;
    if (granted && (pwrite(file, records, length, gate + 1) < 0 || fdatasync(file) || pwrite(file, "\1", 1, gate) < 0 || fdatasync(file)))
      return 7;
    gate += length;
    have = lines + have - line;
    memmove(lines, line, have);
  }
}
