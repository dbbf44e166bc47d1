/* Has the streams of a program come in pieces, or fail. It is loaded before the C library.
 *
 * READS=N: standard input gives so many bytes, one at each read, and then fails.
 * SPACES=N: standard input is so many spaces, one at each read, and then ends; with -1 it has no end.
 * SPACE_OF=FD SPACE=N: the descriptor takes so many bytes, and then fails as a full disk does.
 * REPORT_TO=FD: at the end, how often standard input was read, and how many bytes each read took at least. */
#define _GNU_SOURCE /* for RTLD_NEXT */
#include <dlfcn.h>
#include <errno.h>
#include <stdio.h>
#include <stdlib.h>
#include <unistd.h>

/* What an environment variable says, or -2. */
static long number(const char *name) {
  const char *text = getenv(name);
  return text ? atol(text) : -2;
}

static long reads;
static size_t least = (size_t)-1;

/* The next library that has the function. */
static ssize_t read_on(void *bytes, size_t count) {
  ssize_t (*real)(int, void *, size_t) = (ssize_t(*)(int, void *, size_t))dlsym(RTLD_NEXT, "read");
  return real(0, bytes, count);
}

static ssize_t write_on(int to, const void *bytes, size_t count) {
  ssize_t (*real)(int, const void *, size_t) = (ssize_t(*)(int, const void *, size_t))dlsym(RTLD_NEXT, "write");
  return real(to, bytes, count);
}

ssize_t read(int from, void *bytes, size_t count) {
  static long spaces = -3, given = -3;
  if (spaces == -3) spaces = number("SPACES");
  if (given == -3) given = number("READS");
  if (from) abort();
  reads++;
  if (count < least) least = count;
  if (spaces != -2) {
    if (spaces == 0) return 0;
    if (spaces > 0) spaces--;
    *(char *)bytes = ' ';
    return 1;
  }
  if (given == -2) return read_on(bytes, count);
  if (given == 0) {
    errno = EIO;
    return -1;
  }
  given--;
  return read_on(bytes, 1);
}

ssize_t write(int to, const void *bytes, size_t count) {
  static long full = -3, space = -3;
  if (full == -3) full = number("SPACE_OF");
  if (space == -3) space = number("SPACE");
  if (to != full) return write_on(to, bytes, count);
  if (space == 0) {
    errno = ENOSPC;
    return -1;
  }
  size_t some = count < (size_t)space ? count : (size_t)space;
  space -= (long)some;
  return write_on(to, bytes, some);
}

__attribute__((destructor)) static void end(void) {
  long to = number("REPORT_TO");
  char line[64];
  int size = snprintf(line, sizeof line, "%ld reads, each of %zu bytes and more\n", reads, least);
  if (to >= 0) (void)!write_on((int)to, line, (size_t)size);
}
