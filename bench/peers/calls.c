/* The operations of the benchmark, done by this library's calls for C. They take and return what those of bench_calls do.
 * The caller's buffer is kept from one call to the next. */
#include <stdlib.h>
#include <vizhoniku.h>

static unsigned char *buffer;
static size_t buffer_size;

/* A buffer that holds the text or the sort key of a text of so many bytes. */
static void make_room(size_t len) {
  size_t needed = 4 * len + 64;
  if (needed <= buffer_size) return;
  free(buffer);
  buffer = malloc(needed);
  if (!buffer) exit(2);
  buffer_size = needed;
}

size_t calls_bench_check(const unsigned char *text, size_t len, size_t rounds) {
  struct vizhoniku_error error;
  for (size_t round = 0; round < rounds; round++)
    if (vizhoniku_check(VIZHONIKU_STANDARD, text, len, &error) != VIZHONIKU_ACCEPTED) return round;
  return rounds;
}

/* What vizhoniku_text and vizhoniku_sort_key are. The buffer holds numbers with exponents up to 4 times as long as they
 * are. */
typedef uint32_t writer_t(uint32_t mode, const unsigned char *text, size_t text_size, unsigned char *buffer,
                          size_t buffer_size, size_t *size, struct vizhoniku_error *error);

static size_t repeat(writer_t *write, uint32_t mode, const unsigned char *text, size_t len, size_t rounds) {
  struct vizhoniku_error error;
  size_t size;
  make_room(len);
  for (size_t round = 0; round < rounds; round++)
    if (write(mode, text, len, buffer, buffer_size, &size, &error) != VIZHONIKU_ACCEPTED) return round;
  return rounds;
}

size_t calls_bench_read_write(const unsigned char *text, size_t len, size_t rounds) {
  return repeat(vizhoniku_text, VIZHONIKU_STANDARD, text, len, rounds);
}

size_t calls_bench_json(const unsigned char *text, size_t len, size_t rounds) {
  return repeat(vizhoniku_text, VIZHONIKU_JSON, text, len, rounds);
}

size_t calls_bench_lines(const unsigned char *text, size_t len, size_t rounds) {
  struct vizhoniku_error error;
  size_t size, start;
  make_room(len);
  for (size_t round = 0; round < rounds; round++)
    if (vizhoniku_lines(VIZHONIKU_STANDARD, text, len, buffer, buffer_size, &size, &start, &error) != VIZHONIKU_ACCEPTED)
      return round;
  return rounds;
}

size_t calls_bench_part(const unsigned char *path, size_t path_len, const unsigned char *text, size_t len, size_t rounds) {
  struct vizhoniku_error error;
  size_t size;
  make_room(len);
  for (size_t round = 0; round < rounds; round++)
    if (vizhoniku_part(VIZHONIKU_STANDARD, path, path_len, text, len, buffer, buffer_size, &size, &error) !=
        VIZHONIKU_ACCEPTED)
      return round;
  return rounds;
}

size_t calls_bench_sort_key(const unsigned char *text, size_t len, size_t rounds) {
  return repeat(vizhoniku_sort_key, VIZHONIKU_STANDARD, text, len, rounds);
}
