/* Prints the text of the value that a JSON text on standard input means, or compares two texts:
 *
 *   main [--extended] < FILE           prints the text of the value, or says on standard error where the text is wrong
 *   main [--extended] LEFT RIGHT       prints <, = or >
 *
 * The status is 0, or 1 where a text is rejected, or 2 where the words are wrong or anything else fails. */
#include <stdio.h>
#include <stdlib.h>
#include <string.h>

#include "vizhoniku.h"

/* The line of the text in which the location is, and under it a caret. Tabs stay tabs, so that the caret is right;
 * the second and later bytes of a character take no column. */
static void print_line(const unsigned char *text, size_t text_size, const struct vizhoniku_location *location) {
  size_t start = location->index - (location->column - 1), end = start;
  while (end < text_size && text[end] != '\n' && text[end] != '\r') end++;
  fwrite(text + start, 1, end - start, stderr);
  fputc('\n', stderr);
  for (size_t i = start; i < location->index; i++)
    if (text[i] == '\t' || (text[i] & 0xC0) != 0x80) fputc(text[i] == '\t' ? '\t' : ' ', stderr);
  fputs("^\n", stderr);
}

/* Says where the text is wrong, and what is wrong, in words. */
static int print_failure(uint32_t mode, uint32_t status, const struct vizhoniku_error *error, const unsigned char *text,
                         size_t text_size) {
  unsigned char words[256];
  size_t size;
  struct vizhoniku_location location;
  if (status != VIZHONIKU_REJECTED) {
    fprintf(stderr, "status %u\n", (unsigned)status);
    return 2;
  }
  vizhoniku_locate(text, text_size, error, &location);
  fprintf(stderr, "line %zu, column %zu: ", location.line,
          vizhoniku_character(text, text_size, location.index - (location.column - 1), location.index));
  if (vizhoniku_message(mode, text, text_size, words, sizeof words, &size) == VIZHONIKU_REJECTED)
    fwrite(words, 1, size, stderr);
  else
    fprintf(stderr, "code %u", (unsigned)error->code); /* a long key, or no memory */
  fputc('\n', stderr);
  print_line(text, text_size, &location);
  return 1;
}

/* All bytes of a file, in memory that the caller frees, or a null pointer where that fails. */
static unsigned char *read_all(FILE *in, size_t *size) {
  size_t capacity = 4096;
  unsigned char *bytes = malloc(capacity);
  *size = 0;
  while (bytes) {
    *size += fread(bytes + *size, 1, capacity - *size, in);
    if (*size < capacity) break;
    unsigned char *longer = capacity <= SIZE_MAX / 2 ? realloc(bytes, capacity *= 2) : NULL;
    if (!longer) free(bytes);
    bytes = longer;
  }
  if (bytes && ferror(in)) {
    free(bytes);
    return NULL;
  }
  return bytes;
}

/* Asks with a small buffer first, and again with one of the size that is needed. */
static int print_text(uint32_t mode, const unsigned char *text, size_t text_size) {
  unsigned char small[256], *buffer = small;
  size_t size;
  struct vizhoniku_error error;
  uint32_t status = vizhoniku_text(mode, text, text_size, buffer, sizeof small, &size, &error);
  if (status == VIZHONIKU_TOO_SHORT) {
    buffer = malloc(size);
    if (!buffer) return 2;
    status = vizhoniku_text(mode, text, text_size, buffer, size, &size, &error);
  }
  int answer = 0;
  if (status != VIZHONIKU_ACCEPTED)
    answer = print_failure(mode, status, &error, text, text_size);
  else if (fwrite(buffer, 1, size, stdout) != size || putchar('\n') == EOF)
    answer = 2;
  if (buffer != small) free(buffer);
  return answer;
}

static int print_input(uint32_t mode) {
  size_t text_size;
  unsigned char *text = read_all(stdin, &text_size);
  if (!text) return 2;
  struct vizhoniku_error error;
  uint32_t status = vizhoniku_check(mode, text, text_size, &error);
  int answer = status == VIZHONIKU_ACCEPTED ? print_text(mode, text, text_size)
                                            : print_failure(mode, status, &error, text, text_size);
  free(text);
  return answer;
}

static int print_order(uint32_t mode, const char *left, const char *right) {
  int32_t order;
  struct vizhoniku_error error;
  const char *texts[] = {left, right};
  uint32_t status = vizhoniku_compare(mode, (const unsigned char *)left, strlen(left), (const unsigned char *)right,
                                      strlen(right), &order, &error);
  if (status == VIZHONIKU_ACCEPTED) return puts(order < 0 ? "<" : order > 0 ? ">" : "=") == EOF ? 2 : 0;
  if (status != VIZHONIKU_REJECTED) return print_failure(mode, status, &error, NULL, 0);
  const char *text = texts[error.which - 1];
  fprintf(stderr, "text %u: ", (unsigned)error.which);
  return print_failure(mode, status, &error, (const unsigned char *)text, strlen(text));
}

int main(int argc, char **argv) {
  uint32_t mode = VIZHONIKU_STANDARD;
  if (argc > 1 && !strcmp(argv[1], "--extended")) {
    mode = VIZHONIKU_EXTENDED;
    argc--;
    argv++;
  }
  if (argc == 1) return print_input(mode);
  if (argc == 3) return print_order(mode, argv[1], argv[2]);
  fputs("usage: main [--extended] [LEFT RIGHT]\n", stderr);
  return 2;
}
