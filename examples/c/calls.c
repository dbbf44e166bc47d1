/* Makes calls whose answers main.c doesn't show: an unknown mode, buffers of several sizes, parts and their paths, sort
 * keys, both at once, parts of sort keys, and null pointers of size 0. Each prints a line. */
#include <stdio.h>
#include <stdlib.h>
#include <string.h>

#include "vizhoniku.h"

#define BYTES(text) (const unsigned char *)(text), strlen(text)

static void print_error(const struct vizhoniku_error *error) {
  printf(" code %u which %u position %zu\n", (unsigned)error->code, (unsigned)error->which, error->position);
}

static void check(uint32_t mode, const char *text) {
  struct vizhoniku_error error;
  memset(&error, 255, sizeof error);
  printf("check: status %u", (unsigned)vizhoniku_check(mode, BYTES(text), &error));
  print_error(&error);
}

/* The buffer holds points, and the library is reported of its first bytes alone. */
static void write_text(uint32_t mode, const char *text, size_t buffer_size) {
  unsigned char buffer[12];
  size_t size = 99;
  struct vizhoniku_error error;
  memset(buffer, '.', sizeof buffer);
  memset(&error, 255, sizeof error);
  uint32_t status = vizhoniku_text(mode, BYTES(text), buffer, buffer_size, &size, &error);
  printf("text: status %u size %zu buffer %.12s", (unsigned)status, size, (char *)buffer);
  print_error(&error);
}

static void compare(uint32_t mode, const char *left, const char *right) {
  int32_t order = 99;
  struct vizhoniku_error error;
  memset(&error, 255, sizeof error);
  uint32_t status = vizhoniku_compare(mode, BYTES(left), BYTES(right), &order, &error);
  printf("compare: status %u order %d", (unsigned)status, (int)order);
  print_error(&error);
}

static void write_part(uint32_t mode, const char *path, const char *text, size_t buffer_size) {
  unsigned char buffer[12];
  size_t size = 99;
  struct vizhoniku_error error;
  memset(buffer, '.', sizeof buffer);
  memset(&error, 255, sizeof error);
  uint32_t status = vizhoniku_part(mode, BYTES(path), BYTES(text), buffer, buffer_size, &size, &error);
  printf("part: status %u size %zu buffer %.12s", (unsigned)status, size, (char *)buffer);
  print_error(&error);
}

static void write_sort_key(uint32_t mode, const char *text, size_t buffer_size) {
  unsigned char buffer[12];
  size_t size = 99;
  struct vizhoniku_error error;
  memset(buffer, 0, sizeof buffer);
  memset(&error, 255, sizeof error);
  uint32_t status = vizhoniku_sort_key(mode, BYTES(text), buffer, buffer_size, &size, &error);
  printf("sort key: status %u size %zu buffer ", (unsigned)status, size);
  for (size_t i = 0; i < sizeof buffer; i++) printf("%02x", (unsigned)buffer[i]);
  print_error(&error);
}

static void write_both(uint32_t mode, const char *text, size_t buffer_size, size_t key_buffer_size) {
  unsigned char buffer[12], key_buffer[12];
  size_t size = 99, key_size = 99;
  struct vizhoniku_error error;
  memset(buffer, '.', sizeof buffer);
  memset(key_buffer, 0, sizeof key_buffer);
  memset(&error, 255, sizeof error);
  uint32_t status = vizhoniku_text_and_key(mode, BYTES(text), buffer, buffer_size, &size, key_buffer, key_buffer_size,
                                           &key_size, &error);
  printf("text and key: status %u sizes %zu %zu buffers %.12s ", (unsigned)status, size, key_size, (char *)buffer);
  for (size_t i = 0; i < sizeof key_buffer; i++) printf("%02x", (unsigned)key_buffer[i]);
  print_error(&error);
}

/* Line feeds of the buffer are shown as bars. */
static void write_lines(uint32_t mode, const char *text, size_t buffer_size) {
  unsigned char buffer[12];
  size_t size = 99, start = 99;
  struct vizhoniku_error error;
  memset(buffer, '.', sizeof buffer);
  memset(&error, 255, sizeof error);
  uint32_t status = vizhoniku_lines(mode, BYTES(text), buffer, buffer_size, &size, &start, &error);
  for (size_t i = 0; i < sizeof buffer; i++)
    if (buffer[i] == '\n') buffer[i] = '|';
  printf("lines: status %u size %zu start %zu buffer %.12s", (unsigned)status, size, start, (char *)buffer);
  print_error(&error);
}

static void write_key_text(const unsigned char *key, size_t key_size, size_t buffer_size) {
  unsigned char buffer[16];
  size_t size = 99;
  memset(buffer, '.', sizeof buffer);
  uint32_t status = vizhoniku_key_text(key, key_size, buffer, buffer_size, &size);
  printf("text of a key: status %u size %zu buffer %.16s\n", (unsigned)status, size, (char *)buffer);
}

/* The path at which a text is rejected. */
static void write_path(uint32_t mode, const char *text, size_t buffer_size) {
  unsigned char buffer[40];
  size_t size = 99;
  struct vizhoniku_error error;
  vizhoniku_check(mode, BYTES(text), &error);
  uint32_t status = vizhoniku_error_path(mode, BYTES(text), &error, buffer, buffer_size, &size);
  printf("path of %s: status %u size %zu", text, (unsigned)status, size);
  if (status == VIZHONIKU_ACCEPTED) printf(" %.*s", (int)size, (const char *)buffer);
  printf("\n");
}

/* Which characters bytes are of: in the second line, in the text, within a character, at the end, past it, and before the
 * first one. */
static void count_characters(void) {
  static const unsigned char text[] = "[\"\xC3\xA9\",\n\"\xC3\xA9\xE2\x82\xAC\", x]";
  const size_t size = sizeof text - 1;
  printf("characters: %zu %zu %zu", vizhoniku_character(text, size, 7, 16), vizhoniku_character(text, size, 0, 16),
         vizhoniku_character(text, size, 0, 9));
  printf(" %zu %zu %zu\n", vizhoniku_character(text, size, 0, size), vizhoniku_character(text, size, 0, size + 9),
         vizhoniku_character(text, size, 9, 7));
}

/* The text of a value, from the one with the fewest digits and the value's zeros. */
static void write_zeros(const char *shortest, const unsigned char *zeros, size_t zeros_size, size_t buffer_size) {
  unsigned char buffer[40];
  size_t size = 99;
  memset(buffer, '.', sizeof buffer);
  uint32_t status = vizhoniku_text_with_zeros(BYTES(shortest), zeros, zeros_size, buffer, buffer_size, &size);
  printf("%s with zeros: status %u size %zu buffer %.21s\n", shortest, (unsigned)status, size, (char *)buffer);
}

/* The sort key of a text, whose parts the functions below find. */
static unsigned char key[200];
static size_t key_size;

static void make_key(const char *text) {
  struct vizhoniku_error error;
  uint32_t status = vizhoniku_sort_key(VIZHONIKU_EXTENDED, BYTES(text), key, sizeof key, &key_size, &error);
  size_t count = 99;
  printf("key of %s: status %u size %zu check %u kind %u", text, (unsigned)status, key_size,
         (unsigned)vizhoniku_key_check(key, key_size), (unsigned)vizhoniku_key_kind(key, key_size));
  status = vizhoniku_key_count(key, key_size, &count);
  printf(" count: status %u %zu\n", (unsigned)status, count);
}

static void print_range(const char *what, uint32_t status, size_t offset, size_t size) {
  printf("%s: status %u offset %zu size %zu ", what, (unsigned)status, offset, size);
  for (size_t i = 0; i < size; i++) printf("%02x", (unsigned)key[offset + i]);
  printf("\n");
}

static void find_member(const char *name) {
  size_t offset = 99, size = 99;
  uint32_t status = vizhoniku_key_member(key, key_size, BYTES(name), &offset, &size);
  print_range("member", status, offset, size);
}

static void find_item(int64_t index) {
  size_t offset = 99, size = 99;
  uint32_t status = vizhoniku_key_item(key, key_size, index, &offset, &size);
  print_range("item", status, offset, size);
}

static void find_part(const char *path) {
  size_t offset = 99, size = 99;
  uint32_t status = vizhoniku_key_part(key, key_size, BYTES(path), &offset, &size);
  print_range("part", status, offset, size);
}

static void walk(void) {
  struct vizhoniku_key_cursor cursor;
  struct vizhoniku_key_entry entry;
  unsigned char name[12];
  size_t name_size;
  uint32_t status;
  memset(&cursor, 255, sizeof cursor);
  status = vizhoniku_key_begin(key, key_size, &cursor);
  printf("begin: status %u kind %u offset %zu\n", (unsigned)status, (unsigned)cursor.kind, cursor.offset);
  while (memset(&entry, 255, sizeof entry), status = vizhoniku_key_next(key, key_size, &cursor, &entry), !status) {
    if (entry.name_size) {
      status = vizhoniku_key_name(key + entry.name_offset, entry.name_size, name, sizeof name, &name_size);
      printf("name: status %u size %zu %.*s\n", (unsigned)status, name_size, (int)name_size, (char *)name);
    }
    print_range("next", 0, entry.offset, entry.size);
  }
  printf("end: status %u cursor %zu entry %zu %zu %zu %zu\n", (unsigned)status, cursor.offset, entry.name_offset,
         entry.name_size, entry.offset, entry.size);
}

static void write_string(size_t buffer_size) {
  unsigned char buffer[12];
  size_t size = 99;
  memset(buffer, '.', sizeof buffer);
  uint32_t status = vizhoniku_key_string(key, key_size, buffer, buffer_size, &size);
  printf("string: status %u size %zu buffer ", (unsigned)status, size);
  for (size_t i = 0; i < sizeof buffer; i++) printf("%02x", (unsigned)buffer[i]);
  printf("\n");
}

/* Bytes that are no key: each call says so, or finds something within them. */
static void pass_no_key(void) {
  static const unsigned char no_keys[][4] = {
      {0, 0, 0, 0}, {0xD2, 0xD2, 0xD2, 0xD2}, {0xD1, 'a', 0, 2}, {0xD1, 'a', 0, 1}, {0xD0, 'a', 'b', 'c'}, {0xA1, 1, 1, 1}};
  for (size_t i = 0; i < sizeof no_keys / sizeof no_keys[0]; i++) {
    struct vizhoniku_key_cursor cursor;
    struct vizhoniku_key_entry entry;
    unsigned char buffer[4];
    size_t offset, size, count;
    printf("no key: check %u", (unsigned)vizhoniku_key_check(no_keys[i], 4));
    printf(" kind %u", (unsigned)vizhoniku_key_kind(no_keys[i], 4));
    printf(" count %u", (unsigned)vizhoniku_key_count(no_keys[i], 4, &count));
    printf(" member %u", (unsigned)vizhoniku_key_member(no_keys[i], 4, BYTES("a"), &offset, &size));
    printf(" item %u", (unsigned)vizhoniku_key_item(no_keys[i], 4, -1, &offset, &size));
    printf(" part %u", (unsigned)vizhoniku_key_part(no_keys[i], 4, BYTES("/0/0"), &offset, &size));
    printf(" begin %u", (unsigned)vizhoniku_key_begin(no_keys[i], 4, &cursor));
    printf(" next %u", (unsigned)vizhoniku_key_next(no_keys[i], 4, &cursor, &entry));
    cursor.kind = VIZHONIKU_OBJECT;
    cursor.offset = 5;
    printf(" past the end %u", (unsigned)vizhoniku_key_next(no_keys[i], 4, &cursor, &entry));
    printf(" string %u", (unsigned)vizhoniku_key_string(no_keys[i], 4, buffer, 4, &size));
    printf(" contains %u\n", (unsigned)vizhoniku_key_contains(no_keys[i], 4, no_keys[i], 4));
  }
}

static void find_parts(void) {
  make_key("{b:[1,-2.5,\"x\"], a:{c:null}, \"~/\":true, \"\":[]}");
  find_member("a");
  find_member("b");
  find_member("~/");
  find_member("");
  find_member("aa");
  find_item(0);
  find_part("");
  find_part("/b/1");
  find_part("/a/c");
  find_part("/~0~1");
  find_part("/b/3");
  find_part("b");
  write_string(12);
  walk();

  make_key("[1,-2.5,\"x\"]");
  find_item(0);
  find_item(2);
  find_item(3);
  find_item(-1);
  find_item(-3);
  find_item(-4);
  find_item(INT64_MAX);
  find_item(INT64_MIN);
  find_member("0");
  find_part("/0");
  walk();

  make_key("\"x\\u0000\\u00e9\"");
  write_string(12);
  write_string(4);
  write_string(3);
  write_string(0);
  find_item(0);
  find_part("");
  find_part("/x");
  walk();

  pass_no_key();
}

/* Whether the value of a text contains that of another. */
static void contain(const char *text, const char *other) {
  unsigned char other_key[99];
  size_t size;
  struct vizhoniku_error error;
  make_key(text);
  if (vizhoniku_sort_key(VIZHONIKU_EXTENDED, BYTES(other), other_key, sizeof other_key, &size, &error)) exit(1);
  printf("%s contains %s: %u", text, other, (unsigned)vizhoniku_key_contains(key, key_size, other_key, size));
  printf(", and is contained: %u\n", (unsigned)vizhoniku_key_contains(other_key, size, key, key_size));
}

/* A null pointer of size 0 is an empty text, path, name, key or buffer. */
static void pass_null(uint32_t mode) {
  size_t size = 99, key_size = 99;
  int32_t order = 99;
  struct vizhoniku_error error = {0, 0, 0};
  struct vizhoniku_location location = {0, 0, 0};
  printf("null: check %u,", (unsigned)vizhoniku_check(mode, NULL, 0, &error));
  printf(" text %u", (unsigned)vizhoniku_text(mode, NULL, 0, NULL, 0, &size, &error));
  printf(" size %zu,", size);
  printf(" part %u", (unsigned)vizhoniku_part(mode, NULL, 0, NULL, 0, NULL, 0, &size, &error));
  printf(" size %zu,", size);
  printf(" whole %u", (unsigned)vizhoniku_part(mode, NULL, 0, BYTES("[1]"), NULL, 0, &size, &error));
  printf(" size %zu,", size);
  printf(" sort key %u", (unsigned)vizhoniku_sort_key(mode, NULL, 0, NULL, 0, &size, &error));
  printf(" size %zu,", size);
  printf(" key's text %u", (unsigned)vizhoniku_key_text(NULL, 0, NULL, 0, &size));
  printf(" size %zu,", size);
  printf(" both %u", (unsigned)vizhoniku_text_and_key(mode, NULL, 0, NULL, 0, &size, NULL, 0, &key_size, &error));
  printf(" sizes %zu %zu,", size, key_size);
  printf(" lines %u", (unsigned)vizhoniku_lines(mode, NULL, 0, NULL, 0, &size, &key_size, &error));
  printf(" size %zu start %zu,", size, key_size);
  printf(" compare %u", (unsigned)vizhoniku_compare(mode, BYTES("null"), NULL, 0, &order, &error));
  printf(" order %d,", (int)order);
  printf(" message %u", (unsigned)vizhoniku_message(mode, NULL, 0, NULL, 0, &size));
  printf(" size %zu,", size);
  vizhoniku_locate(NULL, 0, &error, &location);
  printf(" place %zu %zu %zu", location.index, location.line, location.column);
  printf(" character %zu\n", vizhoniku_character(NULL, 0, 0, location.index));
}

static void pass_null_keys(void) {
  static const unsigned char object[] = {0xD1, 0, 1, 0x80, 0, 0};
  struct vizhoniku_key_cursor cursor = {VIZHONIKU_ARRAY, 0};
  struct vizhoniku_key_entry entry;
  size_t offset = 99, size = 99, count = 99;
  printf("null key: check %u", (unsigned)vizhoniku_key_check(NULL, 0));
  printf(" kind %u", (unsigned)vizhoniku_key_kind(NULL, 0));
  printf(" count %u", (unsigned)vizhoniku_key_count(NULL, 0, &count));
  printf(" member %u", (unsigned)vizhoniku_key_member(NULL, 0, NULL, 0, &offset, &size));
  printf(" named %u", (unsigned)vizhoniku_key_member(object, sizeof object, NULL, 0, &offset, &size));
  printf(" offset %zu size %zu", offset, size);
  printf(" item %u", (unsigned)vizhoniku_key_item(NULL, 0, 0, &offset, &size));
  printf(" part %u", (unsigned)vizhoniku_key_part(NULL, 0, NULL, 0, &offset, &size));
  printf(" next %u", (unsigned)vizhoniku_key_next(NULL, 0, &cursor, &entry));
  printf(" begin %u", (unsigned)vizhoniku_key_begin(NULL, 0, &cursor));
  printf(" string %u", (unsigned)vizhoniku_key_string(NULL, 0, NULL, 0, &size));
  printf(" name %u", (unsigned)vizhoniku_key_name(NULL, 0, NULL, 0, &size));
  printf(" contains %u", (unsigned)vizhoniku_key_contains(NULL, 0, NULL, 0));
  printf("\nnull with zeros: %u", (unsigned)vizhoniku_text_with_zeros(NULL, 0, NULL, 0, NULL, 0, &size));
  printf(" size %zu\n", size);
}

/* Prints the status, the size and the bytes of a key that was changed. */
static void print_key(const char *what, uint32_t status, const unsigned char *key, size_t size) {
  printf("%s: %u size %zu", what, (unsigned)status, size);
  if (status == VIZHONIKU_ACCEPTED) {
    printf(" key ");
    for (size_t i = 0; i < size; i++) printf("%02x", key[i]);
  }
  printf("\n");
}

/* Changes documents that have no zeros, and so are keys: {"a":[1]}, {"b":null} and [], of docs/SORT_KEYS.md's format. */
static void change_keys(void) {
  static const unsigned char key[] = {0xD1, 'a', 0, 1, 0xD2, 0xA1, 0x14, 0, 0, 0};
  static const unsigned char other[] = {0xD1, 'b', 0, 1, 0xD3, 0, 0}, array[] = {0xD2, 0};
  unsigned char out[40];
  size_t size = 99;
  uint32_t status;
  status = vizhoniku_document_set(key, sizeof key, BYTES("/a/0"), array, sizeof array, 0, out, sizeof out, &size);
  print_key("set", status, out, size);
  status = vizhoniku_document_set(key, sizeof key, BYTES("/a/-2"), array, sizeof array, 1, out, sizeof out, &size);
  print_key("added in front", status, out, size);
  status = vizhoniku_document_set(key, sizeof key, BYTES("/c"), array, sizeof array, 0, out, sizeof out, &size);
  print_key("not added", status, out, size);
  status = vizhoniku_document_set(key, sizeof key, BYTES("/c"), array, sizeof array, 1, out, 14, &size);
  print_key("too short", status, out, size);
  status = vizhoniku_document_remove(key, sizeof key, BYTES("/a"), out, sizeof out, &size);
  print_key("removed", status, out, size);
  status = vizhoniku_document_remove(key, sizeof key, BYTES("a"), out, sizeof out, &size);
  print_key("no path", status, out, size);
  status = vizhoniku_document_merge(key, sizeof key, other, sizeof other, out, sizeof out, &size);
  print_key("merged", status, out, size);
  status = vizhoniku_document_merge(array, sizeof array, other, sizeof other, out, sizeof out, &size);
  print_key("joined", status, out, size);
  status = vizhoniku_document_put(other, sizeof other, BYTES("a"), array, sizeof array, out, sizeof out, &size);
  print_key("put", status, out, size);
  status = vizhoniku_document_put(array, sizeof array, BYTES("a"), array, sizeof array, out, sizeof out, &size);
  print_key("not put", status, out, size);
  status = vizhoniku_document_put(other, sizeof other, BYTES("\xC3"), array, sizeof array, out, sizeof out, &size);
  print_key("no name", status, out, size);
  status = vizhoniku_document_push(array, sizeof array, other, sizeof other, out, sizeof out, &size);
  print_key("pushed", status, out, size);
  status = vizhoniku_document_push(other, sizeof other, array, sizeof array, out, sizeof out, &size);
  print_key("not pushed", status, out, size);
  status = vizhoniku_document_set(key, sizeof key, BYTES("/a"), NULL, 0, 0, NULL, 0, &size);
  print_key("null part", status, out, size);
  status = vizhoniku_document_put(other, sizeof other, NULL, 0, array, sizeof array, out, sizeof out, &size);
  print_key("put at an empty name", status, out, size);
}

/* Leaves parts out of the documents {"a":[null,2.0],"b":null} and ["a",1.50], by the names of {"a":null} and {"b":null}. */
static void leave_out(unsigned char *out, size_t out_size) {
  static const unsigned char object[] = {0xD1, 'a', 0, 1, 0xD2, 0xD3, 0xA1, 0x28, 0, 'b', 0, 1, 0xD3, 0, 0, 6, 1, 2, 0xFF};
  static const unsigned char array[] = {0xD2, 0xD0, 'a', 0, 1, 0xA1, 0x1E, 0, 5, 1, 2, 0xFF};
  static const unsigned char a[] = {0xD1, 'a', 0, 1, 0xD3, 0, 0}, b[] = {0xD1, 'b', 0, 1, 0xD3, 0, 0};
  size_t size = 99;
  uint32_t status;
  status = vizhoniku_document_without(object, sizeof object, b, sizeof b, out, out_size, &size);
  print_key("without b", status, out, size);
  status = vizhoniku_document_without(object, sizeof object, b, sizeof b, out, 14, &size);
  print_key("too short", status, out, size);
  status = vizhoniku_document_without(object, sizeof object, a, sizeof a, out, out_size, &size);
  print_key("without a", status, out, size);
  status = vizhoniku_document_without(array, sizeof array, a, sizeof a, out, out_size, &size);
  print_key("without items", status, out, size);
  status = vizhoniku_document_without(array, sizeof array, b, sizeof b, out, out_size, &size);
  print_key("none left out", status, out, size);
  status = vizhoniku_document_without(object, sizeof object, array, sizeof array, out, out_size, &size);
  print_key("no names", status, out, size);
  status = vizhoniku_document_strip_nulls(object, sizeof object, 0, out, out_size, &size);
  print_key("stripped", status, out, size);
  status = vizhoniku_document_strip_nulls(object, sizeof object, 1, out, out_size, &size);
  print_key("items stripped", status, out, size);
  status = vizhoniku_document_strip_nulls(object, sizeof object, 1, out, 13, &size);
  print_key("too short", status, out, size);
  status = vizhoniku_document_strip_nulls(array, sizeof array, 1, out, out_size, &size);
  print_key("none stripped", status, out, size);
  status = vizhoniku_document_strip_nulls(a + 4, 1, 1, out, out_size, &size);
  print_key("null alone", status, out, size);
}

/* Documents: {"a":[1.50]}, and 2.0 and null, of docs/SORT_KEYS.md's format. */
static void change_documents(void) {
  static const unsigned char document[] = {0xD1, 'a', 0, 1, 0xD2, 0xA1, 0x1E, 0, 0, 0, 5, 1, 2, 0xFF};
  static const unsigned char number[] = {0xA1, 0x28, 0, 1, 2, 0xFF}, null[] = {0xD3}, array[] = {0xD2, 0};
  unsigned char out[40];
  size_t size = 99;
  uint32_t status;
  struct vizhoniku_error error;
  status = vizhoniku_document(VIZHONIKU_EXTENDED, BYTES("{a: [1.50]}"), out, sizeof out, &size, &error);
  print_key("document", status, out, size);
  status = vizhoniku_document(VIZHONIKU_EXTENDED, BYTES("{a: [1.50]}"), out, 13, &size, &error);
  print_key("too short", status, out, size);
  status = vizhoniku_document(VIZHONIKU_STANDARD, BYTES("[1 2]"), out, sizeof out, &size, &error);
  printf("no document: %u size %zu code %u position %zu\n", (unsigned)status, size, (unsigned)error.code, error.position);
  status = vizhoniku_document(4, NULL, 0, NULL, 0, &size, &error);
  printf("no mode: %u size %zu code %u\n", (unsigned)status, size, (unsigned)error.code);
  status = vizhoniku_document_text(document, sizeof document, out, sizeof out, &size);
  printf("text: %u %.*s\n", (unsigned)status, (int)size, (const char *)out);
  status = vizhoniku_document_text(document, sizeof document, out, 11, &size);
  printf("too short: %u size %zu\n", (unsigned)status, size);
  status = vizhoniku_document_text(NULL, 0, NULL, 0, &size);
  printf("null text: %u size %zu\n", (unsigned)status, size);
  printf("check: %u %u %u, cut off: %u %u, none: %u\n", (unsigned)vizhoniku_document_check(document, sizeof document),
         (unsigned)vizhoniku_document_check(number, sizeof number), (unsigned)vizhoniku_document_check(array, sizeof array),
         (unsigned)vizhoniku_document_check(document, sizeof document - 1),
         (unsigned)vizhoniku_document_check(document, 9), (unsigned)vizhoniku_document_check(NULL, 0));
  printf("document's key: %zu, of none: %zu, null: %zu\n", vizhoniku_document_key(document, sizeof document),
         vizhoniku_document_key(BYTES("x\xFF")), vizhoniku_document_key(NULL, 0));
  printf("order: %d %d %d, null: %d\n", (int)vizhoniku_document_compare(document, sizeof document, number,
         sizeof number),
         (int)vizhoniku_document_compare(number, sizeof number, number, 2),
         (int)vizhoniku_document_compare(null, sizeof null, number, sizeof number),
         (int)vizhoniku_document_compare(NULL, 0, NULL, 0));
  status = vizhoniku_document_part(document, sizeof document, BYTES("/a"), out, sizeof out, &size);
  print_key("part", status, out, size);
  status = vizhoniku_document_part(document, sizeof document, BYTES("/a/1"), out, sizeof out, &size);
  print_key("no part", status, out, size);
  status = vizhoniku_document_range(document, sizeof document, 5, 2, out, sizeof out, &size);
  print_key("range", status, out, size);
  status = vizhoniku_document_range(document, sizeof document, 5, 6, out, sizeof out, &size);
  print_key("no range", status, out, size);
  status = vizhoniku_document_set(document, sizeof document, BYTES("/a/0"), number, sizeof number, 0, out, sizeof out,
                                  &size);
  print_key("set", status, out, size);
  status = vizhoniku_document_set(document, sizeof document, BYTES("/b"), number, sizeof number, 0, out, sizeof out,
                                  &size);
  print_key("not added", status, out, size);
  status = vizhoniku_document_set(document, sizeof document, BYTES("/b"), number, sizeof number, 1, out, 20, &size);
  print_key("too short", status, out, size);
  status = vizhoniku_document_remove(document, sizeof document, BYTES("/a/-1"), out, sizeof out, &size);
  print_key("removed", status, out, size);
  status = vizhoniku_document_remove(document, sizeof document, BYTES("a"), out, sizeof out, &size);
  print_key("no path", status, out, size);
  status = vizhoniku_document_put(document, sizeof document, BYTES(""), number, sizeof number, out, sizeof out, &size);
  print_key("put", status, out, size);
  status = vizhoniku_document_put(document, sizeof document, BYTES("\xC3"), number, sizeof number, out, sizeof out,
                                  &size);
  print_key("no name", status, out, size);
  status = vizhoniku_document_push(array, sizeof array, number, sizeof number, out, sizeof out, &size);
  print_key("pushed", status, out, size);
  status = vizhoniku_document_push(number, sizeof number, number, sizeof number, out, sizeof out, &size);
  print_key("not pushed", status, out, size);
  status = vizhoniku_document_insert(document, sizeof document, BYTES("/a/0"), number, sizeof number, 0, out,
                                     sizeof out, &size);
  print_key("inserted", status, out, size);
  status = vizhoniku_document_insert(document, sizeof document, BYTES("/a/-1"), number, sizeof number, 1, out,
                                     sizeof out, &size);
  print_key("inserted behind", status, out, size);
  status = vizhoniku_document_insert(document, sizeof document, BYTES("/a/-3"), null, sizeof null, 1, out, sizeof out,
                                     &size);
  print_key("inserted in front", status, out, size);
  status = vizhoniku_document_insert(document, sizeof document, BYTES("/b"), null, sizeof null, 0, out, sizeof out,
                                     &size);
  print_key("a member inserted", status, out, size);
  status = vizhoniku_document_insert(document, sizeof document, BYTES("/a"), null, sizeof null, 0, out, sizeof out,
                                     &size);
  print_key("present", status, out, size);
  status = vizhoniku_document_insert(document, sizeof document, BYTES("/a/x"), null, sizeof null, 0, out, sizeof out,
                                     &size);
  print_key("not inserted", status, out, size);
  status = vizhoniku_document_merge(number, sizeof number, document, sizeof document, out, sizeof out, &size);
  print_key("merged", status, out, size);
  leave_out(out, sizeof out);
  status = vizhoniku_document_part(NULL, 0, NULL, 0, NULL, 0, &size);
  print_key("null part", status, out, size);
  status = vizhoniku_document_range(NULL, 0, 0, 0, NULL, 0, &size);
  print_key("null range", status, out, size);
  status = vizhoniku_document_set(NULL, 0, NULL, 0, NULL, 0, 0, NULL, 0, &size);
  print_key("null set", status, out, size);
  status = vizhoniku_document_remove(NULL, 0, NULL, 0, NULL, 0, &size);
  print_key("null removed", status, out, size);
  status = vizhoniku_document_put(NULL, 0, NULL, 0, NULL, 0, NULL, 0, &size);
  print_key("null put", status, out, size);
  status = vizhoniku_document_push(NULL, 0, NULL, 0, NULL, 0, &size);
  print_key("null pushed", status, out, size);
  status = vizhoniku_document_insert(NULL, 0, NULL, 0, NULL, 0, 0, NULL, 0, &size);
  print_key("null inserted", status, out, size);
  status = vizhoniku_document_merge(NULL, 0, NULL, 0, NULL, 0, &size);
  print_key("null merged", status, out, size);
  status = vizhoniku_document_without(NULL, 0, NULL, 0, NULL, 0, &size);
  print_key("null without", status, out, size);
  status = vizhoniku_document_strip_nulls(NULL, 0, 0, NULL, 0, &size);
  print_key("null stripped", status, out, size);
}

/* The parts of documents one after the other: of [1.50,null,2.0], and of {"a":[1.50]}. */
static void walk_documents(void) {
  static const unsigned char array[] = {0xD2, 0xA1, 0x1E, 0xD3, 0xA1, 0x28, 0, 1, 1, 2, 1, 4, 0xFF};
  static const unsigned char object[] = {0xD1, 'a', 0, 1, 0xD2, 0xA1, 0x1E, 0, 0, 0, 5, 1, 2, 0xFF};
  unsigned char out[40];
  size_t size = 99;
  struct vizhoniku_document_cursor cursor;
  struct vizhoniku_key_entry entry;
  uint32_t status = vizhoniku_document_begin(array, sizeof array, &cursor);
  printf("begin: %u kind %u offset %zu\n", (unsigned)status, (unsigned)cursor.parts.kind, cursor.parts.offset);
  for (int part = 0; part < 4; part++) {
    size_t capacity = part == 2 ? 5 : sizeof out;
    status = vizhoniku_document_next(array, sizeof array, &cursor, &entry, out, capacity, &size);
    if (part == 2) {
      printf("too short: %u size %zu, cursor %zu\n", (unsigned)status, size, cursor.parts.offset);
      status = vizhoniku_document_next(array, sizeof array, &cursor, &entry, out, size, &size);
    }
    print_key("next", status, out, size);
    printf("value %zu %zu, cursor %zu\n", entry.offset, entry.size, cursor.parts.offset);
  }
  status = vizhoniku_document_begin(object, sizeof object, &cursor);
  printf("begin: %u kind %u offset %zu\n", (unsigned)status, (unsigned)cursor.parts.kind, cursor.parts.offset);
  status = vizhoniku_document_next(object, sizeof object, &cursor, &entry, out, sizeof out, &size);
  print_key("next", status, out, size);
  printf("name %zu %zu, value %zu %zu\n", entry.name_offset, entry.name_size, entry.offset, entry.size);
  status = vizhoniku_document_next(object, sizeof object, &cursor, &entry, out, sizeof out, &size);
  print_key("end", status, out, size);
  status = vizhoniku_document_begin(array + 1, 2, &cursor);
  printf("begin of a number: %u kind %u\n", (unsigned)status, (unsigned)cursor.parts.kind);
  status = vizhoniku_document_next(array + 1, 2, &cursor, &entry, out, sizeof out, &size);
  print_key("no cursor", status, out, size);
  status = vizhoniku_document_begin(NULL, 0, &cursor);
  printf("null begin: %u kind %u\n", (unsigned)status, (unsigned)cursor.parts.kind);
  status = vizhoniku_document_next(NULL, 0, &cursor, &entry, NULL, 0, &size);
  print_key("null next", status, out, size);
}

/* All events of {"a":[1.50,null],"b":{}}; the array passed; members by their names; and of bytes that aren't one. */
static void walk_events(void) {
  static const unsigned char document[] = {0xD1, 'a', 0, 1, 0xD2, 0xA1, 0x1E, 0xD3, 0, 'b', 0, 1, 0xD1, 0,
                                           0, 0, 0, 5, 1, 2, 0xFF};
  static const unsigned char names[][1] = {{'A'}, {'b'}, {'a'}, {'c'}};
  struct vizhoniku_walk walk;
  struct vizhoniku_event event;
  uint32_t status = vizhoniku_walk_begin(document, sizeof document, &walk, &event);
  for (; status == VIZHONIKU_ACCEPTED; status = vizhoniku_walk_next(document, sizeof document, &walk, &event))
    printf("event: kind %u name %zu %zu value %zu %zu zeros %u, walk %zu %zu\n", (unsigned)event.kind, event.name_offset,
           event.name_size, event.offset, event.size, (unsigned)event.zeros, walk.offset, walk.depth);
  printf("end: %u kind %u\n", (unsigned)status, (unsigned)event.kind);
  vizhoniku_walk_begin(document, sizeof document, &walk, &event);
  vizhoniku_walk_next(document, sizeof document, &walk, &event);
  status = vizhoniku_walk_skip(document, sizeof document, &walk);
  printf("skip: %u, walk %zu %zu", (unsigned)status, walk.offset, walk.depth);
  status = vizhoniku_walk_skip(document, sizeof document, &walk);
  printf("; again: %u, walk %zu %zu", (unsigned)status, walk.offset, walk.depth);
  printf("; nothing open: %u\n", (unsigned)vizhoniku_walk_skip(document, sizeof document, &walk));
  vizhoniku_walk_begin(document, sizeof document, &walk, &event);
  for (size_t i = 0; i < sizeof names / sizeof *names; i++) {
    status = vizhoniku_walk_member(document, sizeof document, &walk, names[i], 1);
    printf("member %c: %u, walk %zu %zu; ", *names[i], (unsigned)status, walk.offset, walk.depth);
  }
  vizhoniku_walk_next(document, sizeof document, &walk, &event);
  vizhoniku_walk_skip(document, sizeof document, &walk);
  status = vizhoniku_walk_member(document, sizeof document, &walk, names[0], 1);
  printf("nothing open: %u, walk %zu %zu\n", (unsigned)status, walk.offset, walk.depth);
  status = vizhoniku_walk_begin(document + 2, 3, &walk, &event);
  printf("no document: %u kind %u depth %zu", (unsigned)status, (unsigned)event.kind, walk.depth);
  status = vizhoniku_walk_begin(document, 5, &walk, &event);
  printf(", cut off: %u", (unsigned)status);
  while (status == VIZHONIKU_ACCEPTED) status = vizhoniku_walk_next(document, 5, &walk, &event);
  printf(" %u, null: %u", (unsigned)status, (unsigned)vizhoniku_walk_begin(NULL, 0, &walk, &event));
  printf(" %u %u %u\n", (unsigned)vizhoniku_walk_next(NULL, 0, &walk, &event),
         (unsigned)vizhoniku_walk_skip(NULL, 0, &walk), (unsigned)vizhoniku_walk_member(NULL, 0, &walk, NULL, 0));
}

/* The table of {"a":null,"b":null,"c":null,"d":"xx.."}, and members found by it. */
static void find_by_table(void) {
  static const unsigned char front[] = {0xD1, 'a', 0, 1, 0xD3, 'b', 0, 1, 0xD3, 'c', 0, 1, 0xD3, 'd', 0, 1, 0xD0};
  static const char *const names[] = {"", "a", "aa", "b", "c", "d", "dd"};
  unsigned char key[256], table[40], stored[300];
  size_t offset, size = 99, part_size;
  memset(key, 'x', sizeof key);
  memcpy(key, front, sizeof front);
  memcpy(key + sizeof key - 4, "\0\1\0", 4);
  uint32_t status = vizhoniku_table(key, sizeof key, table, sizeof table, &size);
  print_key("table", status, table, size);
  memcpy(stored, key, sizeof key);
  memcpy(stored + sizeof key, table, size);
  printf("its size: %zu, of a key %zu, null: %zu\n", vizhoniku_table_size(stored, sizeof key + size),
         vizhoniku_table_size(key, sizeof key), vizhoniku_table_size(NULL, 0));
  printf("its key: %zu\n", vizhoniku_document_key(stored, sizeof key + size));
  for (size_t i = 0; i < sizeof names / sizeof *names; i++) {
    status = vizhoniku_table_member(key, sizeof key, table, size, BYTES(names[i]), &offset, &part_size);
    printf("member %s: %u %zu %zu\n", names[i], (unsigned)status, offset, part_size);
  }
  status = vizhoniku_table_member(NULL, 0, NULL, 0, NULL, 0, &offset, &part_size);
  printf("null member: %u %zu %zu\n", (unsigned)status, offset, part_size);
  printf("check: %u, cut off: %u, null: %u\n", (unsigned)vizhoniku_table_check(key, sizeof key, table, size),
         (unsigned)vizhoniku_table_check(key, sizeof key, table, size - 1),
         (unsigned)vizhoniku_table_check(NULL, 0, NULL, 0));
  status = vizhoniku_table(key, sizeof key, table, 10, &size);
  printf("too short: %u size %zu\n", (unsigned)status, size);
  status = vizhoniku_table(key, sizeof key - 1, table, sizeof table, &size);
  print_key("a byte less", status, table, size);
  status = vizhoniku_table(front + 16, 1, table, sizeof table, &size);
  print_key("a string", status, table, size);
  status = vizhoniku_table(NULL, 0, NULL, 0, &size);
  print_key("null table", status, table, size);
}

/* Which texts are documents of each mode, in the order of their numbers. */
static void compare_modes(void) {
  static const char *const texts[] = {"[1,2]", "[1,2.5e3,\"\\u0041\"]", "1.50", "[1e39]", "", "[1,]", "{a:1}", "'a'",
                                      "[1] // one", "[01]", "[+1e1]", "[.5]", "[nan]", "\"\t\"", "1\f", "\"\\u{0041}\""};
  struct vizhoniku_error error;
  printf("modes:");
  for (size_t i = 0; i < sizeof texts / sizeof *texts; i++) {
    printf(" ");
    for (uint32_t mode = VIZHONIKU_STANDARD; mode <= VIZHONIKU_EXTENDED_JSON; mode++)
      printf("%u", (unsigned)vizhoniku_check(mode, BYTES(texts[i]), &error));
  }
  printf("\n");
}

/* Decimals from keys: 0, 0.5, -1.5, 100, 10^18, 999999999999999999, null, and none. */
static void read_decimals(void) {
  static const struct { unsigned char bytes[11]; size_t size; } keys[] = {
      {{0x80}, 1}, {{0xA0, 0x64}, 2}, {{0x5E, 0xE1}, 2}, {{0xA3, 0x14}, 2}, {{0xB3, 0x14}, 2},
      {{0xB2, 0xC7, 0xC7, 0xC7, 0xC7, 0xC7, 0xC7, 0xC7, 0xC7, 0xC6}, 10}, {{0xD3}, 1}, {{0}, 0}};
  int64_t digits = 99;
  uint32_t scale = 99;
  printf("decimals:");
  for (size_t i = 0; i < sizeof keys / sizeof *keys; i++) {
    uint32_t status = vizhoniku_key_decimal(keys[i].bytes, keys[i].size, &digits, &scale);
    printf(" %u %lld %u", (unsigned)status, (long long)digits, (unsigned)scale);
  }
  printf(", null: %u\n", (unsigned)vizhoniku_key_decimal(NULL, 0, &digits, &scale));
}

/* Integers from keys, and keys of integers. */
static void pass_integers(void) {
  static const int64_t integers[] = {0, -1, 1500, INT64_MAX, INT64_MIN};
  static const unsigned char half[] = {0xA0, 0x64}, null[] = {0xD3};
  static const unsigned char above[] = {0xB3, 0xB9, 0x2F, 0x4B, 0x29, 0x49, 0xAB, 0x5F, 0x97, 0xA1, 0xA0};
  unsigned char out[40];
  int64_t value = 99;
  size_t size = 99;
  uint32_t status;
  for (size_t i = 0; i < sizeof integers / sizeof *integers; i++) {
    status = vizhoniku_key_of_integer(integers[i], out, sizeof out, &size);
    print_key("integer", status, out, size);
    status = vizhoniku_key_integer(out, size, &value);
    printf("back: %u %d\n", (unsigned)status, value == integers[i]);
  }
  status = vizhoniku_key_of_integer(1500, out, 1, &size);
  print_key("too short", status, out, size);
  status = vizhoniku_key_integer(half, sizeof half, &value);
  printf("half: %u %d", (unsigned)status, (int)value);
  status = vizhoniku_key_integer(above, sizeof above, &value);
  printf(", above: %u %d", (unsigned)status, (int)value);
  status = vizhoniku_key_integer(null, sizeof null, &value);
  printf(", no number: %u %d", (unsigned)status, (int)value);
  status = vizhoniku_key_integer(NULL, 0, &value);
  printf(", null: %u %d\n", (unsigned)status, (int)value);
}

/* Booleans, integers, keys of strings, steps of paths, and what is wrong with a text, without its offset. */
static void pass_scalars(void) {
  static const unsigned char yes[] = {0x16}, no[] = {0x15}, null[] = {0xD3}, text[] = {'a', 0, 'b'};
  unsigned char out[40];
  uint32_t value = 99, status = vizhoniku_key_boolean(yes, sizeof yes, &value);
  size_t size = 99;
  printf("boolean: %u %u", (unsigned)status, (unsigned)value);
  status = vizhoniku_key_boolean(no, sizeof no, &value);
  printf(", %u %u", (unsigned)status, (unsigned)value);
  status = vizhoniku_key_boolean(null, sizeof null, &value);
  printf(", %u %u", (unsigned)status, (unsigned)value);
  status = vizhoniku_key_boolean(NULL, 0, &value);
  printf(", %u %u\n", (unsigned)status, (unsigned)value);
  pass_integers();
  read_decimals();
  status = vizhoniku_key_of_string(text, sizeof text, out, sizeof out, &size);
  print_key("string", status, out, size);
  status = vizhoniku_key_of_string(text, sizeof text, out, 6, &size);
  print_key("too short", status, out, size);
  status = vizhoniku_key_of_string(NULL, 0, out, sizeof out, &size);
  print_key("null string", status, out, size);
  status = vizhoniku_key_of_string(BYTES("\xC3"), out, sizeof out, &size);
  print_key("no text", status, out, size);
  status = vizhoniku_path_step(BYTES("a/~b"), out, sizeof out, &size);
  print_key("step", status, out, size);
  status = vizhoniku_path_step(BYTES("a/~b"), out, 6, &size);
  print_key("too short", status, out, size);
  status = vizhoniku_path_step(NULL, 0, out, sizeof out, &size);
  print_key("null step", status, out, size);
  status = vizhoniku_path_step(BYTES("\xC3"), out, sizeof out, &size);
  print_key("no name", status, out, size);
  status = vizhoniku_reason(VIZHONIKU_STANDARD, BYTES("[1 2]"), out, sizeof out, &size);
  printf("reason: %u %.*s\n", (unsigned)status, (int)size, (const char *)out);
  status = vizhoniku_reason(VIZHONIKU_STANDARD, BYTES("{\"a\":1,\"a\":2}"), out, sizeof out, &size);
  printf("reason: %u %.*s\n", (unsigned)status, (int)size, (const char *)out);
  status = vizhoniku_reason(VIZHONIKU_STANDARD, BYTES("[1 2]"), out, 18, &size);
  printf("too short: %u %zu", (unsigned)status, size);
  status = vizhoniku_reason(VIZHONIKU_STANDARD, BYTES("[1,2]"), out, sizeof out, &size);
  printf(", a document: %u %zu", (unsigned)status, size);
  status = vizhoniku_reason(4, BYTES("[1 2]"), out, sizeof out, &size);
  printf(", no mode: %u %zu", (unsigned)status, size);
  status = vizhoniku_reason(VIZHONIKU_STANDARD, NULL, 0, NULL, 0, &size);
  printf(", null: %u %zu\n", (unsigned)status, size);
}

int main(void) {
  check(VIZHONIKU_STANDARD, "[null]");
  check(VIZHONIKU_STANDARD, "{\"a\":1,\"a\":2}");
  check(4, "[null]");

  write_text(VIZHONIKU_EXTENDED, "[ 1, a ]", 12);
  write_text(VIZHONIKU_EXTENDED, "[ 1, +2 ]", 12);
  write_text(VIZHONIKU_EXTENDED, "[ 1, +2 ]", 5);
  write_text(VIZHONIKU_EXTENDED, "[ 1, +2 ]", 4);
  write_text(VIZHONIKU_EXTENDED, "[ 1, +2 ]", 0);
  write_text(4294967295, "[ 1, +2 ]", 12);

  compare(VIZHONIKU_STANDARD, "[1]", "[1,0]");
  compare(VIZHONIKU_STANDARD, "{}", "[");
  compare(VIZHONIKU_STANDARD, "]", "[");
  compare(4, "1", "2");

  write_part(VIZHONIKU_EXTENDED, "", "{a: [+1]}", 12);
  write_part(VIZHONIKU_EXTENDED, "/a/0", "{a: [+1]}", 12);
  write_part(VIZHONIKU_EXTENDED, "/a/0", "{a: [+1]}", 0);
  write_part(VIZHONIKU_EXTENDED, "/a/1", "{a: [+1]}", 12);
  write_part(VIZHONIKU_EXTENDED, "a", "{a: [+1]}", 12);
  write_part(VIZHONIKU_EXTENDED, "a", "{a: [+1", 12);
  write_part(4, "", "[]", 12);

  write_sort_key(VIZHONIKU_EXTENDED, "[1]", 12);
  write_sort_key(VIZHONIKU_EXTENDED, "[1]", 0);
  write_sort_key(VIZHONIKU_EXTENDED, "[1", 12);

  write_both(VIZHONIKU_EXTENDED, "[ 1, +2 ]", 12, 12);
  write_both(VIZHONIKU_EXTENDED, "[ 1, +2 ]", 5, 6);
  write_both(VIZHONIKU_EXTENDED, "[ 1, +2 ]", 4, 12);
  write_both(VIZHONIKU_EXTENDED, "[ 1, +2 ]", 12, 5);
  write_both(VIZHONIKU_EXTENDED, "[1", 12, 12);
  write_both(4, "1", 12, 12);

  write_lines(VIZHONIKU_EXTENDED, "[ 1, +2 ]\n{}", 12);
  write_lines(VIZHONIKU_EXTENDED, "[ 1, +2 ]\r\n{}\n", 9);
  write_lines(VIZHONIKU_EXTENDED, "[ 1, +2 ]\n{}", 8);
  write_lines(VIZHONIKU_EXTENDED, "1\n\n2", 12);
  write_lines(VIZHONIKU_STANDARD, "1\n\n2", 12);
  write_lines(VIZHONIKU_EXTENDED, "[1]\n[ 1, a ]\n]", 12);
  write_lines(VIZHONIKU_STANDARD, "[1\n]", 12);
  write_lines(VIZHONIKU_STANDARD, "", 12);
  write_lines(4, "1", 12);

  /* {"a":[1.5,-42]} of docs/SORT_KEYS.md's format, the same with a byte more, and no bytes. */
  static const unsigned char key[] = {0xD1, 'a', 0, 1, 0xD2, 0xA1, 0x1E, 0x5D, 0xAB, 0, 0, 0, 0};
  write_key_text(key, sizeof key - 1, 14);
  write_key_text(key, sizeof key - 1, 15);
  write_key_text(key, sizeof key, 16);
  write_key_text(key, 0, 16);

  write_zeros("[1.5,2,\"3.0\",4]", (const unsigned char *)"\0\1\1\3", 4, 40);
  write_zeros("[1.5,2,\"3.0\",4]", (const unsigned char *)"\0\1\1\3", 4, 3);
  write_zeros("[1,2]", (const unsigned char *)"\2\1", 2, 40);
  write_path(VIZHONIKU_EXTENDED_JSON, "{'values': [1e2, 1e400]}", 40);
  write_path(VIZHONIKU_JSON, "{\"values\": [1e2, 'x']}", 40);
  write_path(VIZHONIKU_STANDARD, "{\"a/b\":{\"c\":1,\"c\":2}}", 40);
  write_path(VIZHONIKU_STANDARD, "[1, x]", 1);
  write_path(9, "1", 40);
  count_characters();
  make_key("{a: [1.50, {b: 2}], c: 3}");

  pass_null(VIZHONIKU_STANDARD);
  pass_null(VIZHONIKU_EXTENDED);
  pass_null(VIZHONIKU_JSON);
  pass_null(VIZHONIKU_EXTENDED_JSON);
  pass_null(4);

  find_parts();
  contain("{a: [1, {b: 2}], c: null}", "{a: [{b: 2.0}]}");
  contain("{a: 1, c: null}", "{b: null}");
  contain("[[1]]", "[1]");
  contain("[1.0]", "1");
  pass_null_keys();
  change_keys();
  change_documents();
  walk_documents();
  walk_events();
  find_by_table();
  compare_modes();
  pass_scalars();

  printf("version: %u\n", (unsigned)vizhoniku_version());
  return 0;
}
