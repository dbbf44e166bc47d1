/* Refuses memory to each function of the library, one request after the other, and counts what is kept after a call.
 *
 * The linker puts the three functions below instead of the C library's (--wrap). The status is 1 where a call kept
 * memory, or answered neither as with ample memory nor VIZHONIKU_OUT_OF_MEMORY. */
#include <stdint.h>
#include <stdio.h>
#include <stdlib.h>
#include <string.h>

#include "vizhoniku.h"

void *__real_malloc(size_t size);
void *__real_realloc(void *block, size_t size);
void __real_free(void *block);

/* Blocks that are held, requests since the call began, and which of them is rejected, from 0 on, or -1. */
static long held, asked, failed;

void *__wrap_malloc(size_t size) {
  if (asked++ == failed) return NULL;
  void *block = __real_malloc(size);
  if (block) held++;
  return block;
}

void *__wrap_realloc(void *block, size_t size) {
  if (asked++ == failed) return NULL;
  void *grown = __real_realloc(block, size);
  if (grown && !block) held++;
  return grown;
}

void __wrap_free(void *block) {
  if (block) held--;
  __real_free(block);
}

static const char *const texts[] = {
    "{\"a\":[1,2,\"x\\n\",{\"b\":[]}],"
    "\"c\":{\"d\":1,\"e\":2,\"f\":3,\"g\":4,\"h\":5,\"i\":6,\"j\":7,\"k\":[[[\"\\u0041\"]]]}}",
    "[1,[2,[3,\"\\u0041\",{\"a\":1,\"b\":[\"\\n\"]}]],x]",
    "{\"a\":1,\"b\":{\"c\":[\"\\t\"]},\"a\":2}",
    "{a:0x1F, /* x */ b:[,+.5,'\\'']} // end",
    "[1.5,\"\\q\"]",
    "{\"b\":[\"\\t\"],\"a\":[{}]}\n[{\"\\u0041\":1}]\n[[2]]\n",
    "[[[[",
    "\"\\u0041\"",
    "1",
    "",
};

/* Each function of the library that takes memory, by a number below this one. */
#define FUNCTIONS 35

static uint32_t call(int which, uint32_t mode, const unsigned char *text, size_t text_size, size_t capacity) {
  static const unsigned char path[] = {'/', 'c', '/', 'k'};
  static const unsigned char key[] = {0xD2, 0xD0, 'a', '\n', 0, 1, 0xA1, 0x1E, 0xD1, 0, 0, 0};
  static const unsigned char object_key[] = {0xD1, 'c', 0, 1, 0xD1, 'k', 0, 1, 0xD3, 0, 0, 0, 0};
  static const unsigned char document[] = {0xD1, 'c', 0, 1, 0xD2, 0xA1, 0x1E, 0, 0, 0, 5, 1, 2, 0xFF};
  static unsigned char table_key[300] = {0xD1, 'a', 0, 1, 0xD3, 'b', 0, 1, 0xD3, 'c', 0, 1, 0xD3, 'd', 0, 1, 0xD0};
  static const unsigned char shortest[] = "[1.5,2,4,5]", zeros[] = {0, 1, 1, 3, 0, 1};
  unsigned char buffer[400], key_buffer[400];
  struct vizhoniku_error error;
  struct vizhoniku_document_cursor cursor;
  struct vizhoniku_key_entry entry;
  size_t size, key_size;
  int32_t order;
  switch (which) {
    case 0: return vizhoniku_check(mode, text, text_size, &error);
    case 1: return vizhoniku_text(mode, text, text_size, buffer, capacity, &size, &error);
    case 2: return vizhoniku_sort_key(mode, text, text_size, buffer, capacity, &size, &error);
    case 3: return vizhoniku_part(mode, path, sizeof path, text, text_size, buffer, capacity, &size, &error);
    case 4: return vizhoniku_message(mode, text, text_size, buffer, capacity, &size);
    case 5:
      return vizhoniku_text_and_key(mode, text, text_size, buffer, capacity, &size, key_buffer, capacity, &key_size,
                                    &error);
    case 6: return vizhoniku_key_text(key, sizeof key, buffer, capacity, &size);
    case 7: return vizhoniku_key_part(object_key, sizeof object_key, path, sizeof path, &size, &key_size);
    case 8:
      return vizhoniku_document_set(object_key, sizeof object_key, path, sizeof path, key, sizeof key, 1, buffer,
                                    capacity, &size);
    case 9: return vizhoniku_document_remove(object_key, sizeof object_key, path, sizeof path, buffer, capacity, &size);
    case 10: return vizhoniku_document_merge(object_key, sizeof object_key, key, sizeof key, buffer, capacity, &size);
    case 12:
      return vizhoniku_document_put(object_key, sizeof object_key, path, 2, key, sizeof key, buffer, capacity, &size);
    case 14:
      return vizhoniku_text_with_zeros(shortest, sizeof shortest - 1, zeros, sizeof zeros, buffer, capacity, &size);
    case 13: return vizhoniku_document_push(key, sizeof key, key, sizeof key, buffer, capacity, &size);
    case 11:
      return vizhoniku_document_merge(object_key, sizeof object_key, object_key, sizeof object_key, buffer, capacity,
                                      &size);
    case 15: return vizhoniku_reason(mode, text, text_size, buffer, capacity, &size);
    case 16: return vizhoniku_key_of_string(key + 2, 2, buffer, capacity, &size);
    case 17: return vizhoniku_path_step(path, sizeof path, buffer, capacity, &size);
    case 18:
      return vizhoniku_document_part(document, sizeof document, path, 2, buffer, capacity, &size);
    case 19: return vizhoniku_document_range(document, sizeof document, 5, 2, buffer, capacity, &size);
    case 20:
      return vizhoniku_document_set(document, sizeof document, path, sizeof path, document, sizeof document, 1, buffer,
                                    capacity, &size);
    case 21: return vizhoniku_document_remove(document, sizeof document, path, 2, buffer, capacity, &size);
    case 22:
      return vizhoniku_document_put(document, sizeof document, path, 2, document, sizeof document, buffer, capacity,
                                    &size);
    case 23:
      return vizhoniku_document_merge(document, sizeof document, document, sizeof document, buffer, capacity, &size);
    case 24: return vizhoniku_document(mode, text, text_size, buffer, capacity, &size, &error);
    case 25: return vizhoniku_document_text(document, sizeof document, buffer, capacity, &size);
    case 26: return vizhoniku_document_check(document, sizeof document);
    case 27:
      if (vizhoniku_document_begin(document, sizeof document, &cursor)) return VIZHONIKU_NO_DOCUMENT;
      return vizhoniku_document_next(document, sizeof document, &cursor, &entry, buffer, capacity, &size);
    case 28: return vizhoniku_key_of_integer(-1500, buffer, capacity, &size);
    case 29:
      return vizhoniku_document_without(object_key, sizeof object_key, document, sizeof document, buffer, capacity, &size);
    case 30: return vizhoniku_document_strip_nulls(document, sizeof document, 1, buffer, capacity, &size);
    case 31:
      return vizhoniku_document_insert(document, sizeof document, path, sizeof path, document, sizeof document, 0,
                                       buffer, capacity, &size);
    case 32:
      memset(table_key + 17, 'x', sizeof table_key - 21);
      memcpy(table_key + sizeof table_key - 4, "\0\1\0", 4);
      return vizhoniku_table(table_key, sizeof table_key, buffer, capacity, &size);
    case 33: return vizhoniku_lines(mode, text, text_size, buffer, capacity, &size, &key_size, &error);
    default: return vizhoniku_compare(mode, text, text_size, text, text_size, &order, &error);
  }
}

int main(void) {
  long kept = 0, wrong = 0;
  for (size_t i = 0; i < 2 * 2 * FUNCTIONS * (sizeof texts / sizeof *texts); i++) {
    const unsigned char *text = (const unsigned char *)texts[i / (4 * FUNCTIONS)];
    size_t text_size = strlen(texts[i / (4 * FUNCTIONS)]), capacity = i % 2 ? 400 : 3;
    int which = (int)(i / 2 % FUNCTIONS);
    uint32_t mode = (uint32_t)(i / (2 * FUNCTIONS) % 2), whole = 0;
    for (failed = -1; failed < 0 || asked >= failed; failed++) {
      long before = held;
      asked = 0;
      uint32_t status = call(which, mode, text, text_size, capacity);
      if (failed < 0) whole = status;
      if (held != before) kept++;
      if (status != whole && status != VIZHONIKU_OUT_OF_MEMORY) wrong++;
    }
  }
  printf("%ld calls kept memory, %ld answered otherwise\n", kept, wrong);
  return kept || wrong;
}
