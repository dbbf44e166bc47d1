/* Calls a function of the library over the sort key, or the document, of the text on standard input: growth FUNCTION
 * [PATH [key]], where a part is put at the path that has zeros, or with the last word none; growth document_without
 * leaves out all members by their names, or of an array the items of its second item that its first one names; or over
 * the text: growth check as JSON, growth text, growth sort_key and growth document as extended JSON, which may reject
 * it, growth lines, and growth error_path for a text that extended JSON rejects; growth document_next over all parts
 * of the text's document, growth walk_next over all its events, growth walk_member to each of its names, one after the
 * other, growth document_text for the text of it, and growth text_with_zeros with one zero for each number before a
 * comma. The status is the one that the call returns, and 0 where the parts have ended. tests/growth counts the
 * instructions of it. */
#include <stdio.h>
#include <stdlib.h>
#include <string.h>

#include "vizhoniku.h"

#define ROOM (1 << 22)

static const unsigned char null_key[] = {0xD3};

/* The document of 1.50. */
static const unsigned char with_zero[] = {0xA1, 0x1E, 0, 1, 2, 0xFF};

static unsigned char text[ROOM], key[ROOM], buffer[ROOM];

int main(int count, char **words) {
  if (count < 2) return 2;
  size_t text_size = fread(text, 1, ROOM, stdin), key_size, size;
  struct vizhoniku_error error;
  if (!strcmp(words[1], "check"))
    return vizhoniku_check(VIZHONIKU_JSON, text, text_size, &error) == VIZHONIKU_OUT_OF_MEMORY;
  if (!strcmp(words[1], "text"))
    return vizhoniku_text(VIZHONIKU_EXTENDED_JSON, text, text_size, buffer, ROOM, &size, &error) > VIZHONIKU_REJECTED;
  if (!strcmp(words[1], "sort_key"))
    return vizhoniku_sort_key(VIZHONIKU_EXTENDED_JSON, text, text_size, key, ROOM, &size, &error) > VIZHONIKU_REJECTED;
  if (!strcmp(words[1], "document"))
    return vizhoniku_document(VIZHONIKU_EXTENDED_JSON, text, text_size, key, ROOM, &size, &error) > VIZHONIKU_REJECTED;
  if (!strcmp(words[1], "lines")) {
    size_t start;
    return (int)vizhoniku_lines(VIZHONIKU_STANDARD, text, text_size, buffer, ROOM, &size, &start, &error);
  }
  if (!strcmp(words[1], "text_with_zeros")) {
    key_size = 0;
    for (size_t at = 0; at < text_size; at++) {
      if (text[at] != ',') continue;
      key[key_size++] = 0;
      key[key_size++] = 1;
    }
    return (int)vizhoniku_text_with_zeros(text, text_size, key, key_size, buffer, ROOM, &size);
  }
  if (!strcmp(words[1], "error_path")) {
    if (vizhoniku_check(VIZHONIKU_EXTENDED_JSON, text, text_size, &error) != VIZHONIKU_REJECTED) return 2;
    return (int)vizhoniku_error_path(VIZHONIKU_EXTENDED_JSON, text, text_size, &error, buffer, ROOM, &size);
  }
  if (!strcmp(words[1], "document_next")) {
    struct vizhoniku_document_cursor cursor;
    struct vizhoniku_key_entry entry;
    if (vizhoniku_document(VIZHONIKU_EXTENDED, text, text_size, key, ROOM, &key_size, &error)) return 2;
    uint32_t status = vizhoniku_document_begin(key, key_size, &cursor);
    while (status == VIZHONIKU_ACCEPTED)
      status = vizhoniku_document_next(key, key_size, &cursor, &entry, buffer, ROOM, &size);
    return status == VIZHONIKU_NO_PART ? 0 : 2;
  }
  if (!strcmp(words[1], "walk_next")) {
    struct vizhoniku_walk walk;
    struct vizhoniku_event event;
    if (vizhoniku_document(VIZHONIKU_EXTENDED, text, text_size, key, ROOM, &key_size, &error)) return 2;
    uint32_t status = vizhoniku_walk_begin(key, key_size, &walk, &event);
    while (status == VIZHONIKU_ACCEPTED) status = vizhoniku_walk_next(key, key_size, &walk, &event);
    return status == VIZHONIKU_NO_PART ? 0 : 2;
  }
  if (!strcmp(words[1], "walk_member")) {
    struct vizhoniku_walk walk, ahead;
    struct vizhoniku_event event;
    if (vizhoniku_document(VIZHONIKU_EXTENDED, text, text_size, key, ROOM, &key_size, &error)) return 2;
    if (vizhoniku_walk_begin(key, key_size, &walk, &event)) return 2;
    for (ahead = walk; !vizhoniku_walk_next(key, key_size, &ahead, &event);) {
      if (!event.name_size) continue;
      if (vizhoniku_key_name(key + event.name_offset, event.name_size, buffer, ROOM, &size)) return 2;
      vizhoniku_walk_member(key, key_size, &walk, buffer, size);
    }
    return 0;
  }
  if (!strncmp(words[1], "document_", 9) && count < 3) {
    if (vizhoniku_document(VIZHONIKU_EXTENDED, text, text_size, key, ROOM, &key_size, &error)) return 2;
  } else if (vizhoniku_sort_key(VIZHONIKU_STANDARD, text, text_size, key, ROOM, &key_size, &error)) {
    return 2;
  }
  if (!strcmp(words[1], "key_count")) return (int)vizhoniku_key_count(key, key_size, &size);
  if (!strcmp(words[1], "document_text")) return (int)vizhoniku_document_text(key, key_size, buffer, ROOM, &size);
  if (!strcmp(words[1], "document_without")) {
    size_t names = 0, items = 0, names_size, items_size;
    if (vizhoniku_key_part(key, key_size, (const unsigned char *)"/0", 2, &names, &names_size) ||
        vizhoniku_key_part(key, key_size, (const unsigned char *)"/1", 2, &items, &items_size))
      names = items = 0, names_size = items_size = key_size;
    return (int)vizhoniku_document_without(key + items, items_size, key + names, names_size, buffer, ROOM, &size);
  }
  if (!strcmp(words[1], "document_strip_nulls"))
    return (int)vizhoniku_document_strip_nulls(key, key_size, 1, buffer, ROOM, &size);
  if (count < 3) return 2;
  const unsigned char *path = (const unsigned char *)words[2];
  size_t path_size = strlen(words[2]);
  const unsigned char *part = count > 3 ? null_key : with_zero;
  size_t part_size = count > 3 ? sizeof null_key : sizeof with_zero;
  if (!strcmp(words[1], "document_insert"))
    return (int)vizhoniku_document_insert(key, key_size, path, path_size, part, part_size, 0, buffer, ROOM, &size);
  uint32_t status = vizhoniku_document_set(key, key_size, path, path_size, part, part_size, 0, buffer, ROOM, &size);
  if (!strcmp(words[1], "document_set")) return (int)status;
  if (status) return 2;
  return (int)vizhoniku_document_remove(buffer, size, path, path_size, key, ROOM, &key_size);
}
