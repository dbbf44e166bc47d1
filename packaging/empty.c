/* The functions that take bytes. Each calls the proved one of its name, with proved_ in place of vizhoniku_.
 *
 * A slice of a proved function is never at a null pointer, and a caller may have no other for an empty text or buffer.
 * So a pointer that comes with size 0 isn't passed on: the address of a byte that nothing reads or writes is.
 *
 * packaging/calls makes this file of the header. */
#include "vizhoniku.h"

uint32_t proved_check(uint32_t mode, const unsigned char *text, size_t text_size, struct vizhoniku_error *error);
uint32_t proved_text(uint32_t mode, const unsigned char *text, size_t text_size, unsigned char *buffer,
                     size_t buffer_size, size_t *size, struct vizhoniku_error *error);
uint32_t proved_part(uint32_t mode, const unsigned char *path, size_t path_size, const unsigned char *text,
                     size_t text_size, unsigned char *buffer, size_t buffer_size, size_t *size,
                     struct vizhoniku_error *error);
uint32_t proved_sort_key(uint32_t mode, const unsigned char *text, size_t text_size, unsigned char *buffer,
                         size_t buffer_size, size_t *size, struct vizhoniku_error *error);
uint32_t proved_key_text(const unsigned char *key, size_t key_size, unsigned char *buffer, size_t buffer_size,
                         size_t *size);
uint32_t proved_text_and_key(uint32_t mode, const unsigned char *text, size_t text_size, unsigned char *buffer,
                             size_t buffer_size, size_t *size, unsigned char *key_buffer, size_t key_buffer_size,
                             size_t *key_size, struct vizhoniku_error *error);
uint32_t proved_lines(uint32_t mode, const unsigned char *text, size_t text_size, unsigned char *buffer,
                      size_t buffer_size, size_t *size, size_t *start, struct vizhoniku_error *error);
uint32_t proved_compare(uint32_t mode, const unsigned char *left, size_t left_size, const unsigned char *right,
                        size_t right_size, int32_t *order, struct vizhoniku_error *error);
void proved_locate(const unsigned char *text, size_t text_size, const struct vizhoniku_error *error,
                   struct vizhoniku_location *location);
size_t proved_character(const unsigned char *text, size_t text_size, size_t first, size_t index);
uint32_t proved_message(uint32_t mode, const unsigned char *text, size_t text_size, unsigned char *buffer,
                        size_t buffer_size, size_t *size);
uint32_t proved_reason(uint32_t mode, const unsigned char *text, size_t text_size, unsigned char *buffer,
                       size_t buffer_size, size_t *size);
uint32_t proved_key_check(const unsigned char *key, size_t key_size);
uint32_t proved_key_kind(const unsigned char *key, size_t key_size);
uint32_t proved_key_count(const unsigned char *key, size_t key_size, size_t *count);
uint32_t proved_key_member(const unsigned char *key, size_t key_size, const unsigned char *name, size_t name_size,
                           size_t *offset, size_t *size);
uint32_t proved_key_item(const unsigned char *key, size_t key_size, int64_t index, size_t *offset, size_t *size);
uint32_t proved_key_part(const unsigned char *key, size_t key_size, const unsigned char *path, size_t path_size,
                         size_t *offset, size_t *size);
uint32_t proved_key_begin(const unsigned char *key, size_t key_size, struct vizhoniku_key_cursor *cursor);
uint32_t proved_key_next(const unsigned char *key, size_t key_size, struct vizhoniku_key_cursor *cursor,
                         struct vizhoniku_key_entry *entry);
uint32_t proved_key_string(const unsigned char *key, size_t key_size, unsigned char *buffer, size_t buffer_size,
                           size_t *size);
uint32_t proved_key_name(const unsigned char *name, size_t name_size, unsigned char *buffer, size_t buffer_size,
                         size_t *size);
uint32_t proved_key_boolean(const unsigned char *key, size_t key_size, uint32_t *value);
uint32_t proved_key_integer(const unsigned char *key, size_t key_size, int64_t *value);
uint32_t proved_key_decimal(const unsigned char *key, size_t key_size, int64_t *digits, uint32_t *scale);
uint32_t proved_key_of_integer(int64_t value, unsigned char *buffer, size_t buffer_size, size_t *size);
uint32_t proved_key_of_string(const unsigned char *text, size_t text_size, unsigned char *buffer, size_t buffer_size,
                              size_t *size);
uint32_t proved_path_step(const unsigned char *name, size_t name_size, unsigned char *buffer, size_t buffer_size,
                          size_t *size);
uint32_t proved_key_contains(const unsigned char *key, size_t key_size, const unsigned char *other, size_t other_size);
uint32_t proved_text_with_zeros(const unsigned char *text, size_t text_size, const unsigned char *zeros,
                                size_t zeros_size, unsigned char *buffer, size_t buffer_size, size_t *size);
uint32_t proved_document(uint32_t mode, const unsigned char *text, size_t text_size, unsigned char *buffer,
                         size_t buffer_size, size_t *size, struct vizhoniku_error *error);
uint32_t proved_document_check(const unsigned char *document, size_t document_size);
uint32_t proved_document_text(const unsigned char *document, size_t document_size, unsigned char *buffer,
                              size_t buffer_size, size_t *size);
size_t proved_document_key(const unsigned char *document, size_t document_size);
int32_t proved_document_compare(const unsigned char *left, size_t left_size, const unsigned char *right,
                                size_t right_size);
uint32_t proved_document_part(const unsigned char *document, size_t document_size, const unsigned char *path,
                              size_t path_size, unsigned char *buffer, size_t buffer_size, size_t *size);
uint32_t proved_document_range(const unsigned char *document, size_t document_size, size_t offset, size_t part_size,
                               unsigned char *buffer, size_t buffer_size, size_t *size);
uint32_t proved_document_begin(const unsigned char *document, size_t document_size,
                               struct vizhoniku_document_cursor *cursor);
uint32_t proved_document_next(const unsigned char *document, size_t document_size,
                              struct vizhoniku_document_cursor *cursor, struct vizhoniku_key_entry *entry,
                              unsigned char *buffer, size_t buffer_size, size_t *size);
uint32_t proved_walk_begin(const unsigned char *document, size_t document_size, struct vizhoniku_walk *walk,
                           struct vizhoniku_event *event);
uint32_t proved_walk_next(const unsigned char *document, size_t document_size, struct vizhoniku_walk *walk,
                          struct vizhoniku_event *event);
uint32_t proved_walk_skip(const unsigned char *document, size_t document_size, struct vizhoniku_walk *walk);
uint32_t proved_walk_member(const unsigned char *document, size_t document_size, struct vizhoniku_walk *walk,
                            const unsigned char *name, size_t name_size);
uint32_t proved_document_set(const unsigned char *document, size_t document_size, const unsigned char *path,
                             size_t path_size, const unsigned char *part, size_t part_size, uint32_t create,
                             unsigned char *buffer, size_t buffer_size, size_t *size);
uint32_t proved_document_remove(const unsigned char *document, size_t document_size, const unsigned char *path,
                                size_t path_size, unsigned char *buffer, size_t buffer_size, size_t *size);
uint32_t proved_document_put(const unsigned char *document, size_t document_size, const unsigned char *name,
                             size_t name_size, const unsigned char *value, size_t value_size, unsigned char *buffer,
                             size_t buffer_size, size_t *size);
uint32_t proved_document_push(const unsigned char *document, size_t document_size, const unsigned char *item,
                              size_t item_size, unsigned char *buffer, size_t buffer_size, size_t *size);
uint32_t proved_document_insert(const unsigned char *document, size_t document_size, const unsigned char *path,
                                size_t path_size, const unsigned char *part, size_t part_size, uint32_t after,
                                unsigned char *buffer, size_t buffer_size, size_t *size);
uint32_t proved_document_merge(const unsigned char *left, size_t left_size, const unsigned char *right,
                               size_t right_size, unsigned char *buffer, size_t buffer_size, size_t *size);
uint32_t proved_document_without(const unsigned char *document, size_t document_size, const unsigned char *names,
                                 size_t names_size, unsigned char *buffer, size_t buffer_size, size_t *size);
uint32_t proved_document_strip_nulls(const unsigned char *document, size_t document_size, uint32_t in_arrays,
                                     unsigned char *buffer, size_t buffer_size, size_t *size);
uint32_t proved_table(const unsigned char *key, size_t key_size, unsigned char *buffer, size_t buffer_size,
                      size_t *size);
size_t proved_table_size(const unsigned char *stored, size_t stored_size);
uint32_t proved_table_member(const unsigned char *key, size_t key_size, const unsigned char *table, size_t table_size,
                             const unsigned char *name, size_t name_size, size_t *offset, size_t *size);
uint32_t proved_table_check(const unsigned char *key, size_t key_size, const unsigned char *table, size_t table_size);
uint32_t proved_error_path(uint32_t mode, const unsigned char *text, size_t text_size,
                           const struct vizhoniku_error *error, unsigned char *buffer, size_t buffer_size,
                           size_t *size);

static unsigned char none;

static const unsigned char *bytes_at(const unsigned char *bytes, size_t size) { return size ? bytes : &none; }

static unsigned char *buffer_at(unsigned char *buffer, size_t size) { return size ? buffer : &none; }

uint32_t vizhoniku_check(uint32_t mode, const unsigned char *text, size_t text_size, struct vizhoniku_error *error) {
  return proved_check(mode, bytes_at(text, text_size), text_size, error);
}

uint32_t vizhoniku_text(uint32_t mode, const unsigned char *text, size_t text_size, unsigned char *buffer,
                        size_t buffer_size, size_t *size, struct vizhoniku_error *error) {
  return proved_text(mode, bytes_at(text, text_size), text_size, buffer_at(buffer, buffer_size), buffer_size, size,
                     error);
}

uint32_t vizhoniku_part(uint32_t mode, const unsigned char *path, size_t path_size, const unsigned char *text,
                        size_t text_size, unsigned char *buffer, size_t buffer_size, size_t *size,
                        struct vizhoniku_error *error) {
  return proved_part(mode, bytes_at(path, path_size), path_size, bytes_at(text, text_size), text_size,
                     buffer_at(buffer, buffer_size), buffer_size, size, error);
}

uint32_t vizhoniku_sort_key(uint32_t mode, const unsigned char *text, size_t text_size, unsigned char *buffer,
                            size_t buffer_size, size_t *size, struct vizhoniku_error *error) {
  return proved_sort_key(mode, bytes_at(text, text_size), text_size, buffer_at(buffer, buffer_size), buffer_size, size,
                         error);
}

uint32_t vizhoniku_key_text(const unsigned char *key, size_t key_size, unsigned char *buffer, size_t buffer_size,
                            size_t *size) {
  return proved_key_text(bytes_at(key, key_size), key_size, buffer_at(buffer, buffer_size), buffer_size, size);
}

uint32_t vizhoniku_text_and_key(uint32_t mode, const unsigned char *text, size_t text_size, unsigned char *buffer,
                                size_t buffer_size, size_t *size, unsigned char *key_buffer, size_t key_buffer_size,
                                size_t *key_size, struct vizhoniku_error *error) {
  return proved_text_and_key(mode, bytes_at(text, text_size), text_size, buffer_at(buffer, buffer_size), buffer_size,
                             size, buffer_at(key_buffer, key_buffer_size), key_buffer_size, key_size, error);
}

uint32_t vizhoniku_lines(uint32_t mode, const unsigned char *text, size_t text_size, unsigned char *buffer,
                         size_t buffer_size, size_t *size, size_t *start, struct vizhoniku_error *error) {
  return proved_lines(mode, bytes_at(text, text_size), text_size, buffer_at(buffer, buffer_size), buffer_size, size,
                      start, error);
}

uint32_t vizhoniku_compare(uint32_t mode, const unsigned char *left, size_t left_size, const unsigned char *right,
                           size_t right_size, int32_t *order, struct vizhoniku_error *error) {
  return proved_compare(mode, bytes_at(left, left_size), left_size, bytes_at(right, right_size), right_size, order,
                        error);
}

void vizhoniku_locate(const unsigned char *text, size_t text_size, const struct vizhoniku_error *error,
                      struct vizhoniku_location *location) {
  proved_locate(bytes_at(text, text_size), text_size, error, location);
}

size_t vizhoniku_character(const unsigned char *text, size_t text_size, size_t first, size_t index) {
  return proved_character(bytes_at(text, text_size), text_size, first, index);
}

uint32_t vizhoniku_message(uint32_t mode, const unsigned char *text, size_t text_size, unsigned char *buffer,
                           size_t buffer_size, size_t *size) {
  return proved_message(mode, bytes_at(text, text_size), text_size, buffer_at(buffer, buffer_size), buffer_size, size);
}

uint32_t vizhoniku_reason(uint32_t mode, const unsigned char *text, size_t text_size, unsigned char *buffer,
                          size_t buffer_size, size_t *size) {
  return proved_reason(mode, bytes_at(text, text_size), text_size, buffer_at(buffer, buffer_size), buffer_size, size);
}

uint32_t vizhoniku_key_check(const unsigned char *key, size_t key_size) {
  return proved_key_check(bytes_at(key, key_size), key_size);
}

uint32_t vizhoniku_key_kind(const unsigned char *key, size_t key_size) {
  return proved_key_kind(bytes_at(key, key_size), key_size);
}

uint32_t vizhoniku_key_count(const unsigned char *key, size_t key_size, size_t *count) {
  return proved_key_count(bytes_at(key, key_size), key_size, count);
}

uint32_t vizhoniku_key_member(const unsigned char *key, size_t key_size, const unsigned char *name, size_t name_size,
                              size_t *offset, size_t *size) {
  return proved_key_member(bytes_at(key, key_size), key_size, bytes_at(name, name_size), name_size, offset, size);
}

uint32_t vizhoniku_key_item(const unsigned char *key, size_t key_size, int64_t index, size_t *offset, size_t *size) {
  return proved_key_item(bytes_at(key, key_size), key_size, index, offset, size);
}

uint32_t vizhoniku_key_part(const unsigned char *key, size_t key_size, const unsigned char *path, size_t path_size,
                            size_t *offset, size_t *size) {
  return proved_key_part(bytes_at(key, key_size), key_size, bytes_at(path, path_size), path_size, offset, size);
}

uint32_t vizhoniku_key_begin(const unsigned char *key, size_t key_size, struct vizhoniku_key_cursor *cursor) {
  return proved_key_begin(bytes_at(key, key_size), key_size, cursor);
}

uint32_t vizhoniku_key_next(const unsigned char *key, size_t key_size, struct vizhoniku_key_cursor *cursor,
                            struct vizhoniku_key_entry *entry) {
  return proved_key_next(bytes_at(key, key_size), key_size, cursor, entry);
}

uint32_t vizhoniku_key_string(const unsigned char *key, size_t key_size, unsigned char *buffer, size_t buffer_size,
                              size_t *size) {
  return proved_key_string(bytes_at(key, key_size), key_size, buffer_at(buffer, buffer_size), buffer_size, size);
}

uint32_t vizhoniku_key_name(const unsigned char *name, size_t name_size, unsigned char *buffer, size_t buffer_size,
                            size_t *size) {
  return proved_key_name(bytes_at(name, name_size), name_size, buffer_at(buffer, buffer_size), buffer_size, size);
}

uint32_t vizhoniku_key_boolean(const unsigned char *key, size_t key_size, uint32_t *value) {
  return proved_key_boolean(bytes_at(key, key_size), key_size, value);
}

uint32_t vizhoniku_key_integer(const unsigned char *key, size_t key_size, int64_t *value) {
  return proved_key_integer(bytes_at(key, key_size), key_size, value);
}

uint32_t vizhoniku_key_decimal(const unsigned char *key, size_t key_size, int64_t *digits, uint32_t *scale) {
  return proved_key_decimal(bytes_at(key, key_size), key_size, digits, scale);
}

uint32_t vizhoniku_key_of_integer(int64_t value, unsigned char *buffer, size_t buffer_size, size_t *size) {
  return proved_key_of_integer(value, buffer_at(buffer, buffer_size), buffer_size, size);
}

uint32_t vizhoniku_key_of_string(const unsigned char *text, size_t text_size, unsigned char *buffer, size_t buffer_size,
                                 size_t *size) {
  return proved_key_of_string(bytes_at(text, text_size), text_size, buffer_at(buffer, buffer_size), buffer_size, size);
}

uint32_t vizhoniku_path_step(const unsigned char *name, size_t name_size, unsigned char *buffer, size_t buffer_size,
                             size_t *size) {
  return proved_path_step(bytes_at(name, name_size), name_size, buffer_at(buffer, buffer_size), buffer_size, size);
}

uint32_t vizhoniku_key_contains(const unsigned char *key, size_t key_size, const unsigned char *other,
                                size_t other_size) {
  return proved_key_contains(bytes_at(key, key_size), key_size, bytes_at(other, other_size), other_size);
}

uint32_t vizhoniku_text_with_zeros(const unsigned char *text, size_t text_size, const unsigned char *zeros,
                                   size_t zeros_size, unsigned char *buffer, size_t buffer_size, size_t *size) {
  return proved_text_with_zeros(bytes_at(text, text_size), text_size, bytes_at(zeros, zeros_size), zeros_size,
                                buffer_at(buffer, buffer_size), buffer_size, size);
}

uint32_t vizhoniku_document(uint32_t mode, const unsigned char *text, size_t text_size, unsigned char *buffer,
                            size_t buffer_size, size_t *size, struct vizhoniku_error *error) {
  return proved_document(mode, bytes_at(text, text_size), text_size, buffer_at(buffer, buffer_size), buffer_size, size,
                         error);
}

uint32_t vizhoniku_document_check(const unsigned char *document, size_t document_size) {
  return proved_document_check(bytes_at(document, document_size), document_size);
}

uint32_t vizhoniku_document_text(const unsigned char *document, size_t document_size, unsigned char *buffer,
                                 size_t buffer_size, size_t *size) {
  return proved_document_text(bytes_at(document, document_size), document_size, buffer_at(buffer, buffer_size),
                              buffer_size, size);
}

size_t vizhoniku_document_key(const unsigned char *document, size_t document_size) {
  return proved_document_key(bytes_at(document, document_size), document_size);
}

int32_t vizhoniku_document_compare(const unsigned char *left, size_t left_size, const unsigned char *right,
                                   size_t right_size) {
  return proved_document_compare(bytes_at(left, left_size), left_size, bytes_at(right, right_size), right_size);
}

uint32_t vizhoniku_document_part(const unsigned char *document, size_t document_size, const unsigned char *path,
                                 size_t path_size, unsigned char *buffer, size_t buffer_size, size_t *size) {
  return proved_document_part(bytes_at(document, document_size), document_size, bytes_at(path, path_size), path_size,
                              buffer_at(buffer, buffer_size), buffer_size, size);
}

uint32_t vizhoniku_document_range(const unsigned char *document, size_t document_size, size_t offset, size_t part_size,
                                  unsigned char *buffer, size_t buffer_size, size_t *size) {
  return proved_document_range(bytes_at(document, document_size), document_size, offset, part_size,
                               buffer_at(buffer, buffer_size), buffer_size, size);
}

uint32_t vizhoniku_document_begin(const unsigned char *document, size_t document_size,
                                  struct vizhoniku_document_cursor *cursor) {
  return proved_document_begin(bytes_at(document, document_size), document_size, cursor);
}

uint32_t vizhoniku_document_next(const unsigned char *document, size_t document_size,
                                 struct vizhoniku_document_cursor *cursor, struct vizhoniku_key_entry *entry,
                                 unsigned char *buffer, size_t buffer_size, size_t *size) {
  return proved_document_next(bytes_at(document, document_size), document_size, cursor, entry,
                              buffer_at(buffer, buffer_size), buffer_size, size);
}

uint32_t vizhoniku_walk_begin(const unsigned char *document, size_t document_size, struct vizhoniku_walk *walk,
                              struct vizhoniku_event *event) {
  return proved_walk_begin(bytes_at(document, document_size), document_size, walk, event);
}

uint32_t vizhoniku_walk_next(const unsigned char *document, size_t document_size, struct vizhoniku_walk *walk,
                             struct vizhoniku_event *event) {
  return proved_walk_next(bytes_at(document, document_size), document_size, walk, event);
}

uint32_t vizhoniku_walk_skip(const unsigned char *document, size_t document_size, struct vizhoniku_walk *walk) {
  return proved_walk_skip(bytes_at(document, document_size), document_size, walk);
}

uint32_t vizhoniku_walk_member(const unsigned char *document, size_t document_size, struct vizhoniku_walk *walk,
                               const unsigned char *name, size_t name_size) {
  return proved_walk_member(bytes_at(document, document_size), document_size, walk, bytes_at(name, name_size),
                            name_size);
}

uint32_t vizhoniku_document_set(const unsigned char *document, size_t document_size, const unsigned char *path,
                                size_t path_size, const unsigned char *part, size_t part_size, uint32_t create,
                                unsigned char *buffer, size_t buffer_size, size_t *size) {
  return proved_document_set(bytes_at(document, document_size), document_size, bytes_at(path, path_size), path_size,
                             bytes_at(part, part_size), part_size, create, buffer_at(buffer, buffer_size), buffer_size,
                             size);
}

uint32_t vizhoniku_document_remove(const unsigned char *document, size_t document_size, const unsigned char *path,
                                   size_t path_size, unsigned char *buffer, size_t buffer_size, size_t *size) {
  return proved_document_remove(bytes_at(document, document_size), document_size, bytes_at(path, path_size), path_size,
                                buffer_at(buffer, buffer_size), buffer_size, size);
}

uint32_t vizhoniku_document_put(const unsigned char *document, size_t document_size, const unsigned char *name,
                                size_t name_size, const unsigned char *value, size_t value_size, unsigned char *buffer,
                                size_t buffer_size, size_t *size) {
  return proved_document_put(bytes_at(document, document_size), document_size, bytes_at(name, name_size), name_size,
                             bytes_at(value, value_size), value_size, buffer_at(buffer, buffer_size), buffer_size,
                             size);
}

uint32_t vizhoniku_document_push(const unsigned char *document, size_t document_size, const unsigned char *item,
                                 size_t item_size, unsigned char *buffer, size_t buffer_size, size_t *size) {
  return proved_document_push(bytes_at(document, document_size), document_size, bytes_at(item, item_size), item_size,
                              buffer_at(buffer, buffer_size), buffer_size, size);
}

uint32_t vizhoniku_document_insert(const unsigned char *document, size_t document_size, const unsigned char *path,
                                   size_t path_size, const unsigned char *part, size_t part_size, uint32_t after,
                                   unsigned char *buffer, size_t buffer_size, size_t *size) {
  return proved_document_insert(bytes_at(document, document_size), document_size, bytes_at(path, path_size), path_size,
                                bytes_at(part, part_size), part_size, after, buffer_at(buffer, buffer_size),
                                buffer_size, size);
}

uint32_t vizhoniku_document_merge(const unsigned char *left, size_t left_size, const unsigned char *right,
                                  size_t right_size, unsigned char *buffer, size_t buffer_size, size_t *size) {
  return proved_document_merge(bytes_at(left, left_size), left_size, bytes_at(right, right_size), right_size,
                               buffer_at(buffer, buffer_size), buffer_size, size);
}

uint32_t vizhoniku_document_without(const unsigned char *document, size_t document_size, const unsigned char *names,
                                    size_t names_size, unsigned char *buffer, size_t buffer_size, size_t *size) {
  return proved_document_without(bytes_at(document, document_size), document_size, bytes_at(names, names_size),
                                 names_size, buffer_at(buffer, buffer_size), buffer_size, size);
}

uint32_t vizhoniku_document_strip_nulls(const unsigned char *document, size_t document_size, uint32_t in_arrays,
                                        unsigned char *buffer, size_t buffer_size, size_t *size) {
  return proved_document_strip_nulls(bytes_at(document, document_size), document_size, in_arrays,
                                     buffer_at(buffer, buffer_size), buffer_size, size);
}

uint32_t vizhoniku_table(const unsigned char *key, size_t key_size, unsigned char *buffer, size_t buffer_size,
                         size_t *size) {
  return proved_table(bytes_at(key, key_size), key_size, buffer_at(buffer, buffer_size), buffer_size, size);
}

size_t vizhoniku_table_size(const unsigned char *stored, size_t stored_size) {
  return proved_table_size(bytes_at(stored, stored_size), stored_size);
}

uint32_t vizhoniku_table_member(const unsigned char *key, size_t key_size, const unsigned char *table,
                                size_t table_size, const unsigned char *name, size_t name_size, size_t *offset,
                                size_t *size) {
  return proved_table_member(bytes_at(key, key_size), key_size, bytes_at(table, table_size), table_size,
                             bytes_at(name, name_size), name_size, offset, size);
}

uint32_t vizhoniku_table_check(const unsigned char *key, size_t key_size, const unsigned char *table,
                               size_t table_size) {
  return proved_table_check(bytes_at(key, key_size), key_size, bytes_at(table, table_size), table_size);
}

uint32_t vizhoniku_error_path(uint32_t mode, const unsigned char *text, size_t text_size,
                              const struct vizhoniku_error *error, unsigned char *buffer, size_t buffer_size,
                              size_t *size) {
  return proved_error_path(mode, bytes_at(text, text_size), text_size, error, buffer_at(buffer, buffer_size),
                           buffer_size, size);
}
