/* The calls of vizhoniku.h with what they write as a value, so that Go allocates nothing for it. packaging/calls makes
 * this file of the header, for what the sources call. */
#ifndef CALLS_H
#define CALLS_H

#include <vizhoniku.h>

struct outcome {
  uint32_t status;
  struct vizhoniku_error error;
  size_t size;
  size_t key_size;
  int32_t order;
  size_t count;
  size_t offset;
};

struct part {
  uint32_t status;
  struct vizhoniku_key_cursor cursor;
  struct vizhoniku_key_entry entry;
};

static inline struct outcome call_check(uint32_t mode, const unsigned char *text, size_t text_size) {
  struct outcome outcome = {0};
  outcome.status = vizhoniku_check(mode, text, text_size, &outcome.error);
  return outcome;
}

static inline struct outcome call_text(uint32_t mode, const unsigned char *text, size_t text_size,
                                       unsigned char *buffer, size_t buffer_size) {
  struct outcome outcome = {0};
  outcome.status = vizhoniku_text(mode, text, text_size, buffer, buffer_size, &outcome.size, &outcome.error);
  return outcome;
}

static inline struct outcome call_part(uint32_t mode, const unsigned char *path, size_t path_size,
                                       const unsigned char *text, size_t text_size, unsigned char *buffer,
                                       size_t buffer_size) {
  struct outcome outcome = {0};
  outcome.status = vizhoniku_part(mode, path, path_size, text, text_size, buffer, buffer_size, &outcome.size,
                                  &outcome.error);
  return outcome;
}

static inline struct outcome call_sort_key(uint32_t mode, const unsigned char *text, size_t text_size,
                                           unsigned char *buffer, size_t buffer_size) {
  struct outcome outcome = {0};
  outcome.status = vizhoniku_sort_key(mode, text, text_size, buffer, buffer_size, &outcome.size, &outcome.error);
  return outcome;
}

static inline struct outcome call_key_text(const unsigned char *key, size_t key_size, unsigned char *buffer,
                                           size_t buffer_size) {
  struct outcome outcome = {0};
  outcome.status = vizhoniku_key_text(key, key_size, buffer, buffer_size, &outcome.size);
  return outcome;
}

static inline struct outcome call_text_and_key(uint32_t mode, const unsigned char *text, size_t text_size,
                                               unsigned char *buffer, size_t buffer_size, unsigned char *key_buffer,
                                               size_t key_buffer_size) {
  struct outcome outcome = {0};
  outcome.status = vizhoniku_text_and_key(mode, text, text_size, buffer, buffer_size, &outcome.size, key_buffer,
                                          key_buffer_size, &outcome.key_size, &outcome.error);
  return outcome;
}

static inline struct outcome call_compare(uint32_t mode, const unsigned char *left, size_t left_size,
                                          const unsigned char *right, size_t right_size) {
  struct outcome outcome = {0};
  outcome.status = vizhoniku_compare(mode, left, left_size, right, right_size, &outcome.order, &outcome.error);
  return outcome;
}

static inline struct vizhoniku_location call_locate(const unsigned char *text, size_t text_size,
                                                    struct vizhoniku_error error) {
  struct vizhoniku_location location = {0};
  vizhoniku_locate(text, text_size, &error, &location);
  return location;
}

static inline struct outcome call_reason(uint32_t mode, const unsigned char *text, size_t text_size,
                                         unsigned char *buffer, size_t buffer_size) {
  struct outcome outcome = {0};
  outcome.status = vizhoniku_reason(mode, text, text_size, buffer, buffer_size, &outcome.size);
  return outcome;
}

static inline struct outcome call_key_count(const unsigned char *key, size_t key_size) {
  struct outcome outcome = {0};
  outcome.status = vizhoniku_key_count(key, key_size, &outcome.count);
  return outcome;
}

static inline struct outcome call_key_member(const unsigned char *key, size_t key_size, const unsigned char *name,
                                             size_t name_size) {
  struct outcome outcome = {0};
  outcome.status = vizhoniku_key_member(key, key_size, name, name_size, &outcome.offset, &outcome.size);
  return outcome;
}

static inline struct outcome call_key_item(const unsigned char *key, size_t key_size, int64_t index) {
  struct outcome outcome = {0};
  outcome.status = vizhoniku_key_item(key, key_size, index, &outcome.offset, &outcome.size);
  return outcome;
}

static inline struct outcome call_key_part(const unsigned char *key, size_t key_size, const unsigned char *path,
                                           size_t path_size) {
  struct outcome outcome = {0};
  outcome.status = vizhoniku_key_part(key, key_size, path, path_size, &outcome.offset, &outcome.size);
  return outcome;
}

static inline struct part call_key_begin(const unsigned char *key, size_t key_size) {
  struct part part = {0};
  part.status = vizhoniku_key_begin(key, key_size, &part.cursor);
  return part;
}

static inline struct part call_key_next(const unsigned char *key, size_t key_size, struct vizhoniku_key_cursor cursor) {
  struct part part = {0};
  part.cursor = cursor;
  part.status = vizhoniku_key_next(key, key_size, &part.cursor, &part.entry);
  return part;
}

static inline struct outcome call_key_string(const unsigned char *key, size_t key_size, unsigned char *buffer,
                                             size_t buffer_size) {
  struct outcome outcome = {0};
  outcome.status = vizhoniku_key_string(key, key_size, buffer, buffer_size, &outcome.size);
  return outcome;
}

static inline struct outcome call_key_name(const unsigned char *name, size_t name_size, unsigned char *buffer,
                                           size_t buffer_size) {
  struct outcome outcome = {0};
  outcome.status = vizhoniku_key_name(name, name_size, buffer, buffer_size, &outcome.size);
  return outcome;
}

static inline struct outcome call_document(uint32_t mode, const unsigned char *text, size_t text_size,
                                           unsigned char *buffer, size_t buffer_size) {
  struct outcome outcome = {0};
  outcome.status = vizhoniku_document(mode, text, text_size, buffer, buffer_size, &outcome.size, &outcome.error);
  return outcome;
}

static inline struct outcome call_document_text(const unsigned char *document, size_t document_size,
                                                unsigned char *buffer, size_t buffer_size) {
  struct outcome outcome = {0};
  outcome.status = vizhoniku_document_text(document, document_size, buffer, buffer_size, &outcome.size);
  return outcome;
}

static inline struct outcome call_document_part(const unsigned char *document, size_t document_size,
                                                const unsigned char *path, size_t path_size, unsigned char *buffer,
                                                size_t buffer_size) {
  struct outcome outcome = {0};
  outcome.status = vizhoniku_document_part(document, document_size, path, path_size, buffer, buffer_size,
                                           &outcome.size);
  return outcome;
}

static inline struct outcome call_document_set(const unsigned char *document, size_t document_size,
                                               const unsigned char *path, size_t path_size, const unsigned char *part,
                                               size_t part_size, uint32_t create, unsigned char *buffer,
                                               size_t buffer_size) {
  struct outcome outcome = {0};
  outcome.status = vizhoniku_document_set(document, document_size, path, path_size, part, part_size, create, buffer,
                                          buffer_size, &outcome.size);
  return outcome;
}

static inline struct outcome call_document_remove(const unsigned char *document, size_t document_size,
                                                  const unsigned char *path, size_t path_size, unsigned char *buffer,
                                                  size_t buffer_size) {
  struct outcome outcome = {0};
  outcome.status = vizhoniku_document_remove(document, document_size, path, path_size, buffer, buffer_size,
                                             &outcome.size);
  return outcome;
}

static inline struct outcome call_document_put(const unsigned char *document, size_t document_size,
                                               const unsigned char *name, size_t name_size, const unsigned char *value,
                                               size_t value_size, unsigned char *buffer, size_t buffer_size) {
  struct outcome outcome = {0};
  outcome.status = vizhoniku_document_put(document, document_size, name, name_size, value, value_size, buffer,
                                          buffer_size, &outcome.size);
  return outcome;
}

static inline struct outcome call_document_push(const unsigned char *document, size_t document_size,
                                                const unsigned char *item, size_t item_size, unsigned char *buffer,
                                                size_t buffer_size) {
  struct outcome outcome = {0};
  outcome.status = vizhoniku_document_push(document, document_size, item, item_size, buffer, buffer_size,
                                           &outcome.size);
  return outcome;
}

static inline struct outcome call_document_merge(const unsigned char *left, size_t left_size,
                                                 const unsigned char *right, size_t right_size, unsigned char *buffer,
                                                 size_t buffer_size) {
  struct outcome outcome = {0};
  outcome.status = vizhoniku_document_merge(left, left_size, right, right_size, buffer, buffer_size, &outcome.size);
  return outcome;
}

static inline struct outcome call_error_path(uint32_t mode, const unsigned char *text, size_t text_size,
                                             struct vizhoniku_error error, unsigned char *buffer, size_t buffer_size) {
  struct outcome outcome = {0};
  outcome.status = vizhoniku_error_path(mode, text, text_size, &error, buffer, buffer_size, &outcome.size);
  return outcome;
}

#endif
