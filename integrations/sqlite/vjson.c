/* A loadable extension for SQLite: JSON documents by value, over the library for C.
 *
 *   vjson(X [, MODE])                 the text of X's value; an error where X is no document
 *   vjson_valid(X [, MODE])           1 where X is a document, 0 where it is none
 *   vjson_error_position(X [, MODE])  0 where X is a document, else the character of the fault, counted from 1
 *   vjson_error(X [, MODE])           what is wrong with X, with line and column; NULL where X is a document
 *   vjson_error_path(X [, MODE])      the path of the innermost part at which X is wrong; NULL where X is a document
 *   vjson_get(X, PATH [, MODE])       the text of X's part at the path (RFC 6901); NULL where nothing is there
 *   vjson_key(X [, MODE])             the sort key of X's value, a BLOB: for indexes on expressions
 *   vjson_document(X [, MODE])        the document of X's value, a BLOB: its sort key with all digits kept
 *   COLLATE VJSON                     texts in the order of their values
 *
 * vjson_key.c has what takes a sort key apart, and vjson_document.c what is made of a document.
 *
 * A mode is 'extended_json', also where none is given, 'json', 'extended' or 'standard'. Each function returns NULL where
 * X is NULL. A number is taken as its text, and a BLOB as the bytes of a text in UTF-8. */
#include <stdint.h>
#include <stdio.h>
#include <string.h>

#include <sqlite3ext.h>
SQLITE_EXTENSION_INIT1

#include <vizhoniku.h>

#include "vjson.h"

int vjson_read_bytes(sqlite3_context *context, sqlite3_value *value, const unsigned char **bytes, size_t *size) {
  int is_blob = sqlite3_value_type(value) == SQLITE_BLOB;
  *bytes = is_blob ? sqlite3_value_blob(value) : sqlite3_value_text(value);
  *size = (size_t)sqlite3_value_bytes(value);
  if (*bytes || (is_blob && !*size)) return 1;
  sqlite3_result_error_nomem(context);
  return 0;
}

#define DEFAULT_MODE VIZHONIKU_EXTENDED_JSON

/* Reads the argument that may name a mode. Returns 0 where it names none, which has been reported. */
static int read_mode(sqlite3_context *context, int count, sqlite3_value **values, int at, uint32_t *mode) {
  static const char *const names[] = {
      [VIZHONIKU_STANDARD] = "standard",
      [VIZHONIKU_EXTENDED] = "extended",
      [VIZHONIKU_JSON] = "json",
      [VIZHONIKU_EXTENDED_JSON] = "extended_json",
  };
  *mode = DEFAULT_MODE;
  if (count <= at) return 1;
  const char *word = (const char *)sqlite3_value_text(values[at]);
  for (*mode = 0; word && *mode < sizeof names / sizeof *names; ++*mode)
    if (!strcmp(word, names[*mode])) return 1;
  sqlite3_result_error(context, "the mode is 'extended_json', 'json', 'extended' or 'standard'", -1);
  return 0;
}

/* Reads the arguments of a function that takes a text and perhaps a mode. Returns 0 where the result is already. */
static int read_arguments(sqlite3_context *context, int count, sqlite3_value **values, const unsigned char **text,
                          size_t *size, uint32_t *mode) {
  if (sqlite3_value_type(values[0]) == SQLITE_NULL) return 0;
  return read_mode(context, count, values, 1, mode) && vjson_read_bytes(context, values[0], text, size);
}

/* Writes the location of a fault in words, and returns their size. */
static size_t write_location(char *words, size_t capacity, const unsigned char *text, size_t text_size,
                             const struct vizhoniku_error *error, int is_error) {
  struct vizhoniku_location location;
  vizhoniku_locate(text, text_size, error, &location);
  size_t first = location.index - (location.column - 1);
  size_t column = vizhoniku_character(text, text_size, first, location.index);
  return (size_t)snprintf(words, capacity, "%sline %zu, column %zu: ", is_error ? "malformed JSON: " : "",
                          location.line, column);
}

/* The library's words for an error, after so many bytes that are left free. They have to be freed. Returns NULL where
 * there is no memory. */
static char *words_of(uint32_t mode, const unsigned char *text, size_t text_size, size_t front, size_t *size) {
  char *words = NULL;
  size_t capacity = 256;
  uint32_t status;
  do {
    sqlite3_free(words);
    if (!(words = sqlite3_malloc64(front + capacity))) return NULL;
    status = vizhoniku_reason(mode, text, text_size, (unsigned char *)words + front, capacity, size);
    capacity = *size;
  } while (status == VIZHONIKU_TOO_SHORT);
  if (status != VIZHONIKU_REJECTED) {
    sqlite3_free(words);
    return NULL;
  }
  return words;
}

/* Gives what is wrong with the text, in words: as the error of the statement, or as the result. */
static void report(sqlite3_context *context, uint32_t mode, uint32_t status, const struct vizhoniku_error *error,
                   const unsigned char *text, size_t text_size, int is_error) {
  char front[128], *words = NULL;
  size_t front_size = 0, size;
  if (status == VIZHONIKU_REJECTED) {
    front_size = write_location(front, sizeof front, text, text_size, error, is_error);
    words = words_of(mode, text, text_size, front_size, &size);
  }
  if (!words) {
    sqlite3_result_error_nomem(context);
    return;
  }
  memcpy(words, front, front_size);
  size += front_size;
  if (is_error) {
    sqlite3_result_error(context, words, size < 1000000 ? (int)size : 1000000);
    sqlite3_free(words);
  } else {
    sqlite3_result_text64(context, words, size, sqlite3_free, SQLITE_UTF8);
  }
}

static void call_valid(sqlite3_context *context, int count, sqlite3_value **values) {
  uint32_t mode;
  size_t size;
  const unsigned char *text;
  struct vizhoniku_error error;
  if (!read_arguments(context, count, values, &text, &size, &mode)) return;
  uint32_t status = vizhoniku_check(mode, text, size, &error);
  if (status == VIZHONIKU_OUT_OF_MEMORY)
    sqlite3_result_error_nomem(context);
  else
    sqlite3_result_int(context, status == VIZHONIKU_ACCEPTED);
}

static void call_error_position(sqlite3_context *context, int count, sqlite3_value **values) {
  uint32_t mode;
  size_t size;
  const unsigned char *text;
  struct vizhoniku_error error;
  struct vizhoniku_location location;
  if (!read_arguments(context, count, values, &text, &size, &mode)) return;
  uint32_t status = vizhoniku_check(mode, text, size, &error);
  if (status == VIZHONIKU_OUT_OF_MEMORY) {
    sqlite3_result_error_nomem(context);
  } else if (status == VIZHONIKU_ACCEPTED) {
    sqlite3_result_int(context, 0);
  } else {
    vizhoniku_locate(text, size, &error, &location);
    sqlite3_result_int64(context, (sqlite3_int64)vizhoniku_character(text, size, 0, location.index));
  }
}

static void call_error(sqlite3_context *context, int count, sqlite3_value **values) {
  uint32_t mode;
  size_t size;
  const unsigned char *text;
  struct vizhoniku_error error;
  if (!read_arguments(context, count, values, &text, &size, &mode)) return;
  uint32_t status = vizhoniku_check(mode, text, size, &error);
  if (status != VIZHONIKU_ACCEPTED) report(context, mode, status, &error, text, size, 0);
}

static void call_error_path(sqlite3_context *context, int count, sqlite3_value **values) {
  uint32_t mode;
  size_t size, capacity = 256;
  const unsigned char *text;
  unsigned char *path = NULL;
  struct vizhoniku_error error;
  if (!read_arguments(context, count, values, &text, &size, &mode)) return;
  uint32_t status = vizhoniku_check(mode, text, size, &error);
  if (status == VIZHONIKU_ACCEPTED) return;
  if (status == VIZHONIKU_REJECTED) status = VIZHONIKU_TOO_SHORT;
  while (status == VIZHONIKU_TOO_SHORT) {
    sqlite3_free(path);
    path = sqlite3_malloc64(capacity);
    status = !path ? VIZHONIKU_OUT_OF_MEMORY
                   : vizhoniku_error_path(mode, text, size, &error, path, capacity, &capacity);
  }
  if (status == VIZHONIKU_ACCEPTED) {
    sqlite3_result_text64(context, (char *)path, capacity, sqlite3_free, SQLITE_UTF8);
    return;
  }
  sqlite3_free(path);
  sqlite3_result_error_nomem(context);
}

enum what { TEXT, KEY, DOCUMENT, PART };

/* Gives what is written of the text as the result, or the error. The size of what is written isn't known before: where
 * the text is short a short buffer is tried first, and where a buffer is too short the text is read again. */
static void give_written(sqlite3_context *context, enum what what, uint32_t mode, const unsigned char *path,
                         size_t path_size, const unsigned char *text, size_t size) {
  uint32_t status;
  size_t written;
  struct vizhoniku_error error;
  unsigned char small[1024], *buffer = small;
  size_t capacity = what == PART || size <= sizeof small - 64 ? sizeof small : size + 64;
  for (;;) {
    if (capacity > sizeof small && !(buffer = sqlite3_malloc64(capacity))) {
      sqlite3_result_error_nomem(context);
      return;
    }
    if (what == TEXT)
      status = vizhoniku_text(mode, text, size, buffer, capacity, &written, &error);
    else if (what == KEY)
      status = vizhoniku_sort_key(mode, text, size, buffer, capacity, &written, &error);
    else if (what == DOCUMENT)
      status = vizhoniku_document(mode, text, size, buffer, capacity, &written, &error);
    else
      status = vizhoniku_part(mode, path, path_size, text, size, buffer, capacity, &written, &error);
    if (status != VIZHONIKU_TOO_SHORT) break;
    if (buffer != small) sqlite3_free(buffer);
    buffer = small;
    capacity = written;
  }
  if (status == VIZHONIKU_ACCEPTED) {
    void (*destroy)(void *) = buffer == small ? SQLITE_TRANSIENT : sqlite3_free;
    if (what == KEY || what == DOCUMENT) {
      sqlite3_result_blob64(context, buffer, written, destroy);
    } else {
      sqlite3_result_text64(context, (char *)buffer, written, destroy, SQLITE_UTF8);
      sqlite3_result_subtype(context, JSON_SUBTYPE);
    }
    return;
  }
  if (buffer != small) sqlite3_free(buffer);
  if (status == VIZHONIKU_NO_PATH)
    sqlite3_result_error(context, MALFORMED_PATH, -1);
  else if (status != VIZHONIKU_NO_PART)
    report(context, mode, status, &error, text, size, 1);
}

static void call_text(sqlite3_context *context, int count, sqlite3_value **values) {
  uint32_t mode;
  size_t size;
  const unsigned char *text;
  if (read_arguments(context, count, values, &text, &size, &mode))
    give_written(context, TEXT, mode, NULL, 0, text, size);
}

static void call_key(sqlite3_context *context, int count, sqlite3_value **values) {
  uint32_t mode;
  size_t size;
  const unsigned char *text;
  if (read_arguments(context, count, values, &text, &size, &mode))
    give_written(context, KEY, mode, NULL, 0, text, size);
}

static void call_document(sqlite3_context *context, int count, sqlite3_value **values) {
  uint32_t mode;
  size_t size;
  const unsigned char *text;
  if (read_arguments(context, count, values, &text, &size, &mode))
    give_written(context, DOCUMENT, mode, NULL, 0, text, size);
}

static void call_get(sqlite3_context *context, int count, sqlite3_value **values) {
  uint32_t mode;
  size_t size, path_size;
  const unsigned char *text, *path;
  if (sqlite3_value_type(values[0]) == SQLITE_NULL || sqlite3_value_type(values[1]) == SQLITE_NULL) return;
  if (read_mode(context, count, values, 2, &mode) && vjson_read_bytes(context, values[0], &text, &size) &&
      vjson_read_bytes(context, values[1], &path, &path_size))
    give_written(context, PART, mode, path, path_size, text, size);
}

static int compare_bytes(const void *left, size_t left_size, const void *right, size_t right_size) {
  size_t shorter = left_size < right_size ? left_size : right_size;
  int order = shorter ? memcmp(left, right, shorter) : 0;
  return order ? order : (left_size > right_size) - (left_size < right_size);
}

/* Documents come first, by their values. Behind them come texts that are no documents, by their bytes. A collation
 * can't fail: where memory runs out, the statement is interrupted. */
static int collate(void *database, int left_length, const void *left, int right_length, const void *right) {
  size_t left_size = (size_t)left_length, right_size = (size_t)right_length;
  int32_t order;
  struct vizhoniku_error error;
  uint32_t status = vizhoniku_compare(DEFAULT_MODE, left, left_size, right, right_size, &order, &error);
  if (status == VIZHONIKU_ACCEPTED) return order;
  if (status == VIZHONIKU_REJECTED && error.which == 2) return -1;
  if (status == VIZHONIKU_REJECTED) {
    status = vizhoniku_check(DEFAULT_MODE, right, right_size, &error);
    if (status == VIZHONIKU_ACCEPTED) return 1;
  }
  if (status == VIZHONIKU_OUT_OF_MEMORY) sqlite3_interrupt(database);
  return compare_bytes(left, left_size, right, right_size);
}

#ifdef _WIN32
__declspec(dllexport)
#else
__attribute__((visibility("default")))
#endif
int sqlite3_vjson_init(sqlite3 *database, char **message, const sqlite3_api_routines *routines) {
  static const struct {
    const char *name;
    int least; /* arguments without the mode */
    int flags;
    void (*call)(sqlite3_context *, int, sqlite3_value **);
  } functions[] = {
      {"vjson", 1, SQLITE_RESULT_SUBTYPE, call_text},
      {"vjson_valid", 1, 0, call_valid},
      {"vjson_error_position", 1, 0, call_error_position},
      {"vjson_error", 1, 0, call_error},
      {"vjson_error_path", 1, 0, call_error_path},
      {"vjson_get", 2, SQLITE_RESULT_SUBTYPE, call_get},
      {"vjson_key", 1, 0, call_key},
      {"vjson_document", 1, 0, call_document},
  };
  SQLITE_EXTENSION_INIT2(routines);
  if (vizhoniku_version() < VIZHONIKU_VERSION) {
    *message = sqlite3_mprintf("libvizhoniku has interface version %u, and %u is needed",
                               (unsigned)vizhoniku_version(), (unsigned)VIZHONIKU_VERSION);
    return SQLITE_ERROR;
  }
  int status = SQLITE_OK;
  for (size_t i = 0; i < 2 * (sizeof functions / sizeof *functions) && status == SQLITE_OK; i++)
    status = sqlite3_create_function_v2(database, functions[i / 2].name, functions[i / 2].least + (int)(i % 2),
                                        SQLITE_UTF8 | SQLITE_DETERMINISTIC | SQLITE_INNOCUOUS | functions[i / 2].flags,
                                        NULL, functions[i / 2].call, NULL, NULL, NULL);
  if (status == SQLITE_OK)
    status = sqlite3_create_collation_v2(database, "VJSON", SQLITE_UTF8, database, collate, NULL);
  if (status == SQLITE_OK) status = vjson_add_key_functions(database);
  return status == SQLITE_OK ? vjson_add_document_functions(database) : status;
}
