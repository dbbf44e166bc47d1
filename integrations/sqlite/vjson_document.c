/* Documents: values in their order, with all digits of their numbers. A sort key has 1.5 for 1.50, a document has 1.50.
 *
 *   vjson_document_valid(DOCUMENT)             1 where it is a document, else 0
 *   vjson_document_text(DOCUMENT [, PATH])     the text of the value, or of the part at the path (RFC 6901)
 *   vjson_document_key(DOCUMENT)               the sort key of the value, a BLOB: for a UNIQUE index by value
 *   vjson_document_get(DOCUMENT, PATH)         the document of the part, a BLOB; NULL where there is none
 *   vjson_document_set(DOCUMENT, PATH, PART)   the document with this part at the path, of which the document is passed
 *   vjson_document_remove(DOCUMENT, PATH)      the document without the part
 *   vjson_document_merge(DOCUMENT, OTHER)      an object with the members of both, or else an array with the items of both
 *
 * A document is what vjson_document of vjson.c returns. NULL gives NULL. Where nothing changes, as for a path that leads
 * nowhere, the document is returned as it is. */
#include <stdint.h>
#include <string.h>

#include <sqlite3ext.h>
SQLITE_EXTENSION_INIT3

#include <vizhoniku.h>

#include "vjson.h"

#define NO_DOCUMENT "not a document: vjson_document makes one of a text"

#define TOO_DEEP "more than 512 arrays and objects in one another"

/* What a call makes of a document, in the order of the functions above. */
enum what { TEXT, KEY, PART, SET, REMOVE, MERGE };

struct bytes {
  const unsigned char *at;
  size_t size;
};

/* A call, with its arguments. The second one is a path, or the other document. */
struct call {
  enum what what;
  struct bytes document, second, part;
};

static uint32_t run(const struct call *call, unsigned char *buffer, size_t capacity, size_t *size) {
  struct bytes document = call->document, second = call->second;
  switch (call->what) {
  case TEXT:
    return vizhoniku_document_text(document.at, document.size, buffer, capacity, size);
  case PART:
    return vizhoniku_document_part(document.at, document.size, second.at, second.size, buffer, capacity, size);
  case SET:
    return vizhoniku_document_set(document.at, document.size, second.at, second.size, call->part.at, call->part.size, 1,
                                  buffer, capacity, size);
  case REMOVE:
    return vizhoniku_document_remove(document.at, document.size, second.at, second.size, buffer, capacity, size);
  default:
    return vizhoniku_document_merge(document.at, document.size, second.at, second.size, buffer, capacity, size);
  }
}

/* What a call wrote, in `small` or in memory of SQLite's. */
struct written {
  unsigned char small[1024];
  unsigned char *at;
  size_t size;
};

static void free_written(struct written *written) {
  if (written->at != written->small) sqlite3_free(written->at);
}

/* Runs a call with a buffer that is long enough. What was written has to be freed where it is accepted. */
static uint32_t write_all(const struct call *call, struct written *written) {
  size_t capacity = sizeof written->small;
  written->at = written->small;
  for (;;) {
    uint32_t status = run(call, written->at, capacity, &written->size);
    if (status == VIZHONIKU_ACCEPTED) return status;
    free_written(written);
    if (status != VIZHONIKU_TOO_SHORT) return status;
    capacity = written->size;
    if (!(written->at = sqlite3_malloc64(capacity))) return VIZHONIKU_OUT_OF_MEMORY;
  }
}

/* Says what is wrong, by the status of a call. */
static void report(sqlite3_context *context, uint32_t status) {
  if (status == VIZHONIKU_OUT_OF_MEMORY)
    sqlite3_result_error_nomem(context);
  else
    sqlite3_result_error(context,
                         status == VIZHONIKU_NO_PATH    ? MALFORMED_PATH
                         : status == VIZHONIKU_TOO_DEEP ? TOO_DEEP
                                                        : NO_DOCUMENT,
                         -1);
}

/* Gives what a call makes. Where there is none, that is NULL for a part, and the document itself for a change. */
static void give(sqlite3_context *context, const struct call *call) {
  struct written written;
  uint32_t status = write_all(call, &written);
  if (status == VIZHONIKU_NO_PART) {
    if (call->what >= SET) sqlite3_result_blob64(context, call->document.at, call->document.size, SQLITE_TRANSIENT);
  } else if (status != VIZHONIKU_ACCEPTED) {
    report(context, status);
  } else {
    void (*destroy)(void *) = written.at == written.small ? SQLITE_TRANSIENT : sqlite3_free;
    if (call->what != TEXT) {
      sqlite3_result_blob64(context, written.at, written.size, destroy);
      return;
    }
    sqlite3_result_text64(context, (char *)written.at, written.size, destroy, SQLITE_UTF8);
    sqlite3_result_subtype(context, JSON_SUBTYPE);
  }
}

/* Reads an argument that is a document. Returns 0 where it is none, which has been reported. */
static int read_document(sqlite3_context *context, sqlite3_value *value, struct bytes *document) {
  if (sqlite3_value_type(value) == SQLITE_BLOB) return vjson_read_bytes(context, value, &document->at, &document->size);
  report(context, VIZHONIKU_NO_DOCUMENT);
  return 0;
}

/* Reads the arguments of a call. Returns 0 where the result is already: NULL, or an error. */
static int read_call(sqlite3_context *context, int count, sqlite3_value **values, struct call *call) {
  for (int i = 0; i < count; i++)
    if (sqlite3_value_type(values[i]) == SQLITE_NULL) return 0;
  if (!read_document(context, values[0], &call->document)) return 0;
  if (count > 2 && !read_document(context, values[2], &call->part)) return 0;
  if (count < 2) return 1;
  if (call->what == MERGE) return read_document(context, values[1], &call->second);
  return vjson_read_bytes(context, values[1], &call->second.at, &call->second.size);
}

/* The function's number is its user data. */
static void call_any(sqlite3_context *context, int count, sqlite3_value **values) {
  struct call call = {(enum what)(uintptr_t)sqlite3_user_data(context), {NULL, 0}, {NULL, 0}, {NULL, 0}};
  struct written part;
  if (!read_call(context, count, values, &call)) return;
  if (call.what == KEY) {
    sqlite3_result_blob64(context, call.document.at, vizhoniku_document_key(call.document.at, call.document.size),
                          SQLITE_TRANSIENT);
    return;
  }
  if (call.what != TEXT || count == 1) {
    give(context, &call);
    return;
  }
  /* The text of a part is that of its document. */
  call.what = PART;
  uint32_t status = write_all(&call, &part);
  if (status != VIZHONIKU_ACCEPTED) {
    if (status != VIZHONIKU_NO_PART) report(context, status);
    return;
  }
  call.what = TEXT;
  call.document = (struct bytes){part.at, part.size};
  give(context, &call);
  free_written(&part);
}

static void call_valid(sqlite3_context *context, int count, sqlite3_value **values) {
  struct bytes document;
  (void)count;
  if (sqlite3_value_type(values[0]) == SQLITE_NULL) return;
  if (sqlite3_value_type(values[0]) != SQLITE_BLOB) {
    sqlite3_result_int(context, 0);
  } else if (read_document(context, values[0], &document)) {
    sqlite3_result_int(context, vizhoniku_document_check(document.at, document.size) == VIZHONIKU_ACCEPTED);
  }
}

int vjson_add_document_functions(sqlite3 *database) {
  static const struct {
    const char *name;
    int least, most; /* arguments */
    int flags;
  } functions[] = {
      [TEXT] = {"vjson_document_text", 1, 2, SQLITE_RESULT_SUBTYPE}, [KEY] = {"vjson_document_key", 1, 1, 0},
      [PART] = {"vjson_document_get", 2, 2, 0},                      [SET] = {"vjson_document_set", 3, 3, 0},
      [REMOVE] = {"vjson_document_remove", 2, 2, 0},                 [MERGE] = {"vjson_document_merge", 2, 2, 0},
  };
  int status = sqlite3_create_function_v2(database, "vjson_document_valid", 1,
                                          SQLITE_UTF8 | SQLITE_DETERMINISTIC | SQLITE_INNOCUOUS, NULL, call_valid, NULL,
                                          NULL, NULL);
  for (uintptr_t i = 0; i < sizeof functions / sizeof *functions; i++)
    for (int count = functions[i].least; count <= functions[i].most && status == SQLITE_OK; count++)
      status = sqlite3_create_function_v2(database, functions[i].name, count,
                                          SQLITE_UTF8 | SQLITE_DETERMINISTIC | SQLITE_INNOCUOUS | functions[i].flags,
                                          (void *)i, call_any, NULL, NULL, NULL);
  return status;
}
