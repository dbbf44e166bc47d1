/* The calls of vizhoniku.h for Node, as index.js makes them.
 *
 * There is no state, so that each Worker may load it. Texts, paths, names, keys and documents are strings, which are
 * read in UTF-8, or Uint8Arrays. A call that writes bytes is passed where to, a Uint8Array and an offset in it: it
 * returns how many it wrote, or how many it needs where these are more than there is space for. Where a call fails it
 * returns minus the status of the library. An argument of a wrong type throws TypeError. */
#define NAPI_VERSION 8
#include <node_api.h>
#include <stdbool.h>
#include <stdint.h>
#include <stdlib.h>
#include <vizhoniku.h>

/* From how many bytes on a string takes memory that isn't the stack's. */
#define SMALL 2048

/* A character of a string has at most so many bytes. */
#define CHARACTER 4

/* How many arguments a call has at most, and how many of these are bytes. */
#define MOST 6
#define MOST_BYTES 3

/* How many more bytes than its text a key has as a rule at most. */
#define MORE 64

/* This is no status of the library: an exception is thrown. */
#define THROWN UINT32_MAX

/* The bytes of a string or a Uint8Array. */
struct bytes {
  const unsigned char *at;
  size_t size;
  unsigned char *taken; /* from malloc, or NULL */
  unsigned char small[SMALL];
};

typedef uint32_t of_text(uint32_t, const unsigned char *, size_t, unsigned char *, size_t, size_t *,
                         struct vizhoniku_error *);
typedef uint32_t of_one(const unsigned char *, size_t, unsigned char *, size_t, size_t *);
typedef uint32_t of_two(const unsigned char *, size_t, const unsigned char *, size_t, unsigned char *, size_t,
                        size_t *);
typedef uint32_t of_three(const unsigned char *, size_t, const unsigned char *, size_t, const unsigned char *, size_t,
                          unsigned char *, size_t, size_t *);
typedef uint32_t of_set(const unsigned char *, size_t, const unsigned char *, size_t, const unsigned char *, size_t,
                        uint32_t, unsigned char *, size_t, size_t *);
typedef uint32_t of_bytes(const unsigned char *, size_t);

/* A call for JavaScript: its name, what reads its arguments, and the function of the library that it makes. */
struct call {
  const char *name;
  napi_callback made;
  union {
    of_text *text;
    of_one *one;
    of_two *two;
    of_three *three;
    of_set *set;
    of_bytes *bytes;
  } function;
};

/* The arguments of a call, and the error of a text. */
struct given {
  const struct call *call;
  uint32_t mode;
  uint32_t flag;
  size_t count; /* of bytes */
  struct bytes bytes[MOST_BYTES];
  double *slots; /* SLOTS of them */
  unsigned char *to;
  size_t space;
  struct vizhoniku_error error;
};

/* What a Float64Array holds: a cursor, and the range of a part. */
enum slot { KIND, NEXT, OFFSET, SIZE, SLOTS };

static uint32_t thrown(napi_env env, const char *words) {
  napi_throw_type_error(env, NULL, words);
  return THROWN;
}

static void free_given(struct given *given) {
  while (given->count) free(given->bytes[--given->count].taken);
}

/* Reads a string whose first bytes are read already: all of them where they are too many for the stack. */
static uint32_t read_long_string(napi_env env, napi_value value, struct bytes *bytes) {
  size_t size;
  if (bytes->size + CHARACTER < SMALL) return VIZHONIKU_ACCEPTED;
  if (napi_get_value_string_utf8(env, value, NULL, 0, &size) != napi_ok) return thrown(env, "a string can't be read");
  bytes->taken = malloc(size + 1);
  if (!bytes->taken) return VIZHONIKU_OUT_OF_MEMORY;
  napi_get_value_string_utf8(env, value, (char *)bytes->taken, size + 1, &bytes->size);
  bytes->at = bytes->taken;
  return VIZHONIKU_ACCEPTED;
}

static uint32_t read_bytes(napi_env env, napi_value value, struct given *given) {
  struct bytes *bytes = &given->bytes[given->count++];
  napi_typedarray_type type;
  void *at;
  bytes->at = bytes->small;
  bytes->taken = NULL;
  if (napi_get_value_string_utf8(env, value, (char *)bytes->small, SMALL, &bytes->size) == napi_ok)
    return read_long_string(env, value, bytes);
  if (napi_get_typedarray_info(env, value, &type, &bytes->size, &at, NULL, NULL) != napi_ok || type != napi_uint8_array)
    return thrown(env, "bytes are a string or a Uint8Array");
  bytes->at = at;
  return VIZHONIKU_ACCEPTED;
}

/* Reads a mode. A number that is none of an integer of 32 bits is the largest of these, which is no mode. */
static uint32_t read_mode(napi_env env, napi_value value, struct given *given) {
  double mode;
  if (napi_get_value_double(env, value, &mode) != napi_ok) return thrown(env, "a mode is a number");
  bool is_whole = mode >= 0 && mode <= UINT32_MAX && mode == (uint32_t)mode;
  given->mode = is_whole ? (uint32_t)mode : UINT32_MAX;
  return VIZHONIKU_ACCEPTED;
}

static uint32_t read_flag(napi_env env, napi_value value, struct given *given) {
  bool flag;
  if (napi_get_value_bool(env, value, &flag) != napi_ok) return thrown(env, "create is a boolean");
  given->flag = flag;
  return VIZHONIKU_ACCEPTED;
}

static uint32_t read_slots(napi_env env, napi_value value, struct given *given) {
  napi_typedarray_type type;
  size_t length;
  void *at;
  if (napi_get_typedarray_info(env, value, &type, &length, &at, NULL, NULL) != napi_ok || type != napi_float64_array ||
      length < SLOTS)
    return thrown(env, "slots are a Float64Array of four");
  given->slots = at;
  return VIZHONIKU_ACCEPTED;
}

static uint32_t read_where(napi_env env, napi_value value, struct given *given) {
  napi_typedarray_type type;
  void *at;
  if (napi_get_typedarray_info(env, value, &type, &given->space, &at, NULL, NULL) != napi_ok ||
      type != napi_uint8_array)
    return thrown(env, "bytes are written to a Uint8Array");
  given->to = at;
  return VIZHONIKU_ACCEPTED;
}

static bool overlap(const void *one, size_t one_size, const void *two, size_t two_size) {
  return (uintptr_t)one < (uintptr_t)two + two_size && (uintptr_t)two < (uintptr_t)one + one_size;
}

/* Reads the offset from which on is written. No bytes that were read before overlap what is behind it. */
static uint32_t read_offset(napi_env env, napi_value value, struct given *given) {
  double offset;
  if (napi_get_value_double(env, value, &offset) != napi_ok) return thrown(env, "an offset is a number");
  if (!(offset >= 0 && offset < (double)given->space)) return thrown(env, "an offset is within the bytes");
  given->to += (size_t)offset;
  given->space -= (size_t)offset;
  for (size_t i = 0; i < given->count; i++)
    if (overlap(given->bytes[i].at, given->bytes[i].size, given->to, given->space))
      return thrown(env, "the bytes are those that are written to");
  return VIZHONIKU_ACCEPTED;
}

static uint32_t read_one(napi_env env, char letter, napi_value value, struct given *given) {
  switch (letter) {
  case 'b':
    return read_bytes(env, value, given);
  case 'm':
    return read_mode(env, value, given);
  case 'f':
    return read_flag(env, value, given);
  case 's':
    return read_slots(env, value, given);
  case 'w':
    return read_where(env, value, given);
  default:
    return read_offset(env, value, given);
  }
}

/* Reads the arguments of a call, each as a letter says: bytes, a mode, a flag, slots, where to write, and the offset of
 * that. Those that are missing are undefined. Returns the status, and keeps nothing where that isn't
 * VIZHONIKU_ACCEPTED. */
static uint32_t read_given(napi_env env, napi_callback_info info, const char *letters, struct given *given) {
  napi_value values[MOST];
  size_t count = MOST;
  void *call;
  given->count = 0;
  if (napi_get_cb_info(env, info, &count, values, NULL, &call) != napi_ok)
    return thrown(env, "the arguments can't be read");
  given->call = call;
  uint32_t status = VIZHONIKU_ACCEPTED;
  for (size_t i = 0; letters[i] && status == VIZHONIKU_ACCEPTED; i++)
    status = read_one(env, letters[i], values[i], given);
  if (status != VIZHONIKU_ACCEPTED) free_given(given);
  return status;
}

static napi_value number(napi_env env, double value) {
  napi_value made = NULL;
  napi_create_double(env, value, &made);
  return made;
}

static napi_value failure(napi_env env, uint32_t status) {
  return status == THROWN ? NULL : number(env, -(double)status);
}

/* Ends a call that returns a number: a size, unless it failed. */
static napi_value end(napi_env env, struct given *given, uint32_t status, double value) {
  free_given(given);
  bool is_size = status == VIZHONIKU_ACCEPTED || status == VIZHONIKU_TOO_SHORT;
  return is_size ? number(env, value) : failure(env, status);
}

/* What writes to a buffer. */
typedef uint32_t writer(struct given *given, unsigned char *buffer, size_t capacity, size_t *size);

static uint32_t write_text(struct given *given, unsigned char *buffer, size_t capacity, size_t *size) {
  const struct bytes *text = given->bytes;
  return given->call->function.text(given->mode, text->at, text->size, buffer, capacity, size, &given->error);
}

static uint32_t write_part(struct given *given, unsigned char *buffer, size_t capacity, size_t *size) {
  const struct bytes *path = given->bytes, *text = path + 1;
  return vizhoniku_part(given->mode, path->at, path->size, text->at, text->size, buffer, capacity, size, &given->error);
}

static uint32_t write_one(struct given *given, unsigned char *buffer, size_t capacity, size_t *size) {
  return given->call->function.one(given->bytes->at, given->bytes->size, buffer, capacity, size);
}

static uint32_t write_two(struct given *given, unsigned char *buffer, size_t capacity, size_t *size) {
  const struct bytes *one = given->bytes, *two = one + 1;
  return given->call->function.two(one->at, one->size, two->at, two->size, buffer, capacity, size);
}

static uint32_t write_three(struct given *given, unsigned char *buffer, size_t capacity, size_t *size) {
  const struct bytes *one = given->bytes, *two = one + 1, *three = two + 1;
  return given->call->function.three(one->at, one->size, two->at, two->size, three->at, three->size, buffer, capacity,
                                     size);
}

static uint32_t write_set(struct given *given, unsigned char *buffer, size_t capacity, size_t *size) {
  const struct bytes *key = given->bytes, *path = key + 1, *part = path + 1;
  return given->call->function.set(key->at, key->size, path->at, path->size, part->at, part->size, given->flag, buffer,
                                   capacity, size);
}

static uint32_t write_reason(struct given *given, unsigned char *buffer, size_t capacity, size_t *size) {
  uint32_t status = vizhoniku_reason(given->mode, given->bytes->at, given->bytes->size, buffer, capacity, size);
  return status == VIZHONIKU_REJECTED ? VIZHONIKU_ACCEPTED : status;
}

static uint32_t write_error_path(struct given *given, unsigned char *buffer, size_t capacity, size_t *size) {
  const struct bytes *text = given->bytes;
  return vizhoniku_error_path(given->mode, text->at, text->size, &given->error, buffer, capacity, size);
}

/* The string that is written, of so many bytes as a rule at most, or NULL. */
static napi_value string_of(napi_env env, struct given *given, writer *write, size_t size, uint32_t *status) {
  unsigned char small[SMALL], *taken = NULL;
  size_t capacity = SMALL;
  napi_value made = NULL;
  do {
    if (size > capacity) {
      free(taken);
      capacity = size;
      taken = malloc(capacity);
    }
    bool has_space = taken || capacity == SMALL;
    *status = has_space ? write(given, taken ? taken : small, capacity, &size) : VIZHONIKU_OUT_OF_MEMORY;
  } while (*status == VIZHONIKU_TOO_SHORT);
  if (*status == VIZHONIKU_ACCEPTED) napi_create_string_utf8(env, (char *)(taken ? taken : small), size, &made);
  /* A string has a bound on its length. */
  if (*status == VIZHONIKU_ACCEPTED && !made) *status = VIZHONIKU_OUT_OF_MEMORY;
  free(taken);
  return made;
}

/* Ends a call that returns what is written as a string. */
static napi_value string_or_failure(napi_env env, struct given *given, uint32_t status, writer *write, size_t size) {
  napi_value made = status == VIZHONIKU_ACCEPTED ? string_of(env, given, write, size, &status) : NULL;
  free_given(given);
  return made ? made : failure(env, status);
}

/* text(mode, text) */
static napi_value string_of_text(napi_env env, napi_callback_info info) {
  struct given given;
  uint32_t status = read_given(env, info, "mb", &given);
  return string_or_failure(env, &given, status, write_text, status ? 0 : given.bytes->size + MORE);
}

/* part(mode, path, text) */
static napi_value string_of_part(napi_env env, napi_callback_info info) {
  struct given given;
  uint32_t status = read_given(env, info, "mbb", &given);
  return string_or_failure(env, &given, status, write_part, 0);
}

/* keyText(key) and its kin */
static napi_value string_of_one(napi_env env, napi_callback_info info) {
  struct given given;
  uint32_t status = read_given(env, info, "b", &given);
  return string_or_failure(env, &given, status, write_one, status ? 0 : given.bytes->size + MORE);
}

/* Writes to the bytes that are given, at the offset. */
static napi_value bytes_of(napi_env env, napi_callback_info info, const char *letters, writer *write) {
  struct given given;
  size_t size = 0;
  uint32_t status = read_given(env, info, letters, &given);
  if (status == VIZHONIKU_ACCEPTED) status = write(&given, given.to, given.space, &size);
  return end(env, &given, status, (double)size);
}

/* sortKey(mode, text, to, offset) and document */
static napi_value bytes_of_text(napi_env env, napi_callback_info info) {
  return bytes_of(env, info, "mbwo", write_text);
}

/* check(mode, text) */
static napi_value check(napi_env env, napi_callback_info info) {
  struct given given;
  uint32_t status = read_given(env, info, "mb", &given);
  if (status == VIZHONIKU_ACCEPTED)
    status = vizhoniku_check(given.mode, given.bytes->at, given.bytes->size, &given.error);
  return end(env, &given, status, 0);
}

/* compare(mode, left, right): 0, 1 or 2 where the left one is below, equal or above. */
static napi_value compare(napi_env env, napi_callback_info info) {
  struct given given;
  int32_t order = 0;
  uint32_t status = read_given(env, info, "mbb", &given);
  if (status == VIZHONIKU_ACCEPTED) {
    const struct bytes *left = given.bytes, *right = left + 1;
    status = vizhoniku_compare(given.mode, left->at, left->size, right->at, right->size, &order, &given.error);
  }
  return end(env, &given, status, order + 1);
}

/* Where and why a text is rejected, as an object, or NULL. */
static napi_value fault_of(napi_env env, struct given *given, uint32_t *status) {
  const struct bytes *text = given->bytes;
  struct vizhoniku_location location;
  napi_value made = NULL;
  napi_value reason = string_of(env, given, write_reason, 0, status);
  napi_value path = reason ? string_of(env, given, write_error_path, 0, status) : NULL;
  if (!path) return NULL;
  vizhoniku_locate(text->at, text->size, &given->error, &location);
  size_t line = location.index - (location.column - 1);
  const struct {
    const char *name;
    napi_value value;
  } members[] = {
      {"reason", reason},
      {"path", path},
      {"code", number(env, given->error.code)},
      {"index", number(env, (double)location.index)},
      {"character", number(env, (double)vizhoniku_character(text->at, text->size, 0, location.index))},
      {"line", number(env, (double)location.line)},
      {"column", number(env, (double)vizhoniku_character(text->at, text->size, line, location.index))},
  };
  napi_create_object(env, &made);
  for (size_t i = 0; i < sizeof members / sizeof *members; i++)
    napi_set_named_property(env, made, members[i].name, members[i].value);
  return made;
}

/* why(mode, text): 0 where the text is a document. */
static napi_value why(napi_env env, napi_callback_info info) {
  struct given given;
  napi_value fault = NULL;
  uint32_t status = read_given(env, info, "mb", &given);
  if (status == VIZHONIKU_ACCEPTED)
    status = vizhoniku_check(given.mode, given.bytes->at, given.bytes->size, &given.error);
  if (status == VIZHONIKU_REJECTED) fault = fault_of(env, &given, &status);
  if (!fault) return end(env, &given, status, 0);
  free_given(&given);
  return fault;
}

/* kind(key), keyCheck(key), documentCheck(document): the number of the kind, the status */
static napi_value number_of_one(napi_env env, napi_callback_info info) {
  struct given given;
  uint32_t found = 0, status = read_given(env, info, "b", &given);
  if (status == VIZHONIKU_ACCEPTED) found = given.call->function.bytes(given.bytes->at, given.bytes->size);
  return end(env, &given, status, found);
}

/* documentKey(document) */
static napi_value document_key(napi_env env, napi_callback_info info) {
  struct given given;
  size_t size = 0;
  uint32_t status = read_given(env, info, "b", &given);
  if (status == VIZHONIKU_ACCEPTED) size = vizhoniku_document_key(given.bytes->at, given.bytes->size);
  return end(env, &given, status, (double)size);
}

/* count(key) */
static napi_value count(napi_env env, napi_callback_info info) {
  struct given given;
  size_t found = 0;
  uint32_t status = read_given(env, info, "b", &given);
  if (status == VIZHONIKU_ACCEPTED) status = vizhoniku_key_count(given.bytes->at, given.bytes->size, &found);
  return end(env, &given, status, (double)found);
}

/* contains(key, other) */
static napi_value contains(napi_env env, napi_callback_info info) {
  struct given given;
  uint32_t status = read_given(env, info, "bb", &given);
  if (status == VIZHONIKU_ACCEPTED) {
    const struct bytes *key = given.bytes, *other = key + 1;
    status = vizhoniku_key_contains(key->at, key->size, other->at, other->size);
  }
  return end(env, &given, status, 0);
}

/* keyPart(key, path, slots): the range of the part is in the slots. */
static napi_value key_part(napi_env env, napi_callback_info info) {
  struct given given;
  uint32_t status = read_given(env, info, "bbs", &given);
  if (status == VIZHONIKU_ACCEPTED) {
    const struct bytes *key = given.bytes, *path = key + 1;
    size_t offset, size;
    status = vizhoniku_key_part(key->at, key->size, path->at, path->size, &offset, &size);
    given.slots[OFFSET] = (double)offset;
    given.slots[SIZE] = (double)size;
  }
  return end(env, &given, status, 0);
}

/* begin(key, slots): the cursor is in the slots. */
static napi_value begin(napi_env env, napi_callback_info info) {
  struct given given;
  uint32_t status = read_given(env, info, "bs", &given);
  if (status == VIZHONIKU_ACCEPTED) {
    struct vizhoniku_key_cursor cursor;
    status = vizhoniku_key_begin(given.bytes->at, given.bytes->size, &cursor);
    given.slots[KIND] = cursor.kind;
    given.slots[NEXT] = (double)cursor.offset;
  }
  return end(env, &given, status, 0);
}

/* The number of a slot. What is none, or more than a double is exact of, is the largest one. */
static size_t size_of(double slot) { return slot >= 0 && slot <= 9007199254740991 ? (size_t)slot : SIZE_MAX; }

static uint32_t write_name(struct given *given, unsigned char *buffer, size_t capacity, size_t *size) {
  const struct bytes *name = given->bytes + 1;
  return vizhoniku_key_name(name->at, name->size, buffer, capacity, size);
}

/* The name of a member, or null of an item, which has none. */
static napi_value name_of(napi_env env, struct given *given, const struct vizhoniku_key_entry *entry,
                          uint32_t *status) {
  napi_value none = NULL;
  given->bytes[1].at = given->bytes->at + entry->name_offset;
  given->bytes[1].size = entry->name_size;
  if (entry->name_size) return string_of(env, given, write_name, entry->name_size, status);
  napi_get_null(env, &none);
  return none;
}

/* next(key, slots): the name of the member, or null of an item. The range of the part is in the slots, and the cursor
 * behind it. */
static napi_value next(napi_env env, napi_callback_info info) {
  struct given given;
  napi_value name = NULL;
  uint32_t status = read_given(env, info, "bs", &given);
  if (status == VIZHONIKU_ACCEPTED) {
    struct vizhoniku_key_cursor cursor = {given.slots[KIND] == VIZHONIKU_OBJECT ? VIZHONIKU_OBJECT : VIZHONIKU_ARRAY,
                                          size_of(given.slots[NEXT])};
    struct vizhoniku_key_entry entry;
    status = vizhoniku_key_next(given.bytes->at, given.bytes->size, &cursor, &entry);
    given.slots[NEXT] = (double)cursor.offset;
    given.slots[OFFSET] = (double)entry.offset;
    given.slots[SIZE] = (double)entry.size;
    if (status == VIZHONIKU_ACCEPTED) name = name_of(env, &given, &entry, &status);
  }
  if (!name) return end(env, &given, status, 0);
  free_given(&given);
  return name;
}

/* documentRemove(document, path, to, offset) and its kin */
static napi_value bytes_of_two(napi_env env, napi_callback_info info) {
  return bytes_of(env, info, "bbwo", write_two);
}

/* documentPut(document, name, value, to, offset) */
static napi_value bytes_of_three(napi_env env, napi_callback_info info) {
  return bytes_of(env, info, "bbbwo", write_three);
}

/* documentSet(document, path, part, create, to, offset) */
static napi_value bytes_of_set(napi_env env, napi_callback_info info) {
  return bytes_of(env, info, "bbbfwo", write_set);
}

static const struct call calls[] = {
    {"check", check, {NULL}},
    {"why", why, {NULL}},
    {"compare", compare, {NULL}},
    {"part", string_of_part, {NULL}},
    {"text", string_of_text, {.text = vizhoniku_text}},
    {"sortKey", bytes_of_text, {.text = vizhoniku_sort_key}},
    {"document", bytes_of_text, {.text = vizhoniku_document}},
    {"pathStep", string_of_one, {.one = vizhoniku_path_step}},
    {"keyText", string_of_one, {.one = vizhoniku_key_text}},
    {"documentText", string_of_one, {.one = vizhoniku_document_text}},
    {"keyCheck", number_of_one, {.bytes = vizhoniku_key_check}},
    {"documentCheck", number_of_one, {.bytes = vizhoniku_document_check}},
    {"documentKey", document_key, {NULL}},
    {"kind", number_of_one, {.bytes = vizhoniku_key_kind}},
    {"count", count, {NULL}},
    {"contains", contains, {NULL}},
    {"keyPart", key_part, {NULL}},
    {"begin", begin, {NULL}},
    {"next", next, {NULL}},
    {"documentPart", bytes_of_two, {.two = vizhoniku_document_part}},
    {"documentSet", bytes_of_set, {.set = vizhoniku_document_set}},
    {"documentRemove", bytes_of_two, {.two = vizhoniku_document_remove}},
    {"documentPut", bytes_of_three, {.three = vizhoniku_document_put}},
    {"documentPush", bytes_of_two, {.two = vizhoniku_document_push}},
    {"documentMerge", bytes_of_two, {.two = vizhoniku_document_merge}},
};

static const struct {
  const char *name;
  uint32_t number;
} constants[] = {
    {"STANDARD", VIZHONIKU_STANDARD},
    {"EXTENDED", VIZHONIKU_EXTENDED},
    {"JSON", VIZHONIKU_JSON},
    {"EXTENDED_JSON", VIZHONIKU_EXTENDED_JSON},
    {"REJECTED", VIZHONIKU_REJECTED},
    {"OUT_OF_MEMORY", VIZHONIKU_OUT_OF_MEMORY},
    {"NO_PART", VIZHONIKU_NO_PART},
    {"NO_PATH", VIZHONIKU_NO_PATH},
    {"NO_KEY", VIZHONIKU_NO_KEY},
    {"TOO_DEEP", VIZHONIKU_TOO_DEEP},
    {"NO_DOCUMENT", VIZHONIKU_NO_DOCUMENT},
    {"OFFSET", OFFSET},
    {"SIZE", SIZE},
    {"SLOTS", SLOTS},
};

NAPI_MODULE_INIT() {
  if (vizhoniku_version() < VIZHONIKU_VERSION) {
    napi_throw_error(env, NULL, "libvizhoniku is older than the header that vizhoniku.node was built with");
    return NULL;
  }
  for (size_t i = 0; i < sizeof calls / sizeof *calls; i++) {
    napi_value function = NULL;
    napi_create_function(env, calls[i].name, NAPI_AUTO_LENGTH, calls[i].made, (void *)&calls[i], &function);
    napi_set_named_property(env, exports, calls[i].name, function);
  }
  for (size_t i = 0; i < sizeof constants / sizeof *constants; i++)
    napi_set_named_property(env, exports, constants[i].name, number(env, constants[i].number));
  return exports;
}
