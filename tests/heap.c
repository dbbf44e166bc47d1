/* Counts the heap that each function of the library asks for and holds, over documents of several kinds and sizes, and
 * compares both with bounds that are worked out from the document alone. It also lets each request for memory fail in
 * turn, of the functions over texts in each mode: then they report it, and have written nothing.
 *
 * The linker puts the three functions below in the place of the C library's (--wrap). What counts is what was asked
 * for, not what the C library spends on it. A block that grows counts with its new size among what was asked for, and
 * once among what is held. Prints, for each function, where it came closest to its bounds. The status is 1 where one
 * was passed, where nothing came near to one, where a call kept memory, or where a result isn't the expected one. */
#include <stdint.h>
#include <stdio.h>
#include <stdlib.h>
#include <string.h>

#include "vizhoniku.h"

/* Sizes in bytes, on a machine of 64 bits (bench/README.md): an entry for each member of the objects that are open, and
 * of an object whose keys don't ascend so much more for each member when it ends. */
#define ENTRY 48
#define RANK 16

/* A vector has room for as many as it has at least, and for 4. */
#define ROOM(count) ((count) > 2 ? 2 * (count) : 4)

/* What is open while a text is read, for each level, and what a call takes whatever the text is. */
#define LEVEL 256
#define FIXED 4096

#define LEVELS 512

/* What is open while the path of an error is looked for, for each level, with the step that is made of it. */
#define STEP 160

/* Where nothing comes so near to a bound, in thousandths, it is no bound. */
#define NEAR 250

#define FILLED 0xAA

void *__real_malloc(size_t size);
void *__real_realloc(void *block, size_t size);
void __real_free(void *block);

/* What was asked for since the call began, what is held, and the most that was. */
static size_t asked, held, most;

/* How many requests are granted before the one that fails, where it isn't negative; whether all behind that fail too; and
 * whether one failed. */
static long granted = -1;
static int lasting, failed;

static int fails(void) {
  if (granted < 0) return 0;
  if (granted > 0) {
    granted--;
    return 0;
  }
  if (failed && !lasting) return 0;
  failed = 1;
  return 1;
}

/* Each block has its size in front. */
#define FRONT 16

static void *counted(unsigned char *start, size_t size) {
  if (!start) return NULL;
  memcpy(start, &size, sizeof size);
  asked += size;
  held += size;
  if (held > most) most = held;
  return start + FRONT;
}

void *__wrap_malloc(size_t size) { return fails() ? NULL : counted(__real_malloc(size + FRONT), size); }

void __wrap_free(void *block) {
  size_t size;
  if (!block) return;
  memcpy(&size, (unsigned char *)block - FRONT, sizeof size);
  held -= size;
  __real_free((unsigned char *)block - FRONT);
}

void *__wrap_realloc(void *block, size_t size) {
  size_t old;
  if (!block) return __wrap_malloc(size);
  if (fails()) return NULL;
  memcpy(&old, (unsigned char *)block - FRONT, sizeof old);
  unsigned char *start = __real_realloc((unsigned char *)block - FRONT, size + FRONT);
  if (start) held -= old;
  return counted(start, size);
}

/* A text that grows. Its bytes aren't counted. */
struct text {
  unsigned char *bytes;
  size_t size, room;
};

static void append(struct text *text, const void *bytes, size_t size) {
  if (text->size + size > text->room) {
    text->room = 2 * (text->room + size);
    text->bytes = __real_realloc(text->bytes, text->room);
    if (!text->bytes) {
      perror("heap");
      exit(2);
    }
  }
  memcpy(text->bytes + text->size, bytes, size);
  text->size += size;
}

static void add(struct text *text, const char *bytes) { append(text, bytes, strlen(bytes)); }

/* What the documents are made of. */
enum kind {
  NUMBERS,
  ARRAYS,
  PAIRS,
  STRINGS,
  ESCAPES,
  LONG,
  LONG_ESCAPES,
  OBJECTS,
  WIDE,
  DEEP_ARRAYS,
  DEEP_OBJECTS,
  KINDS,
  EXPONENTS = KINDS, /* in the modes that have exponents */
  MORE_DIGITS,
  TOO_MANY_DIGITS,
  ALL_KINDS
};

static const char *const kinds[] = {
    "numbers", "arrays of 70 numbers", "arrays of 2", "strings", "strings with escapes", "a long string",
    "a long string with escapes", "objects of 5 members", "a wide object", "nested arrays", "nested objects",
    "numbers with exponents", "numbers of many digits where they are written out", "a number of too many digits",
};

/* How the numbers of each kind are spelled; those of the last kind have no end. */
static const char *spelled(enum kind kind) {
  switch (kind) {
    case STRINGS: return "\"text%d\"";
    case ESCAPES: return "\"\\n%d\"";
    case EXPONENTS: return "-%d.50e1";
    case MORE_DIGITS: return "%de-28";
    default: return "%d";
  }
}

/* A document of about `count` values, in standard mode and without whitespace. */
static struct text make(enum kind kind, int count) {
  struct text text = {0};
  char part[32];
  int levels = count < LEVELS ? count : LEVELS - 1;
  add(&text, kind == WIDE ? "{" : "[");
  switch (kind) {
    case LONG:
    case LONG_ESCAPES:
      add(&text, "\"");
      for (int i = 0; i < count; i++) add(&text, kind == LONG ? "text of it" : "a \\n or \\u0001");
      add(&text, "\"");
      break;
    case DEEP_ARRAYS:
    case DEEP_OBJECTS: /* again and again */
      for (int i = 0; i < count; i += levels) {
        if (i) add(&text, ",");
        for (int level = 0; level < levels; level++) add(&text, kind == DEEP_ARRAYS ? "[" : "{\"a\":");
        add(&text, "1");
        for (int level = 0; level < levels; level++) add(&text, kind == DEEP_ARRAYS ? "]" : "}");
      }
      break;
    default:
      if (kind == ARRAYS || kind == PAIRS) add(&text, "[");
      if (kind == OBJECTS) add(&text, "{");
      for (int i = 0; i < count; i++) {
        int place = kind == ARRAYS ? i % 70 : kind == PAIRS ? i % 2 : kind == OBJECTS ? i % 5 : -1;
        if (kind == TOO_MANY_DIGITS) place = 0;
        else if (i && place) add(&text, ",");
        else if (i) add(&text, kind == OBJECTS ? "},{" : "],[");
        if (kind == OBJECTS || kind == WIDE) {
          snprintf(part, sizeof part, "\"key%d\":", kind == OBJECTS ? place : i * 7919 % count);
          add(&text, part);
        }
        snprintf(part, sizeof part, spelled(kind), 100000 + i);
        add(&text, part);
      }
      if (kind == ARRAYS || kind == PAIRS) add(&text, "]");
      if (kind == OBJECTS) add(&text, "}");
  }
  add(&text, kind == WIDE ? "}" : "]");
  return text;
}

/* The most that a text takes while it is parsed, beside what is written of it. */
static size_t bound_of(const struct text *text) {
  size_t counts[LEVELS] = {0}, depth = 0, deepest = 0;
  size_t members = 0, most_members = 0, widest_object = 0; /* of the objects that are open */
  int is_object[LEVELS] = {0};
  for (size_t i = 0; i < text->size; i++) {
    unsigned char byte = text->bytes[i];
    if (byte == '"') {
      while (text->bytes[++i] != '"') i += text->bytes[i] == '\\';
    } else if (byte == '[' || byte == '{') {
      is_object[depth] = byte == '{';
      counts[depth] = text->bytes[i + 1] != byte + 2;
      if (byte == '{') members += counts[depth];
      depth++;
      if (depth > deepest) deepest = depth;
    } else if (byte == ',') {
      counts[depth - 1]++;
      if (is_object[depth - 1]) members++;
    } else if (byte == ']' || byte == '}') {
      size_t count = counts[--depth];
      if (members > most_members) most_members = members;
      if (is_object[depth]) members -= count;
      if (is_object[depth] && count > widest_object) widest_object = count;
    }
  }
  /* Keys with escapes are decoded, and no longer than the text. */
  return FIXED + text->size + deepest * LEVEL + ROOM(most_members) * ENTRY + ROOM(widest_object) * RANK;
}

/* Each function of the library that takes memory, by a number. */
enum function { CHECK, TEXT, LINES, SORT_KEY, TEXT_AND_KEY, DOCUMENT, PART, COMPARE, MESSAGE, REASON, FUNCTIONS };

static const char *const functions[] = {
    "vizhoniku_check", "vizhoniku_text", "vizhoniku_lines", "vizhoniku_sort_key", "vizhoniku_text_and_key",
    "vizhoniku_document", "vizhoniku_part", "vizhoniku_compare", "vizhoniku_message", "vizhoniku_reason",
};

/* Calls the function, with buffers of so much room. *written is the size of all that it writes, and *status what it
 * answers. */
static void call(enum function function, uint32_t mode, const struct text *text, unsigned char *buffer,
                 unsigned char *key_buffer, size_t room, size_t *written, uint32_t *status) {
  struct vizhoniku_error error;
  size_t size = 0, key_size = 0, start;
  int32_t order;
  switch (function) {
    case CHECK: *status = vizhoniku_check(mode, text->bytes, text->size, &error); break;
    case TEXT: *status = vizhoniku_text(mode, text->bytes, text->size, buffer, room, &size, &error); break;
    case LINES: *status = vizhoniku_lines(mode, text->bytes, text->size, buffer, room, &size, &start, &error); break;
    case SORT_KEY: *status = vizhoniku_sort_key(mode, text->bytes, text->size, buffer, room, &size, &error); break;
    case TEXT_AND_KEY:
      *status = vizhoniku_text_and_key(mode, text->bytes, text->size, buffer, room, &size, key_buffer, room, &key_size,
                                       &error);
      break;
    case DOCUMENT:
      *status = vizhoniku_document(mode, text->bytes, text->size, buffer, room, &size, &error);
      break;
    case PART: *status = vizhoniku_part(mode, NULL, 0, text->bytes, text->size, buffer, room, &size, &error); break;
    case COMPARE:
      *status = vizhoniku_compare(mode, text->bytes, text->size, text->bytes, text->size, &order, &error);
      break;
    case REASON: *status = vizhoniku_reason(mode, text->bytes, text->size, buffer, room, &size); break;
    default: *status = vizhoniku_message(mode, text->bytes, text->size, buffer, room, &size); break;
  }
  *written = size + key_size;
}

/* Where a function came closest to what it may hold, and to what it may ask for, in thousandths. */
static struct {
  size_t thousandths;
  enum kind kind;
  int count;
} closest[FUNCTIONS][2];

static long calls, faults;

static void compare(enum function function, enum kind kind, int count, int is_asked, size_t took, size_t bound) {
  size_t thousandths = took * 1000 / bound;
  if (thousandths > closest[function][is_asked].thousandths) {
    closest[function][is_asked].thousandths = thousandths;
    closest[function][is_asked].kind = kind;
    closest[function][is_asked].count = count;
  }
  if (took <= bound) return;
  faults++;
  printf("%s %s %zu bytes, more than %zu: %s, %d\n", functions[function], is_asked ? "asked for" : "held", took, bound,
         kinds[kind], count);
}

/* Each function over one text, with buffers that are long enough and with none. */
static void measure(enum kind kind, int count, const struct text *text, uint32_t wanted) {
  size_t bound = bound_of(text);
  size_t room = 2 * text->size + 64, written;
  unsigned char *buffer = __real_malloc(room), *key_buffer = __real_malloc(room);
  uint32_t status;
  if (!buffer || !key_buffer) exit(2);
  for (int i = 0; i < 2 * FUNCTIONS; i++) {
    enum function function = (enum function)(i / 2);
    asked = held = most = 0;
    call(function, VIZHONIKU_STANDARD, text, buffer, key_buffer, i % 2 ? 0 : room, &written, &status);
    calls++;
    int writes = function == TEXT || function == LINES || function == SORT_KEY || function == TEXT_AND_KEY ||
                 function == DOCUMENT || function == PART;
    uint32_t due = wanted == VIZHONIKU_ACCEPTED ? (i % 2 && writes ? VIZHONIKU_TOO_SHORT : VIZHONIKU_ACCEPTED)
                                                : (i % 2 && function >= MESSAGE ? VIZHONIKU_TOO_SHORT : wanted);
    if (status != due) {
      faults++;
      printf("%s answered %u: %s, %d\n", functions[function], (unsigned)status, kinds[kind], count);
    }
    if (held) {
      faults++;
      printf("%s kept %zu bytes: %s, %d\n", functions[function], held, kinds[kind], count);
    }
    /* What is written, in a vector for each, and of an object that is out of order once more. Of two texts the sort
     * keys are held, of a document the text and the key, and of a part two copies beside the whole. */
    size_t one = bound;
    if (function != CHECK && function < MESSAGE) one += 2 * (text->size + 1);
    if (function == COMPARE || function == PART || function == DOCUMENT) one += text->size + 1;
    if (function == PART) one += text->size + 1;
    compare(function, kind, count, 0, most, one + ROOM(written));
    /* A vector that grows to its room by doubling asks for twice that. */
    compare(function, kind, count, 1, asked, 3 * (one + ROOM(written)));
  }
  __real_free(key_buffer);
  __real_free(buffer);
}

/* Whether nothing was written to a buffer that was filled. */
static int is_filled(const unsigned char *buffer, size_t size) {
  for (size_t i = 0; i < size; i++)
    if (buffer[i] != FILLED) return 0;
  return 1;
}

static void fault_over_text(enum function function, uint32_t mode, const struct text *text, const char *what) {
  faults++;
  int size = text->size < 60 ? (int)text->size : 60;
  printf("%s in mode %u %s: %.*s\n", functions[function], (unsigned)mode, what, size, (const char *)text->bytes);
}

/* The function over one text, with each request for memory failing in turn, alone and with all behind it. */
static void refuse_memory(enum function function, uint32_t mode, const struct text *text, unsigned char *buffer,
                          unsigned char *key_buffer, size_t room) {
  size_t wanted_size, size;
  uint32_t wanted, status;
  int told = 0;
  call(function, mode, text, buffer, key_buffer, room, &wanted_size, &wanted);
  for (long run = 0;; run++) {
    memset(buffer, FILLED, room);
    memset(key_buffer, FILLED, room);
    granted = run / 2;
    lasting = run % 2;
    failed = 0;
    held = 0;
    call(function, mode, text, buffer, key_buffer, room, &size, &status);
    granted = -1;
    calls++;
    if (held) fault_over_text(function, mode, text, "kept memory where some was missing");
    if (!failed) break;
    if (status == VIZHONIKU_OUT_OF_MEMORY) {
      told = 1;
      if (size || !is_filled(buffer, room) || !is_filled(key_buffer, room))
        fault_over_text(function, mode, text, "wrote where memory was missing");
    } else if (status != wanted || size != wanted_size) {
      fault_over_text(function, mode, text, "has another result where memory was missing");
    }
  }
  int is_container = *text->bytes == '[' || *text->bytes == '{';
  if (is_container && !told) fault_over_text(function, mode, text, "never tells that memory was missing");
  if (!is_container && told && function == CHECK) fault_over_text(function, mode, text, "asked for memory");
}

/* Each function over a text in each mode. */
static void refuse_memory_over(const struct text *text) {
  static const uint32_t modes[] = {VIZHONIKU_STANDARD, VIZHONIKU_EXTENDED, VIZHONIKU_JSON, VIZHONIKU_EXTENDED_JSON};
  size_t room = 2 * text->size + 64;
  unsigned char *buffer = __real_malloc(room), *key_buffer = __real_malloc(room);
  if (!buffer || !key_buffer) exit(2);
  for (size_t i = 0; i < FUNCTIONS * (sizeof modes / sizeof *modes); i++)
    refuse_memory((enum function)(i % FUNCTIONS), modes[i / FUNCTIONS], text, buffer, key_buffer, room);
  __real_free(key_buffer);
  __real_free(buffer);
}

/* Texts of one scalar, of which a check takes no memory. */
static void refuse_memory_over_scalars(void) {
  static const char *const scalars[] = {"null", "true", "-12", "1.50", "1e5", "\"abc\"", "nul", "\"a"};
  for (size_t i = 0; i < sizeof scalars / sizeof *scalars; i++) {
    struct text text = {0};
    add(&text, scalars[i]);
    refuse_memory_over(&text);
    __real_free(text.bytes);
  }
}

#define LINE_COUNT 50

/* One document on each line of a text: what is taken for one is held for the next, and no more. */
static void measure_lines(enum kind kind, int count) {
  struct text line = make(kind, count), text = {0};
  size_t one = bound_of(&line) + 2 * (line.size + 1), room, written;
  uint32_t status;
  for (int i = 0; i < LINE_COUNT; i++) {
    append(&text, line.bytes, line.size);
    add(&text, "\n");
  }
  room = 2 * text.size + 64;
  unsigned char *buffer = __real_malloc(room);
  if (!buffer) exit(2);
  asked = held = most = 0;
  call(LINES, VIZHONIKU_STANDARD, &text, buffer, NULL, room, &written, &status);
  calls++;
  if (status != VIZHONIKU_ACCEPTED || held) {
    faults++;
    printf("%s of %d lines answered %u, and kept %zu bytes: %s, %d\n", functions[LINES], LINE_COUNT, (unsigned)status,
           held, kinds[kind], count);
  }
  compare(LINES, kind, count, 0, most, one + ROOM(written));
  compare(LINES, kind, count, 1, asked, 3 * (LINE_COUNT * one + ROOM(written)));
  __real_free(buffer);
  __real_free(text.bytes);
  __real_free(line.bytes);
}

/* Each function over sort keys. The first ones take no memory. */
enum key_function {
  KEY_CHECK,
  KEY_COUNT,
  KEY_NEXT,
  KEY_MEMBER,
  KEY_ITEM,
  KEY_PART,
  KEY_STRING,
  KEY_CONTAINS,
  DOCUMENT_CHECK,
  WALK,
  WALK_MEMBER,
  TABLE_MEMBER,
  TABLE_CHECK,
  KEY_ESCAPED_PART,
  KEY_TEXT,
  DOCUMENT_TEXT,
  DOCUMENT_PART,
  DOCUMENT_RANGE,
  DOCUMENT_NEXT,
  DOCUMENT_SET,
  DOCUMENT_REMOVE,
  DOCUMENT_PUT,
  DOCUMENT_PUSH,
  DOCUMENT_INSERT,
  DOCUMENT_MERGE,
  DOCUMENT_WITHOUT,
  DOCUMENT_STRIP,
  TABLE,
  TEXT_WITH_ZEROS,
  KEY_OF_STRING,
  KEY_OF_INTEGER,
  PATH_STEP,
  ERROR_PATH,
  KEY_FUNCTIONS
};

#define TAKES_MEMORY KEY_ESCAPED_PART

static const char *const key_functions[] = {
    "vizhoniku_key_check", "vizhoniku_key_count", "vizhoniku_key_next", "vizhoniku_key_member", "vizhoniku_key_item",
    "vizhoniku_key_part", "vizhoniku_key_string", "vizhoniku_key_contains", "vizhoniku_document_check",
    "vizhoniku_walk_next", "vizhoniku_walk_member", "vizhoniku_table_member", "vizhoniku_table_check",
    "vizhoniku_key_part with an escape", "vizhoniku_key_text",
    "vizhoniku_document_text", "vizhoniku_document_part",
    "vizhoniku_document_range", "vizhoniku_document_next", "vizhoniku_document_set", "vizhoniku_document_remove",
    "vizhoniku_document_put", "vizhoniku_document_push", "vizhoniku_document_insert", "vizhoniku_document_merge",
    "vizhoniku_document_without", "vizhoniku_document_strip_nulls", "vizhoniku_table",
    "vizhoniku_text_with_zeros",
    "vizhoniku_key_of_string", "vizhoniku_key_of_integer", "vizhoniku_path_step", "vizhoniku_error_path",
};

/* What the function over zeros takes: the zeros of a text, which is passed in the place of a key as that of the functions
 * behind it is, and that text with the fewest digits. */
static struct text zeros, shortest;

/* Why the text is rejected of which vizhoniku_error_path writes the path. */
static struct vizhoniku_error why;

/* The last item of an array or the last member of an object, of those that documents have. */
#define PATH (const unsigned char *)"/0"
#define NAME (const unsigned char *)"key0"

/* Calls the function over the key. *size is the size of what it writes, 0 where it writes nothing. */
static uint32_t call_over_key(enum key_function function, const struct text *key, unsigned char *buffer, size_t room,
                              size_t *size) {
  static const unsigned char null_key[] = {0xD3}, names[] = {0xD1, 'k', 'e', 'y', '0', 0, 1, 0xD3, 0, 0};
  struct vizhoniku_key_cursor cursor;
  struct vizhoniku_document_cursor document_cursor;
  struct vizhoniku_key_entry entry;
  struct vizhoniku_walk walk;
  struct vizhoniku_event event;
  size_t offset, part_size;
  uint32_t status;
  *size = 0;
  switch (function) {
    case KEY_CHECK: return vizhoniku_key_check(key->bytes, key->size);
    case KEY_COUNT: return vizhoniku_key_count(key->bytes, key->size, &part_size);
    case KEY_NEXT:
      status = vizhoniku_key_begin(key->bytes, key->size, &cursor);
      while (status == VIZHONIKU_ACCEPTED) status = vizhoniku_key_next(key->bytes, key->size, &cursor, &entry);
      return status;
    case KEY_MEMBER: return vizhoniku_key_member(key->bytes, key->size, NAME, 4, &offset, &part_size);
    case KEY_ITEM: return vizhoniku_key_item(key->bytes, key->size, -1, &offset, &part_size);
    case KEY_PART: return vizhoniku_key_part(key->bytes, key->size, PATH, 2, &offset, &part_size);
    case KEY_STRING:
      if (vizhoniku_key_part(key->bytes, key->size, PATH, 2, &offset, &part_size) != VIZHONIKU_ACCEPTED)
        return VIZHONIKU_NO_PART;
      return vizhoniku_key_string(key->bytes + offset, part_size, buffer, room, size);
    case KEY_CONTAINS: return vizhoniku_key_contains(key->bytes, key->size, null_key, sizeof null_key);
    case KEY_ESCAPED_PART:
      return vizhoniku_key_part(key->bytes, key->size, (const unsigned char *)"/~0/a~1b", 8, &offset, &part_size);
    case KEY_TEXT: return vizhoniku_key_text(key->bytes, key->size, buffer, room, size);
    case DOCUMENT_CHECK: return vizhoniku_document_check(key->bytes, key->size);
    case WALK:
      status = vizhoniku_walk_begin(key->bytes, key->size, &walk, &event);
      while (status == VIZHONIKU_ACCEPTED) status = vizhoniku_walk_next(key->bytes, key->size, &walk, &event);
      return status;
    case WALK_MEMBER:
      status = vizhoniku_walk_begin(key->bytes, key->size, &walk, &event);
      if (status != VIZHONIKU_ACCEPTED) return status;
      return vizhoniku_walk_member(key->bytes, key->size, &walk, NAME, 4);
    case TABLE_MEMBER:
      part_size = vizhoniku_table_size(key->bytes, key->size);
      return vizhoniku_table_member(key->bytes, key->size, key->bytes + key->size - part_size, part_size, NAME, 4,
                                    &offset, &part_size);
    case TABLE_CHECK: return vizhoniku_table_check(key->bytes, key->size, key->bytes, key->size);
    case TABLE: return vizhoniku_table(key->bytes, key->size, buffer, room, size);
    case DOCUMENT_TEXT: return vizhoniku_document_text(key->bytes, key->size, buffer, room, size);
    case DOCUMENT_PART: return vizhoniku_document_part(key->bytes, key->size, PATH, 2, buffer, room, size);
    case DOCUMENT_RANGE: return vizhoniku_document_range(key->bytes, key->size, 0, key->size, buffer, room, size);
    case DOCUMENT_NEXT:
      status = vizhoniku_document_begin(key->bytes, key->size, &document_cursor);
      if (status != VIZHONIKU_ACCEPTED) return status;
      return vizhoniku_document_next(key->bytes, key->size, &document_cursor, &entry, buffer, room, size);
    case DOCUMENT_SET:
      return vizhoniku_document_set(key->bytes, key->size, PATH, 2, null_key, sizeof null_key, 1, buffer, room, size);
    case DOCUMENT_REMOVE: return vizhoniku_document_remove(key->bytes, key->size, PATH, 2, buffer, room, size);
    case DOCUMENT_PUT:
      return vizhoniku_document_put(key->bytes, key->size, NAME, 4, null_key, sizeof null_key, buffer, room, size);
    case DOCUMENT_PUSH:
      return vizhoniku_document_push(key->bytes, key->size, null_key, sizeof null_key, buffer, room, size);
    case DOCUMENT_INSERT:
      return vizhoniku_document_insert(key->bytes, key->size, PATH, 2, null_key, sizeof null_key, 1, buffer, room,
                                       size);
    case DOCUMENT_WITHOUT:
      return vizhoniku_document_without(key->bytes, key->size, names, sizeof names, buffer, room, size);
    case DOCUMENT_STRIP: return vizhoniku_document_strip_nulls(key->bytes, key->size, 1, buffer, room, size);
    case TEXT_WITH_ZEROS:
      return vizhoniku_text_with_zeros(shortest.bytes, shortest.size, zeros.bytes, zeros.size, buffer, room, size);
    case KEY_OF_STRING: return vizhoniku_key_of_string(key->bytes, key->size, buffer, room, size);
    case KEY_OF_INTEGER: return vizhoniku_key_of_integer((int64_t)key->size, buffer, room, size);
    case PATH_STEP: return vizhoniku_path_step(key->bytes, key->size, buffer, room, size);
    case ERROR_PATH:
      return vizhoniku_error_path(VIZHONIKU_JSON, key->bytes, key->size, &why, buffer, room, size);
    default: return vizhoniku_document_merge(key->bytes, key->size, key->bytes, key->size, buffer, room, size);
  }
}

/* How near each function that takes memory came to what it may hold, in thousandths. */
static size_t nearest[KEY_FUNCTIONS];

static void fault_over_key(enum key_function function, enum kind kind, int count, const char *what) {
  faults++;
  printf("%s %s: %s, %d\n", key_functions[function], what, kinds[kind], count);
}

/* How many arrays and objects are open at most. A string may lack its end. */
static size_t levels_of(const struct text *text) {
  size_t levels = 0, deepest = 0;
  for (size_t i = 0; i < text->size; i++) {
    unsigned char byte = text->bytes[i];
    if (byte == '"') {
      while (++i < text->size && text->bytes[i] != '"') i += text->bytes[i] == '\\';
    } else if (byte == '[' || byte == '{') {
      levels++;
      if (levels > deepest) deepest = levels;
    } else if (byte == ']' || byte == '}') {
      levels--;
    }
  }
  return deepest;
}

/* How many members begin. A string may lack its end. */
static size_t members_of(const struct text *text) {
  size_t members = 0;
  for (size_t i = 0; i < text->size; i++) {
    if (text->bytes[i] == '"') {
      while (++i < text->size && text->bytes[i] != '"') i += text->bytes[i] == '\\';
    } else if (text->bytes[i] == ':') {
      members++;
    }
  }
  return members;
}

/* What the key of each function may hold at most: nothing, or what is written of it. A text is at most six times as
 * long as its key, and the others twice. A path takes some bytes more. The key of an integer has at most 11 bytes. Zeros
 * take what is written of them alone, and so does a table. For the path of an error the text is copied into a vector, and
 * what is made of it is checked. */
static size_t bound_over_key(enum key_function function, const struct text *key, size_t written) {
  if (function < TAKES_MEMORY) return 0;
  if (function == KEY_ESCAPED_PART) return 256;
  if (function == KEY_OF_INTEGER) return 16;
  if (function == TABLE) return 512 + ROOM(written);
  if (function == ERROR_PATH)
    return 512 + ROOM(key->size) + ROOM(written) + levels_of(key) * (STEP + LEVEL) +
           ROOM(members_of(key)) * (ENTRY + RANK);
  if (function >= TEXT_WITH_ZEROS) return 512 + ROOM(written);
  return 512 + 3 * key->size / 2 + ROOM(written);
}

/* Each function over one key, with room enough, and then with each request for memory failing in turn. */
static void measure_over_key(enum kind kind, int count, const struct text *key, enum key_function first,
                             enum key_function end, int with_failures) {
  size_t room = 6 * key->size + 64, written, size;
  unsigned char *buffer = __real_malloc(room);
  if (!buffer) exit(2);
  for (int i = first; i < (int)end; i++) {
    enum key_function function = (enum key_function)i;
    asked = held = most = 0;
    uint32_t status = call_over_key(function, key, buffer, room, &written);
    size_t bound = bound_over_key(function, key, written);
    calls++;
    if (status != VIZHONIKU_ACCEPTED && status != VIZHONIKU_NO_PART && status != VIZHONIKU_NO_KEY &&
        status != VIZHONIKU_TOO_DEEP && !(kind == TOO_MANY_DIGITS && status == VIZHONIKU_REJECTED))
      fault_over_key(function, kind, count, "has another status");
    if (held) fault_over_key(function, kind, count, "kept memory");
    if (bound && most * 1000 / bound > nearest[function]) nearest[function] = most * 1000 / bound;
    if (most > bound) fault_over_key(function, kind, count, "held more than its bound");
    /* For the path of an error the text is copied three times. */
    if (asked > (function == ERROR_PATH ? 9 : 3) * bound) fault_over_key(function, kind, count, "asked for more than its bound");
    int told = 0, met = 0;
    for (long run = 0; with_failures; run++) { /* each request fails alone, and with all behind it */
      memset(buffer, FILLED, room);
      granted = run / 2;
      lasting = run % 2;
      failed = 0;
      held = 0;
      uint32_t other = call_over_key(function, key, buffer, room, &size);
      granted = -1;
      calls++;
      if (held) fault_over_key(function, kind, count, "kept memory where some was missing");
      if (!failed) break;
      met = 1;
      if (other == VIZHONIKU_OUT_OF_MEMORY) {
        told = 1;
        if (size || !is_filled(buffer, room))
          fault_over_key(function, kind, count, "wrote where memory was missing");
      } else if (other != status || size != written)
        fault_over_key(function, kind, count, "has another result where memory was missing");
    }
    if (met && function < TAKES_MEMORY) fault_over_key(function, kind, count, "asked for memory");
    if (!with_failures) continue;
    if (met && !told) fault_over_key(function, kind, count, "never tells that memory was missing");
    if (!met && written && function >= TAKES_MEMORY) fault_over_key(function, kind, count, "asked for no memory");
  }
  __real_free(buffer);
}

/* Decimals, each of which a zero ends: the text with these zeros. */
static void measure_zeros(int count) {
  struct text text = {0};
  zeros.size = shortest.size = 0;
  for (int i = 0; i < count; i++) {
    add(&text, i ? ",12345.50" : "[12345.50");
    add(&shortest, i ? ",12345.5" : "[12345.5");
    append(&zeros, "\0\1", 2);
  }
  add(&text, count ? "]" : "[]");
  add(&shortest, count ? "]" : "[]");
  measure_over_key(NUMBERS, count, &text, TEXT_WITH_ZEROS, KEY_OF_STRING, 1);
  __real_free(text.bytes);
}

/* The calls over the bytes of a text as a string, and the path of the error where the text ends too early. */
static void measure_numbers(enum kind kind, int count) {
  struct text text = make(kind, count);
  if (kind == TOO_MANY_DIGITS) text.size--, add(&text, "e0]");
  measure_over_key(kind, count, &text, KEY_OF_STRING, ERROR_PATH, 1);
  /* It lacks its last byte, or what begins with its last number. */
  do text.size--;
  while ((kind == DEEP_ARRAYS || kind == DEEP_OBJECTS) && text.bytes[text.size] != '1');
  vizhoniku_check(VIZHONIKU_JSON, text.bytes, text.size, &why);
  /* A path takes a request for each key of the text. */
  measure_over_key(kind, count, &text, ERROR_PATH, KEY_FUNCTIONS, count <= 70);
  __real_free(text.bytes);
}

/* The sort key of a text. */
static struct text key_of(const struct text *text) {
  struct vizhoniku_error error;
  struct text key = {__real_malloc(2 * text->size + 64), 0, 2 * text->size + 64};
  if (!key.bytes || vizhoniku_sort_key(VIZHONIKU_STANDARD, text->bytes, text->size, key.bytes, key.room, &key.size,
                                       &error) != VIZHONIKU_ACCEPTED)
    exit(2);
  return key;
}

int main(void) {
  static const int counts[] = {0, 1, 2, 3, 14, 70, 700, 7001, 70000};
  for (int kind = NUMBERS; kind < KINDS; kind++) {
    for (size_t i = 0; i < sizeof counts / sizeof *counts; i++) {
      if (kind >= DEEP_ARRAYS && counts[i] < 1) continue;
      struct text text = make((enum kind)kind, counts[i]);
      measure((enum kind)kind, counts[i], &text, VIZHONIKU_ACCEPTED);
      if (counts[i] <= 70) refuse_memory_over(&text);
      struct text key = key_of(&text);
      measure_over_key((enum kind)kind, counts[i], &key, KEY_CHECK, TEXT_WITH_ZEROS, 1);
      __real_free(key.bytes);
      add(&text, "?"); /* a byte too much */
      measure((enum kind)kind, counts[i], &text, VIZHONIKU_REJECTED);
      if (counts[i] <= 14) refuse_memory_over(&text);
      __real_free(text.bytes);
      if (counts[i] <= 700) measure_lines((enum kind)kind, counts[i]);
    }
  }
  refuse_memory_over_scalars();
  for (size_t i = 0; i < sizeof counts / sizeof *counts; i++) measure_zeros(counts[i]);
  for (int kind = NUMBERS; kind < ALL_KINDS; kind++)
    for (size_t i = 0; i < sizeof counts / sizeof *counts && counts[i] <= 7001; i++)
      if (counts[i] > 0) measure_numbers((enum kind)kind, counts[i]);
  for (int i = 0; i < FUNCTIONS; i++) {
    printf("%s", functions[i]);
    for (int is_asked = 0; is_asked < 2; is_asked++)
      printf("%s %zu.%zu %% of its bound: %s, %d", is_asked ? "; asked for" : " held",
             closest[i][is_asked].thousandths / 10, closest[i][is_asked].thousandths % 10,
             kinds[closest[i][is_asked].kind], closest[i][is_asked].count);
    printf("\n");
    if (closest[i][0].thousandths < NEAR || closest[i][1].thousandths < NEAR) {
      faults++;
      printf("that is so far from it that it is none\n");
    }
  }
  for (int i = TAKES_MEMORY; i < KEY_FUNCTIONS; i++) {
    printf("%s held %zu.%zu %% of its bound\n", key_functions[i], nearest[i] / 10, nearest[i] % 10);
    if (nearest[i] < NEAR) {
      faults++;
      printf("that is so far from it that it is none\n");
    }
  }
  printf("%ld calls, %ld faults\n", calls, faults);
  return faults != 0;
}
