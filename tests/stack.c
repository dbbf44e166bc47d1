/* Measures how much machine stack the functions of the library take, over texts that nest as deep as texts may, and
 * over the sort keys of these.
 *
 * usage: stack [KB]
 *
 * Each call runs in a thread of its own, whose stack has KB kilobytes (128) and is filled with one byte before. What
 * lies lowest of what no longer is that byte tells how much the call took. A page below the stack ends the process where
 * it is used up. For some texts each request for memory in turn is refused, by the functions below that the linker puts
 * in the place of the C library's (--wrap). Prints the most that each call took, where it makes a value and where it
 * makes none. The status is 1 where that is more than it may be, or than docs/C.md says, and where it is less for all
 * functions of which docs/C.md says the same. */
#define _GNU_SOURCE
#include <pthread.h>
#include <stdint.h>
#include <stdio.h>
#include <stdlib.h>
#include <string.h>
#include <sys/mman.h>

#include "vizhoniku.h"

/* What a call may take, in bytes: where a value is made, and where none is. A value is made where objects out of order
 * stand around most of a text at more than eight levels. */
#define LIMIT (112 * 1024)
#define SMALL_LIMIT (32 * 1024)

/* As many arrays and objects may be open at once. */
#define LEVELS 512

/* What docs/C.md says is in whole KB, and may be as many bytes more than what is measured. */
#define ROUNDED 2048

#define PAGE 4096
#define FILLED 0xA5A5A5A5A5A5A5A5

void *__real_malloc(size_t size);
void *__real_realloc(void *block, size_t size);

/* Requests since the call began, and which of them is refused, from 0 on, or -1. */
static long asked, refused = -1;

void *__wrap_malloc(size_t size) { return asked++ == refused ? NULL : __real_malloc(size); }

void *__wrap_realloc(void *block, size_t size) { return asked++ == refused ? NULL : __real_realloc(block, size); }

static void *checked(void *block) {
  if (!block) {
    perror("stack");
    exit(2);
  }
  return block;
}

/* A text that grows. */
struct text {
  unsigned char *bytes;
  size_t size, room;
};

static void add(struct text *text, const char *bytes) {
  size_t size = strlen(bytes);
  if (text->size + size > text->room) {
    text->room = 2 * (text->room + size);
    text->bytes = checked(__real_realloc(text->bytes, text->room));
  }
  memcpy(text->bytes + text->size, bytes, size);
  text->size += size;
}

/* What stands in one another. */
enum kind { ARRAYS, OBJECTS, IN_TURN, OUT_OF_ORDER, ALIKE };

static const char *const kinds[] = {
    "arrays", "objects", "arrays and objects in turn", "objects out of order",
    "an object whose keys are alike in front",
};

/* What stands before or behind the value, or is wrong inside. */
enum end {
  WHOLE,
  COMMENT,     /* a comment that isn't UTF-8 before it, in extended mode */
  TRAILING,    /* a byte too much behind it */
  UNCLOSED,    /* the outermost lacks its end */
  INNERMOST,   /* the innermost holds what is no value */
  EXPONENT,    /* the innermost is a number with an exponent */
  TOO_DEEP,    /* one more than may be open */
  KEY_AGAIN,   /* the key of the outermost's deep member comes again */
  KEY_BEFORE,  /* and came before */
  ENDS
};

static const char *const ends[] = {
    "", ", behind a comment that isn't UTF-8", ", a byte too much behind", ", unclosed", ", a fault in the innermost",
    ", an exponent in the innermost", ", one too deep", ", a key again behind", ", a key again before",
};

struct shape {
  enum kind kind;
  int members; /* how many members or items each array and object has */
  int is_first; /* whether the deep one is the first of them, else the last */
  enum end end;
};

static int is_object(const struct shape *shape, int level) {
  return shape->kind == OBJECTS || shape->kind == OUT_OF_ORDER || (shape->kind == IN_TURN && level % 2 == 1);
}

/* The key of the deep one, below those of the others or above them. */
static const char *deep_key(const struct shape *shape) {
  return (shape->kind == OUT_OF_ORDER) != shape->is_first ? "a" : "z";
}

/* The members of one level that hold nothing, which stand on one side of the deep one. */
static void add_shallow(struct text *text, const struct shape *shape, int level) {
  char key[16];
  for (int i = 1; i < shape->members; i++) {
    if (shape->is_first) add(text, ",");
    if (is_object(shape, level)) {
      snprintf(key, sizeof key, "\"k%d\":", 10000 + i);
      add(text, key);
    }
    add(text, "0");
    if (!shape->is_first) add(text, ",");
  }
}

/* One object with some 600 members in no order, most of whose keys differ from the eighth byte on, and one in each byte
 * before. */
static struct text make_alike(void) {
  struct text text = {0};
  char member[24];
  add(&text, "{");
  for (char letter = 'z'; letter >= 'A'; letter--) {
    for (int digit = 9; digit >= 0 && letter != '\\'; digit--) {
      snprintf(member, sizeof member, "\"aaaaaaa%c%d\":0,", letter, digit);
      add(&text, member);
    }
  }
  for (int same = 7; same >= 0; same--) {
    snprintf(member, sizeof member, "\"%.*sb\":0%s", same, "aaaaaaa", same ? "," : "}");
    add(&text, member);
  }
  return text;
}

/* The path of the innermost value. */
static struct text make_path(const struct shape *shape) {
  struct text path = {0};
  if (shape->kind == ALIKE) {
    add(&path, "/aaaaaaaA0");
    return path;
  }
  char index[16];
  snprintf(index, sizeof index, "%d", shape->is_first ? 0 : shape->members - 1);
  for (int level = 0; level < LEVELS; level++) {
    add(&path, "/");
    add(&path, is_object(shape, level) ? deep_key(shape) : index);
  }
  return path;
}

static struct text make(const struct shape *shape) {
  if (shape->kind == ALIKE) return make_alike();
  struct text text = {0};
  int levels = shape->end == TOO_DEEP ? LEVELS + 1 : LEVELS;
  char key[8];
  snprintf(key, sizeof key, "\"%s\":", deep_key(shape));
  if (shape->end == COMMENT) add(&text, "/*\xff*/");
  for (int level = 0; level < levels; level++) {
    add(&text, is_object(shape, level) ? "{" : "[");
    if (!shape->is_first) add_shallow(&text, shape, level);
    if (!is_object(shape, level)) continue;
    if (shape->end == KEY_BEFORE && level == 0) {
      add(&text, key);
      add(&text, "0,");
    }
    add(&text, key);
  }
  add(&text, shape->end == INNERMOST ? "?" : shape->end == EXPONENT ? "12.345678901234567890e-7" : "0");
  for (int level = levels; level-- > 0;) {
    if (shape->is_first) add_shallow(&text, shape, level);
    if (shape->end == KEY_AGAIN && level == 0) {
      add(&text, ",");
      add(&text, key);
      add(&text, "0");
    }
    if (shape->end != UNCLOSED || level > 0) add(&text, is_object(shape, level) ? "}" : "]");
  }
  if (shape->end == TRAILING) add(&text, "?");
  return text;
}

/* Each function of the library that reads a text, then those that read a sort key, and then those that reject no text,
 * by a number. */
enum function {
  CHECK, TEXT, LINES, SORT_KEY, TEXT_AND_KEY, DOCUMENT, PART, COMPARE, MESSAGE, REASON, KEY_CHECK, KEY_TEXT, KEY_PART,
  KEY_COUNT, KEY_CONTAINS, DOCUMENT_CHECK, DOCUMENT_TEXT, DOCUMENT_PART,
  DOCUMENT_NEXT, DOCUMENT_SET, DOCUMENT_REMOVE, DOCUMENT_INSERT, DOCUMENT_MERGE, DOCUMENT_STRIP, WALK, WALK_MEMBER,
  TABLE, TABLE_CHECK, TEXT_WITH_ZEROS, ERROR_PATH, FUNCTIONS
};

static const char *const functions[] = {
    "vizhoniku_check", "vizhoniku_text", "vizhoniku_lines", "vizhoniku_sort_key", "vizhoniku_text_and_key",
    "vizhoniku_document", "vizhoniku_part",
    "vizhoniku_compare", "vizhoniku_message", "vizhoniku_reason", "vizhoniku_key_check", "vizhoniku_key_text",
    "vizhoniku_key_part",
    "vizhoniku_key_count", "vizhoniku_key_contains",
    "vizhoniku_document_check", "vizhoniku_document_text", "vizhoniku_document_part",
    "vizhoniku_document_next", "vizhoniku_document_set", "vizhoniku_document_remove", "vizhoniku_document_insert",
    "vizhoniku_document_merge", "vizhoniku_document_strip_nulls", "vizhoniku_walk_next", "vizhoniku_walk_member",
    "vizhoniku_table",
    "vizhoniku_table_check", "vizhoniku_text_with_zeros", "vizhoniku_error_path",
};

/* What docs/C.md says that each takes, in KB: where no value is made, and where one is. */
static const size_t told[FUNCTIONS][2] = {
    [CHECK] = {3, 0},         [TEXT] = {20, 110},      [SORT_KEY] = {20, 110},     [TEXT_AND_KEY] = {20, 110},
    [PART] = {4, 110},        [COMPARE] = {20, 110},   [MESSAGE] = {3, 0},         [KEY_CHECK] = {5, 0},
    [KEY_TEXT] = {2, 0},      [KEY_PART] = {2, 0},     [KEY_COUNT] = {2, 0},       [KEY_CONTAINS] = {25, 0},
    [ERROR_PATH] = {4, 0},    [REASON] = {3, 0},       [LINES] = {20, 110},        [TEXT_WITH_ZEROS] = {2, 0},
    [DOCUMENT] = {20, 110},   [DOCUMENT_CHECK] = {5, 0}, [DOCUMENT_TEXT] = {3, 0}, [DOCUMENT_PART] = {2, 0},
    [DOCUMENT_NEXT] = {2, 0}, [DOCUMENT_SET] = {2, 0}, [DOCUMENT_INSERT] = {2, 0}, [DOCUMENT_REMOVE] = {2, 0},
    [DOCUMENT_MERGE] = {3, 0}, [DOCUMENT_STRIP] = {2, 0}, [WALK] = {2, 0},         [WALK_MEMBER] = {2, 0},
    [TABLE] = {2, 0},         [TABLE_CHECK] = {2, 0},
};

struct call {
  enum function function;
  uint32_t mode;
  const struct text *text, *path;
  unsigned char *buffer, *key_buffer, *key, *table;
  size_t room, key_size, table_size; /* the key has no bytes where the text is refused */
  const struct vizhoniku_error *why; /* in the call's mode */
  struct vizhoniku_walk walk; /* here, since what is on the machine stack counts */
  struct vizhoniku_event event;
  uint32_t status;
  const unsigned char *top; /* the machine stack where the call began */
};

static void *run(void *given) {
  struct call *call = given;
  const unsigned char *bytes = call->text->bytes;
  size_t text_size = call->text->size, size, key_size;
  struct vizhoniku_error error;
  struct vizhoniku_document_cursor cursor;
  struct vizhoniku_key_entry entry;
  int32_t order;
  call->top = __builtin_frame_address(0);
  switch (call->function) {
    case CHECK: call->status = vizhoniku_check(call->mode, bytes, text_size, &error); break;
    case TEXT:
      call->status = vizhoniku_text(call->mode, bytes, text_size, call->buffer, call->room, &size, &error);
      break;
    case LINES:
      call->status = vizhoniku_lines(call->mode, bytes, text_size, call->buffer, call->room, &size, &key_size, &error);
      break;
    case SORT_KEY:
      call->status = vizhoniku_sort_key(call->mode, bytes, text_size, call->buffer, call->room, &size, &error);
      break;
    case TEXT_AND_KEY:
      call->status = vizhoniku_text_and_key(call->mode, bytes, text_size, call->buffer, call->room, &size,
                                            call->key_buffer, call->room, &key_size, &error);
      break;
    case PART:
      call->status = vizhoniku_part(call->mode, call->path->bytes, call->path->size, bytes, text_size, call->buffer,
                                    call->room, &size, &error);
      break;
    case COMPARE: call->status = vizhoniku_compare(call->mode, bytes, text_size, bytes, text_size, &order, &error); break;
    case KEY_CHECK: call->status = vizhoniku_key_check(call->key, call->key_size); break;
    case KEY_TEXT:
      call->status = vizhoniku_key_text(call->key, call->key_size, call->buffer, call->room, &size);
      break;
    case KEY_PART:
      call->status = vizhoniku_key_part(call->key, call->key_size, call->path->bytes, call->path->size, &size,
                                        &key_size);
      break;
    case KEY_COUNT: call->status = vizhoniku_key_count(call->key, call->key_size, &size); break;
    case KEY_CONTAINS:
      call->status = vizhoniku_key_contains(call->key, call->key_size, call->key, call->key_size);
      break;
    case DOCUMENT:
      call->status = vizhoniku_document(call->mode, bytes, text_size, call->buffer, call->room, &size, &error);
      break;
    case DOCUMENT_CHECK: call->status = vizhoniku_document_check(call->key, call->key_size); break;
    case DOCUMENT_TEXT:
      call->status = vizhoniku_document_text(call->key, call->key_size, call->buffer, call->room, &size);
      break;
    case DOCUMENT_PART:
      call->status = vizhoniku_document_part(call->key, call->key_size, call->path->bytes, call->path->size,
                                             call->buffer, call->room, &size);
      break;
    case DOCUMENT_NEXT:
      call->status = vizhoniku_document_begin(call->key, call->key_size, &cursor);
      while (call->status == VIZHONIKU_ACCEPTED)
        call->status = vizhoniku_document_next(call->key, call->key_size, &cursor, &entry, call->buffer, call->room,
                                               &size);
      if (call->status == VIZHONIKU_NO_PART) call->status = VIZHONIKU_ACCEPTED; /* all parts were written */
      break;
    case DOCUMENT_SET:
      /* The whole is set for the deepest part, which is mostly too deep. */
      call->status = vizhoniku_document_set(call->key, call->key_size, call->path->bytes, call->path->size, call->key,
                                            call->key_size, 1, call->buffer, call->room, &size);
      break;
    case DOCUMENT_REMOVE:
      call->status = vizhoniku_document_remove(call->key, call->key_size, call->path->bytes, call->path->size,
                                               call->buffer, call->room, &size);
      break;
    case DOCUMENT_INSERT:
      call->status = vizhoniku_document_insert(call->key, call->key_size, call->path->bytes, call->path->size,
                                               call->key, call->key_size, 0, call->buffer, call->room, &size);
      if (call->status == VIZHONIKU_PRESENT) call->status = VIZHONIKU_ACCEPTED; /* nothing is put over a member */
      break;
    case DOCUMENT_MERGE:
      call->status = vizhoniku_document_merge(call->key, call->key_size, call->key, call->key_size, call->buffer,
                                              call->room, &size);
      break;
    case DOCUMENT_STRIP:
      call->status = vizhoniku_document_strip_nulls(call->key, call->key_size, 1, call->buffer, call->room, &size);
      break;
    case WALK:
      call->status = vizhoniku_walk_begin(call->key, call->key_size, &call->walk, &call->event);
      while (call->status == VIZHONIKU_ACCEPTED)
        call->status = vizhoniku_walk_next(call->key, call->key_size, &call->walk, &call->event);
      if (call->status == VIZHONIKU_NO_PART) call->status = VIZHONIKU_ACCEPTED; /* all events were reported */
      break;
    case WALK_MEMBER:
      call->status = vizhoniku_walk_begin(call->key, call->key_size, &call->walk, &call->event);
      if (call->status != VIZHONIKU_ACCEPTED) break;
      call->status = vizhoniku_walk_member(call->key, call->key_size, &call->walk, (const unsigned char *)"\xFF", 1);
      if (call->status == VIZHONIKU_NO_PART) call->status = VIZHONIKU_ACCEPTED; /* all members were passed */
      break;
    case TABLE:
      call->status = vizhoniku_table(call->key, call->key_size, call->buffer, call->room, &size);
      break;
    case TABLE_CHECK:
      call->status = vizhoniku_table_check(call->key, call->key_size, call->table, call->table_size);
      break;
    case TEXT_WITH_ZEROS:
      call->status = vizhoniku_text_with_zeros(bytes, text_size, NULL, 0, call->buffer, call->room, &size);
      break;
    case ERROR_PATH:
      call->status = vizhoniku_error_path(call->mode, bytes, text_size, call->why, call->buffer, call->room, &size);
      break;
    case REASON: call->status = vizhoniku_reason(call->mode, bytes, text_size, call->buffer, call->room, &size); break;
    default: call->status = vizhoniku_message(call->mode, bytes, text_size, call->buffer, call->room, &size); break;
  }
  return NULL;
}

/* A machine stack, as words. What a call has changed of it is filled again. */
struct stack {
  uint64_t *words;
  size_t size; /* in bytes */
};

static void fill(const struct stack *stack, size_t from) {
  for (size_t i = from; i < stack->size / sizeof *stack->words; i++) stack->words[i] = FILLED;
}

/* How much machine stack the call takes in a thread of its own. */
static size_t taken(struct call *call, const struct stack *stack) {
  pthread_attr_t attributes;
  pthread_t thread;
  asked = 0;
  if (pthread_attr_init(&attributes) || pthread_attr_setstack(&attributes, stack->words, stack->size) ||
      pthread_create(&thread, &attributes, run, call) || pthread_join(thread, NULL))
    exit(2);
  pthread_attr_destroy(&attributes);
  size_t lowest = 0;
  while (stack->words[lowest] == FILLED) lowest++;
  fill(stack, lowest);
  return (size_t)(call->top - (const unsigned char *)(stack->words + lowest));
}

/* The most that each function took where it made no value and where it made one, and over which text. */
static size_t most[FUNCTIONS][2];
static struct shape where[FUNCTIONS][2];
static long runs, wrong, tables;

static int makes_value(enum function function, const struct shape *shape) {
  return shape->kind == OUT_OF_ORDER && function != CHECK && function < MESSAGE;
}

/* Whether the key's value has a table of members. */
static int has_table(const struct call *call) {
  size_t count;
  return call->key_size >= 256 && call->key_size <= 65535 &&
         vizhoniku_key_kind(call->key, call->key_size) == VIZHONIKU_OBJECT &&
         vizhoniku_key_count(call->key, call->key_size, &count) == VIZHONIKU_ACCEPTED && count >= 4;
}

/* Each function over one text, with ample memory, and, in extended mode and with one member, with each request refused in
 * turn. */
static void measure(const struct shape *shape, const struct stack *stack) {
  struct text text = make(shape), path = make_path(shape);
  struct call call = {.text = &text, .path = &path, .room = 2 * text.size + 64};
  call.buffer = checked(__real_malloc(call.room));
  call.key_buffer = checked(__real_malloc(call.room));
  call.key = checked(__real_malloc(call.room));
  call.table = checked(__real_malloc(call.room));
  struct vizhoniku_error error, why[2];
  vizhoniku_sort_key(VIZHONIKU_EXTENDED, text.bytes, text.size, call.key, call.room, &call.key_size, &error);
  vizhoniku_table(call.key, call.key_size, call.table, call.room, &call.table_size);
  for (uint32_t mode = 0; mode < 2; mode++) vizhoniku_check(mode, text.bytes, text.size, &why[mode]);
  for (int i = 0; i < 2 * FUNCTIONS; i++) {
    uint32_t whole = VIZHONIKU_ACCEPTED;
    call.function = (enum function)(i / 2);
    call.mode = (uint32_t)(i % 2);
    call.why = &why[call.mode];
    int is_of_text = call.function < KEY_CHECK || call.function == ERROR_PATH;
    if (!is_of_text && call.mode != VIZHONIKU_EXTENDED) continue;
    if (call.function >= KEY_CHECK && call.function < ERROR_PATH && !call.key_size) continue;
    /* The longest texts have 25 megabytes, so not each call reads them. */
    if (shape->members > 30 && (call.mode != (shape->end == COMMENT) || (shape->end != WHOLE && i > 1))) continue;
    long last = 0;
    for (refused = -1; refused < last; refused++) {
      size_t took = taken(&call, stack);
      runs++;
      if (refused < 0) {
        whole = call.status;
        last = shape->members == 1 && call.mode == VIZHONIKU_EXTENDED ? asked : 0;
      }
      if (call.status != whole && call.status != VIZHONIKU_OUT_OF_MEMORY) wrong++;
      int is_made = makes_value(call.function, shape);
      if (took > most[call.function][is_made]) {
        most[call.function][is_made] = took;
        where[call.function][is_made] = *shape;
      }
    }
    /* A comment is refused in standard mode, and a fault in both. */
    int is_read = shape->end == WHOLE || (shape->end == COMMENT && call.mode == VIZHONIKU_EXTENDED) ||
                  call.function == ERROR_PATH;
    int is_deep = (call.function == DOCUMENT_SET || call.function == DOCUMENT_INSERT) && whole == VIZHONIKU_TOO_DEEP;
    int is_untabled = (call.function == TABLE || call.function == TABLE_CHECK) && !has_table(&call);
    uint32_t expected = is_untabled ? VIZHONIKU_NO_PART : is_read ? VIZHONIKU_ACCEPTED : VIZHONIKU_REJECTED;
    if (!is_deep && whole != expected) wrong++;
    tables += call.function == TABLE && whole == VIZHONIKU_ACCEPTED;
  }
  refused = -1;
  free(call.table);
  free(call.key);
  free(call.key_buffer);
  free(call.buffer);
  free(path.bytes);
  free(text.bytes);
}

int main(int count, char **words) {
  struct stack stack = {NULL, (count > 1 ? strtoul(words[1], NULL, 10) : 128) * 1024};
  unsigned char *room = mmap(NULL, PAGE + stack.size, PROT_READ | PROT_WRITE, MAP_PRIVATE | MAP_ANONYMOUS, -1, 0);
  if (room == MAP_FAILED || mprotect(room, PAGE, PROT_NONE)) return 2;
  stack.words = (uint64_t *)(void *)(room + PAGE);
  fill(&stack, 0);
  static const int members[] = {1, 30, 5001};
  for (int kind = ARRAYS; kind <= OUT_OF_ORDER; kind++) {
    for (int i = 0; i < 3; i++) {
      for (int is_first = 0; is_first < (members[i] > 1 ? 2 : 1); is_first++) {
        for (int end = WHOLE; end < ENDS; end++) {
          struct shape shape = {(enum kind)kind, members[i], is_first, (enum end)end};
          if ((end == KEY_AGAIN || end == KEY_BEFORE) && kind != OBJECTS) continue;
          if (kind == OUT_OF_ORDER && members[i] != 30) continue;
          if (members[i] > 30 && (kind == IN_TURN || end > TRAILING || (end != WHOLE && !is_first))) continue;
          measure(&shape, &stack);
        }
      }
    }
  }
  struct shape alike = {ALIKE, 1, 1, WHOLE};
  measure(&alike, &stack);
  int over = 0;
  for (int i = 0; i < 2 * FUNCTIONS; i++) {
    int is_made = i / FUNCTIONS, function = i % FUNCTIONS, limit = is_made ? LIMIT : SMALL_LIMIT;
    const struct shape *shape = &where[function][is_made];
    size_t took = most[function][is_made];
    if (!took) continue;
    printf("%s took %zu bytes at most, with %s: %s of %d, the deep one %s%s\n", functions[function], took,
           is_made ? "a value" : "no value", kinds[shape->kind], shape->members, shape->is_first ? "first" : "last",
           ends[shape->end]);
    if (took > (size_t)limit) {
      over++;
      printf("that is more than %d\n", limit);
    }
    /* The most of all functions of which the page says the same. */
    size_t kilobytes = told[function][is_made], highest = 0;
    for (int other = 0; other < FUNCTIONS; other++)
      if (told[other][is_made] == kilobytes && most[other][is_made] > highest) highest = most[other][is_made];
    if (took > kilobytes * 1024 || highest + ROUNDED < kilobytes * 1024) {
      over++;
      printf("docs/C.md says %zu KB\n", kilobytes);
    }
  }
  printf("%ld calls, %ld answered otherwise, %d took more than they may\n", runs, wrong, over);
  if (!tables) printf("no object had a table\n");
  return over || wrong || !tables;
}
