/* Sort keys as stored documents: what is in them, found by the library in their bytes.
 *
 *   vjson_key_valid(KEY)            1 where KEY is a sort key, else 0
 *   vjson_key_get(KEY, PATH)        the key of the part at the path (RFC 6901), a BLOB; NULL where there is none
 *   vjson_key_text(KEY [, PATH])    the text of the value, or of the part
 *   vjson_key_value(KEY [, PATH])   the value, or the part, as a value of SQL
 *   vjson_key_type(KEY [, PATH])    its type, as json1 names it
 *   vjson_each(KEY [, PATH])        a table with a row for each item or member
 *   vjson_tree(KEY [, PATH])        a table with a row for the value and each part of it, at any depth
 *
 * A key is what vjson_key returns. NULL gives NULL, and a table without rows. */
#include <errno.h>
#include <stdint.h>
#include <stdio.h>
#include <stdlib.h>
#include <string.h>

#include <sqlite3ext.h>
SQLITE_EXTENSION_INIT3

#include <vizhoniku.h>

#include "vjson.h"

#define NO_KEY "not a sort key: vjson_key makes one of a text"

/* Bytes that a short text is written to. */
#define SMALL 1024

/* The key of a value: bytes of the caller's. */
struct key {
  const unsigned char *at;
  size_t size;
};

/* Says what is wrong, by the status of a call that didn't find what it was asked for. That nothing is there is no
 * error. */
static void report_status(sqlite3_context *context, uint32_t status) {
  if (status == VIZHONIKU_OUT_OF_MEMORY)
    sqlite3_result_error_nomem(context);
  else if (status == VIZHONIKU_NO_PATH)
    sqlite3_result_error(context, MALFORMED_PATH, -1);
  else if (status != VIZHONIKU_NO_PART)
    sqlite3_result_error(context, NO_KEY, -1);
}

/* Reads a key and, where there is a second argument, finds the part at that path. Returns 0 where the result is
 * already: NULL, or an error. */
static int read_part(sqlite3_context *context, int count, sqlite3_value **values, struct key *part) {
  const unsigned char *path;
  size_t path_size, offset;
  if (sqlite3_value_type(values[0]) == SQLITE_NULL) return 0;
  if (count > 1 && sqlite3_value_type(values[1]) == SQLITE_NULL) return 0;
  if (sqlite3_value_type(values[0]) != SQLITE_BLOB) {
    report_status(context, VIZHONIKU_NO_KEY);
    return 0;
  }
  if (!vjson_read_bytes(context, values[0], &part->at, &part->size)) return 0;
  if (count == 1) return 1;
  if (!vjson_read_bytes(context, values[1], &path, &path_size)) return 0;
  uint32_t status = vizhoniku_key_part(part->at, part->size, path, path_size, &offset, &part->size);
  if (status != VIZHONIKU_ACCEPTED) {
    report_status(context, status);
    return 0;
  }
  part->at += offset;
  return 1;
}

/* The text of a value, in `small` or in memory of SQLite's. */
struct written {
  unsigned char small[SMALL];
  unsigned char *at;
  size_t size;
};

static void free_written(struct written *written) {
  if (written->at != written->small) sqlite3_free(written->at);
}

/* Writes the text of a value or, where `is_string` is set, what a string is made of. */
static uint32_t write_text(struct key key, int is_string, struct written *written) {
  uint32_t status;
  size_t capacity = key.size <= SMALL ? SMALL : key.size + 64;
  written->at = written->small;
  for (;;) {
    if (capacity > SMALL && !(written->at = sqlite3_malloc64(capacity))) return VIZHONIKU_OUT_OF_MEMORY;
    if (is_string)
      status = vizhoniku_key_string(key.at, key.size, written->at, capacity, &written->size);
    else
      status = vizhoniku_key_text(key.at, key.size, written->at, capacity, &written->size);
    if (status == VIZHONIKU_ACCEPTED) return status;
    free_written(written);
    written->at = written->small;
    if (status != VIZHONIKU_TOO_SHORT) return status;
    capacity = written->size > SMALL ? written->size : SMALL + 1;
  }
}

static void give_text(sqlite3_context *context, struct key key, int is_string) {
  struct written written;
  uint32_t status = write_text(key, is_string, &written);
  if (status != VIZHONIKU_ACCEPTED)
    report_status(context, status);
  else
    sqlite3_result_text64(context, (char *)written.at, written.size,
                          written.at == written.small ? SQLITE_TRANSIENT : sqlite3_free, SQLITE_UTF8);
}

/* The text of an array or an object is JSON to the functions of json1. */
static void give_json(sqlite3_context *context, struct key key) {
  give_text(context, key, 0);
  sqlite3_result_subtype(context, JSON_SUBTYPE);
}

/* An integer where the number is one of 64 bits, else its text: no number is rounded. */
static void give_number(sqlite3_context *context, struct key key) {
  struct written written;
  uint32_t status = write_text(key, 0, &written);
  if (status != VIZHONIKU_ACCEPTED) {
    report_status(context, status);
    return;
  }
  if (written.size < 32 && !memchr(written.at, '.', written.size)) {
    char digits[32], *end;
    memcpy(digits, written.at, written.size);
    digits[written.size] = 0;
    errno = 0;
    long long number = strtoll(digits, &end, 10);
    if (!errno && !*end) {
      sqlite3_result_int64(context, number);
      free_written(&written);
      return;
    }
  }
  sqlite3_result_text64(context, (char *)written.at, written.size,
                        written.at == written.small ? SQLITE_TRANSIENT : sqlite3_free, SQLITE_UTF8);
}

/* Whether a boolean is true. */
static int is_true(struct key key) {
  uint32_t value;
  vizhoniku_key_boolean(key.at, key.size, &value);
  return value != 0;
}

/* Gives a scalar as a value of SQL. Returns 0 where the value is none. */
static int give_scalar(sqlite3_context *context, struct key key) {
  switch (vizhoniku_key_kind(key.at, key.size)) {
  case VIZHONIKU_NULL:
    return 1;
  case VIZHONIKU_BOOLEAN:
    sqlite3_result_int(context, is_true(key));
    return 1;
  case VIZHONIKU_NUMBER:
    give_number(context, key);
    return 1;
  case VIZHONIKU_STRING:
    give_text(context, key, 1);
    return 1;
  case VIZHONIKU_NO_KIND:
    report_status(context, VIZHONIKU_NO_KEY);
    return 1;
  default:
    return 0;
  }
}

/* The type as json1 names it. A number is an integer where its value has no fraction. */
static void give_type(sqlite3_context *context, struct key key) {
  static const char *const names[] = {[VIZHONIKU_NULL] = "null", [VIZHONIKU_STRING] = "text",
                                      [VIZHONIKU_ARRAY] = "array", [VIZHONIKU_OBJECT] = "object"};
  uint32_t kind = vizhoniku_key_kind(key.at, key.size);
  struct written written;
  uint32_t status;
  switch (kind) {
  case VIZHONIKU_NO_KIND:
    report_status(context, VIZHONIKU_NO_KEY);
    return;
  case VIZHONIKU_BOOLEAN:
    sqlite3_result_text(context, is_true(key) ? "true" : "false", -1, SQLITE_STATIC);
    return;
  case VIZHONIKU_NUMBER:
    status = write_text(key, 0, &written);
    if (status != VIZHONIKU_ACCEPTED) {
      report_status(context, status);
      return;
    }
    sqlite3_result_text(context, memchr(written.at, '.', written.size) ? "real" : "integer", -1, SQLITE_STATIC);
    free_written(&written);
    return;
  default:
    sqlite3_result_text(context, names[kind], -1, SQLITE_STATIC);
  }
}

static void call_valid(sqlite3_context *context, int count, sqlite3_value **values) {
  const unsigned char *bytes;
  size_t size;
  (void)count;
  if (sqlite3_value_type(values[0]) == SQLITE_NULL) return;
  if (sqlite3_value_type(values[0]) != SQLITE_BLOB)
    sqlite3_result_int(context, 0);
  else if (vjson_read_bytes(context, values[0], &bytes, &size))
    sqlite3_result_int(context, vizhoniku_key_check(bytes, size) == VIZHONIKU_ACCEPTED);
}

static void call_get(sqlite3_context *context, int count, sqlite3_value **values) {
  struct key part;
  if (read_part(context, count, values, &part)) sqlite3_result_blob64(context, part.at, part.size, SQLITE_TRANSIENT);
}

static void call_text(sqlite3_context *context, int count, sqlite3_value **values) {
  struct key part;
  if (read_part(context, count, values, &part)) give_json(context, part);
}

static void call_value(sqlite3_context *context, int count, sqlite3_value **values) {
  struct key part;
  if (read_part(context, count, values, &part) && !give_scalar(context, part)) give_text(context, part, 0);
}

static void call_type(sqlite3_context *context, int count, sqlite3_value **values) {
  struct key part;
  if (read_part(context, count, values, &part)) give_type(context, part);
}

/* The columns of vjson_each and vjson_tree. All but `part` are json1's; the last two are the arguments. */
enum column { NAME, VALUE, TYPE, ATOM, ID, PARENT, FULLKEY, PATH, PART, KEY, ROOT };

#define COLUMNS                                                                                              \
  "CREATE TABLE x(key, value, type TEXT, atom, id INTEGER, parent INTEGER, fullkey TEXT, path TEXT, part BLOB, " \
  "source HIDDEN, root HIDDEN)"

struct table {
  sqlite3_vtab base;
  int is_tree;
};

/* An array or an object that the walk is in. */
struct level {
  struct key key;
  struct vizhoniku_key_cursor next;
  sqlite3_int64 index; /* of the next item */
  size_t path_size;    /* of its own path, in the path of the walk */
};

struct walk {
  sqlite3_vtab_cursor base;
  int is_tree;
  unsigned char *key; /* a copy of the argument */
  size_t key_size;
  char *root; /* the path of the argument */
  size_t root_size;
  char *path; /* of the innermost level */
  size_t path_capacity;
  struct level *levels; /* the innermost one last */
  size_t depth, capacity;
  int is_over, is_root; /* whether the row is the root */
  sqlite3_int64 row;
  struct key part; /* of the row */
  struct key name; /* in the key, where the row is a member; of size 0 where it is an item */
  sqlite3_int64 index;
};

static int fail(struct walk *walk, const char *words) {
  sqlite3_free(walk->base.pVtab->zErrMsg);
  walk->base.pVtab->zErrMsg = sqlite3_mprintf("%s", words);
  return SQLITE_ERROR;
}

static int fail_with(struct walk *walk, uint32_t status) {
  if (status == VIZHONIKU_OUT_OF_MEMORY) return SQLITE_NOMEM;
  return fail(walk, status == VIZHONIKU_NO_PATH ? MALFORMED_PATH : NO_KEY);
}

/* Writes the name or the index of the row as it is in a path: behind a slash, with ~ as ~0 and / as ~1. */
static uint32_t write_step(const struct walk *walk, const struct level *level, char **step, size_t *size) {
  size_t name_size;
  *step = sqlite3_malloc64(3 * walk->name.size + 24);
  if (!*step) return VIZHONIKU_OUT_OF_MEMORY;
  if (level->next.kind == VIZHONIKU_ARRAY) {
    *size = (size_t)sprintf(*step, "/%lld", walk->index);
    return VIZHONIKU_ACCEPTED;
  }
  /* The name is written behind the step, in which each of its bytes becomes two at most. */
  unsigned char *name = (unsigned char *)*step + 2 * walk->name.size + 24;
  uint32_t status = vizhoniku_key_name(walk->name.at, walk->name.size, name, walk->name.size, &name_size);
  if (status != VIZHONIKU_ACCEPTED) {
    sqlite3_free(*step);
    return status;
  }
  status = vizhoniku_path_step(name, name_size, (unsigned char *)*step, 2 * walk->name.size + 24, size);
  if (status != VIZHONIKU_ACCEPTED) sqlite3_free(*step);
  return status == VIZHONIKU_NO_PATH ? VIZHONIKU_NO_KEY : status; /* the names of a key are UTF-8 */
}

/* Enters the row's part, whose path is that of the level around it and a step more. The root's path is the argument. */
static int enter(struct walk *walk) {
  struct level level = {walk->part, {0, 0}, 0, walk->root_size};
  uint32_t status = vizhoniku_key_begin(level.key.at, level.key.size, &level.next);
  if (status != VIZHONIKU_ACCEPTED) return fail_with(walk, status);
  if (walk->depth == walk->capacity) {
    struct level *grown = sqlite3_realloc64(walk->levels, (2 * walk->capacity + 8) * sizeof *grown);
    if (!grown) return SQLITE_NOMEM;
    walk->levels = grown;
    walk->capacity = 2 * walk->capacity + 8;
  }
  if (!walk->is_root) {
    const struct level *around = &walk->levels[walk->depth - 1];
    char *step;
    size_t size;
    status = write_step(walk, around, &step, &size);
    if (status != VIZHONIKU_ACCEPTED) return fail_with(walk, status);
    level.path_size = around->path_size + size;
    if (level.path_size > walk->path_capacity) {
      char *grown = sqlite3_realloc64(walk->path, 2 * level.path_size);
      if (!grown) {
        sqlite3_free(step);
        return SQLITE_NOMEM;
      }
      walk->path = grown;
      walk->path_capacity = 2 * level.path_size;
    }
    memcpy(walk->path + around->path_size, step, size);
    sqlite3_free(step);
  }
  walk->levels[walk->depth++] = level;
  return SQLITE_OK;
}

static int is_container(struct key key) {
  uint32_t kind = vizhoniku_key_kind(key.at, key.size);
  return kind == VIZHONIKU_ARRAY || kind == VIZHONIKU_OBJECT;
}

/* Goes to the next part of the innermost level, or to that of the levels around it where it has no more. */
static int step_on(struct walk *walk) {
  while (walk->depth) {
    struct level *level = &walk->levels[walk->depth - 1];
    struct vizhoniku_key_entry entry;
    uint32_t status = vizhoniku_key_next(level->key.at, level->key.size, &level->next, &entry);
    if (status == VIZHONIKU_ACCEPTED) {
      walk->part.at = level->key.at + entry.offset;
      walk->part.size = entry.size;
      walk->name.at = level->key.at + entry.name_offset;
      walk->name.size = entry.name_size;
      walk->index = level->index++;
      walk->is_root = 0;
      walk->row++;
      return SQLITE_OK;
    }
    if (status != VIZHONIKU_NO_PART) return fail_with(walk, status);
    walk->depth--;
  }
  walk->is_over = 1;
  return SQLITE_OK;
}

static int walk_next(sqlite3_vtab_cursor *cursor) {
  struct walk *walk = (struct walk *)cursor;
  if (walk->is_tree && is_container(walk->part)) {
    int status = enter(walk);
    if (status != SQLITE_OK) return status;
  }
  return step_on(walk);
}

static void clear(struct walk *walk) {
  sqlite3_free(walk->key);
  sqlite3_free(walk->root);
  sqlite3_free(walk->path);
  sqlite3_free(walk->levels);
  sqlite3_vtab_cursor base = walk->base;
  int is_tree = walk->is_tree;
  memset(walk, 0, sizeof *walk);
  walk->base = base;
  walk->is_tree = is_tree;
  walk->is_over = 1;
}

/* Copies an argument, whose bytes may be none. Returns NULL where there is no memory for it. */
static void *copy_of(sqlite3_value *value, size_t *size) {
  const void *bytes = sqlite3_value_type(value) == SQLITE_BLOB ? sqlite3_value_blob(value) : sqlite3_value_text(value);
  *size = (size_t)sqlite3_value_bytes(value);
  if (!bytes && *size) return NULL;
  void *copy = sqlite3_malloc64(*size + 1);
  if (copy && *size) memcpy(copy, bytes, *size);
  return copy;
}

/* Begins a walk over the part at the path. `index` says whether there is a key and a path. */
static int walk_filter(sqlite3_vtab_cursor *cursor, int index, const char *words, int count, sqlite3_value **values) {
  struct walk *walk = (struct walk *)cursor;
  size_t offset;
  (void)words;
  clear(walk);
  if (!index || sqlite3_value_type(values[0]) == SQLITE_NULL) return SQLITE_OK;
  if (count > 1 && sqlite3_value_type(values[1]) == SQLITE_NULL) return SQLITE_OK;
  if (sqlite3_value_type(values[0]) != SQLITE_BLOB) return fail_with(walk, VIZHONIKU_NO_KEY);
  if (!(walk->key = copy_of(values[0], &walk->key_size))) return SQLITE_NOMEM;
  if (count > 1) {
    if (!(walk->root = copy_of(values[1], &walk->root_size))) return SQLITE_NOMEM;
    if (!(walk->path = sqlite3_malloc64(walk->root_size + 1))) return SQLITE_NOMEM;
    memcpy(walk->path, walk->root, walk->root_size);
    walk->path_capacity = walk->root_size;
  }
  walk->part.at = walk->key;
  uint32_t status = vizhoniku_key_part(walk->key, walk->key_size, (const unsigned char *)walk->root, walk->root_size,
                                       &offset, &walk->part.size);
  if (status == VIZHONIKU_NO_PART) return SQLITE_OK;
  if (status != VIZHONIKU_ACCEPTED) return fail_with(walk, status);
  walk->part.at += offset;
  if (vizhoniku_key_kind(walk->part.at, walk->part.size) == VIZHONIKU_NO_KIND)
    return fail_with(walk, VIZHONIKU_NO_KEY);
  walk->is_over = 0;
  walk->is_root = 1;
  if (walk->is_tree || !is_container(walk->part)) return SQLITE_OK;
  int entered = enter(walk);
  return entered == SQLITE_OK ? step_on(walk) : entered;
}

/* The size of the root's path without its last step. */
static size_t root_path_size(const struct walk *walk) {
  size_t size = walk->root_size;
  while (size && walk->root[size - 1] != '/') size--;
  return size ? size - 1 : 0;
}

/* Gives the name of the member, or the index of the item, that the root is. */
static void give_root_name(sqlite3_context *context, const struct walk *walk) {
  size_t front = root_path_size(walk), offset, size, written = 0;
  if (!walk->root_size) return;
  char *name = sqlite3_malloc64(walk->root_size);
  if (!name) {
    sqlite3_result_error_nomem(context);
    return;
  }
  for (size_t i = front + 1; i < walk->root_size; i++) {
    if (walk->root[i] == '~')
      name[written++] = walk->root[++i] == '0' ? '~' : '/';
    else
      name[written++] = walk->root[i];
  }
  name[written] = 0;
  uint32_t status =
      vizhoniku_key_part(walk->key, walk->key_size, (const unsigned char *)walk->root, front, &offset, &size);
  if (status != VIZHONIKU_ACCEPTED)
    report_status(context, status);
  else if (vizhoniku_key_kind(walk->key + offset, size) == VIZHONIKU_ARRAY)
    sqlite3_result_int64(context, strtoll(name, NULL, 10));
  else
    sqlite3_result_text64(context, name, written, SQLITE_TRANSIENT, SQLITE_UTF8);
  sqlite3_free(name);
}

static void give_name(sqlite3_context *context, const struct walk *walk) {
  if (walk->levels[walk->depth - 1].next.kind == VIZHONIKU_ARRAY) {
    sqlite3_result_int64(context, walk->index);
    return;
  }
  size_t size;
  unsigned char *name = sqlite3_malloc64(walk->name.size);
  if (!name)
    sqlite3_result_error_nomem(context);
  else if (vizhoniku_key_name(walk->name.at, walk->name.size, name, walk->name.size, &size) != VIZHONIKU_ACCEPTED) {
    sqlite3_free(name);
    report_status(context, VIZHONIKU_NO_KEY);
  } else
    sqlite3_result_text64(context, (char *)name, size, sqlite3_free, SQLITE_UTF8);
}

static void give_full_path(sqlite3_context *context, const struct walk *walk) {
  const struct level *level = &walk->levels[walk->depth - 1];
  char *step, *whole;
  size_t size;
  uint32_t status = write_step(walk, level, &step, &size);
  if (status != VIZHONIKU_ACCEPTED) {
    report_status(context, status);
    return;
  }
  whole = sqlite3_realloc64(step, level->path_size + size);
  if (!whole) {
    sqlite3_free(step);
    sqlite3_result_error_nomem(context);
    return;
  }
  memmove(whole + level->path_size, whole, size);
  if (level->path_size) memcpy(whole, walk->path, level->path_size);
  sqlite3_result_text64(context, whole, level->path_size + size, sqlite3_free, SQLITE_UTF8);
}

static void give_path(sqlite3_context *context, const char *path, size_t size) {
  sqlite3_result_text64(context, size ? path : "", size, SQLITE_TRANSIENT, SQLITE_UTF8);
}

static int walk_column(sqlite3_vtab_cursor *cursor, sqlite3_context *context, int column) {
  const struct walk *walk = (const struct walk *)cursor;
  switch ((enum column)column) {
  case NAME:
    if (walk->is_root)
      give_root_name(context, walk);
    else
      give_name(context, walk);
    break;
  case VALUE:
    if (!give_scalar(context, walk->part)) give_json(context, walk->part);
    break;
  case TYPE:
    give_type(context, walk->part);
    break;
  case ATOM:
    give_scalar(context, walk->part);
    break;
  case ID:
    sqlite3_result_int64(context, walk->part.at - walk->key);
    break;
  case PARENT:
    if (walk->is_tree && !walk->is_root)
      sqlite3_result_int64(context, walk->levels[walk->depth - 1].key.at - walk->key);
    break;
  case FULLKEY:
    if (walk->is_root)
      give_path(context, walk->root, walk->root_size);
    else
      give_full_path(context, walk);
    break;
  case PATH:
    if (walk->is_root)
      give_path(context, walk->root, root_path_size(walk));
    else
      give_path(context, walk->path, walk->levels[walk->depth - 1].path_size);
    break;
  case PART:
    sqlite3_result_blob64(context, walk->part.at, walk->part.size, SQLITE_TRANSIENT);
    break;
  case KEY:
    sqlite3_result_blob64(context, walk->key, walk->key_size, SQLITE_TRANSIENT);
    break;
  case ROOT:
    give_path(context, walk->root, walk->root_size);
    break;
  }
  return SQLITE_OK;
}

static int walk_eof(sqlite3_vtab_cursor *cursor) { return ((struct walk *)cursor)->is_over; }

static int walk_rowid(sqlite3_vtab_cursor *cursor, sqlite3_int64 *row) {
  *row = ((struct walk *)cursor)->row;
  return SQLITE_OK;
}

static int walk_open(sqlite3_vtab *table, sqlite3_vtab_cursor **cursor) {
  struct walk *walk = sqlite3_malloc64(sizeof *walk);
  if (!walk) return SQLITE_NOMEM;
  memset(walk, 0, sizeof *walk);
  walk->is_tree = ((struct table *)table)->is_tree;
  *cursor = &walk->base;
  return SQLITE_OK;
}

static int walk_close(sqlite3_vtab_cursor *cursor) {
  clear((struct walk *)cursor);
  sqlite3_free(cursor);
  return SQLITE_OK;
}

/* A walk needs the key, and takes a path where there is one. An argument that comes from a table that is joined later
 * makes the plan impossible. */
static int table_best(sqlite3_vtab *table, sqlite3_index_info *info) {
  int arguments[2] = {-1, -1}, lacks[2] = {0, 0}, given = 0;
  (void)table;
  for (int i = 0; i < info->nConstraint; i++) {
    int which = info->aConstraint[i].iColumn - KEY;
    if (which < 0 || which > 1 || info->aConstraint[i].op != SQLITE_INDEX_CONSTRAINT_EQ) continue;
    if (info->aConstraint[i].usable)
      arguments[which] = i;
    else
      lacks[which] = 1;
  }
  if ((lacks[0] && arguments[0] < 0) || (lacks[1] && arguments[1] < 0)) return SQLITE_CONSTRAINT;
  if (arguments[0] < 0) {
    info->idxNum = 0;
    info->estimatedCost = 1e99;
    return SQLITE_OK;
  }
  for (int i = 0; i < 2; i++) {
    if (arguments[i] < 0) continue;
    info->aConstraintUsage[arguments[i]].argvIndex = ++given;
    info->aConstraintUsage[arguments[i]].omit = 1;
  }
  info->idxNum = 1;
  info->estimatedCost = 1;
  info->estimatedRows = 25;
  if (info->nOrderBy == 1 && info->aOrderBy[0].iColumn < 0 && !info->aOrderBy[0].desc) info->orderByConsumed = 1;
  return SQLITE_OK;
}

static int table_connect(sqlite3 *database, void *is_tree, int count, const char *const *words, sqlite3_vtab **made,
                         char **message) {
  (void)count, (void)words, (void)message;
  int status = sqlite3_declare_vtab(database, COLUMNS);
  if (status != SQLITE_OK) return status;
  struct table *table = sqlite3_malloc64(sizeof *table);
  if (!table) return SQLITE_NOMEM;
  memset(table, 0, sizeof *table);
  table->is_tree = is_tree != NULL;
  *made = &table->base;
  sqlite3_vtab_config(database, SQLITE_VTAB_INNOCUOUS);
  return SQLITE_OK;
}

static int table_disconnect(sqlite3_vtab *table) {
  sqlite3_free(table);
  return SQLITE_OK;
}

static const sqlite3_module tables = {
    .xConnect = table_connect,
    .xBestIndex = table_best,
    .xDisconnect = table_disconnect,
    .xOpen = walk_open,
    .xClose = walk_close,
    .xFilter = walk_filter,
    .xNext = walk_next,
    .xEof = walk_eof,
    .xColumn = walk_column,
    .xRowid = walk_rowid,
};

int vjson_add_key_functions(sqlite3 *database) {
  static const struct {
    const char *name;
    int least, most; /* arguments */
    int flags;
    void (*call)(sqlite3_context *, int, sqlite3_value **);
  } functions[] = {
      {"vjson_key_valid", 1, 1, 0, call_valid},
      {"vjson_key_get", 2, 2, 0, call_get},
      {"vjson_key_text", 1, 2, SQLITE_RESULT_SUBTYPE, call_text},
      {"vjson_key_value", 1, 2, 0, call_value},
      {"vjson_key_type", 1, 2, 0, call_type},
  };
  static int tree = 1;
  int status = SQLITE_OK;
  for (size_t i = 0; i < sizeof functions / sizeof *functions; i++) {
    for (int count = functions[i].least; count <= functions[i].most && status == SQLITE_OK; count++)
      status = sqlite3_create_function_v2(database, functions[i].name, count,
                                          SQLITE_UTF8 | SQLITE_DETERMINISTIC | SQLITE_INNOCUOUS | functions[i].flags,
                                          NULL, functions[i].call, NULL, NULL, NULL);
  }
  if (status == SQLITE_OK) status = sqlite3_create_module_v2(database, "vjson_each", &tables, NULL, NULL);
  if (status == SQLITE_OK) status = sqlite3_create_module_v2(database, "vjson_tree", &tables, &tree, NULL);
  return status;
}
