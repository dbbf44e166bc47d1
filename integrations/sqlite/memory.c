/* Refuses memory to SQLite and to the extension, one request after the other, and counts what a statement keeps.
 *
 * Linked with vjson.c, compiled with SQLITE_CORE, and with the static library. The linker puts the three functions
 * below instead of the C library's (--wrap) for both; SQLite is given them too. The status is 1 where a statement
 * kept memory, or had neither its result nor an error that says that memory is out, or where it changed the database
 * and failed. */
#include <sqlite3.h>
#include <stdio.h>
#include <stdlib.h>
#include <string.h>

void *__real_malloc(size_t size);
void *__real_realloc(void *block, size_t size);
void __real_free(void *block);
int sqlite3_vjson_init(sqlite3 *database, char **message, const sqlite3_api_routines *routines);

/* Blocks that are held, requests since the statement began, and which of them fails, from 0 on, or -1. Where `all` is
 * set, the requests behind that one fail too. */
static long held, asked, failed = -1;
static int all;

static int is_failing(void) {
  long number = asked++;
  return failed >= 0 && (number == failed || (all && number > failed));
}

void *__wrap_malloc(size_t size) {
  void *block = is_failing() ? NULL : __real_malloc(size);
  if (block) held++;
  return block;
}

void *__wrap_realloc(void *block, size_t size) {
  void *grown = is_failing() ? NULL : __real_realloc(block, size);
  if (grown && !block) held++;
  return grown;
}

void __wrap_free(void *block) {
  if (block) held--;
  __real_free(block);
}

/* SQLite asks for the size of a block, so each has its size in front. */
static void *take(int size) {
  char *block = __wrap_malloc((size_t)size + 16);
  if (!block) return NULL;
  memcpy(block, &size, sizeof size);
  return block + 16;
}

static void give(void *block) { __wrap_free(block ? (char *)block - 16 : NULL); }

static void *grow(void *block, int size) {
  if (!block) return take(size);
  char *grown = __wrap_realloc((char *)block - 16, (size_t)size + 16);
  if (!grown) return NULL;
  memcpy(grown, &size, sizeof size);
  return grown + 16;
}

static int size_of(void *block) {
  int size = 0;
  if (block) memcpy(&size, (char *)block - 16, sizeof size);
  return size;
}

static int round_up(int size) { return (size + 7) & ~7; }

static int begin(void *unused) {
  (void)unused;
  return SQLITE_OK;
}

static void end(void *unused) { (void)unused; }

static const char *const statements[] = {
    "SELECT vjson('{b: [1, \"\\u0041\"], a: {c: 2.50}}')",
    "SELECT hex(vjson_key('{b: [1, \"\\u0041\"], a: {c: 2.50}}', 'extended'))",
    "SELECT vjson_valid('[[]]', 'standard'), vjson_error_position('[[1'), vjson_error('{a:[1],a:2}')",
    "SELECT vjson_error_position('[1e5, x]'), vjson_error('[1e5, x]'), vjson_error_path('[1e5, [x]]')",
    "SELECT vjson('[1e5, x]')",
    "SELECT vjson(x'5b315d'), vjson_valid(x'5d'), vjson_key(NULL)",
    "SELECT vjson_error('{\"' || hex(zeroblob(300)) || '\":[],\"' || hex(zeroblob(300)) || '\":1}')",
    "SELECT vjson_get('{\"a\":[\"' || hex(zeroblob(300)) || '\"]}', '/a/0')",
    "SELECT length(vjson('\"' || replace(hex(zeroblob(100)), '0', char(1)) || '\"'))",
    "SELECT length(vjson_key('[' || replace(hex(zeroblob(100)), '0', '{},') || ']'))",
    "SELECT vjson('[1 2]')",
    "SELECT vjson_get('[1]', 'x')",
    "SELECT vjson('1', 'x')",
    "SELECT group_concat(x) FROM (SELECT body AS x FROM docs ORDER BY vjson_key(body))",
    "SELECT group_concat(x) FROM (SELECT body AS x FROM docs ORDER BY body COLLATE VJSON)",
    "SELECT '[1e1]' = '[10, 0]' COLLATE VJSON, '[1e1]' = '[1.0e1]' COLLATE VJSON, '[1e39]' < '[1e1]' COLLATE VJSON",
    "SELECT count(*) FROM docs WHERE vjson_key(body) > vjson_key('[1]')",
    "INSERT INTO docs(body) VALUES ('[7]'), ('{\"z\":[1]}') RETURNING vjson(body)",
    "INSERT INTO docs(body) VALUES ('[7]'), ('[1.0]')",
    "INSERT INTO docs(body) VALUES ('[8]'), ('[1')",
    "DELETE FROM docs WHERE vjson_key(body) >= vjson_key('{}') RETURNING body",
    "SELECT hex(vjson_key_get(vjson_key(body), '')), vjson_key_value(vjson_key(body)), vjson_key_type(vjson_key(body)),"
    " vjson_key_text(vjson_key(body), ''), vjson_key_valid(vjson_key(body)) FROM docs",
    "SELECT hex(vjson_key_get(vjson_key('{\"a~/\":[1,2.5]}'), '/a~0~1/1')), vjson_key_text(x'00')",
    "SELECT vjson_document_text(vjson_document_set(vjson_document('{\"a\":[1.50]}'), '/a~0', vjson_document('7.0')), '/a')",
    "SELECT vjson_document_valid(vjson_document('[1.50, \"x\"]'))",
    "SELECT hex(vjson_document_remove(vjson_document_merge(vjson_document('[1.0]'), vjson_document('[2.0]')), '/0')),"
    " length(vjson_document_text(vjson_document('[\"' || hex(zeroblob(700)) || '\", 1.50]'), '/0'))",
    "SELECT length(vjson_key_text(k)), length(vjson_key_value(k)) FROM"
    " (SELECT vjson_key('\"' || hex(zeroblob(700)) || '\"') AS k)",
    "SELECT key, value, type, atom, id, parent, fullkey, path, hex(part), root FROM docs, vjson_each(vjson_key(body))",
    "SELECT key, value, type, atom, id, parent, fullkey, path, hex(part), hex(source) FROM"
    " vjson_tree(vjson_key('{\"a~/\":[1,{\"b\":[[2.5,\"x\"]]}]}'), '/a~0~1/1')",
    "SELECT count(*), max(length(fullkey)) FROM vjson_tree(vjson_key("
    "replace(hex(zeroblob(20)), '00', '{\"a\":[') || replace(hex(zeroblob(20)), '00', ']}')))",
    "SELECT * FROM vjson_tree(vjson_key('[1]'), '0')",
    "SELECT * FROM vjson_each('[1]')",
};

static char outcome[2][2000];

/* Runs a statement, and writes its rows or its error to reported[at]. */
static int run(sqlite3 *database, const char *statement, int at) {
  sqlite3_stmt *prepared = NULL;
  size_t size = 0;
  outcome[at][0] = 0;
  int status = sqlite3_prepare_v2(database, statement, -1, &prepared, NULL);
  while (status == SQLITE_OK || status == SQLITE_ROW) {
    status = sqlite3_step(prepared);
    if (status != SQLITE_ROW) break;
    for (int i = 0; i < sqlite3_column_count(prepared); i++) {
      const char *text = (const char *)sqlite3_column_text(prepared, i);
      if (!text && sqlite3_column_type(prepared, i) != SQLITE_NULL) status = SQLITE_NOMEM;
      int written = snprintf(outcome[at] + size, sizeof outcome[at] - size, "%s|", text ? text : "NULL");
      size = size + (size_t)written < sizeof outcome[at] ? size + (size_t)written : sizeof outcome[at] - 1;
    }
  }
  if (status != SQLITE_DONE && status != SQLITE_NOMEM)
    snprintf(outcome[at], sizeof outcome[at], "error: %s", sqlite3_errmsg(database));
  sqlite3_finalize(prepared);
  return status;
}

/* A number of what the database holds, or 0 where it isn't whole. */
static unsigned long content_of(sqlite3 *database) {
  run(database, "SELECT count(*) || group_concat(body) FROM docs", 1);
  unsigned long sum = 1;
  for (const char *at = outcome[1]; *at; at++) sum = sum * 31 + (unsigned char)*at;
  run(database, "PRAGMA integrity_check", 1);
  return strcmp(outcome[1], "ok|") ? 0 : sum;
}

int main(void) {
  static const sqlite3_mem_methods methods = {take, give, grow, size_of, round_up, begin, end, NULL};
  long wrong = 0, runs = 0, out = 0;
  if (sqlite3_config(SQLITE_CONFIG_MALLOC, &methods) || sqlite3_config(SQLITE_CONFIG_LOOKASIDE, 0, 0)) return 1;
  if (sqlite3_config(SQLITE_CONFIG_PAGECACHE, NULL, 0, 0) || sqlite3_initialize()) return 1;
  for (size_t i = 0; i < 2 * (sizeof statements / sizeof *statements); i++) {
    const char *statement = statements[i / 2];
    all = (int)(i % 2);
    for (long at = -1;; at++) {
      long before = held;
      sqlite3 *database;
      char *message = NULL;
      failed = -1;
      if (sqlite3_open(":memory:", &database) || sqlite3_vjson_init(database, &message, NULL) ||
          sqlite3_exec(database, "CREATE TABLE docs(body TEXT NOT NULL);"
                       "CREATE UNIQUE INDEX by_value ON docs(vjson_key(body));"
                       "INSERT INTO docs VALUES ('[1]'), ('{\"a\":[]}'), ('\"\\u0041\"'), ('null'), ('[0,{}]')",
                       NULL, NULL, NULL)) {
        printf("the database isn't made\n");
        return 1;
      }
      unsigned long old = content_of(database);
      if (at < 0) { /* what it does with ample memory */
        run(database, statement, 0);
        sqlite3_close(database);
        continue;
      }
      char wanted[sizeof outcome[0]];
      memcpy(wanted, outcome[0], sizeof wanted);
      asked = 0;
      failed = at;
      int status = run(database, statement, 1);
      int is_over = asked <= at;
      failed = -1;
      int is_out = status == SQLITE_NOMEM || status == SQLITE_INTERRUPT;
      /* Where there is no memory for its words, an error is reported in SQLite's own. */
      int are_errors = !strncmp(outcome[1], "error: ", 7) && !strncmp(wanted, "error: ", 7);
      int is_right = !strcmp(outcome[1], wanted) || are_errors;
      int is_done = status == SQLITE_DONE;
      unsigned long now = content_of(database);
      if ((!is_out && !is_right) || !now || (!is_done && now != old)) {
        wrong++;
        printf("request %ld of %s: status %d\n", at, statement, status);
      }
      sqlite3_close(database);
      runs++;
      out += is_out;
      if (held != before) {
        wrong++;
        printf("request %ld of %s: %ld blocks are kept\n", at, statement, held - before);
      }
      if (is_over) break;
    }
  }
  printf("%s\n", wrong ? "wrong" : out > runs / 2 ? "ok" : "hardly any request failed");
  fprintf(stderr, "%ld runs, %ld of them out of memory\n", runs, out);
  return wrong || out <= runs / 2;
}
