/* The operations of the benchmark, done by SQLite's JSON functions. They take and return what those of bench_calls do.
 * json_valid parses a text, and json parses it and writes it again. */
#include <sqlite3.h>
#include <stddef.h>
#include <stdlib.h>

static sqlite3 *database;

/* How many rounds of a statement over the text gave what is wanted, before the first that did not. */
static size_t repeat(const char *query, int type, const unsigned char *text, size_t len, size_t rounds) {
  sqlite3_stmt *statement;
  if (!database && sqlite3_open(":memory:", &database)) exit(2);
  if (sqlite3_prepare_v2(database, query, -1, &statement, NULL)) exit(2);
  sqlite3_bind_text64(statement, 1, (const char *)text, len, SQLITE_STATIC, SQLITE_UTF8);
  size_t round = 0;
  while (round < rounds && sqlite3_step(statement) == SQLITE_ROW && sqlite3_column_type(statement, 0) == type &&
         (type == SQLITE_TEXT || sqlite3_column_int(statement, 0) == 1)) {
    sqlite3_reset(statement);
    round++;
  }
  sqlite3_finalize(statement);
  return round;
}

size_t sqlite_bench_read(const unsigned char *text, size_t len, size_t rounds) {
  return repeat("SELECT json_valid(?1)", SQLITE_INTEGER, text, len, rounds);
}

size_t sqlite_bench_read_write(const unsigned char *text, size_t len, size_t rounds) {
  return repeat("SELECT json(?1)", SQLITE_TEXT, text, len, rounds);
}
