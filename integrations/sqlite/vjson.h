/* What the files of the extension share. */
#ifndef VJSON_H
#define VJSON_H

#include <stddef.h>

#include <sqlite3ext.h>

/* The subtype that json1 gives its own results, so that its functions take a text as JSON and don't quote it. */
#define JSON_SUBTYPE 74

#ifndef SQLITE_RESULT_SUBTYPE
#define SQLITE_RESULT_SUBTYPE 0 /* from 3.45 on a function says that its results have subtypes */
#endif

#define MALFORMED_PATH "malformed path: it is empty or begins with /, and ~ occurs only in ~0 and ~1"

/* Reads an argument's bytes. Returns 0 where there is no memory for them, which has been reported. */
int vjson_read_bytes(sqlite3_context *context, sqlite3_value *value, const unsigned char **bytes, size_t *size);

/* Adds the functions over sort keys, and the tables vjson_each and vjson_tree. */
int vjson_add_key_functions(sqlite3 *database);

/* Adds the functions over documents. */
int vjson_add_document_functions(sqlite3 *database);

#endif
