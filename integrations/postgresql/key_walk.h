/*-------------------------------------------------------------------------
 *
 * key_walk.h
 *	  Calls of the library on sort keys, with its statuses as errors of the
 *	  server.
 *
 *-------------------------------------------------------------------------
 */
#ifndef KEY_WALK_H
#define KEY_WALK_H

#include "fmgr.h"
#include "mb/pg_wchar.h"

#include <vizhoniku.h>

#include "key_bytes.h"
#include "vjson.h"

static inline bool
same_bytes(Range left, Range right)
{
	return left.size == right.size && memcmp(left.at, right.at, left.size) == 0;
}

static inline bool
is_ascii(const unsigned char *text, size_t size)
{
	for (size_t i = 0; i < size; i++)
	{
		if (IS_HIGHBIT_SET(text[i]))
			return false;
	}
	return true;
}

/* Words of the server in UTF-8. */
static inline Range
utf8_of_bytes(const char *words, size_t size)
{
	const char *utf8 = pg_server_to_any(words, (int) size, PG_UTF8);
	Range		range = {(const unsigned char *) utf8, utf8 == words ? size : strlen(utf8)};

	return range;
}

static inline Range
utf8_of(text *words)
{
	return utf8_of_bytes(VARDATA_ANY(words), VARSIZE_ANY_EXHDR(words));
}

/* What words_of_call answers where nothing is kept yet. */
extern Range vjson_words_of_call(FunctionCallInfo fcinfo);

/* The words that are the second argument, in UTF-8. Those of a constant are kept for the next calls. */
static inline Range
words_of_call(FunctionCallInfo fcinfo)
{
	const Range *known = fcinfo->flinfo->fn_extra;

	return likely(known != NULL) ? *known : vjson_words_of_call(fcinfo);
}

/* Whether a call found what it was asked for. An error is raised where the bytes that were passed are none of a value. */
static inline bool
is_found(uint32 status)
{
	if (likely(status == VIZHONIKU_ACCEPTED))
		return true;
	switch (status)
	{
		case VIZHONIKU_NO_PART:
			return false;
		case VIZHONIKU_NO_KEY:
		case VIZHONIKU_NO_DOCUMENT:
		case VIZHONIKU_NO_ZEROS:
			vjson_raise_corrupted();
		default:
			vjson_raise_unexpected(status);
	}
}

/* The key of a string, whose text is of the server: so it has no zero byte, which takes two in a key. */
static inline Range
key_of_string(Range words)
{
	size_t		size = words.size + STRING_EXTRA;
	unsigned char *key = palloc(size);
	Range		result = {key, size};

	is_found(vizhoniku_key_of_string(words.at, words.size, key, size, &result.size));
	return result;
}

static inline uint32
kind_of(Range key)
{
	uint32		kind = vizhoniku_key_kind(key.at, key.size);

	if (unlikely(kind == VIZHONIKU_NO_KIND))
		vjson_raise_corrupted();
	return kind;
}

static inline bool
is_scalar(uint32 kind)
{
	return kind != VIZHONIKU_ARRAY && kind != VIZHONIKU_OBJECT;
}

/* The member of that name, by the table of the members where there is one. */
static inline bool
find_member(const Document *object, Range name, Range *part)
{
	Range		key = object->key;
	Range		table = object->table;
	size_t		offset;
	uint32		status = table.size == 0 ?
		vizhoniku_key_member(key.at, key.size, name.at, name.size, &offset, &part->size) :
		vizhoniku_table_member(key.at, key.size, table.at, table.size, name.at, name.size, &offset, &part->size);

	if (!is_found(status))
		return false;
	part->at = key.at + offset;
	return true;
}

static inline bool
find_item(Range key, int64 index, Range *part)
{
	size_t		offset;

	if (!is_found(vizhoniku_key_item(key.at, key.size, index, &offset, &part->size)))
		return false;
	part->at = key.at + offset;
	return true;
}

/* One item or member after the other. */
typedef struct
{
	Range		key;
	struct vizhoniku_key_cursor cursor;
	Range		name;			/* of size 0 for an item */
	Range		value;
} Walk;

static inline void
begin_walk(Walk *walk, Range key)
{
	walk->key = key;
	if (!is_found(vizhoniku_key_begin(key.at, key.size, &walk->cursor)))
		vjson_raise_corrupted();
}

static inline bool
next_in_walk(Walk *walk)
{
	struct vizhoniku_key_entry entry;

	if (!is_found(vizhoniku_key_next(walk->key.at, walk->key.size, &walk->cursor, &entry)))
		return false;
	walk->name.at = walk->key.at + entry.name_offset;
	walk->name.size = entry.name_size;
	walk->value.at = walk->key.at + entry.offset;
	walk->value.size = entry.size;
	return true;
}

/* The name of the member, or the string that is the item, as it is in a key. False if the item is no string. */
static inline bool
name_in_walk(const Walk *walk, Range *name)
{
	*name = walk->name;
	if (walk->name.size > 0)
		return true;
	if (kind_of(walk->value) != VIZHONIKU_STRING)
		return false;
	name->at = walk->value.at + 1;
	name->size = walk->value.size - 1;
	return true;
}

/* Words of the server as a name is in a key: as a string does, without the first byte, which reports the kind. */
static inline Range
name_as_in_key(text *words)
{
	Range		key = key_of_string(utf8_of(words));

	key.at++;
	key.size--;
	return key;
}

/* The order of bytes, for qsort and bsearch. */
static inline int
compare_ranges(const void *left, const void *right)
{
	const Range *one = left;
	const Range *other = right;
	int			order = memcmp(one->at, other->at, Min(one->size, other->size));

	return order != 0 ? order : (one->size > other->size) - (one->size < other->size);
}

#endif							/* KEY_WALK_H */
