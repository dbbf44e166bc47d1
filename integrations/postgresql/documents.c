/*-------------------------------------------------------------------------
 *
 * documents.c
 *	  Values that the library writes: documents, parts of documents, and their
 *	  texts.
 *
 *-------------------------------------------------------------------------
 */
#include "postgres.h"

#include <vizhoniku.h>

#include "mb/pg_wchar.h"
#include "utils/builtins.h"
#include "utils/memutils.h"

#include "key_walk.h"
#include "vjson.h"

char *
vjson_written(Writes write, const void *arguments, size_t front, size_t capacity, size_t *size)
{
	for (;;)
	{
		char	   *block = palloc_extended(front + capacity + 1, MCXT_ALLOC_HUGE);
		uint32		status = write(arguments, (unsigned char *) block + front, capacity, size);

		if (likely(status == VIZHONIKU_ACCEPTED))
			return block;
		pfree(block);
		if (status == VIZHONIKU_OUT_OF_MEMORY)
			vjson_raise_out_of_memory(capacity);
		if (status == VIZHONIKU_TOO_DEEP)
			ereport(ERROR,
					(errcode(ERRCODE_PROGRAM_LIMIT_EXCEEDED),
					 errmsg("vjson value has more than %d nested arrays and objects", MOST_LEVELS)));
		if (status != VIZHONIKU_TOO_SHORT)
		{
			is_found(status);
			return NULL;
		}
		capacity = *size;
	}
}

struct varlena *
vjson_value(char *block, size_t size)
{
	if (VARHDRSZ + size > MaxAllocSize)
		ereport(ERROR,
				(errcode(ERRCODE_PROGRAM_LIMIT_EXCEEDED),
				 errmsg("vjson value is too large"),
				 errdetail("It takes %zu bytes, which exceeds %zu bytes.", size, (size_t) MaxAllocSize)));
	SET_VARSIZE(block, VARHDRSZ + size);
	return (struct varlena *) block;
}

struct varlena *
vjson_value_with_table(char *block, size_t capacity, size_t size)
{
	unsigned char *document = (unsigned char *) block + VARHDRSZ;
	size_t		key_size = vizhoniku_document_key(document, size);
	size_t		table_size;
	uint32		status = vizhoniku_table(document, key_size, document + size, capacity - size, &table_size);

	if (status == VIZHONIKU_TOO_SHORT)
	{
		block = repalloc_huge(block, VARHDRSZ + size + table_size);
		document = (unsigned char *) block + VARHDRSZ;
		status = vizhoniku_table(document, key_size, document + size, table_size, &table_size);
	}
	if (status == VIZHONIKU_OUT_OF_MEMORY)
		vjson_raise_out_of_memory(size);
	return vjson_value(block, is_found(status) ? size + table_size : size);
}

struct varlena *
vjson_of_key(Range key)
{
	struct varlena *value = palloc(VARHDRSZ + key.size);

	SET_VARSIZE(value, VARHDRSZ + key.size);
	memcpy(VARDATA(value), key.at, key.size);
	return value;
}


/*
 * Texts
 */

static uint32
write_text(const void *document, unsigned char *buffer, size_t capacity, size_t *size)
{
	const Document *whole = document;

	return vizhoniku_document_text(whole->key.at, whole->size, buffer, capacity, size);
}

char *
vjson_text(const Document *document, size_t *size)
{
	char	   *text = vjson_written(write_text, document, 0, document->size + document->size / 4 + 64, size);

	if (text == NULL)
		vjson_raise_corrupted();
	if (*size > MaxAllocSize)
		ereport(ERROR,
				(errcode(ERRCODE_PROGRAM_LIMIT_EXCEEDED),
				 errmsg("vjson value is too large"),
				 errdetail("Its text of %zu bytes exceeds %zu bytes.", *size, (size_t) MaxAllocSize)));
	text[*size] = '\0';
	return text;
}

char *
vjson_server_text(const Document *document)
{
	size_t		size;
	char	   *text = vjson_text(document, &size);

	return GetDatabaseEncoding() == PG_UTF8 ? text : pg_any_to_server(text, (int) size, PG_UTF8);
}

/*
 * A value that was made can be written in the encoding of the database, or else
 * an error is raised, so that no row is kept that can't be shown or dumped.
 */
struct varlena *
vjson_checked_for_output(struct varlena *value)
{
	if (GetDatabaseEncoding() != PG_UTF8)
	{
		Document	document = get_document(value);

		pfree(vjson_server_text(&document));
	}
	return value;
}


/*
 * Parts
 */

/* A part of a document: its range in the key. */
typedef struct
{
	Document	whole;
	Range		part;
} PartOf;

static uint32
write_part(const void *arguments, unsigned char *buffer, size_t capacity, size_t *size)
{
	const PartOf *of = arguments;
	Range		key = of->whole.key;

	return vizhoniku_document_range(key.at, of->whole.size, of->part.at - key.at, of->part.size, buffer, capacity, size);
}

/* Whether a part of a document with zeros may have some of them, as far as its kind says. */
static inline bool
may_have_zeros(Range part)
{
	uint32		kind = kind_of(part);

	return kind == VIZHONIKU_NUMBER || !is_scalar(kind);
}

struct varlena *
vjson_part_with_zeros(const Document *whole, Range part)
{
	PartOf		of = {*whole, part};
	size_t		size;
	char	   *block;

	if (!may_have_zeros(part))
		return vjson_of_key(part);
	block = vjson_written(write_part, &of, VARHDRSZ, part.size + (whole->size - whole->key.size), &size);
	if (block == NULL)
		vjson_raise_corrupted();
	return vjson_value(block, size);
}

/* The text of a string's key, or of a name's, in the encoding of the database. Only of a zero byte a key has two. */
text *
vjson_text_of_string(Range key, bool is_name)
{
	text	   *result = (text *) palloc(VARHDRSZ + key.size);
	unsigned char *bytes = (unsigned char *) VARDATA(result);
	size_t		size;
	uint32		status = is_name ? vizhoniku_key_name(key.at, key.size, bytes, key.size, &size) :
		vizhoniku_key_string(key.at, key.size, bytes, key.size, &size);

	if (!is_found(status))
		vjson_raise_corrupted();
	if (size + STRING_EXTRA != key.size + is_name)
		ereport(ERROR,
				(errcode(ERRCODE_UNTRANSLATABLE_CHARACTER),
				 errmsg("a string with \\u0000 cannot be converted to text")));
	SET_VARSIZE(result, VARHDRSZ + size);
	if (GetDatabaseEncoding() == PG_UTF8)
		return result;
	return cstring_to_text(pg_any_to_server(pnstrdup((char *) bytes, size), (int) size, PG_UTF8));
}

/* The text of a number; that of an integer without zeros is written here, which takes less time. */
static text *
text_of_number(const Document *number)
{
	char		digits[MAXINT8LEN + 1];
	int64		integer;

	if (number->size == number->key.size &&
		is_found(vizhoniku_key_integer(number->key.at, number->key.size, &integer)))
		return cstring_to_text_with_len(digits, pg_lltoa(integer, digits));
	return cstring_to_text(vjson_server_text(number));
}

static inline text *
text_of(const Document *document)
{
	switch (kind_of(document->key))
	{
		case VIZHONIKU_NULL:
			return NULL;
		case VIZHONIKU_STRING:
			return vjson_text_of_string(document->key, false);
		case VIZHONIKU_NUMBER:
			return text_of_number(document);
		default:
			return cstring_to_text(vjson_server_text(document));
	}
}

text *
vjson_text_of(const Document *document)
{
	return text_of(document);
}

text *
vjson_part_text(const Document *whole, Range part)
{
	Document	document = document_of_key(part);

	if (unlikely(whole->size > whole->key.size) && may_have_zeros(part))
		document = get_document(vjson_part_with_zeros(whole, part));
	return text_of(&document);
}
