/*-------------------------------------------------------------------------
 *
 * vizhoniku.c
 *	  The type vjson: JSON documents that are compared, indexed and hashed by
 *	  value.
 *
 * A datum of vjson is a varlena with a document of the library.  That begins with
 * the sort key of the value: bytes whose order, by memcmp, is the order of
 * values, and that are equal exactly for equal values.  Comparing and hashing
 * look at it alone.  Behind it are the zeros that end decimals, where there are
 * any, and behind the document the table of the members of a larger object.
 * Values that older versions stored are still read (old_forms.c).
 *
 * Keys and texts are in UTF-8 whatever the encoding of the database.
 *
 *-------------------------------------------------------------------------
 */
#include "postgres.h"

#include "catalog/pg_type.h"
#include "common/hashfn.h"
#include "fmgr.h"
#include "lib/hyperloglog.h"
#include "libpq/pqformat.h"
#include "mb/pg_wchar.h"
#include "miscadmin.h"
#include "port/pg_bswap.h"
#include "utils/array.h"
#include "utils/builtins.h"
#include "utils/fmgroids.h"
#include "utils/jsonb.h"
#include "utils/memutils.h"
#include "utils/sortsupport.h"

#if PG_VERSION_NUM >= 160000
#include "nodes/miscnodes.h"
#endif

#include <vizhoniku.h>

#include "key_walk.h"
#include "vjson.h"

PG_MODULE_MAGIC;

/* What is reported of a text where memory lacks for the words of the library. */
#define NO_WORDS		"not a document"

/* How many bytes before a fault are shown. */
#define SHOWN_BEFORE	50

/* The longest path that is shown. */
#define LONGEST_PATH	500

/* The longest text of which it is clear that what is written of the value is at most 1 GB. */
#define LONGEST_CLEAR	(MaxAllocSize / 8)

/* How an abbreviated key is divided; see vjson_abbreviate. */
#define FRONT_LIMIT		0x7FFF
#define SHOWN_BYTES		6

/* How much of a compressed value is looked at first. */
#define FIRST_SLICE		256

/* What zeros and a table take at most, beside three times as many bytes as the key. */
#define MOST_BEHIND_KEY	13

/* From how many bytes on those that are surely of a key are looked at first. */
#define LONG_FRONT		48

/* What a sort with abbreviated keys keeps. */
typedef struct
{
	unsigned char *pivot;		/* the front of the first sort key that came */
	size_t		pivot_size;		/* at most FRONT_LIMIT; 0 where none came */
	int64		input_count;	/* keys so far */
	bool		estimating;		/* still counting distinct abbreviations? */
	hyperLogLogState distinct;
} VjsonSort;

PG_FUNCTION_INFO_V1(vjson_in);
PG_FUNCTION_INFO_V1(vjson_out);
PG_FUNCTION_INFO_V1(vjson_recv);
PG_FUNCTION_INFO_V1(vjson_send);
PG_FUNCTION_INFO_V1(vjson_extended);
PG_FUNCTION_INFO_V1(vjson_sort_key);
PG_FUNCTION_INFO_V1(vjson_path_in);
PG_FUNCTION_INFO_V1(vjson_path_recv);
PG_FUNCTION_INFO_V1(vjson_path_from_text);
PG_FUNCTION_INFO_V1(vjson_path_from_names);
PG_FUNCTION_INFO_V1(vjson_get);
PG_FUNCTION_INFO_V1(vjson_get_text);
PG_FUNCTION_INFO_V1(vjson_from_json);
PG_FUNCTION_INFO_V1(vjson_to_json);
PG_FUNCTION_INFO_V1(vjson_eq);
PG_FUNCTION_INFO_V1(vjson_ne);
PG_FUNCTION_INFO_V1(vjson_lt);
PG_FUNCTION_INFO_V1(vjson_le);
PG_FUNCTION_INFO_V1(vjson_gt);
PG_FUNCTION_INFO_V1(vjson_ge);
PG_FUNCTION_INFO_V1(vjson_cmp);
PG_FUNCTION_INFO_V1(vjson_smaller);
PG_FUNCTION_INFO_V1(vjson_larger);
PG_FUNCTION_INFO_V1(vjson_sortsupport);
PG_FUNCTION_INFO_V1(vjson_hash);
PG_FUNCTION_INFO_V1(vjson_hash_extended);


/*
 * Refusals
 */

/*
 * Make words fit for a message: where they aren't valid in the encoding of the
 * database, each byte that isn't printable ASCII becomes a question mark.
 */
static char *
printable(char *words, size_t size)
{
	if (GetDatabaseEncoding() != PG_UTF8 || !pg_verify_mbstr(PG_UTF8, words, (int) size, true))
	{
		for (size_t i = 0; i < size; i++)
		{
			if (words[i] < 0x20 || words[i] > 0x7E)
				words[i] = '?';
		}
	}
	return words;
}

/*
 * What is wrong with the text, in the words of the library.  NULL if there is
 * no memory for them.
 */
static char *
message_of_error(uint32 mode, const char *text, size_t size)
{
	size_t		capacity = 256;

	for (;;)
	{
		char	   *words = palloc_extended(capacity + 1, MCXT_ALLOC_HUGE);
		size_t		length;
		uint32		status = vizhoniku_reason(mode, (const unsigned char *) text, size,
											  (unsigned char *) words, capacity, &length);

		if (status == VIZHONIKU_REJECTED)
		{
			words[length] = '\0';
			return printable(words, length);
		}
		pfree(words);
		if (status != VIZHONIKU_TOO_SHORT)
			return NULL;
		capacity = length;
	}
}

/* The line with the fault, up to the fault, as it is shown to the user. */
static char *
shown_line(const char *text, size_t size, const struct vizhoniku_location *where)
{
	size_t		line = where->index - (where->column - 1);
	size_t		end = Min(where->index, size);
	size_t		start = Min(line, end);
	StringInfoData shown;
	char	   *part;

	if (end - start > SHOWN_BEFORE)
	{
		start = end - SHOWN_BEFORE;
		while (start < end && ((unsigned char) text[start] & 0xC0) == 0x80)
			start++;
	}
	if (end < size && text[end] != '\n')
	{
		end++;
		while (end < size && ((unsigned char) text[end] & 0xC0) == 0x80)
			end++;
	}

	part = pnstrdup(text + start, end - start);
	initStringInfo(&shown);
	if (start > line)
		appendStringInfoString(&shown, "...");
	appendStringInfoString(&shown, printable(part, end - start));
	if (end < size && text[end] != '\n')
		appendStringInfoString(&shown, "...");
	return shown.data;
}

void
vjson_locate(const VjsonRejection *why, VjsonLocation *where)
{
	struct vizhoniku_location location;

	vizhoniku_locate((const unsigned char *) why->text, why->size, &why->located, &location);
	where->index = location.index;
	where->line = location.line;
	where->column = vizhoniku_character((const unsigned char *) why->text, why->size,
										location.index - (location.column - 1), location.index);
	where->shown = shown_line(why->text, why->size, &location);
}

/* Where a number or a name is rejected: the path, as the end of a sentence. Empty for the whole text or a long path. */
static const char *
words_of_path(const VjsonRejection *why)
{
	const char *path;

	if (why->error.code != VIZHONIKU_NUMBER_NOT_CARRIED && why->error.code != VIZHONIKU_OBJECT_DUPLICATE_KEY)
		return "";
	path = vjson_path_of_rejection(why);
	return path == NULL || *path == '\0' || strlen(path) > LONGEST_PATH ? "" : psprintf(", at %s", path);
}

/* What to do about a number or a name that is rejected. */
static int
hint_of_rejection(const VjsonRejection *why)
{
	switch (why->error.code)
	{
		case VIZHONIKU_NUMBER_NOT_CARRIED:
			if (why->mode == VIZHONIKU_EXTENDED)
				return errhint("Numbers are integers, decimals of at most 38 digits and hexadecimals, with no "
							   "exponent.");
			return errhint("Numbers are integers and decimals of at most 38 digits, where an exponent is written out. "
						   "vjson_rounded rounds those below 10^38, and vjson_error says which documents of a table "
						   "are rejected, and why.");
		case VIZHONIKU_OBJECT_DUPLICATE_KEY:
			return errhint("vjson_error says which documents of a table are rejected, and why.");
		default:
			return 0;
	}
}

/*
 * Report why a text was rejected.  This raises an error, unless the caller of
 * the function asked by its context for errors that it goes on after.
 */
static void
report_rejection(Node *context, const VjsonRejection *why)
{
	VjsonLocation	where;
	const char *at = words_of_path(why);

	vjson_locate(why, &where);
	vjson_report(context,
				 (errcode(ERRCODE_INVALID_TEXT_REPRESENTATION),
				  errmsg("invalid input syntax for type %s", "vjson"),
				  errdetail_internal("%s (line %zu, column %zu)%s", why->words, where.line, where.column, at),
				  hint_of_rejection(why),
				  errcontext("vjson text, line %zu: %s", where.line, where.shown)));
}

void
vjson_raise_rejection(const VjsonRejection *why)
{
	report_rejection(NULL, why);
	pg_unreachable();
}

void
vjson_raise_out_of_memory(size_t size)
{
	ereport(ERROR,
			(errcode(ERRCODE_OUT_OF_MEMORY),
			 errmsg("out of memory"),
			 errdetail("Failed while reading a vjson text of %zu bytes.", size)));
}

void
vjson_raise_unexpected(uint32 status)
{
	elog(ERROR, "unexpected status %u of the library vizhoniku", status);
}


/*
 * Reading
 */

/* Raise an error where the text of a value exceeds 1 GB, so that no row is kept that can't be shown or dumped. */
static void
check_size_of_text(struct varlena *value)
{
	Document	document = get_document(value);
	size_t		size;

	pfree(vjson_text(&document, &size));
}

/*
 * Read the text in this mode, and make the value.  Answers the status of the
 * library; *value is set where it is VIZHONIKU_ACCEPTED.
 */
static uint32
make_value(uint32 mode, const char *text, size_t size, struct varlena **value, struct vizhoniku_error *error)
{
	size_t		capacity = size + SPARE_ROOM;

	CHECK_FOR_INTERRUPTS();
	check_stack_depth();		/* a call takes at most 110 kB more, and the server keeps 512 kB behind that */
	for (;;)
	{
		char	   *block = palloc_extended(VARHDRSZ + capacity, MCXT_ALLOC_HUGE);
		size_t		written;
		uint32		status = vizhoniku_document(mode, (const unsigned char *) text, size,
												(unsigned char *) VARDATA(block), capacity, &written, error);

		if (status == VIZHONIKU_ACCEPTED)
		{
			*value = vjson_value_with_table(block, capacity, written);
			if (size > LONGEST_CLEAR)
				check_size_of_text(*value);
			return status;
		}
		pfree(block);
		if (status != VIZHONIKU_TOO_SHORT)
			return status;
		capacity = written;
	}
}

/* Read a text in UTF-8.  NULL if it is rejected, and then *why says why. */
static struct varlena *
try_utf8(const char *text, size_t size, uint32 mode, VjsonRejection *why)
{
	struct varlena *value = NULL;
	uint32		status = make_value(mode, text, size, &value, &why->error);

	if (status == VIZHONIKU_ACCEPTED)
		return value;
	if (status == VIZHONIKU_OUT_OF_MEMORY)
		vjson_raise_out_of_memory(size);
	if (status != VIZHONIKU_REJECTED)
		vjson_raise_unexpected(status);
	why->read = why->text = text;
	why->read_size = why->size = size;
	why->located = why->error;
	why->mode = mode;
	why->words = message_of_error(mode, text, size);
	if (why->words == NULL)
		why->words = NO_WORDS;
	return NULL;
}

/* Read a text in UTF-8.  Where it is rejected this is reported; the answer is NULL if that raises no error. */
static struct varlena *
read_utf8(const char *text, size_t size, uint32 mode, Node *context)
{
	VjsonRejection why;
	struct varlena *value = try_utf8(text, size, mode, &why);

	if (value == NULL)
		report_rejection(context, &why);
	return value;
}

/* Read a text in the encoding of the database, as read_utf8 does. */
static struct varlena *
read_value(const char *server_text, size_t server_size, uint32 mode, Node *context)
{
	char	   *text = pg_server_to_any(server_text, (int) server_size, PG_UTF8);
	size_t		size = text == server_text ? server_size : strlen(text);
	struct varlena *value = read_utf8(text, size, mode, context);

	if (text != server_text)
		pfree(text);
	return value;
}

struct varlena *
vjson_of_text(const char *text, size_t size)
{
	return read_utf8(text, size, VIZHONIKU_JSON, NULL);
}

struct varlena *
vjson_try_text(const char *text, size_t size, VjsonRejection *why)
{
	return try_utf8(text, size, VIZHONIKU_JSON, why);
}


/*
 * Looking at values
 */

void
vjson_raise_corrupted(void)
{
	ereport(ERROR, (errcode(ERRCODE_DATA_CORRUPTED), errmsg("vjson value is corrupted")));
}

/* The value of a datum, and its key. What is answered is to be freed by free_value. */
static inline struct varlena *
value_of(Datum datum, Range *key)
{
	struct varlena *value = PG_DETOAST_DATUM_PACKED(datum);

	*key = get_key(value);
	return value;
}

static inline void
free_value(struct varlena *value, Datum datum)
{
	if ((Pointer) value != DatumGetPointer(datum))
		pfree(value);
}


/*
 * Input and output
 */

Datum
vjson_in(PG_FUNCTION_ARGS)
{
	char	   *text = PG_GETARG_CSTRING(0);
	struct varlena *value = read_value(text, strlen(text), VIZHONIKU_JSON, fcinfo->context);

	if (value == NULL)
		PG_RETURN_NULL();
	PG_RETURN_POINTER(vjson_checked_for_output(value));
}

Datum
vjson_out(PG_FUNCTION_ARGS)
{
	Document	document = get_document(PG_GETARG_VARLENA_PP(0));

	PG_RETURN_CSTRING(vjson_server_text(&document));
}

/* The binary form is the text, as that of json is. */
Datum
vjson_recv(PG_FUNCTION_ARGS)
{
	StringInfo	buffer = (StringInfo) PG_GETARG_POINTER(0);
	int			size;
	char	   *text = pq_getmsgtext(buffer, buffer->len - buffer->cursor, &size);

	PG_RETURN_POINTER(vjson_checked_for_output(read_value(text, size, VIZHONIKU_JSON, NULL)));
}

Datum
vjson_send(PG_FUNCTION_ARGS)
{
	Document	document = get_document(PG_GETARG_VARLENA_PP(0));
	char	   *text = vjson_server_text(&document);
	StringInfoData buffer;

	pq_begintypsend(&buffer);
	pq_sendtext(&buffer, text, (int) strlen(text));
	PG_RETURN_BYTEA_P(pq_endtypsend(&buffer));
}

Datum
vjson_extended(PG_FUNCTION_ARGS)
{
	text	   *words = PG_GETARG_TEXT_PP(0);

	PG_RETURN_POINTER(vjson_checked_for_output(read_value(VARDATA_ANY(words), VARSIZE_ANY_EXHDR(words), VIZHONIKU_EXTENDED, NULL)));
}

Datum
vjson_sort_key(PG_FUNCTION_ARGS)
{
	PG_RETURN_BYTEA_P((bytea *) vjson_of_key(key_of_datum(PG_GETARG_DATUM(0))));
}


/*
 * The part at a path
 */

/* Report that a text is no path, as report_rejection does. */
static void
report_no_path(Node *context, const char *path)
{
	vjson_report(context,
				 (errcode(ERRCODE_INVALID_PARAMETER_VALUE),
				  errmsg("invalid path: \"%s\"", path),
				  errdetail("A path is empty or begins with \"/\", and each \"~\" in it is followed by 0 or 1."),
				  errhint("Names and indexes in an array are a path too, as in '{a,0}'.")));
}

uint32
vjson_find_part(Range key, Range path, Range *part)
{
	size_t		offset;
	uint32		status = vizhoniku_key_part(key.at, key.size, path.at, path.size, &offset, &part->size);

	if (status == VIZHONIKU_OUT_OF_MEMORY)
		vjson_raise_out_of_memory(key.size);
	if (status != VIZHONIKU_NO_PATH)
		is_found(status);
	part->at = key.at + offset;
	return status;
}

/* The path of names as jsonb's functions take them. NULL if one is NULL and no error is raised. */
static text *
path_of_names(ArrayType *array, Node *context)
{
	StringInfoData path;
	Datum	   *names;
	bool	   *nulls;
	int			count;

	deconstruct_array(array, TEXTOID, -1, false, TYPALIGN_INT, &names, &nulls, &count);
	initStringInfo(&path);
	for (int i = 0; i < count; i++)
	{
		if (nulls[i])
		{
			vjson_report(context,
						 (errcode(ERRCODE_NULL_VALUE_NOT_ALLOWED),
						  errmsg("path element at position %d is null", i + 1)));
			return NULL;
		}
		appendStringInfoChar(&path, '/');
		for (const char *byte = TextDatumGetCString(names[i]); *byte != '\0'; byte++)
		{
			if (*byte == '~')
				appendStringInfoString(&path, "~0");
			else if (*byte == '/')
				appendStringInfoString(&path, "~1");
			else
				appendStringInfoChar(&path, *byte);
		}
	}
	return cstring_to_text_with_len(path.data, path.len);
}

/* The path of a text as jsonb's functions take it: an array of names, as '{a,0}'. */
static text *
path_of_array(char *words, Node *context)
{
	Datum		array;

#if PG_VERSION_NUM >= 160000
	FmgrInfo	function;

	fmgr_info(F_ARRAY_IN, &function);
	if (!InputFunctionCallSafe(&function, words, TEXTOID, -1, context, &array))
		return NULL;
#else
	array = OidInputFunctionCall(F_ARRAY_IN, words, TEXTOID, -1);
#endif
	return path_of_names(DatumGetArrayTypeP(array), context);
}

/*
 * A path is kept as a text, in the encoding of the database.  The library says
 * by any key whether it is one.  NULL if it isn't and no error is raised.
 */
static text *
make_path(const char *path, size_t size, Node *context)
{
	static const unsigned char null_key[] = {NULL_KEY};
	Range		any_key = {null_key, sizeof null_key};
	Range		part;

	if (size > 0 && path[0] == '{')
		return path_of_array(pnstrdup(path, size), context);
	if (vjson_find_part(any_key, utf8_of_bytes(path, size), &part) == VIZHONIKU_NO_PATH)
	{
		report_no_path(context, pnstrdup(path, size));
		return NULL;
	}
	return cstring_to_text_with_len(path, (int) size);
}

Datum
vjson_path_in(PG_FUNCTION_ARGS)
{
	char	   *path = PG_GETARG_CSTRING(0);
	text	   *result = make_path(path, strlen(path), fcinfo->context);

	if (result == NULL)
		PG_RETURN_NULL();
	PG_RETURN_TEXT_P(result);
}

Datum
vjson_path_recv(PG_FUNCTION_ARGS)
{
	StringInfo	buffer = (StringInfo) PG_GETARG_POINTER(0);
	int			size;
	char	   *path = pq_getmsgtext(buffer, buffer->len - buffer->cursor, &size);

	PG_RETURN_TEXT_P(make_path(path, size, NULL));
}

Datum
vjson_path_from_text(PG_FUNCTION_ARGS)
{
	text	   *path = PG_GETARG_TEXT_PP(0);

	PG_RETURN_TEXT_P(make_path(VARDATA_ANY(path), VARSIZE_ANY_EXHDR(path), NULL));
}

Datum
vjson_path_from_names(PG_FUNCTION_ARGS)
{
	PG_RETURN_TEXT_P(path_of_names(PG_GETARG_ARRAYTYPE_P(0), NULL));
}

/*
 * Where the part of a document at the path that is the second argument is.
 * False if there is none.
 *
 * The first step goes by the table of the members, where there is one.  To the
 * library a step with a minus sign is no index, as RFC 6901 has it; here it
 * counts from the end, as in a path of what is changed.
 */
static bool
find_at_path(FunctionCallInfo fcinfo, const Document *whole, Range *part)
{
	Range		path = words_of_call(fcinfo);
	Range		rest = path;
	Range		name;

	*part = whole->key;
	if (whole->table.size > 0 && vjson_take_name(&rest, &name))
	{
		if (!find_member(whole, name, part))
			return false;
		if (rest.size == 0)
			return true;
	}
	switch (vjson_find_part(*part, rest, part))
	{
		case VIZHONIKU_ACCEPTED:
			return true;
		case VIZHONIKU_NO_PART:
			return memchr(path.at, '-', path.size) != NULL && vjson_find_by_steps(whole, path, part);
		case VIZHONIKU_NO_PATH:
			report_no_path(NULL, text_to_cstring(PG_GETARG_TEXT_PP(1)));
			return false;
		default:
			return false;
	}
}

Datum
vjson_get(PG_FUNCTION_ARGS)
{
	Document	document = get_document(PG_GETARG_VARLENA_PP(0));
	Range		part;

	if (!find_at_path(fcinfo, &document, &part))
		PG_RETURN_NULL();
	PG_RETURN_POINTER(vjson_part(&document, part));
}

/* The part as a text: a string without its quotes and escapes, and NULL where it is null. */
Datum
vjson_get_text(PG_FUNCTION_ARGS)
{
	Document	document = get_document(PG_GETARG_VARLENA_PP(0));
	Range		part;
	text	   *result = NULL;

	if (find_at_path(fcinfo, &document, &part))
		result = vjson_part_text(&document, part);
	if (result == NULL)
		PG_RETURN_NULL();
	PG_RETURN_TEXT_P(result);
}


/*
 * Casts.  Those from and to text are the server's, by input and output.
 */

/* What json and jsonb hold is JSON, so that extended mode adds numbers alone. */
Datum
vjson_from_json(PG_FUNCTION_ARGS)
{
	text	   *json = PG_GETARG_TEXT_PP(0);

	PG_RETURN_POINTER(vjson_checked_for_output(read_value(VARDATA_ANY(json), VARSIZE_ANY_EXHDR(json), VIZHONIKU_JSON, NULL)));
}

static char *
text_of_argument(Datum datum)
{
	struct varlena *value = PG_DETOAST_DATUM_PACKED(datum);
	Document	document = get_document(value);
	char	   *text = vjson_server_text(&document);

	if ((Pointer) value != DatumGetPointer(datum))
		pfree(value);
	return text;
}

Datum
vjson_to_json(PG_FUNCTION_ARGS)
{
	return DirectFunctionCall1(json_in, CStringGetDatum(text_of_argument(PG_GETARG_DATUM(0))));
}


/*
 * Order and equality
 */

static inline int
compare_keys(Range left, Range right)
{
	int			order = memcmp(left.at, right.at, Min(left.size, right.size));

	if (order != 0)
		return order < 0 ? -1 : 1;
	return (left.size > right.size) - (left.size < right.size);
}

/*
 * How many of the first bytes of a value are surely of its key: the zeros take
 * at most twice as many bytes as the key, and ten, and the table at most as
 * many as the key, and three.
 */
static inline size_t
surely_of_key(size_t size)
{
	return size > MOST_BEHIND_KEY ? (size - MOST_BEHIND_KEY) / 4 : 0;
}

/*
 * Documents, with their tables.  Where the bytes that are surely of both keys
 * are the same, the end of the first key is looked for alone: no key begins
 * another one, so that no more bytes tell their order.
 */
static inline int
compare_stored(Range left, Range right)
{
	size_t		front = Min(surely_of_key(left.size), surely_of_key(right.size));

	if (front >= LONG_FRONT)
	{
		int			order = memcmp(left.at, right.at, front);

		if (order != 0)
			return order < 0 ? -1 : 1;
	}
	left.size = vizhoniku_document_key(left.at, left.size);
	right.size = Min(right.size, left.size);
	return compare_keys(left, right);
}

/* The same for equality, of values that are mostly the same. */
static inline bool
equal_stored(Range left, Range right)
{
	if (same_bytes(left, right))
		return true;
	left.size = vizhoniku_document_key(left.at, left.size);
	right.size = Min(right.size, left.size);
	return same_bytes(left, right);
}

static inline bool
is_old(Range bytes)
{
	return unlikely(*bytes.at < OLD_FORMS);
}

static inline bool
is_compressed(Datum datum)
{
	return VARATT_IS_COMPRESSED(DatumGetPointer(datum));
}

/* Whether a value is compressed, or has many bytes that are surely of its key. */
static inline bool
may_have_long_front(Datum datum)
{
	return is_compressed(datum) || surely_of_key(VARSIZE_ANY_EXHDR(DatumGetPointer(datum))) >= LONG_FRONT;
}

/*
 * The first bytes of a value's key: of those that are there as many as are
 * surely of it.  Of a compressed value only some are decompressed.
 */
static inline struct varlena *
front_of(Datum datum, Range *front)
{
	bool		compressed = is_compressed(datum);
	struct varlena *value = compressed ? PG_DETOAST_DATUM_SLICE(datum, 0, FIRST_SLICE) : PG_DETOAST_DATUM_PACKED(datum);
	size_t		size;

	*front = bytes_of(value);
	if (is_old(*front))
	{
		*front = vjson_old_key(*front, compressed);
		return value;
	}
	size = compressed ? VARDATA_COMPRESSED_GET_EXTSIZE(DatumGetPointer(datum)) : front->size;
	front->size = Min(front->size, surely_of_key(size));
	return value;
}

/*
 * Compare values of which one is compressed by what is cheaper than whole keys:
 * by the compressed bytes, which are the same only for the same value, and by
 * the fronts of the keys.  False if that doesn't say the order.
 */
static bool
compare_compressed(Datum left, Datum right, int *order)
{
	Pointer		left_value = DatumGetPointer(left);
	Pointer		right_value = DatumGetPointer(right);
	struct varlena *left_slice;
	struct varlena *right_slice;
	Range		left_front;
	Range		right_front;

	if (VARATT_IS_EXTERNAL(left_value) || VARATT_IS_EXTERNAL(right_value))
		return false;
	if (VARATT_IS_COMPRESSED(left_value) && VARATT_IS_COMPRESSED(right_value) &&
		VARSIZE(left_value) == VARSIZE(right_value) &&
		memcmp(left_value, right_value, VARSIZE(left_value)) == 0)
	{
		*order = 0;
		return true;
	}
	left_slice = is_compressed(left) ? front_of(left, &left_front) : value_of(left, &left_front);
	right_slice = is_compressed(right) ? front_of(right, &right_front) : value_of(right, &right_front);
	*order = memcmp(left_front.at, right_front.at, Min(left_front.size, right_front.size));
	free_value(left_slice, left);
	free_value(right_slice, right);
	return *order != 0;
}

static int
compare_datums(Datum left, Datum right)
{
	struct varlena *left_value;
	struct varlena *right_value;
	Range		left_bytes;
	Range		right_bytes;
	int			order;

	if ((is_compressed(left) || is_compressed(right)) && compare_compressed(left, right, &order))
		return order < 0 ? -1 : order > 0;
	left_value = PG_DETOAST_DATUM_PACKED(left);
	right_value = PG_DETOAST_DATUM_PACKED(right);
	left_bytes = bytes_of(left_value);
	right_bytes = bytes_of(right_value);
	if (is_old(left_bytes) || is_old(right_bytes))
		order = compare_keys(get_key(left_value), get_key(right_value));
	else
		order = compare_stored(left_bytes, right_bytes);
	free_value(left_value, left);
	free_value(right_value, right);
	return order;
}

static bool
equal_datums(Datum left, Datum right)
{
	struct varlena *left_value;
	struct varlena *right_value;
	Range		left_bytes;
	Range		right_bytes;
	int			order;
	bool		equal;

	if ((is_compressed(left) || is_compressed(right)) && compare_compressed(left, right, &order))
		return order == 0;
	left_value = PG_DETOAST_DATUM_PACKED(left);
	right_value = PG_DETOAST_DATUM_PACKED(right);
	left_bytes = bytes_of(left_value);
	right_bytes = bytes_of(right_value);
	if (is_old(left_bytes) || is_old(right_bytes))
		equal = same_bytes(get_key(left_value), get_key(right_value));
	else
		equal = equal_stored(left_bytes, right_bytes);
	free_value(left_value, left);
	free_value(right_value, right);
	return equal;
}

Datum
vjson_eq(PG_FUNCTION_ARGS)
{
	PG_RETURN_BOOL(equal_datums(PG_GETARG_DATUM(0), PG_GETARG_DATUM(1)));
}

Datum
vjson_ne(PG_FUNCTION_ARGS)
{
	PG_RETURN_BOOL(!equal_datums(PG_GETARG_DATUM(0), PG_GETARG_DATUM(1)));
}

Datum
vjson_lt(PG_FUNCTION_ARGS)
{
	PG_RETURN_BOOL(compare_datums(PG_GETARG_DATUM(0), PG_GETARG_DATUM(1)) < 0);
}

Datum
vjson_le(PG_FUNCTION_ARGS)
{
	PG_RETURN_BOOL(compare_datums(PG_GETARG_DATUM(0), PG_GETARG_DATUM(1)) <= 0);
}

Datum
vjson_gt(PG_FUNCTION_ARGS)
{
	PG_RETURN_BOOL(compare_datums(PG_GETARG_DATUM(0), PG_GETARG_DATUM(1)) > 0);
}

Datum
vjson_ge(PG_FUNCTION_ARGS)
{
	PG_RETURN_BOOL(compare_datums(PG_GETARG_DATUM(0), PG_GETARG_DATUM(1)) >= 0);
}

Datum
vjson_cmp(PG_FUNCTION_ARGS)
{
	PG_RETURN_INT32(compare_datums(PG_GETARG_DATUM(0), PG_GETARG_DATUM(1)));
}

/* Of equal documents the first stays. */
Datum
vjson_smaller(PG_FUNCTION_ARGS)
{
	PG_RETURN_DATUM(PG_GETARG_DATUM(compare_datums(PG_GETARG_DATUM(0), PG_GETARG_DATUM(1)) <= 0 ? 0 : 1));
}

Datum
vjson_larger(PG_FUNCTION_ARGS)
{
	PG_RETURN_DATUM(PG_GETARG_DATUM(compare_datums(PG_GETARG_DATUM(0), PG_GETARG_DATUM(1)) >= 0 ? 0 : 1));
}


/*
 * Sorting
 */

static int
vjson_fast_cmp(Datum x, Datum y, SortSupport ssup)
{
	(void) ssup;
	return compare_datums(x, y);
}

#if SIZEOF_DATUM >= 8

/* The bytes of a key from this index on as a number, the first one the highest, with zeros behind the last. */
static inline uint64
shown_bytes(Range key, size_t from)
{
	uint64		shown = 0;

	if (likely(from + sizeof(uint64) <= key.size))
	{
		memcpy(&shown, key.at + from, sizeof(uint64));
		return pg_ntoh64(shown) >> (8 * (sizeof(uint64) - SHOWN_BYTES));
	}
	for (size_t i = from; i < from + SHOWN_BYTES; i++)
		shown = (shown << 8) | (i < key.size ? key.at[i] : 0);
	return shown;
}

/*
 * An abbreviated key, compared as an unsigned number.
 *
 * Documents of one table often begin alike, so that the first bytes of their
 * sort keys say little.  So a key is reported by where it leaves the first key
 * that came, the pivot:
 *
 *	- the highest bit: whether it is below the pivot (0) or not (1),
 *	- 15 bits: how many bytes it begins with in common with the pivot, at most
 *	  FRONT_LIMIT; a key below the pivot is the higher the more these are, and
 *	  one above it the lower the more these are,
 *	- 6 bytes: those that come next.
 *
 * Keys that agree in the first two parts begin with the same bytes of the
 * pivot, so that what comes next compares as the keys do.
 */
static Datum
vjson_abbreviate(Datum original, SortSupport ssup)
{
	VjsonSort  *sort = (VjsonSort *) ssup->ssup_extra;
	bool		is_front = sort->pivot_size > 0 && may_have_long_front(original);
	Range		key;
	struct varlena *value = is_front ? front_of(original, &key) : value_of(original, &key);
	size_t		limit;
	size_t		front = 0;
	bool		below;
	uint64		result;

	if (sort->pivot_size == 0)
	{
		sort->pivot_size = Min(key.size, FRONT_LIMIT);
		sort->pivot = MemoryContextAlloc(ssup->ssup_cxt, Max(sort->pivot_size, 1));
		memcpy(sort->pivot, key.at, sort->pivot_size);
	}

	for (;;)
	{
		limit = Min(key.size, sort->pivot_size);
		while (front + sizeof(uint64) <= limit &&
			   memcmp(key.at + front, sort->pivot + front, sizeof(uint64)) == 0)
			front += sizeof(uint64);
		while (front < limit && key.at[front] == sort->pivot[front])
			front++;
		if (!is_front || front + SHOWN_BYTES <= key.size)
			break;
		is_front = false;		/* the front may be too short */
		if (is_compressed(original))
		{
			free_value(value, original);
			value = PG_DETOAST_DATUM_PACKED(original);
		}
		key = get_key(value);
	}

	/* No key begins another: one with all bytes of the pivot is the pivot, or has FRONT_LIMIT bytes in common. */
	below = front < limit && key.at[front] < sort->pivot[front];
	result = below ? (uint64) front : (uint64) (2 * FRONT_LIMIT + 1 - front);
	result = (result << (8 * SHOWN_BYTES)) | shown_bytes(key, front);
	free_value(value, original);

	sort->input_count++;
	if (sort->estimating)
		addHyperLogLog(&sort->distinct,
					   DatumGetUInt32(hash_uint32((uint32) result ^ (uint32) (result >> 32))));
	return (Datum) result;
}

/*
 * Whether to give up abbreviated keys, since too few of them differ.  This is
 * what the server's own types of fixed cost (uuid, network addresses) do.
 */
static bool
vjson_abbreviate_abort(int memtupcount, SortSupport ssup)
{
	VjsonSort  *sort = (VjsonSort *) ssup->ssup_extra;
	double		distinct;

	if (memtupcount < 10000 || sort->input_count < 10000 || !sort->estimating)
		return false;
	distinct = estimateHyperLogLog(&sort->distinct);
	if (distinct > 100000.0)
	{
		sort->estimating = false;
		return false;
	}
	return distinct < sort->input_count / 2000.0 + 0.5;
}

#endif							/* SIZEOF_DATUM >= 8 */

Datum
vjson_sortsupport(PG_FUNCTION_ARGS)
{
	SortSupport ssup = (SortSupport) PG_GETARG_POINTER(0);

	ssup->comparator = vjson_fast_cmp;
	ssup->ssup_extra = NULL;
#if SIZEOF_DATUM >= 8
	if (ssup->abbreviate)
	{
		VjsonSort  *sort = MemoryContextAllocZero(ssup->ssup_cxt, sizeof(VjsonSort));
		MemoryContext caller = MemoryContextSwitchTo(ssup->ssup_cxt);

		sort->estimating = true;
		initHyperLogLog(&sort->distinct, 10);
		MemoryContextSwitchTo(caller);
		ssup->ssup_extra = sort;
		ssup->comparator = ssup_datum_unsigned_cmp;
		ssup->abbrev_converter = vjson_abbreviate;
		ssup->abbrev_abort = vjson_abbreviate_abort;
		ssup->abbrev_full_comparator = vjson_fast_cmp;
	}
#endif
	PG_RETURN_VOID();
}


/*
 * Hashing
 */

Datum
vjson_hash(PG_FUNCTION_ARGS)
{
	Range		key;
	Datum		datum = PG_GETARG_DATUM(0);
	struct varlena *value = value_of(datum, &key);
	Datum		result = hash_any(key.at, (int) key.size);

	free_value(value, datum);
	PG_RETURN_DATUM(result);
}

Datum
vjson_hash_extended(PG_FUNCTION_ARGS)
{
	Range		key;
	Datum		datum = PG_GETARG_DATUM(0);
	struct varlena *value = value_of(datum, &key);
	Datum		result = hash_any_extended(key.at, (int) key.size, PG_GETARG_INT64(1));

	free_value(value, datum);
	PG_RETURN_DATUM(result);
}
