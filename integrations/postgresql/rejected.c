/*-------------------------------------------------------------------------
 *
 * rejected.c
 *	  What is reported of texts that are no documents, and texts whose numbers are
 *	  rounded so that they become ones: for those who bring a table of json,
 *	  jsonb or text to vjson.
 *
 *-------------------------------------------------------------------------
 */
#include "postgres.h"

#include "access/htup_details.h"
#include "fmgr.h"
#include "funcapi.h"
#include "lib/stringinfo.h"
#include "mb/pg_wchar.h"
#include "miscadmin.h"
#include "utils/builtins.h"
#include "utils/jsonb.h"
#include "utils/memutils.h"
#include "utils/numeric.h"

#include "key_walk.h"
#include "vjson.h"

/* The most digits that a number has, and those of a number that is rounded which say to what. */
#define MOST_DIGITS		38
#define MOST_ROUNDED	(MOST_DIGITS + 2)

/* The columns of what is reported. */
#define COLUMNS			5

PG_FUNCTION_INFO_V1(vjson_error);
PG_FUNCTION_INFO_V1(vjson_error_of_jsonb);
PG_FUNCTION_INFO_V1(vjson_rounded);


/*
 * Numbers of a text
 */

/* Behind the string that begins here, or the end of the text. */
static size_t
behind_string(const char *text, size_t size, size_t at)
{
	for (at++; at < size && text[at] != '"'; at++)
	{
		if (text[at] == '\\')
			at++;
	}
	return Min(at + 1, size);
}

/* Whether a byte may be one of a number. */
static bool
is_of_number(char byte)
{
	return (byte >= '0' && byte <= '9') || byte == '-' || byte == '+' || byte == '.' || byte == 'e' || byte == 'E';
}

static bool
begins_number(char byte)
{
	return byte == '-' || (byte >= '0' && byte <= '9');
}

/* Behind all bytes from here on that may be of a number. */
static size_t
behind_number_bytes(const char *text, size_t size, size_t at)
{
	while (at < size && is_of_number(text[at]))
		at++;
	return at;
}


/*
 * Rounding
 */

static bool
is_carried(const char *number, size_t size)
{
	struct vizhoniku_error error;

	return vizhoniku_check(VIZHONIKU_JSON, (const unsigned char *) number, size, &error) == VIZHONIKU_ACCEPTED;
}

static char *
text_of_numeric(Datum numeric)
{
	return DatumGetCString(DirectFunctionCall1(numeric_out, numeric));
}

/* How many digits are before the point, without the zeros at their front. */
static int
whole_digits(const char *number)
{
	number += strspn(number, "-0");
	return (int) strspn(number, "0123456789");
}

/* The exponent that begins here, of at most 32 bits: greater ones say no more of a number that fits into memory. */
static int64
exponent_at(const char *number, size_t size, size_t at)
{
	long		exponent = at < size ? strtol(pnstrdup(number + at + 1, size - at - 1), NULL, 10) : 0;

	return Max(Min(exponent, PG_INT32_MAX), PG_INT32_MIN);
}

/* The digits of a number from the first one on that isn't 0: as 0.DIGITS times a power of 10. */
typedef struct
{
	char		at[MOST_ROUNDED + 1];
	int			count;
	int64		power;
} Digits;

static Digits
digits_of(const char *number, size_t size)
{
	Digits		digits = {{0}, 0, 0};
	bool		is_behind_point = false;
	size_t		at;

	for (at = 0; at < size && number[at] != 'e' && number[at] != 'E'; at++)
	{
		if (number[at] == '.')
			is_behind_point = true;
		if (number[at] < '0' || number[at] > '9')
			continue;
		if (digits.count == 0 && number[at] == '0')
			digits.power -= is_behind_point;
		else
		{
			digits.power += !is_behind_point;
			if (digits.count < MOST_ROUNDED)
				digits.at[digits.count++] = number[at];
		}
	}
	digits.power += exponent_at(number, size, at);
	return digits;
}

/* The number of these digits, rounded to the most decimals that are representable. NULL where it is too large. */
static const char *
rounded_digits(bool is_negative, const Digits *digits)
{
	char	   *words = psprintf("%s0.%se%d", is_negative ? "-" : "", digits->at, (int) digits->power);
	Datum		exact = DirectFunctionCall3(numeric_in, CStringGetDatum(words), ObjectIdGetDatum(InvalidOid),
										Int32GetDatum(-1));

	words = text_of_numeric(exact);
	for (int decimals = MOST_DIGITS - whole_digits(words); decimals >= 0 && !is_carried(words, strlen(words));
		 decimals--)
		words = text_of_numeric(DirectFunctionCall1(numeric_trim_scale,
			DirectFunctionCall2(numeric_round, exact, Int32GetDatum(decimals))));
	return is_carried(words, strlen(words)) ? words : NULL;
}

/*
 * A number of JSON rounded.  NULL where it has more than 38 digits before the
 * point.  A numeric is made only of what it surely has place for, which isn't so
 * for each number of JSON.
 */
static const char *
rounded_number(const char *number, size_t size)
{
	Digits		digits = digits_of(number, size);

	if (digits.count == 0 || digits.power < -MOST_DIGITS)
		return "0";
	return digits.power <= MOST_DIGITS ? rounded_digits(*number == '-', &digits) : NULL;
}

/* Whether the bytes are a number of JSON that isn't representable. */
static bool
is_too_long(const char *number, size_t size)
{
	struct vizhoniku_error error;

	return vizhoniku_check(VIZHONIKU_JSON, (const unsigned char *) number, size, &error) == VIZHONIKU_REJECTED &&
		error.code == VIZHONIKU_NUMBER_NOT_CARRIED && error.position == size;
}

/* Append a number as it is where it is representable, or can't be rounded so that it is, and else rounded. */
static void
append_rounded(StringInfo out, const char *number, size_t size)
{
	const char *words = is_too_long(number, size) ? rounded_number(number, size) : NULL;

	if (words != NULL)
		appendStringInfoString(out, words);
	else
		appendBinaryStringInfo(out, number, (int) size);
}

/* A text whose numbers are being rounded. */
typedef struct
{
	const char *text;
	size_t		size;
	size_t		at;				/* how far that is */
	StringInfoData written;		/* what is written of that */
	MemoryContext of_number;	/* what one number takes on the way is given back before the next one */
} Rounding;

static Rounding
begin_rounding(const char *text, size_t size)
{
	Rounding	rounding = {.text = text, .size = size};

	initStringInfo(&rounding.written);
	rounding.of_number = AllocSetContextCreate(CurrentMemoryContext, "a number that is rounded",
											   ALLOCSET_SMALL_SIZES);
	return rounding;
}

/* Go on by a number, a string or a byte. */
static void
round_next(Rounding *rounding)
{
	const char *next = rounding->text + rounding->at;
	size_t		end;

	CHECK_FOR_INTERRUPTS();
	if (begins_number(*next))
	{
		MemoryContext caller = MemoryContextSwitchTo(rounding->of_number);

		end = behind_number_bytes(rounding->text, rounding->size, rounding->at);
		append_rounded(&rounding->written, next, end - rounding->at);
		MemoryContextSwitchTo(caller);
		MemoryContextReset(rounding->of_number);
	}
	else
	{
		end = *next == '"' ? behind_string(rounding->text, rounding->size, rounding->at) : rounding->at + 1;
		appendBinaryStringInfo(&rounding->written, next, (int) (end - rounding->at));
	}
	rounding->at = end;
}

/* The text with its numbers rounded. */
static StringInfoData
rounded_text(const char *text, size_t size)
{
	Rounding	rounding = begin_rounding(text, size);

	while (rounding.at < size)
		round_next(&rounding);
	MemoryContextDelete(rounding.of_number);
	return rounding.written;
}

/* The offset in the text of a byte of the text with its numbers rounded. No number that was rounded has the byte. */
static size_t
offset_before_rounding(const char *text, size_t size, size_t offset)
{
	Rounding	rounding = begin_rounding(text, size);
	size_t		at = 0;
	size_t		written = 0;

	while (rounding.at < size && (size_t) rounding.written.len <= offset)
	{
		at = rounding.at;
		written = rounding.written.len;
		round_next(&rounding);
	}
	MemoryContextDelete(rounding.of_number);
	if ((size_t) rounding.written.len <= offset)
		return size + (offset - rounding.written.len);
	return at + (offset - written);
}

/*
 * Read a text, whose numbers are rounded where one isn't representable and that
 * is asked for.  NULL if it is rejected, and then *why says why.
 */
static struct varlena *
try_text(Range text, bool is_rounded, VjsonRejection *why)
{
	const char *given = (const char *) text.at;
	struct varlena *value = vjson_try_text(given, text.size, why);
	StringInfoData rounded;
	struct vizhoniku_location where;

	if (value != NULL || !is_rounded || why->error.code != VIZHONIKU_NUMBER_NOT_CARRIED)
		return value;
	rounded = rounded_text(given, text.size);
	value = vjson_try_text(rounded.data, rounded.len, why);
	if (value != NULL)
		return value;
	vizhoniku_locate((const unsigned char *) rounded.data, rounded.len, &why->error, &where);
	why->located = why->error;
	why->located.position += offset_before_rounding(given, text.size, where.index) - where.index;
	why->text = given;
	why->size = text.size;
	return NULL;
}

/* The document of a text whose numbers may have any number of digits. */
Datum
vjson_rounded(PG_FUNCTION_ARGS)
{
	VjsonRejection why;
	struct varlena *value = try_text(utf8_of(PG_GETARG_TEXT_PP(0)), true, &why);

	if (value == NULL)
		vjson_raise_rejection(&why);
	PG_RETURN_POINTER(vjson_checked_for_output(value));
}


/*
 * Why a text is rejected
 */

/* Words in UTF-8 in the encoding of the database. NULL if they can't be converted. */
static char *
server_words(char *words)
{
	if (GetDatabaseEncoding() == PG_UTF8)
		return words;
	for (const char *byte = words; *byte != '\0'; byte++)
	{
		if ((unsigned char) *byte >= 0x80)
			return NULL;
	}
	return words;
}

char *
vjson_path_of_rejection(const VjsonRejection *why)
{
	size_t		capacity = 256;

	for (;;)
	{
		char	   *path = palloc_extended(capacity + 1, MCXT_ALLOC_HUGE);
		size_t		length;
		uint32		status = vizhoniku_error_path(why->mode, (const unsigned char *) why->read, why->read_size, &why->error,
												  (unsigned char *) path, capacity, &length);

		if (status == VIZHONIKU_ACCEPTED)
		{
			path[length] = '\0';
			return memchr(path, 0, length) != NULL ? NULL : server_words(path);
		}
		pfree(path);
		if (status != VIZHONIKU_TOO_SHORT)
			return NULL;
		capacity = length;
	}
}

/*
 * What is wrong, in words that are the same for each text with the error:
 * without the name or the byte that is wrong.
 */
static char *
words_of_fault(const VjsonRejection *why)
{
	char	   *words = pstrdup(why->words);
	char	   *end;

	switch (why->error.code)
	{
		case VIZHONIKU_OBJECT_DUPLICATE_KEY:
			/* The name is in quotes after a space. */
			end = strchr(words, '"');
			if (end > words)
				*(end - 1) = '\0';
			break;
		case VIZHONIKU_INVALID_ESCAPED:
		case VIZHONIKU_INVALID_HEX:
			/* Which byte is wrong is said after a colon. */
			words[strcspn(words, ":")] = '\0';
			break;
		default:
			break;
	}
	return words;
}

/* Why the text is rejected, or the text with its numbers rounded where that is asked for. */
static Datum
report_rejection(FunctionCallInfo fcinfo, Range input)
{
	TupleDesc	columns;
	Datum		values[COLUMNS] = {0};
	bool		nulls[COLUMNS] = {true, true, true, true, true};
	VjsonRejection why;
	VjsonLocation	location;
	struct varlena *value = try_text(input, PG_GETARG_BOOL(1), &why);

	if (get_call_result_type(fcinfo, NULL, &columns) != TYPEFUNC_COMPOSITE)
		elog(ERROR, "return type must be a row type");
	if (value == NULL)
	{
		char	   *path;

		vjson_locate(&why, &location);
		path = vjson_path_of_rejection(&why);
		values[0] = CStringGetTextDatum(words_of_fault(&why));
		values[2] = Int32GetDatum((int32) location.line);
		values[3] = Int32GetDatum((int32) location.column);
		values[4] = CStringGetTextDatum(location.shown);
		nulls[0] = nulls[2] = nulls[3] = nulls[4] = false;
		if (path != NULL)
		{
			values[1] = CStringGetTextDatum(path);
			nulls[1] = false;
		}
	}
	PG_RETURN_DATUM(HeapTupleGetDatum(heap_form_tuple(BlessTupleDesc(columns), values, nulls)));
}

Datum
vjson_error(PG_FUNCTION_ARGS)
{
	return report_rejection(fcinfo, utf8_of(PG_GETARG_TEXT_PP(0)));
}

Datum
vjson_error_of_jsonb(PG_FUNCTION_ARGS)
{
	Jsonb	   *jsonb = PG_GETARG_JSONB_P(0);
	char	   *words = JsonbToCString(NULL, &jsonb->root, VARSIZE(jsonb));
	char	   *text = pg_server_to_any(words, (int) strlen(words), PG_UTF8);
	Range		input = {(const unsigned char *) text, strlen(text)};

	return report_rejection(fcinfo, input);
}
