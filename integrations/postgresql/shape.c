/*-------------------------------------------------------------------------
 *
 * shape.c
 *	  Documents over lines, indented, made of their texts.
 *
 * The text of a value is the library's, without whitespace, so that each byte
 * outside of strings is of a number or a word, or structure.
 *
 *-------------------------------------------------------------------------
 */
#include "postgres.h"

#include "fmgr.h"
#include "lib/stringinfo.h"
#include "mb/pg_wchar.h"
#include "miscadmin.h"
#include "utils/builtins.h"
#include "utils/memutils.h"

#include "key_walk.h"
#include "vjson.h"

/* Spaces before a line, for each array or object that it is in. */
#define INDENT			4

PG_FUNCTION_INFO_V1(vjson_pretty);

/* The text of a document, in UTF-8. */
static const char *
get_text(Datum datum, size_t *size)
{
	Document	document = document_of_datum(datum);

	return vjson_text(&document, size);
}

/* Behind the string that begins here. */
static size_t
behind_string(const char *text, size_t at)
{
	for (at++; text[at] != '"' && text[at] != '\0'; at++)
	{
		if (text[at] == '\\' && text[at + 1] != '\0')
			at++;
	}
	return text[at] == '"' ? at + 1 : at;
}

/* Behind what begins here: a string, a number or a word, or one byte of structure. */
static size_t
behind_token(const char *text, size_t at)
{
	if (text[at] == '"')
		return behind_string(text, at);
	if (strchr("{}[],:", text[at]) != NULL)
		return at + 1;
	return at + strcspn(text + at, "{}[],:\"");
}


/*
 * Indented
 */

static void
append_line(StringInfo out, int levels)
{
	appendStringInfoChar(out, '\n');
	appendStringInfoSpaces(out, levels * INDENT);
}

Datum
vjson_pretty(PG_FUNCTION_ARGS)
{
	size_t		size;
	const char *text = get_text(PG_GETARG_DATUM(0), &size);
	StringInfoData out;
	int			levels = 0;
	size_t		next;

	initStringInfo(&out);
	for (size_t at = 0; at < size; at = next)
	{
		next = behind_token(text, at);
		CHECK_FOR_INTERRUPTS();
		if (text[at] == '}' || text[at] == ']')
			append_line(&out, levels = Max(levels - 1, 0));
		appendBinaryStringInfo(&out, text + at, (int) (next - at));
		if (text[at] == ':')
			appendStringInfoChar(&out, ' ');
		else if (text[at] == ',')
			append_line(&out, levels);
		else if (text[at] == '{' || text[at] == '[')
		{
			levels++;
			if (text[next] != '}' && text[next] != ']')
				append_line(&out, levels);
		}
	}
	PG_RETURN_TEXT_P(cstring_to_text(pg_any_to_server(out.data, out.len, PG_UTF8)));
}
