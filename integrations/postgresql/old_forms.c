/*-------------------------------------------------------------------------
 *
 * old_forms.c
 *	  Values as older versions stored them.
 *
 * Their first byte says what there is:
 *
 *	- 0: the key alone.
 *	- 1: the key, and the zeros that end decimals, counted by numbers.  The size
 *	  of the key, in 4 bytes, comes first, then the key, the zeros.
 *	- 2: the key, and the text, behind the size of the key.
 *
 * Such a value stays as it is until its row is written with another.  The key
 * of each is where it is, so that it is compared, hashed and searched as it
 * is.  For what also needs the zeros its document is made, of its text.
 *
 *-------------------------------------------------------------------------
 */
#include "postgres.h"

#include <vizhoniku.h>

#include "utils/memutils.h"

#include "vjson.h"

#define KEY_ALONE		0
#define KEY_AND_ZEROS	1
#define KEY_AND_TEXT	2

#define FORM_SIZE		1
#define KEY_SIZE_SIZE	sizeof(uint32)

/* The key of a value, or as much of it as there is in its first bytes; and what comes behind it. */
static Range
split_value(Range value, bool is_slice, Range *rest)
{
	Range		key = {value.at + FORM_SIZE, value.size - FORM_SIZE};
	uint32		key_size;

	rest->at = key.at + key.size;
	rest->size = 0;
	if (*value.at == KEY_ALONE)
		return key;
	if (*value.at > KEY_AND_TEXT || key.size < KEY_SIZE_SIZE)
		vjson_raise_corrupted();
	memcpy(&key_size, key.at, KEY_SIZE_SIZE);
	key.at += KEY_SIZE_SIZE;
	key.size -= KEY_SIZE_SIZE;
	if (key_size > key.size)
	{
		if (!is_slice)
			vjson_raise_corrupted();
		return key;
	}
	rest->at = key.at + key_size;
	rest->size = key.size - key_size;
	key.size = key_size;
	return key;
}

Range
vjson_old_key(Range value, bool is_slice)
{
	Range		rest;

	return split_value(value, is_slice, &rest);
}

static uint32
write_key_text(const void *key, unsigned char *buffer, size_t capacity, size_t *size)
{
	const Range *range = key;

	return vizhoniku_key_text(range->at, range->size, buffer, capacity, size);
}

/* A text of a key, with the fewest digits in each number, and the zeros that belong there. */
typedef struct
{
	Range		text;
	Range		zeros;
} TextAndZeros;

static uint32
write_zeros(const void *arguments, unsigned char *buffer, size_t capacity, size_t *size)
{
	const TextAndZeros *both = arguments;

	return vizhoniku_text_with_zeros(both->text.at, both->text.size, both->zeros.at, both->zeros.size, buffer, capacity,
									 size);
}

/* The text of a key and of the zeros of its numbers. */
static Range
text_with_zeros(Range key, Range zeros)
{
	TextAndZeros both = {{NULL, 0}, zeros};
	Range		text = {NULL, 0};
	char	   *shortest = vjson_written(write_key_text, &key, 0, key.size + key.size / 4 + 64, &both.text.size);

	if (shortest == NULL)
		vjson_raise_corrupted();
	both.text.at = (unsigned char *) shortest;
	text.at = (unsigned char *) vjson_written(write_zeros, &both, 0, both.text.size + 4 * zeros.size, &text.size);
	if (text.at == NULL)
		vjson_raise_corrupted();
	pfree(shortest);
	return text;
}

static uint32
write_document(const void *text, unsigned char *buffer, size_t capacity, size_t *size)
{
	const Range *range = text;
	struct vizhoniku_error error;
	uint32		status = vizhoniku_document(VIZHONIKU_EXTENDED, range->at, range->size, buffer, capacity, size, &error);

	if (status == VIZHONIKU_REJECTED)
		vjson_raise_corrupted();
	return status;
}

Document
vjson_old_document(Range value)
{
	Range		rest;
	Range		key = split_value(value, false, &rest);
	Document	document = document_of_key(key);

	if (rest.size == 0)
		return document;
	if (*value.at == KEY_AND_ZEROS)
		rest = text_with_zeros(key, rest);
	document.key.at = (unsigned char *) vjson_written(write_document, &rest, 0, rest.size + 64, &document.size);
	document.key.size = vizhoniku_document_key(document.key.at, document.size);
	return document;
}
