/*-------------------------------------------------------------------------
 *
 * jsonb_key.c
 *	  The document of a jsonb: its sort key and the zeros that end decimals.
 *
 * The jsonb is read once.  The members of an object, which it has in the order
 * of the lengths of their names, are put into the order of a key, that of the
 * bytes.  What isn't made so goes by the jsonb's text, which the library reads,
 * so that it says what is rejected: strings of another encoding, numbers that
 * are out of range, and more arrays and objects in one another than a value has.
 *
 *-------------------------------------------------------------------------
 */
#include "postgres.h"

#include "fmgr.h"
#include "mb/pg_wchar.h"
#include "miscadmin.h"
#include "utils/builtins.h"
#include "utils/jsonb.h"
#include "utils/memutils.h"
#include "utils/numeric.h"

#include "key_walk.h"
#include "vjson.h"
#include "zeros.h"

/* Members up to which an object needs no memory but the machine stack, and a key up to this size. */
#define FEW_MEMBERS		8
#define SMALL_KEY		1024

PG_FUNCTION_INFO_V1(vjson_from_jsonb);

/* A key that is written, into memory that has space for all of it. */
typedef struct
{
	unsigned char *key;
	unsigned char *at;
	const unsigned char *end;	/* of the memory */
	ZerosWriter zeros;
	bool		ascii_alone;	/* whether other strings go by the text */
	int			levels;			/* arrays and objects that are open */
} Writer;

/* What an array or an object has, one after the other: items, or names and then values. */
typedef struct
{
	const JEntry *entry;		/* the next one */
	const char *data;			/* of all */
	uint32		offset;			/* of what the next one has */
} Children;

typedef struct
{
	JEntry		entry;			/* which reports the kind */
	const char *data;			/* of all that the array or object has */
	uint32		start;			/* of what this one has */
	uint32		end;
} Child;

typedef struct
{
	Range		name;			/* first, for compare_ranges */
	Child		value;
} Member;

static bool write_container(Writer *writer, const JsonbContainer *container);


/*
 * Scalars
 */

static inline void
write_byte(Writer *writer, unsigned char byte)
{
	*writer->at++ = byte;
}

/* Write the text of a string or of a name, which has no zero byte in a jsonb. False if it goes by the text. */
static inline bool
write_text(Writer *writer, Range text)
{
	if (writer->ascii_alone && !is_ascii(text.at, text.size))
		return false;
	memcpy(writer->at, text.at, text.size);
	writer->at += text.size;
	write_byte(writer, END);
	write_byte(writer, END_OF_TEXT);
	return true;
}

/* The zeros that end a decimal. */
static unsigned char
zeros_of(const char *digits, size_t size)
{
	unsigned char zeros = 0;

	if (memchr(digits, '.', size) == NULL)
		return 0;
	while (digits[--size] == '0')
		zeros++;
	return zeros;
}

/* False if it is out of range. */
static bool
write_number(Writer *writer, Numeric numeric)
{
	char	   *digits = DatumGetCString(DirectFunctionCall1(numeric_out, NumericGetDatum(numeric)));
	size_t		size = strlen(digits);
	size_t		key_size;
	struct vizhoniku_error error;
	uint32		status = vizhoniku_sort_key(VIZHONIKU_EXTENDED, (unsigned char *) digits, size, writer->at,
											writer->end - writer->at, &key_size, &error);

	if (status == VIZHONIKU_OUT_OF_MEMORY)
		vjson_raise_out_of_memory(size);
	if (status != VIZHONIKU_ACCEPTED)
		return false;
	add_zeros(&writer->zeros, writer->at - writer->key, zeros_of(digits, size));
	writer->at += key_size;
	pfree(digits);
	return true;
}


/*
 * Arrays and objects
 */

static inline Children
children_of(const JsonbContainer *container, uint32 count)
{
	Children	children = {container->children, (const char *) (container->children + count), 0};

	return children;
}

static inline Child
next_child(Children *children)
{
	Child		child = {*children->entry++, children->data, children->offset, 0};

	JBE_ADVANCE_OFFSET(children->offset, child.entry);
	child.end = children->offset;
	return child;
}

static inline Range
text_of_child(const Child *child)
{
	Range		text = {(const unsigned char *) child->data + child->start, child->end - child->start};

	return text;
}

static bool
write_child(Writer *writer, const Child *child)
{
	if (JBE_ISSTRING(child->entry))
	{
		write_byte(writer, STRING_KEY);
		return write_text(writer, text_of_child(child));
	}
	if (JBE_ISNUMERIC(child->entry))
		return write_number(writer, (Numeric) (child->data + INTALIGN(child->start)));
	if (JBE_ISCONTAINER(child->entry))
		return write_container(writer, (const JsonbContainer *) (child->data + INTALIGN(child->start)));
	write_byte(writer, JBE_ISNULL(child->entry) ? NULL_KEY : JBE_ISBOOL_TRUE(child->entry) ? TRUE_KEY : FALSE_KEY);
	return true;
}

static bool
write_items(Writer *writer, const JsonbContainer *container)
{
	uint32		count = JsonContainerSize(container);
	Children	children = children_of(container, count);

	write_byte(writer, ARRAY_KEY);
	for (uint32 i = 0; i < count; i++)
	{
		Child		item = next_child(&children);

		if (!write_child(writer, &item))
			return false;
	}
	write_byte(writer, END);
	return true;
}

static bool
write_sorted(Writer *writer, const Member *members, uint32 count)
{
	write_byte(writer, OBJECT_KEY);
	for (uint32 i = 0; i < count; i++)
	{
		if (!write_text(writer, members[i].name) || !write_child(writer, &members[i].value))
			return false;
	}
	write_byte(writer, END);
	write_byte(writer, END);
	return true;
}

static bool
write_members(Writer *writer, const JsonbContainer *container)
{
	uint32		count = JsonContainerSize(container);
	Children	children = children_of(container, 2 * count);
	Member		few[FEW_MEMBERS];
	Member	   *members = count <= FEW_MEMBERS ? few : palloc_extended(count * sizeof(Member), MCXT_ALLOC_HUGE);
	bool		is_written;

	for (uint32 i = 0; i < count; i++)
	{
		Child		name = next_child(&children);

		members[i].name = text_of_child(&name);
	}
	for (uint32 i = 0; i < count; i++)
		members[i].value = next_child(&children);
	qsort(members, count, sizeof(Member), compare_ranges);
	is_written = write_sorted(writer, members, count);
	if (members != few)
		pfree(members);
	return is_written;
}

static bool
write_container(Writer *writer, const JsonbContainer *container)
{
	bool		is_written;

	check_stack_depth();
	CHECK_FOR_INTERRUPTS();
	if (writer->levels == MOST_LEVELS)
		return false;
	writer->levels++;
	is_written = JsonContainerIsObject(container) ? write_members(writer, container) : write_items(writer, container);
	writer->levels--;
	return is_written;
}


/*
 * Values
 */

/* The value of what was written. */
static struct varlena *
value_of_writer(Writer *writer)
{
	size_t		key_size = writer->at - writer->key;
	size_t		size;
	size_t		capacity;
	char	   *block;

	end_zeros(&writer->zeros);
	size = key_size + writer->zeros.size;
	capacity = size + SPARE_ROOM;
	block = palloc_extended(VARHDRSZ + capacity, MCXT_ALLOC_HUGE);
	memcpy(block + VARHDRSZ, writer->key, key_size);
	if (writer->zeros.size > 0)
		memcpy(block + VARHDRSZ + key_size, writer->zeros.bytes, writer->zeros.size);
	return vjson_value_with_table(block, capacity, size);
}

/*
 * The value of what an array or an object has, or of a whole jsonb.  NULL if it
 * goes by the text.
 *
 * Its key takes at most the four bytes more that the jsonb has for each item,
 * name and value.  A text takes two or three bytes more in a key, an array two
 * and an object three.  A number takes a byte for two digits, as in the jsonb,
 * and two more, where the jsonb has three at least.
 */
static struct varlena *
value_of_child(const Child *child)
{
	size_t		capacity = child->end - child->start + sizeof(JEntry);
	unsigned char small[SMALL_KEY];
	unsigned char *key = capacity <= sizeof small ? small : palloc_extended(capacity, MCXT_ALLOC_HUGE);
	Writer		writer = {.key = key, .at = key, .end = key + capacity, .ascii_alone = GetDatabaseEncoding() != PG_UTF8};
	struct varlena *value = NULL;

	if (write_child(&writer, child))
		value = value_of_writer(&writer);
	if (writer.zeros.bytes != NULL)
		pfree(writer.zeros.bytes);
	if (key != small)
		pfree(key);
	return value;
}

static Datum
document_by_text(Jsonb *jsonb)
{
	char	   *text = JsonbToCString(NULL, &jsonb->root, VARSIZE(jsonb));
	char	   *utf8 = pg_server_to_any(text, (int) strlen(text), PG_UTF8);

	return PointerGetDatum(vjson_checked_for_output(vjson_of_text(utf8, strlen(utf8))));
}

Datum
vjson_of_jsonb(Datum datum)
{
	Jsonb	   *jsonb = DatumGetJsonbP(datum);
	Children	children = children_of(&jsonb->root, 1);
	Child		whole = {JENTRY_ISCONTAINER, (const char *) &jsonb->root, 0, VARSIZE(jsonb) - VARHDRSZ};
	struct varlena *value;

	if (JsonContainerIsScalar(&jsonb->root))
		whole = next_child(&children);
	value = value_of_child(&whole);
	return value != NULL ? PointerGetDatum(value) : document_by_text(jsonb);
}

Datum
vjson_of_item(JsonbContainer *array, uint32 index)
{
	uint32		start = getJsonbOffset(array, (int) index);
	Child		item = {array->children[index], children_of(array, JsonContainerSize(array)).data, start,
		start + getJsonbLength(array, (int) index)};
	struct varlena *value = value_of_child(&item);

	if (value != NULL)
		return PointerGetDatum(value);
	return document_by_text(JsonbValueToJsonb(getIthJsonbValueFromContainer(array, index)));
}

Datum
vjson_from_jsonb(PG_FUNCTION_ARGS)
{
	PG_RETURN_DATUM(vjson_of_jsonb(PG_GETARG_DATUM(0)));
}
