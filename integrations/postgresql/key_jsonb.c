/*-------------------------------------------------------------------------
 *
 * key_jsonb.c
 *	  The jsonb of a document.
 *
 * The library walks through the document.  Names and strings stay where they are
 * in its key until the jsonb is written.  What isn't made so goes by the text that
 * the server reads: strings with a zero byte or of another encoding, of which it
 * says what is wrong, and what is too large for a jsonb.
 *
 * The server has JsonbValueToJsonb to write a jsonb, which takes space in a buffer
 * for each part, and a third of the time of a jsonpath over a short document, and
 * its functions that make a numeric take space twice for each number.  What is
 * written here has the same bytes.
 *
 *-------------------------------------------------------------------------
 */
#include "postgres.h"

#include "fmgr.h"
#include "mb/pg_wchar.h"
#include "miscadmin.h"
#include "utils/builtins.h"
#include "utils/jsonb.h"
#include "utils/memutils.h"
#include "utils/numeric.h"

#include "key_walk.h"
#include "vjson.h"

/* What a jsonb takes at most of a part, beside texts and numbers: its entry, that of its name, a header, zeros before. */
#define MOST_OF_PART	(2 * sizeof(JEntry) + sizeof(uint32) + ALIGNOF_INT)

/*
 * What the server stores of a number with few digits, as its numeric.c has it:
 * whether it is negative, its scale and its weight, and then the digits to the base
 * of 10,000, from the one with that weight on.  Zeros at both ends are left out.
 */
#define NUMERIC_SHORT	0x8000
#define NEGATIVE		0x2000
#define SCALE_SHIFT		7
#define MOST_SCALE		63
#define WEIGHT_MASK		127
#define BASE			10000
#define BASE_DIGITS		4

/* The most digits to that base that an int64 takes, and the most bytes of such a number. */
#define MOST_DIGITS		6
#define MOST_OF_DECIMAL	(VARHDRSZ + (1 + MOST_DIGITS) * sizeof(uint16))

/* Steps that aren't those of a jsonpath. */
#define OTHER_STEPS		(-1)

/* Parts for which there is space at first, and at most. */
#define FIRST_ROOM		64
#define MOST_PARTS		(MaxAllocSize / sizeof(Part))

/* Parts between two looks for an interrupt, at most. */
#define SOME_PARTS		4096

/* Members up to which they are sorted by insertion. */
#define FEW_MEMBERS		24

/* Names up to which each is looked for in the table of the members, where there is one. */
#define FEW_NAMES		4

PG_FUNCTION_INFO_V1(vjson_to_jsonb);

/*
 * A value, by the kind of its entry in a jsonb, with the name of a member.  Of an
 * array or an object there is the header that is written of it, and behind it come
 * its parts, each with all that is in it.
 */
typedef struct
{
	const char *name;
	union
	{
		const char *at;			/* of a text or a number */
		int64		digits;		/* of a decimal */
	};
	uint32		name_size;
	JEntry		kind;
	uint32		size;			/* of a text or a number; or the scale; or the header */
	uint32		end;			/* the location behind it and all that is in it */
} Part;

/* The kind of a number that isn't made yet, which no entry has. */
#define DECIMAL			JENTRY_TYPEMASK

/* An array or an object whose end isn't reached. */
typedef struct
{
	uint32		location;		/* of its part */
	uint32		count;			/* of its parts */
	bool		is_object;
	bool		chooses;		/* whether members that aren't wanted are passed */
	int			next_name;		/* of those that are wanted, the first that wasn't looked for */
	int			steps;			/* that led here; OTHER_STEPS where others did */
} Level;

/* A document that is walked through. */
typedef struct
{
	const Document *whole;
	struct vizhoniku_walk *walk;
	struct vizhoniku_event *event;
	Part	   *parts;			/* in the order of the walk */
	uint32		count;
	uint32		capacity;
	uint32		limit;			/* up to which parts are taken with no look at capacity and interrupts */
	size_t		numbers;		/* bytes that they take */
	const VjsonWanted *wanted;	/* members; NULL where all are */
	bool		by_table;		/* whether those of the outermost object are found by its table */
	int			steps;			/* that lead to the member that was gone to */
	bool		is_cut;			/* whether the walk ends before the document does */
} Reader;

/* A jsonb that is written. */
typedef struct
{
	const Part *parts;
	uint64		zeros;			/* whether a text has a zero byte: not 0 then */
} Writer;

/* The entries of an array or an object: each has the kind of a part and the size of what is written of it. */
typedef struct
{
	JEntry	   *next;
	uint32		count;
	uint32		end;			/* of what is written of the parts so far */
} Entries;

static char *write_container(Writer *writer, char *at, const Part *part);


/*
 * Scalars
 */

/* A number with so many zeros at its end, of its text. */
static Numeric
numeric_of_text(Range key, uint32 zeros)
{
	Document	number = document_of_key(key);
	size_t		size;
	char	   *text = vjson_text(&number, &size);
	char	   *words = zeros == 0 ? text : psprintf("%s%s%0*d", text, strchr(text, '.') != NULL ? "" : ".", (int) zeros, 0);
	Datum		numeric = DirectFunctionCall3(numeric_in, CStringGetDatum(words), ObjectIdGetDatum(InvalidOid),
											  Int32GetDatum(-1));

	if (words != text)
		pfree(words);
	pfree(text);
	return DatumGetNumeric(numeric);
}

/* Take a number with so many zeros at its end, which are digits too. */
static inline void
take_number(Reader *reader, Range key, uint32 zeros, Part *part)
{
	int64		digits;
	uint32		scale;
	uint32		left = zeros;

	if (likely(is_found(vizhoniku_key_decimal(key.at, key.size, &digits, &scale))))
	{
		for (; left > 0 && digits < PG_INT64_MAX / 10 && digits > PG_INT64_MIN / 10; left--)
			digits *= 10;
		if (likely(left == 0 && scale + zeros <= MOST_SCALE))
		{
			part->kind = DECIMAL;
			part->digits = digits;
			part->size = scale + zeros;
			reader->numbers += MOST_OF_DECIMAL;
			return;
		}
	}
	part->kind = JENTRY_ISNUMERIC;
	part->at = (const char *) numeric_of_text(key, zeros);
	part->size = VARSIZE_ANY(part->at);
	reader->numbers += part->size;
}

/* Take the kind of the value that the walk met, and of a scalar what it is. */
static inline void
take_value(Reader *reader, const struct vizhoniku_event *event, Part *part)
{
	Range		key = {reader->whole->key.at + event->offset, event->size};
	uint32		boolean;

	if (event->kind == VIZHONIKU_STRING)
	{
		if (unlikely(key.size < STRING_EXTRA))
			vjson_raise_corrupted();
		part->kind = JENTRY_ISSTRING;
		part->at = (const char *) key.at + 1;
		part->size = (uint32) (key.size - STRING_EXTRA);
	}
	else if (event->kind == VIZHONIKU_NUMBER)
		take_number(reader, key, event->zeros, part);
	else if (event->kind == VIZHONIKU_BOOLEAN)
	{
		is_found(vizhoniku_key_boolean(key.at, key.size, &boolean));
		part->kind = boolean ? JENTRY_ISBOOL_TRUE : JENTRY_ISBOOL_FALSE;
	}
	else
		part->kind = event->kind == VIZHONIKU_NULL ? JENTRY_ISNULL : JENTRY_ISCONTAINER;
}


/*
 * What isn't taken
 */

/* How many steps lead to the member of that name, which is wanted. */
static inline int
steps_to(const VjsonWanted *wanted, const Level *level, Range name)
{
	const Range *step;

	if (level->steps < 0)
		return OTHER_STEPS;
	step = &wanted->step[level->steps];
	return step->at == NULL || same_bytes(*step, name) ? level->steps + 1 : OTHER_STEPS;
}

/* Go to the member of that name of the outermost object, by the table of its members. False if there is none. */
static bool
go_by_table(Reader *reader, Range name)
{
	Range		value;

	if (!find_member(reader->whole, name, &value))
		return false;
	reader->walk->offset = value.at - reader->whole->key.at - (name.size + NAME_EXTRA);
	return true;
}

/* Go to the next member that is wanted, and keep how many steps lead to it.  False if there is none. */
static bool
go_to_wanted(Reader *reader, Level *level)
{
	const VjsonWanted *wanted = reader->wanted;
	const Document *whole = reader->whole;
	bool		by_table = reader->by_table && reader->walk->depth == 1;

	CHECK_FOR_INTERRUPTS();
	while (level->next_name < wanted->count)
	{
		Range		name = wanted->names[level->next_name++];

		if (by_table ? go_by_table(reader, name) :
			is_found(vizhoniku_walk_member(whole->key.at, whole->size, reader->walk, name.at, name.size)))
		{
			reader->steps = steps_to(wanted, level, name);
			return true;
		}
	}
	return false;
}


/*
 * Values
 */

/* Whether nothing more is wanted of what is open. */
static inline bool
is_all_taken(const Reader *reader, const Level *levels, const Level *level)
{
	for (; level > levels; level--)
	{
		if (!level->chooses || level->next_name < reader->wanted->count)
			return false;
	}
	return true;
}

/* The next event.  Members that aren't wanted are passed.  The walk is cut where nothing more is wanted. */
static inline uint32
next_event(Reader *reader, const Level *levels, Level *level)
{
	const Document *whole = reader->whole;

	if (unlikely(level->chooses) && !go_to_wanted(reader, level))
	{
		reader->is_cut = is_all_taken(reader, levels, level);
		reader->event->kind = VIZHONIKU_NO_KIND;
		return reader->is_cut ? VIZHONIKU_NO_PART : vizhoniku_walk_skip(whole->key.at, whole->size, reader->walk);
	}
	return vizhoniku_walk_next(whole->key.at, whole->size, reader->walk, reader->event);
}

/* Make space for some parts more.  False if there are too many. */
static bool
grow(Reader *reader)
{
	Part	   *more;

	CHECK_FOR_INTERRUPTS();
	reader->limit = Min(reader->count + SOME_PARTS, reader->capacity);
	if (reader->limit > reader->count)
		return true;
	if (reader->capacity == MOST_PARTS)
		return false;
	more = palloc(Min(2 * reader->capacity, MOST_PARTS) * sizeof(Part));
	memcpy(more, reader->parts, reader->count * sizeof(Part));
	if (reader->capacity > FIRST_ROOM)
		pfree(reader->parts);
	reader->capacity = Min(2 * reader->capacity, MOST_PARTS);
	reader->parts = more;
	reader->limit = Min(reader->count + SOME_PARTS, reader->capacity);
	return true;
}

/* Begin the array or the object of that part. */
static inline void
open_level(const Reader *reader, Level *level, uint32 location, bool is_object, int steps)
{
	const VjsonWanted *wanted = reader->wanted;

	level->location = location;
	level->count = 0;
	level->is_object = is_object;
	level->steps = steps;
	level->next_name = 0;
	level->chooses = wanted != NULL && is_object && steps != wanted->steps;
}

static inline void
close_level(Reader *reader, const Level *level)
{
	Part	   *part = reader->parts + level->location;

	part->size = (level->is_object ? JB_FOBJECT : JB_FARRAY) | level->count;
	part->end = reader->count;
}

/* Take all that the walk meets, but members that aren't wanted.  False if it goes by the text. */
static bool
read_value(Reader *reader)
{
	const Document *whole = reader->whole;
	Level		levels[MOST_LEVELS + 1];	/* the first is round the whole */
	Level	   *level = levels; /* the innermost */
	const struct vizhoniku_event *event = reader->event;
	uint32		status = vizhoniku_walk_begin(whole->key.at, whole->size, reader->walk, reader->event);

	open_level(reader, level, 0, false, reader->wanted != NULL && reader->wanted->steps != NO_STEPS ? 0 : OTHER_STEPS);
	for (; is_found(status); status = next_event(reader, levels, level))
	{
		Range		name;
		int			steps = level->chooses ? reader->steps : level->steps;
		Part	   *part;

		if (event->kind == VIZHONIKU_NO_KIND)
		{
			CHECK_FOR_INTERRUPTS();
			close_level(reader, level--);
			continue;
		}
		name.at = whole->key.at + event->name_offset;
		name.size = event->name_size - NAME_EXTRA;
		if (!level->is_object)
			name.size = 0;
		else if (unlikely(event->name_size < NAME_EXTRA))
			vjson_raise_corrupted();
		if (unlikely(reader->count == reader->limit) && !grow(reader))
			return false;
		part = reader->parts + reader->count++;
		level->count++;
		part->name = (const char *) name.at;
		part->name_size = (uint32) name.size;
		part->end = reader->count;
		take_value(reader, event, part);
		if (part->kind == JENTRY_ISCONTAINER)
			open_level(reader, ++level, reader->count - 1, event->kind == VIZHONIKU_OBJECT, steps);
	}
	if (reader->is_cut)
	{
		while (level > levels)
			close_level(reader, level--);
	}
	else if (reader->walk->offset != whole->key.size)
		vjson_raise_corrupted();
	return true;
}


/*
 * Writing
 */

/* Add an entry. Of so many one has where its part ends, instead of the size. */
static inline void
add_entry(Entries *entries, JEntry entry)
{
	entries->end += JBE_OFFLENFLD(entry);
	if (entries->count++ % JB_OFFSET_STRIDE == 0)
		entry = (entry & JENTRY_TYPEMASK) | entries->end | JENTRY_HAS_OFF;
	*entries->next++ = entry;
}

/* Numbers, arrays and objects begin where an integer may, with zeros before them. */
static inline char *
align(char *at)
{
	memset(at, 0, ALIGNOF_INT);
	return (char *) INTALIGN(at);
}

/* A word with a bit in it where one of the bytes is a zero. */
static inline uint64
zeros_in(uint64 word)
{
	return (word - UINT64CONST(0x0101010101010101)) & ~word & UINT64CONST(0x8080808080808080);
}

/* Of 4 to 16 bytes copy the first and the last ones, which overlap.  The answer is not 0 if one is a zero. */
static inline uint64
copy_short(char *to, const char *from, size_t size)
{
	if (size >= sizeof(uint64))
	{
		uint64		first;
		uint64		last;

		memcpy(&first, from, sizeof first);
		memcpy(&last, from + size - sizeof last, sizeof last);
		memcpy(to, &first, sizeof first);
		memcpy(to + size - sizeof last, &last, sizeof last);
		return zeros_in(first) | zeros_in(last);
	}
	else
	{
		uint32		first;
		uint32		last;

		memcpy(&first, from, sizeof first);
		memcpy(&last, from + size - sizeof last, sizeof last);
		memcpy(to, &first, sizeof first);
		memcpy(to + size - sizeof last, &last, sizeof last);
		return zeros_in((uint64) first << 32 | last);
	}
}

/* Write a text, and look for a zero byte in it.  Most are short. */
static pg_attribute_always_inline char *
write_text(Writer *writer, char *to, const char *text, size_t size)
{
	if (likely(size >= sizeof(uint32) && size <= 2 * sizeof(uint64)))
		writer->zeros |= copy_short(to, text, size);
	else if (size < sizeof(uint32))
	{
		bool		has_zero = false;

		for (size_t i = 0; i < size; i++)
		{
			to[i] = text[i];
			has_zero |= text[i] == 0;
		}
		writer->zeros |= has_zero;
	}
	else
	{
		memcpy(to, text, size);
		writer->zeros |= memchr(text, 0, size) != NULL;
	}
	return to + size;
}

static int
compare_slots(const void *left, const void *right)
{
	uint64		one = *(const uint64 *) left;
	uint64		other = *(const uint64 *) right;

	return (one > other) - (one < other);
}

/*
 * The members in the order of a jsonb: by the length of their names, and of one
 * length as they come.  A slot has a part's location, and that length in its higher
 * half.
 */
static void
sort_members(const Part *parts, const Part *first, uint32 count, uint64 *slots)
{
	bool		are_few = count <= FEW_MEMBERS;
	uint32		location = (uint32) (first - parts);

	for (uint32 i = 0; i < count; i++, location = parts[location].end)
	{
		uint64		slot = ((uint64) parts[location].name_size << 32) | location;
		uint32		to = i;

		for (; are_few && to > 0 && slots[to - 1] > slot; to--)
			slots[to] = slots[to - 1];
		slots[to] = slot;
	}
	if (!are_few)
		qsort(slots, count, sizeof(uint64), compare_slots);
}

/* Begin an array or an object with so many entries. The answer is where what is written of its parts begins. */
static inline char *
begin_entries(Entries *entries, char *at, uint32 header, size_t count)
{
	at = align(at);
	memcpy(at, &header, sizeof header);
	entries->next = (JEntry *) (at + sizeof header);
	entries->count = entries->end = 0;
	return at + sizeof header + count * sizeof(JEntry);
}

/* Write the number digits / 10^scale as the server does. */
static inline char *
write_decimal(char *to, int64 digits, uint32 scale)
{
	static const uint32 powers[BASE_DIGITS] = {1, 10, 100, 1000};
	uint64		left = digits < 0 ? -(uint64) digits : (uint64) digits;
	uint16		words[1 + MOST_DIGITS];
	uint16	   *first = words + lengthof(words);
	uint16	   *end = first;
	uint32		part = scale % BASE_DIGITS;	/* digits in the last one to that base */
	int			weight = -1 - (int) (scale / BASE_DIGITS);

	if (part > 0)
	{
		*--first = (uint16) (left % powers[part] * powers[BASE_DIGITS - part]);
		left /= powers[part];
		weight--;
	}
	for (; left > 0; left /= BASE)
		*--first = (uint16) (left % BASE);
	weight += end - first;
	while (end > first && end[-1] == 0)
		end--;
	if (first == end)
		weight = 0;
	*--first = NUMERIC_SHORT | (digits < 0 ? NEGATIVE : 0) | (uint16) (scale << SCALE_SHIFT) | (weight & WEIGHT_MASK);
	SET_VARSIZE(to, VARHDRSZ + (end - first) * sizeof(uint16));
	to += VARHDRSZ;
	for (; first < end; first++, to += sizeof(uint16))
		memcpy(to, first, sizeof(uint16));
	return to;
}

/* Write a value, and add its entry. */
static pg_attribute_always_inline char *
write_value(Writer *writer, Entries *entries, char *at, const Part *part)
{
	const char *start = at;

	if (part->kind == JENTRY_ISSTRING)
		at = write_text(writer, at, part->at, part->size);
	else if (part->kind == DECIMAL)
	{
		at = write_decimal(align(at), part->digits, part->size);
		add_entry(entries, JENTRY_ISNUMERIC | (uint32) (at - start));
		return at;
	}
	else if (part->kind == JENTRY_ISNUMERIC)
	{
		at = align(at);
		memcpy(at, part->at, part->size);
		at += part->size;
	}
	else if (part->kind == JENTRY_ISCONTAINER)
		at = write_container(writer, at, part);
	add_entry(entries, part->kind | (uint32) (at - start));
	return at;
}

static pg_noinline char *
write_items(Writer *writer, char *at, const Part *first, uint32 header)
{
	uint32		count = header & JB_CMASK;
	const Part *part = first;
	Entries		entries;

	at = begin_entries(&entries, at, header, count);
	for (uint32 i = 0; i < count; i++, part = writer->parts + part->end)
		at = write_value(writer, &entries, at, part);
	return at;
}

/* Write an object: all names before all values. */
static pg_noinline char *
write_members(Writer *writer, char *at, const Part *first, uint32 header)
{
	uint32		count = header & JB_CMASK;
	const Part *parts = writer->parts;
	uint64		few[FEW_MEMBERS];
	uint64	   *slots = count <= FEW_MEMBERS ? few : palloc(count * sizeof(uint64));
	Entries		entries;

	at = begin_entries(&entries, at, header, 2 * (size_t) count);
	sort_members(parts, first, count, slots);
	for (uint32 i = 0; i < count; i++)
	{
		const Part *part = parts + (uint32) slots[i];

		at = write_text(writer, at, part->name, part->name_size);
		add_entry(&entries, JENTRY_ISSTRING | part->name_size);
	}
	for (uint32 i = 0; i < count; i++)
		at = write_value(writer, &entries, at, parts + (uint32) slots[i]);
	if (slots != few)
		pfree(slots);
	return at;
}

static char *
write_container(Writer *writer, char *at, const Part *part)
{
	if (part->size & JB_FOBJECT)
		return write_members(writer, at, part + 1, part->size);
	return write_items(writer, at, part + 1, part->size);
}

/* Whether names and strings are the same in each encoding of a server. */
static bool
have_ascii_texts(const Reader *reader)
{
	for (uint32 i = 0; i < reader->count; i++)
	{
		const Part *part = reader->parts + i;

		if (!is_ascii((const unsigned char *) part->name, part->name_size) ||
			(part->kind == JENTRY_ISSTRING && !is_ascii((const unsigned char *) part->at, part->size)))
			return false;
	}
	return true;
}

/* The jsonb of the parts, for which there is space. NULL if a text has a zero byte. */
static Jsonb *
write_jsonb(const Part *parts, size_t capacity)
{
	Jsonb	   *result = palloc(VARHDRSZ + capacity);
	Writer		writer = {parts, 0};
	char	   *end;

	/* The deepest nesting takes less of the machine stack than the server keeps behind max_stack_depth. */
	check_stack_depth();
	if (parts->kind == JENTRY_ISCONTAINER)
		end = write_container(&writer, VARDATA(result), parts);
	else
		end = write_items(&writer, VARDATA(result), parts, JB_FARRAY | JB_FSCALAR | 1);
	Assert(end <= (char *) result + VARHDRSZ + capacity);
	SET_VARSIZE(result, end - (char *) result);
	return writer.zeros != 0 ? NULL : result;
}

/* The jsonb of an object without members, as each is of which no member is wanted. */
static inline Datum
empty_object(void)
{
	static struct
	{
		int32		size;
		uint32		header;
	}			object = {.header = JB_FOBJECT};

	SET_VARSIZE(&object, sizeof object);
	return PointerGetDatum(&object);
}

Datum
vjson_jsonb(Datum document, const VjsonWanted *wanted)
{
	Document	whole = document_of_datum(document);
	struct vizhoniku_walk walk;
	struct vizhoniku_event event;
	Part		first_parts[FIRST_ROOM];
	Reader		reader = {.whole = &whole, .walk = &walk, .event = &event, .wanted = wanted};
	size_t		size;
	bool		is_read;
	Jsonb	   *jsonb = NULL;

	reader.parts = first_parts;
	reader.capacity = reader.limit = FIRST_ROOM;
	reader.by_table = whole.table.size > 0 && wanted != NULL && wanted->count <= FEW_NAMES && wanted->steps != 0;
	is_read = read_value(&reader);
	if (is_read && reader.is_cut && reader.count == 1)
		return empty_object();
	if (is_read && (GetDatabaseEncoding() == PG_UTF8 || have_ascii_texts(&reader)))
	{
		/* Texts take as many bytes as in the key. */
		size = whole.key.size + reader.numbers + reader.count * MOST_OF_PART;
		if (size <= JENTRY_OFFLENMASK)
			jsonb = write_jsonb(reader.parts, size);
	}
	if (jsonb == NULL)
		return DirectFunctionCall1(jsonb_in, CStringGetDatum(vjson_server_text(&whole)));
	if (reader.parts != first_parts)
		pfree(reader.parts);
	return JsonbPGetDatum(jsonb);
}

Datum
vjson_to_jsonb(PG_FUNCTION_ARGS)
{
	PG_RETURN_DATUM(vjson_jsonb(PG_GETARG_DATUM(0), NULL));
}
