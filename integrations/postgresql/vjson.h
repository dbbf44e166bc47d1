/*-------------------------------------------------------------------------
 *
 * vjson.h
 *	  What the files of the extension share: stored values, and what is made of them.
 *
 *-------------------------------------------------------------------------
 */
#ifndef VJSON_H
#define VJSON_H

#include <vizhoniku.h>

#include "utils/jsonb.h"

#if PG_VERSION_NUM < 150000
#error "this extension is for PostgreSQL 15 and later"
#endif

#if PG_VERSION_NUM >= 160000
#include "varatt.h"
#endif

/* Before a function that raises an error. */
#ifdef pg_noreturn
#define vjson_noreturn pg_noreturn
#else
#define vjson_noreturn pg_attribute_noreturn()
#endif

/*
 * Report an error in the way that the caller of a function asked for by its
 * context: from version 16 on that may be without raising it.
 */
#if PG_VERSION_NUM >= 160000
#define vjson_report(context, ...) errsave(context, __VA_ARGS__)
#else
#define vjson_report(context, ...) \
	do { \
		(void) (context); \
		ereport(ERROR, __VA_ARGS__); \
	} while (0)
#endif

/*
 * A datum is a document of the library: the sort key of the value and, where
 * decimals end in zeros, these behind it; and behind the document, where the
 * value has one, the table of its members.  A key's first byte is above those of
 * the forms that older versions stored (old_forms.c), which are still read.
 */
#define OLD_FORMS		3

/* Space beyond what is written at first; more is asked for if needed. */
#define SPARE_ROOM		16

/* A range of bytes: a key, a name in a key, or a name in UTF-8. */
typedef struct
{
	const unsigned char *at;
	size_t		size;
} Range;

/* A document, which begins with its key, and the table of its members, of size 0 where there is none. */
typedef struct
{
	Range		key;
	size_t		size;
	Range		table;
} Document;

/*
 * Why a text in UTF-8 was rejected: what the library says of what was read, and
 * that in words.  Where numbers were rounded first, the text isn't what was read.
 */
typedef struct
{
	const char *words;
	struct vizhoniku_error error;
	const char *read;
	size_t		read_size;
	uint32		mode;			/* in which it was read */
	struct vizhoniku_error located; /* the error as one of the text */
	const char *text;
	size_t		size;
} VjsonRejection;

/* The location of that: the offset of a byte, and what of its line is shown. */
typedef struct
{
	size_t		index;
	size_t		line;
	size_t		column;			/* in characters */
	char	   *shown;
} VjsonLocation;

extern void vjson_locate(const VjsonRejection *why, VjsonLocation *location);

/* The path of the innermost part in which the fault is, in the encoding of the database. NULL if it can't be shown. */
extern char *vjson_path_of_rejection(const VjsonRejection *why);

/* A step of a subscript: a name, or an index in digits. */
typedef struct
{
	text	   *words;			/* in the encoding of the database */
	Range		name;			/* in UTF-8 */
	bool		is_integer;		/* whether it was an integer */
} VjsonStep;

/* The part of an array or an object to which the step leads. False if there is none. */
extern bool vjson_take_step(const Document *whole, const VjsonStep *step, Range *part);

/* The entries of a document in a GIN index: hashes of its scalars and of the names that lead to them. */
extern Datum *vjson_entries(Datum document, int32 *count);

/* The entries of the names that ? finds, and that of a name as it is in a key. */
extern Datum *vjson_name_entries(Datum document, int32 *count);
extern int32 vjson_name_entry(Range name);

/* The name that the first step of a path is, and the path behind it. False if it has escapes, or there is none. */
extern bool vjson_take_name(Range *path, Range *name);

/* The status of the library for the part at a path: accepted, no part or no path; and where it is in the key. */
extern uint32 vjson_find_part(Range key, Range path, Range *part);

/* The part at a path, in which an index may count from the end. False if there is none. */
extern bool vjson_find_by_steps(const Document *whole, Range path, Range *part);

/* The document with the part at the steps, as an assignment to subscripts of a jsonb makes it. */
extern Datum vjson_assign(Datum document, const VjsonStep *steps, int count, Datum part);

vjson_noreturn extern void vjson_raise_corrupted(void);
vjson_noreturn extern void vjson_raise_out_of_memory(size_t size);
vjson_noreturn extern void vjson_raise_unexpected(uint32 status);
vjson_noreturn extern void vjson_raise_rejection(const VjsonRejection *why);

/* The value of a text in UTF-8, which is JSON. */
extern struct varlena *vjson_of_text(const char *text, size_t size);

/* That, but NULL if the text is rejected, and then *why says why. */
extern struct varlena *vjson_try_text(const char *text, size_t size, VjsonRejection *why);

/*
 * An argument of a function, which is kept for its next calls: the beginning of
 * a structure that has what was made of it.
 */
typedef struct
{
	MemoryContext context;		/* of the argument, and of what was made of it */
	struct varlena *argument;	/* NULL where there is none yet */
} VjsonKept;

/* Makes the rest of the structure, of a copy of the argument that is kept with it. */
typedef void (*Makes) (VjsonKept *kept, struct varlena *argument, bool how);

/* The structure of this size, which is made anew where the argument isn't that of the call before. */
extern void *vjson_keep(FunctionCallInfo fcinfo, const struct varlena *argument, size_t size, Makes make, bool how);

/* Names in a jsonpath up to which the members of others are left out, and steps. */
#define MOST_NAMES		16
#define NO_STEPS		(-2)

/*
 * Which members of a document are wanted: those of the names, and all that are
 * within the parts to which the steps lead.  A step leads from an object to its
 * member of that name, or without a name to each that is wanted, and from an
 * array by its items.  Names are in UTF-8.
 */
typedef struct
{
	int			count;
	Range		names[MOST_NAMES];	/* in the order of their bytes; those of the steps are among them */
	int			steps;			/* NO_STEPS where no part is wanted as a whole */
	Range		step[MOST_NAMES];
} VjsonWanted;

/* Add the name at its location, if it isn't there yet. False if there are too many. */
extern bool vjson_want_name(VjsonWanted *wanted, Range name);

/*
 * A document as a jsonb.  Where it is reported which members are wanted others may
 * be left out, and then it isn't reported what is wrong in them.
 */
extern Datum vjson_jsonb(Datum document, const VjsonWanted *wanted);

/* A jsonb as a document. */
extern Datum vjson_of_jsonb(Datum jsonb);

/* The item of this index of an array of a jsonb, as a document. */
extern Datum vjson_of_item(JsonbContainer *array, uint32 index);

/* The value, which is one that can be written in the encoding of the database; else an error is raised. */
extern struct varlena *vjson_checked_for_output(struct varlena *value);

/* The written text in UTF-8, of at most 1 GB, with a zero byte at its end. */
extern char *vjson_text(const Document *document, size_t *size);

/* The written text in the encoding of the database, with a zero byte at its end. */
extern char *vjson_server_text(const Document *document);

/* A call of the library that writes to the start of a buffer. */
typedef uint32 (*Writes) (const void *arguments, unsigned char *buffer, size_t capacity, size_t *size);

/*
 * What a call writes, in a block of its own behind so many bytes, and with space
 * for a zero byte behind it.  It is tried with this capacity first.  NULL where
 * there is no such part, or nothing changes.
 */
extern char *vjson_written(Writes write, const void *arguments, size_t front, size_t capacity, size_t *size);

/* The value of a document of so many bytes, which were written to a block behind VARHDRSZ bytes. */
extern struct varlena *vjson_value(char *block, size_t size);

/* The same in a block with space for more, with the table of the members behind the document, where it has one. */
extern struct varlena *vjson_value_with_table(char *block, size_t capacity, size_t size);

/* The value of a key without zeros. */
extern struct varlena *vjson_of_key(Range key);

/* The value of a part of the document's key, with the zeros of its numbers: of a document that has some. */
extern struct varlena *vjson_part_with_zeros(const Document *whole, Range part);

/* A document, and a part, as a text: a string without its quotes and escapes, and NULL where it is null. */
extern text *vjson_text_of(const Document *document);
extern text *vjson_part_text(const Document *whole, Range part);

/* The text of a string's key, or of a name's, in the encoding of the database. */
extern text *vjson_text_of_string(Range key, bool is_name);

/* The document of a value that an older version stored, and its key, for which no document is made. */
extern Document vjson_old_document(Range value);
extern Range vjson_old_key(Range value, bool is_slice);

static inline Range
bytes_of(struct varlena *value)
{
	Range		bytes = {(const unsigned char *) VARDATA_ANY(value), VARSIZE_ANY_EXHDR(value)};

	if (unlikely(bytes.size == 0))
		vjson_raise_corrupted();
	return bytes;
}

/* A document with a table has more bytes: its key takes as many at least. */
#define LEAST_WITH_TABLE	256

static inline Document
get_document(struct varlena *value)
{
	Range		bytes = bytes_of(value);
	Document	document = {bytes, bytes.size, {NULL, 0}};

	if (unlikely(*bytes.at < OLD_FORMS))
		return vjson_old_document(bytes);
	if (bytes.size >= LEAST_WITH_TABLE)
	{
		document.table.size = vizhoniku_table_size(bytes.at, bytes.size);
		document.size = bytes.size - document.table.size;
		document.table.at = bytes.at + document.size;
	}
	document.key.size = vizhoniku_document_key(bytes.at, document.size);
	return document;
}

static inline Range
get_key(struct varlena *value)
{
	Range		bytes = bytes_of(value);

	if (unlikely(*bytes.at < OLD_FORMS))
		return vjson_old_key(bytes, false);
	bytes.size = vizhoniku_document_key(bytes.at, bytes.size);
	return bytes;
}

/* The value of a part of the document's key, with the zeros of its numbers. */
static inline struct varlena *
vjson_part(const Document *whole, Range part)
{
	return likely(whole->size == whole->key.size) ? vjson_of_key(part) : vjson_part_with_zeros(whole, part);
}

/* The document of a key without zeros. */
static inline Document
document_of_key(Range key)
{
	Document	document = {key, key.size, {NULL, 0}};

	return document;
}

static inline Document
document_of_datum(Datum datum)
{
	return get_document((struct varlena *) PG_DETOAST_DATUM_PACKED(datum));
}

static inline Range
key_of_datum(Datum datum)
{
	return get_key((struct varlena *) PG_DETOAST_DATUM_PACKED(datum));
}

#endif							/* VJSON_H */
