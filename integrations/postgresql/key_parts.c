/*-------------------------------------------------------------------------
 *
 * key_parts.c
 *	  Parts of documents, found in their sort keys by the library.
 *
 * The names, the arguments and the NULLs of the functions are those of jsonb.
 * A part is a range of the bytes of the key, and of the document nothing is
 * read or written but that.
 *
 *-------------------------------------------------------------------------
 */
#include "postgres.h"

#include <float.h>

#include "fmgr.h"
#include "funcapi.h"
#include "catalog/pg_type.h"
#include "mb/pg_wchar.h"
#include "miscadmin.h"
#include "nodes/primnodes.h"
#include "utils/array.h"
#include "utils/builtins.h"
#include "utils/memutils.h"
#include "utils/numeric.h"

#include <vizhoniku.h>

#include "key_walk.h"
#include "vjson.h"

/* How much of a value is looked at for its kind: of an older form a byte, the size of the key, and its first byte. */
#define KIND_SLICE		6

/* From how many names on they are looked for together. */
#define MANY_NAMES		8

/* Space for the document of a part; more is asked for if needed. */
#define FIRST_PART		256

PG_FUNCTION_INFO_V1(vjson_object_field);
PG_FUNCTION_INFO_V1(vjson_object_field_text);
PG_FUNCTION_INFO_V1(vjson_array_element);
PG_FUNCTION_INFO_V1(vjson_array_element_text);
PG_FUNCTION_INFO_V1(vjson_extract_path);
PG_FUNCTION_INFO_V1(vjson_extract_path_text);
PG_FUNCTION_INFO_V1(vjson_exists);
PG_FUNCTION_INFO_V1(vjson_exists_any);
PG_FUNCTION_INFO_V1(vjson_exists_all);
PG_FUNCTION_INFO_V1(vjson_typeof);
PG_FUNCTION_INFO_V1(vjson_array_length);
PG_FUNCTION_INFO_V1(vjson_each);
PG_FUNCTION_INFO_V1(vjson_each_text);
PG_FUNCTION_INFO_V1(vjson_object_keys);
PG_FUNCTION_INFO_V1(vjson_array_elements);
PG_FUNCTION_INFO_V1(vjson_array_elements_text);
PG_FUNCTION_INFO_V1(vjson_contains);
PG_FUNCTION_INFO_V1(vjson_contained);
PG_FUNCTION_INFO_V1(vjson_to_bool);
PG_FUNCTION_INFO_V1(vjson_to_numeric);
PG_FUNCTION_INFO_V1(vjson_to_int2);
PG_FUNCTION_INFO_V1(vjson_to_int4);
PG_FUNCTION_INFO_V1(vjson_to_int8);
PG_FUNCTION_INFO_V1(vjson_to_float4);
PG_FUNCTION_INFO_V1(vjson_to_float8);


/*
 * Names that are asked for
 */

/* Whether the second argument is a constant of the query. */
static bool
is_constant(FunctionCallInfo fcinfo)
{
	Node	   *call = fcinfo->flinfo->fn_expr;
	List	   *arguments = NIL;

	if (call != NULL && IsA(call, OpExpr))
		arguments = ((OpExpr *) call)->args;
	else if (call != NULL && IsA(call, FuncExpr))
		arguments = ((FuncExpr *) call)->args;
	return list_length(arguments) > 1 && IsA(lsecond(arguments), Const);
}

Range
vjson_words_of_call(FunctionCallInfo fcinfo)
{
	Range		words = utf8_of(PG_GETARG_TEXT_PP(1));

	if (is_constant(fcinfo))
	{
		Range	   *known = MemoryContextAlloc(fcinfo->flinfo->fn_mcxt, sizeof(Range) + words.size);

		known->at = memcpy(known + 1, words.at, words.size);
		known->size = words.size;
		fcinfo->flinfo->fn_extra = known;
	}
	return words;
}

void *
vjson_keep(FunctionCallInfo fcinfo, const struct varlena *argument, size_t size, Makes make, bool how)
{
	VjsonKept  *kept = fcinfo->flinfo->fn_extra;

	if (kept == NULL)
	{
		kept = MemoryContextAllocZero(fcinfo->flinfo->fn_mcxt, size);
		kept->context = AllocSetContextCreate(fcinfo->flinfo->fn_mcxt, "an argument of a vjson", ALLOCSET_SMALL_SIZES);
		fcinfo->flinfo->fn_extra = kept;
	}
	if (kept->argument == NULL || VARSIZE_ANY(kept->argument) != VARSIZE_ANY(argument) ||
		memcmp(kept->argument, argument, VARSIZE_ANY(argument)) != 0)
	{
		MemoryContext caller = MemoryContextSwitchTo(kept->context);
		struct varlena *copy;

		kept->argument = NULL;
		MemoryContextReset(kept->context);
		copy = palloc(VARSIZE_ANY(argument));
		memcpy(copy, argument, VARSIZE_ANY(argument));
		make(kept, copy, how);
		kept->argument = copy;
		MemoryContextSwitchTo(caller);
	}
	return kept;
}


/*
 * Members and items
 */

/*
 * The item of an array. A scalar is taken for an array with it alone, as jsonb
 * takes it.
 */
static bool
find_element(Range key, int32 index, Range *part)
{
	if (find_item(key, index, part))
		return true;
	*part = key;
	return (index == 0 || index == -1) && is_scalar(kind_of(key));
}

Datum
vjson_object_field(PG_FUNCTION_ARGS)
{
	Document	document = get_document(PG_GETARG_VARLENA_PP(0));
	Range		part;

	if (!find_member(&document, words_of_call(fcinfo), &part))
		PG_RETURN_NULL();
	PG_RETURN_POINTER(vjson_part(&document, part));
}

Datum
vjson_object_field_text(PG_FUNCTION_ARGS)
{
	Document	document = get_document(PG_GETARG_VARLENA_PP(0));
	Range		part;
	text	   *result = NULL;

	if (find_member(&document, words_of_call(fcinfo), &part))
		result = vjson_part_text(&document, part);
	if (result == NULL)
		PG_RETURN_NULL();
	PG_RETURN_TEXT_P(result);
}

Datum
vjson_array_element(PG_FUNCTION_ARGS)
{
	Document	document = get_document(PG_GETARG_VARLENA_PP(0));
	Range		part;

	if (!find_element(document.key, PG_GETARG_INT32(1), &part))
		PG_RETURN_NULL();
	PG_RETURN_POINTER(vjson_part(&document, part));
}

Datum
vjson_array_element_text(PG_FUNCTION_ARGS)
{
	Document	document = get_document(PG_GETARG_VARLENA_PP(0));
	Range		part;
	text	   *result = NULL;

	if (find_element(document.key, PG_GETARG_INT32(1), &part))
		result = vjson_part_text(&document, part);
	if (result == NULL)
		PG_RETURN_NULL();
	PG_RETURN_TEXT_P(result);
}

/* The part to which the names of an array lead, as subscripts do. False if there is none, or a name is NULL. */
static bool
find_by_names(const Document *whole, ArrayType *array, Range *part)
{
	Document	at = *whole;
	Datum	   *names;
	bool	   *nulls;
	int			count;

	if (array_contains_nulls(array))
		return false;
	deconstruct_array(array, TEXTOID, -1, false, TYPALIGN_INT, &names, &nulls, &count);
	for (int i = 0; i < count; i++)
	{
		text	   *words = DatumGetTextPP(names[i]);
		VjsonStep	step = {words, utf8_of(words), false};

		if (!vjson_take_step(&at, &step, part))
			return false;
		at = document_of_key(*part);
	}
	*part = at.key;
	return true;
}

Datum
vjson_extract_path(PG_FUNCTION_ARGS)
{
	Document	document = get_document(PG_GETARG_VARLENA_PP(0));
	Range		part;

	if (!find_by_names(&document, PG_GETARG_ARRAYTYPE_P(1), &part))
		PG_RETURN_NULL();
	PG_RETURN_POINTER(vjson_part(&document, part));
}

Datum
vjson_extract_path_text(PG_FUNCTION_ARGS)
{
	Document	document = get_document(PG_GETARG_VARLENA_PP(0));
	Range		part;
	text	   *result = NULL;

	if (find_by_names(&document, PG_GETARG_ARRAYTYPE_P(1), &part))
		result = vjson_part_text(&document, part);
	if (result == NULL)
		PG_RETURN_NULL();
	PG_RETURN_TEXT_P(result);
}


/*
 * Steps of a path, in which an index may count from the end
 */

/* Take the next step off the path: a slash, and what is behind it up to the next one. False at its end. */
static bool
next_step(Range *path, Range *step)
{
	const unsigned char *end;

	if (path->size == 0)
		return false;
	end = memchr(path->at + 1, '/', path->size - 1);
	step->at = path->at;
	step->size = end != NULL ? (size_t) (end - path->at) : path->size;
	path->at += step->size;
	path->size -= step->size;
	return true;
}

bool
vjson_take_name(Range *path, Range *name)
{
	Range		rest = *path;

	if (rest.size == 0 || *rest.at != '/' || !next_step(&rest, name) || memchr(name->at, '~', name->size) != NULL)
		return false;
	name->at++;
	name->size--;
	*path = rest;
	return true;
}

/* The index that a step is which counts from the end, as the library reads one: digits with no zeros at their front. */
static bool
index_from_end(Range step, int64 *index)
{
	*index = 0;
	if (step.size < 3 || step.size > 20 || step.at[1] != '-' || step.at[2] == '0')
		return false;
	for (size_t i = 2; i < step.size; i++)
	{
		if (step.at[i] < '0' || step.at[i] > '9')
			return false;
		*index = *index * 10 - (step.at[i] - '0');
	}
	return true;
}

bool
vjson_find_by_steps(const Document *whole, Range path, Range *part)
{
	Range		step;
	int64		index;

	*part = whole->key;
	while (next_step(&path, &step))
	{
		if (kind_of(*part) == VIZHONIKU_ARRAY && index_from_end(step, &index) ?
			!find_item(*part, index, part) : vjson_find_part(*part, step, part) != VIZHONIKU_ACCEPTED)
			return false;
	}
	return true;
}


/*
 * Which names there are
 */

/* Whether a member has the name, or an item or the value itself is that string. */
static bool
has_name(const Document *whole, Range name)
{
	Range		key = whole->key;
	uint32		kind;
	Range		wanted;
	Walk		walk;

	if (find_member(whole, name, &walk.value))
		return true;
	kind = kind_of(key);
	if (kind != VIZHONIKU_ARRAY && kind != VIZHONIKU_STRING)
		return false;
	wanted = key_of_string(name);
	if (kind == VIZHONIKU_STRING)
		return same_bytes(key, wanted);
	begin_walk(&walk, key);
	while (next_in_walk(&walk))
	{
		CHECK_FOR_INTERRUPTS();
		if (same_bytes(walk.value, wanted))
			return true;
	}
	return false;
}

Datum
vjson_exists(PG_FUNCTION_ARGS)
{
	Document	document = get_document(PG_GETARG_VARLENA_PP(0));

	PG_RETURN_BOOL(has_name(&document, words_of_call(fcinfo)));
}

/* How many of the names are there, each counted once, in one pass over the key. *count is of how many there are. */
static int
count_names(Range key, const Datum *words, const bool *nulls, int *count)
{
	Range	   *names = palloc(Max(*count, 1) * sizeof(Range));
	bool	   *is_there;
	int			wanted = 0;
	int			kept = 0;
	int			found = 0;
	Range		name;
	Walk		walk;

	for (int i = 0; i < *count; i++)
	{
		if (!nulls[i])
			names[wanted++] = name_as_in_key(DatumGetTextPP(words[i]));
	}
	qsort(names, wanted, sizeof(Range), compare_ranges);
	for (int i = 0; i < wanted; i++)
	{
		if (i == 0 || !same_bytes(names[i], names[kept - 1]))
			names[kept++] = names[i];
	}
	*count = kept;
	is_there = palloc0(Max(kept, 1));
	begin_walk(&walk, key);
	while (found < kept && next_in_walk(&walk))
	{
		Range	   *at = name_in_walk(&walk, &name) ? bsearch(&name, names, kept, sizeof(Range), compare_ranges) : NULL;

		CHECK_FOR_INTERRUPTS();
		if (at != NULL && !is_there[at - names])
		{
			is_there[at - names] = true;
			found++;
		}
	}
	return found;
}

/* Whether one of the names is there as is wanted; a NULL among them is passed over. */
static bool
any_name(FunctionCallInfo fcinfo, bool wanted)
{
	Document	document = get_document(PG_GETARG_VARLENA_PP(0));
	Datum	   *names;
	bool	   *nulls;
	int			count;

	deconstruct_array(PG_GETARG_ARRAYTYPE_P(1), TEXTOID, -1, false, TYPALIGN_INT, &names, &nulls, &count);
	if (count >= MANY_NAMES && !is_scalar(kind_of(document.key)))
	{
		int			found = count_names(document.key, names, nulls, &count);

		return wanted ? found > 0 : found < count;
	}
	for (int i = 0; i < count; i++)
	{
		if (!nulls[i] && has_name(&document, utf8_of(DatumGetTextPP(names[i]))) == wanted)
			return true;
	}
	return false;
}

Datum
vjson_exists_any(PG_FUNCTION_ARGS)
{
	PG_RETURN_BOOL(any_name(fcinfo, true));
}

Datum
vjson_exists_all(PG_FUNCTION_ARGS)
{
	PG_RETURN_BOOL(!any_name(fcinfo, false));
}


/*
 * What a document is
 */

Datum
vjson_typeof(PG_FUNCTION_ARGS)
{
	static const char *const names[] = {
		[VIZHONIKU_NULL] = "null",[VIZHONIKU_BOOLEAN] = "boolean",[VIZHONIKU_NUMBER] = "number",
		[VIZHONIKU_STRING] = "string",[VIZHONIKU_ARRAY] = "array",[VIZHONIKU_OBJECT] = "object"
	};
	struct varlena *value = (struct varlena *) PG_GETARG_POINTER(0);
	Range		front;

	if (VARATT_IS_COMPRESSED(value) || VARATT_IS_EXTERNAL(value))
		value = PG_DETOAST_DATUM_SLICE(PG_GETARG_DATUM(0), 0, KIND_SLICE);
	front = bytes_of(value);
	if (*front.at < OLD_FORMS)
		front = vjson_old_key(front, true);
	PG_RETURN_TEXT_P(cstring_to_text(names[kind_of(front)]));
}

Datum
vjson_array_length(PG_FUNCTION_ARGS)
{
	Range		key = get_key(PG_GETARG_VARLENA_PP(0));
	uint32		kind = kind_of(key);
	size_t		count;

	if (kind != VIZHONIKU_ARRAY)
		ereport(ERROR,
				(errcode(ERRCODE_INVALID_PARAMETER_VALUE),
				 is_scalar(kind) ? errmsg("cannot get array length of a scalar") :
				 errmsg("cannot get array length of a non-array")));
	if (!is_found(vizhoniku_key_count(key.at, key.size, &count)))
		vjson_raise_corrupted();
	PG_RETURN_INT32((int32) count);
}


/*
 * All members and all items
 */

/* What is put out of each part. */
typedef enum
{
	NAMES = 1,
	VALUES = 2,
	TEXTS = 4
} Columns;

/* The parts of a document, one after the other. */
typedef struct
{
	Document	whole;
	Walk		walk;			/* over its key, where it has no zeros */
	struct vizhoniku_document_cursor cursor;	/* over it, where it has some */
	struct vizhoniku_key_entry entry;
	Range		name;			/* of a member */
	Document	part;
	struct varlena *value;		/* NULL where it isn't made yet */
} Parts;

static void
begin_parts(Parts *parts, Document whole)
{
	parts->whole = whole;
	if (whole.size == whole.key.size)
		begin_walk(&parts->walk, whole.key);
	else if (!is_found(vizhoniku_document_begin(whole.key.at, whole.size, &parts->cursor)))
		vjson_raise_corrupted();
}

static uint32
write_next(const void *arguments, unsigned char *buffer, size_t capacity, size_t *size)
{
	Parts	   *parts = unconstify(Parts *, (const Parts *) arguments);

	return vizhoniku_document_next(parts->whole.key.at, parts->whole.size, &parts->cursor, &parts->entry, buffer, capacity,
								   size);
}

/* Go on to the next part. False at the end. */
static bool
next_part(Parts *parts)
{
	Document	whole = parts->whole;
	size_t		size;
	char	   *block;

	parts->value = NULL;
	if (whole.size == whole.key.size)
	{
		if (!next_in_walk(&parts->walk))
			return false;
		parts->name = parts->walk.name;
		parts->part.key = parts->walk.value;
		parts->part.size = parts->walk.value.size;
		return true;
	}
	block = vjson_written(write_next, parts, VARHDRSZ, FIRST_PART, &size);
	if (block == NULL)
		return false;
	parts->name.at = whole.key.at + parts->entry.name_offset;
	parts->name.size = parts->entry.name_size;
	parts->value = vjson_value(block, size);
	parts->part = get_document(parts->value);
	return true;
}

/* Put a row for each part of the value into the set that is answered. */
static void
put_parts(FunctionCallInfo fcinfo, Document whole, int columns)
{
	ReturnSetInfo *set = (ReturnSetInfo *) fcinfo->resultinfo;
	MemoryContext rows = AllocSetContextCreate(CurrentMemoryContext, "parts of a vjson", ALLOCSET_DEFAULT_SIZES);
	MemoryContext caller = CurrentMemoryContext;
	Parts		parts;

	begin_parts(&parts, whole);
	MemoryContextSwitchTo(rows);
	while (next_part(&parts))
	{
		Datum		values[2];
		bool		nulls[2] = {false, false};
		int			column = 0;

		CHECK_FOR_INTERRUPTS();
		if (columns & NAMES)
			values[column++] = PointerGetDatum(vjson_text_of_string(parts.name, true));
		if (columns & VALUES)
			values[column] = PointerGetDatum(parts.value != NULL ? parts.value : vjson_of_key(parts.part.key));
		if (columns & TEXTS)
		{
			text	   *words = vjson_text_of(&parts.part);

			values[column] = PointerGetDatum(words);
			nulls[column] = words == NULL;
		}
		tuplestore_putvalues(set->setResult, set->setDesc, values, nulls);
		MemoryContextReset(rows);
	}
	MemoryContextSwitchTo(caller);
	MemoryContextDelete(rows);
}

static Datum
put_members(FunctionCallInfo fcinfo, const char *function, int columns)
{
	Document	document = get_document(PG_GETARG_VARLENA_PP(0));

	if (kind_of(document.key) != VIZHONIKU_OBJECT)
		ereport(ERROR,
				(errcode(ERRCODE_INVALID_PARAMETER_VALUE),
				 errmsg("cannot call %s on a non-object", function)));
	InitMaterializedSRF(fcinfo, MAT_SRF_BLESS);
	put_parts(fcinfo, document, columns);
	PG_RETURN_NULL();
}

static Datum
put_items(FunctionCallInfo fcinfo, int columns)
{
	Document	document = get_document(PG_GETARG_VARLENA_PP(0));
	uint32		kind = kind_of(document.key);

	if (kind != VIZHONIKU_ARRAY)
		ereport(ERROR,
				(errcode(ERRCODE_INVALID_PARAMETER_VALUE),
				 is_scalar(kind) ? errmsg("cannot extract elements from a scalar") :
				 errmsg("cannot extract elements from an object")));
	InitMaterializedSRF(fcinfo, MAT_SRF_USE_EXPECTED_DESC | MAT_SRF_BLESS);
	put_parts(fcinfo, document, columns);
	PG_RETURN_NULL();
}

Datum
vjson_each(PG_FUNCTION_ARGS)
{
	return put_members(fcinfo, "vjson_each", NAMES | VALUES);
}

Datum
vjson_each_text(PG_FUNCTION_ARGS)
{
	return put_members(fcinfo, "vjson_each_text", NAMES | TEXTS);
}

Datum
vjson_array_elements(PG_FUNCTION_ARGS)
{
	return put_items(fcinfo, VALUES);
}

Datum
vjson_array_elements_text(PG_FUNCTION_ARGS)
{
	return put_items(fcinfo, TEXTS);
}

Datum
vjson_object_keys(PG_FUNCTION_ARGS)
{
	Document	document = get_document(PG_GETARG_VARLENA_PP(0));
	uint32		kind = kind_of(document.key);

	if (kind != VIZHONIKU_OBJECT)
		ereport(ERROR,
				(errcode(ERRCODE_INVALID_PARAMETER_VALUE),
				 is_scalar(kind) ? errmsg("cannot call %s on a scalar", "vjson_object_keys") :
				 errmsg("cannot call %s on an array", "vjson_object_keys")));
	InitMaterializedSRF(fcinfo, MAT_SRF_USE_EXPECTED_DESC | MAT_SRF_BLESS);
	document.size = document.key.size;	/* names have no zeros */
	put_parts(fcinfo, document, NAMES);
	PG_RETURN_NULL();
}


/*
 * Containment, as jsonb has it
 */

/* The machine stack of a call is bounded, and looked at once. */
static bool
contains(Datum left, Datum right)
{
	Range		ours = key_of_datum(left);
	Range		theirs = key_of_datum(right);

	check_stack_depth();
	return is_found(vizhoniku_key_contains(ours.at, ours.size, theirs.at, theirs.size));
}

Datum
vjson_contains(PG_FUNCTION_ARGS)
{
	PG_RETURN_BOOL(contains(PG_GETARG_DATUM(0), PG_GETARG_DATUM(1)));
}

Datum
vjson_contained(PG_FUNCTION_ARGS)
{
	PG_RETURN_BOOL(contains(PG_GETARG_DATUM(1), PG_GETARG_DATUM(0)));
}


/*
 * Casts of scalars
 */

vjson_noreturn static void
raise_cannot_cast(uint32 kind, const char *type)
{
	static const char *const names[] = {
		[VIZHONIKU_NULL] = "null",[VIZHONIKU_BOOLEAN] = "boolean",[VIZHONIKU_NUMBER] = "numeric",
		[VIZHONIKU_STRING] = "string",[VIZHONIKU_ARRAY] = "array",[VIZHONIKU_OBJECT] = "object"
	};

	ereport(ERROR,
			(errcode(ERRCODE_INVALID_PARAMETER_VALUE),
			 errmsg("cannot cast vjson %s to type %s", names[kind], type)));
}

/*
 * Whether a null becomes SQL's NULL in a cast, as that of jsonb does from
 * version 18 of the server on.  Before that it can't be cast.
 */
static inline bool
is_cast_to_null(uint32 kind)
{
	return PG_VERSION_NUM >= 180000 && kind == VIZHONIKU_NULL;
}

/* Get the number that is cast to the type. False where a null becomes SQL's NULL. */
static bool
get_number(FunctionCallInfo fcinfo, const char *type, Document *number)
{
	uint32		kind;

	*number = get_document(PG_GETARG_VARLENA_PP(0));
	kind = kind_of(number->key);
	if (is_cast_to_null(kind))
		return false;
	if (kind != VIZHONIKU_NUMBER)
		raise_cannot_cast(kind, type);
	return true;
}

/* Whether the number is an integer of at most this magnitude. */
static inline bool
is_integer_within(const Document *number, int64 bound, int64 *integer)
{
	return is_found(vizhoniku_key_integer(number->key.at, number->key.size, integer)) && *integer >= -bound &&
		*integer <= bound;
}

/* The number as a numeric, which keeps its zeros. */
static Datum
numeric_of(const Document *number)
{
	int64		integer;

	if (number->size == number->key.size && is_integer_within(number, PG_INT64_MAX, &integer))
		return NumericGetDatum(int64_to_numeric(integer));
	return DirectFunctionCall3(numeric_in, CStringGetDatum(vjson_server_text(number)), ObjectIdGetDatum(InvalidOid),
							   Int32GetDatum(-1));
}

Datum
vjson_to_bool(PG_FUNCTION_ARGS)
{
	Range		key = get_key(PG_GETARG_VARLENA_PP(0));
	uint32		kind = kind_of(key);
	uint32		boolean;

	if (is_cast_to_null(kind))
		PG_RETURN_NULL();
	if (!is_found(vizhoniku_key_boolean(key.at, key.size, &boolean)))
		raise_cannot_cast(kind, "boolean");
	PG_RETURN_BOOL(boolean);
}

/*
 * An integer that the type has exactly is taken from the key.  Others are made
 * by way of numeric, with its rounding and its errors.
 */

Datum
vjson_to_numeric(PG_FUNCTION_ARGS)
{
	Document	number;

	if (!get_number(fcinfo, "numeric", &number))
		PG_RETURN_NULL();
	PG_RETURN_DATUM(numeric_of(&number));
}

Datum
vjson_to_int2(PG_FUNCTION_ARGS)
{
	Document	number;
	int64		integer;

	if (!get_number(fcinfo, "smallint", &number))
		PG_RETURN_NULL();
	if (is_integer_within(&number, PG_INT16_MAX, &integer))
		PG_RETURN_INT16((int16) integer);
	return DirectFunctionCall1(numeric_int2, numeric_of(&number));
}

Datum
vjson_to_int4(PG_FUNCTION_ARGS)
{
	Document	number;
	int64		integer;

	if (!get_number(fcinfo, "integer", &number))
		PG_RETURN_NULL();
	if (is_integer_within(&number, PG_INT32_MAX, &integer))
		PG_RETURN_INT32((int32) integer);
	return DirectFunctionCall1(numeric_int4, numeric_of(&number));
}

Datum
vjson_to_int8(PG_FUNCTION_ARGS)
{
	Document	number;
	int64		integer;

	if (!get_number(fcinfo, "bigint", &number))
		PG_RETURN_NULL();
	if (is_integer_within(&number, PG_INT64_MAX, &integer))
		PG_RETURN_INT64(integer);
	return DirectFunctionCall1(numeric_int8, numeric_of(&number));
}

Datum
vjson_to_float4(PG_FUNCTION_ARGS)
{
	Document	number;
	int64		integer;

	if (!get_number(fcinfo, "real", &number))
		PG_RETURN_NULL();
	if (is_integer_within(&number, INT64CONST(1) << FLT_MANT_DIG, &integer))
		PG_RETURN_FLOAT4((float4) integer);
	return DirectFunctionCall1(numeric_float4, numeric_of(&number));
}

Datum
vjson_to_float8(PG_FUNCTION_ARGS)
{
	Document	number;
	int64		integer;

	if (!get_number(fcinfo, "double precision", &number))
		PG_RETURN_NULL();
	if (is_integer_within(&number, INT64CONST(1) << DBL_MANT_DIG, &integer))
		PG_RETURN_FLOAT8((float8) integer);
	return DirectFunctionCall1(numeric_float8, numeric_of(&number));
}
