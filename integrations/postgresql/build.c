/*-------------------------------------------------------------------------
 *
 * build.c
 *	  Documents made of values of SQL, as jsonb's functions make them.
 *
 * The names, the arguments and the NULLs of the functions are those of jsonb,
 * and so is what becomes of a value of each type.  A text in UTF-8 is put
 * together, which the library then reads once.  The documents of vjson in it
 * stay whole, also where jsonb would reject them.
 *
 *-------------------------------------------------------------------------
 */
#include "postgres.h"

#include "access/htup_details.h"
#include "access/transam.h"
#include "catalog/pg_type.h"
#include "fmgr.h"
#include "funcapi.h"
#include "lib/stringinfo.h"
#include "mb/pg_wchar.h"
#include "miscadmin.h"
#include "parser/parse_coerce.h"
#include "utils/array.h"
#include "utils/builtins.h"
#include "utils/datetime.h"
#include "utils/json.h"
#include "utils/jsonb.h"
#include "utils/lsyscache.h"
#include "utils/memutils.h"
#include "utils/syscache.h"
#include "utils/typcache.h"

#include "vjson.h"

/* Members for which there is space at first. */
#define FIRST_ROOM		16

PG_FUNCTION_INFO_V1(to_vjson);
PG_FUNCTION_INFO_V1(vjson_build_array);
PG_FUNCTION_INFO_V1(vjson_build_object);
PG_FUNCTION_INFO_V1(vjson_object);
PG_FUNCTION_INFO_V1(vjson_object_two_arg);
PG_FUNCTION_INFO_V1(vjson_agg_transfn);
PG_FUNCTION_INFO_V1(vjson_agg_finalfn);
PG_FUNCTION_INFO_V1(vjson_object_agg_transfn);
PG_FUNCTION_INFO_V1(vjson_object_agg_finalfn);


/*
 * Types
 */

/* What becomes of the values of a type. */
typedef enum
{
	BOOLEAN,
	EXACT_NUMBER,				/* integers and numeric */
	FLOAT,
	DATE_OR_TIMESTAMP,
	ARRAY,
	COMPOSITE,
	A_VJSON,
	A_JSONB,
	A_JSON,
	CAST_TO_JSON,				/* a type of an extension that casts to json */
	A_STRING					/* what the type's output function gives */
} Manner;

typedef struct Known
{
	Oid			type;
	Oid			base;			/* of a domain; else the type itself */
	Manner		manner;
	FmgrInfo	function;		/* the output function, or the cast to json */
	int16		length;			/* of items of an array of the type */
	bool		by_value;
	char		align;
	struct Known *next;
} Known;

/* What a call of a function keeps for the next ones: the types that it met. */
typedef struct
{
	MemoryContext context;
	Oid			vjson;
	Known	   *known;
} Types;

static Manner
manner_of(const Types *types, Oid base, Oid *function)
{
	bool		is_varlena;

	*function = InvalidOid;
	if (base == types->vjson)
		return A_VJSON;
	switch (base)
	{
		case BOOLOID:
			return BOOLEAN;
		case INT2OID:
		case INT4OID:
		case INT8OID:
		case NUMERICOID:
			getTypeOutputInfo(base, function, &is_varlena);
			return EXACT_NUMBER;
		case FLOAT4OID:
		case FLOAT8OID:
			getTypeOutputInfo(base, function, &is_varlena);
			return FLOAT;
		case DATEOID:
		case TIMESTAMPOID:
		case TIMESTAMPTZOID:
			return DATE_OR_TIMESTAMP;
		case JSONBOID:
			return A_JSONB;
		case JSONOID:
			return A_JSON;
		case ANYARRAYOID:
		case ANYCOMPATIBLEARRAYOID:
		case RECORDARRAYOID:
			return ARRAY;
	}
	if (OidIsValid(get_element_type(base)))
		return ARRAY;
	if (type_is_rowtype(base))
		return COMPOSITE;
	if (base >= FirstNormalObjectId &&
		find_coercion_pathway(JSONOID, base, COERCION_EXPLICIT, function) == COERCION_PATH_FUNC &&
		OidIsValid(*function))
		return CAST_TO_JSON;
	getTypeOutputInfo(base, function, &is_varlena);
	return A_STRING;
}

static Known *
known_type(Types *types, Oid type)
{
	Known	   *known;
	Oid			function;

	for (known = types->known; known != NULL; known = known->next)
	{
		if (known->type == type)
			return known;
	}
	if (!OidIsValid(type))
		ereport(ERROR,
				(errcode(ERRCODE_INVALID_PARAMETER_VALUE), errmsg("could not determine input data type")));
	known = MemoryContextAllocZero(types->context, sizeof(Known));
	known->type = type;
	known->base = getBaseType(type);
	known->manner = manner_of(types, known->base, &function);
	if (OidIsValid(function))
		fmgr_info_cxt(function, &known->function, types->context);
	get_typlenbyvalalign(type, &known->length, &known->by_value, &known->align);
	known->next = types->known;
	types->known = known;
	return known;
}

/* The types that this call of a function knows. The type vjson is in the function's own schema. */
static Types *
types_of_call(FunctionCallInfo fcinfo)
{
	Types	   *types = fcinfo->flinfo->fn_extra;

	if (types == NULL)
	{
		types = MemoryContextAllocZero(fcinfo->flinfo->fn_mcxt, sizeof(Types));
		types->context = fcinfo->flinfo->fn_mcxt;
		types->vjson = GetSysCacheOid2(TYPENAMENSP, Anum_pg_type_oid, CStringGetDatum("vjson"),
									   ObjectIdGetDatum(get_func_namespace(fcinfo->flinfo->fn_oid)));
		fcinfo->flinfo->fn_extra = types;
	}
	return types;
}


/*
 * Strings and members
 */

static char *
utf8_of(char *words)
{
	return pg_server_to_any(words, (int) strlen(words), PG_UTF8);
}

static void
append_string(StringInfo out, char *words)
{
	escape_json(out, utf8_of(words));
}

/* The members of an object: names in UTF-8, and the texts of their values, one after the other. */
typedef struct
{
	char	   *name;
	int			start;			/* of the value's text */
	int			end;
} Member;

typedef struct
{
	MemoryContext context;
	Member	   *at;
	size_t		count;
	size_t		capacity;
	StringInfoData values;
} Members;

static void
begin_members(Members *members)
{
	members->context = CurrentMemoryContext;
	members->at = palloc(FIRST_ROOM * sizeof(Member));
	members->count = 0;
	members->capacity = FIRST_ROOM;
	initStringInfo(&members->values);
}

/* Add a member, whose value's text was appended to the values from the start on. */
static void
add_member(Members *members, char *name, int start)
{
	char	   *utf8 = utf8_of(name);

	if (members->count == members->capacity)
	{
		members->capacity *= 2;
		members->at = repalloc_huge(members->at, members->capacity * sizeof(Member));
	}
	members->at[members->count].name = MemoryContextStrdup(members->context, utf8);
	members->at[members->count].start = start;
	members->at[members->count].end = members->values.len;
	members->count++;
}

/* By name, and of one name in the order in which they came. */
static int
compare_members(const void *left, const void *right)
{
	const Member *one = left;
	const Member *other = right;
	int			order = strcmp(one->name, other->name);

	return order != 0 ? order : (one->start > other->start) - (one->start < other->start);
}

/* Append the object. Of members of one name the last one stays, as in jsonb. */
static void
append_object(StringInfo out, const Members *members)
{
	Member	   *sorted = palloc_extended(Max(members->count, 1) * sizeof(Member), MCXT_ALLOC_HUGE);
	bool		is_first = true;

	memcpy(sorted, members->at, members->count * sizeof(Member));
	qsort(sorted, members->count, sizeof(Member), compare_members);
	appendStringInfoChar(out, '{');
	for (size_t i = 0; i < members->count; i++)
	{
		if (i + 1 < members->count && strcmp(sorted[i].name, sorted[i + 1].name) == 0)
			continue;
		if (!is_first)
			appendStringInfoChar(out, ',');
		is_first = false;
		escape_json(out, sorted[i].name);
		appendStringInfoChar(out, ':');
		appendBinaryStringInfo(out, members->values.data + sorted[i].start, sorted[i].end - sorted[i].start);
	}
	appendStringInfoChar(out, '}');
	pfree(sorted);
}


/*
 * Values
 */

static void append_value(Types *types, StringInfo out, Datum value, bool is_null, Oid type);

static void
append_items(Types *types, StringInfo out, Oid type, const int *lengths, int dimensions, const Datum *items,
			 const bool *nulls, int *next)
{
	appendStringInfoChar(out, '[');
	for (int i = 0; i < lengths[0]; i++)
	{
		if (i > 0)
			appendStringInfoChar(out, ',');
		if (dimensions > 1)
			append_items(types, out, type, lengths + 1, dimensions - 1, items, nulls, next);
		else
		{
			append_value(types, out, items[*next], nulls[*next], type);
			++*next;
		}
	}
	appendStringInfoChar(out, ']');
}

static void
append_array(Types *types, StringInfo out, Datum value)
{
	ArrayType  *array = DatumGetArrayTypeP(value);
	Known	   *known = known_type(types, ARR_ELEMTYPE(array));
	Datum	   *items;
	bool	   *nulls;
	int			count;
	int			next = 0;

	if (ArrayGetNItems(ARR_NDIM(array), ARR_DIMS(array)) == 0)
	{
		appendStringInfoString(out, "[]");
		return;
	}
	deconstruct_array(array, known->type, known->length, known->by_value, known->align, &items, &nulls, &count);
	append_items(types, out, known->type, ARR_DIMS(array), ARR_NDIM(array), items, nulls, &next);
	pfree(items);
	pfree(nulls);
}

static void
append_composite(Types *types, StringInfo out, Datum value)
{
	HeapTupleHeader header = DatumGetHeapTupleHeader(value);
	TupleDesc	columns = lookup_rowtype_tupdesc(HeapTupleHeaderGetTypeId(header), HeapTupleHeaderGetTypMod(header));
	HeapTupleData tuple;
	Members		members;

	tuple.t_len = HeapTupleHeaderGetDatumLength(header);
	tuple.t_data = header;
	begin_members(&members);
	for (int i = 0; i < columns->natts; i++)
	{
		Form_pg_attribute column = TupleDescAttr(columns, i);
		int			start = members.values.len;
		bool		is_null;
		Datum		field;

		if (column->attisdropped)
			continue;
		field = heap_getattr(&tuple, i + 1, columns, &is_null);
		append_value(types, &members.values, field, is_null, column->atttypid);
		add_member(&members, NameStr(column->attname), start);
	}
	ReleaseTupleDesc(columns);
	append_object(out, &members);
	pfree(members.at);
	pfree(members.values.data);
}

/* What numeric gives of a float, which has no exponent. Those that are no numbers are strings, as in jsonb. */
static void
append_number(StringInfo out, char *words, bool is_float)
{
	if (strchr(words, 'N') || strchr(words, 'n'))
		append_string(out, words);
	else if (is_float && strchr(words, 'e'))
		appendStringInfoString(out, DatumGetCString(DirectFunctionCall1(numeric_out,
			DirectFunctionCall3(numeric_in, CStringGetDatum(words), ObjectIdGetDatum(InvalidOid), Int32GetDatum(-1)))));
	else
		appendStringInfoString(out, words);
}

static void
append_jsonb(StringInfo out, Datum value)
{
	Jsonb	   *jsonb = DatumGetJsonbP(value);

	appendStringInfoString(out, utf8_of(JsonbToCString(NULL, &jsonb->root, VARSIZE(jsonb))));
}

/* A json as jsonb has it: of members of one name the last one stays. */
static void
append_json(StringInfo out, Datum json)
{
	append_jsonb(out, DirectFunctionCall1(jsonb_in, CStringGetDatum(TextDatumGetCString(json))));
}

static void
append_vjson(StringInfo out, Datum value)
{
	Document	document = document_of_datum(value);
	size_t		size;
	char	   *text = vjson_text(&document, &size);

	appendBinaryStringInfo(out, text, (int) size);
	pfree(text);
}

static void
append_value(Types *types, StringInfo out, Datum value, bool is_null, Oid type)
{
	Known	   *known;
	char		moment[MAXDATELEN + 1];

	check_stack_depth();
	CHECK_FOR_INTERRUPTS();
	if (is_null)
	{
		appendStringInfoString(out, "null");
		return;
	}
	known = known_type(types, type);
	switch (known->manner)
	{
		case BOOLEAN:
			appendStringInfoString(out, DatumGetBool(value) ? "true" : "false");
			break;
		case EXACT_NUMBER:
		case FLOAT:
			append_number(out, OutputFunctionCall(&known->function, value), known->manner == FLOAT);
			break;
		case DATE_OR_TIMESTAMP:
			JsonEncodeDateTime(moment, value, known->base, NULL);
			append_string(out, moment);
			break;
		case ARRAY:
			append_array(types, out, value);
			break;
		case COMPOSITE:
			append_composite(types, out, value);
			break;
		case A_VJSON:
			append_vjson(out, value);
			break;
		case A_JSONB:
			append_jsonb(out, value);
			break;
		case A_JSON:
			append_json(out, value);
			break;
		case CAST_TO_JSON:
			append_json(out, FunctionCall1(&known->function, value));
			break;
		case A_STRING:
			append_string(out, OutputFunctionCall(&known->function, value));
			break;
	}
}

/* A value as the name of a member, in the encoding of the database. */
static char *
name_of(Types *types, Datum value, Oid type)
{
	Known	   *known = known_type(types, type);

	switch (known->manner)
	{
		case BOOLEAN:
			return DatumGetBool(value) ? "true" : "false";
		case DATE_OR_TIMESTAMP:
			return JsonEncodeDateTime(palloc(MAXDATELEN + 1), value, known->base, NULL);
		case EXACT_NUMBER:
		case FLOAT:
		case A_STRING:
			return OutputFunctionCall(&known->function, value);
		default:
			ereport(ERROR,
					(errcode(ERRCODE_INVALID_PARAMETER_VALUE),
					 errmsg("key value must be scalar, not array, composite, or json")));
	}
}


/*
 * Functions
 */

Datum
to_vjson(PG_FUNCTION_ARGS)
{
	Types	   *types = types_of_call(fcinfo);
	Oid			type = get_fn_expr_argtype(fcinfo->flinfo, 0);
	StringInfoData text;

	if (known_type(types, type)->manner == A_VJSON)
		PG_RETURN_DATUM(PG_GETARG_DATUM(0));
	initStringInfo(&text);
	append_value(types, &text, PG_GETARG_DATUM(0), false, type);
	PG_RETURN_POINTER(vjson_of_text(text.data, text.len));
}

/* The arguments of a function that takes any number of any type. False if they are an array that is NULL. */
static bool
get_arguments(FunctionCallInfo fcinfo, int *count, Datum **values, Oid **types, bool **nulls)
{
	*count = PG_NARGS() == 0 ? 0 : extract_variadic_args(fcinfo, 0, true, values, types, nulls);
	return *count >= 0;
}

Datum
vjson_build_array(PG_FUNCTION_ARGS)
{
	Types	   *types = types_of_call(fcinfo);
	int			count;
	Datum	   *values;
	Oid		   *types_of_values;
	bool	   *nulls;
	StringInfoData text;

	if (!get_arguments(fcinfo, &count, &values, &types_of_values, &nulls))
		PG_RETURN_NULL();
	initStringInfo(&text);
	appendStringInfoChar(&text, '[');
	for (int i = 0; i < count; i++)
	{
		if (i > 0)
			appendStringInfoChar(&text, ',');
		append_value(types, &text, values[i], nulls[i], types_of_values[i]);
	}
	appendStringInfoChar(&text, ']');
	PG_RETURN_POINTER(vjson_of_text(text.data, text.len));
}

Datum
vjson_build_object(PG_FUNCTION_ARGS)
{
	Types	   *types = types_of_call(fcinfo);
	int			count;
	Datum	   *values;
	Oid		   *types_of_values;
	bool	   *nulls;
	Members		members;
	StringInfoData text;

	if (!get_arguments(fcinfo, &count, &values, &types_of_values, &nulls))
		PG_RETURN_NULL();
	if (count % 2 != 0)
		ereport(ERROR,
				(errcode(ERRCODE_INVALID_PARAMETER_VALUE),
				 errmsg("argument list must have even number of elements"),
				 errhint("The arguments of %s must consist of alternating keys and values.", "vjson_build_object()")));
	begin_members(&members);
	for (int i = 0; i < count; i += 2)
	{
		int			start = members.values.len;

		if (nulls[i])
			ereport(ERROR,
					(errcode(ERRCODE_INVALID_PARAMETER_VALUE), errmsg("argument %d: key must not be null", i + 1)));
		append_value(types, &members.values, values[i + 1], nulls[i + 1], types_of_values[i + 1]);
		add_member(&members, name_of(types, values[i], types_of_values[i]), start);
	}
	initStringInfo(&text);
	append_object(&text, &members);
	PG_RETURN_POINTER(vjson_of_text(text.data, text.len));
}

/* The names or texts of an array. */
typedef struct
{
	Datum	   *words;
	bool	   *nulls;
	int			count;
} Texts;

static Texts
texts_of(ArrayType *array)
{
	Texts		texts;

	deconstruct_array(array, TEXTOID, -1, false, TYPALIGN_INT, &texts.words, &texts.nulls, &texts.count);
	return texts;
}

/* An object of strings: every so many of the words is a name, or its value, which is null where it is NULL. */
static Datum
object_of_texts(Texts names, Texts values, int step)
{
	Members		members;
	StringInfoData object;

	begin_members(&members);
	for (int i = 0; i < names.count; i += step)
	{
		int			start = members.values.len;

		if (names.nulls[i])
			ereport(ERROR,
					(errcode(ERRCODE_NULL_VALUE_NOT_ALLOWED), errmsg("null value not allowed for object key")));
		if (values.nulls[i])
			appendStringInfoString(&members.values, "null");
		else
			append_string(&members.values, TextDatumGetCString(values.words[i]));
		add_member(&members, TextDatumGetCString(names.words[i]), start);
	}
	initStringInfo(&object);
	append_object(&object, &members);
	PG_RETURN_POINTER(vjson_of_text(object.data, object.len));
}

vjson_noreturn static void
raise_wrong_array(const char *words)
{
	ereport(ERROR, (errcode(ERRCODE_ARRAY_SUBSCRIPT_ERROR), errmsg("%s", words)));
}

/* Names and values in turn, or rows of both. */
Datum
vjson_object(PG_FUNCTION_ARGS)
{
	ArrayType  *array = PG_GETARG_ARRAYTYPE_P(0);
	Texts		names = texts_of(array);
	Texts		values = {names.words + 1, names.nulls + 1, names.count};

	if (ARR_NDIM(array) == 1 && ARR_DIMS(array)[0] % 2 != 0)
		raise_wrong_array("array must have even number of elements");
	if (ARR_NDIM(array) == 2 && ARR_DIMS(array)[1] != 2)
		raise_wrong_array("array must have two columns");
	if (ARR_NDIM(array) > 2)
		raise_wrong_array("wrong number of array subscripts");
	return object_of_texts(names, values, 2);
}

/* Names, and as many values. */
Datum
vjson_object_two_arg(PG_FUNCTION_ARGS)
{
	ArrayType  *names = PG_GETARG_ARRAYTYPE_P(0);
	ArrayType  *values = PG_GETARG_ARRAYTYPE_P(1);

	if (ARR_NDIM(names) > 1 || ARR_NDIM(names) != ARR_NDIM(values))
		raise_wrong_array("wrong number of array subscripts");
	if (ARR_NDIM(names) == 1 && ARR_DIMS(names)[0] != ARR_DIMS(values)[0])
		raise_wrong_array("mismatched array dimensions");
	return object_of_texts(texts_of(names), texts_of(values), 1);
}


/*
 * Aggregates
 */

static MemoryContext
context_of_aggregate(FunctionCallInfo fcinfo, const char *function)
{
	MemoryContext context;

	if (!AggCheckCallContext(fcinfo, &context))
		elog(ERROR, "%s called in non-aggregate context", function);
	return context;
}

/* The state is the text of the array as far as it goes, without what closes it. */
Datum
vjson_agg_transfn(PG_FUNCTION_ARGS)
{
	MemoryContext context = context_of_aggregate(fcinfo, "vjson_agg_transfn");
	StringInfo	text = PG_ARGISNULL(0) ? NULL : (StringInfo) PG_GETARG_POINTER(0);
	Datum		value = PG_ARGISNULL(1) ? (Datum) 0 : PG_GETARG_DATUM(1);

	if (text == NULL)
	{
		MemoryContext caller = MemoryContextSwitchTo(context);

		text = makeStringInfo();
		MemoryContextSwitchTo(caller);
	}
	appendStringInfoChar(text, text->len == 0 ? '[' : ',');
	append_value(types_of_call(fcinfo), text, value, PG_ARGISNULL(1), get_fn_expr_argtype(fcinfo->flinfo, 1));
	PG_RETURN_POINTER(text);
}

/* The state isn't changed: a window function goes on with it. */
Datum
vjson_agg_finalfn(PG_FUNCTION_ARGS)
{
	StringInfo	text;
	StringInfoData closed;

	context_of_aggregate(fcinfo, "vjson_agg_finalfn");
	if (PG_ARGISNULL(0))
		PG_RETURN_NULL();
	text = (StringInfo) PG_GETARG_POINTER(0);
	initStringInfo(&closed);
	appendBinaryStringInfo(&closed, text->data, text->len);
	appendStringInfoChar(&closed, ']');
	PG_RETURN_POINTER(vjson_of_text(closed.data, closed.len));
}

Datum
vjson_object_agg_transfn(PG_FUNCTION_ARGS)
{
	MemoryContext context = context_of_aggregate(fcinfo, "vjson_object_agg_transfn");
	Types	   *types = types_of_call(fcinfo);
	Members    *members = PG_ARGISNULL(0) ? NULL : (Members *) PG_GETARG_POINTER(0);
	Datum		value = PG_ARGISNULL(2) ? (Datum) 0 : PG_GETARG_DATUM(2);
	int			start;

	if (members == NULL)
	{
		MemoryContext caller = MemoryContextSwitchTo(context);

		members = palloc(sizeof(Members));
		begin_members(members);
		MemoryContextSwitchTo(caller);
	}
	if (PG_ARGISNULL(1))
		ereport(ERROR, (errcode(ERRCODE_INVALID_PARAMETER_VALUE), errmsg("field name must not be null")));
	start = members->values.len;
	append_value(types, &members->values, value, PG_ARGISNULL(2), get_fn_expr_argtype(fcinfo->flinfo, 2));
	add_member(members, name_of(types, PG_GETARG_DATUM(1), get_fn_expr_argtype(fcinfo->flinfo, 1)), start);
	PG_RETURN_POINTER(members);
}

Datum
vjson_object_agg_finalfn(PG_FUNCTION_ARGS)
{
	StringInfoData text;

	context_of_aggregate(fcinfo, "vjson_object_agg_finalfn");
	if (PG_ARGISNULL(0))
		PG_RETURN_NULL();
	initStringInfo(&text);
	append_object(&text, (Members *) PG_GETARG_POINTER(0));
	PG_RETURN_POINTER(vjson_of_text(text.data, text.len));
}
