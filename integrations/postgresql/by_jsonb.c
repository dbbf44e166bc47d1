/*-------------------------------------------------------------------------
 *
 * by_jsonb.c
 *	  Functions that the server has for jsonb, of documents: jsonpath and text
 *	  search.
 *
 * The document is made a jsonb, the server's function is called with it, and
 * where that answers with a jsonb it becomes a document.  A jsonpath of nothing
 * but names, such as $.user.age, is followed in the key where it leads from
 * object to object.
 *
 *-------------------------------------------------------------------------
 */
#include "postgres.h"

#include "fmgr.h"
#include "funcapi.h"
#include "mb/pg_wchar.h"
#include "miscadmin.h"
#include "utils/builtins.h"
#include "utils/fmgrprotos.h"
#include "utils/jsonb.h"
#include "utils/jsonpath.h"
#include "utils/memutils.h"

#include "key_walk.h"
#include "vjson.h"

/* The most arguments that one of these functions has. */
#define MOST_ARGUMENTS	4

/* Which of the arguments are documents. */
#define FIRST			1
#define SECOND			2
#define THIRD			4

/* The jsonpath of the last call. */
typedef struct
{
	VjsonKept	path;
	VjsonWanted wanted;
	bool		wants_all;		/* whether it looks at members of any name */
	int			steps;			/* that lead to its parts; NO_STEPS where none does */
	bool		is_names;		/* whether it has nothing else */
	bool		is_lax;
} KnownPath;

/* What is known of the part to which the names of a jsonpath lead. */
typedef enum
{
	FOUND,
	NOT_THERE,
	UNKNOWN						/* the server's function says */
} Finding;


/*
 * Calls of the server's functions
 */

/* What the server's function answers, with the arguments of this one. */
static Datum
call_by_jsonb(FunctionCallInfo fcinfo, PGFunction function, int documents, const VjsonWanted *wanted)
{
	LOCAL_FCINFO(call, MOST_ARGUMENTS);
	Datum		answer;

	Assert(PG_NARGS() <= MOST_ARGUMENTS);
	InitFunctionCallInfoData(*call, NULL, PG_NARGS(), PG_GET_COLLATION(), NULL, NULL);
	for (int i = 0; i < PG_NARGS(); i++)
	{
		call->args[i].isnull = false;
		call->args[i].value = PG_GETARG_DATUM(i);
		if (documents & (1 << i))
			call->args[i].value = vjson_jsonb(PG_GETARG_DATUM(i), i == 0 ? wanted : NULL);
	}
	answer = function(call);
	fcinfo->isnull = call->isnull;
	return answer;
}


/*
 * What a jsonpath looks at
 */

bool
vjson_want_name(VjsonWanted *wanted, Range name)
{
	Range	   *names = wanted->names;
	int			location = wanted->count;

	while (location > 0 && compare_ranges(&names[location - 1], &name) >= 0)
		location--;
	if (location < wanted->count && same_bytes(names[location], name))
		return true;
	if (wanted->count == MOST_NAMES)
		return false;
	for (int i = wanted->count++; i > location; i--)
		names[i] = names[i - 1];
	names[location] = name;
	return true;
}

/* The name of a member in a jsonpath. */
static Range
name_of_item(JsonPathItem *item)
{
	int32		size;
	char	   *words = jspGetString(item, &size);
	char	   *utf8 = pg_server_to_any(words, size, PG_UTF8);
	Range		name = {(unsigned char *) utf8, utf8 == words ? (size_t) size : strlen(utf8)};

	return name;
}

static bool add_names(VjsonWanted *wanted, JsonPathItem item);

/* Add the names in the subscripts of an array. */
static bool
add_names_of_subscripts(VjsonWanted *wanted, JsonPathItem *item)
{
	for (int i = 0; i < item->content.array.nelems; i++)
	{
		JsonPathItem from;
		JsonPathItem to;
		bool		is_range = jspGetArraySubscript(item, &from, &to, i);

		if (!add_names(wanted, from) || (is_range && !add_names(wanted, to)))
			return false;
	}
	return true;
}

/* Add the names in the item. False if it looks at members whatever their names, or isn't known here. */
static bool
add_names_of_item(VjsonWanted *wanted, JsonPathItem *item)
{
	JsonPathItem part;

	switch (item->type)
	{
		case jpiNull:
		case jpiString:
		case jpiNumeric:
		case jpiBool:
		case jpiVariable:
		case jpiRoot:
		case jpiCurrent:
		case jpiLast:
		case jpiAnyArray:
		case jpiType:
		case jpiSize:
		case jpiAbs:
		case jpiFloor:
		case jpiCeiling:
		case jpiDouble:
		case jpiDatetime:
			return true;
		case jpiKey:
			return vjson_want_name(wanted, name_of_item(item));
		case jpiAnd:
		case jpiOr:
		case jpiEqual:
		case jpiNotEqual:
		case jpiLess:
		case jpiGreater:
		case jpiLessOrEqual:
		case jpiGreaterOrEqual:
		case jpiAdd:
		case jpiSub:
		case jpiMul:
		case jpiDiv:
		case jpiMod:
		case jpiStartsWith:
			jspGetLeftArg(item, &part);
			if (!add_names(wanted, part))
				return false;
			jspGetRightArg(item, &part);
			return add_names(wanted, part);
		case jpiNot:
		case jpiIsUnknown:
		case jpiPlus:
		case jpiMinus:
		case jpiFilter:
		case jpiExists:
			jspGetArg(item, &part);
			return add_names(wanted, part);
		case jpiLikeRegex:
			jspInitByBuffer(&part, item->base, item->content.like_regex.expr);
			return add_names(wanted, part);
		case jpiIndexArray:
			return add_names_of_subscripts(wanted, item);
		default:
			return false;
	}
}

/* Add the names in the item and in those that follow it. */
static bool
add_names(VjsonWanted *wanted, JsonPathItem item)
{
	JsonPathItem next;

	check_stack_depth();
	while (add_names_of_item(wanted, &item))
	{
		if (!jspGetNext(&item, &next))
			return true;
		item = next;
	}
	return false;
}

/*
 * Keep the steps that lead from the document to the parts that the jsonpath
 * answers, as far as names say them.  What doesn't begin at the document
 * answers with none of its parts.  False if there are too many.
 */
static bool
know_steps(KnownPath *known, JsonPathItem item)
{
	JsonPathItem next;

	known->steps = item.type == jpiRoot ? 0 : NO_STEPS;
	known->is_names = known->steps == 0;
	while (known->steps >= 0 && jspGetNext(&item, &next))
	{
		item = next;
		known->is_names &= item.type == jpiKey;
		if (item.type == jpiAnyArray || item.type == jpiIndexArray || item.type == jpiFilter)
			continue;
		if (item.type != jpiKey)
			break;
		if (known->steps == MOST_NAMES)
		{
			known->is_names = false;
			return false;
		}
		known->wanted.step[known->steps++] = name_of_item(&item);
	}
	return true;
}

/* Keep which members the jsonpath looks at. */
static void
know_path(VjsonKept *kept, struct varlena *path, bool answers_parts)
{
	KnownPath  *known = (KnownPath *) kept;
	JsonPath   *whole = (JsonPath *) path;
	JsonPathItem item;

	jspInit(&item, whole);
	known->wanted.count = 0;
	known->wants_all = !add_names(&known->wanted, item);
	if (!know_steps(known, item) || known->steps == 0)
		known->wants_all |= answers_parts;
	known->wanted.steps = answers_parts ? known->steps : NO_STEPS;
	known->is_lax = (whole->header & JSONPATH_LAX) != 0;
}

/* What is known of the jsonpath that is the second argument. */
static const KnownPath *
known_path(FunctionCallInfo fcinfo, bool answers_parts)
{
	return vjson_keep(fcinfo, PG_GETARG_VARLENA_P(1), sizeof(KnownPath), know_path, answers_parts);
}

/* Which members it looks at. NULL for all. */
static const VjsonWanted *
wanted_by_path(FunctionCallInfo fcinfo, bool answers_parts)
{
	const KnownPath *known = known_path(fcinfo, answers_parts);

	return known->wants_all ? NULL : &known->wanted;
}

/*
 * Follow the names of a jsonpath that has nothing else.  Where it leads to what
 * isn't an object, or to no member and that is an error, the server's function
 * goes on; and also where the third argument has to be rejected.
 */
static Finding
find_by_names(FunctionCallInfo fcinfo, const KnownPath *known, Document *document, Range *part)
{
	Document	at;

	if (!known->is_names)
		return UNKNOWN;
	if (PG_NARGS() > 2 && kind_of(get_key(PG_GETARG_VARLENA_PP(2))) != VIZHONIKU_OBJECT)
		return UNKNOWN;
	*document = get_document(PG_GETARG_VARLENA_PP(0));
	at = *document;
	for (int i = 0; i < known->steps; i++)
	{
		if (kind_of(at.key) != VIZHONIKU_OBJECT)
			return UNKNOWN;
		if (!find_member(&at, known->wanted.step[i], part))
			return known->is_lax ? NOT_THERE : UNKNOWN;
		at = document_of_key(*part);
	}
	*part = at.key;
	return FOUND;
}


/*
 * jsonpath
 */

/* What a function answers that answers with no part of the document. */
static Datum
answer_by_path(FunctionCallInfo fcinfo, PGFunction function)
{
	return call_by_jsonb(fcinfo, function, FIRST | THIRD, wanted_by_path(fcinfo, false));
}

/* Whether the jsonpath finds a part. */
static Datum
existence_by_path(FunctionCallInfo fcinfo, PGFunction function)
{
	Document	document;
	Range		part;
	Finding		finding = find_by_names(fcinfo, known_path(fcinfo, false), &document, &part);

	if (finding != UNKNOWN)
		PG_RETURN_BOOL(finding == FOUND);
	return answer_by_path(fcinfo, function);
}

static Datum
document_by_path(FunctionCallInfo fcinfo, PGFunction function)
{
	Datum		answer = call_by_jsonb(fcinfo, function, FIRST | THIRD, wanted_by_path(fcinfo, true));

	return fcinfo->isnull ? answer : vjson_of_jsonb(answer);
}

static Datum
first_by_path(FunctionCallInfo fcinfo, PGFunction function)
{
	Document	document;
	Range		part;

	switch (find_by_names(fcinfo, known_path(fcinfo, true), &document, &part))
	{
		case FOUND:
			PG_RETURN_POINTER(vjson_part(&document, part));
		case NOT_THERE:
			PG_RETURN_NULL();
		default:
			return document_by_path(fcinfo, function);
	}
}

/* Put each item of the array that the server's function answers into the set that is answered. */
static Datum
rows_by_path(FunctionCallInfo fcinfo, PGFunction function)
{
	ReturnSetInfo *set = (ReturnSetInfo *) fcinfo->resultinfo;
	Datum		array = call_by_jsonb(fcinfo, function, FIRST | THIRD, wanted_by_path(fcinfo, true));
	JsonbContainer *items = &DatumGetJsonbP(array)->root;
	MemoryContext caller = CurrentMemoryContext;
	MemoryContext row = AllocSetContextCreate(caller, "an item of a jsonpath", ALLOCSET_DEFAULT_SIZES);

	InitMaterializedSRF(fcinfo, MAT_SRF_USE_EXPECTED_DESC | MAT_SRF_BLESS);
	for (uint32 i = 0; i < JsonContainerSize(items); i++)
	{
		Datum		document;
		bool		is_null = false;

		CHECK_FOR_INTERRUPTS();
		MemoryContextSwitchTo(row);
		document = vjson_of_item(items, i);
		tuplestore_putvalues(set->setResult, set->setDesc, &document, &is_null);
		MemoryContextSwitchTo(caller);
		MemoryContextReset(row);
	}
	MemoryContextDelete(row);
	PG_RETURN_NULL();
}

#define BY_PATH(name, how, function) \
PG_FUNCTION_INFO_V1(name); \
Datum \
name(PG_FUNCTION_ARGS) \
{ \
	return how(fcinfo, function); \
}

BY_PATH(vjson_path_exists_opr, existence_by_path, jsonb_path_exists_opr)
BY_PATH(vjson_path_match_opr, answer_by_path, jsonb_path_match_opr)
BY_PATH(vjson_path_exists, existence_by_path, jsonb_path_exists)
BY_PATH(vjson_path_exists_tz, existence_by_path, jsonb_path_exists_tz)
BY_PATH(vjson_path_match, answer_by_path, jsonb_path_match)
BY_PATH(vjson_path_match_tz, answer_by_path, jsonb_path_match_tz)
BY_PATH(vjson_path_query, rows_by_path, jsonb_path_query_array)
BY_PATH(vjson_path_query_tz, rows_by_path, jsonb_path_query_array_tz)
BY_PATH(vjson_path_query_array, document_by_path, jsonb_path_query_array)
BY_PATH(vjson_path_query_array_tz, document_by_path, jsonb_path_query_array_tz)
BY_PATH(vjson_path_query_first, first_by_path, jsonb_path_query_first)
BY_PATH(vjson_path_query_first_tz, first_by_path, jsonb_path_query_first_tz)


/*
 * Text search
 */

#define BY_WORDS(name, function, documents) \
PG_FUNCTION_INFO_V1(name); \
Datum \
name(PG_FUNCTION_ARGS) \
{ \
	return call_by_jsonb(fcinfo, function, documents, NULL); \
}

BY_WORDS(vjson_string_to_tsvector, jsonb_string_to_tsvector, FIRST)
BY_WORDS(vjson_string_to_tsvector_byid, jsonb_string_to_tsvector_byid, SECOND)
BY_WORDS(vjson_to_tsvector, jsonb_to_tsvector, FIRST | SECOND)
BY_WORDS(vjson_to_tsvector_byid, jsonb_to_tsvector_byid, SECOND | THIRD)

/* The document with the words that are found marked. */
#define MARKED(name, function, documents) \
PG_FUNCTION_INFO_V1(name); \
Datum \
name(PG_FUNCTION_ARGS) \
{ \
	return vjson_of_jsonb(call_by_jsonb(fcinfo, function, documents, NULL)); \
}

MARKED(ts_headline_vjson, ts_headline_jsonb, FIRST)
MARKED(ts_headline_vjson_opt, ts_headline_jsonb_opt, FIRST)
MARKED(ts_headline_vjson_byid, ts_headline_jsonb_byid, SECOND)
MARKED(ts_headline_vjson_byid_opt, ts_headline_jsonb_byid_opt, SECOND)
