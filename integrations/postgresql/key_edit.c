/*-------------------------------------------------------------------------
 *
 * key_edit.c
 *	  Documents changed, by the library.
 *
 * The names, the arguments and the NULLs of the functions are those of jsonb.
 *
 *-------------------------------------------------------------------------
 */
#include "postgres.h"

#include "catalog/pg_type.h"
#include "fmgr.h"
#include "lib/stringinfo.h"
#include "miscadmin.h"
#include "utils/array.h"
#include "utils/builtins.h"
#include "utils/json.h"
#include "utils/memutils.h"

#include "key_walk.h"
#include "vjson.h"

PG_FUNCTION_INFO_V1(vjson_concat);
PG_FUNCTION_INFO_V1(vjson_delete);
PG_FUNCTION_INFO_V1(vjson_delete_idx);
PG_FUNCTION_INFO_V1(vjson_delete_array);
PG_FUNCTION_INFO_V1(vjson_delete_path);
PG_FUNCTION_INFO_V1(vjson_set);
PG_FUNCTION_INFO_V1(vjson_set_lax);
PG_FUNCTION_INFO_V1(vjson_insert);
PG_FUNCTION_INFO_V1(vjson_strip_nulls);

/* A change of a document, as the library makes it. */
typedef struct
{
	enum
	{
		SET, INSERT, REMOVE, WITHOUT, WITHOUT_NULLS, MERGE
	}			what;
	Range		path;
	Document	part;			/* what is put there, whose names are left out, or what is merged */
	bool		flag;			/* whether a part is made that isn't there yet, an item goes behind the one that is
								 * there, or items that are null are left out too */
	Document	document;
} Change;

static uint32
write_change(const void *arguments, unsigned char *buffer, size_t capacity, size_t *size)
{
	const Change *change = arguments;
	const unsigned char *whole = change->document.key.at;
	size_t		whole_size = change->document.size;
	Range		path = change->path;
	Range		part = {change->part.key.at, change->part.size};
	uint32		status;

	switch (change->what)
	{
		case SET:
			return vizhoniku_document_set(whole, whole_size, path.at, path.size, part.at, part.size, change->flag, buffer,
										  capacity, size);
		case INSERT:
			status = vizhoniku_document_insert(whole, whole_size, path.at, path.size, part.at, part.size, change->flag,
											   buffer, capacity, size);
			if (status == VIZHONIKU_PRESENT)
				ereport(ERROR,
						(errcode(ERRCODE_INVALID_PARAMETER_VALUE),
						 errmsg("cannot replace existing key"),
						 errhint("Try using the function vjson_set to replace key value.")));
			return status;
		case REMOVE:
			return vizhoniku_document_remove(whole, whole_size, path.at, path.size, buffer, capacity, size);
		case WITHOUT:
			return vizhoniku_document_without(whole, whole_size, part.at, part.size, buffer, capacity, size);
		case WITHOUT_NULLS:
			return vizhoniku_document_strip_nulls(whole, whole_size, change->flag, buffer, capacity, size);
		default:
			return vizhoniku_document_merge(whole, whole_size, part.at, part.size, buffer, capacity, size);
	}
}

/* What the change makes of its document; NULL if nothing changes. */
static struct varlena *
changed(const Change *change)
{
	size_t		capacity = change->document.size + change->path.size + change->part.size + SPARE_ROOM;
	size_t		size;
	char	   *block;

	CHECK_FOR_INTERRUPTS();
	block = vjson_written(write_change, change, VARHDRSZ, capacity, &size);
	return block != NULL ? vjson_value_with_table(block, Max(capacity, size), size) : NULL;
}

/* That, or the datum of the document if nothing changes. */
static Datum
changed_or(const Change *change, Datum datum)
{
	struct varlena *value = changed(change);

	return value != NULL ? PointerGetDatum(value) : datum;
}


/*
 * Functions
 */

vjson_noreturn static void
raise_wrong_kind(const char *words)
{
	ereport(ERROR, (errcode(ERRCODE_INVALID_PARAMETER_VALUE), errmsg("%s", words)));
}

/* The path of one step, which has the name. */
static Range
path_of_name(Range name)
{
	size_t		capacity = 2 * name.size + 1;
	unsigned char *path = palloc_extended(capacity, MCXT_ALLOC_HUGE);
	Range		result = {path, 0};

	is_found(vizhoniku_path_step(name.at, name.size, path, capacity, &result.size));
	return result;
}

/* Words as a string of JSON, with a zero byte at its end. */
static char *
json_string(text *words)
{
	StringInfoData out;

	initStringInfo(&out);
	escape_json(&out, text_to_cstring(words));
	return out.data;
}

static int
compare_words(const void *left, const void *right)
{
	return strcmp(*(char *const *) left, *(char *const *) right);
}

/* An object with a member for each of the names, where a NULL among them is passed over. */
static Document
object_of_names(const Datum *words, const bool *nulls, int count)
{
	char	  **names = palloc(Max(count, 1) * sizeof(char *));
	int			wanted = 0;
	StringInfoData object;
	const char *last = NULL;
	char	   *utf8;

	for (int i = 0; i < count; i++)
	{
		if (nulls == NULL || !nulls[i])
			names[wanted++] = json_string(DatumGetTextPP(words[i]));
	}
	qsort(names, wanted, sizeof(char *), compare_words);
	initStringInfo(&object);
	for (int i = 0; i < wanted; i++)
	{
		if (last != NULL && strcmp(names[i], last) == 0)
			continue;
		appendStringInfo(&object, "%s%s:null", last == NULL ? "{" : ",", names[i]);
		last = names[i];
	}
	appendStringInfoString(&object, last == NULL ? "{}" : "}");
	utf8 = pg_server_to_any(object.data, object.len, PG_UTF8);
	return get_document(vjson_of_text(utf8, strlen(utf8)));
}

/* The names that a function was passed, and the object that has them. */
typedef struct
{
	VjsonKept	names;
	Document	object;
} KnownNames;

/* Keep the object of the names: a text, or an array of texts. */
static void
know_names(VjsonKept *kept, struct varlena *names, bool is_array)
{
	Datum		name = PointerGetDatum(names);
	Datum	   *words = &name;
	bool	   *nulls = NULL;
	int			count = 1;

	if (is_array)
		deconstruct_array((ArrayType *) names, TEXTOID, -1, false, TYPALIGN_INT, &words, &nulls, &count);
	((KnownNames *) kept)->object = object_of_names(words, nulls, count);
}

/* The object that has the names of an argument. It is made where they aren't those of the call before. */
static Document
object_of_argument(FunctionCallInfo fcinfo, const struct varlena *names, bool is_array)
{
	return ((KnownNames *) vjson_keep(fcinfo, names, sizeof(KnownNames), know_names, is_array))->object;
}

Datum
vjson_concat(PG_FUNCTION_ARGS)
{
	Change		change = {MERGE, .document = document_of_datum(PG_GETARG_DATUM(0)),
	.part = document_of_datum(PG_GETARG_DATUM(1))};

	PG_RETURN_POINTER(changed(&change));
}

Datum
vjson_delete(PG_FUNCTION_ARGS)
{
	Datum		datum = PG_GETARG_DATUM(0);
	text	   *name = PG_GETARG_TEXT_PP(1);
	Change		change = {REMOVE, .document = document_of_datum(datum)};
	uint32		kind = kind_of(change.document.key);

	if (is_scalar(kind))
		raise_wrong_kind("cannot delete from scalar");
	if (kind == VIZHONIKU_OBJECT)
		change.path = path_of_name(utf8_of(name));
	else
	{
		change.what = WITHOUT;
		change.part = object_of_argument(fcinfo, name, false);
	}
	return changed_or(&change, datum);
}

Datum
vjson_delete_array(PG_FUNCTION_ARGS)
{
	Datum		datum = PG_GETARG_DATUM(0);
	ArrayType  *array = PG_GETARG_ARRAYTYPE_P(1);
	Change		change = {WITHOUT, .document = document_of_datum(datum)};

	if (ARR_NDIM(array) > 1)
		ereport(ERROR, (errcode(ERRCODE_ARRAY_SUBSCRIPT_ERROR), errmsg("wrong number of array subscripts")));
	if (is_scalar(kind_of(change.document.key)))
		raise_wrong_kind("cannot delete from scalar");
	change.part = object_of_argument(fcinfo, (struct varlena *) array, true);
	return changed_or(&change, datum);
}

Datum
vjson_delete_idx(PG_FUNCTION_ARGS)
{
	Datum		datum = PG_GETARG_DATUM(0);
	char		path[16];
	Change		change = {REMOVE, .path.at = (unsigned char *) path, .document = document_of_datum(datum)};
	uint32		kind = kind_of(change.document.key);

	if (is_scalar(kind))
		raise_wrong_kind("cannot delete from scalar");
	if (kind == VIZHONIKU_OBJECT)
		raise_wrong_kind("cannot delete from object using integer index");
	change.path.size = snprintf(path, sizeof(path), "/%d", PG_GETARG_INT32(1));
	return changed_or(&change, datum);
}

Datum
vjson_delete_path(PG_FUNCTION_ARGS)
{
	Datum		datum = PG_GETARG_DATUM(0);
	Change		change = {REMOVE, .path = utf8_of(PG_GETARG_TEXT_PP(1)), .document = document_of_datum(datum)};

	if (is_scalar(kind_of(change.document.key)))
		raise_wrong_kind("cannot delete path in scalar");
	return changed_or(&change, datum);
}

static Datum
set_part(Datum datum, text *path, Datum part, bool create)
{
	Change		change = {SET, .path = utf8_of(path), .part = document_of_datum(part), .flag = create,
	.document = document_of_datum(datum)};

	if (is_scalar(kind_of(change.document.key)))
		raise_wrong_kind("cannot set path in scalar");
	return changed_or(&change, datum);
}

Datum
vjson_set(PG_FUNCTION_ARGS)
{
	return set_part(PG_GETARG_DATUM(0), PG_GETARG_TEXT_PP(1), PG_GETARG_DATUM(2), PG_GETARG_BOOL(3));
}

/* The last argument says what a part that is NULL does. */
Datum
vjson_set_lax(PG_FUNCTION_ARGS)
{
	const char *treatment = "";

	if (PG_ARGISNULL(0) || PG_ARGISNULL(1) || PG_ARGISNULL(3))
		PG_RETURN_NULL();
	if (!PG_ARGISNULL(4))
	{
		if (!PG_ARGISNULL(2))
			return vjson_set(fcinfo);
		treatment = text_to_cstring(PG_GETARG_TEXT_PP(4));
	}
	if (strcmp(treatment, "use_json_null") == 0)
		return set_part(PG_GETARG_DATUM(0), PG_GETARG_TEXT_PP(1), PointerGetDatum(vjson_of_text("null", 4)),
						PG_GETARG_BOOL(3));
	if (strcmp(treatment, "delete_key") == 0)
		return vjson_delete_path(fcinfo);
	if (strcmp(treatment, "return_target") == 0)
		PG_RETURN_DATUM(PG_GETARG_DATUM(0));
	if (strcmp(treatment, "raise_exception") == 0)
		ereport(ERROR,
				(errcode(ERRCODE_NULL_VALUE_NOT_ALLOWED),
				 errmsg("JSON value must not be null"),
				 errdetail("Exception was raised because null_value_treatment is \"raise_exception\"."),
				 errhint("To avoid, either change the null_value_treatment argument or ensure that an SQL NULL is not "
						 "passed.")));
	ereport(ERROR,
			(errcode(ERRCODE_INVALID_PARAMETER_VALUE),
			 errmsg("null_value_treatment must be \"delete_key\", \"return_target\", \"use_json_null\", or "
					"\"raise_exception\"")));
}


Datum
vjson_insert(PG_FUNCTION_ARGS)
{
	Datum		datum = PG_GETARG_DATUM(0);
	Change		change = {INSERT, .path = utf8_of(PG_GETARG_TEXT_PP(1)), .part = document_of_datum(PG_GETARG_DATUM(2)),
	.flag = PG_GETARG_BOOL(3), .document = document_of_datum(datum)};

	if (is_scalar(kind_of(change.document.key)))
		raise_wrong_kind("cannot set path in scalar");
	return changed_or(&change, datum);
}

/* Without the members that are null, and the items too where that is asked for. */
Datum
vjson_strip_nulls(PG_FUNCTION_ARGS)
{
	Change		change = {WITHOUT_NULLS, .flag = PG_GETARG_BOOL(1), .document = document_of_datum(PG_GETARG_DATUM(0))};

	return changed_or(&change, PG_GETARG_DATUM(0));
}


/*
 * Assignments to subscripts
 */

/* The index that a step has: decimal digits, with a sign or without. */
static bool
index_of_words(const VjsonStep *step, int64 *index)
{
	const char *words = text_to_cstring(step->words);
	char	   *end;

	errno = 0;
	*index = strtol(words, &end, 10);
	return end != words && *end == '\0' && errno == 0 && *index >= PG_INT32_MIN && *index <= PG_INT32_MAX;
}

bool
vjson_take_step(const Document *whole, const VjsonStep *step, Range *part)
{
	int64		index;

	switch (kind_of(whole->key))
	{
		case VIZHONIKU_OBJECT:
			return find_member(whole, step->name, part);
		case VIZHONIKU_ARRAY:
			return index_of_words(step, &index) && find_item(whole->key, index, part);
		default:
			return false;
	}
}

/* The index of a step in an array of so many items, from the front. */
static int64
slot_of_step(const VjsonStep *step, int number, size_t count)
{
	int64		index;

	if (!index_of_words(step, &index))
		ereport(ERROR,
				(errcode(ERRCODE_INVALID_TEXT_REPRESENTATION),
				 errmsg("path element at position %d is not an integer: \"%s\"", number + 1,
						text_to_cstring(step->words))));
	if (index < 0 && -index > (int64) count)
		ereport(ERROR,
				(errcode(ERRCODE_INVALID_PARAMETER_VALUE),
				 errmsg("path element at position %d is out of range: " INT64_FORMAT, number + 1, index)));
	return index < 0 ? index + (int64) count : index;
}

/* Append so many nulls and the value as items. */
static void
append_items(StringInfo out, int64 nulls, const char *value, size_t size)
{
	for (int64 i = 0; i < nulls; i++)
	{
		CHECK_FOR_INTERRUPTS();
		appendStringInfoString(out, "null,");
	}
	appendBinaryStringInfo(out, value, (int) size);
}

/* The text of the arrays and objects that the steps lead into, with the value at their end. */
static StringInfoData
wrapped_in_steps(const VjsonStep *steps, int count, const char *value, size_t size)
{
	StringInfoData out;

	initStringInfo(&out);
	appendBinaryStringInfo(&out, value, (int) size);
	while (count-- > 0)
	{
		StringInfoData inner = out;
		int64		index;

		initStringInfo(&out);
		if (index_of_words(&steps[count], &index))
		{
			appendStringInfoChar(&out, '[');
			append_items(&out, index, inner.data, inner.len);
			appendStringInfoChar(&out, ']');
		}
		else
		{
			appendStringInfoChar(&out, '{');
			escape_json(&out, pnstrdup((const char *) steps[count].name.at, steps[count].name.size));
			appendStringInfoChar(&out, ':');
			appendBinaryStringInfo(&out, inner.data, inner.len);
			appendStringInfoChar(&out, '}');
		}
		pfree(inner.data);
	}
	return out;
}

/*
 * Follow the steps as far as there are parts.  The answer is how many lead to
 * what is there, with one more where the next one leads to an object that has
 * no such member, or behind the items of an array: *gap is how many items are
 * missing there, and -1 where it isn't such an array.
 */
static int
follow_steps(Range *at, const VjsonStep *steps, int count, StringInfo path, int64 *gap)
{
	*gap = -1;
	for (int taken = 0; taken < count; taken++)
	{
		const VjsonStep *step = &steps[taken];
		uint32		kind = kind_of(*at);
		Range		next;

		if (is_scalar(kind))
			ereport(ERROR,
					(errcode(ERRCODE_INVALID_PARAMETER_VALUE),
					 errmsg("cannot replace existing key"),
					 errdetail("The path assumes key is a composite object, but it is a scalar value.")));
		if (kind == VIZHONIKU_ARRAY)
		{
			size_t		items;
			int64		index;

			if (!is_found(vizhoniku_key_count(at->at, at->size, &items)))
				vjson_raise_corrupted();
			index = slot_of_step(step, taken, items);
			if (index >= (int64) items)
			{
				*gap = index - (int64) items;
				return taken;
			}
			appendStringInfo(path, "/" INT64_FORMAT, index);
			if (!find_item(*at, index, &next))
				return taken;
		}
		else
		{
			Range		added = path_of_name(step->name);
			Document	object = document_of_key(*at);

			appendBinaryStringInfo(path, (const char *) added.at, (int) added.size);
			if (!find_member(&object, step->name, &next))
				return taken;
		}
		*at = next;
	}
	return count;
}

/* The part in the arrays and objects that the steps lead into. */
static Document
wrapped(Document part, const VjsonStep *steps, int count)
{
	size_t		size;
	const char *text;
	StringInfoData made;

	if (count <= 0)
		return part;
	text = vjson_text(&part, &size);
	made = wrapped_in_steps(steps, count, text, size);
	return get_document(vjson_of_text(made.data, made.len));
}

/* The array with the part behind so many nulls more. */
static struct varlena *
extended(Document array, int64 nulls, Document part)
{
	size_t		size;
	const char *text = vjson_text(&part, &size);
	StringInfoData items;
	Change		merge = {MERGE, .document = array};

	initStringInfo(&items);
	appendStringInfoChar(&items, '[');
	append_items(&items, nulls, text, size);
	appendStringInfoChar(&items, ']');
	merge.part = get_document(vjson_of_text(items.data, items.len));
	return changed(&merge);
}

Datum
vjson_assign(Datum datum, const VjsonStep *steps, int count, Datum part)
{
	Change		change = {SET, .flag = true, .document = document_of_datum(datum)};
	Range		at = change.document.key;
	StringInfoData path;
	int64		gap;
	int			taken;

	initStringInfo(&path);
	taken = follow_steps(&at, steps, count, &path, &gap);
	change.part = wrapped(document_of_datum(part), steps + taken + 1, count - taken - 1);
	if (gap >= 0)
	{
		struct varlena *array = extended(get_document(vjson_part(&change.document, at)), gap, change.part);

		if (path.len == 0)
			return PointerGetDatum(array);
		change.part = get_document(array);
	}
	change.path.at = (unsigned char *) path.data;
	change.path.size = path.len;
	return changed_or(&change, datum);
}
