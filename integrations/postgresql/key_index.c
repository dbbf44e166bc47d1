/*-------------------------------------------------------------------------
 *
 * key_index.c
 *	  Support for GIN: the operator classes vjson_path_ops and vjson_ops.
 *
 * An entry of vjson_path_ops is a hash of a scalar's key and of the names of the members that
 * lead to it.  Items have no index in it, so that an array leads to the same
 * entries in whatever order its items are.  A document that contains another
 * has all of the other's entries, and so has one that is equal to it; which of
 * those that have them do is determined by the operator.  Empty arrays and objects
 * have no entries: what has none is looked for in the whole index.
 *
 * vjson_ops has these entries, and hashes of the names that ? finds: of the
 * members of an object, and of the strings that are items of an array or the
 * document itself.
 *
 *-------------------------------------------------------------------------
 */
#include "postgres.h"

#include "access/gin.h"
#include "access/stratnum.h"
#include "catalog/pg_type.h"
#include "common/hashfn.h"
#include "fmgr.h"
#include "miscadmin.h"
#include "utils/array.h"
#include "utils/builtins.h"
#include "utils/jsonb.h"

#include "key_walk.h"
#include "vjson.h"

/* Entries for which there is space at first. */
#define FIRST_ROOM		16

/* What distinguishes the hash of a name that ? finds from other entries. */
#define NAME_SEED		UINT64CONST(0x6E616D65)

PG_FUNCTION_INFO_V1(gin_extract_vjson_path);
PG_FUNCTION_INFO_V1(gin_extract_vjson_query_path);
PG_FUNCTION_INFO_V1(gin_consistent_vjson_path);
PG_FUNCTION_INFO_V1(gin_triconsistent_vjson_path);
PG_FUNCTION_INFO_V1(gin_extract_vjson);
PG_FUNCTION_INFO_V1(gin_extract_vjson_query);
PG_FUNCTION_INFO_V1(gin_consistent_vjson);
PG_FUNCTION_INFO_V1(gin_triconsistent_vjson);

typedef struct
{
	Datum	   *at;
	int32		count;
	int32		capacity;
} Entries;

/* The hash of a path and of what comes next on it: a name's key, or a scalar's. */
static inline uint64
hash_on(uint64 path, Range key)
{
	return hash_bytes_extended(key.at, (int) key.size, path);
}

static inline void
add_entry(Entries *entries, uint64 hash)
{
	if (entries->count == entries->capacity)
	{
		entries->capacity *= 2;
		entries->at = repalloc_huge(entries->at, entries->capacity * sizeof(Datum));
	}
	entries->at[entries->count++] = Int32GetDatum((int32) hash);
}

/* Add the entries of the scalars in a key. */
static void
add_entries(Entries *entries, Range key)
{
	uint64		paths[MOST_LEVELS + 1]; /* to the whole, and to what is open in it, outermost first */
	struct vizhoniku_walk walk;
	struct vizhoniku_event event;
	uint32		status = vizhoniku_walk_begin(key.at, key.size, &walk, &event);

	paths[0] = 0;
	for (; is_found(status); status = vizhoniku_walk_next(key.at, key.size, &walk, &event))
	{
		Range		name = {key.at + event.name_offset, event.name_size};
		Range		value = {key.at + event.offset, event.size};
		bool		opens = event.kind == VIZHONIKU_ARRAY || event.kind == VIZHONIKU_OBJECT;
		uint64		path = paths[walk.depth - opens];

		CHECK_FOR_INTERRUPTS();
		if (name.size > 0)
			path = hash_on(path, name);
		if (opens)
			paths[walk.depth] = path;
		else if (event.kind != VIZHONIKU_NO_KIND)
			add_entry(entries, hash_on(path, value));
	}
}

int32
vjson_name_entry(Range name)
{
	return (int32) hash_bytes_extended(name.at, (int) name.size, NAME_SEED);
}

/* Add the names that ? finds. */
static void
add_names(Entries *entries, Range key)
{
	uint32		kind = kind_of(key);
	Range		name = {key.at + 1, key.size - 1};
	Walk		walk;

	if (kind == VIZHONIKU_STRING)
		add_entry(entries, vjson_name_entry(name));
	if (is_scalar(kind))
		return;
	begin_walk(&walk, key);
	while (next_in_walk(&walk))
	{
		CHECK_FOR_INTERRUPTS();
		if (name_in_walk(&walk, &name))
			add_entry(entries, vjson_name_entry(name));
	}
}

/* The entries of a document.  Those that come twice are the server's to drop. */
Datum *
vjson_entries(Datum document, int32 *count)
{
	Entries		entries = {palloc(FIRST_ROOM * sizeof(Datum)), 0, FIRST_ROOM};

	add_entries(&entries, key_of_datum(document));
	*count = entries.count;
	return entries.at;
}

Datum *
vjson_name_entries(Datum document, int32 *count)
{
	Entries		entries = {palloc(FIRST_ROOM * sizeof(Datum)), 0, FIRST_ROOM};

	add_names(&entries, key_of_datum(document));
	*count = entries.count;
	return entries.at;
}


/*
 * vjson_path_ops
 */

Datum
gin_extract_vjson_path(PG_FUNCTION_ARGS)
{
	int32	   *count = (int32 *) PG_GETARG_POINTER(1);

	PG_RETURN_POINTER(vjson_entries(PG_GETARG_DATUM(0), count));
}

Datum
gin_extract_vjson_query_path(PG_FUNCTION_ARGS)
{
	int32	   *count = (int32 *) PG_GETARG_POINTER(1);
	int32	   *search_mode = (int32 *) PG_GETARG_POINTER(6);
	Datum	   *entries = vjson_entries(PG_GETARG_DATUM(0), count);

	if (*count == 0)
		*search_mode = GIN_SEARCH_MODE_ALL;
	PG_RETURN_POINTER(entries);
}

static void
check_strategy(StrategyNumber strategy)
{
	if (strategy != RTContainsStrategyNumber && strategy != RTEqualStrategyNumber)
		elog(ERROR, "unrecognized strategy number: %d", strategy);
}

/* Whether a document with some of the query's entries may be one that is asked for: where it has all of them. */
Datum
gin_consistent_vjson_path(PG_FUNCTION_ARGS)
{
	bool	   *is_there = (bool *) PG_GETARG_POINTER(0);
	int32		count = PG_GETARG_INT32(3);
	bool	   *recheck = (bool *) PG_GETARG_POINTER(5);

	check_strategy(PG_GETARG_UINT16(1));
	*recheck = true;
	for (int32 i = 0; i < count; i++)
	{
		if (!is_there[i])
			PG_RETURN_BOOL(false);
	}
	PG_RETURN_BOOL(true);
}

/* That, where of some entries it isn't known whether they are there. */
Datum
gin_triconsistent_vjson_path(PG_FUNCTION_ARGS)
{
	GinTernaryValue *is_there = (GinTernaryValue *) PG_GETARG_POINTER(0);
	int32		count = PG_GETARG_INT32(3);

	check_strategy(PG_GETARG_UINT16(1));
	for (int32 i = 0; i < count; i++)
	{
		if (is_there[i] == GIN_FALSE)
			PG_RETURN_GIN_TERNARY_VALUE(GIN_FALSE);
	}
	PG_RETURN_GIN_TERNARY_VALUE(GIN_MAYBE);
}


/*
 * vjson_ops
 */

Datum
gin_extract_vjson(PG_FUNCTION_ARGS)
{
	int32	   *count = (int32 *) PG_GETARG_POINTER(1);
	Entries		entries = {palloc(FIRST_ROOM * sizeof(Datum)), 0, FIRST_ROOM};
	Range		key = get_key(PG_GETARG_VARLENA_PP(0));

	add_entries(&entries, key);
	add_names(&entries, key);
	*count = entries.count;
	PG_RETURN_POINTER(entries.at);
}

/* The entries of names that are looked for; a NULL among them is passed over. */
static Datum *
entries_of_names(ArrayType *array, int32 *count)
{
	Datum	   *names;
	bool	   *nulls;
	int			all;

	deconstruct_array(array, TEXTOID, -1, false, TYPALIGN_INT, &names, &nulls, &all);
	*count = 0;
	for (int i = 0; i < all; i++)
	{
		if (!nulls[i])
			names[(*count)++] = Int32GetDatum(vjson_name_entry(name_as_in_key(DatumGetTextPP(names[i]))));
	}
	return names;
}

/* A document that has the entries of a query also has the names before them: these are looked for where it has none. */
Datum
gin_extract_vjson_query(PG_FUNCTION_ARGS)
{
	int32	   *count = (int32 *) PG_GETARG_POINTER(1);
	StrategyNumber strategy = PG_GETARG_UINT16(2);
	int32	   *search_mode = (int32 *) PG_GETARG_POINTER(6);
	Datum	   *entries;

	switch (strategy)
	{
		case JsonbExistsStrategyNumber:
			entries = palloc(sizeof(Datum));
			entries[0] = Int32GetDatum(vjson_name_entry(name_as_in_key(PG_GETARG_TEXT_PP(0))));
			*count = 1;
			PG_RETURN_POINTER(entries);
		case JsonbExistsAnyStrategyNumber:
			PG_RETURN_POINTER(entries_of_names(PG_GETARG_ARRAYTYPE_P(0), count));
		case JsonbExistsAllStrategyNumber:
			entries = entries_of_names(PG_GETARG_ARRAYTYPE_P(0), count);
			break;
		default:
			check_strategy(strategy);
			entries = vjson_entries(PG_GETARG_DATUM(0), count);
			if (*count == 0)
				entries = vjson_name_entries(PG_GETARG_DATUM(0), count);
	}
	if (*count == 0)
		*search_mode = GIN_SEARCH_MODE_ALL;
	PG_RETURN_POINTER(entries);
}

/* Whether one entry is enough, and else all have to be there. */
static bool
is_one_enough(StrategyNumber strategy)
{
	if (strategy == JsonbExistsAnyStrategyNumber)
		return true;
	if (strategy != JsonbExistsStrategyNumber && strategy != JsonbExistsAllStrategyNumber)
		check_strategy(strategy);
	return false;
}

Datum
gin_consistent_vjson(PG_FUNCTION_ARGS)
{
	bool	   *is_there = (bool *) PG_GETARG_POINTER(0);
	bool		one_is_enough = is_one_enough(PG_GETARG_UINT16(1));
	int32		count = PG_GETARG_INT32(3);
	bool	   *recheck = (bool *) PG_GETARG_POINTER(5);

	*recheck = true;
	for (int32 i = 0; i < count; i++)
	{
		if (is_there[i] == one_is_enough)
			PG_RETURN_BOOL(one_is_enough);
	}
	PG_RETURN_BOOL(!one_is_enough);
}

/* That, where of some entries it isn't known whether they are there. */
Datum
gin_triconsistent_vjson(PG_FUNCTION_ARGS)
{
	GinTernaryValue *is_there = (GinTernaryValue *) PG_GETARG_POINTER(0);
	bool		one_is_enough = is_one_enough(PG_GETARG_UINT16(1));
	int32		count = PG_GETARG_INT32(3);

	for (int32 i = 0; i < count; i++)
	{
		if ((is_there[i] != GIN_FALSE) == one_is_enough)
			PG_RETURN_GIN_TERNARY_VALUE(one_is_enough ? GIN_MAYBE : GIN_FALSE);
	}
	PG_RETURN_GIN_TERNARY_VALUE(one_is_enough ? GIN_FALSE : GIN_MAYBE);
}
