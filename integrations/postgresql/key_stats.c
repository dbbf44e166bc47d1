/*-------------------------------------------------------------------------
 *
 * key_stats.c
 *	  Statistics of documents, and what the planner expects of @>, ?, ?| and ?&
 *	  by them.
 *
 * ANALYZE keeps for each type that can be ordered its most common values and a
 * histogram, but not of values past 1,024 bytes.  For documents it also keeps
 * which entries are in many of them: those of a GIN index, which are hashes of
 * scalars and of the names that lead to them, and hashes of the names that ?
 * looks for.  So the rows with some part are expected for documents of each
 * size.
 *
 *-------------------------------------------------------------------------
 */
#include "postgres.h"

#include <math.h>

#include "access/detoast.h"
#include "access/htup_details.h"
#include "catalog/pg_operator.h"
#include "catalog/pg_statistic.h"
#include "catalog/pg_type.h"
#include "commands/vacuum.h"
#include "fmgr.h"
#include "miscadmin.h"
#include "utils/array.h"
#include "utils/builtins.h"
#include "utils/lsyscache.h"
#include "utils/memutils.h"
#include "utils/selfuncs.h"

#include "key_walk.h"
#include "vjson.h"

/*
 * The kind of these statistics, of those for private use.  The values are
 * entries in their order as integers, the numbers the share of the documents
 * that each is in; behind them is the share below which none is kept.
 */
#define KIND_ENTRIES	18574

/* How many entries are kept, for each one of the statistics target. */
#define KEPT_FOR_TARGET	10

/* How much of the sample is looked at: bytes of documents, and entries. */
#define MOST_BYTES		((Size) 64 * 1024 * 1024)
#define MOST_ENTRIES	((size_t) 4 * 1024 * 1024)

/* What is expected where nothing is known, as matchingsel has it. */
#define DEFAULT_SHARE	0.010

PG_FUNCTION_INFO_V1(vjson_typanalyze);
PG_FUNCTION_INFO_V1(vjson_matchingsel);


/*
 * Entries
 */

/* A set of hashes that grows. */
typedef struct
{
	int32	   *at;
	size_t		count;
	size_t		capacity;
} Hashes;

static void
add_hash(Hashes *hashes, int32 hash)
{
	if (hashes->count == hashes->capacity)
	{
		hashes->capacity = Max(64, 2 * hashes->capacity);
		hashes->at = hashes->at ? repalloc_huge(hashes->at, hashes->capacity * sizeof(int32)) :
			palloc_extended(hashes->capacity * sizeof(int32), MCXT_ALLOC_HUGE);
	}
	hashes->at[hashes->count++] = hash;
}

static int
compare_hashes(const void *left, const void *right)
{
	int32		one = *(const int32 *) left;
	int32		other = *(const int32 *) right;

	return (one > other) - (one < other);
}

/* Sort the hashes, and drop those that come twice. */
static void
sort_hashes(Hashes *hashes)
{
	size_t		kept = 0;

	if (hashes->count == 0)
		return;
	qsort(hashes->at, hashes->count, sizeof(int32), compare_hashes);
	for (size_t i = 1; i < hashes->count; i++)
	{
		if (hashes->at[i] != hashes->at[kept])
			hashes->at[++kept] = hashes->at[i];
	}
	hashes->count = kept + 1;
}

static void
add_all(Hashes *hashes, const Datum *entries, int32 count)
{
	for (int32 i = 0; i < count; i++)
		add_hash(hashes, DatumGetInt32(entries[i]));
}

static void
add_entries(Hashes *hashes, Datum document)
{
	int32		count;
	Datum	   *entries = vjson_entries(document, &count);

	add_all(hashes, entries, count);
}

static void
add_names_of(Hashes *hashes, Datum document)
{
	int32		count;
	Datum	   *entries = vjson_name_entries(document, &count);

	add_all(hashes, entries, count);
}


/*
 * What is kept
 */

/* What the server computes of a type that can be ordered, with what that needs. */
typedef struct
{
	AnalyzeAttrComputeStatsFunc compute;
	void	   *extra_data;
} Ordered;

/* An entry, and in how many documents it is. */
typedef struct
{
	int32		hash;
	int32		count;
} Counted;

static int
compare_by_count(const void *left, const void *right)
{
	const Counted *one = left;
	const Counted *other = right;

	if (one->count != other->count)
		return one->count > other->count ? -1 : 1;
	return (one->hash > other->hash) - (one->hash < other->hash);
}

static int
compare_by_hash(const void *left, const void *right)
{
	return compare_hashes(&((const Counted *) left)->hash, &((const Counted *) right)->hash);
}

/* The entries of the rows of the sample, or of some of them where these are long. *documents is of how many. */
static Hashes
entries_of_sample(VacAttrStats *stats, AnalyzeAttrFetchFunc fetch, int rows, int *documents)
{
	Hashes		hashes = {NULL, 0, 0};
	MemoryContext of_row = AllocSetContextCreate(CurrentMemoryContext, "a vjson to be analyzed", ALLOCSET_DEFAULT_SIZES);
	Size		bytes = 0;
	int			step;

	for (int row = 0; row < rows; row++)
	{
		bool		is_null;
		Datum		value = fetch(stats, row, &is_null);

		if (!is_null)
			bytes += toast_raw_datum_size(value);
	}
	step = 1 + (int) (bytes / MOST_BYTES);
	*documents = 0;
	for (int row = 0; row < rows && hashes.count < MOST_ENTRIES; row += step)
	{
		bool		is_null;
		Datum		value = fetch(stats, row, &is_null);
		Hashes		of_document = {NULL, 0, 0};
		MemoryContext caller;

		CHECK_FOR_INTERRUPTS();
		if (is_null)
			continue;
		caller = MemoryContextSwitchTo(of_row);
		add_entries(&of_document, value);
		add_names_of(&of_document, value);
		sort_hashes(&of_document);
		MemoryContextSwitchTo(caller);
		for (size_t i = 0; i < of_document.count; i++)
			add_hash(&hashes, of_document.at[i]);
		(*documents)++;
		MemoryContextReset(of_row);
	}
	MemoryContextDelete(of_row);
	return hashes;
}

/* Keep the entries that are in the most documents. */
static void
keep_entries(VacAttrStats *stats, int slot, Hashes *hashes, int documents, size_t most)
{
	Counted    *counted = palloc_extended(Max(hashes->count, 1) * sizeof(Counted), MCXT_ALLOC_HUGE);
	size_t		count = 0;
	size_t		kept;
	float4		below;
	MemoryContext caller;

	qsort(hashes->at, hashes->count, sizeof(int32), compare_hashes);
	for (size_t i = 0, next; i < hashes->count; i = next)
	{
		for (next = i + 1; next < hashes->count && hashes->at[next] == hashes->at[i]; next++)
			;
		if (next - i == 1)
			continue;			/* one document says little */
		counted[count].hash = hashes->at[i];
		counted[count++].count = (int32) (next - i);
	}
	qsort(counted, count, sizeof(Counted), compare_by_count);
	kept = Min(count, most);
	below = (kept < count ? (float4) counted[kept].count : 1.0f) / documents;
	qsort(counted, kept, sizeof(Counted), compare_by_hash);

	caller = MemoryContextSwitchTo(stats->anl_context);
	stats->stavalues[slot] = palloc(Max(kept, 1) * sizeof(Datum));
	stats->stanumbers[slot] = palloc((kept + 1) * sizeof(float4));
	MemoryContextSwitchTo(caller);
	for (size_t i = 0; i < kept; i++)
	{
		stats->stavalues[slot][i] = Int32GetDatum(counted[i].hash);
		stats->stanumbers[slot][i] = (float4) counted[i].count / documents;
	}
	stats->stanumbers[slot][kept] = below;
	stats->stakind[slot] = KIND_ENTRIES;
	stats->staop[slot] = Int4EqualOperator;
	stats->stacoll[slot] = InvalidOid;
	stats->numvalues[slot] = (int) kept;
	stats->numnumbers[slot] = (int) kept + 1;
	stats->statypid[slot] = INT4OID;
	stats->statyplen[slot] = sizeof(int32);
	stats->statypbyval[slot] = true;
	stats->statypalign[slot] = TYPALIGN_INT;
}

static void
compute_statistics(VacAttrStats *stats, AnalyzeAttrFetchFunc fetch, int rows, double total_rows)
{
	Ordered    *ordered = stats->extra_data;
	Hashes		hashes;
	int			documents;
	int			slot = 0;
#if PG_VERSION_NUM >= 170000
	int			target = stats->attstattarget;
#else
	int			target = stats->attr->attstattarget;
#endif

	stats->extra_data = ordered->extra_data;
	ordered->compute(stats, fetch, rows, total_rows);
	stats->extra_data = ordered;
	while (slot < STATISTIC_NUM_SLOTS && stats->stakind[slot] != 0)
		slot++;
	if (!stats->stats_valid || slot == STATISTIC_NUM_SLOTS)
		return;
	hashes = entries_of_sample(stats, fetch, rows, &documents);
	if (documents > 0)
		keep_entries(stats, slot, &hashes, documents, (size_t) KEPT_FOR_TARGET * Max(target, 1));
}

Datum
vjson_typanalyze(PG_FUNCTION_ARGS)
{
	VacAttrStats *stats = (VacAttrStats *) PG_GETARG_POINTER(0);
	Ordered    *ordered;

	if (!std_typanalyze(stats))
		PG_RETURN_BOOL(false);
	ordered = palloc(sizeof(Ordered));
	ordered->compute = stats->compute_stats;
	ordered->extra_data = stats->extra_data;
	stats->compute_stats = compute_statistics;
	stats->extra_data = ordered;
	PG_RETURN_BOOL(true);
}


/*
 * What is expected
 */

/* The share of the documents that have the entry. */
static double
share_of(const AttStatsSlot *kept, int32 hash)
{
	int			low = 0;
	int			high = kept->nvalues;

	while (low < high)
	{
		int			middle = low + (high - low) / 2;
		int32		found = DatumGetInt32(kept->values[middle]);

		if (found == hash)
			return kept->numbers[middle];
		if (found < hash)
			low = middle + 1;
		else
			high = middle;
	}
	return kept->numbers[kept->nvalues] / 2;
}

static int
compare_shares(const void *left, const void *right)
{
	double		one = *(const double *) left;
	double		other = *(const double *) right;

	return (one > other) - (one < other);
}

/*
 * The share of the documents that have all of the entries.  Parts of documents
 * depend on each other, as the name of an event on its being one, and so it is
 * between the product of the shares and the least of them: each next greater
 * one counts by the root of what the last one counts by.
 */
static double
share_of_all(const AttStatsSlot *kept, const Hashes *hashes)
{
	double	   *shares = palloc(Max(hashes->count, 1) * sizeof(double));
	double		result = 1;
	double		power = 1;

	for (size_t i = 0; i < hashes->count; i++)
		shares[i] = share_of(kept, hashes->at[i]);
	qsort(shares, hashes->count, sizeof(double), compare_shares);
	for (size_t i = 0; i < hashes->count && power > 0.01; i++, power /= 2)
		result *= pow(shares[i], power);
	return result;
}

static double
share_of_any(const AttStatsSlot *kept, const Hashes *hashes)
{
	double		none = 1;

	for (size_t i = 0; i < hashes->count; i++)
		none *= 1 - share_of(kept, hashes->at[i]);
	return 1 - none;
}

/* The share of the documents of which the operator is true. False if the entries don't say it. */
static bool
share_by_entries(const AttStatsSlot *kept, const char *operator, bool is_left, const Const *other, double *share)
{
	Hashes		hashes = {NULL, 0, 0};

	if (strcmp(operator, is_left ? "@>" : "<@") == 0)
	{
		/* What has an entry has the names before it, too. */
		add_entries(&hashes, other->constvalue);
		if (hashes.count == 0)
			add_names_of(&hashes, other->constvalue);
		if (hashes.count == 0)
			return false;
		sort_hashes(&hashes);
		*share = share_of_all(kept, &hashes);
		return true;
	}
	if (!is_left || operator[0] != '?')
		return false;
	if (operator[1] == '\0')
		add_hash(&hashes, vjson_name_entry(name_as_in_key(DatumGetTextPP(other->constvalue))));
	else
	{
		Datum	   *names;
		bool	   *nulls;
		int			count;

		deconstruct_array(DatumGetArrayTypeP(other->constvalue), TEXTOID, -1, false, TYPALIGN_INT, &names, &nulls, &count);
		for (int i = 0; i < count; i++)
		{
			if (!nulls[i])
				add_hash(&hashes, vjson_name_entry(name_as_in_key(DatumGetTextPP(names[i]))));
		}
		sort_hashes(&hashes);
	}
	*share = operator[1] == '|' ? share_of_any(kept, &hashes) : share_of_all(kept, &hashes);
	return true;
}

/* Get the entries that are kept. Where none is in two documents there are no values, and it is an error to ask for them. */
static bool
get_entries(HeapTuple statistics, AttStatsSlot *kept)
{
	if (!get_attstatsslot(kept, statistics, KIND_ENTRIES, InvalidOid, ATTSTATSSLOT_NUMBERS))
		return false;
	if (kept->nnumbers == 1)
		return true;
	free_attstatsslot(kept);
	return get_attstatsslot(kept, statistics, KIND_ENTRIES, InvalidOid, ATTSTATSSLOT_VALUES | ATTSTATSSLOT_NUMBERS);
}

Datum
vjson_matchingsel(PG_FUNCTION_ARGS)
{
	PlannerInfo *root = (PlannerInfo *) PG_GETARG_POINTER(0);
	Oid			operator = PG_GETARG_OID(1);
	List	   *arguments = (List *) PG_GETARG_POINTER(2);
	int			relation = PG_GETARG_INT32(3);
	VariableStatData variable;
	AttStatsSlot kept;
	Node	   *other;
	bool		is_left;
	double		share = -1;

	if (!get_restriction_variable(root, arguments, relation, &variable, &other, &is_left))
		PG_RETURN_FLOAT8(DEFAULT_SHARE);
	if (IsA(other, Const) && !((Const *) other)->constisnull && HeapTupleIsValid(variable.statsTuple) &&
		statistic_proc_security_check(&variable, get_opcode(operator)) &&
		get_entries(variable.statsTuple, &kept))
	{
		if (kept.nnumbers == kept.nvalues + 1 &&
			share_by_entries(&kept, get_opname(operator), is_left, (Const *) other, &share))
			share *= 1 - ((Form_pg_statistic) GETSTRUCT(variable.statsTuple))->stanullfrac;
		free_attstatsslot(&kept);
	}
	ReleaseVariableStats(variable);
	if (share < 0)
		return DirectFunctionCall4(matchingsel, PointerGetDatum(root), ObjectIdGetDatum(operator),
								   PointerGetDatum(arguments), Int32GetDatum(relation));
	CLAMP_PROBABILITY(share);
	PG_RETURN_FLOAT8(share);
}
