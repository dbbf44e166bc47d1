/*-------------------------------------------------------------------------
 *
 * rows.c
 *	  Rows of documents, whose columns the query names: by jsonb's functions,
 *	  to which the document is passed as a jsonb.
 *
 *-------------------------------------------------------------------------
 */
#include "postgres.h"

#include "access/htup_details.h"
#include "catalog/pg_type.h"
#include "executor/executor.h"
#include "fmgr.h"
#include "funcapi.h"
#include "mb/pg_wchar.h"
#include "miscadmin.h"
#include "utils/fmgrprotos.h"
#include "utils/lsyscache.h"
#include "utils/memutils.h"
#include "utils/syscache.h"
#include "utils/tuplestore.h"

#include "key_walk.h"
#include "vjson.h"

PG_FUNCTION_INFO_V1(vjson_to_record);
PG_FUNCTION_INFO_V1(vjson_to_recordset);

/* Raise an error unless the query names columns. */
static void
check_columns(FunctionCallInfo fcinfo, const char *function)
{
	ReturnSetInfo *set = (ReturnSetInfo *) fcinfo->resultinfo;

	if (set == NULL || !IsA(set, ReturnSetInfo) || set->expectedDesc == NULL)
		ereport(ERROR,
				(errcode(ERRCODE_FEATURE_NOT_SUPPORTED),
				 errmsg("could not determine row type for result of %s", function),
				 errhint("Provide a non-null record argument, or call the function in the FROM clause using a column "
						 "definition list.")));
}

/* Raise an error unless the document is an array of objects. */
static void
check_objects(Datum document)
{
	Range		key = key_of_datum(document);
	Walk		walk;

	if (kind_of(key) != VIZHONIKU_ARRAY)
		ereport(ERROR,
				(errcode(ERRCODE_INVALID_PARAMETER_VALUE),
				 errmsg("cannot call %s on a non-array", "vjson_to_recordset")));
	begin_walk(&walk, key);
	while (next_in_walk(&walk))
	{
		if (kind_of(walk.value) != VIZHONIKU_OBJECT)
			ereport(ERROR,
					(errcode(ERRCODE_INVALID_PARAMETER_VALUE),
					 errmsg("argument of %s must be an array of objects", "vjson_to_recordset")));
	}
}

/* The columns, with jsonb instead of vjson, so that a string becomes a document. NULL if none is of vjson. */
static TupleDesc
columns_of_jsonb(FunctionCallInfo fcinfo, TupleDesc columns)
{
	Oid			vjson = GetSysCacheOid2(TYPENAMENSP, Anum_pg_type_oid, CStringGetDatum("vjson"),
										ObjectIdGetDatum(get_func_namespace(fcinfo->flinfo->fn_oid)));
	TupleDesc	changed = NULL;

	for (int i = 0; i < columns->natts; i++)
	{
		if (TupleDescAttr(columns, i)->atttypid != vjson)
			continue;
		if (changed == NULL)
			changed = CreateTupleDescCopy(columns);
		TupleDescAttr(changed, i)->atttypid = JSONBOID;
	}
	return changed;
}

/* The row with its columns of jsonb as those of vjson that they are to be. */
static HeapTuple
row_of_vjson(HeapTuple row, TupleDesc given, TupleDesc wanted)
{
	Datum	   *values = palloc(wanted->natts * sizeof(Datum));
	bool	   *nulls = palloc(wanted->natts * sizeof(bool));

	heap_deform_tuple(row, given, values, nulls);
	for (int i = 0; i < wanted->natts; i++)
	{
		if (!nulls[i] && TupleDescAttr(given, i)->atttypid != TupleDescAttr(wanted, i)->atttypid)
			values[i] = vjson_of_jsonb(values[i]);
	}
	return heap_form_tuple(wanted, values, nulls);
}

/* Put the rows of jsonb into the set that is answered. */
static void
put_rows(ReturnSetInfo *set, Tuplestorestate *rows, TupleDesc given, TupleDesc wanted)
{
	MemoryContext of_row = AllocSetContextCreate(CurrentMemoryContext, "a row of a vjson", ALLOCSET_DEFAULT_SIZES);
	MemoryContext caller = MemoryContextSwitchTo(set->econtext->ecxt_per_query_memory);
	TupleTableSlot *slot;

	set->setDesc = CreateTupleDescCopy(wanted);
	set->setResult = tuplestore_begin_heap((set->allowedModes & SFRM_Materialize_Random) != 0, false, work_mem);
	MemoryContextSwitchTo(caller);
	slot = MakeSingleTupleTableSlot(given, &TTSOpsMinimalTuple);
	while (tuplestore_gettupleslot(rows, true, false, slot))
	{
		CHECK_FOR_INTERRUPTS();
		MemoryContextSwitchTo(of_row);
		tuplestore_puttuple(set->setResult, row_of_vjson(ExecFetchSlotHeapTuple(slot, false, NULL), given, wanted));
		MemoryContextSwitchTo(caller);
		MemoryContextReset(of_row);
	}
	ExecDropSingleTupleTableSlot(slot);
	MemoryContextDelete(of_row);
	tuplestore_end(rows);
}

/* Want the members of which columns are made, whole. False if there are too many columns. */
static bool
want_columns(VjsonWanted *wanted, TupleDesc columns)
{
	wanted->count = 0;
	for (int i = 0; i < columns->natts; i++)
	{
		char	   *words = NameStr(TupleDescAttr(columns, i)->attname);
		char	   *utf8 = pg_server_to_any(words, (int) strlen(words), PG_UTF8);
		Range		name = {(unsigned char *) utf8, strlen(utf8)};

		if (!vjson_want_name(wanted, name))
			return false;
	}
	wanted->steps = 1;
	wanted->step[0].at = NULL;
	wanted->step[0].size = 0;
	return true;
}

/*
 * The same call of jsonb's function, for the columns that the query names.  The
 * arguments of this call stay, since those that are constants come again.
 */
static Datum
call_for_rows(FunctionCallInfo fcinfo, PGFunction function)
{
	LOCAL_FCINFO(call, 1);
	ReturnSetInfo *set = (ReturnSetInfo *) fcinfo->resultinfo;
	ReturnSetInfo rows = *set;
	VjsonWanted wanted;
	TupleDesc	given = columns_of_jsonb(fcinfo, set->expectedDesc);
	Datum		result;

	memcpy(call, fcinfo, SizeForFunctionCallInfo(1));
	if (!PG_ARGISNULL(0))
		call->args[0].value = vjson_jsonb(PG_GETARG_DATUM(0), want_columns(&wanted, set->expectedDesc) ? &wanted : NULL);
	if (given != NULL)
	{
		rows.expectedDesc = given;
		call->resultinfo = (fmNodePtr) &rows;
	}
	result = function(call);
	fcinfo->isnull = call->isnull;
	if (given == NULL)
		return result;
	set->returnMode = rows.returnMode;
	set->isDone = rows.isDone;
	if (rows.setResult != NULL)
		put_rows(set, rows.setResult, given, set->expectedDesc);
	else if (!call->isnull)
	{
		HeapTupleHeader header = DatumGetHeapTupleHeader(result);
		HeapTupleData row = {.t_len = HeapTupleHeaderGetDatumLength(header), .t_data = header};

		result = HeapTupleGetDatum(row_of_vjson(&row, given, set->expectedDesc));
	}
	return result;
}

Datum
vjson_to_record(PG_FUNCTION_ARGS)
{
	check_columns(fcinfo, "vjson_to_record");
	return call_for_rows(fcinfo, jsonb_to_record);
}

Datum
vjson_to_recordset(PG_FUNCTION_ARGS)
{
	check_columns(fcinfo, "vjson_to_recordset");
	if (!PG_ARGISNULL(0))
		check_objects(PG_GETARG_DATUM(0));
	return call_for_rows(fcinfo, jsonb_to_recordset);
}
