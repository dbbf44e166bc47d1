/*-------------------------------------------------------------------------
 *
 * test_calls.c
 *	  For the script test: calls of the extension's functions while the statement
 *	  is to be cancelled, and with no machine stack left.
 *
 * A function that is made of one of these in SQL has the name of one of the
 * extension, and calls that.
 *
 *-------------------------------------------------------------------------
 */
#include "postgres.h"

#include "fmgr.h"
#include "miscadmin.h"
#include "utils/lsyscache.h"

/* The most arguments of a function that is called. */
#define MOST_ARGUMENTS	3

/* More than max_stack_depth can be. */
#define TOO_DEEP		((size_t) 4 * 1024 * 1024 * 1024)

PG_MODULE_MAGIC;

PG_FUNCTION_INFO_V1(cancelled);
PG_FUNCTION_INFO_V1(without_stack);

static PGFunction
function_of_that_name(FunctionCallInfo fcinfo)
{
	return load_external_function("$libdir/vizhoniku", get_func_name(fcinfo->flinfo->fn_oid), true, NULL);
}

/* Call the function. Arguments that aren't given are addresses to which it may write. */
static Datum
pass_on(FunctionCallInfo fcinfo, PGFunction function)
{
	LOCAL_FCINFO(call, MOST_ARGUMENTS);
	Datum		written[MOST_ARGUMENTS];
	Datum		result;

	Assert(PG_NARGS() <= MOST_ARGUMENTS);
	InitFunctionCallInfoData(*call, fcinfo->flinfo, MOST_ARGUMENTS, PG_GET_COLLATION(), fcinfo->context,
							 fcinfo->resultinfo);
	for (int i = 0; i < MOST_ARGUMENTS; i++)
	{
		call->args[i].value = i < PG_NARGS() ? PG_GETARG_DATUM(i) : PointerGetDatum(&written[i]);
		call->args[i].isnull = false;
	}
	result = function(call);
	fcinfo->isnull = call->isnull;
	return result;
}

/* An error is raised where the function looks at interrupts. */
Datum
cancelled(PG_FUNCTION_ARGS)
{
	PGFunction	function = function_of_that_name(fcinfo);
	Datum		result;

	QueryCancelPending = true;
	InterruptPending = true;
	result = pass_on(fcinfo, function);
	QueryCancelPending = false;
	return result;
}

/* An error is raised where the function looks at the stack, whose base is told to be far enough away. */
Datum
without_stack(PG_FUNCTION_ARGS)
{
	PGFunction	function = function_of_that_name(fcinfo);
	pg_stack_base_t base = set_stack_base();
	Datum		result = (Datum) 0;

	restore_stack_base(base + TOO_DEEP);
	PG_TRY();
	{
		result = pass_on(fcinfo, function);
	}
	PG_FINALLY();
	{
		restore_stack_base(base);
	}
	PG_END_TRY();
	return result;
}
