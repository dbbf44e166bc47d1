/*-------------------------------------------------------------------------
 *
 * subscript.c
 *	  Subscripts of documents: doc['a'][0], to be read and to be assigned to.
 *
 * What is read and what is made of an assignment is what jsonb has.  A step is
 * a text or an integer.  In an object it is a name, in an array an index, which
 * counts from the end where it is negative.
 *
 *-------------------------------------------------------------------------
 */
#include "postgres.h"

#include "catalog/pg_type.h"
#include "executor/execExpr.h"
#include "fmgr.h"
#include "nodes/nodeFuncs.h"
#include "nodes/subscripting.h"
#include "parser/parse_coerce.h"
#include "parser/parse_expr.h"
#include "utils/builtins.h"

#include "key_walk.h"
#include "vjson.h"

PG_FUNCTION_INFO_V1(vjson_subscript_handler);

/* The steps of a reference: their types, and their words in the encoding of the database. */
typedef struct
{
	Oid		   *types;
	VjsonStep  *steps;
} Steps;

/*
 * The expression as text or as integer.  A string that is there as it is is
 * a text, and so is what isn't an integer but has an implicit cast to text.
 */
static Node *
coerced_subscript(ParseState *pstate, Node *subscript)
{
	Node	   *expression = transformExpr(pstate, subscript, pstate->p_expr_kind);
	Oid			type = exprType(expression);
	Oid			wanted = TEXTOID;

	if (type != UNKNOWNOID && can_coerce_type(1, &type, &(Oid) {INT4OID}, COERCION_IMPLICIT))
		wanted = INT4OID;
	else if (!can_coerce_type(1, &type, &wanted, COERCION_IMPLICIT))
		ereport(ERROR,
				(errcode(ERRCODE_DATATYPE_MISMATCH),
				 errmsg("subscript type %s is not supported", format_type_be(type)),
				 errhint("A subscript of a vjson is an integer or a text."),
				 parser_errposition(pstate, exprLocation(expression))));
	return coerce_type(pstate, expression, type, wanted, -1, COERCION_IMPLICIT, COERCE_IMPLICIT_CAST, -1);
}

static void
transform_reference(SubscriptingRef *reference, List *indirection, ParseState *pstate, bool is_slice, bool is_assignment)
{
	ListCell   *cell;

	(void) is_assignment;
	reference->refupperindexpr = NIL;
	reference->reflowerindexpr = NIL;
	foreach(cell, indirection)
	{
		A_Indices  *subscript = lfirst_node(A_Indices, cell);

		if (is_slice)
			ereport(ERROR,
					(errcode(ERRCODE_DATATYPE_MISMATCH),
					 errmsg("vjson subscript does not support slices"),
					 parser_errposition(pstate, exprLocation(subscript->uidx ? subscript->uidx : subscript->lidx))));
		reference->refupperindexpr = lappend(reference->refupperindexpr, coerced_subscript(pstate, subscript->uidx));
	}
	reference->refrestype = reference->refcontainertype;
	reference->reftypmod = -1;
}

/* Take the values of the subscripts as steps. False if one is NULL, so that what is read is NULL. */
static bool
take_subscripts(ExprState *state, ExprEvalStep *op, ExprContext *econtext)
{
	SubscriptingRefState *reference = op->d.sbsref_subscript.state;
	Steps	   *steps = reference->workspace;

	(void) state;
	(void) econtext;
	for (int i = 0; i < reference->numupper; i++)
	{
		VjsonStep  *step = &steps->steps[i];

		if (reference->upperindexnull[i])
		{
			if (reference->isassignment)
				ereport(ERROR,
						(errcode(ERRCODE_NULL_VALUE_NOT_ALLOWED),
						 errmsg("vjson subscript in assignment must not be null")));
			*op->resnull = true;
			return false;
		}
		if (steps->types[i] == INT4OID)
			step->words = cstring_to_text(psprintf("%d", DatumGetInt32(reference->upperindex[i])));
		else
			step->words = DatumGetTextPP(reference->upperindex[i]);
		step->name = utf8_of(step->words);
		step->is_integer = steps->types[i] == INT4OID;
	}
	return true;
}

static void
fetch_part(ExprState *state, ExprEvalStep *op, ExprContext *econtext)
{
	SubscriptingRefState *reference = op->d.sbsref.state;
	Steps	   *steps = reference->workspace;
	Document	document = document_of_datum(*op->resvalue);
	Document	at = document;

	(void) state;
	(void) econtext;
	for (int i = 0; i < reference->numupper; i++)
	{
		Range		part;

		if (!vjson_take_step(&at, &steps->steps[i], &part))
		{
			*op->resnull = true;
			*op->resvalue = (Datum) 0;
			return;
		}
		at = document_of_key(part);
	}
	*op->resvalue = PointerGetDatum(vjson_part(&document, at.key));
	*op->resnull = false;
}

static void
assign_part(ExprState *state, ExprEvalStep *op, ExprContext *econtext)
{
	SubscriptingRefState *reference = op->d.sbsref.state;
	Steps	   *steps = reference->workspace;
	static const char *const empty[] = {"{}", "[]"};
	Datum		whole = *op->resvalue;
	Datum		part = reference->replacevalue;

	(void) state;
	(void) econtext;
	if (*op->resnull)
		whole = PointerGetDatum(vjson_of_text(empty[steps->steps[0].is_integer], 2));
	if (reference->replacenull)
		part = PointerGetDatum(vjson_of_text("null", 4));
	*op->resvalue = vjson_assign(whole, steps->steps, reference->numupper, part);
	*op->resnull = false;
}

/* What is at the location of an assignment before it. */
static void
fetch_old_part(ExprState *state, ExprEvalStep *op, ExprContext *econtext)
{
	SubscriptingRefState *reference = op->d.sbsref.state;
	Datum		whole = *op->resvalue;
	bool		is_null = *op->resnull;

	if (!is_null)
		fetch_part(state, op, econtext);
	reference->prevvalue = *op->resvalue;
	reference->prevnull = *op->resnull;
	*op->resvalue = whole;
	*op->resnull = is_null;
}

static void
set_up_reference(const SubscriptingRef *expression, SubscriptingRefState *reference, SubscriptExecSteps *methods)
{
	Steps	   *steps = palloc(sizeof(Steps));
	ListCell   *cell;
	int			i = 0;

	steps->types = palloc(reference->numupper * sizeof(Oid));
	steps->steps = palloc(reference->numupper * sizeof(VjsonStep));
	foreach(cell, expression->refupperindexpr)
		steps->types[i++] = exprType((Node *) lfirst(cell));
	reference->workspace = steps;
	methods->sbs_check_subscripts = take_subscripts;
	methods->sbs_fetch = fetch_part;
	methods->sbs_assign = assign_part;
	methods->sbs_fetch_old = fetch_old_part;
}

Datum
vjson_subscript_handler(PG_FUNCTION_ARGS)
{
	static const SubscriptRoutines routines = {
		.transform = transform_reference,
		.exec_setup = set_up_reference,
		.fetch_strict = true,
		.fetch_leakproof = false,
		.store_leakproof = false
	};

	PG_RETURN_POINTER(&routines);
}
