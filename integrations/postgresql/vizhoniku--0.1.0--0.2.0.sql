/* The extension vizhoniku, from 0.1.0 to 0.2.0: parts, elements, containment, GIN,
   documents of SQL values, and changes, with the names of jsonb */

-- complain if the script is run by psql rather than by ALTER EXTENSION
\echo Use "ALTER EXTENSION vizhoniku UPDATE TO '0.2.0'" to load this file. \quit

-- Members and items

CREATE FUNCTION vjson_object_field(from_json vjson, field_name text) RETURNS vjson
  AS 'MODULE_PATHNAME' LANGUAGE C IMMUTABLE STRICT PARALLEL SAFE COST 2;
COMMENT ON FUNCTION vjson_object_field(vjson, text) IS 'implementation of -> operator';

CREATE OPERATOR -> (
  LEFTARG = vjson,
  RIGHTARG = text,
  FUNCTION = vjson_object_field
);
COMMENT ON OPERATOR -> (vjson, text) IS 'the member of a name, or NULL';

CREATE FUNCTION vjson_object_field_text(from_json vjson, field_name text) RETURNS text
  AS 'MODULE_PATHNAME' LANGUAGE C IMMUTABLE STRICT PARALLEL SAFE COST 2;
COMMENT ON FUNCTION vjson_object_field_text(vjson, text) IS 'implementation of ->> operator';

CREATE OPERATOR ->> (
  LEFTARG = vjson,
  RIGHTARG = text,
  FUNCTION = vjson_object_field_text
);
COMMENT ON OPERATOR ->> (vjson, text) IS 'the member of a name as text, or NULL';

CREATE FUNCTION vjson_array_element(from_json vjson, element_index integer) RETURNS vjson
  AS 'MODULE_PATHNAME' LANGUAGE C IMMUTABLE STRICT PARALLEL SAFE COST 2;
COMMENT ON FUNCTION vjson_array_element(vjson, integer) IS 'implementation of -> operator';

CREATE OPERATOR -> (
  LEFTARG = vjson,
  RIGHTARG = integer,
  FUNCTION = vjson_array_element
);
COMMENT ON OPERATOR -> (vjson, integer) IS 'the item of an index, or NULL';

CREATE FUNCTION vjson_array_element_text(from_json vjson, element_index integer) RETURNS text
  AS 'MODULE_PATHNAME' LANGUAGE C IMMUTABLE STRICT PARALLEL SAFE COST 2;
COMMENT ON FUNCTION vjson_array_element_text(vjson, integer) IS 'implementation of ->> operator';

CREATE OPERATOR ->> (
  LEFTARG = vjson,
  RIGHTARG = integer,
  FUNCTION = vjson_array_element_text
);
COMMENT ON OPERATOR ->> (vjson, integer) IS 'the item of an index as text, or NULL';

-- Which names there are

CREATE FUNCTION vjson_exists(vjson, text) RETURNS boolean
  AS 'MODULE_PATHNAME' LANGUAGE C IMMUTABLE STRICT PARALLEL SAFE COST 2;
COMMENT ON FUNCTION vjson_exists(vjson, text) IS 'implementation of ? operator';

CREATE OPERATOR ? (
  LEFTARG = vjson,
  RIGHTARG = text,
  FUNCTION = vjson_exists,
  RESTRICT = matchingsel,
  JOIN = matchingjoinsel
);
COMMENT ON OPERATOR ? (vjson, text) IS 'whether a member has the name, or an item is that string';

CREATE FUNCTION vjson_exists_any(vjson, text[]) RETURNS boolean
  AS 'MODULE_PATHNAME' LANGUAGE C IMMUTABLE STRICT PARALLEL SAFE COST 2;
COMMENT ON FUNCTION vjson_exists_any(vjson, text[]) IS 'implementation of ?| operator';

CREATE OPERATOR ?| (
  LEFTARG = vjson,
  RIGHTARG = text[],
  FUNCTION = vjson_exists_any,
  RESTRICT = matchingsel,
  JOIN = matchingjoinsel
);
COMMENT ON OPERATOR ?| (vjson, text[]) IS 'whether there is any of the names';

CREATE FUNCTION vjson_exists_all(vjson, text[]) RETURNS boolean
  AS 'MODULE_PATHNAME' LANGUAGE C IMMUTABLE STRICT PARALLEL SAFE COST 2;
COMMENT ON FUNCTION vjson_exists_all(vjson, text[]) IS 'implementation of ?& operator';

CREATE OPERATOR ?& (
  LEFTARG = vjson,
  RIGHTARG = text[],
  FUNCTION = vjson_exists_all,
  RESTRICT = matchingsel,
  JOIN = matchingjoinsel
);
COMMENT ON OPERATOR ?& (vjson, text[]) IS 'whether there are all of the names';

-- What a document is

CREATE FUNCTION vjson_typeof(vjson) RETURNS text
  AS 'MODULE_PATHNAME' LANGUAGE C IMMUTABLE STRICT PARALLEL SAFE;
COMMENT ON FUNCTION vjson_typeof(vjson) IS 'the kind of a document, as jsonb_typeof names it';

CREATE FUNCTION vjson_array_length(vjson) RETURNS integer
  AS 'MODULE_PATHNAME' LANGUAGE C IMMUTABLE STRICT PARALLEL SAFE;
COMMENT ON FUNCTION vjson_array_length(vjson) IS 'how many items an array has';

-- All members and all items

CREATE FUNCTION vjson_each(from_json vjson, OUT key text, OUT value vjson) RETURNS SETOF record
  AS 'MODULE_PATHNAME' LANGUAGE C IMMUTABLE STRICT PARALLEL SAFE ROWS 100;
COMMENT ON FUNCTION vjson_each(vjson) IS 'the members of an object';

CREATE FUNCTION vjson_each_text(from_json vjson, OUT key text, OUT value text) RETURNS SETOF record
  AS 'MODULE_PATHNAME' LANGUAGE C IMMUTABLE STRICT PARALLEL SAFE ROWS 100;
COMMENT ON FUNCTION vjson_each_text(vjson) IS 'the members of an object as text';

CREATE FUNCTION vjson_object_keys(vjson) RETURNS SETOF text
  AS 'MODULE_PATHNAME' LANGUAGE C IMMUTABLE STRICT PARALLEL SAFE ROWS 100;
COMMENT ON FUNCTION vjson_object_keys(vjson) IS 'the names of the members of an object';

CREATE FUNCTION vjson_array_elements(from_json vjson, OUT value vjson) RETURNS SETOF vjson
  AS 'MODULE_PATHNAME' LANGUAGE C IMMUTABLE STRICT PARALLEL SAFE ROWS 100;
COMMENT ON FUNCTION vjson_array_elements(vjson) IS 'the items of an array';

CREATE FUNCTION vjson_array_elements_text(from_json vjson, OUT value text) RETURNS SETOF text
  AS 'MODULE_PATHNAME' LANGUAGE C IMMUTABLE STRICT PARALLEL SAFE ROWS 100;
COMMENT ON FUNCTION vjson_array_elements_text(vjson) IS 'the items of an array as text';

-- Containment

CREATE FUNCTION vjson_contains(vjson, vjson) RETURNS boolean
  AS 'MODULE_PATHNAME' LANGUAGE C IMMUTABLE STRICT PARALLEL SAFE COST 2;
COMMENT ON FUNCTION vjson_contains(vjson, vjson) IS 'implementation of @> operator';

CREATE FUNCTION vjson_contained(vjson, vjson) RETURNS boolean
  AS 'MODULE_PATHNAME' LANGUAGE C IMMUTABLE STRICT PARALLEL SAFE COST 2;
COMMENT ON FUNCTION vjson_contained(vjson, vjson) IS 'implementation of <@ operator';

CREATE OPERATOR @> (
  LEFTARG = vjson,
  RIGHTARG = vjson,
  FUNCTION = vjson_contains,
  COMMUTATOR = <@,
  RESTRICT = matchingsel,
  JOIN = matchingjoinsel
);
COMMENT ON OPERATOR @> (vjson, vjson) IS 'contains';

CREATE OPERATOR <@ (
  LEFTARG = vjson,
  RIGHTARG = vjson,
  FUNCTION = vjson_contained,
  COMMUTATOR = @>,
  RESTRICT = matchingsel,
  JOIN = matchingjoinsel
);
COMMENT ON OPERATOR <@ (vjson, vjson) IS 'is contained in';

-- GIN indexes: an entry is a hash of the names that lead to a scalar, and of the scalar.

CREATE FUNCTION gin_extract_vjson_path(vjson, internal, internal) RETURNS internal
  AS 'MODULE_PATHNAME' LANGUAGE C IMMUTABLE STRICT PARALLEL SAFE;
COMMENT ON FUNCTION gin_extract_vjson_path(vjson, internal, internal) IS 'GIN support';

CREATE FUNCTION gin_extract_vjson_query_path(vjson, internal, smallint, internal, internal, internal, internal)
  RETURNS internal AS 'MODULE_PATHNAME' LANGUAGE C IMMUTABLE STRICT PARALLEL SAFE;
COMMENT ON FUNCTION gin_extract_vjson_query_path(vjson, internal, smallint, internal, internal, internal, internal)
  IS 'GIN support';

CREATE FUNCTION gin_consistent_vjson_path(internal, smallint, vjson, integer, internal, internal, internal, internal)
  RETURNS boolean AS 'MODULE_PATHNAME' LANGUAGE C IMMUTABLE STRICT PARALLEL SAFE;
COMMENT ON FUNCTION
  gin_consistent_vjson_path(internal, smallint, vjson, integer, internal, internal, internal, internal)
  IS 'GIN support';

CREATE FUNCTION gin_triconsistent_vjson_path(internal, smallint, vjson, integer, internal, internal, internal)
  RETURNS "char" AS 'MODULE_PATHNAME' LANGUAGE C IMMUTABLE STRICT PARALLEL SAFE;
COMMENT ON FUNCTION gin_triconsistent_vjson_path(internal, smallint, vjson, integer, internal, internal, internal)
  IS 'GIN support';

CREATE OPERATOR FAMILY vjson_path_ops USING gin;
COMMENT ON OPERATOR FAMILY vjson_path_ops USING gin IS 'documents by their scalars and the names before them';

CREATE OPERATOR CLASS vjson_path_ops DEFAULT FOR TYPE vjson USING gin FAMILY vjson_path_ops AS
  OPERATOR 7 @> (vjson, vjson),
  OPERATOR 18 = (vjson, vjson),
  FUNCTION 1 btint4cmp(integer, integer),
  FUNCTION 2 gin_extract_vjson_path(vjson, internal, internal),
  FUNCTION 3 gin_extract_vjson_query_path(vjson, internal, smallint, internal, internal, internal, internal),
  FUNCTION 4 gin_consistent_vjson_path(internal, smallint, vjson, integer, internal, internal, internal, internal),
  FUNCTION 6 gin_triconsistent_vjson_path(internal, smallint, vjson, integer, internal, internal, internal),
  STORAGE integer;
COMMENT ON OPERATOR CLASS vjson_path_ops USING gin IS 'documents by their scalars and the names before them';

-- That with the names that ? finds, as jsonb_ops has for jsonb

CREATE FUNCTION gin_extract_vjson(vjson, internal, internal) RETURNS internal
  AS 'MODULE_PATHNAME' LANGUAGE C IMMUTABLE STRICT PARALLEL SAFE;
COMMENT ON FUNCTION gin_extract_vjson(vjson, internal, internal) IS 'GIN support';

CREATE FUNCTION gin_extract_vjson_query(vjson, internal, smallint, internal, internal, internal, internal)
  RETURNS internal AS 'MODULE_PATHNAME' LANGUAGE C IMMUTABLE STRICT PARALLEL SAFE;
COMMENT ON FUNCTION gin_extract_vjson_query(vjson, internal, smallint, internal, internal, internal, internal)
  IS 'GIN support';

CREATE FUNCTION gin_consistent_vjson(internal, smallint, vjson, integer, internal, internal, internal, internal)
  RETURNS boolean AS 'MODULE_PATHNAME' LANGUAGE C IMMUTABLE STRICT PARALLEL SAFE;
COMMENT ON FUNCTION gin_consistent_vjson(internal, smallint, vjson, integer, internal, internal, internal, internal)
  IS 'GIN support';

CREATE FUNCTION gin_triconsistent_vjson(internal, smallint, vjson, integer, internal, internal, internal)
  RETURNS "char" AS 'MODULE_PATHNAME' LANGUAGE C IMMUTABLE STRICT PARALLEL SAFE;
COMMENT ON FUNCTION gin_triconsistent_vjson(internal, smallint, vjson, integer, internal, internal, internal)
  IS 'GIN support';

CREATE OPERATOR FAMILY vjson_ops USING gin;
COMMENT ON OPERATOR FAMILY vjson_ops USING gin IS 'documents by their scalars and their names';

CREATE OPERATOR CLASS vjson_ops FOR TYPE vjson USING gin FAMILY vjson_ops AS
  OPERATOR 7 @> (vjson, vjson),
  OPERATOR 9 ? (vjson, text),
  OPERATOR 10 ?| (vjson, text[]),
  OPERATOR 11 ?& (vjson, text[]),
  OPERATOR 18 = (vjson, vjson),
  FUNCTION 1 btint4cmp(integer, integer),
  FUNCTION 2 gin_extract_vjson(vjson, internal, internal),
  FUNCTION 3 gin_extract_vjson_query(vjson, internal, smallint, internal, internal, internal, internal),
  FUNCTION 4 gin_consistent_vjson(internal, smallint, vjson, integer, internal, internal, internal, internal),
  FUNCTION 6 gin_triconsistent_vjson(internal, smallint, vjson, integer, internal, internal, internal),
  STORAGE integer;
COMMENT ON OPERATOR CLASS vjson_ops USING gin IS 'documents by their scalars and their names';

-- jsonpath, by jsonb's functions

CREATE FUNCTION vjson_path_exists_opr(vjson, jsonpath) RETURNS boolean
  AS 'MODULE_PATHNAME' LANGUAGE C IMMUTABLE STRICT PARALLEL SAFE COST 10;
COMMENT ON FUNCTION vjson_path_exists_opr(vjson, jsonpath) IS 'implementation of @? operator';

CREATE OPERATOR @? (
  LEFTARG = vjson,
  RIGHTARG = jsonpath,
  FUNCTION = vjson_path_exists_opr,
  RESTRICT = matchingsel,
  JOIN = matchingjoinsel
);
COMMENT ON OPERATOR @? (vjson, jsonpath) IS 'whether a jsonpath finds a part';

CREATE FUNCTION vjson_path_match_opr(vjson, jsonpath) RETURNS boolean
  AS 'MODULE_PATHNAME' LANGUAGE C IMMUTABLE STRICT PARALLEL SAFE COST 10;
COMMENT ON FUNCTION vjson_path_match_opr(vjson, jsonpath) IS 'implementation of @@ operator';

CREATE OPERATOR @@ (
  LEFTARG = vjson,
  RIGHTARG = jsonpath,
  FUNCTION = vjson_path_match_opr,
  RESTRICT = matchingsel,
  JOIN = matchingjoinsel
);
COMMENT ON OPERATOR @@ (vjson, jsonpath) IS 'what the predicate of a jsonpath answers';

CREATE FUNCTION vjson_path_exists(target vjson, path jsonpath, vars vjson DEFAULT '{}',
    silent boolean DEFAULT false) RETURNS boolean
  AS 'MODULE_PATHNAME' LANGUAGE C IMMUTABLE STRICT PARALLEL SAFE COST 10;
COMMENT ON FUNCTION vjson_path_exists(vjson, jsonpath, vjson, boolean) IS 'whether a jsonpath finds a part';

CREATE FUNCTION vjson_path_match(target vjson, path jsonpath, vars vjson DEFAULT '{}',
    silent boolean DEFAULT false) RETURNS boolean
  AS 'MODULE_PATHNAME' LANGUAGE C IMMUTABLE STRICT PARALLEL SAFE COST 10;
COMMENT ON FUNCTION vjson_path_match(vjson, jsonpath, vjson, boolean) IS 'what the predicate of a jsonpath answers';

CREATE FUNCTION vjson_path_query(target vjson, path jsonpath, vars vjson DEFAULT '{}',
    silent boolean DEFAULT false) RETURNS SETOF vjson
  AS 'MODULE_PATHNAME' LANGUAGE C IMMUTABLE STRICT PARALLEL SAFE COST 10;
COMMENT ON FUNCTION vjson_path_query(vjson, jsonpath, vjson, boolean) IS 'the parts that a jsonpath finds';

CREATE FUNCTION vjson_path_query_array(target vjson, path jsonpath, vars vjson DEFAULT '{}',
    silent boolean DEFAULT false) RETURNS vjson
  AS 'MODULE_PATHNAME' LANGUAGE C IMMUTABLE STRICT PARALLEL SAFE COST 10;
COMMENT ON FUNCTION vjson_path_query_array(vjson, jsonpath, vjson, boolean)
  IS 'an array of the parts that a jsonpath finds';

CREATE FUNCTION vjson_path_query_first(target vjson, path jsonpath, vars vjson DEFAULT '{}',
    silent boolean DEFAULT false) RETURNS vjson
  AS 'MODULE_PATHNAME' LANGUAGE C IMMUTABLE STRICT PARALLEL SAFE COST 10;
COMMENT ON FUNCTION vjson_path_query_first(vjson, jsonpath, vjson, boolean)
  IS 'the first part that a jsonpath finds, or NULL';

CREATE FUNCTION vjson_path_exists_tz(target vjson, path jsonpath, vars vjson DEFAULT '{}',
    silent boolean DEFAULT false) RETURNS boolean
  AS 'MODULE_PATHNAME' LANGUAGE C STABLE STRICT PARALLEL SAFE COST 10;
COMMENT ON FUNCTION vjson_path_exists_tz(vjson, jsonpath, vjson, boolean)
  IS 'whether a jsonpath finds a part, with the time zone';

CREATE FUNCTION vjson_path_match_tz(target vjson, path jsonpath, vars vjson DEFAULT '{}',
    silent boolean DEFAULT false) RETURNS boolean
  AS 'MODULE_PATHNAME' LANGUAGE C STABLE STRICT PARALLEL SAFE COST 10;
COMMENT ON FUNCTION vjson_path_match_tz(vjson, jsonpath, vjson, boolean)
  IS 'what the predicate of a jsonpath answers, with the time zone';

CREATE FUNCTION vjson_path_query_tz(target vjson, path jsonpath, vars vjson DEFAULT '{}',
    silent boolean DEFAULT false) RETURNS SETOF vjson
  AS 'MODULE_PATHNAME' LANGUAGE C STABLE STRICT PARALLEL SAFE COST 10;
COMMENT ON FUNCTION vjson_path_query_tz(vjson, jsonpath, vjson, boolean)
  IS 'the parts that a jsonpath finds, with the time zone';

CREATE FUNCTION vjson_path_query_array_tz(target vjson, path jsonpath, vars vjson DEFAULT '{}',
    silent boolean DEFAULT false) RETURNS vjson
  AS 'MODULE_PATHNAME' LANGUAGE C STABLE STRICT PARALLEL SAFE COST 10;
COMMENT ON FUNCTION vjson_path_query_array_tz(vjson, jsonpath, vjson, boolean)
  IS 'an array of the parts that a jsonpath finds, with the time zone';

CREATE FUNCTION vjson_path_query_first_tz(target vjson, path jsonpath, vars vjson DEFAULT '{}',
    silent boolean DEFAULT false) RETURNS vjson
  AS 'MODULE_PATHNAME' LANGUAGE C STABLE STRICT PARALLEL SAFE COST 10;
COMMENT ON FUNCTION vjson_path_query_first_tz(vjson, jsonpath, vjson, boolean)
  IS 'the first part that a jsonpath finds, or NULL, with the time zone';

-- Text search, by jsonb's functions

CREATE FUNCTION to_tsvector(vjson) RETURNS tsvector
  AS 'MODULE_PATHNAME', 'vjson_string_to_tsvector' LANGUAGE C STABLE STRICT PARALLEL SAFE COST 100;
COMMENT ON FUNCTION to_tsvector(vjson) IS 'the words of the strings';

CREATE FUNCTION to_tsvector(regconfig, vjson) RETURNS tsvector
  AS 'MODULE_PATHNAME', 'vjson_string_to_tsvector_byid' LANGUAGE C IMMUTABLE STRICT PARALLEL SAFE COST 100;
COMMENT ON FUNCTION to_tsvector(regconfig, vjson) IS 'the words of the strings';

CREATE FUNCTION vjson_to_tsvector(vjson, vjson) RETURNS tsvector
  AS 'MODULE_PATHNAME' LANGUAGE C STABLE STRICT PARALLEL SAFE COST 100;
COMMENT ON FUNCTION vjson_to_tsvector(vjson, vjson) IS 'the words of parts of some kinds';

CREATE FUNCTION vjson_to_tsvector(regconfig, vjson, vjson) RETURNS tsvector
  AS 'MODULE_PATHNAME', 'vjson_to_tsvector_byid' LANGUAGE C IMMUTABLE STRICT PARALLEL SAFE COST 100;
COMMENT ON FUNCTION vjson_to_tsvector(regconfig, vjson, vjson) IS 'the words of parts of some kinds';

CREATE FUNCTION ts_headline(vjson, tsquery) RETURNS vjson
  AS 'MODULE_PATHNAME', 'ts_headline_vjson' LANGUAGE C STABLE STRICT PARALLEL SAFE COST 100;
COMMENT ON FUNCTION ts_headline(vjson, tsquery) IS 'the document with the words that are found marked';

CREATE FUNCTION ts_headline(vjson, tsquery, text) RETURNS vjson
  AS 'MODULE_PATHNAME', 'ts_headline_vjson_opt' LANGUAGE C STABLE STRICT PARALLEL SAFE COST 100;
COMMENT ON FUNCTION ts_headline(vjson, tsquery, text) IS 'the document with the words that are found marked';

CREATE FUNCTION ts_headline(regconfig, vjson, tsquery) RETURNS vjson
  AS 'MODULE_PATHNAME', 'ts_headline_vjson_byid' LANGUAGE C IMMUTABLE STRICT PARALLEL SAFE COST 100;
COMMENT ON FUNCTION ts_headline(regconfig, vjson, tsquery) IS 'the document with the words that are found marked';

CREATE FUNCTION ts_headline(regconfig, vjson, tsquery, text) RETURNS vjson
  AS 'MODULE_PATHNAME', 'ts_headline_vjson_byid_opt' LANGUAGE C IMMUTABLE STRICT PARALLEL SAFE COST 100;
COMMENT ON FUNCTION ts_headline(regconfig, vjson, tsquery, text) IS 'the document with the words that are found marked';

-- Statistics: which entries are in many documents, and what the planner expects by that

CREATE FUNCTION vjson_typanalyze(internal) RETURNS boolean
  AS 'MODULE_PATHNAME' LANGUAGE C STABLE STRICT PARALLEL SAFE;
COMMENT ON FUNCTION vjson_typanalyze(internal) IS 'vjson typanalyze';

ALTER TYPE vjson SET (ANALYZE = vjson_typanalyze);

CREATE FUNCTION vjson_matchingsel(internal, oid, internal, integer) RETURNS double precision
  AS 'MODULE_PATHNAME' LANGUAGE C STABLE STRICT PARALLEL SAFE;
COMMENT ON FUNCTION vjson_matchingsel(internal, oid, internal, integer) IS 'restriction selectivity of vjson operators';

ALTER OPERATOR ? (vjson, text) SET (RESTRICT = vjson_matchingsel);
ALTER OPERATOR ?| (vjson, text[]) SET (RESTRICT = vjson_matchingsel);
ALTER OPERATOR ?& (vjson, text[]) SET (RESTRICT = vjson_matchingsel);
ALTER OPERATOR @> (vjson, vjson) SET (RESTRICT = vjson_matchingsel);
ALTER OPERATOR <@ (vjson, vjson) SET (RESTRICT = vjson_matchingsel);

-- Documents of values of SQL. They are as stable as the output functions of types are.

CREATE FUNCTION to_vjson(anyelement) RETURNS vjson
  AS 'MODULE_PATHNAME' LANGUAGE C STABLE STRICT PARALLEL SAFE;
COMMENT ON FUNCTION to_vjson(anyelement) IS 'the document of a value';

CREATE FUNCTION vjson_build_array() RETURNS vjson
  AS 'MODULE_PATHNAME' LANGUAGE C STABLE PARALLEL SAFE;
COMMENT ON FUNCTION vjson_build_array() IS 'an empty array';

CREATE FUNCTION vjson_build_array(VARIADIC "any") RETURNS vjson
  AS 'MODULE_PATHNAME' LANGUAGE C STABLE PARALLEL SAFE;
COMMENT ON FUNCTION vjson_build_array("any") IS 'an array of values';

CREATE FUNCTION vjson_build_object() RETURNS vjson
  AS 'MODULE_PATHNAME' LANGUAGE C STABLE PARALLEL SAFE;
COMMENT ON FUNCTION vjson_build_object() IS 'an empty object';

CREATE FUNCTION vjson_build_object(VARIADIC "any") RETURNS vjson
  AS 'MODULE_PATHNAME' LANGUAGE C STABLE PARALLEL SAFE;
COMMENT ON FUNCTION vjson_build_object("any") IS 'an object of names and values in turn';

CREATE FUNCTION vjson_agg_transfn(internal, anyelement) RETURNS internal
  AS 'MODULE_PATHNAME' LANGUAGE C STABLE PARALLEL SAFE;
COMMENT ON FUNCTION vjson_agg_transfn(internal, anyelement) IS 'vjson_agg transition function';

CREATE FUNCTION vjson_agg_finalfn(internal) RETURNS vjson
  AS 'MODULE_PATHNAME' LANGUAGE C STABLE PARALLEL SAFE;
COMMENT ON FUNCTION vjson_agg_finalfn(internal) IS 'vjson_agg final function';

CREATE AGGREGATE vjson_agg(anyelement) (
  SFUNC = vjson_agg_transfn,
  STYPE = internal,
  FINALFUNC = vjson_agg_finalfn,
  PARALLEL = SAFE
);
COMMENT ON AGGREGATE vjson_agg(anyelement) IS 'an array of the values';

CREATE FUNCTION vjson_object_agg_transfn(internal, "any", "any") RETURNS internal
  AS 'MODULE_PATHNAME' LANGUAGE C STABLE PARALLEL SAFE;
COMMENT ON FUNCTION vjson_object_agg_transfn(internal, "any", "any") IS 'vjson_object_agg transition function';

CREATE FUNCTION vjson_object_agg_finalfn(internal) RETURNS vjson
  AS 'MODULE_PATHNAME' LANGUAGE C STABLE PARALLEL SAFE;
COMMENT ON FUNCTION vjson_object_agg_finalfn(internal) IS 'vjson_object_agg final function';

CREATE AGGREGATE vjson_object_agg(key "any", value "any") (
  SFUNC = vjson_object_agg_transfn,
  STYPE = internal,
  FINALFUNC = vjson_object_agg_finalfn,
  PARALLEL = SAFE
);
COMMENT ON AGGREGATE vjson_object_agg("any", "any") IS 'an object of the names and their values';

-- CREATE AGGREGATE has no word for STABLE. Without it postgres_fdw would have these made at the foreign server, where
-- TimeZone is UTC.
UPDATE pg_catalog.pg_proc SET provolatile = 's'
  WHERE oid IN ('vjson_agg(anyelement)'::regprocedure, 'vjson_object_agg("any", "any")'::regprocedure);

-- Changes

CREATE FUNCTION vjson_concat(vjson, vjson) RETURNS vjson
  AS 'MODULE_PATHNAME' LANGUAGE C IMMUTABLE STRICT PARALLEL SAFE;
COMMENT ON FUNCTION vjson_concat(vjson, vjson) IS 'implementation of || operator';

CREATE OPERATOR || (
  LEFTARG = vjson,
  RIGHTARG = vjson,
  FUNCTION = vjson_concat
);
COMMENT ON OPERATOR || (vjson, vjson) IS 'the members of both, or the items of both';

CREATE FUNCTION vjson_delete(vjson, text) RETURNS vjson
  AS 'MODULE_PATHNAME' LANGUAGE C IMMUTABLE STRICT PARALLEL SAFE;
COMMENT ON FUNCTION vjson_delete(vjson, text) IS 'implementation of - operator';

CREATE OPERATOR - (
  LEFTARG = vjson,
  RIGHTARG = text,
  FUNCTION = vjson_delete
);
COMMENT ON OPERATOR - (vjson, text) IS 'without the member of a name, or the items that are that string';

CREATE FUNCTION vjson_delete(from_json vjson, VARIADIC path_elems text[]) RETURNS vjson
  AS 'MODULE_PATHNAME', 'vjson_delete_array' LANGUAGE C IMMUTABLE STRICT PARALLEL SAFE;
COMMENT ON FUNCTION vjson_delete(vjson, text[]) IS 'implementation of - operator';

CREATE OPERATOR - (
  LEFTARG = vjson,
  RIGHTARG = text[],
  FUNCTION = vjson_delete
);
COMMENT ON OPERATOR - (vjson, text[]) IS 'without the members of some names, or the items that are those strings';

CREATE FUNCTION vjson_delete(vjson, integer) RETURNS vjson
  AS 'MODULE_PATHNAME', 'vjson_delete_idx' LANGUAGE C IMMUTABLE STRICT PARALLEL SAFE;
COMMENT ON FUNCTION vjson_delete(vjson, integer) IS 'implementation of - operator';

CREATE OPERATOR - (
  LEFTARG = vjson,
  RIGHTARG = integer,
  FUNCTION = vjson_delete
);
COMMENT ON OPERATOR - (vjson, integer) IS 'without the item of an index';

CREATE FUNCTION vjson_delete_path(vjson, vjson_path) RETURNS vjson
  AS 'MODULE_PATHNAME' LANGUAGE C IMMUTABLE STRICT PARALLEL SAFE;
COMMENT ON FUNCTION vjson_delete_path(vjson, vjson_path) IS 'implementation of #- operator';

CREATE OPERATOR #- (
  LEFTARG = vjson,
  RIGHTARG = vjson_path,
  FUNCTION = vjson_delete_path
);
COMMENT ON OPERATOR #- (vjson, vjson_path) IS 'without the part at a path';

CREATE FUNCTION vjson_set(vjson_in vjson, path vjson_path, replacement vjson, create_if_missing boolean DEFAULT true)
  RETURNS vjson AS 'MODULE_PATHNAME' LANGUAGE C IMMUTABLE STRICT PARALLEL SAFE;
COMMENT ON FUNCTION vjson_set(vjson, vjson_path, vjson, boolean) IS 'with another part at a path';

CREATE FUNCTION vjson_insert(vjson_in vjson, path vjson_path, replacement vjson, insert_after boolean DEFAULT false)
  RETURNS vjson AS 'MODULE_PATHNAME' LANGUAGE C IMMUTABLE STRICT PARALLEL SAFE;
COMMENT ON FUNCTION vjson_insert(vjson, vjson_path, vjson, boolean) IS 'with a part more, put in at a path';

-- Other shapes

CREATE FUNCTION vjson_pretty(vjson) RETURNS text
  AS 'MODULE_PATHNAME' LANGUAGE C IMMUTABLE STRICT PARALLEL SAFE;
COMMENT ON FUNCTION vjson_pretty(vjson) IS 'text over lines, indented';

CREATE FUNCTION vjson_strip_nulls(target vjson, strip_in_arrays boolean DEFAULT false) RETURNS vjson
  AS 'MODULE_PATHNAME' LANGUAGE C IMMUTABLE STRICT PARALLEL SAFE COST 10;
COMMENT ON FUNCTION vjson_strip_nulls(vjson, boolean) IS 'without the members that are null';

-- Rows of documents, by jsonb's functions

CREATE FUNCTION vjson_populate_record(base anyelement, from_json vjson) RETURNS anyelement
  LANGUAGE sql STABLE PARALLEL SAFE
  AS 'SELECT pg_catalog.jsonb_populate_record(base, from_json::pg_catalog.jsonb)';
COMMENT ON FUNCTION vjson_populate_record(anyelement, vjson) IS 'a row of a type, with the columns that an object has';

CREATE FUNCTION vjson_populate_recordset(base anyelement, from_json vjson) RETURNS SETOF anyelement
  LANGUAGE sql STABLE PARALLEL SAFE ROWS 100
  AS 'SELECT pg_catalog.jsonb_populate_recordset(base, from_json::pg_catalog.jsonb)';
COMMENT ON FUNCTION vjson_populate_recordset(anyelement, vjson) IS 'rows of a type, of an array of objects';

CREATE FUNCTION vjson_to_record(vjson) RETURNS record
  AS 'MODULE_PATHNAME' LANGUAGE C STABLE STRICT PARALLEL SAFE;
COMMENT ON FUNCTION vjson_to_record(vjson) IS 'a row of the columns that the query names, which an object has';

CREATE FUNCTION vjson_to_recordset(vjson) RETURNS SETOF record
  AS 'MODULE_PATHNAME' LANGUAGE C STABLE PARALLEL SAFE ROWS 100;
COMMENT ON FUNCTION vjson_to_recordset(vjson) IS 'rows of the columns that the query names, of an array of objects';

-- More of jsonb's functions

CREATE FUNCTION vjson_extract_path(from_json vjson, VARIADIC path_elems text[]) RETURNS vjson
  AS 'MODULE_PATHNAME' LANGUAGE C IMMUTABLE STRICT PARALLEL SAFE COST 2;
COMMENT ON FUNCTION vjson_extract_path(vjson, text[]) IS 'the part to which names lead, or NULL';

CREATE FUNCTION vjson_extract_path_text(from_json vjson, VARIADIC path_elems text[]) RETURNS text
  AS 'MODULE_PATHNAME' LANGUAGE C IMMUTABLE STRICT PARALLEL SAFE COST 2;
COMMENT ON FUNCTION vjson_extract_path_text(vjson, text[]) IS 'the part to which names lead as text, or NULL';

CREATE FUNCTION vjson_object(text[]) RETURNS vjson
  AS 'MODULE_PATHNAME' LANGUAGE C IMMUTABLE STRICT PARALLEL SAFE;
COMMENT ON FUNCTION vjson_object(text[]) IS 'an object of strings: names and values in turn';

CREATE FUNCTION vjson_object(text[], text[]) RETURNS vjson
  AS 'MODULE_PATHNAME', 'vjson_object_two_arg' LANGUAGE C IMMUTABLE STRICT PARALLEL SAFE;
COMMENT ON FUNCTION vjson_object(text[], text[]) IS 'an object of strings: names, and their values';

CREATE FUNCTION vjson_set_lax(vjson_in vjson, path vjson_path, replacement vjson,
    create_if_missing boolean DEFAULT true, null_value_treatment text DEFAULT 'use_json_null') RETURNS vjson
  AS 'MODULE_PATHNAME' LANGUAGE C IMMUTABLE PARALLEL SAFE;
COMMENT ON FUNCTION vjson_set_lax(vjson, vjson_path, vjson, boolean, text)
  IS 'with another part at a path, also one that is NULL';

-- Texts that are no documents

CREATE FUNCTION vjson_error(text, rounded boolean DEFAULT false, OUT message text, OUT path text,
    OUT line_number integer, OUT column_number integer, OUT near text) RETURNS record
  AS 'MODULE_PATHNAME' LANGUAGE C IMMUTABLE STRICT PARALLEL SAFE COST 10;
COMMENT ON FUNCTION vjson_error(text, boolean) IS 'why a text is rejected, and where';

CREATE FUNCTION vjson_error(jsonb, rounded boolean DEFAULT false, OUT message text, OUT path text,
    OUT line_number integer, OUT column_number integer, OUT near text) RETURNS record
  AS 'MODULE_PATHNAME', 'vjson_error_of_jsonb' LANGUAGE C IMMUTABLE STRICT PARALLEL SAFE COST 10;
COMMENT ON FUNCTION vjson_error(jsonb, boolean) IS 'why a jsonb is rejected, and where';

CREATE FUNCTION vjson_rounded(text) RETURNS vjson
  AS 'MODULE_PATHNAME' LANGUAGE C IMMUTABLE STRICT PARALLEL SAFE COST 10;
COMMENT ON FUNCTION vjson_rounded(text) IS 'reads a text whose numbers may have more than 38 digits, and rounds them';

-- Subscripts

CREATE FUNCTION vjson_subscript_handler(internal) RETURNS internal
  AS 'MODULE_PATHNAME' LANGUAGE C IMMUTABLE STRICT PARALLEL SAFE;
COMMENT ON FUNCTION vjson_subscript_handler(internal) IS 'vjson subscripting logic';

ALTER TYPE vjson SET (SUBSCRIPT = vjson_subscript_handler);

-- Paths as jsonb's functions take them

CREATE FUNCTION vjson_path(text[]) RETURNS vjson_path
  AS 'MODULE_PATHNAME', 'vjson_path_from_names' LANGUAGE C IMMUTABLE STRICT PARALLEL SAFE;
COMMENT ON FUNCTION vjson_path(text[]) IS 'convert text[] to vjson_path';

CREATE CAST (text[] AS vjson_path) WITH FUNCTION vjson_path(text[]) AS IMPLICIT;
COMMENT ON CAST (text[] AS vjson_path) IS 'convert text[] to vjson_path';

-- Casts of scalars

CREATE FUNCTION vjson_to_bool(vjson) RETURNS boolean
  AS 'MODULE_PATHNAME' LANGUAGE C IMMUTABLE STRICT PARALLEL SAFE;
COMMENT ON FUNCTION vjson_to_bool(vjson) IS 'convert vjson to boolean';

CREATE CAST (vjson AS boolean) WITH FUNCTION vjson_to_bool(vjson);
COMMENT ON CAST (vjson AS boolean) IS 'convert vjson to boolean';

CREATE FUNCTION vjson_to_numeric(vjson) RETURNS numeric
  AS 'MODULE_PATHNAME' LANGUAGE C IMMUTABLE STRICT PARALLEL SAFE;
COMMENT ON FUNCTION vjson_to_numeric(vjson) IS 'convert vjson to numeric';

CREATE CAST (vjson AS numeric) WITH FUNCTION vjson_to_numeric(vjson);
COMMENT ON CAST (vjson AS numeric) IS 'convert vjson to numeric';

CREATE FUNCTION vjson_to_int2(vjson) RETURNS smallint
  AS 'MODULE_PATHNAME' LANGUAGE C IMMUTABLE STRICT PARALLEL SAFE;
COMMENT ON FUNCTION vjson_to_int2(vjson) IS 'convert vjson to smallint';

CREATE CAST (vjson AS smallint) WITH FUNCTION vjson_to_int2(vjson);
COMMENT ON CAST (vjson AS smallint) IS 'convert vjson to smallint';

CREATE FUNCTION vjson_to_int4(vjson) RETURNS integer
  AS 'MODULE_PATHNAME' LANGUAGE C IMMUTABLE STRICT PARALLEL SAFE;
COMMENT ON FUNCTION vjson_to_int4(vjson) IS 'convert vjson to integer';

CREATE CAST (vjson AS integer) WITH FUNCTION vjson_to_int4(vjson);
COMMENT ON CAST (vjson AS integer) IS 'convert vjson to integer';

CREATE FUNCTION vjson_to_int8(vjson) RETURNS bigint
  AS 'MODULE_PATHNAME' LANGUAGE C IMMUTABLE STRICT PARALLEL SAFE;
COMMENT ON FUNCTION vjson_to_int8(vjson) IS 'convert vjson to bigint';

CREATE CAST (vjson AS bigint) WITH FUNCTION vjson_to_int8(vjson);
COMMENT ON CAST (vjson AS bigint) IS 'convert vjson to bigint';

CREATE FUNCTION vjson_to_float4(vjson) RETURNS real
  AS 'MODULE_PATHNAME' LANGUAGE C IMMUTABLE STRICT PARALLEL SAFE;
COMMENT ON FUNCTION vjson_to_float4(vjson) IS 'convert vjson to real';

CREATE CAST (vjson AS real) WITH FUNCTION vjson_to_float4(vjson);
COMMENT ON CAST (vjson AS real) IS 'convert vjson to real';

CREATE FUNCTION vjson_to_float8(vjson) RETURNS double precision
  AS 'MODULE_PATHNAME' LANGUAGE C IMMUTABLE STRICT PARALLEL SAFE;
COMMENT ON FUNCTION vjson_to_float8(vjson) IS 'convert vjson to double precision';

CREATE CAST (vjson AS double precision) WITH FUNCTION vjson_to_float8(vjson);
COMMENT ON CAST (vjson AS double precision) IS 'convert vjson to double precision';
