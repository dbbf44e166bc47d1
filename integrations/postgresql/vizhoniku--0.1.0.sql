/* The extension vizhoniku 0.1.0: the type vjson */

-- complain if the script is run by psql rather than by CREATE EXTENSION
\echo Use "CREATE EXTENSION vizhoniku" to load this file. \quit

-- The type

CREATE TYPE vjson;

CREATE FUNCTION vjson_in(cstring) RETURNS vjson
  AS 'MODULE_PATHNAME' LANGUAGE C IMMUTABLE STRICT PARALLEL SAFE COST 10;
COMMENT ON FUNCTION vjson_in(cstring) IS 'I/O';

CREATE FUNCTION vjson_out(vjson) RETURNS cstring
  AS 'MODULE_PATHNAME' LANGUAGE C IMMUTABLE STRICT PARALLEL SAFE;
COMMENT ON FUNCTION vjson_out(vjson) IS 'I/O';

CREATE FUNCTION vjson_recv(internal) RETURNS vjson
  AS 'MODULE_PATHNAME' LANGUAGE C IMMUTABLE STRICT PARALLEL SAFE COST 10;
COMMENT ON FUNCTION vjson_recv(internal) IS 'I/O';

CREATE FUNCTION vjson_send(vjson) RETURNS bytea
  AS 'MODULE_PATHNAME' LANGUAGE C IMMUTABLE STRICT PARALLEL SAFE;
COMMENT ON FUNCTION vjson_send(vjson) IS 'I/O';

CREATE TYPE vjson (
  INPUT = vjson_in,
  OUTPUT = vjson_out,
  RECEIVE = vjson_recv,
  SEND = vjson_send,
  INTERNALLENGTH = VARIABLE,
  STORAGE = extended
);
COMMENT ON TYPE vjson IS 'JSON document, compared by value';

-- Functions

CREATE FUNCTION vjson_extended(text) RETURNS vjson
  AS 'MODULE_PATHNAME' LANGUAGE C IMMUTABLE STRICT PARALLEL SAFE COST 10;
COMMENT ON FUNCTION vjson_extended(text)
  IS 'reads a text of extended mode: comments, keys without quotes, hexadecimals and more';

CREATE FUNCTION vjson_sort_key(vjson) RETURNS bytea
  AS 'MODULE_PATHNAME' LANGUAGE C IMMUTABLE STRICT PARALLEL SAFE;
COMMENT ON FUNCTION vjson_sort_key(vjson) IS 'bytes that compare as the document does, equal for equal documents';

-- Paths. Their type has no collation, so that postgres_fdw asks for parts at the servers that have the documents.

CREATE TYPE vjson_path;

CREATE FUNCTION vjson_path_in(cstring) RETURNS vjson_path
  AS 'MODULE_PATHNAME' LANGUAGE C IMMUTABLE STRICT PARALLEL SAFE;
COMMENT ON FUNCTION vjson_path_in(cstring) IS 'I/O';

CREATE FUNCTION vjson_path_out(vjson_path) RETURNS cstring
  AS 'textout' LANGUAGE internal IMMUTABLE STRICT PARALLEL SAFE;
COMMENT ON FUNCTION vjson_path_out(vjson_path) IS 'I/O';

CREATE FUNCTION vjson_path_recv(internal) RETURNS vjson_path
  AS 'MODULE_PATHNAME' LANGUAGE C IMMUTABLE STRICT PARALLEL SAFE;
COMMENT ON FUNCTION vjson_path_recv(internal) IS 'I/O';

CREATE FUNCTION vjson_path_send(vjson_path) RETURNS bytea
  AS 'textsend' LANGUAGE internal IMMUTABLE STRICT PARALLEL SAFE;
COMMENT ON FUNCTION vjson_path_send(vjson_path) IS 'I/O';

CREATE TYPE vjson_path (
  INPUT = vjson_path_in,
  OUTPUT = vjson_path_out,
  RECEIVE = vjson_path_recv,
  SEND = vjson_path_send,
  INTERNALLENGTH = VARIABLE,
  STORAGE = extended
);
COMMENT ON TYPE vjson_path IS 'path of a part of a JSON document, as RFC 6901 spells it';

CREATE FUNCTION vjson_path(text) RETURNS vjson_path
  AS 'MODULE_PATHNAME', 'vjson_path_from_text' LANGUAGE C IMMUTABLE STRICT PARALLEL SAFE;
COMMENT ON FUNCTION vjson_path(text) IS 'convert text to vjson_path';

CREATE CAST (text AS vjson_path) WITH FUNCTION vjson_path(text) AS IMPLICIT;
COMMENT ON CAST (text AS vjson_path) IS 'convert text to vjson_path';

CREATE CAST (vjson_path AS text) WITHOUT FUNCTION AS ASSIGNMENT;
COMMENT ON CAST (vjson_path AS text) IS 'convert vjson_path to text';

CREATE FUNCTION vjson_get(vjson, path vjson_path) RETURNS vjson
  AS 'MODULE_PATHNAME' LANGUAGE C IMMUTABLE STRICT PARALLEL SAFE COST 2;
COMMENT ON FUNCTION vjson_get(vjson, vjson_path) IS 'the part at a path, or NULL';

CREATE OPERATOR #> (
  LEFTARG = vjson,
  RIGHTARG = vjson_path,
  FUNCTION = vjson_get
);
COMMENT ON OPERATOR #> (vjson, vjson_path) IS 'the part at a path, or NULL';

CREATE FUNCTION vjson_get_text(vjson, path vjson_path) RETURNS text
  AS 'MODULE_PATHNAME' LANGUAGE C IMMUTABLE STRICT PARALLEL SAFE COST 2;
COMMENT ON FUNCTION vjson_get_text(vjson, vjson_path) IS 'the part at a path as text, or NULL';

CREATE OPERATOR #>> (
  LEFTARG = vjson,
  RIGHTARG = vjson_path,
  FUNCTION = vjson_get_text
);
COMMENT ON OPERATOR #>> (vjson, vjson_path) IS 'the part at a path as text, or NULL';

-- Casts. Those from and to text are the server's own: to text in assignments, from text where it is asked for.

CREATE FUNCTION vjson_from_json(json) RETURNS vjson
  AS 'MODULE_PATHNAME' LANGUAGE C IMMUTABLE STRICT PARALLEL SAFE COST 10;
COMMENT ON FUNCTION vjson_from_json(json) IS 'convert json to vjson';

CREATE FUNCTION vjson_from_jsonb(jsonb) RETURNS vjson
  AS 'MODULE_PATHNAME' LANGUAGE C IMMUTABLE STRICT PARALLEL SAFE COST 10;
COMMENT ON FUNCTION vjson_from_jsonb(jsonb) IS 'convert jsonb to vjson';

CREATE FUNCTION vjson_to_json(vjson) RETURNS json
  AS 'MODULE_PATHNAME' LANGUAGE C IMMUTABLE STRICT PARALLEL SAFE COST 10;
COMMENT ON FUNCTION vjson_to_json(vjson) IS 'convert vjson to json';

CREATE FUNCTION vjson_to_jsonb(vjson) RETURNS jsonb
  AS 'MODULE_PATHNAME' LANGUAGE C IMMUTABLE STRICT PARALLEL SAFE COST 10;
COMMENT ON FUNCTION vjson_to_jsonb(vjson) IS 'convert vjson to jsonb';

CREATE CAST (json AS vjson) WITH FUNCTION vjson_from_json(json) AS ASSIGNMENT;
COMMENT ON CAST (json AS vjson) IS 'convert json to vjson';

CREATE CAST (jsonb AS vjson) WITH FUNCTION vjson_from_jsonb(jsonb) AS ASSIGNMENT;
COMMENT ON CAST (jsonb AS vjson) IS 'convert jsonb to vjson';

CREATE CAST (vjson AS json) WITH FUNCTION vjson_to_json(vjson) AS ASSIGNMENT;
COMMENT ON CAST (vjson AS json) IS 'convert vjson to json';

CREATE CAST (vjson AS jsonb) WITH FUNCTION vjson_to_jsonb(vjson) AS ASSIGNMENT;
COMMENT ON CAST (vjson AS jsonb) IS 'convert vjson to jsonb';

-- Comparison. It tells nothing of its operands but the result, so that with row security indexes are used too.

CREATE FUNCTION vjson_eq(vjson, vjson) RETURNS boolean
  AS 'MODULE_PATHNAME' LANGUAGE C IMMUTABLE STRICT LEAKPROOF PARALLEL SAFE;
COMMENT ON FUNCTION vjson_eq(vjson, vjson) IS 'implementation of = operator';

CREATE FUNCTION vjson_ne(vjson, vjson) RETURNS boolean
  AS 'MODULE_PATHNAME' LANGUAGE C IMMUTABLE STRICT LEAKPROOF PARALLEL SAFE;
COMMENT ON FUNCTION vjson_ne(vjson, vjson) IS 'implementation of <> operator';

CREATE FUNCTION vjson_lt(vjson, vjson) RETURNS boolean
  AS 'MODULE_PATHNAME' LANGUAGE C IMMUTABLE STRICT LEAKPROOF PARALLEL SAFE;
COMMENT ON FUNCTION vjson_lt(vjson, vjson) IS 'implementation of < operator';

CREATE FUNCTION vjson_le(vjson, vjson) RETURNS boolean
  AS 'MODULE_PATHNAME' LANGUAGE C IMMUTABLE STRICT LEAKPROOF PARALLEL SAFE;
COMMENT ON FUNCTION vjson_le(vjson, vjson) IS 'implementation of <= operator';

CREATE FUNCTION vjson_gt(vjson, vjson) RETURNS boolean
  AS 'MODULE_PATHNAME' LANGUAGE C IMMUTABLE STRICT LEAKPROOF PARALLEL SAFE;
COMMENT ON FUNCTION vjson_gt(vjson, vjson) IS 'implementation of > operator';

CREATE FUNCTION vjson_ge(vjson, vjson) RETURNS boolean
  AS 'MODULE_PATHNAME' LANGUAGE C IMMUTABLE STRICT LEAKPROOF PARALLEL SAFE;
COMMENT ON FUNCTION vjson_ge(vjson, vjson) IS 'implementation of >= operator';

CREATE OPERATOR = (
  LEFTARG = vjson,
  RIGHTARG = vjson,
  FUNCTION = vjson_eq,
  COMMUTATOR = =,
  NEGATOR = <>,
  RESTRICT = eqsel,
  JOIN = eqjoinsel,
  HASHES,
  MERGES
);
COMMENT ON OPERATOR = (vjson, vjson) IS 'equal';

CREATE OPERATOR <> (
  LEFTARG = vjson,
  RIGHTARG = vjson,
  FUNCTION = vjson_ne,
  COMMUTATOR = <>,
  NEGATOR = =,
  RESTRICT = neqsel,
  JOIN = neqjoinsel
);
COMMENT ON OPERATOR <> (vjson, vjson) IS 'not equal';

CREATE OPERATOR < (
  LEFTARG = vjson,
  RIGHTARG = vjson,
  FUNCTION = vjson_lt,
  COMMUTATOR = >,
  NEGATOR = >=,
  RESTRICT = scalarltsel,
  JOIN = scalarltjoinsel
);
COMMENT ON OPERATOR < (vjson, vjson) IS 'less than';

CREATE OPERATOR <= (
  LEFTARG = vjson,
  RIGHTARG = vjson,
  FUNCTION = vjson_le,
  COMMUTATOR = >=,
  NEGATOR = >,
  RESTRICT = scalarlesel,
  JOIN = scalarlejoinsel
);
COMMENT ON OPERATOR <= (vjson, vjson) IS 'less than or equal';

CREATE OPERATOR > (
  LEFTARG = vjson,
  RIGHTARG = vjson,
  FUNCTION = vjson_gt,
  COMMUTATOR = <,
  NEGATOR = <=,
  RESTRICT = scalargtsel,
  JOIN = scalargtjoinsel
);
COMMENT ON OPERATOR > (vjson, vjson) IS 'greater than';

CREATE OPERATOR >= (
  LEFTARG = vjson,
  RIGHTARG = vjson,
  FUNCTION = vjson_ge,
  COMMUTATOR = <=,
  NEGATOR = <,
  RESTRICT = scalargesel,
  JOIN = scalargejoinsel
);
COMMENT ON OPERATOR >= (vjson, vjson) IS 'greater than or equal';

-- Indexes. Equal documents may be spelled differently (1 and 1.0), so there is no support function equalimage.

CREATE FUNCTION vjson_cmp(vjson, vjson) RETURNS integer
  AS 'MODULE_PATHNAME' LANGUAGE C IMMUTABLE STRICT LEAKPROOF PARALLEL SAFE;
COMMENT ON FUNCTION vjson_cmp(vjson, vjson) IS 'less-equal-greater';

CREATE FUNCTION vjson_sortsupport(internal) RETURNS void
  AS 'MODULE_PATHNAME' LANGUAGE C IMMUTABLE STRICT PARALLEL SAFE;
COMMENT ON FUNCTION vjson_sortsupport(internal) IS 'sort support';

CREATE FUNCTION vjson_hash(vjson) RETURNS integer
  AS 'MODULE_PATHNAME' LANGUAGE C IMMUTABLE STRICT PARALLEL SAFE;
COMMENT ON FUNCTION vjson_hash(vjson) IS 'hash';

CREATE FUNCTION vjson_hash_extended(vjson, bigint) RETURNS bigint
  AS 'MODULE_PATHNAME' LANGUAGE C IMMUTABLE STRICT PARALLEL SAFE;
COMMENT ON FUNCTION vjson_hash_extended(vjson, bigint) IS 'hash';

CREATE OPERATOR FAMILY vjson_ops USING btree;
COMMENT ON OPERATOR FAMILY vjson_ops USING btree IS 'documents in the order of their values';

CREATE OPERATOR CLASS vjson_ops DEFAULT FOR TYPE vjson USING btree FAMILY vjson_ops AS
  OPERATOR 1 <,
  OPERATOR 2 <=,
  OPERATOR 3 =,
  OPERATOR 4 >=,
  OPERATOR 5 >,
  FUNCTION 1 vjson_cmp(vjson, vjson),
  FUNCTION 2 vjson_sortsupport(internal);
COMMENT ON OPERATOR CLASS vjson_ops USING btree IS 'documents in the order of their values';

CREATE OPERATOR FAMILY vjson_ops USING hash;
COMMENT ON OPERATOR FAMILY vjson_ops USING hash IS 'documents by value';

CREATE OPERATOR CLASS vjson_ops DEFAULT FOR TYPE vjson USING hash FAMILY vjson_ops AS
  OPERATOR 1 =,
  FUNCTION 1 vjson_hash(vjson),
  FUNCTION 2 vjson_hash_extended(vjson, bigint);
COMMENT ON OPERATOR CLASS vjson_ops USING hash IS 'documents by value';

-- A BRIN index keeps the least and the greatest document of each range of blocks.

CREATE OPERATOR FAMILY vjson_ops USING brin;
COMMENT ON OPERATOR FAMILY vjson_ops USING brin IS 'documents in the order of their values';

CREATE OPERATOR CLASS vjson_ops DEFAULT FOR TYPE vjson USING brin FAMILY vjson_ops AS
  OPERATOR 1 <,
  OPERATOR 2 <=,
  OPERATOR 3 =,
  OPERATOR 4 >=,
  OPERATOR 5 >,
  FUNCTION 1 brin_minmax_opcinfo(internal),
  FUNCTION 2 brin_minmax_add_value(internal, internal, internal, internal),
  FUNCTION 3 brin_minmax_consistent(internal, internal, internal),
  FUNCTION 4 brin_minmax_union(internal, internal, internal);
COMMENT ON OPERATOR CLASS vjson_ops USING brin IS 'documents in the order of their values';

-- Aggregates

CREATE FUNCTION vjson_smaller(vjson, vjson) RETURNS vjson
  AS 'MODULE_PATHNAME' LANGUAGE C IMMUTABLE STRICT PARALLEL SAFE;
COMMENT ON FUNCTION vjson_smaller(vjson, vjson) IS 'smaller of two';

CREATE FUNCTION vjson_larger(vjson, vjson) RETURNS vjson
  AS 'MODULE_PATHNAME' LANGUAGE C IMMUTABLE STRICT PARALLEL SAFE;
COMMENT ON FUNCTION vjson_larger(vjson, vjson) IS 'larger of two';

CREATE AGGREGATE min(vjson) (
  SFUNC = vjson_smaller,
  STYPE = vjson,
  COMBINEFUNC = vjson_smaller,
  SORTOP = <,
  PARALLEL = SAFE
);
COMMENT ON AGGREGATE min(vjson) IS 'minimum value of all vjson input values';

CREATE AGGREGATE max(vjson) (
  SFUNC = vjson_larger,
  STYPE = vjson,
  COMBINEFUNC = vjson_larger,
  SORTOP = >,
  PARALLEL = SAFE
);
COMMENT ON AGGREGATE max(vjson) IS 'maximum value of all vjson input values';
