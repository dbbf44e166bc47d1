-- Casts
SELECT castsource::regtype, casttarget::regtype, castcontext FROM pg_cast
  WHERE 'vjson'::regtype IN (castsource, casttarget)
  ORDER BY casttarget::regtype::text COLLATE "C", castsource::regtype::text COLLATE "C";

-- From and to text, json and jsonb
SELECT v FROM documents WHERE v::text::vjson::text <> v::text OR v::json::vjson::text <> v::text
  OR v::jsonb::vjson::text <> v::text OR v::jsonb::text <> j::text OR v::json::jsonb::text <> j::text;
SELECT v FROM documents WHERE j::vjson::text <> v::text OR j::text::json::vjson::text <> v::text;
CREATE TEMP TABLE a (t text, j json, b jsonb, v vjson, w vjson);
INSERT INTO a SELECT v, v, v, v::json, v::jsonb FROM (VALUES ('[1, 2.50]'::vjson)) x(v);
SELECT * FROM a;
INSERT INTO a (v) SELECT '1'::text;
SELECT '1e5'::json::vjson;
SELECT ('1' || repeat('0', 40))::jsonb::vjson;
SELECT '{"a":1,"a":2}'::json::vjson;
SELECT '"\u0000"'::vjson::json;
SELECT '"\u0000"'::vjson::jsonb;

-- To numbers and to boolean
SELECT v FROM documents WHERE jsonb_typeof(j) = 'number' AND v::numeric::text <> j::numeric::text;
SELECT v FROM documents WHERE jsonb_typeof(j) = 'number' AND abs(j::numeric) < 1000
  AND (v::smallint, v::integer, v::bigint, v::real, v::double precision)
    <> (j::smallint, j::integer, j::bigint, j::real, j::double precision);
SELECT v FROM documents WHERE jsonb_typeof(j) = 'boolean' AND v::boolean <> j::boolean;
SELECT '2.50'::vjson::numeric, '2.50'::vjson::int, '-2.50'::vjson::bigint, '1.25'::vjson::float8,
  'true'::vjson::boolean;
SELECT 'null'::vjson::numeric;
SELECT 'null'::jsonb::numeric;
SELECT '"1"'::vjson::bigint;
SELECT '[1]'::vjson::integer;
SELECT '{}'::vjson::boolean;
SELECT 'true'::vjson::integer;
SELECT '1'::vjson::boolean;
SELECT '99999999999'::vjson::integer;
SELECT '32768'::vjson::smallint;
