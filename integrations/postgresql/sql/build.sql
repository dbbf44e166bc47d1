-- Documents made of values of SQL are what jsonb's functions make of them.
SET timezone = 'Asia/Tokyo';
SET DateStyle = 'ISO, YMD';
SET IntervalStyle = 'postgres';
SET bytea_output = 'hex';
SET extra_float_digits = 1;
CREATE TYPE pg_temp.pair AS (n int, "t t" text);
CREATE TEMP TABLE x AS SELECT 1 AS i, 1.50 AS n, -0.25::float8 AS f, 'NaN'::float8 AS nan, true AS b, NULL::int AS none,
  E'x"\\\n'::text AS t, 'ab'::char(5) AS c, date '2020-02-29' AS d, timestamp '2020-01-02 03:04:05.678' AS ts,
  timestamptz '2020-01-02 03:04:05+00' AS tz, interval '1 day 2 hours' AS iv, '\x00ff'::bytea AS by,
  ARRAY[1, NULL, 3] AS a, ARRAY[[1, 2], [3, 4]] AS aa, '{}'::text[] AS e, ROW(1, 'x')::pg_temp.pair AS r,
  ARRAY[ROW(2, NULL)::pg_temp.pair] AS ar, '{"b": 1.00, "a": [null]}'::json AS js,
  '{"b": 1.00, "a": [null]}'::jsonb AS jb, '{"b": 1.00, "a": [null]}'::vjson AS v,
  uuid 'a0eebc99-9c0b-4ef8-bb6d-6bb9bd380a11' AS u, int4range(1, 5) AS ra;
SELECT key, value FROM vjson_each((SELECT to_vjson(x) FROM x));
SELECT to_vjson(x)::jsonb::text = to_jsonb(x)::text AS row,
  vjson_build_array(i, n, f, nan, b, none, t, c, d, ts, tz, iv, by, a, aa, e, r, ar, js, jb, v, u, ra)::jsonb::text
    = jsonb_build_array(i, n, f, nan, b, none, t, c, d, ts, tz, iv, by, a, aa, e, r, ar, js, jb, v, u, ra)::text
    AS array,
  vjson_build_object('a', i, n, f, t, none, 1, r, true, js, d, v, 'a', n)::jsonb::text
    = jsonb_build_object('a', i, n, f, t, none, 1, r, true, js, d, v, 'a', n)::text AS object FROM x;
SELECT vjson_build_array(1, 'x', NULL, 2.50, true, ARRAY[1, 2], '{"z": 0}'::vjson);
SELECT vjson_build_object('b', 1.50, 'a', date '2026-11-26', 3, '[1, 2]'::json, 'b', 'last');
SELECT vjson_build_array(), vjson_build_object();
SELECT vjson_build_array(VARIADIC ARRAY[1, NULL]), vjson_build_object(VARIADIC ARRAY['a', '1', 'b', NULL]),
  vjson_build_array(VARIADIC NULL::text[]) IS NULL AS none;
SELECT to_vjson('x'::text), to_vjson(1.50), to_vjson(NULL::int) IS NULL AS none, to_vjson(ARRAY['a', NULL]);
SELECT vjson_build_array('"\u0000"'::vjson), vjson_build_array('1.0'::vjson, ARRAY['2.00'::vjson]);

-- Aggregates
SELECT g, vjson_agg(n ORDER BY i), vjson_object_agg(i, n) FROM (SELECT i, i % 2 AS g, i * 0.50 AS n
  FROM generate_series(1, 6) i) x GROUP BY g ORDER BY g;
SELECT vjson_agg(i) IS NULL AS none, vjson_object_agg(i, i) IS NULL AS none FROM generate_series(1, 0) i;
SELECT vjson_agg(DISTINCT n ORDER BY n DESC) FROM (VALUES (1), (3), (1), (NULL)) x(n);
SELECT vjson_agg(n) FILTER (WHERE n > 1) FROM (VALUES (1), (2), (3)) x(n);
SELECT vjson_object_agg(n, v) FROM (VALUES ('b', 1), ('a', 2), ('b', NULL), ('aa', 4)) x(n, v);
SELECT vjson_agg(v ORDER BY id)::jsonb::text = jsonb_agg(j ORDER BY id)::text AS documents,
  vjson_object_agg(id, v)::jsonb::text = jsonb_object_agg(id, j)::text AS members,
  vjson_agg(d ORDER BY id)::jsonb::text = jsonb_agg(d ORDER BY id)::text AS rows FROM documents d;

-- What is rejected
SELECT vjson_build_object('a');
SELECT jsonb_build_object('a');
SELECT vjson_build_object(NULL, 1);
SELECT vjson_build_object('{}'::json, 1);
SELECT vjson_build_object('1'::vjson, 1);
SELECT vjson_object_agg(NULL::text, 1);
SELECT vjson_build_array(('1' || repeat('0', 40))::numeric);
SELECT to_vjson(1e300::float8);
SELECT vjson_build_array('"\u0000"'::json);
DROP TABLE x;
DROP TYPE pg_temp.pair;
RESET timezone;
RESET DateStyle;
RESET IntervalStyle;
RESET bytea_output;
RESET extra_float_digits;
