-- Parts. The operators and functions that jsonb has too give what jsonb's give; each query finds no difference.
-- The text of an array or an object differs in its spaces, so that it is compared as jsonb.
CREATE FUNCTION pg_temp.same_text(mine text, theirs text, whole jsonb) RETURNS boolean LANGUAGE sql AS $$
  SELECT CASE WHEN jsonb_typeof(whole) IN ('object', 'array') THEN mine::jsonb::text = theirs::jsonb::text
    ELSE mine IS NOT DISTINCT FROM theirs END $$;

SELECT count(*) AS tried, count(v -> name) AS found FROM documents, names;
SELECT v, name, v -> name FROM documents, names WHERE (v -> name)::jsonb::text IS DISTINCT FROM (j -> name)::text;
SELECT v, name, v ->> name FROM documents, names WHERE NOT pg_temp.same_text(v ->> name, j ->> name, j -> name);
SELECT count(v -> i) AS found FROM documents, generate_series(-4, 4) i;
SELECT v, i, v -> i FROM documents, generate_series(-4, 4) i
  WHERE (v -> i)::jsonb::text IS DISTINCT FROM (j -> i)::text;
SELECT v, i, v ->> i FROM documents, generate_series(-4, 4) i WHERE NOT pg_temp.same_text(v ->> i, j ->> i, j -> i);
SELECT '[1,2]'::vjson -> 2147483647 IS NULL AS far, '[1,2]'::vjson -> (-2147483648) IS NULL AS far_behind,
  '[]'::vjson -> 0 IS NULL AS none, '[7.0]'::vjson -> -1 AS last;

-- A JSON Pointer beside the names of jsonb.
CREATE TEMP VIEW paths AS
  SELECT ARRAY[m.name, n.name] AS names, ('/' || replace(replace(m.name, '~', '~0'), '/', '~1') || '/' ||
    replace(replace(n.name, '~', '~0'), '/', '~1'))::vjson_path AS path FROM names m, names n;
SELECT count(*) AS tried, count(v #> path) AS found FROM documents, paths;
SELECT v, path, v #> path FROM documents, paths WHERE (v #> path)::jsonb::text IS DISTINCT FROM (j #> names)::text;
SELECT v, path, v #>> path FROM documents, paths WHERE NOT pg_temp.same_text(v #>> path, j #>> names, j #> names);
SELECT path, doc #> path AS part, doc #>> path AS text
  FROM (SELECT '{"a":{"b":[1,2.50,{"c":null}]}, "x/y":{"m~n":"q"}, "":4}'::vjson AS doc) d, (VALUES (1, ''),
    (2, '/a/b/1'), (3, '/a/b/2'), (4, '/a/b/2/c'), (5, '/x~1y/m~0n'), (6, '/'), (7, '/a/b/3'), (8, '/a/b/01'),
    (9, '/a/b/-'), (10, '/a/b/-1'), (11, '/a/b/1/x'), (12, '/b')) p(n, path) ORDER BY n;
SELECT v, names, v #> names FROM documents, paths
  WHERE (v #> names)::jsonb::text IS DISTINCT FROM (j #> names)::text OR v #> names IS DISTINCT FROM v #> names::text;
SELECT doc #> '{a,b,1}' AS literal, doc #> ARRAY['a', 'b', '-1'] AS last, doc #>> '{x/y,m~n}' AS text, doc #- '{a,b}' AS without,
  vjson_set(doc, '{a,b,0}', '7.0') AS set, doc #> '{}' = doc AS whole
  FROM (SELECT '{"a":{"b":[1,2.50]}, "x/y":{"m~n":"q"}}'::vjson AS doc) d;
SELECT '{a,"b/c~,"}'::vjson_path, ARRAY['x', '']::vjson_path;
SELECT '1'::vjson #> '{a,NULL}';
SELECT '1'::vjson #> 'a';
SELECT vjson_get('{"a":1.0}', '/a'), vjson_get_text('{"a":"x"}', '/a');

-- Names that are there.
SELECT count(*) FILTER (WHERE v ? name) AS found FROM documents, names;
SELECT v, name FROM documents, names WHERE (v ? name) <> (j ? name);
SELECT v, names FROM documents, paths WHERE (v ?| names, v ?& names) <> (j ?| names, j ?& names);
SELECT v FROM documents WHERE (v ?| ARRAY['a', NULL], v ?& ARRAY['a', NULL], v ?| '{}', v ?& '{}')
  IS DISTINCT FROM (j ?| ARRAY['a', NULL], j ?& ARRAY['a', NULL], j ?| '{}', j ?& '{}');
SELECT '{"a":1}'::vjson ? 'a' AS name, '["a"]'::vjson ? 'a' AS item, '"a"'::vjson ? 'a' AS string,
  '{"b":"a"}'::vjson ? 'a' AS value;

-- Kinds and lengths.
SELECT v FROM documents WHERE vjson_typeof(v) IS DISTINCT FROM jsonb_typeof(j);
SELECT v FROM documents WHERE jsonb_typeof(j) = 'array' AND vjson_array_length(v) <> jsonb_array_length(j);
SELECT vjson_array_length('{}');
SELECT jsonb_array_length('{}');
SELECT vjson_array_length('1');

-- Members and items, each with its place. The names are in the order of their bytes.
SELECT v, x.* FROM (SELECT * FROM documents WHERE jsonb_typeof(j) = 'object') d, LATERAL
  (SELECT key, value::jsonb::text FROM vjson_each(v) EXCEPT ALL SELECT key, value::text FROM jsonb_each(j)) x;
SELECT v, x.* FROM (SELECT * FROM documents WHERE jsonb_typeof(j) = 'object') d, LATERAL
  (SELECT key, value::text FROM jsonb_each(j) EXCEPT ALL SELECT key, value::jsonb::text FROM vjson_each(v)) x;
SELECT v, key FROM (SELECT * FROM documents WHERE jsonb_typeof(j) = 'object') d, LATERAL vjson_each_text(v) x
  FULL JOIN LATERAL jsonb_each_text(j) y USING (key) WHERE NOT pg_temp.same_text(x.value, y.value, j -> key);
SELECT v FROM documents WHERE jsonb_typeof(j) = 'object' AND ARRAY(SELECT vjson_object_keys(v))
  IS DISTINCT FROM ARRAY(SELECT k FROM jsonb_object_keys(j) k ORDER BY k COLLATE "C");
SELECT v FROM documents WHERE jsonb_typeof(j) = 'array' AND ARRAY(SELECT x::jsonb::text FROM vjson_array_elements(v) x)
  IS DISTINCT FROM ARRAY(SELECT x::text FROM jsonb_array_elements(j) x);
SELECT v FROM (SELECT * FROM documents WHERE jsonb_typeof(j) = 'array') d,
  LATERAL ROWS FROM (vjson_array_elements_text(v), jsonb_array_elements_text(j)) WITH ORDINALITY x(mine, theirs, n)
  WHERE NOT pg_temp.same_text(mine, theirs, j -> (n - 1)::int);
SELECT * FROM vjson_each('{"b":[1.50],"aa":null,"a":"x"}');
SELECT * FROM vjson_each_text('{"b":[1.50],"aa":null,"a":"x"}');
SELECT vjson_object_keys('{"b":1,"aa":2,"a":3}');
SELECT * FROM vjson_array_elements('[2.0,"x",null,{"b":[]}]');
SELECT * FROM vjson_array_elements_text('[2.0,"x",null,{"b":[]}]');
SELECT * FROM vjson_each('[]');
SELECT * FROM vjson_each_text('1');
SELECT vjson_object_keys('[]');
SELECT vjson_object_keys('"a"');
SELECT * FROM vjson_array_elements('{}');
SELECT * FROM vjson_array_elements_text('1');

-- \u0000 is in documents, but in no text.
SELECT '{"a":"\u0000"}'::vjson -> 'a';
SELECT '{"a":"\u0000"}'::vjson ->> 'a';
SELECT * FROM vjson_each('{"\u0000":1}');
DROP FUNCTION pg_temp.same_text;
DROP VIEW paths;
