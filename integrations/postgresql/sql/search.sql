-- jsonpath: what it answers of a document is what it answers of a jsonb.
CREATE TABLE jsonpaths (path jsonpath);
INSERT INTO jsonpaths VALUES ('$'), ('$.a'), ('strict $.a'), ('$.a.a.a'), ('$[*]'), ('strict $[*].a'), ('$[last]'), ('$.*'),
  ('$.**.b'), ('$[*] ? (@.a > 1)'), ('$ ? (exists(@.a ? (@ == 1)))'), ('$.a[*] ? (@.b == "x")'), ('$.a.type()'),
  ('$.keyvalue().key'), ('$.a + 1'), ('-$.a[*]'), ('$.a == $x'), ('$.a like_regex "^a"'), ('$.a starts with "a"'), ('$x'),
  ('$[0].a[1]'), ('$.a[$.b]'), ('$."a/b"'), ('$.size()');
CREATE FUNCTION answers(v vjson, p jsonpath) RETURNS text LANGUAGE plpgsql AS $$
BEGIN
  RETURN concat_ws(' ', v @? p, v @@ p, vjson_path_exists(v, p, '{"x":1}'), vjson_path_query_array(v, p, '{"x":1}')::jsonb,
    vjson_path_query_first(v, p, '{"x":1}')::jsonb, vjson_path_match(v, p, '{"x":1}', true),
    (SELECT array_agg(x::jsonb) FROM vjson_path_query(v, p, '{"x":1}') x), vjson_path_exists_tz(v, p, '{"x":1}'),
    vjson_path_match_tz(v, p, '{"x":1}', true), vjson_path_query_array_tz(v, p, '{"x":1}')::jsonb,
    vjson_path_query_first_tz(v, p, '{"x":1}')::jsonb, (SELECT array_agg(x::jsonb) FROM vjson_path_query_tz(v, p, '{"x":1}') x));
EXCEPTION WHEN OTHERS THEN RETURN SQLSTATE || ' ' || SQLERRM;
END $$;
CREATE FUNCTION answers(j jsonb, p jsonpath) RETURNS text LANGUAGE plpgsql AS $$
BEGIN
  RETURN concat_ws(' ', j @? p, j @@ p, jsonb_path_exists(j, p, '{"x":1}'), jsonb_path_query_array(j, p, '{"x":1}'),
    jsonb_path_query_first(j, p, '{"x":1}'), jsonb_path_match(j, p, '{"x":1}', true),
    (SELECT array_agg(x) FROM jsonb_path_query(j, p, '{"x":1}') x), jsonb_path_exists_tz(j, p, '{"x":1}'),
    jsonb_path_match_tz(j, p, '{"x":1}', true), jsonb_path_query_array_tz(j, p, '{"x":1}'),
    jsonb_path_query_first_tz(j, p, '{"x":1}'), (SELECT array_agg(x) FROM jsonb_path_query_tz(j, p, '{"x":1}') x));
EXCEPTION WHEN OTHERS THEN RETURN SQLSTATE || ' ' || SQLERRM;
END $$;
SELECT v, path, answers(v, path), answers(j, path) FROM documents, jsonpaths
  WHERE id % 11 = 0 AND answers(v, path) IS DISTINCT FROM answers(j, path);
SELECT count(DISTINCT answers(v, path)) > 50 AS some FROM documents, jsonpaths WHERE id % 11 = 0;
SELECT vjson_path_query('[1,2.50,"x",{"a":3.0}]', '$[*]');
SELECT vjson_path_query(target => '[1,2.50,3]', path => '$[*] ? (@ > $x)', vars => '{"x":2}');
SELECT vjson_path_match('{}', 'strict $.a == 1', silent => true), vjson_path_query_first('[]', '$[0]') IS NULL AS none;
SELECT vjson_path_match('{}', 'strict $.a == 1');
SELECT vjson_path_match('1', '$');
SELECT vjson_path_exists('{"a":1}', '$.a', '[]');

-- The members that a jsonpath doesn't name aren't looked at.
SELECT doc @? '$.a', vjson_path_query(doc, '$.a.b') FROM (VALUES ('{"a":{"b":[1.50]},"c":"\u0000"}'::vjson)) x(doc);
SELECT '{"a":"\u0000"}'::vjson @? '$.a', '{"a":"\u0000"}'::vjson @? '$.b', vjson_path_query_first('{"a":"\u0000"}', '$.a');
SELECT '{"a":"\u0000"}'::vjson @? '$.a ? (@ == "x")';

-- Text search
SELECT v FROM documents WHERE to_tsvector('english', v) <> to_tsvector('english', j) OR to_tsvector(v) <> to_tsvector(j)
  OR vjson_to_tsvector(v, '"all"') <> jsonb_to_tsvector(j, '"all"')
  OR vjson_to_tsvector('simple', v, '["key","numeric"]') <> jsonb_to_tsvector('simple', j, '["key","numeric"]')
  OR ts_headline(v, 'a | b')::jsonb <> ts_headline(j, 'a | b')
  OR ts_headline('simple', v, 'a | b')::jsonb <> ts_headline('simple', j, 'a | b')
  OR ts_headline(v, 'a', 'StartSel=<')::jsonb <> ts_headline(j, 'a', 'StartSel=<')
  OR ts_headline('simple', v, 'a', 'StartSel=<')::jsonb <> ts_headline('simple', j, 'a', 'StartSel=<');
SELECT to_tsvector('english', '{"title":"The quick foxes","lines":["jump over",1.50]}'::vjson);
SELECT vjson_to_tsvector('english', '{"title":"The quick foxes","lines":["jump over",1.50,true]}', '["key","numeric","boolean"]');
SELECT ts_headline('english', '{"title":"The quick foxes","price":1.50}'::vjson, 'fox'::tsquery);
SELECT vjson_to_tsvector('{}', '"x"');

-- GIN indexes of vjson_ops
CREATE TABLE looked AS SELECT id, v, j FROM documents;
INSERT INTO looked VALUES (0, NULL, NULL);
CREATE TABLE asked AS SELECT v, j FROM documents WHERE id % 4 = 0;
INSERT INTO asked SELECT t::vjson, t::jsonb FROM (VALUES ('{}'), ('[]'), ('{"a":{}}'), ('{"a":[]}'), ('[[]]'), ('"a"'), ('["a"]')) x(t);
CREATE INDEX looked_v ON looked USING gin (v vjson_ops);
ANALYZE looked;
SET enable_seqscan = off;
EXPLAIN (COSTS OFF) SELECT id FROM looked WHERE v ? 'a';
CREATE TEMP TABLE by_index AS
  SELECT '?' AS operator, name AS asked, id FROM names JOIN looked ON v ? name
  UNION ALL SELECT '?|', a.name || b.name, id FROM names a, names b, looked WHERE v ?| ARRAY[a.name, b.name, NULL]
  UNION ALL SELECT '?&', a.name || b.name, id FROM names a, names b, looked WHERE v ?& ARRAY[a.name, b.name, NULL]
  UNION ALL SELECT '@>', a.j::text, id FROM asked a JOIN looked l ON l.v @> a.v
  UNION ALL SELECT '=', a.j::text, id FROM asked a JOIN looked l ON l.v = a.v;
SELECT count(*) AS every FROM looked WHERE v ?& '{}';
SELECT count(*) AS none FROM looked WHERE v ?| '{}';
RESET enable_seqscan;
CREATE TEMP TABLE by_jsonb AS
  SELECT '?' AS operator, name AS asked, id FROM names JOIN looked ON j ? name
  UNION ALL SELECT '?|', a.name || b.name, id FROM names a, names b, looked WHERE j ?| ARRAY[a.name, b.name]
  UNION ALL SELECT '?&', a.name || b.name, id FROM names a, names b, looked WHERE j ?& ARRAY[a.name, b.name]
  UNION ALL SELECT '@>', a.j::text, id FROM asked a JOIN looked l ON l.j @> a.j
  UNION ALL SELECT '=', a.j::text, id FROM asked a JOIN looked l ON l.j = a.j;
SELECT operator, count(*) > 0 AS found FROM by_index GROUP BY operator ORDER BY operator COLLATE "C";
TABLE by_index EXCEPT ALL TABLE by_jsonb;
TABLE by_jsonb EXCEPT ALL TABLE by_index;
DROP TABLE looked, asked, jsonpaths;
DROP FUNCTION answers(vjson, jsonpath), answers(jsonb, jsonpath);
