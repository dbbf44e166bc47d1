-- Subscripts, read and assigned to, as jsonb has them.
SELECT v, name, v[name] FROM documents, names WHERE v[name]::jsonb::text IS DISTINCT FROM j[name]::text;
SELECT v, i, v['a'][i] FROM documents, generate_series(-3, 3) i
  WHERE v['a'][i]::jsonb::text IS DISTINCT FROM j['a'][i]::text;
CREATE TEMP TABLE taken AS SELECT id, v, j FROM documents WHERE jsonb_typeof(j) = 'object';
UPDATE taken SET v['a']['b'] = '[1.50]', j['a']['b'] = '[1.50]' WHERE jsonb_typeof(j['a']) = 'object' OR NOT j ? 'a';
UPDATE taken SET v['n'][2] = '7.0', j['n'][2] = '7.0';
UPDATE taken SET v['n'][3]['x'] = v['b'], j['n'][3]['x'] = j['b'] WHERE id % 2 = 0;
UPDATE taken SET v['n'][-2] = '"-2"', j['n'][-2] = '"-2"' WHERE id % 2 = 1;
SELECT count(*), count(*) FILTER (WHERE v['n'][2] = '7') AS assigned FROM taken;
SELECT v, j FROM taken WHERE v::jsonb::text IS DISTINCT FROM j::text;
TRUNCATE taken;
INSERT INTO taken (v['a'][1]) VALUES ('1.50');
SELECT v, v['a'][-1], v['a'][NULL] IS NULL AS null FROM taken;
UPDATE taken SET v['a'][1]['b'] = '1';
UPDATE taken SET v['a']['b'] = '1';
UPDATE taken SET v['a'][-3] = '1';
UPDATE taken SET v['a'] = 1;
SELECT v['a'][0:1] FROM taken;

-- A part put in, no nulls, and lines.
SELECT v, i FROM documents, generate_series(-3, 3) i, LATERAL (VALUES (false), (true)) x(after)
  WHERE jsonb_typeof(j) = 'array' AND vjson_insert(v, '/' || i, '[2.50]', after)::jsonb::text
    IS DISTINCT FROM jsonb_insert(j, ARRAY[i::text], '[2.50]', after)::text;
SELECT vjson_insert('{"a":[1,2.0]}', '/a/1', '"x"') AS before, vjson_insert('{"a":[1,2.0]}', '/a/1', '"x"', true) AS after,
  vjson_insert('{"a":1}', '/b', '2.50') AS member, vjson_insert('{"a":1}', '/b/c', '2') AS nowhere;
SELECT vjson_insert('{"a":1}', '/a', '2');
SELECT vjson_insert('1', '/a', '2');
SELECT v, vjson_strip_nulls(v) FROM documents WHERE vjson_strip_nulls(v)::jsonb::text <> jsonb_strip_nulls(j)::text;
SELECT vjson_strip_nulls('{"a":null,"b":[1.50,null,{"c":null}]}'),
  vjson_strip_nulls('{"a":null,"b":[1.50,null,{"c":null}]}', true) AS in_arrays;
SELECT v FROM documents WHERE vjson_pretty(v)::vjson::text <> v::text OR jsonb_typeof(j) = 'array'
  AND jsonb_typeof(j -> 0) NOT IN ('array', 'object') AND vjson_pretty(v -> 0) <> jsonb_pretty(j -> 0);
SELECT vjson_pretty('{"a":[1,{"b":[],"c":"{x,\":"}],"d":{}}');

-- Rows of objects.
CREATE TYPE pg_temp.row_of AS (a int, b text, c vjson);
SELECT vjson_populate_record(NULL::pg_temp.row_of, '{"a":1,"b":"x","c":[1.50]}') AS whole,
  vjson_populate_record((7, 'y', NULL)::pg_temp.row_of, '{"a":1}') AS based;
SELECT * FROM vjson_populate_recordset(NULL::pg_temp.row_of, '[{"a":1,"c":null},{"b":"z"}]');
SELECT a, b, c FROM vjson_to_record('{"a":1,"b":"x","c":[1.50],"d":0}') AS x(a int, b text, c vjson);
SELECT * FROM vjson_to_recordset('[{"a":1,"c":null},{"b":"z"}]') AS x(a int, b text, c vjson);
SELECT * FROM vjson_to_recordset('[1]') AS x(a int);
SELECT vjson_to_record('{}');

-- Parts to which names lead, parts that are NULL, and objects of texts.
SELECT v, path FROM documents, (VALUES ('{}'::text[]), ('{a}'), ('{a,0}'), ('{-1,b}'), ('{a,NULL}')) p(path)
  WHERE vjson_extract_path(v, VARIADIC path)::jsonb::text IS DISTINCT FROM jsonb_extract_path(j, VARIADIC path)::text;
SELECT vjson_extract_path_text('{"a":["x",2.50]}', 'a', '-1') AS number,
  vjson_extract_path_text(from_json => '{"a":["x",2.50]}', VARIADIC path_elems => '{a,0}') AS string;
SELECT vjson_set_lax('{"a":1.50}', '/a', NULL) AS null, vjson_set_lax('{"a":1.50}', '/a', '2') AS set,
  vjson_set_lax('{"a":1.50}', '/a', NULL, null_value_treatment => 'delete_key') AS deleted,
  vjson_set_lax('{"a":1.50}', '/a', NULL, null_value_treatment => 'return_target') AS target;
SELECT vjson_set_lax('{"a":1.50}', '/a', NULL, true, 'raise_exception');
SELECT vjson_set_lax('{"a":1.50}', '/a', NULL, true, 'none');
SELECT vjson_object('{b,1,a,NULL}') AS turns, vjson_object('{{a,1},{b,x}}') AS rows, vjson_object('{a,b}', '{1,x}') AS apart;
SELECT vjson_object('{a}');
SELECT vjson_object('{a}', '{1,2}');

-- Why a text is rejected, and where; and a text whose numbers are rounded.
SELECT e.* FROM (VALUES (1, '{"a":[1,{"b/c":1e-60}]}'), (2, E'{"a":1,\n "b":2, "a":3}'), (3, '[1,[2,3 4]]'), (4, ''),
    (5, '[1.50]'), (6, '[1.5, /* x */ 2]'), (7, '{"x":[[],{},NaN]}'), (8, '{"a":"')) x(n, t), vjson_error(t) e ORDER BY n;
SELECT message, path FROM vjson_error('{"k":{"scores":[0.1,1e-60]}}'::jsonb);
SELECT v FROM documents WHERE (vjson_error(v::text)).message IS NOT NULL OR (vjson_error(j)).message IS NOT NULL;
SELECT vjson_rounded('{"a":[1e-07,1.5e+20,5e-324,1.50,-1E2],"1e5":"1e5"}'), vjson_rounded('0.' || repeat('3', 40)) AS rounded;
SELECT vjson_rounded('[1,1e300]');
SELECT vjson_rounded('[1e-20000,-5e-39]'), (vjson_error('[1e-20000,1e200000]', true)).*;
SELECT vjson_rounded('[1e5,x]');
