-- Changed documents, as jsonb has them: ||, -, #- and vjson_set.
SELECT a.v, b.v FROM documents a, documents b WHERE (a.id + b.id) % 5 = 0
  AND (a.v || b.v)::jsonb::text IS DISTINCT FROM (a.j || b.j)::text;
SELECT count(*) AS tried, count(*) FILTER (WHERE v - name <> v) AS changed
  FROM documents, names WHERE jsonb_typeof(j) IN ('object', 'array');
SELECT v, name, v - name FROM documents, names WHERE jsonb_typeof(j) IN ('object', 'array')
  AND (v - name, v - ARRAY[name, 'a'])::text IS DISTINCT FROM ((j - name)::vjson, (j - ARRAY[name, 'a'])::vjson)::text;
SELECT v, i, v - i FROM documents, generate_series(-4, 4) i WHERE jsonb_typeof(j) = 'array'
  AND (v - i)::jsonb::text IS DISTINCT FROM (j - i)::text;
SELECT v, name FROM documents, names, LATERAL (SELECT ('/' || replace(replace(name, '~', '~0'), '/', '~1'))) x(path)
  WHERE jsonb_typeof(j) = 'object' AND
    (v #- path, vjson_set(v, path, '[2.50]'), vjson_set(v, path, '[2.50]', false))::text
    IS DISTINCT FROM ((j #- ARRAY[name])::vjson, jsonb_set(j, ARRAY[name], '[2.50]')::vjson,
      jsonb_set(j, ARRAY[name], '[2.50]', false)::vjson)::text;
SELECT '{"a":1,"b":2}'::vjson || '{"b":3.0,"c":4}' AS members, '[1]'::vjson || '[2.0]' AS items,
  '[1]'::vjson || '2' AS item;
SELECT '{"a":1,"b":2}'::vjson - 'a' AS member, '["a","b","a"]'::vjson - 'a' AS items, '[1,2.0]'::vjson - -1 AS last;
SELECT '{"a":[1,{"b":2}]}'::vjson #- '/a/1/b' AS without, vjson_set('{"a":[1,2]}', '/a/0', '7.0') AS set,
  vjson_set('{"a":1}', '/b', '2') AS made, vjson_set('{"a":1}', '/b', '2', false) AS kept;
SELECT '1'::vjson - 'a';
SELECT '1'::jsonb - 'a';
SELECT '{}'::vjson - 0;
SELECT '{}'::jsonb - 0;
