-- Containment, as jsonb has it: each pair of documents.
SELECT count(*) AS tried, count(*) FILTER (WHERE a.v @> b.v) AS contain, count(*) FILTER (WHERE a.j @> b.j) AS as_jsonb
  FROM documents a, documents b;
SELECT a.v, b.v FROM documents a, documents b WHERE (a.v @> b.v) <> (a.j @> b.j);
SELECT a.v, b.v FROM documents a, documents b WHERE (a.v <@ b.v) <> (a.j <@ b.j);
SELECT v, part, v::vjson @> part::vjson AS contains, v::jsonb @> part::jsonb AS as_jsonb FROM (VALUES
    (1, '{"a":1,"b":[2,3]}', '{"b":[3.0]}'), (2, '[1,2,3]', '[3,1,1]'), (3, '[1,2]', '2'), (4, '2', '[2]'),
    (5, '[[1,2],3]', '[[2]]'), (6, '[[1,2]]', '[1]'), (7, '{"a":{"b":1}}', '{"a":{}}'), (8, '{"a":[]}', '{"a":{}}'),
    (9, '{"a":1}', '{"a":null}'), (10, '[]', '[]'), (11, '{}', '[]'), (12, '"a"', '"a"'), (13, '["a"]', '"a"'),
    (14, '{"a":1}', '"a"')) x(n, v, part) ORDER BY n;
SELECT NULL::vjson @> '1' IS NULL AS left, '1'::vjson <@ NULL IS NULL AS right;
