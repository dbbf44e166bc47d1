-- The documents over which the other files compare vjson with jsonb: documents of every kind, and pairs of them.
CREATE TABLE documents (id serial PRIMARY KEY, v vjson, j jsonb);
INSERT INTO documents (v, j) SELECT t::vjson, t::jsonb FROM (VALUES
    ('null'), ('true'), ('false'), ('0'), ('1'), ('1.0'), ('-1'), ('2.50'), ('-0.050'), ('100'),
    ('12345678901234567890'),
    ('""'), ('"a"'), ('"b"'), ('"aa"'), ('"1"'), ('"\u00e9"'), ('"\ud83d\ude00"'), ('"x\"\\\n"'), ('[]'), ('[1]'),
    ('[1.0]'), ('[1,2]'), ('[2,1,1]'), ('["a","b"]'), ('["a",null]'), ('[[1],[2.50]]'), ('[{"a":1},{}]'), ('[[[]]]'),
    ('[null,true,"x",{"a":[]}]'), ('{}'), ('{"a":1}'), ('{"a":1.00}'), ('{"a":2,"b":1}'), ('{"b":null}'),
    ('{"a":"a","aa":"b","b":"c"}'), ('{"":[]}'), ('{"a/b":1,"~":2}'), ('{"0":1,"1":[2]}'), ('{"a":{"a":{"a":[1]}}}'),
    ('{"a":[1,2.50,{"b":"x"}],"b":{"c":false}}'), ('{"\u00e9":"\u00e9"}')) x(t);
INSERT INTO documents (v, j) SELECT t::vjson, t::jsonb FROM documents a, documents b, LATERAL (VALUES
    ('[' || a.v::text || ',' || b.v::text || ']'), ('{"b":' || a.v::text || ',"a":' || b.v::text || '}')) x(t)
  WHERE (a.id + 3 * b.id) % 5 = 0;
ANALYZE documents;
SELECT count(*), count(DISTINCT v), count(DISTINCT v) = count(DISTINCT j) AS as_jsonb FROM documents;
SELECT jsonb_typeof(j) AS kind, count(*) FROM documents GROUP BY 1 ORDER BY 1;

-- Names that members have, and some that none has.
CREATE TABLE names (name text PRIMARY KEY);
INSERT INTO names VALUES (''), ('a'), ('b'), ('aa'), ('a/b'), ('~'), ('0'), ('1'), ('zz'), ('x"\'), (U&'\00e9');

-- What is written is what is read.
SELECT id, v FROM documents WHERE v::text::vjson <> v OR v::jsonb::text <> j::text;
