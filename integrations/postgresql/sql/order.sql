-- Order and equality. The order is that of docs/VALUES.md: false, true, numbers, strings, objects, arrays, null.
SET max_parallel_workers_per_gather = 0;
SET enable_material = off;
CREATE TABLE ordered (place int, doc vjson);
INSERT INTO ordered SELECT place, vjson_extended(t) FROM (VALUES
    (1, 'false'), (2, 'true'), (3, '-9223372036854775808'), (4, '-100'), (5, '-1.50'), (5, '-1.5'), (6, '-1'),
    (7, '-0.5'), (8, '0'), (8, '-0'), (8, '0.00'), (9, '0.05'), (10, '.5'), (10, '0.50'), (11, '1'), (11, '1.0'),
    (11, '0x1'), (12, '1.0000000000000000000000000000000000001'), (13, '9'), (14, '10'), (15, '18446744073709551615'),
    (16, '18446744073709551616'), (17, '99999999999999999999999999999999999999'), (18, '""'), (19, '"\u0000"'),
    (20, '"a"'), (20, '"\u0061"'), (21, '"a\u0000"'), (22, '"aa"'), (23, '"b"'), (24, '"\u00e9"'),
    (25, '"\ud83d\ude00"'),
    (26, '{}'), (27, '{"a":1}'), (28, '{"a":1,"b":2}'), (28, '{"b":2,"a":1.0}'), (29, '{"a":2}'), (30, '{"a":[]}'),
    (31, '{"b":0}'), (32, '[]'), (33, '[1]'), (33, '[1.00]'), (34, '[1,0]'), (35, '[2]'), (36, '["a"]'), (37, '[[]]'),
    (38, '[null]'), (39, 'null')) x(place, t) ORDER BY md5(t);
SELECT count(*), count(DISTINCT place), count(DISTINCT doc) FROM ordered;
SELECT a.doc, b.doc FROM ordered a, ordered b
  WHERE (a.doc < b.doc, a.doc <= b.doc, a.doc = b.doc, a.doc <> b.doc, a.doc >= b.doc, a.doc > b.doc)
      <> (a.place < b.place, a.place <= b.place, a.place = b.place, a.place <> b.place, a.place >= b.place,
        a.place > b.place)
    OR vjson_cmp(a.doc, b.doc) <> sign(a.place - b.place)
    OR (vjson_sort_key(a.doc) < vjson_sort_key(b.doc)) <> (a.place < b.place);
SELECT a.doc, b.doc FROM ordered a JOIN ordered b USING (place)
  WHERE vjson_hash(a.doc) <> vjson_hash(b.doc) OR vjson_hash_extended(a.doc, 7) <> vjson_hash_extended(b.doc, 7);
SELECT doc FROM ordered ORDER BY doc, doc::text COLLATE "C";
SELECT min(doc), max(doc), min(doc) FILTER (WHERE place > 8), max(doc) FILTER (WHERE place > 39) IS NULL AS none
  FROM ordered;
SELECT NULL::vjson = '1' AS eq, NULL::vjson < '1' AS lt, vjson_cmp('1', NULL) AS cmp;

-- Two documents are equal where jsonb has them equal.
SELECT a.v, b.v FROM documents a, documents b WHERE (a.v = b.v) <> (a.j = b.j);

-- Arrays are a range of values, and objects are.
SELECT v FROM documents WHERE (v >= '[]' AND v < 'null') <> (jsonb_typeof(j) = 'array')
  OR (v >= '{}' AND v < '[]') <> (jsonb_typeof(j) = 'object');

-- Sorting, hashing and joins in every way find the same.
SET enable_hashagg = off;
EXPLAIN (COSTS OFF) SELECT DISTINCT doc FROM ordered;
SELECT count(*) FROM (SELECT DISTINCT doc FROM ordered) x;
SELECT max(n) FROM (SELECT count(*) AS n FROM ordered GROUP BY doc) x;
RESET enable_hashagg;
SET enable_sort = off;
EXPLAIN (COSTS OFF) SELECT DISTINCT doc FROM ordered;
SELECT count(*) FROM (SELECT DISTINCT doc FROM ordered) x;
SELECT max(n) FROM (SELECT count(*) AS n FROM ordered GROUP BY doc) x;
RESET enable_sort;
SELECT count(*) FROM ordered a JOIN ordered b USING (place);
SET enable_nestloop = off;
SET enable_mergejoin = off;
EXPLAIN (COSTS OFF) SELECT count(*) FROM ordered a JOIN ordered b ON a.doc = b.doc;
SELECT count(*), bool_and(a.place = b.place) FROM ordered a JOIN ordered b ON a.doc = b.doc;
RESET enable_mergejoin;
SET enable_hashjoin = off;
EXPLAIN (COSTS OFF) SELECT count(*) FROM ordered a JOIN ordered b ON a.doc = b.doc;
SELECT count(*), bool_and(a.place = b.place) FROM ordered a JOIN ordered b ON a.doc = b.doc;
RESET enable_hashjoin;
RESET enable_nestloop;

-- B-tree, hash and BRIN indexes.
SET enable_seqscan = off;
SET enable_bitmapscan = off;
CREATE INDEX ordered_btree ON ordered (doc);
EXPLAIN (COSTS OFF) SELECT doc FROM ordered WHERE doc >= '1' AND doc < '"a"' ORDER BY doc;
SELECT doc FROM ordered WHERE doc > '1' AND doc < '"a"' ORDER BY doc;
SELECT DISTINCT place FROM ordered WHERE doc = '{"b":2.00,"a":1}';
EXPLAIN (COSTS OFF) SELECT doc FROM ordered ORDER BY doc DESC LIMIT 1;
SELECT doc FROM ordered ORDER BY doc DESC LIMIT 1;
EXPLAIN (COSTS OFF) SELECT min(doc) FROM ordered;
SELECT min(doc), max(doc) FROM ordered;
DROP INDEX ordered_btree;
CREATE INDEX ordered_hash ON ordered USING hash (doc);
EXPLAIN (COSTS OFF) SELECT count(*) FROM ordered WHERE doc = '0.000';
SELECT count(*) FROM ordered WHERE doc = '0.000';
DROP INDEX ordered_hash;
SET enable_bitmapscan = on;
CREATE INDEX ordered_brin ON ordered USING brin (doc);
EXPLAIN (COSTS OFF) SELECT count(*) FROM ordered WHERE doc < '1';
SELECT count(*) FROM ordered WHERE doc < '1';
RESET enable_seqscan;
RESET enable_bitmapscan;
DROP TABLE ordered;

-- Of equal documents the first one stays.
CREATE TEMP TABLE u (doc vjson UNIQUE);
INSERT INTO u VALUES ('7'), ('{"a":1,"b":[2]}');
INSERT INTO u VALUES ('7.0');
INSERT INTO u VALUES ('{"b":[2.00], "a":1.0}');
INSERT INTO u VALUES ('7.0'), ('2.50') ON CONFLICT (doc) DO NOTHING;
INSERT INTO u VALUES ('2.5') ON CONFLICT (doc) DO UPDATE SET doc = excluded.doc;
SELECT doc FROM u ORDER BY doc;

-- The operator classes are whole.
SELECT amname, opcname, opcdefault, amvalidate(o.oid) FROM pg_opclass o JOIN pg_am a ON a.oid = opcmethod
  WHERE opcintype = 'vjson'::regtype ORDER BY amname, opcname;
RESET max_parallel_workers_per_gather;
RESET enable_material;
