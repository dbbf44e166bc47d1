-- A GIN index: what is found by it is what is found without it, and what jsonb finds.
CREATE TABLE looked AS SELECT id, v, j FROM documents;
INSERT INTO looked VALUES (0, NULL, NULL);
CREATE TABLE asked AS SELECT id, v, j FROM documents WHERE id % 4 = 0;
INSERT INTO asked SELECT -n, t::vjson, t::jsonb FROM (VALUES (1, '{}'), (2, '[]'), (3, '{"a":{}}'), (4, '{"a":[]}'),
    (5, '[[]]'), (6, '[{}]'), (7, '""'), (8, 'null'), (9, 'true'), (10, '1.00'), (11, '[1.000]'), (12, '{"a":null}'),
    (13, '{"zz":7}'), (14, '[{"a":1}]'), (15, '{"a":{"a":{"a":{}}}}')) x(n, t);
CREATE INDEX looked_v ON looked USING gin (v);
ANALYZE looked;
ANALYZE asked;

SET max_parallel_workers_per_gather = 0;
SET enable_memoize = off;
SET enable_material = off;
SET enable_hashjoin = off;
SET enable_mergejoin = off;
SET enable_seqscan = off;
EXPLAIN (COSTS OFF) SELECT id FROM looked WHERE v @> '{"a":1}';
EXPLAIN (COSTS OFF) SELECT id FROM looked WHERE v = '{"a":1}';
EXPLAIN (COSTS OFF) SELECT count(*) FROM asked a JOIN looked l ON l.v @> a.v;
CREATE TEMP TABLE by_index AS SELECT a.id AS asked, l.id AS found FROM asked a JOIN looked l ON l.v @> a.v;
EXPLAIN (COSTS OFF) SELECT count(*) FROM asked a JOIN looked l ON l.v = a.v;
CREATE TEMP TABLE equal_by_index AS SELECT a.id AS asked, l.id AS found FROM asked a JOIN looked l ON l.v = a.v;
SELECT v FROM looked WHERE v @> '{"a":[{"b":"x"},1.0]}' ORDER BY id LIMIT 3;
SELECT v FROM looked WHERE v = '{"b":1.0,"a":2}' ORDER BY id;
RESET enable_seqscan;

SET enable_bitmapscan = off;
EXPLAIN (COSTS OFF) SELECT id FROM looked WHERE v @> '{"a":1}';
CREATE TEMP TABLE by_scan AS SELECT a.id AS asked, l.id AS found FROM asked a JOIN looked l ON l.v @> a.v;
CREATE TEMP TABLE by_jsonb AS SELECT a.id AS asked, l.id AS found FROM asked a JOIN looked l ON l.j @> a.j;
SELECT (SELECT count(*) FROM by_index), (SELECT count(*) FROM by_jsonb) AS as_jsonb,
  (SELECT count(*) FROM equal_by_index) AS equal;
TABLE by_index EXCEPT ALL TABLE by_scan;
TABLE by_scan EXCEPT ALL TABLE by_index;
TABLE by_index EXCEPT ALL TABLE by_jsonb;
TABLE by_jsonb EXCEPT ALL TABLE by_index;
SELECT a.id, l.id FROM asked a JOIN looked l ON l.j = a.j EXCEPT ALL TABLE equal_by_index;
TABLE equal_by_index EXCEPT ALL SELECT a.id, l.id FROM asked a JOIN looked l ON l.j = a.j;
RESET enable_bitmapscan;

-- After deletes, updates, VACUUM and new rows
DELETE FROM looked WHERE id % 3 = 0;
UPDATE looked SET v = b.v, j = b.j FROM documents b WHERE looked.id % 3 = 1 AND b.id = looked.id + 1;
VACUUM looked;
INSERT INTO looked SELECT id, v, j FROM documents WHERE id % 5 = 0;
SET enable_seqscan = off;
CREATE TEMP TABLE later AS SELECT a.id AS asked, l.id AS found FROM asked a JOIN looked l ON l.v @> a.v;
RESET enable_seqscan;
SELECT count(*), (SELECT count(*) FROM asked a JOIN looked l ON l.j @> a.j) AS as_jsonb FROM later;
SELECT a.id, l.id FROM asked a JOIN looked l ON l.j @> a.j EXCEPT ALL TABLE later;
TABLE later EXCEPT ALL SELECT a.id, l.id FROM asked a JOIN looked l ON l.j @> a.j;
DROP TABLE looked, asked;
RESET max_parallel_workers_per_gather;
RESET enable_memoize;
RESET enable_material;
RESET enable_hashjoin;
RESET enable_mergejoin;
