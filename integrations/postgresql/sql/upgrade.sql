-- A database that has the extension's version 0.1.0, with documents and indexes, is updated.
DROP TABLE documents, names;
DROP EXTENSION vizhoniku;
CREATE EXTENSION vizhoniku VERSION '0.1.0';
SELECT '{"a":1}'::vjson -> 'a';
CREATE TABLE kept (id int, doc vjson UNIQUE);
INSERT INTO kept SELECT i, ('{"id":' || i || '.50,"tags":["t' || i % 7 || '","x"],"a":{"b":[1.0,null]}}')::vjson
  FROM generate_series(1, 500) i;
INSERT INTO kept VALUES (0, '[1.50]'), (-1, NULL), (-2, 'null');
CREATE INDEX kept_hash ON kept USING hash (doc);
CREATE VIEW asked AS
  SELECT count(*), count(DISTINCT doc) AS distinct, min(doc), max(doc),
    md5(string_agg(doc::text, ' ' ORDER BY doc)) AS texts,
    md5(string_agg(encode(vjson_sort_key(doc), 'hex'), ' ' ORDER BY id)) AS keys,
    sum((doc #>> '/id')::numeric) AS ids,
    string_agg(id::text, ' ' ORDER BY id) FILTER (WHERE doc < '{"a":{"b":[1,null]},"id":3}') AS below
    FROM kept;
CREATE TABLE answered AS TABLE asked;
SELECT count, "distinct", min, max, ids, below FROM answered;
ALTER EXTENSION vizhoniku UPDATE;
SELECT extversion FROM pg_extension WHERE extname = 'vizhoniku';
TABLE answered EXCEPT TABLE asked;
SELECT id FROM kept WHERE doc = '{"a":{"b":[1,null]},"id":7.5,"tags":["t0","x"]}';
INSERT INTO kept VALUES (1000, '[1.5]');
SELECT doc -> 'a' -> 'b' -> 0, doc ->> 'id' FROM kept WHERE id = 3;
CREATE INDEX kept_gin ON kept USING gin (doc);
SET enable_seqscan = off;
SELECT count(*), min(id) FROM kept WHERE doc @> '{"tags":["t3"]}';
RESET enable_seqscan;

-- It has what a new one has.
CREATE TEMP TABLE updated AS SELECT pg_describe_object(classid, objid, 0) AS object FROM pg_depend
  WHERE refobjid = (SELECT oid FROM pg_extension WHERE extname = 'vizhoniku') AND deptype = 'e';
DROP VIEW asked;
DROP TABLE kept, answered;
DROP EXTENSION vizhoniku;
CREATE EXTENSION vizhoniku;
CREATE TEMP TABLE new AS SELECT pg_describe_object(classid, objid, 0) AS object FROM pg_depend
  WHERE refobjid = (SELECT oid FROM pg_extension WHERE extname = 'vizhoniku') AND deptype = 'e';
TABLE updated EXCEPT TABLE new;
TABLE new EXCEPT TABLE updated;
SELECT count(*) > 100 AS many FROM new;
DROP EXTENSION vizhoniku;
