-- The type: what is read, what is written, and what is rejected in which words (README.md, docs/GRAMMAR.md).
CREATE EXTENSION vizhoniku;
SELECT extversion FROM pg_extension WHERE extname = 'vizhoniku';

-- The text of a document has no whitespace, and its members in the order of their names' bytes.
SELECT '{"b": [1, 2.50], "a" : "x"}'::vjson;
SELECT E' [ 1 ,\n\t2\r] '::vjson;
SELECT '{"b":1,"aa":2,"a":3,"":4,"B":5}'::vjson;
SELECT '["\u0061\/\b\f\n\r\t\u001F\"\\"]'::vjson;
SELECT length('"\u00e9\ud83d\ude00"'::vjson::text), '"\u00e9"'::vjson = '"\u00E9"' AS equal;
SELECT '"\u0000"'::vjson;

-- A text in this form comes back as it is.
SELECT t FROM (VALUES ('null'), ('true'), ('false'), ('0'), ('-1'), ('1.0'), ('1.50'), ('-0.050'),
    ('18446744073709551616'), ('99999999999999999999999999999999999999'),
    ('0.00000000000000000000000000000000000001'), ('""'), ('"a b"'), ('[]'), ('{}'), ('[[],{},[{}],{"":{}}]'),
    ('[null,true,false,"",0,-1.0]'), ('{"a":{"b":[2.0,{"c":3.00}]},"b":0.10}')) x(t)
  WHERE t::vjson::text IS DISTINCT FROM t;
SELECT count(*) FROM (SELECT repeat('[', n) || repeat(']', n) AS t FROM generate_series(1, 512) n) x
  WHERE t::vjson::text = t;

-- Extended mode (docs/GRAMMAR.md) by a function of its own.
SELECT vjson_extended('{b:0x1F, /* x */ a:[,+.5]} // end');
SELECT vjson_extended('') AS empty, vjson_extended('NULL') AS null, vjson_extended('''x''') AS quotes;

-- null is a value, NULL is none.
SELECT 'null'::vjson IS NULL AS null, NULL::vjson IS NULL AS sql_null, vjson_extended(NULL) IS NULL AS extended;

-- A rejected text: the message, the line, the column, and the line itself.
SELECT E'{"a":1,\n "b" 2}'::vjson;
SELECT '[1, 2'::vjson;
SELECT vjson_extended(E'{a:1,\n b:}');
SELECT '"\q"'::vjson;
CREATE TEMP TABLE t (doc vjson);
COPY t FROM STDIN;
[1]
[2 3]
\.
SELECT count(*) FROM t;

-- The code and the words of each kind of fault.
CREATE FUNCTION pg_temp.rejection(t text, extended boolean) RETURNS text LANGUAGE plpgsql AS $$
DECLARE
  said text;
BEGIN
  RETURN 'accepted: ' || CASE WHEN extended THEN vjson_extended(t) ELSE t::vjson END::text;
EXCEPTION WHEN OTHERS THEN
  GET STACKED DIAGNOSTICS said = PG_EXCEPTION_DETAIL;
  RETURN SQLSTATE || ' ' || said;
END $$;
SELECT t, pg_temp.rejection(t, false) FROM (VALUES
    (1, ''), (2, ' '), (3, '[x]'), (4, '[trux]'), (5, '{a:1}'), (6, '1 2'), (7, '{"a" 1}'), (8, '[1 2]'),
    (9, '{"a":1 2}'), (10, '[1e5]'), (11, '{"a":1,"a":2}'), (12, '"\z"'), (13, '"\u00G0"'), (14, '"\u{00}12"'),
    (15, '[01]'), (16, '[-x]'), (17, '[1.x]'), (18, '[1ex]'), (19, '[1'), (20, '{"a":1,}'), (21, '[1,]'),
    (22, '"\ud800"'), (23, '"\udc00"'), (24, '[1, // x'), (25, '"a'), (26, '{'), (27, '[1,,2]')) x(n, t) ORDER BY n;
SELECT t, pg_temp.rejection(t, true) FROM (VALUES
    (1, '[x]'), (2, '{1a:2}'), (3, '{:1}'), (4, '[1e5]'), (5, '[1..]'), (6, '{a:1,a:2}'), (7, '1/*'), (8, '[1//x'),
    (9, '[nan]'), (10, '''a'), (11, '{a')) x(n, t) ORDER BY n;
SELECT pg_temp.rejection(repeat('[', 513), false) AS deep, pg_temp.rejection('1' || repeat('0', 38), false) AS digits,
  pg_temp.rejection(repeat('{"a":', 513), true) AS deep_extended;

-- The binary format is the text.
SELECT convert_from(vjson_send('{"b": 1.0, "a": []}'), 'UTF8');

-- The sort key (docs/SORT_KEYS.md) and its order.
SELECT vjson_sort_key('["a", 0]'), vjson_sort_key('1') = vjson_sort_key('1.00') AS equal;

-- Paths (RFC 6901).
SELECT ''::vjson_path AS whole, '/a~1b/~0/0'::vjson_path AS path;
SELECT 'a'::vjson_path;
SELECT '/~2'::vjson_path;
DROP FUNCTION pg_temp.rejection;
