"""Functions over members and items of large documents take time in proportion to their size: for the script test.

Each function of the extension is either in TIMED, with expressions that call it, or in LEFT_OUT. The time is that of
the server's process, which the server tells (log_statement_stats).
"""

import os
import re
import sys

import cluster
from checks import check

sys.path.insert(0, os.path.join(cluster.HERE, ".."))
import growth

# The columns of a table with one row, of so many parts and with decimals that end so:
# o: an object; a: an array; r: an array of objects of the same names; names: the names of every second member of o, and
# "a"; pairs: names and values; t: the text of o; f: t with a fault at its end; e: a text in which each number has an
# exponent; u: one of numbers with too many digits; j, b: o as json and jsonb; path: a path of so many steps.
TABLE = """CREATE TABLE {table} (o vjson, a vjson, r vjson, names text[], pairs text[], t text, f text, e text, u text,
      j json, b jsonb, path text);
    {storage}
    INSERT INTO {table} SELECT o::vjson, a::vjson, r::vjson, names, pairs, o, o || 'x', e, u, o::json, o::jsonb,
      repeat('/k~1', {size}) FROM (SELECT
        '{{' || string_agg('"k' || i || '":' || CASE i % 4 WHEN 0 THEN 'null' WHEN 1 THEN '"x"'
          WHEN 2 THEN '[' || i || '.{end}]' ELSE i || '.{end}' END, ',') || '}}' AS o,
        '[' || string_agg(CASE i % 3 WHEN 0 THEN '"a"' WHEN 1 THEN '{{"id":' || i || ',"price":' || i || '.{end}}}'
          ELSE i || '.{end}' END, ',') || ']' AS a,
        '[' || string_agg('{{"id":' || i || ',"price":' || i || '.{end}}}', ',') || ']' AS r,
        array_agg('k' || i) FILTER (WHERE i % 2 = 0) || ARRAY['a'] AS names,
        (SELECT array_agg(x) FROM (SELECT unnest(ARRAY['k' || n, 'v']) AS x FROM generate_series(1, {size}) n) p)
          AS pairs,
        '[' || string_agg(i || '.{end}e-3', ',') || ']' AS e, '[' || string_agg(i || '.{end}e-60', ',') || ']' AS u
      FROM generate_series(1, {size}) i) made"""
COLUMNS = "o a r names pairs t f e u j b path".split()

# A member of o whose value is an array. The names are in the order of their bytes, so that it is the last but one.
LAST = "k9998"


def rows(function, arguments):
    """The number of rows of a function, as an expression."""
    return "(SELECT count(*) FROM %s(%s) x)" % (function, arguments)


# The functions, and what is timed of each: expressions over the columns of TABLE, or statements, which have {table} in
# them. {last} is LAST.
TIMED = {
    "vjson_in(cstring)": ["t::vjson", "e::vjson"],
    "vjson_out(vjson)": ["o::text", "a::text"],
    "vjson_send(vjson)": ["vjson_send(o)", "vjson_send(a)"],
    "vjson_extended(text)": ["vjson_extended(t)"],
    "vjson_sort_key(vjson)": ["vjson_sort_key(o)"],
    "vjson_path(text)": ["vjson_path(path)"],
    "vjson_path(text[])": ["vjson_path(names)"],
    "vjson_get(vjson,vjson_path)": ["o #> '/{last}'", "o #> '/{last}/0'", "a #> '/-1'",
                                    "(o #> path::vjson_path) IS NULL"],
    "vjson_get_text(vjson,vjson_path)": ["o #>> '/{last}'", "a #>> '/-1'", "o #>> ''"],
    "vjson_from_json(json)": ["j::vjson", "e::json::vjson"],
    "vjson_from_jsonb(jsonb)": ["b::vjson"],
    "vjson_to_json(vjson)": ["o::json"],
    "vjson_to_jsonb(vjson)": ["o::jsonb"],
    "vjson_eq(vjson,vjson)": ["o = o"], "vjson_ne(vjson,vjson)": ["o <> o"], "vjson_lt(vjson,vjson)": ["o < o"],
    "vjson_le(vjson,vjson)": ["o <= o"], "vjson_gt(vjson,vjson)": ["o > o"], "vjson_ge(vjson,vjson)": ["o >= o"],
    "vjson_cmp(vjson,vjson)": ["vjson_cmp(o, o)"],
    "vjson_smaller(vjson,vjson)": ["vjson_smaller(o, o)"],
    "vjson_larger(vjson,vjson)": ["vjson_larger(o, o)"],
    "vjson_hash(vjson)": ["vjson_hash(o)"],
    "vjson_hash_extended(vjson,bigint)": ["vjson_hash_extended(o, 7)"],
    "vjson_object_field(vjson,text)": ["o -> '{last}'", "(o -> 'none') IS NULL"],
    "vjson_object_field_text(vjson,text)": ["o ->> '{last}'"],
    "vjson_array_element(vjson,integer)": ["a -> -1", "a -> (vjson_array_length(a) - 1)"],
    "vjson_array_element_text(vjson,integer)": ["a ->> -1"],
    "vjson_exists(vjson,text)": ["o ? '{last}'", "a ? 'none'"],
    "vjson_exists_any(vjson,text[])": ["o ?| ARRAY['none', 'b']", "a ?| ARRAY['none', 'b']", "a ?| names[1:10000]"],
    "vjson_exists_all(vjson,text[])": ["o ?& names", "a ?& names", "o ?& ARRAY['{last}', 'k1']"],
    "vjson_typeof(vjson)": ["vjson_typeof(o)"],
    "vjson_array_length(vjson)": ["vjson_array_length(a)"],
    "vjson_each(vjson)": [rows("vjson_each", "o")],
    "vjson_each_text(vjson)": [rows("vjson_each_text", "o")],
    "vjson_object_keys(vjson)": [rows("vjson_object_keys", "o")],
    "vjson_array_elements(vjson)": [rows("vjson_array_elements", "a")],
    "vjson_array_elements_text(vjson)": [rows("vjson_array_elements_text", "a")],
    # Items that are looked for among items take the product of both numbers, as with jsonb, and so there are few.
    "vjson_contains(vjson,vjson)": ["o @> o", "a @> '[\"a\",7.25]'", "a @> '\"none\"'", "r @> '[{{\"price\":0.5}}]'"],
    "vjson_contained(vjson,vjson)": ["o <@ o", "'[\"a\",7.25]' <@ a"],
    "gin_extract_vjson_path(vjson,internal,internal)": [
        "CREATE INDEX grown ON {table} USING gin (o, a); DROP INDEX grown"],
    "gin_extract_vjson(vjson,internal,internal)": [
        "CREATE INDEX grown ON {table} USING gin (o vjson_ops, a vjson_ops); DROP INDEX grown"],
    "vjson_typanalyze(internal)": ["ANALYZE {table} (o, a)"],
    "vjson_path_exists_opr(vjson,jsonpath)": ["o @? '$.{last}[*] ? (@ > 1)'", "o @? '$.none'", "o @? '$.none ? (@ > 1)'", "a @? '$[*].price ? (@ < 0)'"],
    "vjson_path_match_opr(vjson,jsonpath)": ["o @@ '$.*[*] < 0'", "r @@ '$[last].price > 1'"],
    "vjson_path_exists(vjson,jsonpath,vjson,boolean)": ["vjson_path_exists(r, '$[*] ? (@.price < $x)', '{{\"x\":0}}')"],
    "vjson_path_exists_tz(vjson,jsonpath,vjson,boolean)": ["vjson_path_exists_tz(r, '$.** ? (@ < 0)')"],
    "vjson_path_match(vjson,jsonpath,vjson,boolean)": ["vjson_path_match(r, '$[*].price < 0')"],
    "vjson_path_match_tz(vjson,jsonpath,vjson,boolean)": ["vjson_path_match_tz(r, '$[*].price < 0')"],
    "vjson_path_query(vjson,jsonpath,vjson,boolean)": [rows("vjson_path_query", "r, '$[*].price'"), rows("vjson_path_query", "o, '$.*'")],
    "vjson_path_query_tz(vjson,jsonpath,vjson,boolean)": [rows("vjson_path_query_tz", "a, '$[*]'")],
    "vjson_path_query_array(vjson,jsonpath,vjson,boolean)": ["vjson_path_query_array(r, '$[*].price')", "vjson_path_query_array(o, '$')"],
    "vjson_path_query_array_tz(vjson,jsonpath,vjson,boolean)": ["vjson_path_query_array_tz(r, '$.price')"],
    "vjson_path_query_first(vjson,jsonpath,vjson,boolean)": ["vjson_path_query_first(r, '$[last].price')"],
    "vjson_path_query_first_tz(vjson,jsonpath,vjson,boolean)": ["vjson_path_query_first_tz(o, '$.{last}')"],
    "to_tsvector(vjson)": ["to_tsvector(o)"], "to_tsvector(regconfig,vjson)": ["to_tsvector('english', a)"],
    "vjson_to_tsvector(vjson,vjson)": ["vjson_to_tsvector(o, '\"key\"')"],
    "vjson_to_tsvector(regconfig,vjson,vjson)": ["vjson_to_tsvector('english', o, '\"numeric\"')"],
    "ts_headline(vjson,tsquery)": ["ts_headline(o, 'x')"], "ts_headline(vjson,tsquery,text)": ["ts_headline(a, 'a', 'MaxFragments=2')"],
    "ts_headline(regconfig,vjson,tsquery)": ["ts_headline('english', a, 'none')"],
    "ts_headline(regconfig,vjson,tsquery,text)": ["ts_headline('english', o, 'x', 'MaxWords=3, MinWords=1')"],
    "to_vjson(anyelement)": ["to_vjson(names)", "to_vjson(b)", "to_vjson(j)"],
    "vjson_build_array(\"any\")": ["vjson_build_array(VARIADIC names)", "vjson_build_array(o, a)"],
    "vjson_build_object(\"any\")": ["vjson_build_object(VARIADIC pairs)", "vjson_build_object('o', o, 'a', a)"],
    "vjson_agg_transfn(internal,anyelement)": ["(SELECT vjson_agg(n) FROM unnest(names) n)"],
    "vjson_object_agg_transfn(internal,\"any\",\"any\")": ["(SELECT vjson_object_agg(n, 1.50) FROM unnest(names) n)"],
    "vjson_concat(vjson,vjson)": ["o || o", "a || a", "o || '{{\"z\":1.50}}'", "'{{\"a\":1.50}}' || o", "a || '1.50'",
                                  "a || o"],
    "vjson_delete(vjson,text)": ["o - '{last}'", "o - 'none'", "a - 'a'", "a - 'none'"],
    "vjson_delete(vjson,text[])": ["o - names", "a - names", "o - ARRAY['{last}', 'k1']"],
    "vjson_delete(vjson,integer)": ["a - 0", "a - (-1)"],
    "vjson_delete_path(vjson,vjson_path)": ["o #- '/{last}'", "a #- '/-1'", "o #- path::vjson_path"],
    "vjson_set(vjson,vjson_path,vjson,boolean)": ["vjson_set(o, '/{last}', '[1.50]')", "vjson_set(o, '/z', '2.50')",
                                                  "vjson_set(a, '/-1', '2.50')", "vjson_set(o, '/z', a)"],
    "vjson_insert(vjson,vjson_path,vjson,boolean)": [
        "vjson_insert(o, '/z', '2.50')", "vjson_insert(a, '/0', '2.50')", "vjson_insert(a, '/-1', '2.50', true)",
        "vjson_insert(a, '/1', o)"],
    "vjson_set_lax(vjson,vjson_path,vjson,boolean,text)": [
        "vjson_set_lax(o, '/{last}', NULL)", "vjson_set_lax(a, '/-1', NULL, true, 'delete_key')"],
    "vjson_extract_path(vjson,text[])": ["vjson_extract_path(o, '{last}', '0')", "vjson_extract_path(a, '-1')",
                                         "vjson_extract_path(o, VARIADIC names) IS NULL"],
    "vjson_extract_path_text(vjson,text[])": ["vjson_extract_path_text(o, '{last}')"],
    "vjson_object(text[])": ["vjson_object(pairs)"],
    "vjson_object(text[],text[])": ["vjson_object(names, names)"],
    "vjson_to_record(vjson)": ["(SELECT {last} FROM vjson_to_record(o) AS x({last} vjson, k1 text))"],
    "vjson_to_recordset(vjson)": ["(SELECT max(price) FROM vjson_to_recordset(r) AS x(id int, price numeric))"],
    "vjson_pretty(vjson)": ["vjson_pretty(o)", "vjson_pretty(a)"],
    "vjson_strip_nulls(vjson,boolean)": ["vjson_strip_nulls(o)", "vjson_strip_nulls(a, true)"],
    "vjson_populate_record(anyelement,vjson)": ["vjson_populate_record(NULL::grown_row, o)"],
    "vjson_populate_recordset(anyelement,vjson)": [rows("vjson_populate_recordset", "NULL::grown_row, r")],
    "vjson_error(text,boolean)": ["(vjson_error(t)).near IS NULL", "(vjson_error(f)).near", "(vjson_error(u)).near",
                                  "(vjson_error(e || 'x')).near", "(vjson_error(u, true)).near IS NULL",
                                  "(vjson_error(u || 'x', true)).near"],
    "vjson_error(jsonb,boolean)": ["(vjson_error(b)).near IS NULL"],
    "vjson_rounded(text)": ["vjson_rounded(u)", "vjson_rounded(e)"],
    "vjson_subscript_handler(internal)": [
        "o['{last}']", "o['{last}'][0]", "a[-1]",
        "BEGIN; UPDATE {table} SET o['z']['z'][3] = '2.50', a[0]['z'] = '1'; ROLLBACK",
        "BEGIN; UPDATE {table} SET o['{last}'] = '2.50', a[-1] = '1'; ROLLBACK"],
}

# What takes no document: paths, scalars, names and constants of the planner; what reads as another function does.
LEFT_OUT = """vjson_path_in(cstring) vjson_path_out(vjson_path) vjson_path_recv(internal) vjson_path_send(vjson_path)
    vjson_recv(internal) vjson_sortsupport(internal) vjson_matchingsel(internal,oid,internal,integer)
    gin_extract_vjson_query_path(vjson,internal,smallint,internal,internal,internal,internal)
    gin_consistent_vjson_path(internal,smallint,vjson,integer,internal,internal,internal,internal)
    gin_triconsistent_vjson_path(internal,smallint,vjson,integer,internal,internal,internal)
    gin_extract_vjson_query(vjson,internal,smallint,internal,internal,internal,internal)
    gin_consistent_vjson(internal,smallint,vjson,integer,internal,internal,internal,internal)
    gin_triconsistent_vjson(internal,smallint,vjson,integer,internal,internal,internal)
    vjson_build_array() vjson_build_object() vjson_agg_finalfn(internal) vjson_object_agg_finalfn(internal)
    vjson_to_bool(vjson) vjson_to_numeric(vjson) vjson_to_int2(vjson) vjson_to_int4(vjson) vjson_to_int8(vjson)
    vjson_to_float4(vjson) vjson_to_float8(vjson)""".split()


class Clock:
    """A connection that tells how long statements take the server's process."""

    def __init__(self, server):
        self.session = cluster.Session(server)
        self.session.ask("SET jit = off; SET max_parallel_workers_per_gather = 0; SET log_min_messages = fatal; "
                         "SET statement_timeout = '30s'; SET work_mem = '256MB'; SET client_min_messages = log")

    def seconds(self, statements):
        """Of the processor, that the statements took."""
        self.session.ask("SET log_statement_stats = on")
        outcome = self.session.ask(statements)
        self.session.ask("SET log_statement_stats = off")
        if "ERROR: " in outcome:
            raise cluster.Failed("%s: %s" % (statements, re.search("ERROR: .*", outcome).group()))
        times = re.findall(r"^!\s+([0-9.]+) s user, ([0-9.]+) s system, [0-9.]+ s elapsed", outcome, re.M)
        if not times:
            raise cluster.Failed("the server tells no times: " + outcome)
        return sum(float(user) + float(system) for user, system in times)


def statements_of(timed, table, calls):
    """The statements that make so many calls."""
    timed = timed.format(table=table, last=LAST)
    if re.match("[A-Z]+[ ;]", timed):
        return ";\n".join([timed] * calls)
    return "SELECT count(%s) FROM %s, generate_series(1, %d)" % (timed, table, calls)


def time_all(server):
    functions = server.sql("""CREATE EXTENSION vizhoniku; CREATE TYPE grown_row AS (id int, price numeric);
        SELECT p.oid::regprocedure FROM pg_depend d JOIN pg_extension e ON d.refobjid = e.oid
        JOIN pg_proc p ON p.oid = d.objid WHERE e.extname = 'vizhoniku' AND d.classid = 'pg_proc'::regclass
          AND p.prokind = 'f'""").split("\n")
    check("growth: each function is timed or left out", sorted(functions), sorted(list(TIMED) + LEFT_OUT))
    clock = Clock(server)
    for kind, end in (("zeros", "50"), ("plain", "25")):
        for size in (growth.SMALL, growth.LARGE):
            table = "%s_%d" % (kind, size)
            storage = "".join("ALTER TABLE %s ALTER %s SET STORAGE EXTERNAL;" % (table, column) for column in COLUMNS)
            server.sql(TABLE.format(table=table, storage=storage, size=size, end=end))
        for some in TIMED.values():
            for timed in some:
                def time_of(size, calls):
                    return clock.seconds(statements_of(timed, "%s_%d" % (kind, size), calls))

                try:
                    outcome = growth.too_fast(time_of)
                except cluster.Failed as failure:
                    outcome = str(failure)
                check("growth, %s: %s" % (kind, timed), outcome, None)
    clock.session.close()


def grow(installed):
    """Times the functions in a server of their own."""
    server = cluster.Server(installed, "large", ["autovacuum = off"], environment=growth.ENVIRONMENT)
    try:
        server.start()
        time_all(server)
    finally:
        server.stop()
