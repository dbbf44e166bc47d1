"""Functions and tables over members and items of large documents take time in proportion to their size: for the script
test.

    python3 large_documents.py FOLDER/vjson

The argument is the extension, as .load takes it. Each function, table and collation of it is in TIMED, with expressions
over the columns of TABLE, or in LEFT_OUT. The time of the processor is what the shell tells (.timer). Prints a line for
each that grows too fast, and at the end how many were timed.
"""

import os
import re
import subprocess
import sys

sys.path.insert(0, os.path.join(os.path.dirname(os.path.abspath(__file__)), ".."))
import growth

# The columns of a table with one row, of so many parts and with decimals that end so: o and a: the texts of an object
# and of an array; e: that of numbers with exponents; f: o with a fault at the end; ok, ak: the keys of o and a;
# od, ad: their documents.
TABLE = """CREATE TABLE {table} AS WITH RECURSIVE n(i) AS (SELECT 1 UNION ALL SELECT i + 1 FROM n WHERE i < {size}),
    made(o, a, e) AS (SELECT
      '{{' || group_concat('"k' || i || '":' || CASE i % 4 WHEN 0 THEN 'null' WHEN 1 THEN '"x"'
        WHEN 2 THEN '[' || i || '.{end}]' ELSE i || '.{end}' END) || '}}',
      '[' || group_concat(CASE i % 3 WHEN 0 THEN '"a"' WHEN 1 THEN '{{"id":' || i || ',"price":' || i || '.{end}}}'
        ELSE i || '.{end}' END) || ']',
      '[' || group_concat(i || '.{end}e-3') || ']' FROM n)
  SELECT o, a, e, o || 'x' AS f, vjson_key(o) AS ok, vjson_key(a) AS ak, vjson_document(o) AS od,
    vjson_document(a) AS ad FROM made;"""

COLUMNS = ("key", "value", "type", "atom", "id", "parent", "fullkey", "path", "part")


def rows(table, column):
    return "(SELECT count(x.%s) FROM %s x)" % (column, table)


# The last member of o but one is k9998, in the order of the names' bytes. LAST is the index of the last item of a.
TIMED = {
    "vjson": ["vjson(o)", "vjson(a)", "vjson(e)"],
    "vjson_valid": ["vjson_valid(o)", "vjson_valid(e)", "vjson_valid(f)"],
    "vjson_error_position": ["vjson_error_position(f)", "vjson_error_position(e || 'x')"],
    "vjson_error": ["vjson_error(o) IS NULL", "vjson_error(f)", "vjson_error(e || 'x')"],
    "vjson_error_path": ["vjson_error_path(o) IS NULL", "vjson_error_path(f)", "vjson_error_path(e || 'x')"],
    "vjson_get": ["vjson_get(o, '/k9998/0')", "vjson_get(a, '/LAST')", "vjson_get(e, '/LAST')", "vjson_get(o, '')"],
    "vjson_key": ["vjson_key(o)", "vjson_key(a)", "vjson_key(e)"],
    "VJSON": ["o = o || ' ' COLLATE VJSON", "a < a || ' ' COLLATE VJSON", "f < f || ' ' COLLATE VJSON",
              "e = e || ' ' COLLATE VJSON"],
    "vjson_document": ["vjson_document(o)", "vjson_document(a)", "vjson_document(e)"],
    "vjson_document_valid": ["vjson_document_valid(od)", "vjson_document_valid(ad)"],
    "vjson_document_text": ["vjson_document_text(od)", "vjson_document_text(ad)", "vjson_document_text(od, '/k9998')"],
    "vjson_document_key": ["vjson_document_key(od)"],
    "vjson_document_get": ["vjson_document_get(od, '/k9998/0')", "vjson_document_get(ad, '/LAST')",
                           "vjson_document_get(od, '/none') IS NULL"],
    "vjson_document_set": ["vjson_document_set(od, '/k9998/0', od)", "vjson_document_set(ad, '/LAST', od)"],
    "vjson_document_remove": ["vjson_document_remove(od, '/k9998')", "vjson_document_remove(ad, '/-1')"],
    "vjson_document_merge": ["vjson_document_merge(od, od)", "vjson_document_merge(ad, od)"],
    "vjson_key_valid": ["vjson_key_valid(ok)", "vjson_key_valid(ak)"],
    "vjson_key_get": ["vjson_key_get(ok, '/k9998/0')", "vjson_key_get(ak, '/LAST')",
                      "vjson_key_get(ok, '/none') IS NULL"],
    "vjson_key_text": ["vjson_key_text(ok)", "vjson_key_text(ak)", "vjson_key_text(ok, '/k9998')"],
    "vjson_key_value": ["vjson_key_value(ok)", "vjson_key_value(ok, '/k9998/0')", "vjson_key_value(ak, '/LAST')"],
    "vjson_key_type": ["vjson_key_type(ok)", "vjson_key_type(ak, '/LAST')"],
    "vjson_each": [rows("vjson_each(%s)" % key, column) for key in ("ok", "ak") for column in COLUMNS],
    "vjson_tree": [rows("vjson_tree(%s)" % key, column) for key in ("ok", "ak") for column in COLUMNS],
}

LEFT_OUT = []


class Shell:
    """A process of sqlite3 with the extension, which is told statements one after the other."""

    def __init__(self, extension):
        self.process = subprocess.Popen(["sqlite3", "-batch", ":memory:"], text=True, stdin=subprocess.PIPE,
                                        stdout=subprocess.PIPE, stderr=subprocess.STDOUT,
                                        env=dict(os.environ, **growth.ENVIRONMENT))
        self.ask(".load " + extension)

    def ask(self, text):
        """What is printed of the statements."""
        self.process.stdin.write(text + "\n.print -- that was it\n")
        self.process.stdin.flush()
        lines = []
        for line in self.process.stdout:
            if line == "-- that was it\n":
                outcome = "".join(lines)
                if re.search("(?m)^(Parse|Runtime|Error)\\b", outcome):
                    raise ValueError(outcome)
                return outcome
            lines.append(line)
        raise ValueError("sqlite3 ended: " + "".join(lines))

    def close(self):
        self.process.stdin.close()
        self.process.wait()

    def seconds(self, query):
        """Of the processor, that the query took."""
        outcome = self.ask(".timer on\n%s;\n.timer off" % query)
        times = re.findall(r"^Run Time: real [0-9.]+ user ([0-9.]+) sys ([0-9.]+)$", outcome, re.M)
        if len(times) != 1:
            raise ValueError("sqlite3 tells no time: " + outcome)
        return float(times[0][0]) + float(times[0][1])


def main():
    shell = Shell(sys.argv[1])
    shell.ask("CREATE TABLE counted(n INTEGER PRIMARY KEY); WITH RECURSIVE n(i) AS (SELECT 1 UNION ALL "
              "SELECT i + 1 FROM n WHERE i < %d) INSERT INTO counted SELECT i FROM n;" % growth.MOST_CALLS)
    there = set(shell.ask("""SELECT name FROM pragma_function_list WHERE name LIKE 'vjson%' UNION
        SELECT name FROM pragma_module_list WHERE name LIKE 'vjson%' UNION
        SELECT name FROM pragma_collation_list WHERE name LIKE 'vjson%';""").split())
    if there != set(TIMED) | set(LEFT_OUT):
        print("neither timed nor left out, or not there:", *sorted(there ^ (set(TIMED) | set(LEFT_OUT))))
    count = 0
    for kind, end in (("zeros", "50"), ("plain", "25")):
        for size in (growth.SMALL, growth.LARGE):
            shell.ask(TABLE.format(table="%s_%d" % (kind, size), size=size, end=end))
        for some in TIMED.values():
            for timed in some:
                def time_of(size, calls):
                    return shell.seconds("SELECT count(%s) FROM counted CROSS JOIN %s_%d WHERE n <= %d"
                                         % (timed.replace("LAST", str(size - 1)), kind, size, calls))

                outcome = growth.too_fast(time_of)
                count += 1
                if outcome:
                    print("%s: %s: %s" % (kind, timed, outcome))
    shell.close()
    print("%d timed" % count)


if __name__ == "__main__":
    main()
