"""Tries the page's code for columns of PostgreSQL's type vjson: python3 test_postgresql.py

It is run against a server of its own with the extension, which needs what integrations/postgresql/test needs, and by
psycopg, psycopg2 and SQLAlchemy. What is missing of these is skipped. The package is the one in the folder
that the environment variable VIZHONIKU_PACKAGES names.
"""

import decimal
import functools
import json
import os
import re
import sys
import unittest
from typing import Any, Dict, List

HERE = os.path.dirname(os.path.abspath(__file__))
sys.path[0] = os.environ["VIZHONIKU_PACKAGES"]  # in the place of this folder, which has the sources alone
sys.path.append(os.path.join(HERE, "..", "postgresql"))

import cluster

import vizhoniku

try:
    import psycopg
    import psycopg.types.json
except ImportError:
    psycopg = None  # type: ignore[assignment]
try:
    import psycopg2
    import psycopg2.extras
except ImportError:
    psycopg2 = None
try:
    import sqlalchemy
except ImportError:
    sqlalchemy = None

MISSING = cluster.missing()

# What is put in, beside what comes out of jsonb: json.loads of the text of the values.
VALUES: List[Any] = [
    {"tags": ["x", "y"], "share": 1e-07, "price": 2.5, "count": 3, "none": None, "is": True, "é𝄞": "\"\\\n"},
    [], {}, "text", 0, -1.5, False, [1e22, 5e-9], {"a": {"b": [[{"c": 10**30}]]}}]


def code() -> List[str]:
    """The page's code for PostgreSQL, block by block."""
    with open(os.path.join(HERE, "README.md"), encoding="utf-8") as page:
        section = page.read().split("\n## In PostgreSQL\n")[1].split("\n## ")[0]
    return re.findall(r"^```python\n(.*?)^```$", section, re.M | re.S)


def answer(block: str, names: Dict[str, Any]) -> None:
    """Runs a block, and compares its last line with what the comment there says."""
    lines, wanted = block.rstrip("\n").rsplit("  # ", 1)
    front, last = lines.rsplit("\n", 1)
    exec(front, names)
    outcome = repr(eval(last, names))
    if outcome != wanted:
        raise AssertionError(f"{outcome}, and the page has {wanted}")


@unittest.skipIf(MISSING is not None, f"{MISSING} is missing")
class OfThePage(unittest.TestCase):
    server: Any

    @classmethod
    def setUpClass(cls) -> None:
        installed = cluster.Installed()
        cls.addClassCleanup(installed.remove)
        cls.server = cluster.Server(installed, "server")
        cls.addClassCleanup(cls.server.stop)
        cls.server.start()
        cls.server.sql("CREATE EXTENSION vizhoniku")

    def setUp(self) -> None:
        self.server.sql("DROP TABLE IF EXISTS docs; CREATE TABLE docs(doc vjson)")

    def stored(self, value: Any) -> Any:
        """The only document, as the server has it, by jsonb; there is none any more then."""
        outcome = self.server.sql("SELECT doc::jsonb FROM docs; DELETE FROM docs")
        self.assertEqual(json.loads(outcome), value)

    @unittest.skipIf(psycopg is None, "python3-psycopg is missing")
    def test_psycopg(self) -> None:
        with psycopg.connect(host=self.server.folder, user="postgres", dbname="postgres") as connection:
            connection.autocommit = True
            names: Dict[str, Any] = {"connection": connection}
            exec(code()[0], names)
            answer(code()[1], names)
            connection.execute("DELETE FROM docs")
            vjson = names["Vjson"]
            for value in VALUES:
                connection.execute("INSERT INTO docs VALUES (%s)", [vjson(value)])
                row = connection.execute("SELECT doc, doc::jsonb, ARRAY[doc] FROM docs WHERE doc = %s", [vjson(value)])
                self.assertEqual(row.fetchone(), (value, value, [value]))
                self.stored(value)
            self.assertEqual(connection.execute("SELECT NULL::vjson").fetchone(), (None,))
            self.assertRaises(psycopg.Error, connection.execute, "SELECT %s", [vjson(float("nan"))])
            with self.assertRaises(psycopg.Error):
                connection.execute("SELECT doc FROM docs WHERE doc @> %s", [psycopg.types.json.Json([1])])
            self.assertEqual(connection.execute("SELECT '[1,2]'::vjson @> %s::vjson",
                                                [psycopg.types.json.Json([1e0])]).fetchone(), (True,))
            names["register_vjson"](connection, loads=functools.partial(json.loads, parse_float=decimal.Decimal))
            self.assertEqual(repr(connection.execute("SELECT '[1.50]'::vjson").fetchone()), "([Decimal('1.50')],)")
            names["register_vjson"](connection, loads=vizhoniku.Key,
                                    dumps=lambda value: vizhoniku.Key.of(value).text())
            key = vizhoniku.Key("{a: [1, 0.1]}")
            self.assertEqual(connection.execute("SELECT %s", [vjson(key)]).fetchone(), (key,))
            self.assertEqual(connection.execute("SELECT %s", [vjson([decimal.Decimal("0.10")])]).fetchone(),
                             (vizhoniku.Key("[0.1]"),))

    @unittest.skipIf(psycopg2 is None, "python3-psycopg2 is missing")
    def test_psycopg2(self) -> None:
        connection = psycopg2.connect(host=self.server.folder, user="postgres", dbname="postgres")
        self.addCleanup(connection.close)
        connection.autocommit = True
        cursor = connection.cursor()
        answer(code()[2], {"connection": connection, "cursor": cursor})
        cursor.execute("DELETE FROM docs")
        to_json = psycopg2.extras.Json
        for value in VALUES:
            cursor.execute("INSERT INTO docs VALUES (%s)", [to_json(value)])
            cursor.execute("SELECT doc, doc::jsonb, ARRAY[doc] FROM docs WHERE doc = %s", [to_json(value)])
            self.assertEqual(cursor.fetchone(), (value, value, [value]))
            self.stored(value)
        cursor.execute("SELECT NULL::vjson")
        self.assertEqual(cursor.fetchone(), (None,))
        psycopg2.extras.register_json(connection, name="vjson",
                                      loads=functools.partial(json.loads, parse_float=decimal.Decimal))
        cursor.execute("SELECT '[1.50]'::vjson")
        self.assertEqual(repr(cursor.fetchone()), "([Decimal('1.50')],)")

    @unittest.skipIf(sqlalchemy is None, "python3-sqlalchemy is missing")
    @unittest.skipIf(psycopg2 is None, "python3-psycopg2 is missing")
    def test_sqlalchemy(self) -> None:
        engine = sqlalchemy.create_engine("postgresql+psycopg2://", connect_args={
            "host": self.server.folder, "user": "postgres", "dbname": "postgres"})
        self.addCleanup(engine.dispose)
        with engine.connect().execution_options(isolation_level="AUTOCOMMIT") as connection:
            names: Dict[str, Any] = {"connection": connection}
            exec(code()[3], names)
            answer(code()[4], names)
            docs, select = names["docs"], sqlalchemy.select
            connection.execute(docs.delete())
            for value in VALUES:
                connection.execute(docs.insert(), [{"doc": value}])
                is_it = docs.c.doc.op("=", is_comparison=True)(value)  # == of a bool is another comparison there
                found = connection.execute(select(docs.c.doc).where(is_it)).fetchall()
                self.assertEqual([tuple(row) for row in found], [(value,)])
                self.stored(value)
            connection.execute(docs.insert(), [{"doc": None}])
            self.assertEqual(self.server.sql("SELECT doc IS NULL FROM docs"), "t")
            self.assertEqual(connection.execute(select(docs.c.doc)).fetchone()[0], None)
            docs.drop(connection)
            docs.create(connection)
            self.assertEqual(self.server.sql("SELECT format_type(atttypid, NULL) FROM pg_attribute WHERE attnum = 1 "
                                             "AND attrelid = 'docs'::regclass"), "vjson")
            typed = names["Vjson"](functools.partial(json.loads, parse_float=decimal.Decimal))
            outcome = connection.execute(select(sqlalchemy.literal("[1.50]").cast(typed))).fetchone()
            self.assertEqual(repr(outcome[0]), "[Decimal('1.50')]")


if __name__ == "__main__":
    cluster.end_by_signals()
    unittest.main()
