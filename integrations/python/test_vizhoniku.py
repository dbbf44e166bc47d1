"""Tries the module, and documents in LMDB: python3 test_vizhoniku.py

Tries the package in the folder that the environment variable VIZHONIKU_PACKAGES names. The tests of LMDB are skipped
where python3-lmdb is missing, and those over a library that stands in for the real one where cc or python3-dev is.
"""

import ast
import collections
import copy
import doctest
import enum
import functools
import gc
import importlib.util
import inspect
import itertools
import json
import operator
import os
import pickle
import random
import re
import shutil
import subprocess
import sys
import sysconfig
import tempfile
import threading
import time
import tracemalloc
import unittest
import unittest.mock
from decimal import Decimal
from fractions import Fraction
from typing import Any, Callable, Dict, List, NamedTuple, Optional, Tuple

HERE = os.path.dirname(os.path.abspath(__file__))
PACKAGES = os.environ["VIZHONIKU_PACKAGES"]
sys.path[0] = PACKAGES  # in the place of this folder, which has the sources alone
sys.path.append(os.path.dirname(HERE))

import growth
import vizhoniku as v

try:
    import lmdb
    from lmdb_documents import Documents
except ImportError:
    lmdb = None

VERSION = 10  # of the interface that is needed
TOP = os.path.join(HERE, "..", "..")
VECTORS = os.path.join(TOP, "tests", "vectors.jsonl")

# Documents in the order of their values; those of one line are equal.
IN_ORDER = [
    ["false", "FALSE"],
    ["true"],
    ["-18446744073709551616"],
    ["-1.5", "-01.50"],
    ["-0.05"],
    ["0", "-0", "0.00", "0x0"],
    ["0.5", ".5", "+.50"],
    ["1", "1.0", "1.00", "0x1", "+1", "/* one */ 1 // end"],
    ["9"],
    ["10", "0xA"],
    ["18446744073709551615"],
    ['""', "''"],
    [r'"\u0000"'],
    ['"a"', r'"\u0061"', "'a'"],
    ['"ab"'],
    ['"é"', r'"\u00e9"', r'"\u00E9"'],
    ['"𝄞"', r'"\ud834\udd1e"'],
    ["{}", "{ }"],
    ['{"a":1}', "{a:1.0}"],
    ['{"a":1,"b":2}', '{"b":2,"a":1}', "{b: 0x2, a: +1}"],
    ['{"a":2}'],
    ['{"b":0}'],
    ["[]"],
    ["[1]", "[1.0]"],
    ["[1,0]"],
    ["[1,null]", "[1,]"],
    ["[[]]"],
    ["null", "NULL", "", " // nothing\n"],
]


def page() -> str:
    with open(os.path.join(HERE, "README.md"), encoding="utf-8") as file:
        return file.read()


def sign(order: int) -> int:
    return (order > 0) - (order < 0)


class Calls(unittest.TestCase):
    def test_text(self) -> None:
        self.assertEqual(v.text("{b:0x1F, /* x */ a:[,+.5]} // end"), '{"a":[null,0.5],"b":31}')
        self.assertEqual(v.text(b'"a\x00b"'), '"a\\u0000b"')
        self.assertEqual(v.text('"' + "\x01" * 1000 + '"'), '"' + "\\u0001" * 1000 + '"')
        self.assertEqual(v.text(bytearray(b"[1, 2]"), v.STANDARD), "[1,2]")
        self.assertEqual(v.text(memoryview(b"x[1, 2]")[1:]), "[1,2]")
        self.assertEqual(v.text('"é𝄞"'), '"é𝄞"')

    def test_modes(self) -> None:
        taken: List[Tuple[str, List[v.Mode]]] = [
            ("[1,2]", [v.STANDARD, v.EXTENDED, v.JSON, v.EXTENDED_JSON]),
            ("1.5", [v.EXTENDED, v.JSON, v.EXTENDED_JSON]),
            ("1e5", [v.JSON, v.EXTENDED_JSON]), ("+1e5", [v.EXTENDED_JSON]), (".5e3", [v.EXTENDED_JSON]),
            ("1\f", [v.STANDARD, v.EXTENDED, v.EXTENDED_JSON]), ('"\t"', [v.STANDARD, v.EXTENDED, v.EXTENDED_JSON]),
            ('"\\u{0041}"', [v.STANDARD, v.EXTENDED, v.EXTENDED_JSON])]
        taken += [(text, [v.EXTENDED, v.EXTENDED_JSON]) for text in ("[1,]", "{a:1}", "", "// c\n1", "0x1", "'a'")]
        taken += [(text, []) for text in ("1e39", '{"a":1,"a":2}', "[1", "\ufeff1")]
        for text, modes in taken:
            self.assertEqual([mode for mode in v.Mode if v.is_valid(text, mode)], modes, text)
            self.assertEqual(v.is_valid(text), v.EXTENDED_JSON in modes)
        v.check("[1,2]", mode=v.STANDARD)
        for mode in (4, -1, 2**32):
            self.assertRaises(ValueError, v.check, "1", mode)

    def test_exponents(self) -> None:
        self.assertEqual(v.text('{"b": 1e-07, "a": [1E5, "1e5", 1.50e1]}'), '{"a":[100000,"1e5",15.0],"b":0.0000001}')
        self.assertEqual(v.sort_key("1e2"), v.sort_key("100.0"))
        self.assertEqual(v.text_and_key(b"[1e2]"), ("[100]", v.sort_key("[100]")))
        self.assertEqual(v.get('{"a": 6.02e23}', "/a"), "602000000000000000000000")
        self.assertEqual([v.compare("1e2", "1.0e+2"), v.compare("99", "1e2"), v.compare("1e2", "99")], [0, -1, 1])
        self.assertEqual(v.Key("[1e2]").text(), "[100]")
        fault = self.rejected('{"é": 1e39}')
        self.assertEqual((fault.line, fault.column, fault.index, fault.code, fault.which), (1, 10, 9, 20, 1))
        self.assertEqual(fault.message, "number not carried")
        for text in ("1e39", "1" * 39, "[1e1, %s]" % ("1" * 39), "0.%s" % ("1" * 39), "[1.5, -1E-60]", "[1e5, 1e300]"):
            for call in (v.check, v.text, v.sort_key, v.text_and_key, v.Key):
                with self.assertRaises(v.RejectedText) as raised:
                    call(text)
                self.assertEqual((raised.exception.message, raised.exception.code), ("number not carried", 20))
            for texts in ((text, "1"), ("1", text)):
                with self.assertRaises(v.RejectedText) as raised:
                    v.compare(*texts)
                self.assertEqual(raised.exception.message, "number not carried")
        with self.assertRaises(v.RejectedText) as raised:
            v.compare("1e1", "5e-324")
        self.assertEqual((raised.exception.which, raised.exception.column), (2, 6))
        for mode in (v.STANDARD, v.EXTENDED):
            self.assertEqual(self.rejected("1e5", mode).message, "number not carried")
        self.assertEqual(self.rejected('{"a":1e1,"a":2}').code, 17)

    def test_locations_behind_exponents(self) -> None:
        """What is wrong behind a number with an exponent has its place in the text that was passed."""
        long = "1" * 39
        rows: List[Tuple[str, str, Optional[str], int]] = [
            ("[%s, x]", "x", "/1", 5), ('{"é𝄞": %s, "b": [%s,\n%s, "é", x]}', "x", "/b/3", 5),
            ("[%s\n x]", "x", None, 7), ('{"a": %s, "b": {"~/": "\\x"}}', "x", "/b/~0~1", 12),
            (f"[[%s, {long}], 1]", long, "/0/1", 20), ("%s x", "x", None, 9)]
        calls: List[Callable[[Any], Any]] = [
            v.check, v.text, v.sort_key, v.text_and_key, v.Key, lambda one: v.get(one, ""),
            lambda one: v.compare(one, "1"), lambda one: v.compare("1e1", one)]
        for number in ("1e5", "1.50e-7", "-6.02E+23", "0e0"):
            for front, at, path, code in rows:
                text = front.replace("%s", number)
                index = text.index(at) + len(at) - 1
                in_bytes = len(text[:index].encode())
                passed: List[Tuple[Any, int, Any]] = [(text, index, "\n"), (text.encode(), in_bytes, b"\n")]
                for one, location, feed in passed:
                    wanted = (location, 1 + one.count(feed, 0, location), location - one[:location].rfind(feed), code)
                    for call in calls:
                        with self.assertRaises(v.RejectedText) as raised:
                            call(one)
                        fault = raised.exception
                        self.assertEqual((fault.index, fault.line, fault.column, fault.code), wanted, one)
                        self.assertIn(path, (fault.path, None))
        for text, location, code in (("[1e5, x, 1e300]", 7, 5), ("[1e300, x]", 6, 20), ("[1e5, 1e300, x]", 11, 20)):
            for call in calls:  # the first fault
                with self.assertRaises(v.RejectedText) as raised:
                    call(text)
                self.assertEqual((raised.exception.column, raised.exception.code), (location, code), text)
                self.assertIn(raised.exception.message, ("expected value", "number not carried"))
        with self.assertRaises(v.RejectedText) as raised:
            v.compare("1e1", "[2e1,\n3e1 x]")
        self.assertEqual(str(raised.exception), "second text, line 2, column 5: expected `,` or `]`")

    def test_paths(self) -> None:
        """The innermost item or member at which a text was rejected."""
        deep = "".join('{"a~/é": [0, ' for _ in range(200)) + "x" + "]}" * 200
        for text, path in (('{"values": [1, 2.5, %s]}' % ("1" * 39), "/values/2"), ("x", ""), ("1e400", ""),
                           ('{"values": [1e5, 1e300]}', "/values/1"), ('{"a": {"b": [1, x]}}', "/a/b/1"),
                           (deep, "/a~0~1é/1" * 200), ('["\\x"]', "/0")):
            for one in (text, text.encode()):
                self.assertEqual(self.rejected(one).path, path, text)
        self.assertEqual(self.rejected('{"a": [1, 2.5]}', v.STANDARD).path, "/a/1")
        for left, right, path in (("[x]", "1", "/0"), ("1", '{"a": [1e300]}', "/a/0"),
                                  ("1e1", '{"b": 1e1, "a": x}', "/a")):
            with self.assertRaises(v.RejectedText) as raised:
                v.compare(left, right)
            self.assertEqual(raised.exception.path, path)
        self.assertIsNone(v.RejectedText("words", 5, 1, 0, 1, 1).path)

    def rejected(self, text: v.Text, mode: int = v.EXTENDED_JSON) -> v.RejectedText:
        with self.assertRaises(v.RejectedText) as raised:
            v.check(text, mode)
        return raised.exception

    def test_rejected(self) -> None:
        fault = self.rejected('{\n  "a": 1,\n  "b": [2.5]\n}', v.STANDARD)
        self.assertEqual((fault.line, fault.column, fault.index, fault.code, fault.which), (3, 11, 22, 20, 1))
        self.assertEqual(fault.message, "number not carried")
        self.assertEqual(str(fault), "line 3, column 11: number not carried")
        self.assertIsInstance(fault, ValueError)
        for call in (v.text, v.sort_key, v.text_and_key, v.check):
            with self.assertRaises(v.RejectedText) as raised:
                call("[1,\n2 3]")
            self.assertEqual(str(raised.exception), "line 2, column 3: expected `,` or `]`")
        with self.assertRaises(v.RejectedText) as raised:
            v.get("[1", "/0")
        self.assertEqual(str(raised.exception), "line 1, column 3: EOF while parsing a value")

    def test_columns_count_characters_of_a_str(self) -> None:
        text = '{"é": "𝄞",\n "é𝄞é": x}'
        fault = self.rejected(text)
        self.assertEqual((fault.line, fault.column, fault.index), (2, 9, text.index("x")))
        data = text.encode()
        fault = self.rejected(data)
        self.assertEqual((fault.line, fault.column, fault.index), (2, 14, data.index(b"x")))
        fault = self.rejected('["é')
        self.assertEqual((fault.column, fault.index), (4, 3))
        fault = self.rejected("{é: 1, é: 2}")
        self.assertEqual((str(fault), fault.index), ('line 1, column 8: duplicate object attribute "é"', 7))
        fault = self.rejected('["é\ud800"]')
        self.assertEqual((str(fault), fault.index), ("line 1, column 5: invalid string", 4))

    def test_a_long_key_is_named_whole(self) -> None:
        key = "k" * 100_000
        self.assertEqual(self.rejected('{"%s":1,"%s":2}' % (key, key)).message,
                         'duplicate object attribute "%s"' % key)

    def test_a_key_that_looks_like_a_position(self) -> None:
        self.assertEqual(self.rejected('{"a, pos 26":1,"a, pos 26":2}').message,
                         'duplicate object attribute "a, pos 26"')

    def test_compare(self) -> None:
        for i, left in enumerate(IN_ORDER):
            for j, right in enumerate(IN_ORDER):
                for one in left:
                    self.assertEqual(v.compare(one, right[-1]), sign(i - j), (one, right[-1]))
        with self.assertRaises(v.RejectedText) as raised:
            v.compare("1", "[x")
        self.assertEqual((raised.exception.which, str(raised.exception)),
                         (2, "second text, line 1, column 2: expected value"))

    def test_an_error_goes_to_another_process(self) -> None:
        with self.assertRaises(v.RejectedText) as raised:
            v.compare("1", "[1,\n x")
        fault = raised.exception
        again = pickle.loads(pickle.dumps(fault))
        self.assertIs(type(again), v.RejectedText)
        self.assertEqual(vars(again), vars(fault))
        self.assertEqual(str(again), "second text, line 2, column 2: expected value")

    def test_sort_key(self) -> None:
        keys = [[v.sort_key(text) for text in line] for line in IN_ORDER]
        for line in keys:
            self.assertEqual(len(set(line)), 1)
        self.assertEqual([line[0] for line in keys], sorted(line[0] for line in keys))
        self.assertEqual(v.sort_key("[1,null]"), bytes.fromhex("d2a114d300"))
        self.assertEqual(v.sort_key("[" + "1.5," * 1000 + "]"), b"\xd2" + v.sort_key("1.5") * 1000 + b"\xd3\x00")

    def test_sorted(self) -> None:
        texts = [text for line in IN_ORDER for text in line]
        random.Random(1).shuffle(texts)
        by_key = sorted(texts, key=v.sort_key)
        self.assertEqual(by_key, sorted(texts, key=functools.cmp_to_key(v.compare)))
        location = {text: i for i, line in enumerate(IN_ORDER) for text in line}
        self.assertEqual([location[text] for text in by_key], sorted(location.values()))

    def test_text_and_key(self) -> None:
        longer = ['"' + "\x01" * 1000 + '"', '"' + "\0" * 1000 + '"', "[" + "," * 1000 + "]"]
        for text in [line[-1] for line in IN_ORDER] + longer:
            self.assertEqual(v.text_and_key(text), (v.text(text), v.sort_key(text)))

    def test_get(self) -> None:
        text = '{"a": [0, {"b/c": [true, 0x10], "~": 1}], "": {"": 2}, "long": "%s"}' % ("x" * 1000)
        self.assertEqual(v.get(text, "/a/1/b~1c"), "[true,16]")
        self.assertEqual(v.get(text, "/a/1/~0"), "1")
        self.assertEqual(v.get(text, "//"), "2")
        self.assertEqual(v.get(text, ""), v.text(text))
        self.assertEqual(v.get(text, "/long"), '"' + "x" * 1000 + '"')
        self.assertEqual(v.get('{"é":1}', "/é"), "1")
        for path in ("/a/2", "/a/-", "/b", "/a/01", "/a/0/0"):
            self.assertIsNone(v.get(text, path))
        for path in ("a", "/~", "/a~2"):
            self.assertRaises(v.PathError, v.get, text, path)

    def test_vectors(self) -> None:
        """2,000 texts with their answers."""
        texts: List[bytes] = []
        with open(VECTORS, encoding="utf-8") as lines:
            for line in lines:
                row = json.loads(line)
                data = bytes.fromhex(row["input"])
                for mode in (v.STANDARD, v.EXTENDED):
                    answer = row[mode.name.lower()]
                    if "rejected" in answer:
                        fault = self.rejected(data, mode)
                        self.assertEqual(fault.message.encode("utf-8", "replace"),
                                         answer["reason"].encode("utf-8", "replace"), data)
                        self.assertTrue(0 <= fault.index <= len(data))
                    else:
                        self.assertEqual(v.text(data, mode).encode(), bytes.fromhex(answer["text"]), data)
                        if mode == v.EXTENDED:
                            texts.append(data)
        for left, right in zip(texts, texts[1:]):
            one, two = v.sort_key(left), v.sort_key(right)
            self.assertEqual(v.compare(left, right), (one > two) - (one < two))
        self.assertGreater(len(texts), 500)

    def test_against_json(self) -> None:
        """Of integers, strings, arrays and objects the text is that of the module json with sorted keys."""
        draw = random.Random(1)

        def value(depth: int) -> Any:
            kind = draw.randrange(6 if depth else 4)
            if kind == 4:
                return [value(depth - 1) for _ in range(draw.randrange(4))]
            if kind == 5:
                return {"".join(draw.choices('aé"\\\n𝄞', k=2)): value(depth - 1) for _ in range(draw.randrange(4))}
            return (None, draw.random() < .5, draw.randrange(-2**63, 2**64),
                    "".join(draw.choices('ab"\\/\n\té𝄞', k=3)))[kind]

        for _ in range(1000):
            one = value(3)
            text = json.dumps(one, indent=draw.choice((None, 2)), ensure_ascii=draw.random() < .5)
            self.assertEqual(v.text(text, v.STANDARD),
                             json.dumps(one, separators=(",", ":"), sort_keys=True, ensure_ascii=False))
            self.assertEqual(json.loads(v.text(text)), one)

    def test_deep(self) -> None:
        for front, back in (("[", "]"), ('{"a":', "}")):
            text = front * 512 + "1" + back * 512
            self.assertEqual(v.compare(text, text), 0)
            self.assertEqual(v.text(text), text)
            self.assertEqual(self.rejected(front + text + back).message, "depth limit exceeded")

    def test_threads(self) -> None:
        text = json.dumps([{"a": i, "b": [str(i)] * 5} for i in range(100)])
        answers: List[bytes] = []

        def read() -> None:
            for _ in range(20):
                answers.append(v.sort_key(text))

        threads = [threading.Thread(target=read) for _ in range(8)]
        for thread in threads:
            thread.start()
        for thread in threads:
            thread.join()
        self.assertEqual((len(answers), len(set(answers))), (160, 1))

    def test_wrong_types(self) -> None:
        self.assertRaises(TypeError, v.check, None)
        self.assertRaises(TypeError, v.check, 1.5)
        for wrong in (0, 5, True, [], [49], {}, {"a": 1}):  # what bytes() takes, and is no text
            self.assertRaises(TypeError, v.text, wrong)
            self.assertRaises(TypeError, v.get, "{}", wrong)
        self.assertRaises(TypeError, v.compare, "1", None)


class Keys(unittest.TestCase):
    """Sort keys as documents."""

    def test_kinds(self) -> None:
        for text, kind in (("null", "null"), ("true", "boolean"), ("-1.50", "number"), ('"x"', "string"),
                           ("[]", "array"), ("{}", "object")):
            key = v.Key(text)
            self.assertEqual((key.kind, bytes(key), type(bytes(key))), (kind, v.sort_key(text), bytes))

    def test_text(self) -> None:
        self.assertEqual(v.Key('{"b": 1.50, "a": [2.0, "\\u00e9"]}').text(), '{"a":[2,"é"],"b":1.5}')
        self.assertEqual(v.Key('"' + "\x01" * 5000 + '"').text(), '"' + "\\u0001" * 5000 + '"')
        self.assertEqual(v.Key(b"[1]", v.STANDARD).text(), "[1]")
        self.assertEqual(v.Key(text="[1]", mode=v.STANDARD).text(), "[1]")
        self.assertEqual(repr(v.Key("{a: ''}")), """Key('{"a":""}')""")
        with self.assertRaises(v.RejectedText) as raised:
            v.Key("[1,\n1.5]", v.STANDARD)
        self.assertEqual(str(raised.exception), "line 2, column 3: number not carried")

    def test_order(self) -> None:
        keys = [[v.Key(text) for text in line] for line in IN_ORDER]
        for i, left in enumerate(keys):
            for j, right in enumerate(keys):
                one, two = left[0], right[-1]
                self.assertEqual((one < two, one <= two, one == two, one != two, one >= two, one > two),
                                 (i < j, i <= j, i == j, i != j, i >= j, i > j))
                self.assertEqual(hash(one) == hash(two), i == j)
        shuffled = [key for line in keys for key in line]
        random.Random(4).shuffle(shuffled)
        self.assertEqual(sorted(shuffled), [key for line in keys for key in line])
        self.assertEqual(len(set(shuffled)), len(IN_ORDER))
        self.assertNotEqual(v.Key("1"), v.sort_key("1"))
        self.assertNotEqual(v.Key('"1"'), "1")
        for other in ("1", b"1", None, 1):
            with self.assertRaises(TypeError):
                v.Key("1") < other  # type: ignore[operator]

    def test_get(self) -> None:
        key = v.Key('{"a": [0, {"b/c": [true, 0x10], "~": 1}], "": {"": 2}, "é": null}')
        paths: List[Tuple[v.Text, str]] = [("/a/1/b~1c", "[true,16]"), ("/a/1/~0", "1"), ("//", "2"), ("", key.text()),
                                           ("/é", "null"), (b"/a/0", "0")]
        for path, text in paths:
            part = key.get(path)
            assert part is not None
            self.assertEqual((part.text(), part), (text, v.Key(text)))
        for absent in ("/a/2", "/a/-", "/b", "/a/01", "/a/0/0"):
            self.assertIsNone(key.get(absent))
        for malformed in ("a", "/~", "/a~2"):
            with self.assertRaises(v.PathError) as raised:
                key.get(malformed)
            self.assertIn("RFC 6901", str(raised.exception))
            self.assertRaises(v.PathError, key.get, malformed, key)
        wrongs: List[Any] = [None, 0, ["a"]]
        for wrong in wrongs:
            self.assertRaises(TypeError, key.get, wrong)

    def test_get_with_a_default(self) -> None:
        none, text = object(), '{"a": [0, null, 1.50]}'
        rows: List[Tuple[Any, Any]] = [(v.Key(text), v.Key("1.5")), (v.Document(text), v.Document("1.50"))]
        for whole, part in rows:
            for absent in ("/b", "/a/3", "/a/-", "/a/0/0"):
                self.assertIs(whole.get(absent, none), none)
                self.assertIs(whole.get(path=absent, default=none), none)
                self.assertIsNone(whole.get(absent, None))
            self.assertEqual((whole.get("/a/2", none), whole.get("/a/2", default=none)), (part, part))
            self.assertEqual(whole.get("/a/1", none), type(whole)("null"))
            for call in (whole.get, lambda: whole.get("/a", 1, 2), lambda: whole.get("/a", 1, default=2),
                         lambda: whole.get("/a", other=1)):
                self.assertRaises(TypeError, call)

    def test_pointer(self) -> None:
        """The examples of RFC 6901, section 5."""
        whole = {"foo": ["bar", "baz"], "": 0, "a/b": 1, "c%d": 2, "e^f": 3, "g|h": 4, "i\\j": 5, 'k"l': 6, " ": 7,
                 "m~n": 8}
        paths = {"foo": "/foo", "": "/", "a/b": "/a~1b", "c%d": "/c%d", "e^f": "/e^f", "g|h": "/g|h", "i\\j": "/i\\j",
                 'k"l': '/k"l', " ": "/ ", "m~n": "/m~0n"}
        kinds: List[Any] = [v.Key, v.Document]
        for kind in kinds:
            stored = kind.of(whole)
            for name, value in whole.items():
                self.assertEqual((v.pointer(name), stored.get(v.pointer(name))), (paths[name], kind.of(value)))
            self.assertEqual((v.pointer(), stored.get(v.pointer())), ("", stored))
            self.assertEqual((v.pointer("foo", 0), stored.get(v.pointer("foo", 0))), ("/foo/0", kind.of("bar")))
        self.assertEqual(v.pointer("~1", "/", -1), "/~01/~1/-1")

        class Name(str):
            def __str__(self) -> str:
                return "wrong"

        class Number(enum.IntEnum):
            ONE = 1

        self.assertEqual(v.pointer(Name("a/"), Number.ONE), "/a~1/1")
        wrongs: List[Any] = [None, 1.5, b"a", ("a",)]
        for wrong in wrongs:
            with self.assertRaises(TypeError) as raised:
                v.pointer("a", wrong)
            self.assertEqual(str(raised.exception), "a name is a str and an index an int, and not "
                                                    + type(wrong).__name__)

    def test_numbers(self) -> None:
        """float and int of keys and documents are those of Python's decimals."""
        texts = ["0", "-1", "1.50", "0.1", "2.00", "-0.5", "1e37", "1e-38", "9007199254740993", "9" * 38,
                 "-" + "9" * 38, "0." + "9" * 38, "123456789012345678.90123456789", "4.35", "5e-20"]
        both: List[Any] = [v.Key, v.Document]
        for text in texts:
            exact = Decimal(text)
            for stored in (kind(text) for kind in both):
                self.assertEqual((float(stored), type(float(stored))), (float(exact), float))
                if exact == exact.to_integral_value():
                    self.assertEqual((int(stored), type(int(stored))), (int(exact), int))
                else:
                    with self.assertRaises(ValueError) as raised:
                        int(stored)
                    self.assertEqual(str(raised.exception), f"{exact:f}".rstrip("0") + " is no whole number")
        self.assertEqual(complex(v.Key("1.5")), 1.5 + 0j)
        kinds = {"null": "null", "true": "boolean", '"1"': "string", "[1]": "array", '{"a":1}': "object"}
        calls: List[Callable[[Any], Any]] = [float, int]
        for text, name in kinds.items():
            for stored in (kind(text) for kind in both):
                for call in calls:
                    with self.assertRaises(TypeError) as wrong:
                        call(stored)
                    self.assertEqual(str(wrong.exception), f"{name} is no number")
        self.assertRaises(TypeError, operator.index, v.Key("1"))

    def test_slices(self) -> None:
        """Slices of arrays are those of lists."""
        class Index:
            def __init__(self, index: int) -> None:
                self.index = index

            def __index__(self) -> int:
                return self.index

        draw = random.Random(12)
        bounds = [None, *range(-7, 8), 2**70, -2**70]
        steps = [None, 1, 2, 3, 7, -1, -2, -3, -7, 2**63 - 1, -2**63, 2**70, -2**70]
        arrays: List[List[Any]] = [[], ["x"], [1.0, "x", [2], None, {"a": Decimal("1.50")}], [*range(30)]]
        kinds: List[Any] = [v.Key, v.Document]
        for values, kind in itertools.product(arrays, kinds):
            stored, parts = kind.of(values), [kind.of(value) for value in values]
            for _ in range(500):
                which = slice(draw.choice(bounds), draw.choice(bounds), draw.choice(steps))
                self.assertEqual(stored[which], parts[which], which)
        self.assertEqual(v.Key("[1, 'x', 2]")[1:], [v.Key('"x"'), v.Key("2")])
        self.assertEqual(type(v.Key("[1]")[:]), list)
        array: Any = v.Key("[1]")
        self.assertEqual(array[slice(Index(0), Index(1))], [v.Key("1")])
        wrongs: List[Tuple[Callable[[], Any], Any, str]] = [
            (lambda: array[::0], ValueError, "slice step cannot be zero"),
            (lambda: array[slice("a", None)], TypeError,
             "slice indices must be integers or None or have an __index__ method"),
            (lambda: v.Key("{}")[:1], TypeError, "object is no array"),
            (lambda: v.Key("''")[:1], TypeError, "string is no array")]
        for call, error, words in wrongs:
            with self.assertRaises(error) as raised:
                call()
            self.assertEqual(str(raised.exception), words)

    def test_what_a_dict_has(self) -> None:
        """What the page has for what dicts and lists do."""
        values: Dict[str, Any] = {"a": [1, "x"], "b/c~": {}, "": False, "n": 2.5}
        key, none = v.Key.of(values), object()
        for name in (*values, "zz", "/a"):
            wanted = v.Key.of(values[name]) if name in values else none
            self.assertEqual(key.get(v.pointer(name), none), wanted)
        self.assertEqual(dict(key.items()), {name: v.Key.of(value) for name, value in values.items()})
        self.assertEqual(list(key), sorted(values))
        self.assertEqual([part for _, part in key.items()], [v.Key.of(values[name]) for name in sorted(values)])
        self.assertEqual(key.put("a", 1), v.Key.of({**values, "a": 1}))
        self.assertEqual(key.remove("/n").value(), {name: value for name, value in values.items() if name != "n"})
        self.assertEqual(key["a"].push(None), v.Key.of([*values["a"], None]))
        self.assertEqual(key.merge({"n": 1}), v.Key.of({**values, "n": 1}))
        self.assertEqual(key["a"].merge([2]), v.Key.of(values["a"] + [2]))
        self.assertEqual([v.Key.of(item) in key["a"] for item in (1, "x", 2)], [True, True, False])
        self.assertEqual((key == v.Key.of(values), key == values), (True, False))
        self.assertEqual([bool(part) for _, part in key.items()], [True] * 4)
        self.assertEqual([bool(part.value()) for _, part in key.items()], [False, True, False, True])
        self.assertEqual((int(key["n"].value()), float(key["n"]) + 1), (int(2.5), 2.5 + 1))
        untyped: Any = v.Key('{"id":1,"ok":2}')
        self.assertEqual(dict(untyped), {"i": "d", "o": "k"})
        self.assertRaises(ValueError, dict, key)
        self.assertRaises(TypeError, lambda: dict(**untyped))

    def test_copies(self) -> None:
        """What pickle and copy make is equal and of the same type, also in other values."""
        texts = ["null", "[]", '{"a":[1.5,"é𝄞\\u0000"]}', "1.50", '["%s",2.00]' % ("x" * 300)]
        kinds: List[Any] = [v.Key, v.Document]
        for text in texts:
            for stored in (kind(text) for kind in kinds):
                values = {"a": [stored, (stored,)]}
                for protocol in range(2, pickle.HIGHEST_PROTOCOL + 1):
                    again = pickle.loads(pickle.dumps(stored, protocol))
                    self.assertEqual((again, type(again), bytes(again)), (stored, type(stored), bytes(stored)))
                    self.assertEqual(pickle.loads(pickle.dumps(values, protocol)), values)
                self.assertEqual(stored.__reduce__(), (type(stored).from_bytes, (bytes(stored),)))
                self.assertIs(copy.copy(stored), stored)
                self.assertIs(copy.deepcopy(stored), stored)
                deep = copy.deepcopy(values)
                self.assertEqual((deep, deep["a"] is values["a"]), (values, False))
        with self.assertRaises(ValueError) as raised:
            pickle.loads(pickle.dumps(v.Document.from_trusted_bytes(b"")))
        self.assertEqual(str(raised.exception), "the bytes aren't a document")

    def test_items_and_members(self) -> None:
        kinds: List[Any] = [v.Key, v.Document]
        for kind in kinds:
            array, whole = kind("[1, 'x', [2]]"), kind('{"b": 1, "a": [2], "": null, "b\\u0000": 3}')
            self.assertEqual((array[0], array[-1], array[1]), (kind("1"), kind("[2]"), kind('"x"')))
            self.assertEqual((whole["b"], whole[""], whole["b\0"]), (kind("1"), kind("null"), kind("3")))
            for index in (3, -4, 2**63, -2**63 - 1, 2**200):
                self.assertRaises(IndexError, lambda: array[index])
            with self.assertRaises(KeyError) as raised:
                whole["zz"]
            self.assertEqual(raised.exception.args, ("zz",))
            self.assertEqual([part.text() for part in array], ["1", '"x"', "[2]"])
            self.assertEqual(list(whole), ["", "a", "b", "b\0"])
            self.assertEqual([(name, part.text()) for name, part in whole.items()],
                             [("", "null"), ("a", "[2]"), ("b", "1"), ("b\0", "3")])
            self.assertEqual(([part.text() for part in reversed(array)], list(reversed(whole))),
                             (["[2]", '"x"', "1"], ["b\0", "b", "a", ""]))
            self.assertEqual(list(reversed(kind("[]"))) + list(reversed(kind("{}"))), [])
            self.assertEqual((len(array), len(whole), len(kind("[]")), len(kind("{}"))), (3, 4, 0, 0))
            self.assertEqual((kind("1") in array, kind("2") in array), (True, False))
            self.assertEqual(("a" in whole, "zz" in whole), (True, False))
            self.assertTrue(kind("[]") and kind("null") and kind("0") and kind("{}"))
            self.assertEqual(list(kind("[]")) + list(kind("{}")) + list(kind("{}").items()), [])
        self.assertTrue(v.Key("1.00") in v.Key("[1]"))

    def test_what_has_no_parts(self) -> None:
        kinds: List[Any] = [v.Key, v.Document]
        for kind in kinds:
            number, array, whole = kind("1"), kind("[1]"), kind('{"a":1}')
            none: Any = None
            calls: List[Tuple[Callable[[], Any], str]] = [
                (lambda: len(number), "number is no array and no object"),
                (lambda: iter(number), "number is no array and no object"),
                (lambda: reversed(number), "number is no array and no object"),
                (lambda: 1 in kind("null"), "null is no array and no object"),
                (lambda: array.items(), "array is no object"), (lambda: array["a"], "array is no object"),
                (lambda: whole[0], "object is no array"), (lambda: kind('""')[0], "string is no array"),
                (lambda: 1 in array, f"an item is a {kind.__name__}, and not int"),
                (lambda: kind("1") in whole, f"a name is a str, and not {kind.__name__}"),
                (lambda: array[none], "a name is a str and an index an int, and not NoneType")]
            for call, words in calls:
                with self.assertRaises(TypeError) as raised:
                    call()
                self.assertEqual(str(raised.exception), words)

    def test_bytes(self) -> None:
        for line in IN_ORDER:
            key = v.Key(line[0])
            for data in (bytes(key), bytearray(bytes(key)), memoryview(b"x" + bytes(key))[1:]):
                self.assertEqual(v.Key.from_bytes(data), key)
            again = pickle.loads(pickle.dumps(key))
            self.assertEqual((again, type(again)), (key, v.Key))
            for data in (bytes(key)[:-1], bytes(key) + b"\0", b"\xff" + bytes(key)):
                with self.assertRaises(ValueError) as raised:
                    v.Key.from_bytes(data)
                self.assertEqual(str(raised.exception), "the bytes aren't a sort key")
        for wrong in ("1", 1, None, [0x80]):
            self.assertRaises(TypeError, v.Key.from_bytes, wrong)
        with self.assertRaises(AttributeError):
            v.Key("1").kind = "x"  # type: ignore[misc]
        with self.assertRaises(AttributeError):
            v.Key("1").other = "x"  # type: ignore[attr-defined]

    def test_against_json(self) -> None:
        """Parts, names and lengths are those of the module json's values."""
        draw = random.Random(5)

        def value(depth: int) -> Any:
            kind = draw.randrange(6 if depth else 4)
            if kind == 4:
                return [value(depth - 1) for _ in range(draw.randrange(5))]
            if kind == 5:
                return {"".join(draw.choices('ab/~é"𝄞', k=2)): value(depth - 1) for _ in range(draw.randrange(5))}
            return (None, draw.random() < .5, draw.randrange(-2**63, 2**64),
                    "".join(draw.choices('ab"\\/\n\té𝄞', k=3)))[kind]

        def compare(one: Any, key: v.Key) -> int:
            dumped = json.dumps(one, separators=(",", ":"), sort_keys=True, ensure_ascii=False)
            self.assertEqual(key.text(), dumped)
            if isinstance(one, list):
                self.assertEqual(len(key), len(one))
                return 1 + sum(compare(part, found) + compare(part, key[i]) + compare(part, key[i - len(one)])
                               for i, (part, found) in enumerate(zip(one, key)))
            if isinstance(one, dict):
                self.assertEqual((len(key), list(key)), (len(one), sorted(one)))
                self.assertTrue(all(name in key for name in one) and "zzz" not in key)
                paths = {name: "/" + name.replace("~", "~0").replace("/", "~1") for name in one}
                return 1 + sum(compare(one[name], found) + compare(one[name], key[name]) + compare(one[name], part)
                               for name, found in key.items() for part in [key.get(paths[name])] if part is not None)
            return 1

        for _ in range(200):
            one = value(3)
            text = json.dumps(one, ensure_ascii=draw.random() < .5)
            self.assertGreater(compare(one, v.Key(text)), 0)

    def test_deep_and_long(self) -> None:
        for front, back in (("[", "]"), ('{"a":', "}")):
            key = v.Key(front * 512 + back * 512 if front == "[" else front * 512 + "1" + back * 512)
            self.assertEqual(v.Key.from_bytes(bytes(key)).text(), key.text())
            depth = 0
            while key.kind in ("array", "object") and len(key):
                key, depth = key[0] if key.kind == "array" else key["a"], depth + 1
            self.assertEqual(depth, 511 if front == "[" else 512)
        key = v.Key(json.dumps([{"n": n} for n in range(20000)]))
        self.assertEqual(sum(int(part["n"].text()) for part in key), 199990000)
        self.assertEqual(v.Key.from_bytes(bytes(key)), key)
        for data in (bytes(key)[:-1], bytes(key) + b"\0"):
            self.assertRaises(ValueError, v.Key.from_bytes, data)

    def test_parts_outlive_the_whole(self) -> None:
        kinds: List[Any] = [v.Key, v.Document]
        for kind in kinds:
            parts = iter(kind("[1, [2, 'x'], {a: 3}]"))
            self.assertEqual([part.text() for part in parts], ["1", '[2,"x"]', '{"a":3}'])
            self.assertRaises(StopIteration, next, parts)

    def test_damaged_bytes(self) -> None:
        """Bytes that pass the check are walked through, and others aren't taken."""
        whole = bytes(v.Key('{"a":[1,-2.5,"x",null,true,{"b":[[]]}],"é":{"c":12345678901234567890}}'))
        taken = 0
        for i in range(len(whole)):
            for byte in (0, 1, 0x14, 0x80, 0xA1, 0xD0, 0xD1, 0xD2, 0xFF):
                try:
                    key = v.Key.from_bytes(whole[:i] + bytes([byte]) + whole[i + 1:])
                except ValueError:
                    continue
                taken += 1
                self.assertEqual(v.sort_key(key.text()), bytes(key))
        self.assertGreater(taken, 20)


class Values(unittest.TestCase):
    """Values of Python as documents."""

    def test_values(self) -> None:
        whole = v.Key('{"b": [1, 2.50, -0.0, 1e2, 1e-3], "a": {"": null, "é": [true, "\\u0000"]}, "c": []}').value()
        self.assertEqual(whole, {"a": {"": None, "é": [True, "\0"]},
                                 "b": [1, Decimal("2.5"), 0, 100, Decimal("0.001")], "c": []})
        self.assertEqual([type(number) for number in whole["b"]], [int, Decimal, int, int, Decimal])
        self.assertEqual([str(number) for number in whole["b"]], ["1", "2.5", "0", "100", "0.001"])
        self.assertEqual(list(whole), ["a", "b", "c"])
        rows: List[Tuple[str, Any]] = [
            ("null", None), ("true", True), ("false", False), ('"x"', "x"), ("{}", {}), ("[]", []),
            ("9" * 38, 10**38 - 1), ("-" + "9" * 38, 1 - 10**38)]
        for text, value in rows:
            self.assertEqual((v.Key(text).value(), type(v.Key(text).value())), (value, type(value)))

    def test_of(self) -> None:
        class Name(str):
            pass

        class Number(enum.IntEnum):
            ONE = 1

        class Pair(NamedTuple):
            left: int
            right: int

        class Float(float):
            def __repr__(self) -> str:
                return "Float()"

        rows: List[Tuple[Any, str]] = [
            (None, "null"), (True, "true"), (False, "false"), (5, "5"), (-2**63, "-9223372036854775808"), ("", '""'),
            ('a"\\\n\0é𝄞\x7f', r'"a\"\\\n\u0000é𝄞' + '\x7f"'), (0.1, "0.1"), (1e-7, "0.0000001"), (-0.0, "0"),
            (1e22, "1" + "0" * 22), (2.0, "2"), (Decimal("1.50"), "1.5"), (Decimal("1E+5"), "100000"),
            (Decimal("-1E-38"), "-0." + "0" * 37 + "1"),
            (Decimal("0E-400"), "0"), (Decimal("0E+400"), "0"), (Decimal("1." + "0" * 60), "1"), (Decimal("-0"), "0"),
            (10**38 - 1, "9" * 38), (Decimal("1" + "0" * 36 + ".1"), "1" + "0" * 36 + ".1"),
            ([], "[]"), ((), "[]"), ({}, "{}"), ([1, [2, (3, {})]], "[1,[2,[3,{}]]]"),
            ({"b": 1, "a": {"c": None}}, '{"a":{"c":null},"b":1}'), ({Name("n"): Name("x")}, '{"n":"x"}'),
            (Number.ONE, "1"), (Pair(1, 2), "[1,2]"), (Float(1.5), "1.5"), (collections.OrderedDict(a=1), '{"a":1}'),
            ([v.Key("[1.5]"), {"k": v.Key("{a: 1}")}], '[[1.5],{"k":{"a":1}}]')]
        for value, text in rows:
            self.assertEqual(v.Key.of(value), v.Key(text), text)
        key = v.Key("[1]")
        self.assertIs(v.Key.of(key), key)
        same = [1]
        self.assertEqual(v.Key.of([same, same, {"a": same}]), v.Key('[[1],[1],{"a":[1]}]'))

    def test_what_is_no_value(self) -> None:
        array: List[Any] = [1]
        array.append({"a/b": [array]})
        whole: Dict[str, Any] = {}
        whole["~"] = whole
        deep: Any = 0
        for _ in range(513):
            deep = [deep]
        a_value = "a value is a dict, list, tuple, str, int, float, Decimal, bool, None, Key or Document, and not "

        class Same(str):
            __hash__ = object.__hash__

            def __eq__(self, other: object) -> bool:
                return self is other

        rows: List[Tuple[Any, Any, str]] = [
            ({"values": [0.5] * 17 + [1e300]}, ValueError, "number not carried at /values/17"),
            (5e-324, ValueError, "number not carried"), (10**38, ValueError, "number not carried"),
            ([1 << 100_000], ValueError, "number not carried at /0"),
            (Decimal("1E+999999"), ValueError, "number not carried"),
            (Decimal("1E-39"), ValueError, "number not carried"),
            (Decimal("1" + "0" * 37 + ".01"), ValueError, "number not carried"),
            ([float("nan")], ValueError, "NaN is no number of JSON at /0"),
            ({"": float("-inf")}, ValueError, "-Infinity is no number of JSON at /"),
            (Decimal("sNaN"), ValueError, "sNaN is no number of JSON"),
            ({"a": {1: 2}}, TypeError, "a name is a str, and not int at /a"),
            ({None: 2}, TypeError, "a name is a str, and not NoneType"),
            ({"a": [{"x": 1}, b""]}, TypeError, a_value + "bytes at /a/1"),
            ({1}, TypeError, a_value + "set"), (1j, TypeError, a_value + "complex"),
            ([range(3)], TypeError, a_value + "range at /0"),
            ({"a": "x\ud800"}, ValueError, "a string has half of a surrogate pair at /a"),
            ({"a": [{"\udfff": 1}]}, ValueError, "a name has half of a surrogate pair at /a/0"),
            ({"a": {Same("x"): 1, Same("x"): 2}}, ValueError, "a name is there twice at /a"),
            (array, ValueError, "circular reference at /1/a~1b/0"), (whole, ValueError, "circular reference at /~0"),
            (deep, ValueError, "more than 512 nested arrays and objects at " + "/0" * 512),
            ([v.Key("[" * 512 + "]" * 512)], ValueError, "more than 512 nested arrays and objects")]
        for value, error, words in rows:
            with self.assertRaises(error) as raised:
                v.Key.of(value)
            self.assertIs(type(raised.exception), error)
            self.assertEqual(str(raised.exception), words)
            empty = v.Key("[]")
            for call in (empty.push, empty.merge, empty.contains, lambda one: v.Key("[]").set("/0", one),
                         lambda one: v.Key("{}").put("a", one)):
                self.assertRaises(error, call, value)

    def test_numbers_are_exact(self) -> None:
        """Of floats and decimals the exact value of what repr shows, where 38 digits are enough for it."""

        def digits(number: Fraction) -> int:
            """How many digits the number has, as a decimal with the fewest; many where more than 38 are behind the
            point."""
            scale = next((scale for scale in range(39) if (number * 10**scale).denominator == 1), None)
            return 1000 if scale is None else len(str(abs(number * 10**scale)))

        draw, taken = random.Random(7), 0
        for _ in range(5000):
            whole = Decimal(draw.randrange(10**draw.randrange(1, 28)))
            number: Any = draw.choice((draw.random(), draw.gauss(0, 1e-5), 10 ** draw.uniform(-45, 45),
                                       float(draw.randrange(2**60)), whole.scaleb(draw.randrange(-45, 20))))
            exact = Fraction(repr(number) if isinstance(number, float) else str(number))
            if digits(exact) > 38:
                self.assertRaisesRegex(ValueError, "^number not carried at /0$", v.Key.of, [number])
                continue
            value, taken = v.Key.of([-number]).value()[0], taken + 1
            self.assertEqual((Fraction(str(value)), type(value)), (-exact, int if exact.denominator == 1 else Decimal))
        self.assertGreater(taken, 2000)

    def test_of_what_value_returns(self) -> None:
        """Over all texts of the tests and random values Key.of returns the key again, and the value is json's."""
        with open(VECTORS, encoding="utf-8") as lines:
            texts: List[v.Text] = [bytes.fromhex(json.loads(line)["input"]) for line in lines]
        with open(os.path.join(TOP, "tests", "json_test_suite.jsonl"), encoding="utf-8") as lines:
            texts += [bytes.fromhex(json.loads(line)["input"]) for line in lines]
        texts += [text for line in IN_ORDER for text in line]
        draw = random.Random(8)
        texts += [json.dumps(self.drawn(draw, 4)) for _ in range(500)]
        checked = of_json = 0
        for text in filter(v.is_valid, texts):
            key = v.Key(text)
            value = key.value()
            self.assertEqual(v.Key.of(value), key)
            checked += 1
            data = text.encode() if isinstance(text, str) else bytes(text)
            if re.search(rb"\\u[dD][89a-fA-F]", data) is None:  # json has half of a pair in a str
                try:
                    wanted = json.loads(data, parse_float=Decimal)
                except ValueError:  # it isn't JSON
                    continue
                self.assertEqual(value, wanted)
                of_json += 1
        self.assertGreater(checked, 1200)
        self.assertGreater(of_json, 600)

    def drawn(self, draw: random.Random, depth: int) -> Any:
        kind = draw.randrange(8 if depth else 6)
        if kind == 7:
            return [self.drawn(draw, depth - 1) for _ in range(draw.randrange(4))]
        if kind == 6:
            return {"".join(draw.choices('ab/~é"𝄞', k=2)): self.drawn(draw, depth - 1)
                    for _ in range(draw.randrange(4))}
        return (None, draw.random() < .5, draw.randrange(-2**63, 2**64), draw.gauss(0, 10 ** draw.randrange(-9, 9)),
                draw.choice((0, 1, 1.5, -0.0)), "".join(draw.choices('ab"\\/\n\té𝄞', k=3)))[kind]

    def in_a_thread(self, call: Callable[[], Any]) -> Any:
        """What the call returns in a thread with as much stack as the page says that one needs."""
        answers: List[Any] = []
        before = threading.stack_size(256 * 1024)
        try:
            thread = threading.Thread(target=lambda: answers.append(call()))
            thread.start()
            thread.join()
        finally:
            threading.stack_size(before)
        return answers[0]

    def test_deep_values(self) -> None:
        """A value of 512 levels takes no more of the stack than a flat one, where little of it is left too."""
        for front, back in (("[", "]"), ('{"a":', "}"), ('[1,{"b":2,"a":', "}]")):
            levels = 256 if len(front) > 5 else 512
            text = front * levels + "null" + back * levels
            key = v.Key(text)

            def at(depth: int) -> None:
                if depth:
                    at(depth - 1)
                else:
                    self.assertEqual(v.Key.of(key.value()), key)

            for depth in (0, sys.getrecursionlimit() * 2 // 3):
                at(depth)
            self.assertEqual(self.in_a_thread(lambda: v.Key.of(key.value())), key)
        value: Any = None
        for _ in range(512):
            value = [value]
        self.assertEqual(v.Key.of(value).text(), "[" * 512 + "null" + "]" * 512)


class Changed(unittest.TestCase):
    """Keys of changed documents, and containment, against what is done to values of Python."""

    STEP = re.compile("-?(?:0|[1-9][0-9]*)")

    def steps(self, path: str) -> List[str]:
        return [step.replace("~1", "/").replace("~0", "~") for step in path.split("/")[1:]]

    def index(self, step: str, length: int) -> Optional[int]:
        """The index that a step is, from the front; it may lie outside of the array."""
        if not self.STEP.fullmatch(step):
            return None
        return int(step) + length if step.startswith("-") else int(step)

    def find(self, value: Any, steps: List[str]) -> Any:
        """The part that the steps lead to, or the class None."""
        for step in steps:
            if isinstance(value, dict) and step in value:
                value = value[step]
                continue
            at = self.index(step, len(value)) if isinstance(value, list) else None
            if at is None or not 0 <= at < len(value):
                return type(None)
            value = value[at]
        return value

    def set(self, value: Any, path: str, part: Any, create: bool) -> Any:
        """As the header says it of vizhoniku_document_set."""
        steps, value = self.steps(path), copy.deepcopy(value)
        around = self.find(value, steps[:-1]) if steps else None
        if isinstance(around, dict) and (create or steps[-1] in around):
            around[steps[-1]] = part
        if isinstance(around, list):
            at = self.index(steps[-1], len(around))
            if at is not None and 0 <= at < len(around):
                around[at] = part
            elif at is not None and create:
                around.insert(len(around) if at >= 0 else 0, part)
        return value

    def remove(self, value: Any, path: str) -> Any:
        steps, value = self.steps(path), copy.deepcopy(value)
        around = self.find(value, steps[:-1]) if steps else None
        if isinstance(around, dict):
            around.pop(steps[-1], None)
        if isinstance(around, list):
            at = self.index(steps[-1], len(around))
            if at is not None and 0 <= at < len(around):
                del around[at]
        return value

    def merge(self, left: Any, right: Any) -> Any:
        if isinstance(left, dict) and isinstance(right, dict):
            return {**left, **right}
        return [*(left if isinstance(left, list) else [left]), *(right if isinstance(right, list) else [right])]

    def holds(self, value: Any, other: Any) -> bool:
        if isinstance(value, dict) and isinstance(other, dict):
            return all(name in value and self.holds(value[name], part) for name, part in other.items())
        if isinstance(value, list) and isinstance(other, list):
            return all(any(self.holds(one, part) for one in value) for part in other)
        return type(value) is type(other) and bool(value == other)

    def contains(self, value: Any, other: Any) -> bool:
        if isinstance(value, list) and not isinstance(other, (dict, list)):
            return any(self.holds(item, other) for item in value)
        return self.holds(value, other)

    def same(self, key: v.Key, value: Any) -> None:
        self.assertEqual(key.text(), json.dumps(value, separators=(",", ":"), sort_keys=True, ensure_ascii=False))
        self.assertEqual(v.Key.from_bytes(bytes(key)), key)

    def drawn(self, draw: random.Random, depth: int) -> Any:
        kind = draw.randrange(2, 6) if depth else draw.randrange(2)
        if kind > 3:
            return {draw.choice(("a", "b", "", "/~", "é", "1")): self.drawn(draw, depth - 1)
                    for _ in range(draw.randrange(4))}
        if kind > 1:
            return [self.drawn(draw, draw.randrange(depth)) for _ in range(draw.randrange(4))]
        return draw.choice((None, True, 1, "a", "x" * 3))

    def test_against_values(self) -> None:
        draw, unchanged, contained = random.Random(9), 0, 0
        for _ in range(3000):
            value, other = self.drawn(draw, 3), self.drawn(draw, 2)
            key = v.Key.of(value)
            path = "".join("/" + draw.choice(("a", "b", "", "~1~0", "é", "0", "1", "-1", "-3", "7", "x", "01"))
                           for _ in range(draw.randrange(4)))
            create = draw.random() < .5
            given = draw.choice((other, v.Key.of(other)))
            changed = key.set(path, given, create)
            self.same(changed, self.set(value, path, other, create))
            self.same(key.set(path, given), self.set(value, path, other, True))
            removed = key.remove(path)
            self.same(removed, self.remove(value, path))
            self.assertEqual(removed is key, self.remove(value, path) == value)
            unchanged += changed is key
            self.same(key.merge(given), self.merge(value, other))
            small = draw.choice((other, value, self.drawn(draw, 1), removed.value()))
            self.assertEqual(key.contains(small), self.contains(value, small), (value, small))
            contained += key.contains(v.Key.of(small))
            if isinstance(value, dict):
                name = draw.choice(("a", "/~", "é", "new\0"))
                self.same(key.put(name, given), {**value, name: other})
            if isinstance(value, list):
                self.same(key.push(given), [*value, other])
            self.same(key, value)
        self.assertGreater(unchanged, 300)
        self.assertGreater(contained, 1000)

    def test_examples(self) -> None:
        key = v.Key('{"user": {"name": "ann"}, "tags": ["x"]}')
        self.assertEqual(key.set("/user/age", 30).value(), {"tags": ["x"], "user": {"age": 30, "name": "ann"}})
        self.assertEqual(key.set(path=b"/user/name", value="bob", create=False)["user"]["name"], v.Key('"bob"'))
        self.assertEqual(key.set("/tags/-2", 1.5)["tags"], v.Key('[1.5,"x"]'))
        self.assertEqual(key.remove("/tags/-1"), v.Key('{"user":{"name":"ann"},"tags":[]}'))
        self.assertEqual(key["tags"].push({"a": Decimal("2.50")}), v.Key('["x",{"a":2.5}]'))
        self.assertEqual(key["user"].put("name", None).merge({"age": 1}), v.Key('{"name":null,"age":1}'))
        self.assertEqual(v.Key("1").merge(v.Key("[2]")), v.Key("[1,2]"))
        self.assertTrue(key.contains({"tags": ["x"]}))
        self.assertTrue(key["tags"].contains("x"))
        self.assertFalse(key.contains({"tags": ["y"]}))
        for same in (key.set("", 1), key.set("/none/a", 1), key.set("/user/age", 30, create=False),
                     key.set("/tags/x", 1), key.remove(""), key.remove("/none"), key.set("/user/name/x", 1)):
            self.assertIs(same, key)

    def test_errors(self) -> None:
        number, array, whole = v.Key("1"), v.Key("[1]"), v.Key('{"a":1}')
        wrong: Any = 1
        deep, deepest = v.Key("[" * 511 + "]" * 511), v.Key("[" * 512 + "]" * 512)
        a_text = "a text is a str, bytes, a bytearray or a memoryview, and not int"
        too_deep = "more than 512 nested arrays and objects"
        calls: List[Tuple[Callable[[], Any], Any, str]] = [
            (lambda: array.put("a", 1), TypeError, "array is no object"),
            (lambda: number.put("a", 1), TypeError, "number is no object"),
            (lambda: whole.push(1), TypeError, "object is no array"),
            (lambda: v.Key("null").push(1), TypeError, "null is no array"),
            (lambda: whole.put(wrong, 1), TypeError, "a name is a str, and not int"),
            (lambda: whole.put("\ud800", 1), ValueError, "the name isn't UTF-8"),
            (lambda: whole.set("a", 1), v.PathError, v._common.BAD_PATH),
            (lambda: whole.remove("/~"), v.PathError, v._common.BAD_PATH),
            (lambda: whole.set(wrong, 1), TypeError, a_text), (lambda: whole.remove(wrong), TypeError, a_text),
            (lambda: array.push(deep).push(deepest), ValueError, too_deep),
            (lambda: whole.set("/a", deep).set("/a/0", deep), ValueError, too_deep),
            (lambda: whole.put("a", deepest), ValueError, too_deep),
            (lambda: v.Key('""').merge(v.Key("{a:" * 512 + "1" + "}" * 512)), ValueError, too_deep)]
        for call, error, words in calls:
            with self.assertRaises(error) as raised:
                call()
            self.assertEqual((type(raised.exception), str(raised.exception)), (error, words))
        untyped: Any = whole
        for missing in (lambda: untyped.set("/a"), lambda: untyped.put("a"), lambda: untyped.push(),
                        lambda: untyped.of(), lambda: untyped.remove(), lambda: untyped.merge(1, 2),
                        lambda: untyped.contains(), lambda: untyped.set("/a", 1, make=True)):
            self.assertRaises(TypeError, missing)


class Digits(unittest.TestCase):
    """Documents, which keep the zeros that end decimals."""

    def test_bytes(self) -> None:
        for text, data in (("1.5", "a11e"), ("1.50", "a11e000102ff"),
                           ('[1,2.500,"x"]', "d2a114a132d0780001000302" "02ff")):
            document = v.Document(text)
            self.assertEqual((bytes(document), document.text()), (bytes.fromhex(data), text))
            self.assertEqual((document.key, type(document.key)), (v.Key(text), v.Key))
            for given in (bytes(document), bytearray(bytes(document)), memoryview(b"x" + bytes(document))[1:]):
                self.assertEqual(v.Document.from_bytes(given), document)
            again = pickle.loads(pickle.dumps(document))
            self.assertEqual((again, type(again)), (document, v.Document))
            self.assertEqual(repr(document), f"Document({text!r})")
            self.assertIs(v.Document.of(document), document)
        self.assertEqual(v.Document("1.50e1").text(), "15.0")
        self.assertEqual(v.Document(text=b"[1]", mode=v.STANDARD).text(), "[1]")
        self.assertEqual(v.Document.from_bytes(bytes(v.Key("[1.50]"))).text(), "[1.5]")
        for data in ("", "a11e00", "a11e0002ff", "a11e000002ff", "a11e010102ff", "a11e80000103ff", "a11e00018200ff",
                     "a11e000126ff", "a11e000302fe"):
            with self.assertRaises(ValueError) as invalid:
                v.Document.from_bytes(bytes.fromhex(data))
            self.assertEqual(str(invalid.exception), "the bytes aren't a document")
            self.assertEqual(bytes(v.Document.from_trusted_bytes(bytes.fromhex(data))), bytes.fromhex(data))
        wrongs: List[Any] = ["1", 1, None, [0x80]]
        for wrong in wrongs:
            for made in (v.Document.from_bytes, v.Document.from_trusted_bytes):
                with self.assertRaises(TypeError) as raised:
                    made(wrong)
                self.assertEqual(str(raised.exception), "a document is bytes, a bytearray or a memoryview, and not "
                                                        + type(wrong).__name__)
        for name in ("key", "other"):
            with self.assertRaises(AttributeError):
                setattr(v.Document("1"), name, "x")

    def test_rejected(self) -> None:
        for text, mode, words in (("[1,", v.STANDARD, "line 1, column 4: EOF while parsing a value"),
                                  ("[1,\n1.50]", v.STANDARD, "line 2, column 4: number not carried"),
                                  ('{"a": [1e5, 1e300]}', v.JSON, "line 1, column 17: number not carried"),
                                  ("1." + "0" * 38, v.EXTENDED, "line 1, column 40: number not carried")):
            with self.assertRaises(v.RejectedText) as raised:
                v.Document(text, mode)
            self.assertEqual(str(raised.exception), words)
        self.assertRaises(ValueError, v.Document, "1", 4)

    def test_order(self) -> None:
        lines = [["-1.5", "-1.50", "-1.500"], ["0", "0.0", "0.00"], ["1", "1.0"], ["1.5", "1.50"], ["1.51"],
                 ["[1.50]", "[1.500]"], ["[1.50,0]"]]
        documents = [[v.Document(text) for text in line] for line in lines]
        in_order = [document for line in documents for document in line]
        shuffled = random.Random(10).sample(in_order, len(in_order))
        self.assertEqual([one.text() for one in sorted(shuffled)], [text for line in lines for text in line])
        for i, one in enumerate(in_order):
            for j, two in enumerate(in_order):
                two = v.Document.from_bytes(bytes(two))
                self.assertEqual((one < two, one <= two, one == two, one != two, one >= two, one > two),
                                 (i < j, i <= j, i == j, i != j, i >= j, i > j))
                self.assertEqual(hash(one) == hash(two), i == j)
        self.assertEqual([len({one.key for one in line}) for line in documents], [1] * len(lines))
        for other in (v.Key("1"), "1", b"1", None, 1):
            self.assertNotEqual(v.Document("1"), other)
            with self.assertRaises(TypeError):
                v.Document("1") < other  # type: ignore[operator]

    def test_of(self) -> None:
        """Of values each number has the digits that it has in Python, also where the value isn't of the usual types."""
        class Float(float):
            pass

        rows: List[Tuple[Any, str]] = [
            (Decimal("1.50"), "1.50"), (Decimal("1.50E+1"), "15.0"), (Decimal("1.50E+5"), "150000"), (2.0, "2.0"),
            (Decimal("0.00"), "0.00"), (Decimal("-0.0"), "0.0"), (Decimal("0E+400"), "0"), (-0.0, "0.0"), (2, "2"),
            (Decimal("1.0E-36"), "0." + "0" * 35 + "10"), (1e22, "1" + "0" * 22), (Float(2.0), "2.0"),
            (Decimal("1." + "0" * 37), "1." + "0" * 37), (Decimal("0E-38"), "0." + "0" * 38),
            (None, "null"), ("1.50", '"1.50"'), ({"b": (Decimal("1.0"), True), "a": {}}, '{"a":{},"b":[1.0,true]}'),
            (v.Key("[1.50]"), "[1.5]"), (v.Document("[1.50]"), "[1.50]"),
            ([v.Key("[1.50]"), {"k": v.Document("{a: 1.50}")}], '[[1.5],{"k":{"a":1.50}}]')]
        for value, text in rows:
            for one in (value, collections.OrderedDict(a=value)):  # the latter isn't of the usual types
                whole = text if one is value else '{"a":%s}' % text
                self.assertEqual((v.Document.of(one).text(), v.Document.of(one)), (whole, v.Document(whole)))
                self.assertEqual(v.Key.of(one), v.Document.of(one).key)
        for value, error, words in (
                ([Decimal("1." + "0" * 38)], ValueError, "number not carried at /0"),
                (Decimal("0E-39"), ValueError, "number not carried"),
                ([float("nan")], ValueError, "NaN is no number of JSON at /0"), ({1}, TypeError, "a value is "),
                ([v.Document("[" * 512 + "1.0" + "]" * 512)], ValueError, "more than 512 nested arrays and objects")):
            with self.assertRaises(error) as raised:
                v.Document.of(value)
            self.assertTrue(str(raised.exception).startswith(words), raised.exception)

    def test_value(self) -> None:
        document = v.Document('{"b": [1, 2.50, 0.00, 1e2, "1.50"], "a": {"": null, "é": [true, 3.0]}}')
        self.assertEqual(str(document.value()), "{'a': {'': None, 'é': [True, Decimal('3.0')]}, "
                                                "'b': [1, Decimal('2.50'), Decimal('0.00'), 100, '1.50']}")
        self.assertEqual(v.Document.of(document.value()), document)
        for front, back in (("[", "]"), ('{"a":', "}"), ('[1.0,"\\"2\\\\",{"b":-2.50,"a":', "}]")):
            levels = 256 if len(front) > 5 else 512
            document = v.Document(front * levels + "3.00" + back * levels)

            def at(depth: int) -> None:
                if depth:
                    at(depth - 1)
                else:
                    self.assertEqual(v.Document.of(document.value()), document)

            for depth in (0, sys.getrecursionlimit() * 2 // 3):
                at(depth)

    def test_changes(self) -> None:
        price, tax = v.Document("{net: 1.50, tax: [0.10, 2]}"), v.Document("7.0")
        rows: List[Tuple[v.Document, str]] = [
            (price.set("/tax/-1", tax, False), '{"net":1.50,"tax":[0.10,7.0]}'),
            (price.set(path=b"/tax/2", value=tax), '{"net":1.50,"tax":[0.10,2,7.0]}'),
            (price.set("/tax/0", Decimal("0.1000")), '{"net":1.50,"tax":[0.1000,2]}'),
            (price.set("/tax/0", v.Key("0.10")), '{"net":1.50,"tax":[0.1,2]}'),
            (price.set("/net", "2.50"), '{"net":"2.50","tax":[0.10,2]}'),
            (price.remove("/net"), '{"tax":[0.10,2]}'), (price.remove("/tax/0"), '{"net":1.50,"tax":[2]}'),
            (price.put("sum", tax), '{"net":1.50,"sum":7.0,"tax":[0.10,2]}'),
            (v.Document("[1.0]").push(tax), "[1.0,7.0]"), (v.Document("[1.0]").push({"a": [2.0]}), '[1.0,{"a":[2.0]}]'),
            (price.merge({"net": Decimal("2.00")}), '{"net":2.00,"tax":[0.10,2]}'),
            (tax.merge(v.Document("[1.0]")), "[7.0,1.0]")]
        for changed, text in rows:
            self.assertEqual((changed.text(), changed, type(changed)), (text, v.Document(text), v.Document))
        for same in (price.set("/sum", tax, create=False), price.remove("/sum"), price.remove(""), price.set("", tax)):
            self.assertIs(same, price)
        for path, found in (("/tax", "[0.10,2]"), ("/tax/0", "0.10"), ("", price.text()), ("/net", "1.50")):
            part = price.get(path)
            assert part is not None
            self.assertEqual((part.text(), part), (found, v.Document(found)))
        self.assertIsNone(price.get("/tax/2"))
        long = v.Document('["%s",1.50]' % ("x" * 5000))
        self.assertEqual(long.get("/0"), v.Document('"%s"' % ("x" * 5000)))
        self.assertEqual(v.Document("[1.0]").set("/0", long).get("/0"), long)
        self.assertTrue(price.contains({"tax": [0.1]}) and price.contains(v.Document("{net: 1.500}")))
        self.assertTrue(price.contains(v.Key("{}")) and price.key.contains(v.Document("{net: 1.500}")))
        self.assertFalse(price.contains({"tax": [3]}))
        self.assertEqual(v.Key("[1]").push(v.Document("2.50")), v.Key("[1,2.5]"))
        self.assertIs(v.Key.of(v.Document("1.50")) == v.Key("1.5"), True)

    def test_parts(self) -> None:
        """Items and members, one after the other and by themselves, are documents with the digits of the whole."""
        price = v.Document('{"net": 1.50, "tax": [0.10, 2, [3.00], "4.0"], "é": {"b": 5.0, "": null}}')
        self.assertEqual((list(price), len(price), "net" in price, "b" in price), (["net", "tax", "é"], 3, True, False))
        self.assertEqual([(name, part.text()) for name, part in price.items()],
                         [("net", "1.50"), ("tax", '[0.10,2,[3.00],"4.0"]'), ("é", '{"":null,"b":5.0}')])
        self.assertEqual([part.text() for part in price["tax"]], ["0.10", "2", "[3.00]", '"4.0"'])
        self.assertEqual((price["tax"][2][0].text(), price["é"]["b"].text(), price["tax"][-2].text()),
                         ("3.00", "5.0", "[3.00]"))
        self.assertEqual((v.Document("0.10") in price["tax"], v.Document("0.1") in price["tax"]), (True, False))
        with self.assertRaises(TypeError) as raised:
            v.Key("2") in price["tax"]
        self.assertEqual(str(raised.exception), "an item is a Document, and not Key")
        long = v.Document('["%s",1.50,{"%s":2.0}]' % ("x" * 5000, "y" * 5000))
        self.assertEqual([part.text() for part in long], ['"%s"' % ("x" * 5000), "1.50", '{"%s":2.0}' % ("y" * 5000)])
        self.assertEqual(long[2]["y" * 5000], v.Document("2.0"))

    def test_parts_against_values(self) -> None:
        draw = random.Random(13)

        def drawn(depth: int) -> Any:
            kind = draw.randrange(2, 5) if depth else draw.randrange(2)
            if kind > 3:
                return {"".join(draw.choices("ab/~é𝄞", k=2)): drawn(depth - 1) for _ in range(draw.randrange(5))}
            if kind > 1:
                return [drawn(draw.randrange(depth)) for _ in range(draw.randrange(5))]
            return draw.choice((None, "1.50", 7, Decimal("1.0"), Decimal("-1.50"), Decimal("0.000"), "x" * 300))

        def compare(value: Any, document: v.Document) -> int:
            self.assertEqual(document, v.Document.of(value))
            if isinstance(value, list):
                wanted = [v.Document.of(item) for item in value]
                self.assertEqual((list(document), list(reversed(document)), len(document)),
                                 (wanted, wanted[::-1], len(value)))
                self.assertEqual([document[i] for i in range(-len(value), len(value))], wanted * 2)
                self.assertTrue(all(part in document for part in wanted))
                return 1 + sum(compare(item, part) for item, part in zip(value, document))
            if isinstance(value, dict):
                names = sorted(value, key=str.encode)
                self.assertEqual((list(document), list(reversed(document)), len(document)),
                                 (names, names[::-1], len(value)))
                self.assertEqual(list(document.items()), [(name, v.Document.of(value[name])) for name in names])
                self.assertTrue(all(name in document for name in names) and "zzz" not in document)
                return 1 + sum(compare(value[name], document[name]) for name in names)
            return 1

        self.assertGreater(sum(compare(value, v.Document.of(value)) for value in (drawn(4) for _ in range(300))), 2000)

    def test_against_values(self) -> None:
        """Changes are those of keys, and each number that stays keeps its digits."""
        draw = random.Random(11)

        def drawn(depth: int) -> Any:
            kind = draw.randrange(2, 5) if depth else draw.randrange(2)
            if kind > 3:
                return {draw.choice(("a", "b", "", "é")): drawn(depth - 1) for _ in range(draw.randrange(4))}
            if kind > 1:
                return [drawn(draw.randrange(depth)) for _ in range(draw.randrange(4))]
            return draw.choice((None, "x", 1, Decimal("1.0"), Decimal("1.50"), Decimal("-20.00")))

        def texts(value: Any) -> Any:
            """The value with its numbers as texts, so that equal ones have equal digits."""
            if isinstance(value, dict):
                return {name: texts(part) for name, part in value.items()}
            return [texts(part) for part in value] if isinstance(value, list) else str(value)

        wanted, changes = Changed(), 0
        for _ in range(2000):
            value, other = drawn(3), drawn(2)
            document = v.Document.of(value)
            given = draw.choice((other, v.Document.of(other)))
            path = "".join("/" + draw.choice(("a", "b", "", "é", "0", "1", "-1", "7", "01"))
                           for _ in range(draw.randrange(4)))
            create = draw.random() < .5
            rows = [(document, value), (document.set(path, given, create), wanted.set(value, path, other, create)),
                    (document.remove(path), wanted.remove(value, path)),
                    (document.merge(given), wanted.merge(value, other))]
            if isinstance(value, dict):
                rows.append((document.put("n", given), {**value, "n": other}))
            if isinstance(value, list):
                rows.append((document.push(given), [*value, other]))
            part = document.get(path)
            if part is None:
                self.assertIsNone(document.key.get(path))
            elif "-1" not in path:
                rows.append((part, wanted.find(value, wanted.steps(path))))
            for made, one in rows:
                self.assertEqual(texts(made.value()), texts(one))
                self.assertEqual((made, made.key), (v.Document(made.text()), v.Key.of(one)))
                changes += made != document
            self.assertEqual(document.contains(given), document.key.contains(other))
        self.assertGreater(changes, 3000)

    def test_errors(self) -> None:
        number, array, whole = v.Document("1.0"), v.Document("[1.0]"), v.Document('{"a":1.0}')
        wrong: Any = 1
        deepest = v.Document("[" * 512 + "]" * 512)
        a_text = "a text is a str, bytes, a bytearray or a memoryview, and not int"
        too_deep, none = "more than 512 nested arrays and objects", v.Document.from_trusted_bytes(b"")
        no_document = "the bytes aren't a document"
        calls: List[Tuple[Callable[[], Any], Any, str]] = [
            (lambda: array.put("a", 1), TypeError, "array is no object"),
            (lambda: number.put("a", 1), TypeError, "number is no object"),
            (lambda: whole.push(1), TypeError, "object is no array"),
            (lambda: whole.put(wrong, 1), TypeError, "a name is a str, and not int"),
            (lambda: whole.put("\ud800", 1), ValueError, "the name isn't UTF-8"),
            (lambda: whole.set("a", 1), v.PathError, v._common.BAD_PATH),
            (lambda: whole.remove("/~"), v.PathError, v._common.BAD_PATH),
            (lambda: whole.get("a"), v.PathError, v._common.BAD_PATH),
            (lambda: whole.get(wrong), TypeError, a_text), (lambda: whole.set(wrong, 1), TypeError, a_text),
            (lambda: array.push(deepest), ValueError, too_deep),
            (lambda: whole.put("a", deepest), ValueError, too_deep),
            (lambda: whole.set("/a", deepest), ValueError, too_deep),
            (none.text, ValueError, no_document), (none.value, ValueError, no_document),
            (lambda: len(none), ValueError, no_document), (lambda: iter(none), ValueError, no_document),
            (none.items, ValueError, no_document), (lambda: none["a"], ValueError, no_document),
            (lambda: none[0], ValueError, no_document), (lambda: none[:], ValueError, no_document),
            (lambda: "a" in none, ValueError, no_document), (lambda: float(none), ValueError, no_document),
            (lambda: int(none), ValueError, no_document), (lambda: reversed(none), ValueError, no_document),
            (lambda: none.push(1), ValueError, no_document), (lambda: none.put("a", 1), ValueError, no_document),
            (v.Document.from_trusted_bytes(b"\x00\xff").text, ValueError, no_document),
            (lambda: v.Document.of([none]), ValueError, no_document)]
        for call, error, words in calls:
            with self.assertRaises(error) as raised:
                call()
            self.assertEqual((type(raised.exception), str(raised.exception)), (error, words))
        self.assertEqual((repr(none), bytes(none.key)), ("Document.from_trusted_bytes(b'')", b""))
        untyped: Any = whole
        for missing in (lambda: untyped.set("/a"), lambda: untyped.put("a"), lambda: untyped.push(),
                        lambda: untyped.of(), lambda: untyped.remove(), lambda: untyped.merge(1, 2),
                        lambda: untyped.get(), lambda: untyped.set("/a", 1, make=True),
                        lambda: v.Document(), lambda: v.Document("1", 1, 1)):  # type: ignore[call-arg]
            self.assertRaises(TypeError, missing)

    def test_damaged_bytes(self) -> None:
        """Of bytes that are no document the calls find nothing, or something in them, or raise ValueError."""
        whole = bytes(v.Document('{"a":[1.50,-2.00,"x",null,{"b":[[0.0]]}],"é":12345678901234567890.10}'))
        passed = rejected = 0
        for i in range(len(whole)):
            for byte in (0, 1, 2, 0x14, 0x80, 0xA1, 0xD0, 0xD1, 0xD2, 0xFF):
                data = whole[:i] + bytes([byte]) + whole[i + 1:]
                document = v.Document.from_trusted_bytes(data)
                try:
                    self.assertEqual(bytes(v.Document(v.Document.from_bytes(data).text())), data)
                except ValueError as error:
                    self.assertEqual(str(error), "the bytes aren't a document")
                    rejected += 1
                for call in (document.text, document.value, lambda: document.get("/a/0"),
                             lambda: document.remove("/a/1"), lambda: document.set("/a/0", document),
                             lambda: document.put("c", 1.0), lambda: document.merge([1.0]),
                             lambda: v.Document("[1.0]").push(document),
                             lambda: document.contains([1]), lambda: repr(document), lambda: hash(document.key),
                             lambda: float(document), lambda: int(document), lambda: document.get("/none", 1),
                             lambda: list(document), lambda: list(document.items()), lambda: len(document),
                             lambda: document["a"], lambda: document["a"][1], lambda: list(document["a"]),
                             lambda: document[0], lambda: document[:2], lambda: document in document,
                             lambda: "a" in document, lambda: list(reversed(document))):
                    try:
                        call()
                        passed += 1
                    except (ValueError, TypeError, LookupError):
                        pass
        self.assertGreater(passed, 1000)
        self.assertGreater(rejected, 100)


# Types that each call has, also where another argument makes another one.
USE = """
from typing import List, Optional, Tuple, Union
from vizhoniku import Document, Key, pointer

key, document = Key("[1]"), Document("[1.50]")
found: Optional[Key] = key.get("/0")
none: Optional[Key] = key.get("/0", None)
or_a_key: Key = key.get("/0", key)
or_a_number: Union[Key, int] = key.get(pointer(0), default=0)
kept: Union[Document, str] = document.get("/0", "")
item: Key = key[0]
items: List[Key] = key[:1]
kept_item: Document = document[0]
kept_items: List[Document] = document[:1]
numbers: Tuple[float, int, float, int] = float(item), int(item), float(document), int(document)
"""


class Module(unittest.TestCase):
    """The module in C, as a user of Python sees it."""

    def test_one_build_serves_all_versions(self) -> None:
        self.assertEqual(os.path.basename(v._native.__file__), "_native.abi3.so")

    def test_types(self) -> None:
        """Keys and documents are as Python's own values: nobody changes one, also not by a subclass."""
        kinds: List[Any] = [v.Key, v.Document]
        for kind in kinds:
            self.assertEqual(kind.__module__, "vizhoniku")
            self.assertRaisesRegex(TypeError, "not an acceptable base type", type, "Own", (kind,), {})
            whole = kind('{"a":[1,2.50]}')
            data = bytes(whole)
            for name in ("_data", "text", "new"):
                self.assertRaises(AttributeError, setattr, whole, name, b"1")
                self.assertRaises(AttributeError, object.__setattr__, whole, name, b"1")
                self.assertRaises(TypeError, setattr, kind, name, None)
            self.assertRaises(AttributeError, delattr, whole, "text")
            self.assertEqual(bytes(whole), data)
            self.assertEqual([name for name in dir(whole) if name.startswith("_") and not name.endswith("__")], [])
            for parts in (iter(whole), whole.items(), iter(whole["a"])):
                self.assertIs(iter(parts), parts)
                self.assertRaises(TypeError, type(parts))
        self.assertRaisesRegex(TypeError, "'<' not supported", operator.lt, v.Key("1"), v.Document("1"))

    def test_words_of_wrong_calls(self) -> None:
        key: Any = v.Key("[1]")
        number: Any = 1
        calls: List[Tuple[Callable[[], Any], str]] = [
            (lambda: v.check(), "check() missing required argument 'text' (pos 1)"),  # type: ignore[call-arg]
            (lambda: v.get("1"), "get() missing required argument 'path' (pos 2)"),  # type: ignore[call-arg]
            (lambda: v.Key(), "Key() missing required argument 'text' (pos 1)"),  # type: ignore[call-arg]
            (lambda: key.set("/0"), "set() missing required argument 'value' (pos 2)"),
            (lambda: v.check("1", 1, 2), "check() takes at most 2 arguments (3 given)"),  # type: ignore[call-arg]
            (lambda: key.push(1, 2), "push() takes at most 1 arguments (2 given)"),
            (lambda: v.check("1", modus=1), "check() got an unexpected keyword argument 'modus'"),  # type: ignore
            (lambda: key.get("", path=""), "get() got multiple values for argument 'path'"),
            (lambda: v.check(number), "a text is a str, bytes, a bytearray or a memoryview, and not int"),
            (lambda: v.Key.from_bytes("x"), "a key is bytes, a bytearray or a memoryview, and not str"),  # type: ignore
            (lambda: v.Document.from_bytes(number), "a document is bytes, a bytearray or a memoryview, and not int"),
            (lambda: key.put("a", 1), "array is no object"), (lambda: v.Key("{}").push(1), "object is no array"),
            (lambda: key.put(1, 1), "a name is a str, and not int"), (lambda: key["a"], "array is no object"),
            (lambda: len(v.Key("1")), "number is no array and no object"),
            (lambda: 1 in key, "an item is a Key, and not int"),
            (lambda: key[1.0], "a name is a str and an index an int, and not float")]
        for call, words in calls:
            with self.assertRaises(TypeError) as raised:
                call()
            self.assertEqual(str(raised.exception), words)

    def test_names_of_arguments(self) -> None:
        self.assertEqual(v.text(text="1", mode=v.STANDARD), "1")
        self.assertEqual(v.get(mode=v.EXTENDED, path="/0", text="[1]"), "1")
        self.assertEqual(v.compare("1", right="2"), -1)
        self.assertEqual(v.sort_key("1", 0), v.sort_key("1", True))  # modes are numbers
        for call in (lambda: v.text(), lambda: v.text("1", 1, 1), lambda: v.text("1", other=1),  # type: ignore
                     lambda: v.text("1", text="1"), lambda: v.get("1"), lambda: v.compare(left="1"),  # type: ignore
                     lambda: v.Key(), lambda: v.Key("1", 1, 1)):  # type: ignore[call-arg]
            self.assertRaises(TypeError, call)
        for mode in ("standard", 4, None, -1, 2**64):
            self.assertRaises(ValueError, v.text, "1", mode)

    def parsed(self, name: str) -> ast.Module:
        with open(os.path.join(PACKAGES, "vizhoniku", name), encoding="utf-8") as file:
            return ast.parse(file.read())

    def parameters_of(self, entry: ast.FunctionDef) -> List[Tuple[str, Any]]:
        """The names of a call's parameters, but cls, with their defaults."""
        defaults = [getattr(v, one.id) if isinstance(one, ast.Name) else ast.literal_eval(one)
                    for one in entry.args.defaults]
        names = [argument.arg for argument in entry.args.args]
        values = [inspect.Parameter.empty] * (len(names) - len(defaults)) + defaults
        return [pair for pair in zip(names, values) if pair[0] != "cls"]

    def calls_in(self, name: str) -> Dict[Tuple[str, str], ast.FunctionDef]:
        """The calls that a file defines, each by its class ("" of a function) and its name, the first of overloads."""
        calls: Dict[Tuple[str, str], ast.FunctionDef] = {}
        for entry in self.parsed(name).body:
            inside = entry.name if isinstance(entry, ast.ClassDef) else ""
            for call in entry.body if isinstance(entry, ast.ClassDef) else [entry]:
                if isinstance(call, ast.FunctionDef):
                    calls.setdefault((inside, call.name), call)
        return calls

    def found(self, kind: str, name: str) -> Any:
        """The call of the package."""
        inside = getattr(v, kind) if kind else v
        return inside if name == "__new__" else getattr(inside, name)

    def test_the_stub_is_of_the_module(self) -> None:
        """Each call of the stub is there, with its parameters and their defaults, as help() tells them."""
        compared = 0
        for (kind, name), call in self.calls_in("_native.pyi").items():
            found = self.found(kind, name)
            if any(isinstance(one, ast.Name) and one.id == "property" for one in call.decorator_list):
                self.assertFalse(callable(found))
            elif name.startswith("__") and name != "__new__":
                self.assertTrue(callable(found))
            else:
                outcome = [(name, one.default) for name, one in inspect.signature(found).parameters.items()]
                self.assertEqual(outcome, self.parameters_of(call), name)
                compared += 1
        self.assertEqual(compared, 34)

    def test_words_of_help(self) -> None:
        """What help() tells is what an editor shows by the stub.

        Of what begins with two underscores C has words of its own.
        """
        compared = 0
        for (kind, name), call in self.calls_in("_native.pyi").items():
            words = ast.get_docstring(call)
            outcome = inspect.getdoc(self.found(kind, name))
            self.assertTrue(outcome, name)
            if not name.startswith("_"):
                assert words and outcome
                self.assertEqual(outcome.split(), words.split(), name)
                compared += 1
        self.assertEqual(compared, 34)
        for entry in self.parsed("_native.pyi").body:
            if isinstance(entry, ast.ClassDef):
                words = ast.get_docstring(entry)
                assert words
                self.assertEqual(getattr(v, entry.name).__doc__.split(), words.split())
        for name in v.__all__:
            if inspect.isclass(getattr(v, name)) or inspect.isroutine(getattr(v, name)):
                self.assertTrue(inspect.getdoc(getattr(v, name)), name)

    def test_version(self) -> None:
        with open(os.path.join(TOP, "include", "vizhoniku.h"), encoding="utf-8") as file:
            found = re.search('#define VIZHONIKU_VERSION_STRING "(.*)"', file.read())
        self.assertEqual(v.__version__, found and found[1])

    def test_types_by_mypy(self) -> None:
        """Where mypy is installed it finds nothing wrong in the package, nor in what uses it."""
        if importlib.util.find_spec("mypy") is None:
            return
        with tempfile.TemporaryDirectory() as folder:
            for what in (["-p", "vizhoniku"], ["-c", USE]):
                ran = subprocess.run([sys.executable, "-m", "mypy", "--strict", "--cache-dir", folder, *what],
                                     cwd=PACKAGES, stdout=subprocess.PIPE, stderr=subprocess.STDOUT, check=False)
                self.assertIn(b"Success: no issues found", ran.stdout, ran.stdout.decode())

    def test_other_threads_go_on_in_a_long_text(self) -> None:
        text = json.dumps([{"name": str(i), "n": i} for i in range(400_000)])
        turns: List[float] = []
        is_over = threading.Event()

        def turn() -> None:
            while not is_over.wait(0.001):
                turns.append(time.monotonic())

        thread = threading.Thread(target=turn)
        thread.start()
        document = v.Document(text)
        calls: List[Callable[[str], Any]] = [v.check, v.text, v.sort_key, v.text_and_key, v.is_valid, v.Key, v.Document,
                                             lambda one: v.get(one, "/7/n"), lambda one: v.compare(one, one),
                                             lambda one: document.text(), lambda one: document.get("/399999"),
                                             lambda one: document.remove("/399999")]
        try:
            for call in calls:
                begin = time.monotonic()
                call(text)
                end = time.monotonic()
                self.assertTrue(any(begin + 0.002 < at < end - 0.002 for at in turns), call)
        finally:
            is_over.set()
            thread.join()

    def test_references(self) -> None:
        """Calls keep nothing of their arguments, nor of what they make."""
        text, path, key = "[%s]" % ",".join("1" * 400), "/1", v.Key('{"a":[1,2],"b":"x"}')
        document, none = v.Document('{"a":[1.50,2],"b":"x"}'), v.Document.from_trusted_bytes(b"")
        number: Any = 5
        wrongs: List[Callable[[], Any]] = [
            lambda: v.text("[x"), lambda: v.text(number), lambda: v.text("1", 7), lambda: key["zz"], lambda: key[0],
            lambda: key.get("a"), lambda: v.Key.from_bytes(b"1"), lambda: len(v.Key("1")), lambda: v.Key.of(wrongs),
            lambda: key.set("a", 1), lambda: key.set(number, 1), lambda: key.set("/a", wrongs), lambda: key.push(1),
            lambda: key.put("\ud800", key), lambda: key.put("a", wrongs), lambda: key.remove("a"),
            lambda: v.check("[1e5, x]"), lambda: v.compare("1e1", "[1e5, x]"), lambda: v.check("[1e300]"),
            lambda: document.get("a"), lambda: document.get(number), lambda: document.set("a", 1), none.text,
            lambda: document.put("\ud800", key), lambda: document.put("a", wrongs), lambda: document.push(1),
            lambda: v.Document.from_bytes("x"), lambda: v.Document.of(wrongs), lambda: none.push(1),  # type: ignore
            lambda: v.Document.of([none]), lambda: v.Document("[x"), lambda: v.Document("[1e5, x]"),
            lambda: key.merge(wrongs), lambda: key.contains(wrongs), lambda: key.set("/a", 1, 1, 1),  # type: ignore
            lambda: key.get("a", path), lambda: key.get(number, path), lambda: document.get("a", path),
            lambda: key[path:], lambda: key["a"][path:], lambda: key["a"][::0], lambda: float(key),  # type: ignore
            lambda: int(document), lambda: int(v.Key("1.5")), lambda: float(none),
            lambda: v.pointer(path, key), lambda: document["zz"], lambda: document[0],  # type: ignore[arg-type]
            lambda: key in document, lambda: key in document["a"], lambda: document["a"][9], lambda: list(none)]

        def calls() -> None:
            v.text(text), v.sort_key(text, v.STANDARD), v.get(text, path), v.compare(text, text), v.text_and_key(text)
            v.get(text, "/400"), key.text(), key.get("/a"), key.get("/c"), key["a"][0], list(key.items())
            list(key["a"]), len(key), list(reversed(key)), reversed(key["a"])
            "a" in key, hash(key), key == key, repr(key), v.Key.from_bytes(bytes(key)), key.kind, v.Key(text)
            iter(key), key.items()
            v.Key.of(key), v.Key.of({"a": [text, 1.5, key]}), key.value(), key.contains(key), key.contains({"b": "x"})
            key.set("/a/0", key), key.set("/c/d", path), key.remove("/a"), key.remove("/c"), key.put("n", key)
            key["a"].push(key), key.merge(key), key.merge({"b": path})
            document.text(), document.key, none.key, document.get("/a"), document.get("/c"), document.value()
            hash(document), document == document, repr(document), repr(none), document == key
            v.Document.from_bytes(bytes(document)), v.Document.of(document), v.Document.of(key), v.Document(text)
            v.Document.of({"a": [text, 1.5, key, document]}), v.Key.of(document), v.Key.of([document])
            document.contains(document), document.contains({"b": "x"}), document.set("/a/0", document)
            document.set("/c/d", path), document.remove("/a"), document.remove("/c"), document.put("n", key)
            v.Document("[1.0]").push(document), document.merge(document), document.merge({"b": path})
            list(document), list(document.items()), list(document["a"]), document["a"][0], document["a"][::-1]
            len(document), "a" in document, document["a"][1] in document["a"], iter(document["a"]), document.items()
            pickle.loads(pickle.dumps(document))
            key.get("/c", path), key.get("/a", path), document.get("/c", path), document.get("/a", default=path)
            key["a"][:], key["a"][::-1], float(key["a"][0]), int(key["a"][1]), int(v.Document("2.0"))
            copy.copy(key), copy.deepcopy(document), v.pointer(path, 1)
            for wrong in wrongs:
                try:
                    wrong()
                except (ValueError, TypeError, LookupError):
                    pass

        watched: List[Any] = [text, path, key, document, none, v.Key, v.Document, *v.Mode]
        if sys.version_info < (3, 12):  # from then on None isn't counted by all
            watched.append(None)
        for _ in range(50):
            calls()
        held = [sys.getrefcount(one) for one in watched]
        for _ in range(3000):
            calls()
        now = [sys.getrefcount(one) for one in watched]
        self.assertLess(max(abs(one - two) for one, two in zip(held, now)), 1000)  # Python's caches hold some None

    def test_memory_is_given_back(self) -> None:
        """Calls with longer texts than those that are written to the stack keep none of the memory that they take."""
        text, zeros = "[%s]" % ",".join("1" * 4000), '"' + "\0" * 4000 + '"'
        key, document = v.Key(text), v.Document(text.replace("1", "1.50"))

        def calls() -> None:
            copied = bytearray(text, "ascii")
            v.check(copied), v.text(copied), v.sort_key(copied), v.text_and_key(zeros), v.get(copied, "")
            v.compare(copied, text), key.text(), v.Key.from_bytes(bytearray(bytes(key))), repr(key)
            list(v.Key('{"%s":1}' % ("x" * 4000)).items())
            v.Key.of(key.value()), key.set("/1", key), key.remove("/1"), key.push(key), key.merge(key)
            key.contains(key), key[::-2], key.get("/4000", text), pickle.loads(pickle.dumps(key))
            v.Key("{}").put("x" * 4000, key).contains({})
            v.Document(copied), document.text(), repr(document), document.get("/1"), document.get(""), document.key
            v.Document.from_bytes(bytearray(bytes(document))), v.Document.of(document.value())
            document.set("/1", document), document.remove("/1"), document.push(document), document.merge(document)
            document.contains(document), repr(v.Document.from_trusted_bytes(bytes(document)[1:]))
            list(document), document[-1], document[::-2], document[1] in document, next(iter(document))
            list(v.Document('{"%s":1.0}' % ("x" * 4000)).items()), len(document)
            v.Document("{}").put("x" * 4000, document), v.Key.of(document)
            self.assertRaises(v.RejectedText, v.check, '{"%s":1,"%s":1}' % ("x" * 4000, "x" * 4000))
            self.assertRaises(v.RejectedText, v.compare, "1e1", '{"%s":1e5, "%s":[x]}' % ("x" * 4000, "y" * 4000))

        tracemalloc.start()
        try:
            calls()
            gc.collect()
            before = tracemalloc.get_traced_memory()[0]
            for _ in range(20):
                calls()
            gc.collect()
            self.assertLess(tracemalloc.get_traced_memory()[0] - before, 8000)
        finally:
            tracemalloc.stop()


class Growth(unittest.TestCase):
    """Calls over large documents take time in proportion to their size."""

    # Calls that look at no document, or at its first byte alone, and operators that are made as one that is timed is.
    LEFT_OUT = {"Mode", "PathError", "RejectedText", "Text", "EXTENDED", "EXTENDED_JSON", "JSON", "STANDARD",
                "INTERFACE", "pointer", "Key.kind", "Key.__bool__", "Key.__float__", "Key.__int__", "Key.__copy__",
                "Key.__deepcopy__", "Key.__setattr__", "Key.__new__", "Key.__le__", "Key.__gt__", "Key.__ge__",
                "Key.__ne__", "Document.__bool__", "Document.__float__", "Document.__int__", "Document.__copy__",
                "Document.__deepcopy__", "Document.__reversed__", "Document.__setattr__", "Document.__new__",
                "Document.__le__", "Document.__gt__", "Document.__ge__", "Document.__ne__"}

    def calls(self, size: int, end: str) -> List[Tuple[str, str, Callable[[], Any]]]:
        """Calls over documents of so many parts, with decimals that end so: what is called, of what, and the call."""
        members = ",".join('"k%d":%s' % (i, ("null", '"x"', f"[{i}.{end}]", f"{i}.{end}")[i % 4]) for i in range(size))
        items = ",".join(('"a"', f'{{"id":{i},"price":{i}.{end}}}', f"{i}.{end}")[i % 3] for i in range(size))
        exponents = "[%s]" % ",".join(f"{i}.{end}e-3" for i in range(size))
        name, last = "k9998", f"/{size - 1}"
        calls: List[Tuple[str, str, Callable[[], Any]]] = []

        def add(called: str, what: str, function: Callable[..., Any], *arguments: Any) -> None:
            calls.append((called, what, functools.partial(function, *arguments)))

        for what, text in (("object", "{%s}" % members), ("array", "[%s]" % items), ("exponents", exponents)):
            for function in (v.check, v.is_valid, v.text, v.sort_key, v.text_and_key, v.Key, v.Document):
                add(function.__name__, what, function, text)
            add("get", what, v.get, text, "")
            add("get", what + ", a path", v.get, text, last)
            add("compare", what, v.compare, text, text + " ")
            for rejected in (text + "x", text.encode() + b"x", text[:-1] + ",x"):
                add("check", what + ", rejected", self.assertRaises, v.RejectedText, v.check, rejected)
            key = v.Key(text)
            data, same = bytes(key), v.Key.from_bytes(bytes(key))
            add("Key.from_bytes", what, v.Key.from_bytes, data)
            add("Key.__bytes__", what, bytes, key)
            add("Key.text", what, key.text)
            add("Key.__repr__", what, repr, key)
            add("Key.get", what, key.get, last)
            add("Key.get", what + ", a name", key.get, f"/{name}/0")
            add("Key.get", what + ", a default", key.get, "/none", key)
            add("Key.__eq__", what, operator.eq, key, same)
            add("Key.__lt__", what, operator.lt, key, same)
            add("Key.__hash__", what, lambda one: hash(v.Key.from_bytes(one)), data)
            add("Key.__reduce__", what, pickle.dumps, key)
            value, part = key.value(), v.Key("[1.50]")
            add("Key.of", what, v.Key.of, value)
            add("Key.value", what, key.value)
            add("Key.contains", what, key.contains, part if key.kind == "array" else same)
            add("Key.set", what, key.set, last if key.kind == "array" else f"/{name}", part)
            add("Key.remove", what, key.remove, last if key.kind == "array" else f"/{name}")
            add("Key.merge", what, key.merge, same)
            if key.kind == "object":
                add("Key.put", what, key.put, "new", part)
            else:
                add("Key.push", what, key.push, part)
            document = v.Document(text)
            data, kept, part_of = bytes(document), v.Document.from_bytes(bytes(document)), v.Document("[1.50]")
            path = last if key.kind == "array" else f"/{name}"
            add("Document.from_bytes", what, v.Document.from_bytes, data)
            add("Document.from_trusted_bytes", what, v.Document.from_trusted_bytes, data)
            add("Document.__bytes__", what, bytes, document)
            add("Document.text", what, document.text)
            add("Document.__repr__", what, repr, document)
            add("Document.key", what, lambda one: one.key, document)
            add("Document.get", what, document.get, path)
            add("Document.get", what + ", the whole", document.get, "")
            add("Document.get", what + ", a default", document.get, "/none", document)
            add("Document.__eq__", what, operator.eq, document, kept)
            add("Document.__lt__", what, operator.lt, document, kept)
            add("Document.__hash__", what, lambda one: hash(v.Document.from_bytes(one)), data)
            add("Document.__reduce__", what, pickle.dumps, document)
            value = document.value()
            add("Document.of", what, v.Document.of, value)
            add("Document.value", what, document.value)
            add("Document.contains", what, document.contains, part_of if key.kind == "array" else kept)
            add("Document.set", what, document.set, path, part_of)
            add("Document.remove", what, document.remove, path)
            add("Document.merge", what, document.merge, kept)
            if key.kind == "object":
                add("Document.put", what, document.put, "new", part_of)
            else:
                add("Document.push", what, document.push, part_of)
            add("Key.__reversed__", what, lambda one: list(reversed(one)), key)
            if key.kind == "array":
                add("Key.__getitem__", what + ", a slice", operator.getitem, key, slice(-2, None, -1))
            stored: List[Any] = [key, document]
            for whole in stored:
                kind = type(whole).__name__
                add(f"{kind}.__len__", what, len, whole)
                add(f"{kind}.__iter__", what, list, whole)
                if key.kind == "object":
                    add(f"{kind}.items", what, lambda one: list(one.items()), whole)
                    add(f"{kind}.__getitem__", what, operator.getitem, whole, name)
                    add(f"{kind}.__contains__", what, operator.contains, whole, "none")
                    continue
                add(f"{kind}.__getitem__", what, operator.getitem, whole, -1)
                add(f"{kind}.__getitem__", what + ", from the front", operator.getitem, whole, size - 1)
                add(f"{kind}.__contains__", what, operator.contains, whole, type(whole)('"none"'))
        return calls

    def test_calls(self) -> None:
        there = set(v.__all__) | {f"{kind.__name__}.{name}" for kind in (v.Key, v.Document)
                                  for base in kind.__mro__[:-1] for name, one in vars(base).items()
                                  if not name.startswith("_") or
                                  (name.startswith("__") and (callable(one) or isinstance(one, staticmethod)))}
        for kind, end in (("zeros", "50"), ("plain", "25")):
            documents = {size: self.calls(size, end) for size in (growth.SMALL, growth.LARGE)}
            self.assertEqual(there - {called for called, _, _ in documents[growth.SMALL]} - self.LEFT_OUT, set())
            gc.collect()
            gc.disable()
            try:
                for at, (called, what, _) in enumerate(documents[growth.SMALL]):
                    def time_of(size: int, count: int) -> float:
                        call = documents[size][at][2]
                        begin = time.process_time()
                        for _ in range(count):
                            call()
                        return time.process_time() - begin

                    with self.subTest(f"{called} of {what}, {kind}"):
                        self.assertIsNone(growth.too_fast(time_of))
            finally:
                gc.enable()


class InAnInterpreter(unittest.TestCase):
    def run_python(self, *arguments: str, **environment: str) -> str:
        ran = subprocess.run([sys.executable, *arguments], cwd=PACKAGES, env={**os.environ, **environment},
                             stdout=subprocess.PIPE, stderr=subprocess.STDOUT, check=False)
        return ran.stdout.decode().strip()

    def run_with(self, code: str, **environment: str) -> str:
        return self.run_python("-c", code, **environment)


class Versions(InAnInterpreter):
    def test_what_is_printed(self) -> None:
        """The versions are those of the header, and the file is one that is loaded here too."""
        with open(os.path.join(TOP, "include", "vizhoniku.h"), encoding="utf-8") as file:
            text, number = re.findall(r'^#define VIZHONIKU_VERSION(?:_STRING)? "?(.*?)"?$', file.read(), re.M)
        *versions, place = self.run_python("-m", "vizhoniku").splitlines()
        self.assertEqual(versions, [f"vizhoniku {text}", f"interface version {number} of the library"])
        self.assertEqual(v.INTERFACE, int(number))
        self.assertEqual(place, f"the library is in {v._native.__file__}")
        with open("/proc/self/maps", encoding="utf-8", errors="surrogateescape") as maps:
            self.assertIn(os.path.realpath(v._native.__file__), maps.read())
        self.assertEqual(self.run_python("-m", "vizhoniku", "x"), "usage: python3 -m vizhoniku")


class Memory(InAnInterpreter):
    def test_out_of_memory(self) -> None:
        """A call that has no memory for the value raises MemoryError, and the process goes on."""
        outcome = self.run_with("""
import resource
import vizhoniku
# Objects out of order at many levels hold the items, so the library makes a value of the text.
text = '{"b":0,"a":' * 20 + "[" + '{"a":1},' * 400_000 + "1]" + "}" * 20
size = int(open("/proc/self/statm").read().split()[0]) * resource.getpagesize()
resource.setrlimit(resource.RLIMIT_AS, (size + 50_000_000, resource.RLIM_INFINITY))
try:
    vizhoniku.text(text)
except MemoryError:
    print("MemoryError")
print(vizhoniku.text("[1, 2]"))
""")
        self.assertEqual(outcome, "MemoryError\n[1,2]")

class Sources(InAnInterpreter):
    def test_the_sources_alone(self) -> None:
        """The folder vizhoniku without the module in C says what is lacking."""
        outcome = self.run_with(f"import sys; sys.path[0] = {HERE!r}; import vizhoniku")
        self.assertEqual(outcome.splitlines()[-1], "ImportError: this folder has the sources of vizhoniku alone, "
                         "without its module in C: install the package by pip, or a wheel of it")


# A library that is in for the real one. Each call answers `status`, and rejects a text at its start. Where `waits`
# is set it first waits for `goes_on`, which another thread has to set, for ten seconds at most.
STAND_IN = r"""
#define _POSIX_C_SOURCE 200809L
#include <stdlib.h>
#include <time.h>
#include <vizhoniku.h>

typedef const unsigned char *bytes;
typedef struct vizhoniku_error error_of;

volatile int waits, is_waiting, goes_on;
volatile uint32_t status, reason_status = 1, path_status, kind;

static uint32_t answer(void) {
  const struct timespec moment = {0, 1000000};
  is_waiting = 1;
  for (int i = 0; waits && !goes_on && i < 10000; i++) nanosleep(&moment, NULL);
  return waits && !goes_on ? 99 : status;
}

static uint32_t of_text(error_of *error) {
  error->code = error->which = status == VIZHONIKU_REJECTED;
  error->position = 0;
  return answer();
}

uint32_t vizhoniku_version(void) { return (uint32_t)atoi(getenv("INTERFACE")); }
size_t vizhoniku_document_key(bytes document, size_t document_size) { return document_size; }
uint32_t vizhoniku_key_kind(bytes key, size_t key_size) { return kind; }
void vizhoniku_locate(bytes text, size_t size, const error_of *error, struct vizhoniku_location *location) {
  location->index = 0, location->line = location->column = 1;
}

/* Calls with a text, after what they write to, with keys and documents, and those that write. */
#define TEXT(name, zeroed, ...) \
  uint32_t vizhoniku_##name(uint32_t mode, __VA_ARGS__, error_of *error) { zeroed; return of_text(error); }
#define ANSWERS(name, ...) uint32_t vizhoniku_##name(bytes stored, size_t stored_size, __VA_ARGS__) { return answer(); }
#define CHECKS(name) uint32_t vizhoniku_##name(bytes stored, size_t stored_size) { return answer(); }
#define BUFFER unsigned char *buffer, size_t buffer_size, size_t *size
#define OTHER bytes other, size_t other_size
#define WRITES(name, given) uint32_t vizhoniku_##name(bytes stored, size_t stored_size, given BUFFER) { \
  *size = 0; \
  return answer(); \
}
#define COMMA ,
#define BOTH(kind) \
  CHECKS(kind##_check) WRITES(kind##_text,) WRITES(kind##_remove, OTHER COMMA) WRITES(kind##_push, OTHER COMMA) \
  WRITES(kind##_merge, OTHER COMMA) WRITES(kind##_put, OTHER COMMA bytes part COMMA size_t part_size COMMA) \
  WRITES(kind##_set, OTHER COMMA bytes part COMMA size_t part_size COMMA uint32_t create COMMA)

TEXT(check, (void)0, bytes text, size_t text_size)
TEXT(text, *size = 0, bytes text, size_t text_size, BUFFER)
TEXT(sort_key, *size = 0, bytes text, size_t text_size, BUFFER)
TEXT(document, *size = 0, bytes text, size_t text_size, BUFFER)
TEXT(part, *size = 0, OTHER, bytes text, size_t text_size, BUFFER)
TEXT(text_and_key, *size = *key_size = 0, bytes text, size_t text_size, BUFFER, unsigned char *key_buffer,
     size_t key_buffer_size, size_t *key_size)
TEXT(compare, *order = 0, bytes text, size_t text_size, OTHER, int32_t *order)
BOTH(key)
BOTH(document)
ANSWERS(key_count, size_t *count)
ANSWERS(key_member, OTHER, size_t *offset, size_t *size)
ANSWERS(key_item, int64_t index, size_t *offset, size_t *size)
ANSWERS(key_part, OTHER, size_t *offset, size_t *size)
ANSWERS(key_begin, struct vizhoniku_key_cursor *cursor)
ANSWERS(key_next, struct vizhoniku_key_cursor *cursor, struct vizhoniku_key_entry *entry)
ANSWERS(key_contains, OTHER)
ANSWERS(document_begin, struct vizhoniku_document_cursor *cursor)
WRITES(key_name,)
WRITES(document_part, OTHER COMMA)
WRITES(document_range, size_t offset COMMA size_t part_size COMMA)
WRITES(document_next, struct vizhoniku_document_cursor *cursor COMMA struct vizhoniku_key_entry *entry COMMA)

uint32_t vizhoniku_reason(uint32_t mode, bytes text, size_t text_size, BUFFER) {
  *size = 0;
  return reason_status;
}

uint32_t vizhoniku_error_path(uint32_t mode, bytes text, size_t text_size, const error_of *error, BUFFER) {
  *size = 0;
  return path_status;
}
"""

# What an interpreter over that library runs first.
OVER_STAND_IN = """
import ctypes
import threading
import vizhoniku as v

library = ctypes.CDLL(v._native.__file__)
status, reason_status, path_status, kind = (
    ctypes.c_uint32.in_dll(library, name) for name in ("status", "reason_status", "path_status", "kind"))
waits, is_waiting, goes_on = (ctypes.c_int.in_dll(library, name) for name in ("waits", "is_waiting", "goes_on"))
text, data = "1" * 2000, bytes(2000)
calls = {"check": lambda: v.check(text), "is_valid": lambda: v.is_valid(text), "text": lambda: v.text(text),
         "sort_key": lambda: v.sort_key(text), "text_and_key": lambda: v.text_and_key(text),
         "get": lambda: v.get(text, ""), "compare": lambda: v.compare(text, text),
         "Key": lambda: bytes(v.Key(text)), "Document": lambda: bytes(v.Document(text))}
stored = {}
for name, one in (("Key", v.Key), ("Document", v.Document)):
    whole = one.from_bytes(data)
    stored[name] = whole
    calls.update({
        name + ".from_bytes": lambda one=one: bytes(one.from_bytes(data)) == data,
        name + ".text": lambda whole=whole: whole.text(),
        name + ".contains": lambda whole=whole: whole.contains(whole),
        name + ".set": lambda whole=whole: bytes(whole.set("", whole)),
        name + ".remove": lambda whole=whole: bytes(whole.remove("")),
        name + ".merge": lambda whole=whole: bytes(whole.merge(whole))})
calls["Document.get"] = lambda: bytes(stored["Document"].get(""))

def told(call):
    try:
        return str(call())
    except Exception as error:
        return type(error).__name__
"""

# Another thread goes on while a call reads, or the call answers a status that there isn't.
WHILE_A_CALL_READS = OVER_STAND_IN + """
waits.value = 1

def go_on():
    while not is_waiting.value:
        pass
    goes_on.value = 1

for name, call in calls.items():
    is_waiting.value = goes_on.value = 0
    thread = threading.Thread(target=go_on)
    thread.start()
    answer = told(call)
    print(name, answer)
    thread.join()
    if answer == "RuntimeError":
        break
"""


@unittest.skipIf(shutil.which("cc") is None, "cc is missing")
@unittest.skipIf(not os.path.exists(sysconfig.get_paths()["include"] + "/Python.h"), "python3-dev is missing")
class StandIn(InAnInterpreter):
    """What the module makes of statuses, and of other versions of the library."""

    folder: "tempfile.TemporaryDirectory[str]"

    @classmethod
    def setUpClass(cls) -> None:
        """Builds the module over that library, beside the other files of the package."""
        cls.folder = tempfile.TemporaryDirectory()
        cls.addClassCleanup(cls.folder.cleanup)
        package = os.path.join(cls.folder.name, "vizhoniku")
        shutil.copytree(os.path.join(PACKAGES, "vizhoniku"), package, ignore=shutil.ignore_patterns("*.so"))
        subprocess.run(["cc", "-std=c99", "-Wall", "-Werror", "-shared", "-fPIC", "-DPy_LIMITED_API=0x030A0000",
                        "-I" + sysconfig.get_paths()["include"], "-I" + os.path.join(TOP, "include"),
                        os.path.join(HERE, "vizhoniku", "_native.c"), "-x", "c", "-",
                        "-o", os.path.join(package, "_native.abi3.so")], input=STAND_IN.encode(), check=True)

    def over(self, code: str, version: int = VERSION) -> List[str]:
        """What the code prints over that library, of this version."""
        ran = subprocess.run([sys.executable, "-B", "-c", code], cwd=self.folder.name, stdout=subprocess.PIPE,
                             stderr=subprocess.STDOUT, env={**os.environ, "INTERFACE": str(version)}, check=False)
        return ran.stdout.decode().splitlines()

    def test_an_older_library_is_rejected(self) -> None:
        for version in (VERSION, VERSION + 1):
            self.assertEqual(self.over("import vizhoniku as v; print(v.INTERFACE, v.compare('', ''))", version),
                             [f"{version} 0"])
        self.assertEqual(self.over("import vizhoniku", VERSION - 1)[-1],
                         f"ImportError: libvizhoniku has interface version {VERSION - 1}, and {VERSION} is needed")

    def test_statuses(self) -> None:
        """Each call without memory, with a status that there isn't, and a rejected text without memory for words."""
        outcome = self.over(OVER_STAND_IN + """
for status.value in (2, 3, 4_000_000_000):
    print(status.value, *sorted({told(call) for call in calls.values()}))
status.value = 1
for reason_status.value in (1, 2):
    print(*(told(call) for call in [*calls.values()][:9]))
reason_status.value = 1
for path_status.value in (0, 2, 3):
    try:
        v.check("1")
    except v.RejectedText as fault:
        print(repr(fault.path))
    except MemoryError:
        print("MemoryError")
""")
        self.assertEqual(outcome, [
            "2 MemoryError", "3 RuntimeError", "4000000000 RuntimeError",
            "RejectedText False" + " RejectedText" * 7, "MemoryError False" + " MemoryError" * 7,
            "''", "MemoryError", "None",
        ])

    def test_statuses_of_keys_and_documents(self) -> None:
        """Each call of a key and of a document raises the same of one status."""
        outcome = self.over(OVER_STAND_IN + """
ARRAY, OBJECT = 5, 6
for name, whole in stored.items():
    of = {"len": (ARRAY, lambda: len(whole)), "item": (ARRAY, lambda: whole[0]), "iter": (ARRAY, lambda: list(whole)),
          "name": (OBJECT, lambda: whole["a"]), "names": (OBJECT, lambda: list(whole)),
          "items": (OBJECT, lambda: list(whole.items())), "in": (OBJECT, lambda: "a" in whole),
          "has": (ARRAY, lambda: whole in whole), "get": (OBJECT, lambda: whole.get("")),
          "put": (OBJECT, lambda: whole.put("a", whole)), "push": (ARRAY, lambda: whole.push(whole)),
          "text": (OBJECT, lambda: whole.text()), "contains": (OBJECT, lambda: whole.contains(whole)),
          "set": (OBJECT, lambda: whole.set("", whole)), "remove": (OBJECT, lambda: whole.remove("")),
          "merge": (OBJECT, lambda: whole.merge(whole))}
    for status.value in (2, 3, 6, 7, 8, 10, 4_000_000_000):
        answers = {}
        for call, (kind.value, function) in of.items():
            answers.setdefault(told(function), []).append(call)
        print(name, status.value, *(f"{len(who)} {answer}" if len(who) > 1 else f"{who[0]} {answer}"
                                    for answer, who in answers.items()))
    status.value = 5
    print(name, whole.remove("") is whole, whole.get(""), whole.get("", 7), whole.contains(whole))
""")
        self.assertEqual(outcome, [f"{name} {rest}" for name in ("Key", "Document") for rest in (
            "2 16 MemoryError", "3 16 RuntimeError", "6 15 PathError put ValueError", "7 16 ValueError",
            "8 16 ValueError", "10 16 ValueError", "4000000000 16 RuntimeError", "True None 7 False")])

    def test_other_threads_go_on(self) -> None:
        outcome = self.over(WHILE_A_CALL_READS)
        self.assertEqual(outcome[:9], ["check None", "is_valid True", "text ", "sort_key b''", "text_and_key ('', b'')",
                                       "get ", "compare 0", "Key b''", "Document b''"])
        self.assertEqual(outcome[9:], [f"{kind}.{answer}" for kind in ("Key", "Document") for answer in (
            "from_bytes True", "text ", "contains True", "set b''", "remove b''", "merge b''")] + ["Document.get b''"])


@unittest.skipIf(lmdb is None, "python3-lmdb is missing")
class InLmdb(unittest.TestCase):
    def setUp(self) -> None:
        self.folder = tempfile.TemporaryDirectory()
        self.addCleanup(self.folder.cleanup)
        self.environment = lmdb.open(self.folder.name, map_size=2**24, sync=False)
        self.addCleanup(self.environment.close)
        self.documents = Documents(self.environment)

    def test_in_the_order_of_values(self) -> None:
        lines = list(IN_ORDER)
        random.Random(2).shuffle(lines)
        for line in lines:
            self.assertEqual([self.documents.put(text) for text in line], [True] + [False] * (len(line) - 1))
        self.assertEqual(list(self.documents), [v.text(line[0]) for line in IN_ORDER])

    def test_past_the_default_of_lmdb(self) -> None:
        """An environment that is opened as on the page takes more than 10 MB, which LMDB takes by default."""
        call = re.search(r"Documents\((lmdb\.open\(.*\))\)$", page(), re.M)
        assert call
        folder = tempfile.TemporaryDirectory()
        self.addCleanup(folder.cleanup)
        environment = eval(call[1], {"lmdb": lmdb, "folder": folder})
        self.addCleanup(environment.close)
        self.assertEqual(Documents(environment).put_all('["%s",%d]' % ("x" * 2**20, i) for i in range(12)), 12)

    def test_put_all(self) -> None:
        texts = [text for line in IN_ORDER for text in line]
        self.assertEqual(self.documents.put_all(iter(texts)), len(IN_ORDER))
        self.assertEqual(list(self.documents), [v.text(line[0]) for line in IN_ORDER])
        self.assertEqual(self.documents.put_all(texts + ['["new"]']), 1)
        self.assertEqual(self.documents.put_all([]), 0)
        self.assertRaises(v.RejectedText, self.documents.put_all, ['["newer"]', "[1"])
        self.assertIsNone(self.documents.get('["newer"]'))

    def test_get_by_value(self) -> None:
        self.documents.put('{"b": 2, "a": 1.0}')
        self.assertEqual(self.documents.get("{a: 0x1, b: 2.00}"), '{"a":1.0,"b":2}')
        self.assertIsNone(self.documents.get('{"a":1}'))

    def test_between(self) -> None:
        for number in range(-20, 20):
            self.documents.put(str(number))
        self.assertEqual(list(self.documents.between("-2.5", "3")), ["-2", "-1", "0", "1", "2"])

    def test_keys_past_the_bound(self) -> None:
        bound = self.environment.max_key_size()
        front = "x" * (bound - 16 - 1)  # one byte of the key is before it: such a string is cut behind its x
        texts = [f'"{front[:length]}"' for length in range(len(front) - 5, len(front) + 1)]
        texts += [f'"{front}{end}"' for end in ("a", "b", "c" * 1000, "c" * 1001, "d", "\x00", "")]
        texts += [f'["{front}",{n}]' for n in (3, 1, 2)] + [f'{{"{front}{n}":1}}' for n in range(3)] + ["1", "null"]
        with self.environment.begin(write=True) as transaction:
            self.assertRaises(lmdb.BadValsizeError, transaction.put, v.sort_key('"%s"' % ("x" * bound)), b"")
        different = sorted({v.sort_key(text): v.text(text) for text in texts}.items())
        random.Random(3).shuffle(texts)
        self.assertEqual(sum(self.documents.put(text) for text in texts), len(different))
        self.assertGreater(sum(len(key) > bound - 16 for key, _ in different), 8)
        self.assertEqual(list(self.documents), [text for _, text in different])
        for key, text in different:
            self.assertEqual(self.documents.get(" " + text), text)
        for i in range(len(different)):
            for j in range(i, len(different)):
                self.assertEqual(list(self.documents.between(different[i][1], different[j][1])),
                                 [text for _, text in different[i:j]])
        self.assertIsNone(self.documents.get(f'"{front}zzz"'))

    def put_orders(self) -> List[Dict[str, Any]]:
        """Orders of which each third has a key past the bound; they are in the order of their values."""
        long = "x" * 600
        orders: List[Dict[str, Any]] = [{"customer": number % 7 - 3, "number": number, "tags": ["a", f"t{number % 2}"]}
                                        for number in range(60)]
        for order in orders[::3]:
            order["text"] = long
        for order in random.Random(4).sample(orders, len(orders)):
            self.assertTrue(self.documents.put(json.dumps(order)))
        for text in ("1", "[]", '{"number": 2}', '{"customer": "3"}', '{"customer": null}'):
            self.assertTrue(self.documents.put(text))
        return sorted(orders, key=lambda order: (order["customer"], order["number"]))

    def test_keys(self) -> None:
        self.assertEqual(list(self.documents.keys()), [])
        self.put_orders()
        self.assertEqual(list(self.documents.keys()), [v.Key(text) for text in self.documents])
        self.assertEqual(len(list(self.documents.keys())), 65)
        self.assertEqual([key.text() for key in self.documents.keys("0", "{}")], ["1"])
        self.assertEqual([key.text() for key in self.documents.keys(low="[]")], ["[]"])
        self.assertEqual([key.text() for key in self.documents.keys(high="2")], ["1"])
        self.assertEqual(list(self.documents.keys("2", "1")), [])

    def test_where(self) -> None:
        orders = self.put_orders()

        def texts(of: List[Dict[str, Any]]) -> List[str]:
            return [json.dumps(order, sort_keys=True, separators=(",", ":")) for order in of]

        for number in range(-4, 5):
            self.assertEqual(list(self.documents.where("/customer", f"{number}.0")),
                             texts([order for order in orders if order["customer"] == number]))
            for end in range(-4, 5):
                self.assertEqual(list(self.documents.where("/customer", f"{number}.0", f"{end}")),
                                 texts([order for order in orders if number <= order["customer"] < end]))
        self.assertEqual(list(self.documents.where("/tags/1", '"t1"')),
                         texts([order for order in orders if order["number"] % 2 == 1]))
        self.assertEqual(list(self.documents.where("/customer", '""')), [])
        self.assertEqual(list(self.documents.where("/customer", '""', "{}")), ['{"customer":"3"}'])
        self.assertEqual(list(self.documents.where("/customer", "")), ['{"customer":null}'])
        self.assertEqual(list(self.documents.where("", "0x1")), ["1"])
        self.assertEqual(list(self.documents.where("/nobody", "null", "null")), [])

    def test_part(self) -> None:
        for order in self.put_orders():
            key = v.Key(json.dumps(order))
            self.assertEqual(self.documents.part(key, "/number"), v.Document(str(order["number"])))
            self.assertEqual(self.documents.part(key, "/tags"), v.Document(json.dumps(order["tags"])))
            self.assertEqual(self.documents.part(key, ""), v.Document(key.text()))
            self.assertIsNone(self.documents.part(key, "/tags/2"))
            order["number"] += 1000
            self.assertIsNone(self.documents.part(v.Key(json.dumps(order)), "/number"))  # it isn't stored

    def test_digits_are_kept(self) -> None:
        self.assertTrue(self.documents.put('{"price": 1.50, "of": [2.0, 3]}'))
        self.assertFalse(self.documents.put('{"price": 1.5, "of": [2, 3]}'))
        self.assertTrue(self.documents.put('["%s", 1.50]' % ("x" * 600)))
        stored, long = '{"of":[2.0,3],"price":1.50}', '["%s",1.50]' % ("x" * 600)
        self.assertEqual(list(self.documents), [stored, long])
        self.assertEqual(self.documents.get('{"price": 1.500, "of": [2, 3.0]}'), stored)
        self.assertEqual(list(self.documents.where("/price", "1.5")), [stored])
        self.assertEqual([document.text() for document in self.documents.documents()], [stored, long])
        part = self.documents.part(v.Key(stored), "/price")
        assert part is not None
        self.assertEqual(part.text(), "1.50")
        part = self.documents.part(v.Key(long), "/1")
        assert part is not None
        self.assertEqual(part.text(), "1.50")

    def test_what_is_stored(self) -> None:
        """Nothing but the zeros beside a key, and the whole document beside one that is cut."""
        long = '["%s",1.50]' % ("x" * 600)
        for text in ('{"a": 1.5}', "1.50", long):
            self.documents.put(text)
        with self.environment.begin() as transaction, transaction.cursor() as cursor:
            self.assertEqual([value for _, value in cursor],
                             [bytes.fromhex("000102ff"), b"", bytes(v.Document(long))])

    def test_texts_that_were_stored(self) -> None:
        """What an older version stored are texts."""
        texts = ['{"a":1.50,"b":2}', "7", "1.50", '"x"', '["%s",1.50]' % ("x" * 600), '"%s"' % ("y" * 600), "null"]
        with self.environment.begin(write=True) as transaction:
            for text in texts:
                transaction.put(self.documents._stored(v.sort_key(text)), text.encode())
        self.assertEqual(sorted(self.documents), sorted(texts))
        self.assertEqual([key.text() for key in self.documents.keys("0", '""')], ["1.5", "7"])
        for text in texts:
            self.assertEqual(self.documents.get(text), text)
            self.assertFalse(self.documents.put(text))

    def test_what_is_no_document(self) -> None:
        with self.environment.begin(write=True) as transaction:
            transaction.put(b"no key", b"")
        for read in (self.documents.keys, self.documents.documents, self.documents.__iter__):
            self.assertRaises(ValueError, list, read())

    def test_exponents(self) -> None:
        """JSON with exponents is taken by each call, and is the value of its numbers written out."""
        self.assertTrue(self.documents.put(json.dumps({"share": 1e-07, "mass": 6.02e23})))
        self.assertFalse(self.documents.put("{mass: 602000000000000000000000, share: 0.00000010}"))
        self.assertTrue(self.documents.put("[1E2]"))
        self.assertTrue(self.documents.put('["%s", 1e2]' % ("x" * 600)))
        stored, long = '{"mass":602000000000000000000000,"share":0.0000001}', '["%s",100]' % ("x" * 600)
        self.assertEqual(list(self.documents), [stored, "[100]", long])
        self.assertEqual(self.documents.get('{"share": 10.0e-8, "mass": 6020e+20}'), stored)
        self.assertEqual(self.documents.get('["%s", 1.0E2]' % ("x" * 600)), long)
        self.assertEqual(list(self.documents.between("[9.9e1]", "[1.01e2]")), ["[100]"])
        self.assertEqual([key.text() for key in self.documents.keys("1e-7", "[1e2]")], [stored])
        self.assertEqual(list(self.documents.where("/share", "1e-07")), [stored])
        self.assertEqual(list(self.documents.where("/1", "1e1", "1e3")), [long])
        self.assertEqual(self.documents.part(v.Key("[1e2]"), "/0"), v.Document("1e2"))
        for call in (self.documents.put, self.documents.get):
            with self.assertRaises(v.RejectedText) as raised:
                call("[1e300]")
            self.assertEqual(str(raised.exception), "line 1, column 6: number not carried")
        self.assertRaises(v.RejectedText, Documents(self.environment, v.STANDARD).put, "[1e2]")

    def test_hashes_that_are_equal(self) -> None:
        one, two = (f'{{"a":"{"x" * 600}{end}"}}' for end in "12")
        with unittest.mock.patch("lmdb_documents.hashlib.sha256") as hash_of:
            hash_of.return_value.digest.return_value = bytes(32)
            self.assertTrue(self.documents.put(one))
            self.assertEqual(self.documents.part(v.Key(one), ""), v.Document(one))
            for call in (self.documents.put, self.documents.get, lambda text: self.documents.part(v.Key(text), "/a")):
                with self.assertRaisesRegex(RuntimeError, "two documents that differ have one hash"):
                    call(two)

    def test_no_path(self) -> None:
        self.assertRaises(v.PathError, self.documents.part, v.Key("1"), "a")
        self.assertRaises(v.PathError, self.documents.where, "a", "1")
        self.assertRaises(v.RejectedText, self.documents.where, "/a", "[1")
        self.assertRaises(v.RejectedText, self.documents.where, "/a", "1", "[1")

    def test_readers_that_stop_early(self) -> None:
        self.put_orders()
        readers = [self.documents.keys(), self.documents.where("/customer", "1"), iter(self.documents)]
        for reader in readers:
            next(reader)
        self.assertTrue(self.documents.put("2"))  # beside readers of what was before
        self.assertNotIn(v.Key("2"), list(readers[0]))
        del readers
        self.assertEqual(list(self.documents)[:2], ["1", "2"])


class Page(unittest.TestCase):
    @unittest.skipIf(lmdb is None, "python3-lmdb is missing")
    def test_the_examples_of_the_page(self) -> None:
        outcome = doctest.testfile(os.path.join(HERE, "README.md"), module_relative=False, encoding="utf-8")
        self.assertEqual(outcome.failed, 0)
        self.assertEqual(outcome.attempted, len(re.findall("^>>> ", page(), re.M)))

    def test_each_block_is_run(self) -> None:
        """Those with a prompt are run above, those for PostgreSQL by test_postgresql.py, and of those for a shell one
        by Versions, while the other runs this."""
        blocks = re.findall(r"^```(\w*)\n(.*?)^```$", page(), re.M | re.S)
        of_postgresql = page().split("\n## In PostgreSQL\n")[1].split("\n## ")[0]
        for kind, block in blocks:
            if kind == "python":
                self.assertIn(block, of_postgresql)
            elif kind == "sh":
                self.assertRegex(block, r"\A(python3 -m vizhoniku|PKG_CONFIG_PATH=\S+ integrations/python/test)\n\Z")
            else:
                self.assertEqual((kind, block[:4]), ("pycon", ">>> "))
        self.assertGreater(len(blocks), 10)


if __name__ == "__main__":
    unittest.main()
