"""Tries documents in a cluster of three. integrations/etcd/test runs this."""

import functools
import json
import os
import random
import shutil
import subprocess
import sys
import threading
import unittest
import unittest.mock
from typing import Any, Dict, List, Tuple

import vizhoniku
from cluster import Cluster
from documents import Documents, EtcdError, Unavailable, _to_json

HERE = os.path.dirname(os.path.abspath(__file__))

# Documents in the order of their values; those of one line are equal.
IN_ORDER = [
    ["false"],
    ["true"],
    ["-18446744073709551616"],
    ["-1.5", "-01.50"],
    ["0", "-0", "0.00", "0x0"],
    ["0.5", ".5"],
    ["1", "1.0", "0x1", "/* one */ 1"],
    ["9"],
    ["10", "0xA"],
    ['""'],
    [r'"\u0000"'],
    ['"a"', r'"\u0061"', "'a'"],
    ['"é"', r'"\u00e9"'],
    ["{}", "{ }"],
    ['{"a":1,"b":2}', '{"b":2,"a":1}', "{b: 0x2, a: +1}"],
    ['{"b":0}'],
    ["[]"],
    ["[1]", "[1.0]"],
    ["[1,null]", "[1,]"],
    ["null", ""],
]

cluster: Cluster


def setUpModule() -> None:
    global cluster
    cluster = Cluster()
    unittest.addModuleCleanup(cluster.close)
    cluster.__enter__()


class InTheCluster(unittest.TestCase):
    def setUp(self) -> None:
        self.prefix = self.id().encode() + b"/"
        self.documents = Documents(cluster.endpoints, self.prefix)

    def by_member(self, i: int, timeout: float = 10.0) -> Documents:
        return Documents([cluster.endpoints[i]], self.prefix, timeout=timeout)

    def put_shuffled(self) -> List[str]:
        lines = list(IN_ORDER)
        random.Random(1).shuffle(lines)
        for line in lines:
            self.assertEqual([self.documents.put(text) for text in line], [True] + [False] * (len(line) - 1))
        return [vizhoniku.text(line[0]) for line in IN_ORDER]

    def test_order(self) -> None:
        wanted = self.put_shuffled()
        for i in range(3):
            self.assertEqual(list(self.by_member(i)), wanted)
        self.assertEqual(wanted, sorted(wanted, key=functools.cmp_to_key(vizhoniku.compare)))

    def test_order_of_made_documents(self) -> None:
        draw = random.Random(2)

        def text(depth: int) -> str:
            kind = draw.randrange(5 if depth else 3)
            if kind == 0:
                return f"{draw.randrange(-20, 20)}{draw.choice(['', '.0', '.25', '.5'])}"
            if kind == 1:
                return draw.choice(["null", "true", "false"])
            if kind == 2:
                return f'"{"".join(draw.choices("aé", k=draw.randrange(4)))}"'
            if kind == 3:
                return "[" + ", ".join(text(depth - 1) for _ in range(draw.randrange(3))) + "]"
            keys = draw.sample(["a", "b", "c"], draw.randrange(3))
            return "{" + ", ".join(f"{key}: {text(depth - 1)}" for key in keys) + "}"

        texts = [text(3) for _ in range(100)]
        new = sum(self.documents.put(each) for each in texts)
        found = list(self.documents)
        self.assertEqual(len(found), new)
        for one, two in zip(found, found[1:]):
            self.assertEqual(vizhoniku.compare(one, two), -1)
        for each in texts:
            stored = self.documents.get(each)
            assert stored is not None
            self.assertEqual(vizhoniku.compare(stored, each), 0)

    def test_equal_values_meet_in_one_key(self) -> None:
        self.put_shuffled()
        for line in IN_ORDER:
            for text in line:
                self.assertEqual(self.documents.get(text), vizhoniku.text(line[0]))
        self.assertIsNone(self.documents.get("[2]"))
        self.assertFalse(self.documents.delete("[2]"))
        self.assertTrue(self.documents.delete("{ b: 2.00, a: 1.0 }"))
        self.assertIsNone(self.documents.get('{"a":1,"b":2}'))
        self.assertEqual(len(list(self.documents)), len(IN_ORDER) - 1)

    def test_between(self) -> None:
        wanted = self.put_shuffled()
        for i, low in enumerate(IN_ORDER):
            for j, high in enumerate(IN_ORDER[::5]):
                self.assertEqual(list(self.documents.between(low[-1], high[-1])), wanted[i:5 * j])
        self.assertEqual(list(self.documents.between("0.25", "9.5")), ["0.5", "1", "9"])

    def put_orders(self) -> List[Dict[str, Any]]:
        orders = [{"customer": number % 5, "number": number, "tags": ["a", f"t{number % 2}"]} for number in range(30)]
        for order in random.Random(3).sample(orders, len(orders)):
            self.assertTrue(self.documents.put(json.dumps(order)))
        for text in ("1", "[]", '{"number": 2}', '{"customer": "3"}'):
            self.assertTrue(self.documents.put(text))
        return sorted(orders, key=lambda order: (order["customer"], order["number"]))

    def test_keys(self) -> None:
        self.assertEqual(list(self.documents.keys()), [])
        self.put_orders()
        with unittest.mock.patch("documents._PAGE", 10), unittest.mock.patch.object(
                self.documents, "_ask", wraps=self.documents._ask) as asked:
            self.assertEqual(list(self.documents.keys()), [vizhoniku.Key(text) for text in self.by_member(1)])
            self.assertEqual([call.args[1]["keys_only"] for call in asked.call_args_list], [True] * 4)
        answer = self.documents._ask("/v3/kv/range", asked.call_args_list[0].args[1])
        self.assertEqual({"value" in entry for entry in answer["kvs"]}, {False})
        self.assertEqual([key.text() for key in self.documents.keys("0", "{}")], ["1"])
        self.assertEqual([key.text() for key in self.documents.keys(low="[]")], ["[]"])
        self.assertEqual([key.text() for key in self.documents.keys(high="2")], ["1"])
        self.assertEqual(list(self.documents.keys("2", "1")), [])

    def test_where(self) -> None:
        orders = self.put_orders()

        def texts(of: List[Dict[str, Any]]) -> List[str]:
            return [json.dumps(order, sort_keys=True, separators=(",", ":")) for order in of]

        for number in range(-1, 6):
            self.assertEqual(list(self.documents.where("/customer", f"{number}.0")),
                             texts([order for order in orders if order["customer"] == number]))
            self.assertEqual(list(self.documents.where("/customer", f"{number}.0", "4")),
                             texts([order for order in orders if number <= order["customer"] < 4]))
        self.assertEqual(list(self.documents.where("/tags/1", '"t1"')),
                         texts([order for order in orders if order["number"] % 2 == 1]))
        self.assertEqual(list(self.documents.where("/customer", '""', "{}")), ['{"customer":"3"}'])
        self.assertEqual(list(self.documents.where("/nobody", "null")), [])
        self.assertRaises(vizhoniku.PathError, self.documents.where, "customer", "1")
        self.assertRaises(vizhoniku.RejectedText, self.documents.where, "/customer", "1", "[1")

    def test_part(self) -> None:
        for order in self.put_orders()[::6]:
            key = vizhoniku.Key(json.dumps(order))
            self.assertEqual(self.documents.part(key, "/number"), vizhoniku.Key(str(order["number"])))
            self.assertEqual(self.documents.part(key, "/tags"), vizhoniku.Key('["a", "t%d"]' % (order["number"] % 2)))
            self.assertIsNone(self.documents.part(key, "/tags/2"))
            order["number"] += 1000
            self.assertIsNone(self.documents.part(vizhoniku.Key(json.dumps(order)), "/number"))  # it isn't stored
        with unittest.mock.patch.object(self.documents, "_ask", wraps=self.documents._ask) as asked:
            self.assertEqual(self.documents.part(vizhoniku.Key("1.0"), ""), vizhoniku.Key("1"))
        answer = self.documents._ask("/v3/kv/range", asked.call_args.args[1])
        self.assertEqual((answer["count"], answer.get("kvs", [])), ("1", []))
        self.assertRaises(vizhoniku.PathError, self.documents.part, vizhoniku.Key("1"), "a")

    def test_what_is_no_document(self) -> None:
        self.documents._ask("/v3/kv/put", {"key": _to_json(self.prefix + b"x"), "value": _to_json(b"1")})
        self.assertRaises(ValueError, list, self.documents.keys())
        self.assertRaises(ValueError, list, self.documents.where("/a", "1"))

    def test_prefixes_lie_apart(self) -> None:
        other = Documents(cluster.endpoints, self.prefix[:-1] + b"0")  # the byte behind the slash
        self.documents.put("1")
        other.put("2")
        self.assertEqual((list(self.documents), list(other)), (["1"], ["2"]))

    def test_more_than_a_page(self) -> None:
        for i in range(75):
            self.documents.put(str(i))
        with unittest.mock.patch("documents._PAGE", 25):
            seen = iter(self.documents)
            first = next(seen)
            self.documents.put("70.5")  # comes too late for the moment that is read
            self.assertEqual([first, *seen], [str(i) for i in range(75)])
            self.assertEqual(len(list(self.documents)), 76)

    def test_writers_at_once(self) -> None:
        forms = ["{}", "{}.0", "0x{:X}", " {} "]
        new: List[bool] = []

        def put(form: str, i: int) -> None:
            documents = self.by_member(i)
            for n in range(20):
                new.append(documents.put(form.format(n)))

        threads = [threading.Thread(target=put, args=(form, i % 3)) for i, form in enumerate(forms)]
        for thread in threads:
            thread.start()
        for thread in threads:
            thread.join()
        self.assertEqual((len(new), sum(new)), (80, 20))

    def test_prefixes_of_any_bytes(self) -> None:
        for prefix in (b"\xff\x00\xff", b"\x00", self.prefix + b"\xff"):
            documents = Documents(cluster.endpoints, prefix)
            documents.put("[1]")
            self.assertEqual(list(documents), ["[1]"])
            self.assertTrue(documents.delete("[1]"))
        for prefix in (b"", b"\xff\xff"):
            self.assertRaises(ValueError, Documents, cluster.endpoints, prefix)
        self.assertRaises(ValueError, Documents, [])

    def test_rejected(self) -> None:
        for call in (self.documents.put, self.documents.get, self.documents.delete):
            with self.assertRaises(vizhoniku.RejectedText) as raised:
                call("[1,\n2 3]")
            self.assertEqual((raised.exception.line, raised.exception.column), (2, 3))
        self.assertRaises(vizhoniku.RejectedText, Documents(cluster.endpoints, mode=vizhoniku.STANDARD).put, "1.5")
        self.assertEqual(list(self.documents), [])

    def test_exponents(self) -> None:
        """JSON with exponents is taken by each call, and is the value of its numbers written out."""
        self.assertTrue(self.documents.put(json.dumps({"share": 1e-07, "mass": 6.02e23})))
        self.assertFalse(self.documents.put("{mass: 602000000000000000000000, share: 0.00000010}"))
        self.assertTrue(self.documents.put("[1E2]"))
        stored = '{"mass":602000000000000000000000,"share":0.0000001}'
        self.assertEqual(list(self.documents), [stored, "[100]"])
        self.assertEqual(self.documents.get('{"share": 10.0e-8, "mass": 6020e+20}'), stored)
        self.assertEqual(list(self.documents.between("[9.9e1]", "[1.01e2]")), ["[100]"])
        self.assertEqual([key.text() for key in self.documents.keys("1e-7", "[1e2]")], [stored])
        self.assertEqual(list(self.documents.where("/share", "1e-07")), [stored])
        self.assertEqual(list(self.documents.where("/0", "1e1", "1e3")), ["[100]"])
        self.assertEqual(self.documents.part(vizhoniku.Key("[1e2]"), "/0"), vizhoniku.Key("1e2"))
        for call in (self.documents.put, self.documents.get, self.documents.delete):
            with self.assertRaises(vizhoniku.RejectedText) as raised:
                call("[1e300]")
            self.assertEqual(str(raised.exception), "line 1, column 6: number not carried")
        self.assertRaises(vizhoniku.RejectedText, Documents(cluster.endpoints, mode=vizhoniku.STANDARD).put, "[1e2]")
        self.assertTrue(self.documents.delete("[1.00e2]"))

    def test_too_large(self) -> None:
        self.assertTrue(self.documents.put('"%s"' % ("x" * 500_000)))
        for size, words in ((600_000, "etcdserver: request is too large"), (800_000, "message larger than max")):
            with self.assertRaises(EtcdError) as raised:
                self.documents.put('"%s"' % ("x" * size))
            self.assertIn(words, str(raised.exception))
        self.assertEqual([len(text) for text in self.documents], [500_002])

    def test_members_stop(self) -> None:
        wanted = self.put_shuffled()
        cluster.kill(0)
        self.assertTrue(self.documents.put("[2]"))
        self.assertEqual(self.documents.get("[ 2.0 ]"), "[2]")
        self.assertEqual(list(self.documents), wanted[:-1] + ["[2]", "null"])
        self.assertRaises(Unavailable, self.by_member(0, timeout=1).get, "1")

        cluster.kill(1)  # one of three is left, and it may not answer alone
        self.assertRaises(Unavailable, Documents(cluster.endpoints, self.prefix, timeout=3).put, "[3]")
        self.assertRaises(Unavailable, Documents(cluster.endpoints, self.prefix, timeout=3).get, "1")

        cluster.start(0)
        cluster.start(1)
        cluster.wait()
        self.documents.delete("[3]")  # whether it was put isn't known
        for i in range(3):
            self.assertEqual(list(self.by_member(i)), wanted[:-1] + ["[2]", "null"])

    def test_the_program(self) -> None:
        def run(*words: str) -> "subprocess.CompletedProcess[str]":
            return subprocess.run([sys.executable, os.path.join(HERE, "documents.py"), "--endpoints",
                                   ",".join(cluster.endpoints), "--prefix", "program/", *words],
                                  stdout=subprocess.PIPE, stderr=subprocess.PIPE, universal_newlines=True, check=False)

        def outcome(*words: str) -> Tuple[int, str, str]:
            ran = run(*words)
            return ran.returncode, ran.stdout, ran.stderr

        self.assertEqual(outcome("put", "[10]", "9.5", "{b: 1, a: 2}", '{"a": 2.0, "b": 1}', "-1")[:2],
                         (0, "new\nnew\nnew\nthere already\nnew\n"))
        self.assertEqual(outcome("list")[1], '-1\n9.5\n{"a":2,"b":1}\n[10]\n')
        self.assertEqual(outcome("between", "0", "[]")[1], '9.5\n{"a":2,"b":1}\n')
        self.assertEqual(outcome("get", "[0xA]"), (0, "[10]\n", ""))
        self.assertEqual(outcome("get", "[11]"), (1, "", ""))
        self.assertEqual(outcome("put", "7", "[7"),
                         (2, "", "documents.py: line 1, column 3: EOF while parsing a value\n"))
        self.assertEqual(outcome("get", "7")[0], 1)
        self.assertEqual(outcome("--standard", "put", "1.5"),
                         (2, "", "documents.py: line 1, column 3: number not carried\n"))
        self.assertEqual(outcome("where", "/a", "2.00"), (0, '{"a":2,"b":1}\n', ""))
        self.assertEqual(outcome("where", "/a", "2.5"), (0, "", ""))
        self.assertEqual(outcome("where", "", "-5", "9.5"), (0, "-1\n", ""))
        self.assertEqual(outcome("parts", "/b"), (0, "1\n", ""))
        self.assertEqual(outcome("parts", ""), (0, '-1\n9.5\n{"a":2,"b":1}\n[10]\n', ""))
        self.assertEqual(outcome("parts", "b")[:2], (2, ""))
        self.assertEqual(outcome("put", '{"share": 1e-07}', '{"share": 0.0000001}')[:2], (0, "new\nthere already\n"))
        self.assertEqual(outcome("where", "/share", "1e-7"), (0, '{"share":0.0000001}\n', ""))
        self.assertEqual(outcome("put", "1e300"), (2, "", "documents.py: line 1, column 5: number not carried\n"))
        self.assertEqual(outcome("delete", "9.50"), (0, "", ""))
        self.assertEqual(outcome("delete", "9.50"), (1, "", ""))

    @unittest.skipIf(shutil.which("etcdctl") is None, "etcd-client is missing")
    def test_seen_by_etcdctl(self) -> None:
        wanted = self.put_shuffled()
        outcome = subprocess.run(
            ["etcdctl", "--endpoints", cluster.endpoints[1], "get", "--prefix", self.prefix.decode(),
             "--print-value-only"], env={**os.environ, "ETCDCTL_API": "3"}, stdout=subprocess.PIPE, check=True)
        self.assertEqual(outcome.stdout.decode().splitlines(), wanted)
