#!/usr/bin/env python3
"""Counts what orjson, Python's json and jq -cS take for a text with sorted members: interpreted.py DOCUMENTS

Prints a line for each, with instructions a byte for each kind of the folder's documents, by valgrind: of a second and a
third round less the first, and for jq of a file with the documents three times less one with them once. A dash stands
where a text is rejected. Of a kind with many documents the first are taken, and of a large array the first items, since
all of them take a long time under valgrind. A program that isn't installed has no line.
"""
import importlib.util
import json
import os
import re
import shutil
import subprocess
import sys
import tempfile

# How many bytes of a kind are counted.
MOST = 60000


def rewrite(library, rounds, path):
    """Parses and writes each document so many times."""
    sys.setrecursionlimit(10000)
    if library == "orjson":
        import orjson

        def write(line):
            return orjson.dumps(orjson.loads(line), option=orjson.OPT_SORT_KEYS)
    else:
        def write(line):
            return json.dumps(json.loads(line), sort_keys=True, separators=(",", ":"), ensure_ascii=False).encode()
    with open(path, "rb") as file:
        lines = file.read().splitlines()
    for line in lines:
        for _ in range(rounds):
            write(line)


def counted(words):
    told = subprocess.run(["valgrind", "--tool=cachegrind", "--cache-sim=no", "--cachegrind-out-file=/dev/null", *words],
                          stdout=subprocess.DEVNULL, stderr=subprocess.PIPE, text=True, check=False)
    found = re.search(r"I +refs: +([0-9,]+)", told.stderr)
    return int(found[1].replace(",", "")) if found and not told.returncode else None


def cut(lines):
    """The first documents, up to so many bytes. Of one large array the first items."""
    kept, size = [], 0
    for line in lines:
        if size + len(line) > MOST and kept:
            break
        if len(line) > MOST:
            value = json.loads(line)
            if isinstance(value, list):
                while len(line) > MOST:
                    value = value[:len(value) * MOST // len(line) or 1] if len(value) > 1 else []
                    line = json.dumps(value, separators=(",", ":"), ensure_ascii=False).encode()
        kept.append(line)
        size += len(line)
    return kept


def figure(library, lines, folder):
    once, thrice = os.path.join(folder, "once"), os.path.join(folder, "thrice")
    for path, times in ((once, 1), (thrice, 3)):
        with open(path, "wb") as file:
            file.write(b"\n".join(lines * times) + b"\n")
    if library == "jq":
        first, last = (counted(["jq", "-cS", ".", path]) for path in (once, thrice))
    else:
        words = [os.path.realpath(sys.executable), os.path.realpath(__file__), "--rewrite", library]
        first, last = (counted([*words, rounds, once]) for rounds in ("1", "3"))
    return "-" if first is None or last is None else "%.0f" % ((last - first) / 2 / sum(map(len, lines)))


def main():
    if sys.argv[1] == "--rewrite":
        rewrite(sys.argv[2], int(sys.argv[3]), sys.argv[4])
        return
    folder = sys.argv[1]
    kinds = sorted(name[:-len(".json")] for name in os.listdir(folder) if name.endswith(".json"))
    there = [("orjson", importlib.util.find_spec("orjson")), ("json", True), ("jq", shutil.which("jq"))]
    print("Instructions a byte of a text with sorted members: " + " ".join(kinds))
    sys.setrecursionlimit(10000)
    with tempfile.TemporaryDirectory() as scratch:
        for library in (library for library, is_there in there if is_there):
            figures = []
            for kind in kinds:
                with open(os.path.join(folder, kind + ".json"), "rb") as file:
                    figures.append(figure(library, cut(file.read().splitlines()), scratch))
            print("%-7s %s" % (library, " ".join(figures)), flush=True)


main()
