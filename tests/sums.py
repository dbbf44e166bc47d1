"""The sums of what is promised: of each clause of a public item of the product's crates, of where the definitions are
that these name, and of each file of definitions. `tests/pages` compares them with docs/PROMISES.sums, and `tests/pages
--sums` writes that file.

A sum is of the text without comments, with one space for all whitespace between two words.
"""

import hashlib
import pathlib
import re

TOP = pathlib.Path(__file__).resolve().parent.parent
SUMS = TOP / "docs/PROMISES.sums"
HEAD = "# Written by tests/pages --sums: the sum of each public clause, of the imports of what the clauses of a file\n" \
    "# name, and of each file of definitions.\n"

# Where a type, a trait or its implementation begins and ends, a function, and a clause, up to its brace.
MARKS = re.compile(r"""
    ^(?P<end>\})
    | ^(?P<head>(?:pub\ )?(?:impl|trait|struct|enum)\b[^{;(]*)\{$
    | ^\ *(?P<public>pub\ |pub\([^)]*\)\ )?(?:extern\ "C"\ )?fn\ (?P<function>\w+)
    | ^\ *(?:pub\ )?(?P<kind>ensures|requires|ghost)(?:\ (?P<clause>\w+))?\ ?[=:]?\ ?(?=\{)
    """, re.M | re.X)

# An import of definitions: of names of a file, or of a file.
IMPORT = re.compile(r"^ *(?:ghost )?use (Rattle\.[\w.]+?)(?:\.\{([^}]*)\})?(?: as (\w+))?;?$", re.M)


def product():
    """The crates of the product, as crates.txt has them."""
    names = re.findall(r"^(\w+)[^:\n]*:", (TOP / "crates.txt").read_text(encoding="utf-8"), re.M)
    return [name for name in names if not name.startswith(("test_", "bench_", "example_"))]


def in_braces(source, start):
    """What stands in the braces that begin there, nested ones included."""
    depth = 0
    for mark in re.compile(r"[{}]").finditer(source, start):
        depth += 1 if mark[0] == "{" else -1
        if depth == 0:
            return source[start + 1:mark.start()]
    raise ValueError(f"no end of {source[start:start + 60]!r}")


def clauses(source):
    """The clauses of public functions, of types and of traits: the item, the clause and its text."""
    source = re.sub(r"^ *//.*$", "", source, flags=re.M)
    head, function, is_public = "", "", False
    for mark in MARKS.finditer(source):
        if mark["end"]:
            head = ""
        elif mark["head"]:
            head = " ".join(mark["head"].split())
        elif mark["function"]:
            function, is_public = mark["function"], mark["public"] == "pub " or head.startswith("pub trait")
        elif mark["kind"] == "ghost" or is_public:
            item = head if mark["kind"] == "ghost" else ", ".join(word for word in (head, function) if word)
            yield f"{item}: {mark['kind']} {mark['clause'] or 'sole'}", in_braces(source, mark.end())


def imports(source):
    """The names of definitions that a file has, each with where it is."""
    for path, names, other in IMPORT.findall(source):
        if not names:
            yield other or path.split(".")[-1], path
        for name in filter(None, (" ".join(each.split()) for each in names.split(","))):
            there, _, here = name.partition(" as ")
            yield here or there, f"{path}.{there}"


def is_named(name, text):
    """Whether the text has the name, or each sign of an operator."""
    return all(re.search(rf"\b{part}\b", text) if part.isidentifier() else part in text
               for part in name.split("◌") if part)


def unsummed():
    """Definitions that have no sum since they are among proofs, with the file that imports them."""
    names = "|".join(product())
    for crate in product():
        folder = TOP / "crates" / crate
        for file in sorted([*folder.glob("src/**/*.rt"), *folder.glob("specs/**/*.antt")]):
            for name, path in imports(file.read_text(encoding="utf-8")):
                if re.match(rf"Rattle\.(?:{names})\.proofs\.", path):
                    yield f"{file.relative_to(TOP)}: {name} of {path}"


def texts():
    """What has a sum, with its text, in the order of crates.txt."""
    found = {}
    for crate in product():
        folder = TOP / "crates" / crate
        for file in sorted(folder.rglob("*.rt")):
            if "src" in file.relative_to(folder).parts[:1]:
                source, where, everything = file.read_text(encoding="utf-8"), file.relative_to(TOP / "crates"), ""
                for clause, text in clauses(source):
                    name = f"{where} {clause}"
                    found[name] = found.get(name, "") + text
                    everything += text + "\n"
                named = {f"{name} {path}" for name, path in imports(source) if is_named(name, everything)}
                if everything and named:
                    found[f"{where}: imports"] = "\n".join(sorted(named))
        for file in sorted(folder.glob("specs/**/*.antt")):
            text = re.sub(r"^ *--.*$", "", file.read_text(encoding="utf-8"), flags=re.M)
            found[str(file.relative_to(TOP / "crates"))] = text
    return found


def counted():
    """The sum of each."""
    return {name: hashlib.sha256(" ".join(text.split()).encode()).hexdigest()[:10] for name, text in texts().items()}


def stored():
    lines = SUMS.read_text(encoding="utf-8").splitlines() if SUMS.exists() else []
    return {name: number for number, _, name in (line.partition(" ") for line in lines if not line.startswith("#"))}


def differences():
    """What changed, is new or is gone since the file was written."""
    now, before = counted(), stored()
    for name in [*now, *(name for name in before if name not in now)]:
        if now.get(name) != before.get(name):
            yield f"{name} " + ("is gone" if name not in now else "is new" if name not in before else "has changed")


def write():
    SUMS.write_text(HEAD + "".join(f"{number} {name}\n" for name, number in counted().items()), encoding="utf-8")
