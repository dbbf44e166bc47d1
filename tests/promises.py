"""The tables of docs/PROMISES.md: which clauses the sources have, and the tables made anew from them.

Of a row of a table the words of the promise, the order of the clauses, and which definitions say it, are written by
hand. The rest is of the sources: the file of each definition, and a row for each clause that no row names yet, with the
definitions that its text names. `tests/pages` compares the page with what `made` makes of it, and `tests/pages
--tables` writes that.
"""

import functools
import pathlib
import re

import sums

TOP = pathlib.Path(__file__).resolve().parent.parent
CRATES = TOP / "crates"
PAGE = TOP / "docs/PROMISES.md"

# Functions of traits, of which the page names the clauses that a type has as `ghost`.
TRAITS = {"clone", "cmp", "default", "partial_cmp"}

# Records that clauses of these names state, whose fields the page names.
RECORDS = ["crates/jsonb_spec/specs/Text/Appending.antt", "crates/jsonb/specs/Parses.antt",
           "crates/jsonb/specs/Follows.antt", "crates/key_edit/specs/Edit.antt", "crates/jsonb_spec/specs/Edit.antt",
           "crates/key_walk/specs/AtKeys.antt", "crates/jsonb_spec/specs/SortKey/AtKeys.antt",
           "crates/jsonb_spec/specs/Interface.antt", "crates/jsonb_c/specs/Interface.antt",
           "crates/jsonb_spec/specs/Interface/KeyParts.antt", "crates/jsonb_c/specs/KeyParts.antt",
           "crates/key_table/specs/Results.antt"]
RECORD_CLAUSES = {"accepts", "appends", "fills", "finds", "follows", "parses", "path", "preserves", "rejects", "reports",
                  "status", "within", "writes"}

# A row: a function or functions, the promise, its clauses and its definitions.
ROW = re.compile(r"^\| (.*?) ?\| (.*?) ?\| (.*?) \| (.*?) ?\|$")
HEADING = re.compile(r"^### `(\w+)`$", re.M)
LINK = re.compile(r"\[`(\w+)`\]\(\.\./(crates/[^)]*)\)")


def read(path):
    return (TOP / path).read_text(encoding="utf-8")


def promises(heading):
    """The part of the page under a heading."""
    return re.split(r"^## ", read("docs/PROMISES.md").split(f"\n## {heading}\n")[1], flags=re.M)[0]


def files(crate):
    return sorted((CRATES / crate / "src").rglob("*.rt"))


@functools.cache
def sources(crate):
    return "\n".join(file.read_text(encoding="utf-8") for file in files(crate))


@functools.cache
def fields_of_records():
    return {name: re.findall(r"^  pub (\w+) :", fields, re.M) for file in RECORDS for name, fields in re.findall(
        r"^pub record (\w+)(.*?)^$", read(file), re.M | re.S)}


def contracts(source):
    """Each public function with its clauses in order, and the text of each. A clause that is one of the records gives
    one for each field."""
    records = fields_of_records()
    functions = re.split(r"^ *((?:pub(?:\([^)]*\))? )?(?:extern \"C\" )?)fn (\w+)", source, flags=re.M)
    for words, name, rest in zip(functions[1::3], functions[2::3], functions[3::3]):
        if words.startswith("pub "):
            contract, clauses = re.split(r"^ *\{", rest, flags=re.M)[0], {}
            for clause, text, first in re.findall(r"^ *ensures (\w*) ?(\{ *(\w*)(?:(?!^ *ensures)[\s\S])*)", contract, re.M):
                fields = records.get(first) if clause in RECORD_CLAUSES else None
                names = [f"{clause}.{field}" for field in fields] if fields else [clause or "sole"]
                clauses.update(dict.fromkeys(names, text))
            yield name, clauses


@functools.cache
def code_of(crate):
    """The words of a crate's code, without comments, clauses and imports of definitions."""
    clauses = r"^ *(?:requires|ensures|ghost)\b(?:[^\n]*\n)*?[^\n]*[};]$"
    return {*re.findall(r"\w+", re.sub(rf"//.*|{clauses}", "", sources(crate), flags=re.M))}


def for_users(crate):
    """The public functions that users of the crate call, with their clauses: src/lib.rt of the crate or of jsonb exports
    them or their module by name, or no other crate of the product calls them."""
    root = CRATES / crate / "src/lib.rt"
    uses = re.findall(r"^pub use ([^;]*);", root.read_text(encoding="utf-8") if root.exists() else "", re.M)
    uses += re.findall(rf"^pub use {crate}::([^;]*);", sources("jsonb"), re.M)
    exported = {name for use in uses for name in re.findall(r"\w+", re.split("::|[{]", use)[-1])}
    called = set().union(*(code_of(other) for other in sums.product() if other != crate))
    for file in files(crate):
        module = file.relative_to(CRATES / crate / "src").parts[0].removesuffix(".rt")
        for name, clauses in contracts(file.read_text(encoding="utf-8")):
            if clauses and (module in exported or name in exported or name not in called):
                yield name, clauses


def definitions():
    """The files that define each name: those of definitions, and for traits and types the sources."""
    found = {}
    for crate in sums.product():
        for file in sorted((CRATES / crate / "specs").rglob("*.antt")):
            text, path = file.read_text(encoding="utf-8"), str(file.relative_to(TOP))
            for name in [file.stem, *re.findall(r"^ *(?:abbrev |unfoldable )?pub (?:record |data )?(\w+)", text, re.M)]:
                if path not in found.setdefault(name, []):
                    found[name].append(path)
        for file in files(crate):
            for name in re.findall(r"^pub (?:trait|struct|enum) (\w+)", file.read_text(encoding="utf-8"), re.M):
                found.setdefault(name, []).append(str(file.relative_to(TOP)))
    return found


def is_function(subject):
    name = subject.split("::")[-1]
    return re.fullmatch("[a-z_0-9]+", name) and name not in TRAITS


class Crate:
    """What a crate's part of the page is compared with."""

    def __init__(self, name, defined):
        self.name, self.defined, self.source = name, defined, sources(name)
        self.contracts = {}
        for function, clauses in contracts(self.source):
            self.contracts.setdefault(function, []).append(clauses)

    def link(self, name, path=None):
        """The link to a definition: in the file that the page has, or else the one of this crate, or the first one."""
        paths = self.defined.get(name, [])
        here = [each for each in paths if each.startswith(f"crates/{self.name}/")]
        if path not in paths:
            path = (here or paths or [path])[0]
        return f"[`{name}`](../{path})" if path else f"`{name}`"

    def linked(self, cell):
        """A cell of definitions, each with a link."""
        bare = re.sub(r"(?<!\[)`(\w+)`", lambda name: self.link(name[1]), cell)
        return LINK.sub(lambda link: self.link(link[1], link[2]), bare)

    def contract(self, subject, clauses):
        """The contract that has these clauses alone, of the functions of this name, or has more than these."""
        candidates = self.contracts.get(subject.split("::")[-1], [])
        alone = [each for each in candidates if set(clauses) == set(each)]
        more = [each for each in candidates if set(clauses) < set(each)]
        return (alone or more or candidates or [{}])[0]

    def named_in(self, text):
        """The definitions that a clause's text names, but for functions of the definitions and views."""
        names = dict.fromkeys(re.findall(r"\b[A-Z]\w+", text))
        return ", ".join(self.link(name) for name in names if any("/specs/" in path for path in self.defined.get(name, [])))

    def rows(self, subject, clauses):
        """Rows without a promise for clauses of a function."""
        for number, (clause, text) in enumerate(clauses.items()):
            first, name = f"`{subject}` " if number == 0 else "", clause if clause == "sole" else f"`{clause}`"
            yield f"| {first}| | {name} | {self.named_in(text)} |".replace("|  |", "| |")


def clauses_of(cell):
    return re.findall(r"`([^`]+)`", cell) or [cell]


def is_head(row):
    return row[3] == "clause" or row[3].startswith("---")


def promised(tables):
    """The clauses that the tables name of each function, trait or type. An empty first cell repeats the one above."""
    named, subjects = {}, []
    for row in filter(None, map(ROW.match, tables.splitlines())):
        subjects = re.findall(r"`([^`]+)`", row[1]) or subjects
        for each in () if is_head(row) else subjects:
            named.setdefault(each, []).extend(clauses_of(row[3]))
    return named


def made_part(crate, part):
    """A part of the page under a heading, with its tables made anew."""
    named, subjects, lines, last = promised(part), [], [], {}
    for line in part.split("\n"):
        row = ROW.match(line)
        if row and not is_head(row):
            subjects = re.findall(r"`([^`]+)`", row[1]) or subjects
            last.update(dict.fromkeys(subjects, len(lines)))
            line = line.removesuffix(f"{row[4]} |") + f"{crate.linked(row[4])} |" if row[4] else line
        lines.append(line)
    for subject in filter(is_function, sorted(last, key=last.get, reverse=True)):
        contract = crate.contract(subject, named[subject])
        rows = crate.rows(subject, {clause: contract[clause] for clause in contract if clause not in named[subject]})
        lines[last[subject] + 1:last[subject] + 1] = rows
    return "\n".join(lines), [subject.split("::")[-1] for subject in named]


def made():
    """The page, with its tables made anew."""
    page, defined = read("docs/PROMISES.md"), definitions()
    start = page.index("\n## The clauses of each crate\n")
    end = page.find("\n## ", start + 1)
    parts = HEADING.split(page[start:end])
    for index in range(1, len(parts), 2):
        crate, there = Crate(parts[index], defined), []
        sections = re.split(r"^(?=#### )", parts[index + 1], flags=re.M)
        for number, section in enumerate(sections):
            sections[number], subjects = made_part(crate, section)
            there += subjects
        for name, clauses in for_users(parts[index]):
            if there.count(name) < len([*filter(None, crate.contracts[name])]):
                there.append(name)
                behind = sections[-1].rfind("|\n") + 2
                rows = "".join(f"{row}\n" for row in crate.rows(name, clauses))
                sections[-1] = sections[-1][:behind] + rows + sections[-1][behind:]
        parts[index] = f"### `{parts[index]}`"
        parts[index + 1] = "".join(sections)
    return page[:start] + "".join(parts) + page[end:]


def faults():
    """What the tables and the sources differ in."""
    page, defined = read("docs/PROMISES.md"), definitions()
    if made() != page:
        yield "docs/PROMISES.md isn't what tests/pages --tables makes of it"
    parts = HEADING.split(promises("The clauses of each crate"))
    for name, part in zip(parts[1::2], parts[2::2]):
        crate = Crate(name, defined)
        for row in filter(None, map(ROW.match, part.splitlines())):
            if not is_head(row) and not row[2]:
                yield f"docs/PROMISES.md: a row of {name} without a promise: {row[0]}"
        for tables in re.split(r"^#### ", part, flags=re.M):
            for subject, clauses in promised(tables).items():
                if not is_function(subject):
                    for clause in clauses:
                        if not re.search(rf"\bghost {clause}\b", crate.source):
                            yield f"docs/PROMISES.md: {subject} of {name} has no clause {clause}"
                elif sorted(clauses) != sorted(crate.contract(subject, clauses)):
                    yield f"docs/PROMISES.md: {subject} of {name} has {[*crate.contract(subject, clauses)]}, not {clauses}"
    for name in set(sums.product()) - {*parts[1::2]}:
        for function, _ in for_users(name):
            yield f"docs/PROMISES.md: {function} of {name} isn't there, and nothing calls it"
    for name, path in LINK.findall(page):
        if path.endswith(".antt") and path not in defined.get(name, []):
            yield f"docs/PROMISES.md: {name} isn't in {path}"


def write():
    PAGE.write_text(made(), encoding="utf-8")
