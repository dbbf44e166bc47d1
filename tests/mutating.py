"""The mutants of tests/mutants, and how they are tried over the libraries of `rt ci`.

Mutants of different functions are tried by one check: whether a function is proved rests on its own text and on the
clauses of others. Where a check doesn't say of a mutant's function that its own text keeps it from being proved, the
mutant is tried once more, alone.
"""

import os
import pathlib
import re
import shutil
import subprocess
import tempfile

import programs

TOP = pathlib.Path(__file__).resolve().parent.parent
PARTS = ("src", "specs", "proofs")

# What antt says of a text that it cannot read, in which case no clause was tried.
UNREADABLE = re.compile(r"is not in scope|has no field|is no name|operand is missing|expected the end|cannot continue")


class Mutant:
    """A file of changes of a crate."""

    def __init__(self, file):
        self.file, self.crate = file, file.parent.name
        self.text = file.read_text(encoding="utf-8")
        found = re.match(r"# in: (\S+)\n", self.text)
        # The function that it has to keep from being proved, where it names one: then the gate tries it.
        self.function = found[1] if found else None

    def __str__(self):
        return str(self.file.relative_to(TOP))

    def edits(self):
        """The files, the old and the new texts."""
        path = old = None
        for line in self.text.splitlines():
            word, _, rest = line.partition(": ")
            if word == "file":
                path = rest
            elif word == "old":
                old = rest
            elif line.startswith("new:"):
                yield path, old, line[4:].removeprefix(" ")

    def place(self):
        """The one function whose body it changes, without its type; None where it changes something else."""
        if self.function:
            return without_type(self.function)
        places = {place_of(self.crate, path, old) for path, old, _ in self.edits()}
        return places.pop() if len(places) == 1 else None


def source(crate, path):
    return (TOP / "crates" / crate / path).read_text(encoding="utf-8")


def without_type(function):
    """The path of a function, with its modules and without the name of its type."""
    *modules, name = function.split("::")
    return "::".join([*(module for module in modules if not module[0].isupper()), name])


def place_of(crate, path, old):
    """The function in whose body the text stands; None where it stands elsewhere."""
    text = source(crate, path)
    at = text.find(old)
    begun = [found for found in re.finditer(r"^( *)(?:pub\S* )?(?:extern \S+ )?fn (\w+)", text[:at + len(old)], re.M)]
    if not begun or not path.startswith("src/") or re.search(rf"^{begun[-1][1]}}}$", text[begun[-1].end():at], re.M):
        return None
    module = re.sub(r"^src/|\.rt$", "", path).replace("/", "::")
    return begun[-1][2] if module in ("lib", "main") else f"{module}::{begun[-1][2]}"


def of_crate(crate):
    """The mutants of the crate."""
    return [Mutant(file) for file in sorted(TOP.glob(f"tests/mutants/{crate}/*.edit"), key=lambda file: file.name)]


def with_edits(mutants, crate):
    """The texts of the files that the mutants change, by their paths in the crate."""
    texts = {}
    for mutant in mutants:
        for path, old, new in mutant.edits():
            text = texts.get(path) or source(crate, path)
            if text.count(old) != 1:
                raise ValueError(f"a text `old:` doesn't stand once in {path}")
            texts[path] = text.replace(old, new)
    return texts


# ---- a check

def rows():
    """What stands before and behind the colon of each line of crates.txt, by the crate, each after those that it uses."""
    lines = (TOP / "crates.txt").read_text(encoding="utf-8").splitlines()
    split = [line.partition("#")[0].partition(":") for line in lines]
    return {head.split()[0]: (head, uses) for head, colon, uses in split if colon}


def crates():
    """The crates, each after those that it uses."""
    return [*rows()]


def row_of(crate):
    """What stands before and behind the colon of the crate's line of crates.txt."""
    return rows()[crate]


def below(crate):
    """The crates that the crate stands on."""
    said = subprocess.run([TOP / "packaging/crates", crate], stdout=subprocess.PIPE, check=True, text=True)
    return set(said.stdout.split()) - {crate}


def words_of(crate, jobs):
    """The words of `rattle check` for the crate over the libraries that stand in crates/*/out."""
    kit = programs.kit()
    head, uses = row_of(crate)
    under = below(crate)
    root = "src/main.rt" if (TOP / "crates" / crate / "src/main.rt").exists() else "src/lib.rt"
    words = ["--crate-name", crate, root, "--extern", f"std={kit}/rlibs/std.rlib"]
    for name in uses.split():
        place = TOP / "crates" / name / "out/rlib" if name in under else kit / "rlibs"
        words += ["--extern", f"{name}={place}/{name}.rlib"]
    for name in under:
        words += ["-L", f"dependency={TOP}/crates/{name}/out/rlib"]
    words += ["-L", f"dependency={kit}/rlibs", "--antt-project", f"{kit}/rattle/logic/antt-project.json"]
    words += ["--logic-built", f"{kit}/logic_built", "--links", f"{crate}=", "--jobs", str(jobs)]
    return [f"{kit}/bin/rattle", "check", *words, *["--crate-type", "staticlib"] * ("staticlib" in head)]


def settle(crate):
    """Has the libraries below the crate stand in crates/*/out, as `rt ci` left them or as `rt lib` builds them."""
    for name in row_of(crate)[1].split():
        rlib = TOP / "crates" / name / "out/rlib"
        if (TOP / "crates" / name).is_dir() and ((rlib / "stamp").exists() or not rlib.is_dir()):
            subprocess.run(["rt", "lib"], cwd=TOP / "crates" / name, stdout=subprocess.DEVNULL, check=True)


def checked(crate, texts, functions, kept, jobs):
    """Checks these functions of a copy of the crate, or all, with these texts in place of its own, over what kept holds."""
    with tempfile.TemporaryDirectory(prefix="mutant-") as room:
        for part in PARTS:
            if (TOP / "crates" / crate / part).is_dir():
                shutil.copytree(TOP / "crates" / crate / part, f"{room}/{part}")
        for path, text in texts.items():
            pathlib.Path(room, path).write_text(text, encoding="utf-8")
        only = [word for function in functions for word in ("--only", function)]
        return subprocess.run([*words_of(crate, jobs), *only, "--incremental", kept], cwd=room, check=False, text=True,
                              stdin=subprocess.DEVNULL, stdout=subprocess.PIPE, stderr=subprocess.STDOUT, errors="replace")


def linked(folder, to):
    """Copies what was proved by links, since a check replaces such a file, and changes none."""
    def copy(one, other):
        return os.link(one, other) if one.endswith(".oantt") else shutil.copy2(one, other)

    shutil.copytree(folder, to, copy_function=copy)


# ---- what a check says

def unreadable(ran, texts):
    """The line that says that a text can't be read, if there is one."""
    for line in ran.stdout.splitlines():
        at = re.match(r"(?:\./)?(\S+?):\d+:\d+: error: (?:`[^`]*`: )?(.*)", line)
        if at and at[1].startswith(("src/", "specs/", *texts)) and UNREADABLE.search(re.sub(r"`[^`]*`", "", at[2])):
            return line
    return None


def unproved(ran, crate):
    """The functions that their own texts keep from being proved, and what is said of each."""
    said = re.findall(rf"^fn {crate}::(\S+): ((?:not proved|no proof).*)", ran.stdout, re.M)
    return {function: why for function, why in said if not why.startswith("no proof: it calls ")}


def is_judged(ran):
    """Whether the check came to its end, where it says of the functions whether they are proved."""
    return re.search(r"^only=\d+ proved=\d+$|^logic=\w+ functions=\d+", ran.stdout, re.M) is not None or (
        ran.returncode == 1 and re.search(r"^fn \S+: ", ran.stdout, re.M) is not None)


def verdict(ran, mutant, texts):
    """Whether a mutant that was tried alone is refused, and what to say of it."""
    if ran.returncode == 0 and is_judged(ran):
        return False, "NOT REFUSED: its function is still proved"
    line = unreadable(ran, texts)
    if line:
        return False, f"CANNOT BE READ: {line[:160]}"
    found = unproved(ran, mutant.crate)
    if ran.returncode == 1 and is_judged(ran) and found:
        function, why = next(iter(found.items()))
        return True, f"refused, as it must be: {function}: {why[:120]}"
    last = ran.stdout.strip().splitlines()[-1:]
    return False, f"NOT TRIED: status {ran.returncode}: {''.join(last)[:200]}"


# ---- many mutants

def of_different_functions(mutants, crate):
    """As many of the mutants as change the bodies of different functions, and can be made together."""
    chosen, places = [], {None}
    for mutant in mutants:
        if mutant.place() in places:
            continue
        try:
            with_edits([*chosen, mutant], crate)
        except (OSError, ValueError):
            continue
        places.add(mutant.place())
        chosen.append(mutant)
    return chosen


def tried(crate, mutants, check):
    """Tries mutants of a crate by calls of check, which takes texts and functions. Yields each mutant, whether it is
    refused, and what to say of it."""
    left, alone = list(mutants), []
    while left:
        chosen = of_different_functions(left, crate)
        left = [mutant for mutant in left if mutant not in chosen]
        if len(chosen) < 2:
            alone += chosen or left
            left = left if chosen else []
            continue
        texts = with_edits(chosen, crate)
        ran = check(texts, [mutant.function for mutant in chosen])
        found = {} if unreadable(ran, texts) or ran.returncode != 1 else unproved(ran, crate)
        for mutant in chosen:
            whys = [f"{function}: {why[:120]}" for function, why in found.items()
                    if without_type(function) == mutant.place()]
            if whys:
                yield mutant, True, f"refused, as it must be: {whys[0]}"
            else:
                alone.append(mutant)
    for mutant in alone:
        try:
            texts = with_edits([mutant], crate)
            yield mutant, *verdict(check(texts, [mutant.function]), mutant, texts)
        except (OSError, ValueError) as error:
            yield mutant, False, f"CANNOT BE APPLIED: {error}"
