"""The programs of the repository, built where they are missing or older than a source."""

import pathlib
import subprocess
import sys

TOP = pathlib.Path(__file__).resolve().parent.parent
CRATES = TOP / "crates"


def kit():
    """The folder of the kit."""
    page = subprocess.run(["rt", "doc"], capture_output=True, check=True, text=True).stdout.strip()
    return pathlib.Path(page).parent


def path(name):
    return CRATES / name / "out" / name


def with_crates_below(name):
    """The crate and those of the repository that it stands on, by crates.txt."""
    lines = (TOP / "crates.txt").read_text(encoding="utf-8").splitlines()
    below = {head.split()[0]: words.split() for head, _, words in (line.partition(":") for line in lines) if words}
    found = [name]
    for crate in found:
        found += [other for other in below[crate] if other in below and other not in found]
    return found


def newest_source(name):
    files = [TOP / "crates.txt"]
    for crate in with_crates_below(name):
        for file in (CRATES / crate).rglob("*"):
            if file.suffix in (".rt", ".antt") and "out" not in file.parts:
                files.append(file)
    return max(file.stat().st_mtime for file in files)


def build(name):
    """Builds the program. The check that proves its crate builds it."""
    program = path(name)
    if program.exists() and program.stat().st_mtime >= newest_source(name):
        return
    program.unlink(missing_ok=True)
    print(f"building {name}, which can take minutes", file=sys.stderr, flush=True)
    prove = [TOP / "packaging" / "prove", name]
    log = subprocess.run(prove, stdin=subprocess.DEVNULL, capture_output=True, check=False)
    if not program.exists():
        sys.stderr.buffer.write(log.stdout + log.stderr)
        sys.exit(f"{name} could not be built")


def build_over_library(name):
    """Builds the program tests/NAME.c over the library for C, into build/NAME."""
    subprocess.run(["make", "-s"], cwd=TOP, check=True)
    subprocess.run(["cc", "-O2", "-std=c99", "-Wall", "-Wextra", "-Werror", "-pedantic", "-Iinclude",
                    "-o", f"build/{name}", f"tests/{name}.c", "build/libvizhoniku.a"], cwd=TOP, check=True)
