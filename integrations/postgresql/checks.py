"""Checks that are counted, for test and servers: a line for each that fails, and their number at the end."""

import os
import re
import sys
import textwrap
import traceback

import cluster

part = "postgresql"
passed = 0
failed = 0


def check(name, got, want):
    """One check: what was got is what is wanted, or matches it where that is a compiled pattern."""
    global passed, failed
    if isinstance(want, re.Pattern):
        holds = want.search(got) is not None
        want = want.pattern
    else:
        holds = got == want
    if holds:
        passed += 1
    else:
        failed += 1
        print("%s: %s: got %.600r, not %.600r" % (part, name, got, want), flush=True)


def rejected(server, statement, **options):
    """What the server says against the statement."""
    try:
        return "accepted: " + server.sql(statement, **options)
    except cluster.Failed as failure:
        return str(failure)


def blocks(page):
    """The blocks of statements in a page."""
    return [textwrap.dedent(block) for block in re.findall(r"^ *```sql\n(.*?)^ *```", page, re.M | re.S)]


def examples(block, run):
    """The statements of a page's block answer what stands behind them."""
    for statement, answer in re.findall(r"((?:^(?!--).*\n)*?^(?!--).*;\n)((?:^--.*\n)*)", block, re.M):
        try:
            said = run(statement)
        except cluster.Failed as failure:
            said = str(failure)
        check("README: " + statement, said, re.sub(r"^-- ?", "", answer, flags=re.M).rstrip("\n"))


def attempt(function, argument):
    """Some checks. Where they end early this counts as one failure."""
    global failed
    try:
        function(argument)
    except (cluster.Failed, OSError, ValueError) as failure:
        failed += 1
        script = os.path.abspath(sys.argv[0])
        lines = [entry.lineno for entry in traceback.extract_tb(failure.__traceback__)
                 if os.path.abspath(entry.filename) == script]
        print("%s: %s: line %d: %s" % (part, function.__name__, lines[-1], failure), flush=True)


def finish():
    """Prints how many passed, and how many failed, and gives the script's status."""
    print("%s: %d passed" % (part, passed) + (", %d failed" % failed if failed else ""))
    return 1 if failed else 0


def run(main):
    """Runs the script's main, which gives its status."""
    global failed
    try:
        sys.exit(main())
    except cluster.Failed as failure:
        failed += 1
        print("%s: %s" % (part, failure))
        sys.exit(finish())
