#!/usr/bin/env python3
"""Prints the table of the benchmark: table.py NAME=MEASURES.. , a file of the harness's lines for each library."""
import sys

# The columns, with the names of the harness.
OPERATIONS = {
    "read": "read", "reject": "reject", "extended": "extended", "read_ast": "read_ast", "write": "write",
    "read_write": "read_write", "straight_text": "text", "straight_key": "key", "straight_extended": "ext. text",
    "lines": "lines", "check": "check", "part": "part", "sorted": "sorted",
    "sort_key": "sort_key", "json": "json", "compare": "compare", "clone": "clone"}


def per_byte(figure, size):
    # A difference of two times may fall below nothing where the operation costs next to nothing.
    return "-" if figure == "-" else "%.2f" % max(0.0, float(figure) / size)


def rows(path):
    """The measures of each document, by operation: the size, nanoseconds (bytes, for peak) and instructions."""
    documents = {}
    with open(path) as file:
        for line in file:
            document, operation, size, ns, instructions = line.split()
            documents.setdefault(document.rsplit(".", 1)[0], {})[operation] = (int(size), ns, instructions)
    for measures in documents.values():
        if "read" in measures and "write" in measures:
            (size, *read), (_, *write) = measures["read"], measures["write"]
            measures["read_write"] = (size, *(total(pair) for pair in zip(read, write)))
    return documents


def total(figures):
    return "-" if "-" in figures else str(sum(map(float, figures)))


def main():
    libraries = [(name, rows(path)) for name, path in (arg.split("=", 1) for arg in sys.argv[1:])]
    print("Nanoseconds a byte, and instructions a byte (ins), of one operation over all documents of a file.")
    print("The peak is the bytes of heap, for a byte of text, that live at most while a document is read.")
    print("%-13s %8s  %-10s" % ("document", "bytes", "library")
          + "".join("%11s %7s" % (it, "ins") for it in OPERATIONS.values()) + "   peak")
    for document in dict.fromkeys(document for _, documents in libraries for document in documents):
        for name, documents in libraries:
            if document not in documents:
                continue
            measures = documents[document]
            size = next(iter(measures.values()))[0]
            figures = [measures.get(it, (size, "-", "-")) for it in OPERATIONS]
            peak = measures["peak"][1] if "peak" in measures else "-"
            print("%-13s %8d  %-10s" % (document, size, name) + "".join(
                "%11s %7s" % (per_byte(ns, size), per_byte(instructions, size)) for _, ns, instructions in figures)
                + "%7s" % per_byte(peak, size))


main()
