"""What the program test_driver prints of the calls on a text where there is ample memory, by the reference."""

import reference
from reference import EXTENDED, EXTENDED_JSON, JSON, STANDARD, Rejection, read, sort_key, string_text, written

MODES = {"s": STANDARD, "e": EXTENDED, "j": JSON, "x": EXTENDED_JSON}

# What a buffer holds that a call appends to.
FRONT = b"x"

# The lines that are the same for each text.
MESSAGES = [
    ("add", b"UInt64 overflow"), ("sub", b"UInt64 overflow"), ("mul", b"Int64 overflow"), ("rem", b"Int64 overflow"),
    ("rem_zero", b"Division by zero"), ("neg", b"Int64 overflow"), ("neg_decimal64", b"Decimal64 overflow"),
    ("neg_decimal128", b"Decimal128 overflow"), ("code_clone", b'duplicate object attribute "key", pos 7'),
    ("message_clone", b"message"), ("interval", b'"1 year 2 months -1 day 01:01:01.000001"'),
    ("interval_alone", b"1 year 2 months -1 day 01:01:01.000001"),
]


def indented(tree, width, level=0):
    """The text of a tree over lines, each level so many spaces further in."""
    if tree[0] not in ("array", "object") or not tree[1]:
        return written(tree)
    if tree[0] == "array":
        front, back = b"[", b"]"
        parts = [indented(item, width, level + 1) for item in tree[1]]
    else:
        front, back = b"{", b"}"
        parts = [string_text(name) + b": " + indented(item, width, level + 1) for _, name, _, item in tree[1]]
    line = b"\n" + b" " * (width * level)
    inner = line + b" " * width
    return front + inner + (b"," + inner).join(parts) + line + back


def names_text(tree):
    if tree[0] != "object":
        return b"no object"
    return written(("array", [("string", "owned", name) for _, name, _, _ in tree[1]]))


# The calls over the value of a text, in the order of their lines, and what each gives.
OF_VALUES = {
    "reads": lambda tree: b"",
    "value": written,
    "tree": written,
    "clone": written,
    "owned": written,
    "tree_clone": written,
    "key": lambda tree: sort_key(tree).hex().encode(),
    "indented": lambda tree: (FRONT + indented(tree, 1)).hex().encode(),
    "keys": names_text,
    "without_room": lambda tree: FRONT + written(tree),
    "with_room": written,
}


def of_values(text, mode):
    """The lines of the calls over the value. Without a value each tells why."""
    try:
        tree = read(text, mode)
    except Rejection as rejection:
        return [(name, rejection.printed()) for name in OF_VALUES]
    return [(name, call(tree)) for name, call in OF_VALUES.items()]


def body(text):
    """The text as the contents of a string."""
    try:
        return string_text(reference.Body(text, 0, STANDARD).decoded())
    except Rejection as rejection:
        return rejection.printed()


def lines_wanted(text, mode):
    """The name of each line, and what is behind that."""
    return [*of_values(text, mode), ("body", body(text)), *MESSAGES]


def differences(text, mode, printed):
    """The lines that are printed otherwise than the reference has them."""
    found, wanted = printed.split(b"\n")[:-1], lines_wanted(text, mode)
    if len(found) != len(wanted):
        return [f"{len(found)} lines, not {len(wanted)}"]
    return [f"{line[:300]!r}, not {name} {told[:300]!r}" for line, (name, told) in zip(found, wanted)
            if line != name.encode() + b" " + told]


def nested(front, inner, back, levels):
    return front * levels + inner + back * levels


def texts():
    """Scalars, and values that are wide, long and as deep as may be, by their names."""
    for text in (b"null", b"true", b'""', b"1.50", b"[]", b"{}"):
        yield text.decode(), text
    yield "a wide object", b"{" + b",".join(b'"%d":%d' % (number, number) for number in range(3000, 0, -1)) + b"}"
    yield "a long array", b"[" + b",".join(b"%d" % number for number in range(3000)) + b"]"
    yield "a long string", b'["' + b"abc\\n" * 50_000 + b'"]'
    yield "deep arrays", nested(b"[", b"1.50", b"]", 512)
    yield "deep objects in arrays", nested(b'[{"a":', b"1", b"}]", 256)
    yield "deep objects out of order", nested(b'{"b":0,"a":', b"{}", b"}", 511)
