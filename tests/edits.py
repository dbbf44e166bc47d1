"""Changes of the reference's trees: parts set and removed, members and items added, two values merged, names, nulls and
the zeros that end decimals left out; and what is stored: documents, which are sort keys with these zeros behind them, and
tables of members (docs/SORT_KEYS.md)."""

from reference import EXTENDED, number_text, read, sort_key, text_key

REMOVE = object()

# A member that is to be inserted is there already.
PRESENT = object()

# How many members an object with a table has, and how many bytes its key; and the byte in which a table ends.
LEAST_MEMBERS, LEAST_KEY, MOST_KEY = 4, 256, 65535
MARK = b"\xfe"

# What values are made of.
NUMBERS = ["0", "0.0", "1", "1.0", "1.50", "2.25", "-3.000", "100", "1200.00", "0.010", "-0.5", "12345.67890", "7"]
TEXTS = ["", "x", "1.50", "a\\u0000b", "\\u00e9"]
NAMES = ["a", "b", "c", "aa", "", "-1", "0", "a\\u0000", "\\u00e9"]


def index_of(step):
    """The index that a step is, or None: decimal digits without leading zeros, and a minus sign before the one that
    counts from the end."""
    digits = step[1:] if step[:1] == b"-" else step
    if not digits or digits.strip(b"0123456789") or (len(digits) > 1 and digits[:1] == b"0"):
        return None
    number = int(digits)
    if step[:1] != b"-":
        return number if number < 2 ** 64 else None
    return -number if 0 < number < 2 ** 64 else None


def slot_of(tree, step):
    """Where a step leads in an object or an array: the index of the part, or None where there is none, and the index at
    which an item is put then. None where the step is no index of an array, and in a scalar."""
    if tree[0] == "object":
        return next((i for i, member in enumerate(tree[1]) if member[1] == step), None), None
    index = index_of(step) if tree[0] == "array" else None
    if index is None:
        return None
    at = index + (len(tree[1]) if index < 0 else 0)
    return (at, at) if 0 <= at < len(tree[1]) else (None, 0 if at < 0 else len(tree[1]))


def part_in(tree, at):
    """The item, or the value of the member, at the index."""
    return tree[1][at] if tree[0] == "array" else tree[1][at][3]


def with_part(tree, at, new):
    """The tree with another item or value at the index, or without it where `new` is REMOVE."""
    parts = list(tree[1])
    if new is REMOVE:
        del parts[at]
    else:
        parts[at] = new if tree[0] == "array" else (*parts[at][:3], new)
    return (tree[0], parts)


def with_new(tree, step, at, new):
    """The object with a member more, of that name, or the array with an item more, at the index."""
    if tree[0] == "array":
        return ("array", [*tree[1][:at], new, *tree[1][at:]])
    return ("object", sorted([*tree[1], ("owned", step, 0, new)], key=lambda member: member[1]))


def changed(tree, path, new, create):
    """The tree with another part at the path, or without it where `new` is REMOVE; None where nothing changes."""
    slot = slot_of(tree, path[0]) if path else None
    if slot is None:
        return None
    (at, put_at), (step, *rest) = slot, path
    if at is None:
        return None if rest or new is REMOVE or not create else with_new(tree, step, put_at, new)
    if rest:
        new = changed(part_in(tree, at), rest, new, create)
        if new is None:
            return None
    return with_part(tree, at, new)


def inserted(tree, path, new, after):
    """The tree with a part inserted at the path, as jsonb_insert of PostgreSQL has it: before the item that the path
    leads to, or behind it, or as the member of its last name. PRESENT where that member is there, and None where the
    path leads nowhere."""
    slot = slot_of(tree, path[0]) if path else None
    if slot is None:
        return None
    (at, put_at), (step, *rest) = slot, path
    if rest:
        inner = None if at is None else inserted(part_in(tree, at), rest, new, after)
        return inner if inner is None or inner is PRESENT else with_part(tree, at, inner)
    if at is None:
        return with_new(tree, step, put_at, new)
    return PRESENT if tree[0] == "object" else with_new(tree, step, at + after, new)


def merged(left, right):
    if left[0] == right[0] == "object":
        members = {member[1]: member for member in (*left[1], *right[1])}
        return ("object", [members[name] for name in sorted(members)])
    return ("array", [item for tree in (left, right) for item in (tree[1] if tree[0] == "array" else [tree])])


def named(tree):
    """The names of an object's members, or the strings of an array."""
    if tree[0] == "object":
        return [member[1] for member in tree[1]]
    return [item[2] for item in tree[1] if item[0] == "string"] if tree[0] == "array" else []


def names_of(tree, chance):
    """An object to leave out by: some of what the tree has as names or strings, and others."""
    odd = [b"", b"a", b"aa", b"x", b"zz", b"a\0", "\u00e9".encode()]
    picked = {name for name in named(tree) if chance.random() < 0.5} | set(chance.sample(odd, chance.randrange(3)))
    return ("object", [("owned", name, 0, ("null",)) for name in sorted(picked)])


def without_names(tree, names):
    """The tree without the members, or the strings among the items, that the object names; None where nothing goes."""
    if names[0] != "object" or tree[0] not in ("array", "object"):
        return None
    gone = set(named(names))
    if tree[0] == "object":
        stay = [member for member in tree[1] if member[1] not in gone]
    else:
        stay = [item for item in tree[1] if item[0] != "string" or item[2] not in gone]
    return (tree[0], stay) if len(stay) < len(tree[1]) else None


def without_nulls(tree, in_arrays):
    """The tree without its members that are null, and without its items that are if `in_arrays`."""
    if tree[0] == "object":
        return ("object", [(*member[:3], without_nulls(member[3], in_arrays)) for member in tree[1]
                           if member[3] != ("null",)])
    if tree[0] == "array":
        return ("array", [without_nulls(item, in_arrays) for item in tree[1]
                          if not in_arrays or item != ("null",)])
    return tree


def fewest(tree):
    """The tree whose decimals don't end in zeros."""
    kind = tree[0]
    if kind == "number":
        scale, whole = tree[2:]
        while scale and whole % 10 == 0:
            scale, whole = scale - 1, whole // 10
        return ("number", tree[1], scale, whole)
    if kind == "array":
        return ("array", [fewest(item) for item in tree[1]])
    if kind == "object":
        return ("object", [(*member[:3], fewest(member[3])) for member in tree[1]])
    return tree


def depth(tree):
    """How many arrays and objects are in one another."""
    deepest, left = 0, [(tree, 0)]
    while left:
        tree, level = left.pop()
        if tree[0] in ("array", "object"):
            deepest = max(deepest, level + 1)
            left += [(part if tree[0] == "array" else part[3], level + 1) for part in tree[1]]
    return deepest


def pointer(path):
    """The path as a JSON Pointer."""
    return b"".join(b"/" + step.replace(b"~", b"~0").replace(b"/", b"~1") for step in path)


def paths(tree, chance):
    """Paths: of parts, and to where none is."""
    yield []
    path = []
    for _ in range(chance.randrange(1, 6)):
        if tree[0] == "object":
            names = [member[1] for member in tree[1]]
            odd = [b"", b"a", b"zz", b"\0", b"a\0", "\u00e9".encode(), b"~/", b"0", b"-1"]
            odd += [name[:-1] if name.isascii() else b"x" for name in names] + [name + b"\0" for name in names]
            step = chance.choice(names if names and chance.random() < 0.6 else odd)
            inner = next((member[3] for member in tree[1] if member[1] == step), None)
        elif tree[0] == "array":
            size = len(tree[1])
            odd = [b"", b"-", b"-0", b"01", b"+1", b" 1", b"1.0", b"x", b"%d" % 2 ** 64, b"-%d" % 2 ** 64, b"--1"]
            near = [b"%d" % index for index in (*range(-size - 2, size + 2), 2 ** 64 - 1, 1 - 2 ** 64, 2 ** 31)]
            step = chance.choice(odd if chance.random() < 0.15 else near)
            index = index_of(step)
            at = None if index is None else index + (size if index < 0 else 0)
            inner = tree[1][at] if at is not None and 0 <= at < size else None
        else:
            step, inner = chance.choice([b"a", b"0"]), None
        path = path + [step]
        yield path
        if inner is None:
            yield path + [b"0"]
            return
        tree = inner


def part_at(tree, path):
    """The part at the path, whose indices count from the front; None where there is none."""
    for step in path:
        if tree[0] == "object":
            tree = next((member[3] for member in tree[1] if member[1] == step), None)
        elif tree[0] == "array":
            index = index_of(step)
            tree = tree[1][index] if index is not None and 0 <= index < len(tree[1]) else None
        else:
            tree = None
        if tree is None:
            return None
    return tree


def counts_of(tree):
    """For each byte of the key the zeros that end the number that begins there."""
    counts = []
    add_counts(tree, counts)
    return counts


def add_counts(tree, counts):
    """Adds those of the tree's key."""
    kind = tree[0]
    if kind == "array":
        counts.append(0)
        for item in tree[1]:
            add_counts(item, counts)
        counts.append(0)
    elif kind == "object":
        counts.append(0)
        for _, name, _, item in tree[1]:
            counts += [0] * len(text_key(name))
            add_counts(item, counts)
        counts += [0, 0]
    else:
        text = number_text(tree[2], tree[3]) if kind == "number" else b""
        zeros = len(text) - len(text.rstrip(b"0")) if b"." in text else 0
        counts += [zeros] + [0] * (len(sort_key(tree)) - 1)


def sevens(number):
    """The number as LEB128."""
    row = []
    while number >= 128:
        row.append(128 + number % 128)
        number //= 128
    return bytes(row + [number])


def document_of(tree):
    zeros, plain = b"", 0
    for count in counts_of(tree):
        if count:
            zeros += sevens(plain) + bytes([count])
        plain = 0 if count else plain + 1
    return sort_key(tree) + zeros + (sevens(len(zeros))[::-1] + b"\xff" if zeros else b"")


def has_table(tree, key):
    return tree[0] == "object" and len(tree[1]) >= LEAST_MEMBERS and LEAST_KEY <= len(key) <= MOST_KEY


def ranges_of(tree):
    """Of each member of an object its name, and where in the key its name begins, its value, and what is behind it."""
    at = 1
    for _, name, _, item in tree[1]:
        inner = at + len(text_key(name))
        end = inner + len(sort_key(item))
        yield name, at, inner, end
        at = end


def table_of(tree):
    begins = [at for _, at, _, _ in ranges_of(tree)]
    return b"".join(number.to_bytes(2, "big") for number in [*begins, len(begins)]) + MARK


def value_text(chance, depth):
    """A text with decimals that end in zeros, nested no deeper than this."""
    kind = chance.randrange(8 if depth else 5)
    if kind < 3:
        return chance.choice(NUMBERS)
    if kind == 3:
        return '"' + chance.choice(TEXTS) + '"'
    if kind == 4:
        return chance.choice(["null", "true", "false"])
    inner = [value_text(chance, depth - 1) for _ in range(chance.randrange(5))]
    if kind == 5:
        return "[" + ",".join(inner) + "]"
    names = chance.sample(NAMES, len(inner))
    return "{" + ",".join(f'"{name}":{item}' for name, item in zip(names, inner)) + "}"


def value(chance, depth):
    return read(value_text(chance, depth).encode(), EXTENDED)
