"""Texts in tables: strings with an escape at each place, integers of each length, decimals with the point at each place,
objects out of order, texts with one byte beyond ASCII, documents with each byte replaced by each byte, and large ones."""

import itertools

# A string of letters of each length, past two vectors of 32 bytes: with an escape at each place or with none, closed or
# cut off, in either quote.
LENGTHS = range(71)
ESCAPE = b"\\n"

# Around the ends of vectors of 16 and of 32 bytes, what is written another way than it is read, and what isn't: escapes,
# units alone and in pairs, a control byte and the quotes.
NEAR = (*range(13, 18), *range(29, 34))
OTHERS = [
    b"\\\\", b'\\"', b"\\/", b"\\b", b"\\'", b"\\u0000", b"\\u001F", b"\\u{00e9}", b"\\uD83D\\uDE00", b"\\uDE00",
    b"\\uD83D\\u0041", b"\\u00", b"\\z", b"\x00", b"\x1f", b"\xc3\xa9", b'"', b"'",
]

# Each byte of these is replaced by each byte.
DOCUMENTS = [b"{b:'x', a:+007}", b"[1/*a*/,//b\n2] //c", b'"\\uD834\\u{DD1E}\\n\\\\"', b"[-1.50,0x1F,+.5,00.]"]

# The digits of integers: as many as each mode has and more, so that eight pairs at once are passed, with zeros at the
# end and without.
DIGITS = range(1, 42)

# The digits of decimals, with the point at each place: few, around those of a vector of 16 bytes and the 18 that a
# number of 64 bits has, and around the 38 that one of 128 has.
DECIMAL_DIGITS = (*range(1, 7), *range(15, 21), *range(37, 40))

# Decimals with a sign, zeros and a point at the places where the rules change, and what is nearly one.
POINTED = [
    b"0.0", b"00.5", b"0.50", b"1.0", b"1.50", b"0.05", b"0.050", b"0.00", b"00.0", b"10.010", b".5", b"1.", b".", b"0.",
    b".0", b"1.5e1", b"1.5E", b"1.5e-1", b"1..5", b"1.5.2", b"1.5x", b"0x1.8", b"1.f", b"1.5_", b"1.5+",
]

# What is behind a decimal: nothing, what ends an item or a value, whitespace, a comment, and what is wrong there.
BEHIND = (
    b"", b",", b"]", b"}", b" ", b"\t", b"\r\n", b"\\n", b"\\x0C", b"/**/", b"//", b":", b"x", b"e", b"-", b'"', b"\x00",
)

# How many members objects have: up to nine they are sorted without memory, the order of up to 63 is kept for the next
# object, and from 256 on they are sorted by the first bytes of their keys.
COUNTS = (*range(1, 12), 15, 16, 17, 62, 63, 64, 65, 255, 256, 257, 700)

# What the keys of such an object are, by their number: first bytes that all differ, or few of them, or none, also beyond
# the eight that are looked at first, and bytes of each value.
KEYS = [
    lambda i: b"%d" % i, lambda i: b"%c%d" % (97 + i % 26, i), lambda i: b"%08d" % i, lambda i: b"commonly%d" % i,
    lambda i: b"k%dcommonly%d" % (i % 3, i), lambda i: b"\\u%04x%d" % (1 + i % 97, i),
    lambda i: "".join(chr(0x20 + (i * 37 >> shift) % 0x60 + 0x80) for shift in (0, 3, 5)).encode() + b"%d" % i,
]

# How long the values of members are, so that a member ends before, at and behind the end of a vector.
SIZES = (0, 1, 7, 12, 13, 14, 15, 16, 23, 28, 29, 30, 31, 32, 45, 61, 62, 63, 64, 100)

# How large the large ones are. Where a contract allows `OutOfMemory`, a call that gives up on them meets it.
MEMBERS, ITEMS, BYTES = 10_000, 20_000, 100_000


def bodies():
    for length in LENGTHS:
        yield b"a" * length
        for before in range(length + 1):
            yield b"a" * before + ESCAPE + b"a" * (length - before)


def other_bodies():
    for length, other in itertools.product(NEAR, OTHERS):
        for before in range(length + 1):
            yield b"a" * before + other + b"a" * (length - before)


def strings():
    for body, quote in itertools.product(itertools.chain(bodies(), other_bodies()), (b'"', b"'")):
        yield quote + body
        yield quote + body + quote


def integers():
    """Integers of each length, as an item and as a member, near the end of the text and far from it."""
    for count in DIGITS:
        for zeros in {0, 1, 2, 7, 8, count - 1}:
            if zeros < count:
                digits = (b"9081726354" * 5)[:count - zeros] + b"0" * zeros
                for sign, behind in itertools.product((b"", b"-"), (b"", b" " * 40)):
                    yield b"[" + sign + digits + b"," + sign + digits + b"]" + behind
                    yield b'{"b":' + sign + digits + b',"a":' + sign + digits + b"}" + behind


def decimals():
    """Decimals of each length with the point at each place, as an item and as a member, near the end of the text and far
    from it; and such ones, and what is nearly one, with each of BEHIND after them."""
    for count in DECIMAL_DIGITS:
        mixed = (b"9081726354" * 4)[:count]
        ones = {mixed, b"0" + mixed[1:], mixed[:-1] + b"0", b"0" * (count - 1) + b"7", b"0" * count}
        for point, digits, sign, behind in itertools.product(range(count + 1), sorted(ones), (b"", b"-"), (b"", b" " * 40)):
            number = sign + digits[:point] + b"." + digits[point:]
            yield b"[" + number + b"," + number + b"]" + behind
            yield b'{"b":' + number + b',"a":' + number + b"}" + behind
    for sign, number, behind in itertools.product((b"", b"-", b"+"), POINTED, BEHIND):
        yield sign + number + behind
        yield b"[" + sign + number + behind
        yield b"[" + sign + number + behind + b",2]"
        yield b"{a:" + sign + number + behind + b',"b":"' + b"x" * 20 + b'"}'


def escapes_in_turn():
    """Strings of two escapes, or of one and a letter, so many letters apart, as values and as keys."""
    pieces = [b"\\" + letter for letter in (b"n", b"/", b"b", b'"', b"\\", b"t", b"u0041", b"u0000", b"u00e9", b"0")]
    for first, second in itertools.product(pieces, [*pieces, b"z", b"\xc3\xa9", b"\x1f"]):
        for between in (0, 1, 2, 13, 14, 15, 16, 17, 31):
            body = b"a" + first + b"a" * between + second
            yield b'["' + body + b'","' + body + b"a" * 40 + b'"]'
            yield b'{"b' + body + b'":"' + body + b'","a' + body + b'":1}'


def beyond_ascii():
    """Texts around those that are tested at once, with a letter of two bytes, or with a byte that is none, at each place."""
    for length in (*range(12, 20), *range(30, 36), *range(46, 52), *range(60, 68)):
        for before in range(length - 2):
            yield b'["' + b"a" * before + b"\xc3\xa9" + b"a" * (length - before - 2) + b'"]'
            yield b'["' + b"a" * before + b"\xff" + b"a" * (length - before - 1) + b'"]'


def objects():
    """Objects whose members are in no order, and such ones with a key twice, beside one with the same keys in another
    order and inside of one another."""
    for count, key in itertools.product(COUNTS, KEYS):
        numbers = [place * 7919 % count for place in range(count)]
        one = [b'"' + key(number) + b'":%d' % number for number in numbers]
        yield b"{" + b",".join(one) + b"}"
        yield b"[{" + b",".join(one) + b"},{" + b",".join(reversed(one)) + b'},{"z":{' + b" , ".join(one) + b'},"y":1}]'
        for place in {0, count // 2, count - 1}:
            yield b"{" + b",".join([*one, one[place]]) + b"}"
            yield b"[{" + b",".join([one[place], *one]) + b"}]"
    for size, count in itertools.product(SIZES, (2, 3, 9, 10)):
        yield b"{" + b",".join(b'"%d":"%s"' % (count - place, b"x" * size) for place in range(count)) + b"}"
        yield b"{" + b",".join(b'"%d":"%s\\/"' % (count - place, b"x" * size) for place in range(count)) + b"}"


def replaced(document):
    for place, byte in itertools.product(range(len(document)), range(256)):
        yield document[:place] + bytes((byte,)) + document[place + 1:]


def members(count):
    """An object whose members are in no order: each number comes once, since the factor is a prime."""
    numbers = (place * 7919 % count for place in range(count))
    return b"{" + b",".join(b'"%d":%d' % (number, number) for number in numbers) + b"}"


def large_body():
    return b"ab\\n\xc3\xa9" * (BYTES // 6)


def large():
    yield members(MEMBERS)
    yield b'{"a":' + members(MEMBERS) + b',"\\u0062":[' + members(MEMBERS)[:-1] + b',"0":1}]}'
    yield b"[" + b",".join(b"%d" % number for number in range(ITEMS)) + b"]"
    yield b"[" + b",".join(b'{"b":[%d],"a":"x"}' % number for number in range(ITEMS // 10)) + b"]"
    yield b'["' + large_body() + b'",{"' + large_body() + b'":"' + b"a" * BYTES + b'"}]'


def texts():
    return itertools.chain(strings(), integers(), decimals(), escapes_in_turn(), beyond_ascii(), objects(),
                           *map(replaced, DOCUMENTS), large())


def other_lines():
    """Lines for `test_driver` beside those of the texts: sort keys of large texts, and the contents of a large string."""
    yield from (f"k {text.hex()}" for text in large())
    yield f"b {large_body().hex()}"
