"""What test_driver is asked in each run of the gate, and the reference's answers: `stdin` and `stdout` of its crate.

Run alone, it makes both files anew.
"""

import itertools
import pathlib

import known
import reference
import vectors

CRATE = pathlib.Path(__file__).resolve().parent.parent / "crates" / "test_driver"

# Lines that ask nothing.
UNKNOWN = [
    "", "s", "q 31", "s 3", "s zz", "s 31 32 33", "b zz", "k zz", "n", "n 5", "n Int64(x)", "n Date(1)",
    "n Int64(9223372036854775808)", "n Decimal64(256,0)", "n Int64(1) Int64(2) Int64(3)",
]

# A comment or whitespace stands between these tokens, before them and after them.
TOKENS = [b"[", b"1", b",", b"{", b"a", b":", b"'b'", b",", b'"c"', b":", b"[", b"2", b"]", b"}", b"]"]
BETWEEN = [b" ", b"/*x*/", b"//x\n", b" /**/ //\r", b"/*", b"/*/", b" /**/ /*", b"//"]

# An object of one member, whose key `a` and whose value are spelled in these ways.
KEYS = [b'"a"', b' "\\u0061"', b"'a'", b" '\\u0061'", b"a", b" a", b"/*b*/a"]
COLONS = [b":", b" :", b": ", b"\t:\n", b"\\n : \\x0C", b"/**/:", b":/**/", b"//\n:"]
VALUES = [b"1", b"-5 ", b"null", b'"b"', b'"\\u0062" ', b"[]", b"[1] ", b'{"b" : {}}', b"'b'", b"+.5"]

# Numbers with exponents, and others that only some modes take.
NUMBERS = [
    b"1e5", b"1E+05", b"1.50e1", b"-1.5E-3", b"-0e5", b"0e-5", b"-0.00e1", b"1e37", b"1e38", b"1e-38", b"1e-39", b"01e5",
    b"1.e5", b".5e3", b"+1e1", b"1e", b"1e+", b"1e5x", b"0x1e5", b"0e99999999999999999999", b"1e18446744073709551616",
    b"1" * 38 + b"e0", b"1" * 39 + b"e-1", b"0." + b"0" * 43 + b"1e44", b"[1e2, -2.5e1]", b'{"a": 1e2, "b": 1e400}',
]

# Objects out of order, whose keys are alike or have escapes, with values of all kinds.
OUT_OF_ORDER = [
    b'{"c":{"z":1,"y":{"b":[],"a":{}}},"b":[{"q":0,"p":[{"2":0,"1":0}]}],"a":null}',
    b'{"b\\u0000":1,"a\\n":2,"\\u0061":3,"":4}', b'{"abcdefghz":1,"abcdefgha":2,"abcdefgh":3,"abcdefghij":4}',
    b'{"abcdefghb":1,"abcdefgh\\u0061":2}', b'{"abcdefgh\\u0062":1,"abcdefgha":2}', b'{"b":1,"\\u0061":2,"\\u0063":3}',
    b' { "b" : [ ] , "a" : { } } ', b'{b:1,\'a\':2,"\\u0061b":3}', b"{b/* b */:/* 1 */1,// a\na:[,,]}",
    b"{$c:{z_:1,y:.25},_b:[1,],'a':nUll}", b"{'abcdefgh\\u0062':1,abcdefgha:2}",
    b"[-0,0,-1,18446744073709551615,-9223372036854775808,9223372036854775807,1000000]",
    b'["\\ud83d\\ude00","\\"\\\\\\/\\b\\f\\n\\r\\t","\\u0000a","\xc3\xa9"]', b'[[[[]]],{},[{}],true,false,null,""]',
    b" // nothing", b"['\\'','\\u{0041}','\\u0000']", b"[-0.0,.5,1.50,+1,0x1F,-0.10,12345678901234567890.12345]",
    b"[99999999999999999999999999999999999999,-18446744073709551616]",
]

# Such objects that repeat keys, and texts with faults behind and inside of them.
WITH_FAULTS = [
    b'{"b":1,"a":2,"b":3}', b'{"b":{"c":1,"\\u0063":2},"b":3}', b'{"z":1,"y":2,"z":3,"y":4}',
    b'{"a":[1,2],"\\u0061":{}}', b'[{"b":1,"a":2},1..2]', b'{"b":1,"a":2', b'["a\\z"]', b'["\xff"]', b"[1] 2",
    b"[" * 513,
]

# Strings and keys of each length up to two vectors and more, closed and cut off.
AROUND = [
    (b'["', b'"]'), (b'["\\n', b'"]'), (b'["\xc3\xa9', b'"]'), (b'["', b'\\n"]'), (b"['", b'"\']'), (b'{"k":"', b'"}'),
    (b'{"', b'":1}'), (b'{"', b'\\n":1}'), (b'{"\\n', b'":""}'), (b"{", b":1}"),
]
LENGTHS = range(37)

# An object past three levels of a map, its keys in no order: each number comes once, since their count is a prime.
KEYS_OF_A_WIDE_OBJECT = 1201


def wide_object():
    numbers = [(5 + 700 * place) % KEYS_OF_A_WIDE_OBJECT for place in range(KEYS_OF_A_WIDE_OBJECT)]
    return b"{" + b",".join(b'"k%04d":%d' % (number, number) for number in numbers) + b"}"


def nested(front, part, times, end, back):
    """A value in so many arrays and objects."""
    return front + part * times + b"1" + end * times + back


def deep():
    yield nested(b"", b"[", 512, b"]", b"")
    yield nested(b"", b'{"a":', 512, b"}", b"")
    yield nested(b"", b'[{"a":', 256, b"}]", b"")
    yield nested(b"", b'{"a":[', 256, b"]}", b"")
    yield nested(b"", b"[", 513, b"]", b"")
    yield nested(b"", b'{"a":', 513, b"}", b"")
    yield nested(b"[", b'{"a":[', 256, b"]}", b"]")
    yield nested(b'{"a":', b'[{"a":', 256, b"}]", b"}")
    yield b'{"b":0,"a":' * 511 + b"{}" + b"}" * 511


def long_strings():
    part = b"abcdefg\xc3\xa9" * 600
    yield b'"' + part + b'"'
    yield b'"\\n' + part + b'\\n"'


def beginnings():
    document = b"{b:'x', a:+007}"
    return (document[:length] for length in range(len(document) + 1))


def texts_beside():
    """Tokens with each of what stands between them at each place."""
    for place, between in itertools.product(range(len(TOKENS) + 1), BETWEEN):
        yield b"".join([*TOKENS[:place], between, *TOKENS[place:]])


def members():
    return (b"{" + key + colon + value + b"}" for key, colon, value in itertools.product(KEYS, COLONS, VALUES))


def of_each_length():
    for (front, back), length in itertools.product(AROUND, LENGTHS):
        yield front + b"a" * length + back
        yield front + b"a" * length


def texts():
    """The texts that are read in each mode."""
    yield from itertools.chain(NUMBERS, OUT_OF_ORDER, WITH_FAULTS)
    yield from (text for _, text, _ in known.ROWS + known.PRINTED if len(text) <= vectors.MAX_KNOWN_BYTES)
    yield from (text for text, _ in known.WRITTEN)
    yield from itertools.chain(beginnings(), texts_beside(), members(), of_each_length())
    yield from itertools.chain(deep(), long_strings(), [wide_object()])


def pairs():
    """Each two values that are equal or beside one another in the known order, both ways round."""
    for equal, above in zip(known.UPWARDS, known.UPWARDS[1:] + [[]]):
        yield from itertools.permutations(equal, 2)
        yield from ((equal[0], higher) for higher in above)
        yield from ((higher, equal[-1]) for higher in above)


def numbers():
    """Numbers alone and in pairs, in the order of their rows; and each scale with the least and a small number."""
    for rows in (known.CASTS, known.NUMBER_TEXTS, known.OPPOSITES, known.NUMBER_KEYS):
        yield from (word for word, *_ in rows)
    for _, left, right, _ in known.ARITHMETIC:
        yield f"{left} {right}"
        yield f"{right} {left}"
    for left, right, _ in known.ORDERED_NUMBERS:
        yield f"{left} {right}"
        yield f"{right} {left}"
    for scale in range(256):
        yield f"Decimal64({scale},{-2 ** 63})"
        yield f"Decimal128({scale},7)"


def lines():
    yield from UNKNOWN
    yield from (f"n {words}" for words in numbers())
    yield from (f"k {text.hex()}" for text, _ in known.KEYS_OF_TEXTS)
    yield from (f"k {text.hex()}" for equal in known.UPWARDS for text in equal)
    yield from (f"{mode} {text.hex()}" for text in texts() for mode in "sejx")
    yield from (f"b {body.hex()}" for body, *_ in known.BODIES)
    yield from (f"e {left.hex()} {right.hex()}" for left, right in pairs())
    yield from vectors.lines_and_answers()[0]


def main():
    asked = list(dict.fromkeys(lines()))
    (CRATE / "stdin").write_text("".join(f"{line}\n" for line in asked), encoding="utf-8")
    (CRATE / "stdout").write_text("".join(f"{reference.answer(line)}\n" for line in asked), encoding="utf-8")
    print(f"{len(asked)} lines")


if __name__ == "__main__":
    main()
