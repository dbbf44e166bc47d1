"""The reference implementation: JSON texts in four grammars, to compare the parsers with.

It is written from RFC 8259, for JSON, and from the rules in docs/GRAMMAR.md, docs/VALUES.md and docs/SORT_KEYS.md, and
not from the code of the crates; what is written of numbers with exponents, and the path of an error, by the comments of include/vizhoniku.h. It
is to be plain, not fast. Run alone, it takes lines from standard input and prints results as the program
`test_driver` does.

A tree is a tuple whose first part is its kind:

    ("null",)   ("bool", truth)   ("number", variant, scale, whole)   ("string", mark, bytes)
    ("array", items)   ("object", members), each member (mark, key, index, tree), in the order of the keys

The mark of a string is "plain" where it has no backslash in the text, else "escaped". The index of a member is the
offset after its key.
"""

import math
import re
import sys

STANDARD = "standard"
EXTENDED = "extended"
JSON = "JSON"
EXTENDED_JSON = "extended JSON"

MAX_DEPTH = 512
MAX_PRECISION = 38
DIGITS_UNTIL_A_POINT_ENDS = 76

DIGITS = b"0123456789"
HEX_DIGITS = b"0123456789abcdefABCDEF"
SIMPLE_ESCAPES = {
    0x5C: b"\\", 0x22: b'"', 0x2F: b"/", 0x62: b"\x08", 0x66: b"\x0C", 0x6E: b"\n", 0x72: b"\r", 0x74: b"\t",
}
JSON_WHITESPACE = b" \t\n\r"
WHITESPACE_BYTES = JSON_WHITESPACE + b"\x0C"
WRITTEN_WHITESPACE = (b"\\n", b"\\r", b"\\t", b"\\x0C")

CODE_TEXTS = {
    "InvalidEOF": b"EOF while parsing a value",
    "InvalidNumberValue": b"invalid number",
    "InvalidStringValue": b"invalid string",
    "ExpectedSomeIdent": b"expected ident",
    "ExpectedSomeValue": b"expected value",
    "ExpectedColon": b"expected `:`",
    "ExpectedArrayCommaOrEnd": b"expected `,` or `]`",
    "ExpectedObjectCommaOrEnd": b"expected `,` or `}`",
    "UnexpectedTrailingCharacters": b"trailing characters",
    "ControlCharacterWhileParsingString": b"control character (\\u0000-\\u001F) found while parsing a string",
    "InvalidEscaped": b"invalid escaped '%X'",
    "InvalidHex": b"invalid hex '%X'",
    "UnexpectedEndOfHexEscape": b"unexpected end of hex escape",
    "ObjectDuplicateKey": b'duplicate object attribute "%b"',
    "ObjectKeyInvalidNumber": b"object attribute name cannot be a number",
    "ObjectKeyInvalidCharacter": b"object attribute name cannot be invalid character",
    "NumberNotCarried": b"number not carried",
    "DepthLimitExceeded": b"depth limit exceeded",
}

# The codes that are said in other words to those who don't know the parser.
REASON_TEXTS = {
    "ExpectedSomeIdent": b"expected a name in quotes, or `true`, `false` or `null`",
    "InvalidEscaped": b"invalid escape: %b after a backslash",
    "InvalidHex": b"invalid escape: %b is no hexadecimal digit",
    "ObjectKeyInvalidCharacter": b"expected the name of a member",
}

# Arrays in arrays are read, compared and written by calls in calls.
sys.setrecursionlimit(20000)


class Rejection(Exception):
    """Why a text is rejected: a code, its argument (a byte or a key) or None, and an offset."""

    def __init__(self, code, position, argument=None):
        super().__init__(code, position, argument)
        self.code = code
        self.position = position
        self.argument = argument

    def printed(self):
        return self.said(CODE_TEXTS[self.code], self.argument) + b", pos %d" % self.position

    def reason(self):
        """What is wrong for those who don't know the parser."""
        if self.code not in REASON_TEXTS:
            return self.said(CODE_TEXTS[self.code], self.argument)
        byte = self.argument
        shown = byte is not None and (b"`%c`" if 0x20 <= byte <= 0x7E else b"byte %X") % byte
        return self.said(REASON_TEXTS[self.code], shown or None)

    @staticmethod
    def said(text, argument):
        return text if argument is None else text % argument


def is_utf8(data):
    try:
        data.decode("utf-8")
    except UnicodeDecodeError:
        return False
    return True


class Unit:
    """Four hexadecimal digits of an escape."""

    def __init__(self, digits):
        self.digits = digits
        self.value = int(digits, 16)
        self.is_high = 0xD800 <= self.value <= 0xDBFF
        self.is_low = 0xDC00 <= self.value <= 0xDFFF

    def kept(self):
        return b"\\u" + self.digits


class Body:
    """Decodes what stands between quotes. `idx` counts what has been gone past, from a given start."""

    def __init__(self, data, idx, mode):
        self.data = data
        self.at = 0
        self.idx = idx
        self.mode = mode

    def reject(self, code, argument=None):
        raise Rejection(code, self.idx, argument)

    def go(self, count):
        self.at += count
        self.idx += count

    def decoded(self):
        out = bytearray()
        while self.at < len(self.data):
            byte = self.data[self.at]
            self.go(1)
            if byte == 0x5C:
                out += self.escape()
            elif byte < 0x20 and self.mode == JSON:
                self.reject("ControlCharacterWhileParsingString")
            else:
                out.append(byte)
        if not is_utf8(out):
            self.reject("InvalidStringValue")
        return bytes(out)

    def escape(self):
        """The meaning of an escape whose backslash was passed."""
        if self.at == len(self.data):
            self.reject("UnexpectedEndOfHexEscape")
        letter = self.data[self.at]
        self.go(1)
        if letter in SIMPLE_ESCAPES:
            return SIMPLE_ESCAPES[letter]
        if letter == 0x27 and self.mode in (EXTENDED, EXTENDED_JSON):
            return b"'"
        if letter != 0x75:
            self.reject("InvalidEscaped", letter)
        return self.units(self.unit())

    def units(self, first):
        """The meaning of a unit, with the one right after it where the first is a high one."""
        if first.is_low:
            return first.kept()
        if not first.is_high:
            return chr(first.value).encode("utf-8")
        if self.data[self.at:self.at + 2] != b"\\u":
            return first.kept()
        self.go(2)
        second = self.unit()
        if not second.is_low:
            return first.kept() + second.kept()
        return chr(0x10000 + (first.value - 0xD800) * 0x400 + (second.value - 0xDC00)).encode("utf-8")

    def unit(self):
        """The unit whose backslash and letter were passed."""
        rest = self.data[self.at:self.at + 6]
        if rest[:1] == b"{" and self.mode != JSON:
            if len(rest) < 6 or rest[5:6] != b"}":
                self.reject("UnexpectedEndOfHexEscape")
            digits = rest[1:5]
            self.go(6)
        else:
            digits = rest[:4]
            if len(digits) < 4:
                self.reject("UnexpectedEndOfHexEscape")
            self.go(4)
        for byte in digits:
            if byte not in HEX_DIGITS:
                self.reject("InvalidHex", byte)
        return Unit(digits)


class Reader:
    """Reads a text from the left; `at` is where it stands."""

    def __init__(self, data, mode):
        self.data = data
        self.end = len(data)
        self.mode = mode
        # Whether it has comments, single quotes, unquoted keys, elided elements and words in either case; and whether
        # numbers have their exact value, exponents counted.
        self.extended = mode in (EXTENDED, EXTENDED_JSON)
        self.exact = mode in (JSON, EXTENDED_JSON)
        self.at = 0
        self.depth = 0
        # Of each array and object that is open, the index of its item or the key of its member that is read or due;
        # None where no key has been read.
        self.steps = []
        # Whether the reader stands behind an item or a member, before the comma, and whether it met a comment that has
        # no end.
        self.is_behind = self.is_cut = False

    # The byte at which the reader stands as bytes of length 1, and none at the end.
    def here(self):
        return self.data[self.at:self.at + 1]

    def is_here(self, choices):
        return self.at < self.end and self.data[self.at] in choices

    def reject_end(self):
        raise Rejection("InvalidEOF", self.end)

    def document(self):
        self.whitespace()
        if self.at == self.end and self.extended:
            return ("null",)
        tree = self.value()
        self.whitespace()
        if self.at < self.end:
            raise Rejection("UnexpectedTrailingCharacters", self.at + 1)
        return tree

    # Whitespace and comments.

    def whitespace(self):
        while self.is_here(b" \t\n\x0C\r\\/") and self.whitespace_piece():
            pass

    def whitespace_piece(self):
        if self.is_here(JSON_WHITESPACE if self.mode == JSON else WHITESPACE_BYTES):
            self.at += 1
            return True
        if self.mode == JSON:
            return False
        for written in WRITTEN_WHITESPACE:
            if self.data.startswith(written, self.at):
                self.at += len(written)
                return True
        return self.extended and (self.block_comment() or self.line_comment())

    def block_comment(self):
        if not self.data.startswith(b"/*", self.at):
            return False
        close = self.data.find(b"*/", self.at + 2)
        if close < 0:
            self.is_cut = True
            self.reject_end()
        self.at = close + 2
        return True

    # A line that the text's end cuts is passed to that end. In an array or an object the end is then rejected.
    def line_comment(self):
        if not self.data.startswith(b"//", self.at):
            return False
        self.at += 2
        while self.at < self.end and self.data[self.at] not in b"\n\r":
            self.at += 1
        self.is_cut = self.at == self.end
        if self.at < self.end:
            self.at += 1
        return True

    # Values.

    def value(self):
        first = self.here()
        if first == b"":
            self.reject_end()
        if first == b"[":
            return self.array()
        if first == b"{":
            return self.object()
        if first == b'"' or (self.extended and first == b"'"):
            mark, text = self.quoted()
            return ("string", mark, text)
        if first in (b"n", b"t", b"f"):
            return self.literal(first)
        if first in b"0123456789-":
            return self.extended_number() if self.extended else self.standard_number()
        if self.extended:
            if first in (b"N", b"T", b"F"):
                return self.literal(first)
            if first in b"+.":
                return self.extended_number()
            if first in b"iI":
                self.word(b"infinity")
                raise Rejection("NumberNotCarried", self.at)
        raise Rejection("ExpectedSomeValue", self.at + 1)

    def literal(self, first):
        kind = first.lower()
        if kind == b"t":
            self.word(b"true")
            return ("bool", True)
        if kind == b"f":
            self.word(b"false")
            return ("bool", False)
        start = self.at
        try:
            self.word(b"null")
        except Rejection:
            if not self.extended:
                raise
            self.at = start
            self.word(b"nan")
            raise Rejection("NumberNotCarried", self.at) from None
        return ("null",)

    def word(self, letters):
        for letter in letters:
            if self.at == self.end:
                self.reject_end()
            byte = self.here().lower() if self.extended else self.here()
            if byte != bytes((letter,)):
                raise Rejection("ExpectedSomeIdent", self.at + 1)
            self.at += 1

    # Numbers.

    def run(self, digits):
        """The longest run of these digits."""
        start = self.at
        while self.is_here(digits):
            self.at += 1
        return self.data[start:self.at]

    def reject_number(self, step=0):
        raise Rejection("InvalidNumberValue", self.at + step)

    def exponent(self):
        """The sign and the digits of the exponent here, which is passed; None where there is none."""
        if not self.is_here(b"eE"):
            return None
        self.at += 1
        sign = self.here() if self.is_here(b"+-") else b""
        self.at += len(sign)
        digits = self.run(DIGITS)
        if not digits:
            self.reject_number()
        return sign, digits

    def exact_number(self, negative, whole, fraction, exponent):
        """The number of these digits, whose point the exponent moves."""
        sign, digits = exponent or (b"", b"0")
        digits = digits.lstrip(b"0") or b"0"
        # Python reads no number of thousands of digits, and this one is past all bounds.
        moved = int(digits) if len(digits) < 40 else 10 ** 40
        moved = -moved if sign == b"-" else moved
        significant = (whole + fraction).lstrip(b"0")
        scale, zeros = max(0, len(fraction) - moved), max(0, moved - len(fraction)) if significant else 0
        if scale > MAX_PRECISION or len(significant) + zeros > MAX_PRECISION:
            raise Rejection("NumberNotCarried", self.at)
        number = int(significant + b"0" * zeros or b"0")
        return ("number", *first_variant(-number if negative else number, scale))

    def standard_number(self):
        negative = self.here() == b"-"
        if negative:
            self.at += 1
        if self.here() == b"0":
            whole = self.here()
            self.at += 1
            if self.is_here(DIGITS):
                self.reject_number(1)
        else:
            whole = self.run(DIGITS)
            if not whole:
                self.reject_number()
        fraction = b""
        if self.here() == b".":
            self.at += 1
            fraction = self.run(DIGITS)
            if not fraction:
                self.reject_number(1)
        exponent = self.exponent()
        if self.exact:
            return self.exact_number(negative, whole, fraction, exponent)
        # No number of 64 bits has more digits than 20.
        if not (fraction or exponent) and len(whole) <= 20:
            number = int(whole)
            if negative and number <= 2 ** 63:
                return ("number", "Int64", 0, -number)
            if not negative and number < 2 ** 64:
                return ("number", "UInt64", 0, number)
        raise Rejection("NumberNotCarried", self.at)

    def extended_number(self):
        sign = b""
        if self.is_here(b"+-"):
            sign = self.here()
            self.at += 1
            if self.is_here(b"nNiI"):
                self.word(b"nan" if self.is_here(b"nN") else b"infinity")
                word = self.data[self.at - 3:self.at].lower()
                if sign == b"-" and word == b"nan":
                    self.reject_number()
                raise Rejection("NumberNotCarried", self.at)
        if self.data[self.at:self.at + 2].lower() == b"0x":
            return self.hexadecimal(sign == b"-")
        return self.decimal(sign == b"-")

    def hexadecimal(self, negative):
        self.at += 2
        digits = self.run(HEX_DIGITS)
        if not digits:
            self.reject_number()
        number = int(digits, 16)
        if self.here() == b".":
            self.at += 1
            fraction = self.run(HEX_DIGITS)
            if not fraction:
                self.reject_number()
            if number >= 2 ** 128 or int(fraction, 16) >= 2 ** 128:
                self.reject_number()
            raise Rejection("NumberNotCarried", self.at)
        if number >= 2 ** 128:
            self.reject_number()
        if negative and number <= 2 ** 63:
            return ("number", "Int64", 0, -number)
        if not negative and number < 2 ** 64:
            return ("number", "UInt64", 0, number)
        if number < 10 ** 38:
            return ("number", "Decimal128", 0, -number if negative else number)
        raise Rejection("NumberNotCarried", self.at)

    def decimal(self, negative):
        zeros = self.run(b"0")
        whole = self.run(DIGITS)
        fraction = b""
        if self.here() == b".":
            self.at += 1
            fraction = self.run(DIGITS)
            if not (zeros or whole or fraction):
                self.reject_number()
            if self.here() == b".":
                if len(whole) + len(fraction) < DIGITS_UNTIL_A_POINT_ENDS:
                    self.reject_number()
                raise Rejection("NumberNotCarried", self.at)
        if not (zeros or whole or fraction):
            self.reject_number()
        exponent = self.exponent()
        if self.exact:
            return self.exact_number(negative, whole, fraction, exponent)
        precision = len(whole) + len(fraction)
        if exponent or precision > MAX_PRECISION:
            raise Rejection("NumberNotCarried", self.at)
        number = int(whole + fraction or b"0")
        if negative:
            number = -number
        return ("number", *representable(number, len(fraction), precision))

    # Strings and keys.

    def quoted(self):
        """The mark and the text of the quoted string here."""
        start = self.at + 1
        self.at = self.closing_quote()
        body = self.data[start:self.at]
        self.at += 1
        if b"\\" in body:
            return ("escaped", Body(body, start + 1, self.mode).decoded())
        if self.mode == JSON:
            return ("plain", Body(body, start + 1, self.mode).decoded())
        if not is_utf8(body):
            raise Rejection("InvalidStringValue", self.at)
        return ("plain", body)

    def closing_quote(self):
        """The index of the quote that ends the string here. Escapes are stepped over, and not looked at."""
        quote = self.data[self.at]
        at = self.at + 1
        while at < self.end:
            byte = self.data[at]
            if byte == quote:
                return at
            at += 1
            if byte != 0x5C:
                continue
            if at >= self.end:
                break
            letter = self.data[at]
            at += 1
            if letter == 0x75:
                if at >= self.end:
                    break
                at += 6 if self.data[at] == 0x7B else 4
        raise Rejection("InvalidEOF", at)

    def key(self):
        first = self.here()
        if first == b"":
            self.reject_end()
        if first == b'"' or (self.extended and first == b"'"):
            return self.quoted()
        if not self.extended:
            raise Rejection("ExpectedSomeIdent", self.at + 1)
        return ("plain", self.unquoted_key())

    def unquoted_key(self):
        start = self.at
        if self.is_here(DIGITS):
            raise Rejection("ObjectKeyInvalidNumber", self.at + 1)
        while True:
            if self.at >= self.end:
                if is_utf8(self.data[start:]):
                    self.steps[-1] = self.data[start:]
                raise Rejection("InvalidEOF", self.at)
            byte = self.data[self.at]
            if byte < 0x80:
                if not (chr(byte).isalnum() or byte in b"_$"):
                    break
                self.at += 1
            elif byte < 0xC0:
                raise Rejection("ObjectKeyInvalidCharacter", self.at)
            else:
                self.at += 2 if byte < 0xE0 else 3 if byte < 0xF0 else 4
        if self.at == start:
            raise Rejection("ObjectKeyInvalidCharacter", start)
        key = self.data[start:self.at]
        if not is_utf8(key):
            raise Rejection("InvalidStringValue", self.at)
        return key

    # Arrays and objects.

    def go_in(self, first_step):
        if self.depth == MAX_DEPTH:
            raise Rejection("DepthLimitExceeded", self.at + 1)
        self.steps.append(first_step)
        self.depth += 1
        self.at += 1
        self.whitespace()

    def go_out(self):
        self.steps.pop()
        self.depth -= 1
        self.at += 1

    def array(self):
        self.go_in(0)
        items = []
        if self.here() == b"]":
            self.go_out()
            return ("array", items)
        while True:
            self.is_behind = False
            self.whitespace()
            if self.extended and self.is_here(b",]"):
                items.append(("null",))
            else:
                items.append(self.value())
                self.is_behind = True
                self.whitespace()
            if self.at == self.end:
                self.reject_end()
            if self.here() == b"]":
                self.go_out()
                return ("array", items)
            if self.here() != b",":
                raise Rejection("ExpectedArrayCommaOrEnd", self.at)
            self.at += 1
            self.steps[-1] += 1

    def object(self):
        self.go_in(None)
        members = []
        if self.here() == b"}":
            self.go_out()
            return ("object", members)
        while True:
            self.is_behind = False
            self.whitespace()
            members.append(self.member())
            self.is_behind = True
            self.whitespace()
            if self.at == self.end:
                self.reject_end()
            if self.here() == b"}":
                members = self.in_order(members)
                self.go_out()
                return ("object", members)
            if self.here() != b",":
                raise Rejection("ExpectedObjectCommaOrEnd", self.at)
            self.at += 1
            self.steps[-1] = None

    def member(self):
        mark, key = self.key()
        self.steps[-1] = key
        index = self.at
        self.whitespace()
        if self.at == self.end:
            self.reject_end()
        if self.here() != b":":
            raise Rejection("ExpectedColon", self.at)
        self.at += 1
        self.whitespace()
        return (mark, key, index, self.value())

    def in_order(self, members):
        """The members in the order of their keys; the least repeated key is rejected, at its second occurrence."""
        seen = set()
        second = {}
        for _, key, index, _ in members:
            if key in seen:
                second.setdefault(key, index)
            seen.add(key)
        if second:
            least = min(second)
            self.steps[-1] = least
            raise Rejection("ObjectDuplicateKey", second[least], least)
        return sorted(members, key=lambda member: member[1])


def representable(number, scale, precision):
    """The variant, scale and whole number of an extended decimal."""
    if scale == 0 and 0 <= number < 2 ** 64:
        return ("UInt64", scale, number)
    if scale == 0 and -(2 ** 63) <= number < 2 ** 63:
        return ("Int64", scale, number)
    return ("Decimal64" if precision <= 18 else "Decimal128", scale, number)


def first_variant(number, scale):
    """The first variant that holds an exact number, and it."""
    if scale == 0 and -(2 ** 63) <= number < 2 ** 64:
        return ("Int64" if number < 0 else "UInt64", scale, number)
    return ("Decimal64" if scale <= 18 and abs(number) < 10 ** 18 else "Decimal128", scale, number)


def read(data, mode):
    """The tree of a text. Raises `Rejection`."""
    return Reader(bytes(data), mode).document()


# Where a text is rejected.

def path_of(steps):
    """The JSON Pointer (RFC 6901) of these indices and keys."""
    return b"".join(b"/" + (b"%d" % step if isinstance(step, int) else step.replace(b"~", b"~0").replace(b"/", b"~1"))
                    for step in steps if step is not None)


def tree_or_paths(reader):
    """The tree of a text; or why it is rejected, and the path of the innermost item or member with the fault. That is
    the one that was read last, up to the comma behind it. There is a second path, that of the next one, where the text
    ends in a comment between the two."""
    try:
        return reader.document(), None, []
    except Rejection as rejection:
        paths = [path_of(reader.steps)]
        if rejection.code == "InvalidEOF" and reader.is_cut and reader.is_behind and reader.steps:
            step = reader.steps[-1]
            paths.append(path_of([*reader.steps[:-1], step + 1 if isinstance(step, int) else None]))
        return None, rejection, paths


# The byte to show of a rejection, by the table of docs/GRAMMAR.md.
AT_THE_BYTE = ("InvalidEOF", "ExpectedColon", "ExpectedArrayCommaOrEnd", "ExpectedObjectCommaOrEnd",
               "ObjectKeyInvalidCharacter")
OF_CONTENTS = ("ControlCharacterWhileParsingString", "InvalidEscaped", "InvalidHex", "UnexpectedEndOfHexEscape")


def place_of(data, rejection):
    """The offset of the byte to show, and its line and column from 1 on."""
    back = 0 if rejection.code in AT_THE_BYTE else 2 if rejection.code in OF_CONTENTS else 1
    index = min(max(0, rejection.position - back), len(data))
    return index, data.count(b"\n", 0, index) + 1, index - (data.rfind(b"\n", 0, index) + 1) + 1


# What is written.

def number_text(scale, whole):
    sign = b"-" if whole < 0 else b""
    digits = b"%d" % abs(whole)
    if scale == 0:
        return sign + digits
    digits = digits.rjust(scale + 1, b"0")
    return sign + digits[:-scale] + b"." + digits[-scale:]


def string_text(text):
    named = {0x22: b'\\"', 0x5C: b"\\\\", 0x0A: b"\\n", 0x0D: b"\\r", 0x09: b"\\t"}
    out = bytearray(b'"')
    for byte in text:
        if byte in named:
            out += named[byte]
        elif byte < 0x20:
            out += b"\\u%04x" % byte
        else:
            out.append(byte)
    return bytes(out + b'"')


def written(tree):
    """The text of a tree."""
    kind = tree[0]
    if kind == "null":
        return b"null"
    if kind == "bool":
        return b"true" if tree[1] else b"false"
    if kind == "number":
        return number_text(tree[2], tree[3])
    if kind == "string":
        return string_text(tree[2])
    if kind == "array":
        return b"[" + b",".join(written(item) for item in tree[1]) + b"]"
    return b"{" + b",".join(string_text(key) + b":" + written(item) for _, key, _, item in tree[1]) + b"}"


# The order.

KINDS = ("bool", "number", "string", "object", "array", "null")


def sign_of(left, right):
    return (left > right) - (left < right)


def order(left, right):
    """-1, 0 or 1, where the left tree is below the right one, equal to it, or above it."""
    if left[0] != right[0]:
        return sign_of(KINDS.index(left[0]), KINDS.index(right[0]))
    kind = left[0]
    if kind == "null":
        return 0
    if kind == "bool":
        return sign_of(left[1], right[1])
    if kind == "number":
        return sign_of(left[3] * 10 ** right[2], right[3] * 10 ** left[2])
    if kind == "string":
        return sign_of(left[2], right[2])
    if kind == "array":
        return order_of_lists(left[1], right[1], order)
    return order_of_lists(left[1], right[1], lambda a, b: sign_of(a[1], b[1]) or order(a[3], b[3]))


def order_of_lists(left, right, order_of_items):
    for a, b in zip(left, right):
        sign = order_of_items(a, b)
        if sign:
            return sign
    return sign_of(len(left), len(right))


# Numbers by themselves.

RANGES = {
    "Int64": (-(2 ** 63), 2 ** 63 - 1),
    "UInt64": (0, 2 ** 64 - 1),
    "Decimal64": (-(2 ** 63), 2 ** 63 - 1),
    "Decimal128": (-(2 ** 127), 2 ** 127 - 1),
}
SIGNED, UNSIGNED = RANGES["Int64"], RANGES["UInt64"]


def within(whole, bounds):
    return whole is not None and bounds[0] <= whole <= bounds[1]


def exact(number):
    """The whole number that the number is, or None."""
    _, _, scale, whole = number
    return None if whole % 10 ** scale else whole // 10 ** scale


def rounded(number):
    """The nearest whole number, halves away from zero."""
    _, _, scale, whole = number
    nearest = (2 * abs(whole) + 10 ** scale) // (2 * 10 ** scale)
    return -nearest if whole < 0 else nearest


def in_variant(variant, whole, message=None):
    """The number, or what is printed of the rejection."""
    if within(whole, RANGES[variant]):
        return ("number", variant, 0, whole)
    return message or f"{variant} overflow"


def negated(number):
    _, variant, scale, whole = number
    if variant.startswith("Decimal"):
        return ("number", variant, scale, -whole) if within(-whole, RANGES[variant]) else f"{variant} overflow"
    # The opposite of a UInt64 of 2^63 would fit, and is an error.
    return "Int64 overflow" if whole == 2 ** 63 else in_variant("Int64", -whole)


def operated(name, left, right):
    """The answer of `add`, `sub`, `mul` or `rem`."""
    (_, variant, _, a), (_, other, _, b) = left, right
    if variant.startswith("Decimal") or other.startswith("Decimal"):
        return "UnexpectedType"
    if name == "sub":
        return in_variant("Int64", a - b, "UInt64 overflow" if variant == other == "UInt64" else None)
    of_signs = variant if variant == other else "Int64" if min(a, b) < 0 else "UInt64"
    if name == "add":
        return in_variant(of_signs, a + b)
    if name == "mul":
        return in_variant(of_signs, a * b)
    if b == 0:
        return "Division by zero"
    if variant == other == "Int64" and a == -(2 ** 63) and b == -1:
        return "Int64 overflow"
    return in_variant(of_signs, abs(a) % abs(b) * (-1 if a < 0 else 1))


# Sort keys.

def text_key(text):
    return text.replace(b"\0", b"\0\xff") + b"\0\1"


def number_key(scale, whole):
    if whole == 0:
        return b"\x80"
    digits = str(abs(whole))
    before = len(digits) - scale
    key = bytes([0xA0 + before]) if before >= -30 else bytes([0x81, 255 + before])
    digits = digits.rstrip("0")
    pairs = [int(digits[at:at + 2].ljust(2, "0")) for at in range(0, len(digits), 2)]
    key += bytes([2 * pair + 1 for pair in pairs[:-1]] + [2 * pairs[-1]])
    return bytes(255 - byte for byte in key) if whole < 0 else key


def sort_key(tree):
    kind = tree[0]
    if kind == "bool":
        return b"\x16" if tree[1] else b"\x15"
    if kind == "number":
        return number_key(tree[2], tree[3])
    if kind == "string":
        return b"\xd0" + text_key(tree[2])
    if kind == "object":
        return b"\xd1" + b"".join(text_key(key) + sort_key(item) for _, key, _, item in tree[1]) + b"\0\0"
    if kind == "array":
        return b"\xd2" + b"".join(sort_key(item) for item in tree[1]) + b"\0"
    return b"\xd3"


# The answers of the program `test_driver`.

def described(tree):
    """The tree in one word."""
    kind = tree[0]
    if kind == "null":
        return "null"
    if kind == "bool":
        return "true" if tree[1] else "false"
    if kind == "number":
        _, variant, scale, whole = tree
        return f"{variant}({scale},{whole})" if variant.startswith("Decimal") else f"{variant}({whole})"
    if kind == "string":
        return f"{tree[1]}:{tree[2].hex()}"
    if kind == "array":
        return "[" + ",".join(described(item) for item in tree[1]) + "]"
    return "{" + ",".join(f"{mark}:{key.hex()}@{index}={described(item)}" for mark, key, index, item in tree[1]) + "}"


def reads_back(tree, text, mode):
    try:
        again = read(text, mode)
    except Rejection:
        return False
    return order(again, tree) == 0 and written(again) == text


def answer_text(data, mode):
    try:
        tree = read(data, mode)
    except Rejection as rejection:
        return f"no {rejection.printed().hex()}"
    text = written(tree)
    return f"ok {described(tree)} {text.hex()} {'same' if reads_back(tree, text, mode) else 'differs'}"


def answer_pair(left, right, mode):
    try:
        return ("less", "equal", "greater")[order(read(left, mode), read(right, mode)) + 1]
    except Rejection:
        return "unknown"


def answer_body(data):
    body = Body(data, 0, STANDARD)
    try:
        return f"ok {body.decoded().hex()} {body.idx}"
    except Rejection as rejection:
        return f"no {rejection.printed().hex()} {body.idx}"


def answer_key(data):
    try:
        return f"ok {sort_key(read(data, EXTENDED)).hex()}"
    except Rejection as rejection:
        return f"no {rejection.printed().hex()}"


def number_of(word):
    """The number that is written as in a tree, or None."""
    found = re.fullmatch(r"(U?Int64)\((-?[0-9]+)\)|(Decimal64|Decimal128)\(([0-9]+),(-?[0-9]+)\)", word)
    if found is None:
        return None
    variant, scale, whole = found[1] or found[3], int(found[4] or 0), int(found[2] or found[5])
    return ("number", variant, scale, whole) if scale <= 255 and within(whole, RANGES[variant]) else None


def answer_number(number):
    casts = [found if within(found, bounds) else "none"
             for found in (exact(number), rounded(number)) for bounds in ((-math.inf, math.inf), SIGNED, UNSIGNED)]
    _, _, scale, whole = number
    text, key = number_text(scale, whole).decode(), number_key(scale, whole).hex()
    return " ".join([text, *map(str, casts), described_or_error(negated(number)), key])


def described_or_error(answer):
    return f"no:{answer.encode().hex()}" if isinstance(answer, str) else described(answer)


def answer_two_numbers(left, right):
    word = ("less", "equal", "greater")[order(left, right) + 1]
    answers = (described_or_error(operated(name, left, right)) for name in ("add", "sub", "mul", "rem"))
    return " ".join([word, *answers])


def answer_numbers(words):
    numbers = [number_of(word) for word in words]
    if None in numbers or len(numbers) not in (1, 2):
        return "unknown"
    return answer_number(*numbers) if len(numbers) == 1 else answer_two_numbers(*numbers)


def answer(line):
    """The answer to a line: a letter, and one or two texts in hexadecimal, or numbers."""
    letter, *words = line.split(" ")
    if letter == "n":
        return answer_numbers(words)
    try:
        texts = [bytes.fromhex(word) for word in words]
    except ValueError:
        return "unknown"
    if letter == "b" and len(texts) == 1:
        return answer_body(texts[0])
    if letter == "k" and len(texts) == 1:
        return answer_key(texts[0])
    mode = {"s": STANDARD, "e": EXTENDED, "j": JSON, "x": EXTENDED_JSON}.get(letter)
    if mode is not None and len(texts) == 1:
        return answer_text(texts[0], mode)
    if mode is not None and len(texts) == 2:
        return answer_pair(*texts, mode)
    return "unknown"


def main():
    for line in sys.stdin:
        print(answer(line.rstrip("\n")))


if __name__ == "__main__":
    main()
