"""Makes JSON texts, and texts that nearly are, from a seed."""

import itertools
import random
import re

from reference import EXTENDED, RANGES, STANDARD, Rejection, number_of, read

# Places where the rules change: variants, what is representable, what a hexadecimal holds, what is looked at.
LIMITS = (0, 1, 10 ** 18, 10 ** 19, 2 ** 63, 2 ** 64, 10 ** 37, 10 ** 38, 2 ** 127, 2 ** 128, 10 ** 39)
DIGIT_COUNTS = (0, 1, 2, 3, 17, 18, 19, 20, 37, 38, 39, 40, 74, 75, 76, 77)
UNITS = ("0000", "0041", "00e9", "4E2D", "fffd", "FFFF", "D7ff", "E000", "D800", "dbFF", "DC00", "dfff", "D834", "DD1E")
CHARACTERS = "aZ09 _$/é߿ࠀ中\ufffd\U0001d11e\U0010ffff\x7f\x80"
KEY_CHARACTERS = "abcXYZ_$é߿中\U0001d11e\U0010ffff"
COMMON_KEYS = ("a", "b", "aa", "A", "é", "$", "_1")

# What a text is broken with, and what raw texts are made of.
TOKENS = [bytes((byte,)) for byte in b'[]{}:,"\'\\/*0123456789.+-eExXuUnNtTfFiIaAbBdDrRsSlLyY_$']
TOKENS += [bytes((byte,)) for byte in b" \t\n\r\x0c\x00\x01\x1f\x7f"]
TOKENS += [bytes((byte,)) for byte in b"\x80\xa9\xad\xb8\xbf\xc0\xc3\xdf\xe0\xe4\xed\xef\xf0\xf4\xff"]
LONG_TOKENS = [
    b"null", b"true", b"false", b"nan", b"infinity", b"\\n", b"\\r", b"\\t", b"\\x0C", b"\\u", b"\\u{", b"\\uD834",
    b"\\uDD1E", b"\\u{D834}", b"\\'", b'\\"', b"//", b"/*", b"*/", b"0x", b"-0x", b"1e5", b".5", b"1.", b"\xe4\xb8\xad",
]


# What all short texts are made of.
SHORT_BYTES = b"[]{}:,\"'\\/*01x.-e+\nuna\xc3"


class Maker:
    def __init__(self, seed):
        self.random = random.Random(seed)

    def chance(self, part):
        return self.random.random() < part

    def pick(self, things):
        return self.random.choice(things)

    def count(self, low, high):
        return self.random.randint(low, high)

    def digits(self, count, alphabet="0123456789"):
        return "".join(self.random.choices(alphabet, k=count)).encode()

    def in_either_case(self, word):
        return "".join(self.pick((c.lower(), c.upper())) for c in word).encode()

    # Numbers by hand.

    def number_by_hand(self):
        variant = self.pick(tuple(RANGES))
        least, greatest = RANGES[variant]
        whole = self.pick((self.pick(LIMITS), 10 ** self.count(0, 38), self.count(0, 2 ** self.count(0, 128))))
        whole = (whole + self.count(-1, 1)) * self.pick((1, 10, 100, 10 ** self.count(0, 20))) * self.pick((-1, 1))
        whole = min(max(whole, least), greatest)
        if variant in ("Int64", "UInt64"):
            return f"{variant}({whole})"
        return f"{variant}({self.pick((0, 1, 2, 18, 38, self.count(0, 45), self.count(0, 255)))},{whole})"

    def number_beside(self, word):
        """Any number, or one whose whole number is near, with the scale of another."""
        other = self.number_by_hand()
        if self.chance(0.5):
            return other
        whole = int(re.findall("-?[0-9]+", word)[-1])
        moved = re.sub(r"-?[0-9]+\)", f"{whole * self.pick((1, 10, 100)) + self.count(-1, 1)})", other)
        return moved if number_of(moved) else other

    # Whitespace and comments.

    def whitespace(self, mode):
        if self.chance(0.7):
            return b""
        return b"".join(self.whitespace_piece(mode) for _ in range(self.count(1, 3)))

    def whitespace_piece(self, mode):
        if mode == EXTENDED and self.chance(0.3):
            return self.comment()
        return self.pick((b" ", b"\t", b"\n", b"\r", b"\x0c", b"\\n", b"\\r", b"\\t", b"\\x0C"))

    def comment(self):
        inner = b"".join(self.random.choices(TOKENS + LONG_TOKENS, k=self.count(0, 5)))
        if self.chance(0.5):
            return b"/*" + inner + b"*/"
        return b"//" + inner + self.pick((b"\n", b"\r"))

    # Numbers.

    def near_limit(self):
        return max(0, self.pick(LIMITS) + self.count(-2, 2))

    def number(self, mode):
        if mode == STANDARD:
            return self.standard_number()
        way = self.random.random()
        if way < 0.25:
            return self.hexadecimal()
        if way < 0.32:
            return self.pick((b"", b"+", b"-")) + self.in_either_case(self.pick(("nan", "infinity")))
        return self.decimal()

    def standard_number(self):
        sign = self.pick((b"", b"", b"-"))
        if self.chance(0.5):
            text = b"%d" % self.near_limit()
        else:
            text = self.pick((b"0", b"%d" % self.count(1, 999), b"1" + self.digits(self.pick(DIGIT_COUNTS))))
        if self.chance(0.15):
            text += b"." + self.digits(self.count(1, 4))
        if self.chance(0.1):
            text += self.exponent(1)
        return sign + text

    def exponent(self, least):
        return self.pick((b"e", b"E")) + self.pick((b"", b"+", b"-")) + self.digits(self.count(least, 3))

    def decimal(self):
        if self.chance(0.05):
            return self.long_decimal()
        sign = self.pick((b"", b"", b"+", b"-"))
        zeros = b"0" * self.pick((0, 0, 0, 1, 2, 40, 80))
        way = self.random.random()
        if way < 0.3:
            whole = b"%d" % self.near_limit()
        elif way < 0.6:
            whole = b"%d" % self.count(0, 999)
        else:
            whole = self.digits(self.pick(DIGIT_COUNTS), self.pick(("0123456789", "9", "123456789")))
        if self.chance(0.6):
            place = self.count(0, len(whole))
            whole = whole[:place] + b"." + whole[place:] + (b"0" * self.pick((0, 0, 1, 20)))
        if self.chance(0.08):
            whole += self.exponent(0)
        if self.chance(0.04):
            whole += self.pick((b".", b"..", b".5"))
        return sign + zeros + whole

    # A decimal of about as many digits as are looked at, and what may come after them.
    def long_decimal(self):
        zeros = b"0" * self.pick((0, 0, 1, 80))
        digits = b"1" + self.digits(self.count(73, 77))
        place = self.count(0, len(digits))
        end = self.pick((b"", b".", b"..", b".5", b"e", b"e5", b"x"))
        return zeros + digits[:place] + b"." + digits[place:] + end

    def hexadecimal(self):
        number = self.near_limit() if self.chance(0.7) else self.random.getrandbits(self.pick((4, 60, 64, 126, 130)))
        digits = self.in_either_case("0" * self.pick((0, 0, 1, 30)) + "%x" % number)
        if self.chance(0.15):
            fraction = self.digits(self.pick((0, 1, 8, 31, 32, 33)), "0123456789abcdefABCDEF")
            digits += b"." + self.pick((fraction, b"%x" % self.near_limit(), b"%x" % (2 ** 128 - self.count(0, 1))))
        return self.pick((b"", b"+", b"-")) + self.pick((b"0x", b"0X")) + digits

    # Strings and keys.

    def string(self, mode):
        quote = self.pick(('"', "'")) if mode == EXTENDED else '"'
        items = b"".join(self.item(mode, quote) for _ in range(self.pick((0, 1, 2, 3, 5, 9, 20))))
        return quote.encode() + items + quote.encode()

    def item(self, mode, quote):
        way = self.random.random()
        if way < 0.55:
            return self.pick(CHARACTERS).encode()
        if way < 0.65:
            return self.pick(("'" if quote == '"' else '"', "\n", "\x00", "\x1f", "[", "{", ",")).encode()
        if way < 0.8:
            letters = '\\"/bfnrt' + ("'" if mode == EXTENDED else "")
            return b"\\" + self.pick(letters).encode()
        if way < 0.99:
            return b"".join(self.unit() for _ in range(self.pick((1, 1, 2, 3))))
        return self.pick(TOKENS + LONG_TOKENS)

    def unit(self):
        digits = self.pick(UNITS) if self.chance(0.8) else self.digits(4, "0123456789abcdefABCDEF").decode()
        return ("\\u{" + digits + "}" if self.chance(0.3) else "\\u" + digits).encode()

    # Long runs, with something that a search may stop at between them, and perhaps no end.
    def long_string(self, mode):
        quote = self.pick((b'"', b"'")) if mode == EXTENDED else b'"'
        runs = [self.pick((b"a", b"\xc3\xa9", b"\x00")) * self.count(0, 70) for _ in range(self.count(1, 4))]
        escapes = (b"\\n", b"\\\\", b"\\" + quote, b"\\u0041", b"\\u{D834}\\uDD1E", b"\\u")
        between = self.pick(escapes + (b'"', b"'", b"\xff"))
        return quote + between.join(runs) + self.pick((quote, quote, quote, b"", b"\\"))

    def key(self, mode):
        if self.chance(0.5):
            text = self.pick(COMMON_KEYS)
        else:
            text = self.pick(KEY_CHARACTERS) + "".join(self.random.choices(KEY_CHARACTERS + "019", k=self.count(0, 4)))
        way = self.random.random()
        if mode == EXTENDED and way < 0.6:
            return text.encode()
        if way < 0.8:
            return self.string(mode)
        quote = self.pick(('"', "'")) if mode == EXTENDED else '"'
        if self.chance(0.2):
            text = "\\u%04x" % ord(text[0]) + text[1:] if ord(text[0]) < 0x10000 else text
        return (quote + text + quote).encode()

    # Values.

    def literal(self, mode):
        word = self.pick(("null", "true", "false"))
        return self.in_either_case(word) if mode == EXTENDED and self.chance(0.4) else word.encode()

    def scalar(self, mode):
        way = self.random.random()
        if way < 0.2:
            return self.literal(mode)
        if way < 0.6:
            # Most numbers of a text that is to be read are small, or else hardly any text would be.
            return b"%d" % self.count(0, 99) if self.chance(0.5) else self.number(mode)
        return self.string(mode)

    def value(self, mode, depth):
        way = self.random.random()
        if depth == 0 or way < 0.4:
            return self.scalar(mode)
        parts = [self.member(mode, depth - 1) if way < 0.7 else self.element(mode, depth - 1)
                 for _ in range(self.pick((0, 1, 1, 2, 2, 3, 4)))]
        inner = b",".join(parts) if parts else self.whitespace(mode)
        return b"{" + inner + b"}" if way < 0.7 else b"[" + inner + b"]"

    def element(self, mode, depth):
        core = b"" if mode == EXTENDED and self.chance(0.1) else self.value(mode, depth)
        return self.whitespace(mode) + core + self.whitespace(mode)

    def member(self, mode, depth):
        key = self.whitespace(mode) + self.key(mode) + self.whitespace(mode)
        return key + b":" + self.whitespace(mode) + self.value(mode, depth) + self.whitespace(mode)

    def document(self, mode):
        text = self.whitespace(mode) + self.value(mode, self.pick((0, 1, 1, 2, 3))) + self.whitespace(mode)
        if mode == EXTENDED and self.chance(0.03):
            text += b"//" + b"".join(self.random.choices(TOKENS, k=self.count(0, 4)))
        return text

    # Texts that nearly are documents.

    def broken(self, text):
        for _ in range(self.pick((1, 1, 1, 2, 3))):
            text = self.broken_once(text)
        return text

    def broken_once(self, text):
        place = self.count(0, len(text))
        way = self.count(0, 5)
        if way == 0:
            return text[:place]
        if way == 1:
            return text[:place] + text[place + 1:]
        if way == 2:
            return text[:place] + self.pick(TOKENS) + text[place + 1:]
        if way == 3:
            return text[:place] + self.pick(TOKENS + LONG_TOKENS) + text[place:]
        if way == 4:
            return text[:place] + bytes((self.count(0, 255),)) + text[place + 1:]
        start = self.count(0, len(text))
        return text[:place] + text[start:start + self.count(1, 4)] + text[place:]

    def raw(self):
        return b"".join(self.random.choices(TOKENS + LONG_TOKENS, k=self.count(0, 9)))

    def opener(self, mode):
        whitespace = self.whitespace(mode) if self.chance(0.05) else b""
        if self.chance(0.02):
            return b"[" + whitespace + self.pick((b"[],", b"{},", b"[[]],")), b"]"
        if self.chance(0.6):
            return b"[" + whitespace, b"]"
        return b"{" + whitespace + (b"a:" if mode == EXTENDED and self.chance(0.7) else b'"a":'), b"}"

    def nested(self, mode):
        openers = [self.opener(mode) for _ in range(512 + self.count(-2, 2))]
        closers = [closer for _, closer in reversed(openers)]
        core = b"" if openers[-1] == (b"[", b"]") and self.chance(0.5) else self.scalar(mode)
        text = b"".join(opener for opener, _ in openers) + core + b"".join(closers)
        return self.broken_once(text) if self.chance(0.3) else text

    # An object whose few keys are spelled in many ways, so that most have some repeated.
    def repeating(self, mode):
        spellings = [b'"a"', b'"b"', b'"c"', b'"\\u0061"', b'"\\u{0062}"', b'"\xc3\xa9"', b'"\\u00e9"']
        if mode == EXTENDED:
            spellings += [b"a", b"b", b"c", b"'a'", b"'\\u0062'", b"\xc3\xa9"]
        members = [self.whitespace(mode) + self.pick(spellings) + self.whitespace(mode) + b":" + self.scalar(mode)
                   for _ in range(self.count(2, 5))]
        text = b"{" + b",".join(members) + self.whitespace(mode) + b"}"
        return self.pick((text, b"[" + text + b"]", b'{"b":' + text + b',"b":0}'))

    # An object with one key of bytes that keys without quotes may or may not hold.
    def odd_key(self):
        parts = TOKENS + [character.encode() for character in KEY_CHARACTERS + "Z09@[`{"] + [b"\x80", b"\xbf"]
        key = b"".join(self.random.choices(parts, k=self.count(0, 3)))
        return b"{" + key + self.pick((b":1}", b":1}", b" :1}", b"/**/:1}", b"", b":"))

    # An object with many keys in no order, of which one may be repeated, or many digits.
    def large(self, mode):
        if self.chance(0.3):
            return self.pick((b"", b"-", b"0.", b"0x")) + self.digits(self.count(100, 6000), "0123456789")
        numbers = [self.count(0, 10000) for _ in range(self.count(20, 150))]
        key = b"k%d" if mode == EXTENDED else b'"k%d"'
        return b"{" + b",".join((key + b":%d") % (number, i) for i, number in enumerate(numbers)) + b"}"

    # More arrays and objects than may be open at once, each in the one array.
    def wide(self):
        return b"[" + b",".join(self.pick((b"[]", b"{}", b"[1]")) for _ in range(self.count(500, 600))) + b"]"

    # One short document, and the texts that it is cut to, or that have another byte at one place.
    def family(self, mode):
        text = self.document(mode)[:60]
        if self.chance(0.5):
            return [text[:place] for place in range(len(text) + 1)]
        place = self.count(0, len(text))
        return [text[:place] + token + text[place + 1:] for token in TOKENS]

    def some(self):
        """One or more texts."""
        mode = self.pick((STANDARD, EXTENDED, EXTENDED))
        ways = (
            (350, lambda: [self.document(mode)]),
            (300, lambda: [self.broken(self.document(mode))]),
            (100, lambda: [self.raw()]),
            (100, lambda: [self.whitespace(mode) + self.number(mode) + self.whitespace(mode)]),
            (80, lambda: [self.string(mode)]),
            (20, lambda: [self.long_string(mode)]),
            (20, lambda: [self.repeating(mode)]),
            (15, lambda: [self.odd_key()]),
            (8, lambda: self.family(mode)),
            (4, lambda: [self.nested(mode)]),
            (2, lambda: [self.large(mode)]),
            (1, lambda: [self.wide()]),
        )
        weights, makers = zip(*ways)
        return self.random.choices(makers, weights)[0]()

    # A number that is likely to be representable, and to be near another one.
    def small_number(self, mode):
        if mode == STANDARD or self.chance(0.3):
            return self.number(mode)
        whole = b"%d" % (self.near_limit() if self.chance(0.3) else self.count(0, 20))
        zeros = b"0" * self.pick((0, 0, 1, 2, 15))
        return self.pick((b"", b"-")) + whole + self.pick((b"", b".")) + zeros + self.pick((b"", b"1", b"5"))

    def alike(self, text, mode):
        """A text whose value may be near that of another text."""
        way = self.random.random()
        if way < 0.4:
            return self.broken_once(text)
        if way < 0.5:
            return text
        return self.document(mode)

    def pair(self):
        """Two texts whose values are to be compared, and the mode."""
        mode = self.pick((STANDARD, EXTENDED, EXTENDED))
        if self.chance(0.4):
            return mode, self.small_number(mode), self.small_number(mode)
        left = self.document(mode)
        return mode, left, self.alike(left, mode)


    def body(self):
        """What stands between quotes, or nearly."""
        text = b"".join(self.item(STANDARD, '"') for _ in range(self.count(0, 6)))
        return self.broken_once(text) if self.chance(0.5) else text


def texts(seed, count):
    """So many texts."""
    maker = Maker(seed)
    made = 0
    while made < count:
        for text in maker.some()[:count - made]:
            made += 1
            yield text


def is_read(text, mode):
    try:
        read(text, mode)
    except Rejection:
        return False
    return True


def pairs(seed, count):
    """So many pairs of texts, each with a mode, in which both are read; but about one in twenty has one that isn't."""
    maker = Maker(f"pairs {seed}")
    made = 0
    while made < count:
        mode, left, right = maker.pair()
        if maker.chance(0.05) or (is_read(left, mode) and is_read(right, mode)):
            made += 1
            yield mode, left, right


def bodies(seed, count):
    """So many bodies of strings."""
    maker = Maker(f"bodies {seed}")
    for _ in range(count):
        yield maker.body()


def numbers(seed, count):
    """So many rows of one number or two, spelled as in a tree. The second is often near the first."""
    maker = Maker(f"numbers {seed}")
    for _ in range(count):
        left = maker.number_by_hand()
        yield left if maker.chance(0.4) else f"{left} {maker.number_beside(left)}"


def short(most):
    """Every text of at most so many of a few bytes."""
    for length in range(most + 1):
        for text in itertools.product(SHORT_BYTES, repeat=length):
            yield bytes(text)
