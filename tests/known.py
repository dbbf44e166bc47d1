"""Texts with answers that were worked out by hand from the rules. Run alone, it shows that the reference gives them.

Each row is the modes (`s`, `e` or both, or `j` for JSON), the text, and the answer: a tree in one word, or a code with
its position and, where it has one, its argument; or, in PRINTED, what is printed.
"""

import itertools
import sys

import reference

MODES = {"s": reference.STANDARD, "e": reference.EXTENDED, "j": reference.JSON}


def plain(text):
    return "plain:" + text.encode().hex()


def escaped(text):
    return "escaped:" + text.encode().hex()


def eof(position):
    return ("InvalidEOF", position)


def number(position):
    return ("InvalidNumberValue", position)


def unrepresentable(position):
    return ("NumberNotCarried", position)


def a_value(position):
    return ("ExpectedSomeValue", position)


def ident(position):
    return ("ExpectedSomeIdent", position)


def trailing(position):
    return ("UnexpectedTrailingCharacters", position)


def colon(position):
    return ("ExpectedColon", position)


def key_character(position):
    return ("ObjectKeyInvalidCharacter", position)


def comma_or_end(position):
    return ("ExpectedArrayCommaOrEnd", position)


DEEP = ("DepthLimitExceeded", 513)

DOCUMENTS = [
    ("e", b"", "null"), ("s", b"", eof(0)), ("e", b" \\n\\x0C\t", "null"), ("s", b" \\n\\x0C\t", eof(8)),
    ("se", b"1 2", trailing(3)), ("e", b"nul", ident(2)), ("s", b"nul", eof(3)), ("se", b"\\n[1]", "[UInt64(1)]"),
    ("se", b"\\x0C\\r\\t\x0c1\\n", "UInt64(1)"), ("se", b"\\x0c1", a_value(1)), ("se", b"\\z", a_value(1)),
    ("se", b"[\\z", a_value(2)), ("se", b"[1\\z", comma_or_end(2)), ("s", b"Null", a_value(1)),
    ("s", b"nulL", ident(4)), ("e", b"nUll", "null"), ("e", b"TrUe", "true"), ("e", b"FALSE", "false"),
    ("s", b"tru", eof(3)), ("s", b"falsy", ident(5)), ("e", b"nan", unrepresentable(3)), ("e", b"nu", ident(2)),
    ("e", b"n", eof(1)), ("e", b"nanx", unrepresentable(3)), ("s", b"nan", ident(2)), ("e", b"Infinity", unrepresentable(8)),
    ("e", b"inf", eof(3)), ("e", b"I", eof(1)), ("e", b"ix", ident(2)),
]

STANDARD_NUMBERS = [
    ("s", b"-5", "Int64(-5)"), ("s", b"-0", "Int64(0)"), ("s", b"0", "UInt64(0)"), ("s", b"-", number(1)),
    ("s", b"18446744073709551615", "UInt64(18446744073709551615)"), ("s", b"18446744073709551616", unrepresentable(20)),
    ("s", b"-9223372036854775808", "Int64(-9223372036854775808)"), ("s", b"-9223372036854775809", unrepresentable(20)),
    ("s", b"01", number(2)), ("s", b"-01", number(3)), ("s", b"1.", number(3)), ("s", b"1.x", number(3)),
    ("s", b"1e", number(2)), ("s", b"1e5", unrepresentable(3)), ("s", b"1e+", number(3)), ("s", b"1.5e", number(4)),
    ("s", b"1.5", unrepresentable(3)), ("s", b"1.5E-07 ", unrepresentable(7)), ("s", b"+1", a_value(1)),
    ("s", b".5", a_value(1)), ("s", b"0x1", trailing(2)), ("s", b"-x", number(1)),
    ("s", b"-1.5E+07 ", unrepresentable(8)),
]

EXTENDED_NUMBERS = [
    ("e", b"+.5", "Decimal64(1,5)"), ("e", b"-0.0", "Decimal64(1,0)"), ("e", b"0" * 40 + b"1", "UInt64(1)"),
    ("e", b"18446744073709551616", "Decimal128(0,18446744073709551616)"), ("e", b"-0", "UInt64(0)"),
    ("e", b"0.005", "Decimal64(3,5)"), ("e", b"0.1234567890123456789", "Decimal128(19,1234567890123456789)"),
    ("e", b"-0.05", "Decimal64(2,-5)"), ("e", b"9" * 38, f"Decimal128(0,{10 ** 38 - 1})"),
    ("e", b"9" * 39, unrepresentable(39)), ("e", b"0." + b"9" * 38, f"Decimal128(38,{10 ** 38 - 1})"),
    ("e", b"0." + b"9" * 39, unrepresentable(41)), ("e", b"1e5", unrepresentable(3)), ("e", b"1e", number(2)),
    ("e", b"1e+", number(3)), ("e", b"1e5.", unrepresentable(3)), ("e", b"1.5e5.", unrepresentable(5)),
    ("e", b"+-1", number(1)), ("e", b"-.", number(2)), ("e", b".n", number(1)), ("e", b"-Infinity", unrepresentable(9)),
    ("e", b"+nan", unrepresentable(4)), ("e", b"-in", eof(3)), ("e", b"-nan", number(4)), ("e", b"1.", "UInt64(1)"),
    ("e", b"0.", "UInt64(0)"), ("e", b"1..", number(2)), ("e", b".", number(1)), ("e", b"..", number(1)),
    ("e", b"+", number(1)), ("e", b"+nul", ident(3)), ("e", b"1." + b"0" * 74 + b".", number(76)),
    ("e", b"1." + b"0" * 75 + b".", unrepresentable(77)), ("e", b"1" * 76 + b".5", unrepresentable(78)),
    ("e", b"1" * 76 + b"..", unrepresentable(77)), ("e", b"0" * 80 + b"..", number(81)),
    ("e", b"1" * 39 + b"..", number(40)), ("e", b"-9223372036854775809", "Decimal128(0,-9223372036854775809)"),
    ("e", b"00x1", trailing(3)), ("e", b"1.0x1", trailing(4)),
    ("e", b"+007", "UInt64(7)"), ("e", b"-5", "Int64(-5)"), ("e", b"-7.", "Int64(-7)"),
    ("e", b"12.50", "Decimal64(2,1250)"), ("e", b"12.50 ", "Decimal64(2,1250)"), ("e", b"00", "UInt64(0)"),
    ("e", b"18446744073709551615", "UInt64(18446744073709551615)"),
    ("e", b"-9223372036854775808", "Int64(-9223372036854775808)"),
    ("e", b"0.123456789012345678", "Decimal64(18,123456789012345678)"),
    ("e", b"-00001.23456789012345678", "Decimal64(17,-123456789012345678)"),
    ("e", b"1.234567890123456789", "Decimal128(18,1234567890123456789)"), ("e", b"1e55", unrepresentable(4)),
    ("e", b"922337203685477580.7", f"Decimal128(1,{2 ** 63 - 1})"),
    ("e", b"1.5E-3 ", unrepresentable(6)), ("e", b"1.5.2", number(3)), ("e", b"..5", number(1)),
    ("e", b"-99999999999999999999999999999999999999", "Decimal128(0,-99999999999999999999999999999999999999)"),
    ("e", b"-00000000000000000000000000000000000000001.5", "Decimal64(1,-15)"), ("e", b"INFINITY", unrepresentable(8)),
    ("e", b"-i", eof(2)), ("e", b"infinite", ident(8)),
]

HEXADECIMALS = [
    ("e", b"0x8000000000000000", "UInt64(9223372036854775808)"),
    ("e", b"-0x8000000000000000", f"Int64({-2 ** 63})"),
    ("e", b"-0x8000000000000001", f"Decimal128(0,{-2 ** 63 - 1})"), ("e", b"-0x0", "Int64(0)"),
    ("e", b"+0X0f", "UInt64(15)"), ("e", b"0xFFFFFFFFFFFFFFFF", f"UInt64({2 ** 64 - 1})"),
    ("e", b"0x10000000000000000", f"Decimal128(0,{2 ** 64})"),
    ("e", b"0x%x" % (10 ** 38 - 1), f"Decimal128(0,{10 ** 38 - 1})"), ("e", b"0x%x" % 10 ** 38, unrepresentable(34)),
    ("e", b"-0x%x" % (10 ** 38 - 1), f"Decimal128(0,{1 - 10 ** 38})"), ("e", b"-0x%x" % 10 ** 38, unrepresentable(35)),
    ("e", b"0x" + b"F" * 32, unrepresentable(34)), ("e", b"0x1" + b"0" * 32, number(35)), ("e", b"0xg", number(2)),
    ("e", b"0x", number(2)), ("e", b"0x.8", number(2)), ("e", b"0x1.", number(4)), ("e", b"0x1.8", unrepresentable(5)),
    ("e", b"0x1.8.", unrepresentable(5)), ("e", b"0x" + b"F" * 33 + b".", number(36)),
    ("e", b"0x" + b"F" * 33 + b".8", number(37)), ("e", b"0x1." + b"F" * 33, number(37)),
    ("e", b"0x1." + b"0" * 40 + b"1", unrepresentable(45)),
    ("e", b"0x10", "UInt64(16)"), ("e", b"+0XfF", "UInt64(255)"), ("e", b"+0XfF ", "UInt64(255)"),
]

STRINGS = [
    ("se", b' "abc" ', plain("abc")), ("se", b'"\t"', plain("\t")), ("se", b'"ab', eof(3)),
    ("se", b'"\xff"', ("InvalidStringValue", 3)), ("se", b'"\\n\xff"', ("InvalidStringValue", 5)),
    ("se", b'"\xff\\z"', ("InvalidEscaped", 5, 122)), ("s", b"'a'", a_value(1)),
    ("e", b"'say \"x\"'", plain('say "x"')), ("s", b'"\\\'"', ("InvalidEscaped", 4, 39)),
    ("e", b'"\\\'"', escaped("'")), ("e", b"'it\\'s'", escaped("it's")),
    ("se", b'"\\"\\\\\\/\\b\\f\\n\\r\\t"', escaped('"\\/\b\f\n\r\t')),
    ("se", b'"\\uD800\\u0041"', escaped("\\uD800\\u0041")), ("se", b'"\\u{D834}\\u{DD1E}"', escaped("\U0001d11e")),
    ("se", b'"\\uD834\\u{dd1e}"', escaped("\U0001d11e")), ("se", b'"\\u{d834}"', escaped("\\ud834")),
    ("se", b'"\\uD800\\uD834\\uDD1E"', escaped("\\uD800\\uD834\\uDD1E")), ("se", b'"\\uDD1E"', escaped("\\uDD1E")),
    ("se", b'"\\uD800\\n"', escaped("\\uD800\n")), ("se", b'"\\uD7FF\\uE000"', escaped("\ud7ff\ue000")),
    ("se", b'"\\u{0041}\\u007F"', escaped("A\x7f")), ("se", b'"\\u"a"b"', ("InvalidHex", 8, 34)),
    ("se", b'"\\u{00}12"', ("UnexpectedEndOfHexEscape", 4)), ("se", b'"\\u{00G1}"', ("InvalidHex", 10, 71)),
    ("se", b'"\\uD800\\uDC0"', eof(13)), ("se", b'"\\uD800\\uDC0"12"', ("InvalidHex", 14, 34)),
    ("se", b'"\\z', eof(3)), ("se", b'"\\z"', ("InvalidEscaped", 4, 122)),
    ("se", b'"a\\z"', ("InvalidEscaped", 5, 122)), ("se", b'"\\', eof(2)), ("se", b'"\\u', eof(3)),
    ("se", b'"\\u{', eof(9)), ("se", b'"\\u1"', eof(7)), ("se", b'"\\u1', eof(7)), ("e", b"{'a\\u", eof(5)),
    ("e", b"'\"", eof(2)),
]

CONTAINERS = [
    ("e", b"[,]", "[null,null]"), ("s", b"[,]", a_value(2)), ("se", b"[1,", eof(3)), ("s", b"[1,]", a_value(4)),
    ("e", b"[ ,]", "[null,null]"), ("e", b"[1,,3]", "[UInt64(1),null,UInt64(3)]"), ("se", b"[ ]", "[]"),
    ("e", b"[1,2,]", "[UInt64(1),UInt64(2),null]"), ("e", b"[a]", a_value(2)), ("se", b"[1 2]", comma_or_end(3)),
    ("se", b'{"a" 1}', colon(5)), ("se", b'{"a":1;}', ("ExpectedObjectCommaOrEnd", 6)),
    ("s", b'{"a":1,}', ident(8)), ("se", b'{"a":}', a_value(6)), ("se", b"{", eof(1)), ("se", b"[", eof(1)),
    ("se", b"[1", eof(2)), ("se", b'{"a', eof(3)), ("se", b'{"a"', eof(4)), ("se", b'{"a":', eof(5)),
    ("se", b'{"a":1', eof(6)), ("se", b'{"a":1,', eof(7)), ("se", b"{ }", "{}"), ("s", b"{,}", ident(2)),
    ("s", b"{a:1}", ident(2)), ("s", b"{'a':1}", ident(2)),
    ("se", b'{"\\u0061":1,"a":2}', ("ObjectDuplicateKey", 15, b"a")),
    ("se", b'{"a":{"b":1,"b":2},"a":3}', ("ObjectDuplicateKey", 15, b"b")),
    ("se", b'{"b":1,"a":2,"a":3,"b":4}', ("ObjectDuplicateKey", 16, b"a")),
    ("se", b'{"a":1,"a":2,"a":3}', ("ObjectDuplicateKey", 10, b"a")), ("se", b'{"a":1,"a":2', eof(12)),
    ("se", b"[" * 512 + b"]" * 512, "[" * 512 + "]" * 512), ("se", b"[" * 513 + b"]" * 513, DEEP),
    ("se", b"[" * 512 + b"{", DEEP), ("se", b"[" * 10000, DEEP), ("e", b"{a:" * 513, ("DepthLimitExceeded", 1537)),
    ("s", b'{"a":' * 513, ("DepthLimitExceeded", 2561)),
    ("se", b"[" + b"[]," * 599 + b"[]]", "[" + "[]," * 599 + "[]]"),
    ("se", b'{"b":1,"a":2}', "{plain:61@10=UInt64(2),plain:62@4=UInt64(1)}"),
    ("se", b'[{"a":1},{"b":2,"a" :1}]', "[{plain:61@5=UInt64(1)},{plain:61@19=UInt64(1),plain:62@13=UInt64(2)}]"),
    ("se", b'{"\\u0061":1}', "{escaped:61@9=UInt64(1)}"),
]

KEYS = [
    ("e", b"{b:'x', a:+007}", "{plain:61@9=UInt64(7),plain:62@2=plain:78}"), ("e", b"{a:1,}", key_character(5)),
    ("e", b"{:1}", key_character(1)), ("e", b"{,}", key_character(1)),
    ("e", b"{1a:2}", ("ObjectKeyInvalidNumber", 2)), ("e", b"{1", ("ObjectKeyInvalidNumber", 2)),
    ("e", b"{\x80:1}", key_character(1)), ("e", b"{a\x80:1}", key_character(2)), ("e", b"{a,b}", colon(2)),
    ("e", b"{a:}", a_value(4)), ("e", b"{a", eof(2)), ("e", b"{a-b:1}", colon(2)),
    ("e", b"{\xe4:1}", ("InvalidStringValue", 4)), ("e", b"{\xe4", eof(4)), ("e", b"{\xf0", eof(5)),
    ("e", b"{\xc3", eof(3)), ("e", b"{\xff", eof(5)), ("e", b"{\xc3(\x80:1}", key_character(3)),
    ("e", b"{a ", eof(3)), ("e", b"{\xc3\xa9$_1 :1}", "{plain:c3a9245f31@6=UInt64(1)}"),
    ("e", b"{'a\"':1}", "{plain:6122@5=UInt64(1)}"), ("e", b"{'\\'':1}", "{escaped:27@5=UInt64(1)}"),
    ("se", b'{"":1}', "{plain:@3=UInt64(1)}"),
]

COMMENTS = [
    ("e", b"[/*a*/]", "[]"), ("e", b"[/*a*/,1]", "[null,UInt64(1)]"), ("e", b"// x", "null"), ("e", b"/*", eof(2)),
    ("s", b"[/*a*/]", a_value(2)), ("e", b"// a\n1", "UInt64(1)"), ("e", b"// a\r1", "UInt64(1)"),
    ("e", b"// a\\n1", "null"), ("e", b"{a/**/:/*,*/1//}\n}", "{plain:61@2=UInt64(1)}"),
    ("e", b"/***/[/*a*/,/*b*/]", "[null,null]"), ("e", b"/*/", eof(3)), ("e", b"[1/*", eof(4)),
    ("e", b"[1//x", eof(5)), ("e", b"1//x", "UInt64(1)"), ("e", b"1/*", eof(3)), ("e", b"/", a_value(1)),
    ("e", b"1 /x", trailing(3)), ("e", b"[1/2]", comma_or_end(2)), ("e", b"-/**/1", number(1)),
    ("s", b"// x", a_value(1)), ("e", b"[/", a_value(2)), ("e", b"{a/", colon(2)), ("e", b"1/", trailing(2)),
    ("e", b"/*\xff*/1", "UInt64(1)"), ("e", b"/* /* */1", "UInt64(1)"), ("e", b"//\xff\n//", "null"),
    ("e", b"{//", eof(3)), ("e", b"{a//", eof(4)), ("e", b"{a:/*", eof(5)), ("e", b"[,//", eof(4)),
    ("e", b"[/*a*/", eof(6)),
]

ROWS = DOCUMENTS + STANDARD_NUMBERS + EXTENDED_NUMBERS + HEXADECIMALS + STRINGS + CONTAINERS + KEYS + COMMENTS

# Texts with what is printed of them: the written text, or the rejection.
PRINTED = [
    # Scalars and words, and numbers beside other bytes.
    ("e", b"tru", b"EOF while parsing a value, pos 3"), ("se", b"a", b"expected value, pos 1"),
    ("se", b"null x", b"trailing characters, pos 6"), ("se", b"\xff", b"expected value, pos 1"),
    ("s", b" \\n", b"EOF while parsing a value, pos 3"), ("se", b"null", b"null"), ("se", b"\\n true\\x0C", b"true"),
    ("se", b"\\r\\tfalse\\n", b"false"), ("e", b"-5", b"-5"), ("e", b"nulL", b"null"), ("e", b"NULL", b"null"),
    ("e", b"True", b"true"), ("e", b"fAlSe", b"false"), ("e", b" \\n", b"null"),
    ("e", b"nUlX", b"expected ident, pos 2"), ("e", b"Tru", b"EOF while parsing a value, pos 3"),
    ("e", b"-", b"invalid number, pos 1"), ("e", b"1.5e", b"invalid number, pos 4"),
    ("s", b"1e5.", b"number not carried, pos 3"), ("s", b"1.5e5.", b"number not carried, pos 5"),
    ("e", b"0x4B3B4CA85A86C47A098A224000000000", b"number not carried, pos 34"),
    ("e", b"-0x4B3B4CA85A86C47A098A224000000000", b"number not carried, pos 35"),
    ("s", b"[1.5]", b"number not carried, pos 4"), ("e", b"+infinity", b"number not carried, pos 9"),
    ("s", b"0,", b"trailing characters, pos 2"), ("s", b"-9223372036854775808]", b"trailing characters, pos 21"),
    ("e", b"-5,", b"trailing characters, pos 3"), ("e", b"-7.]", b"trailing characters, pos 4"),
    ("e", b"00x1", b"trailing characters, pos 3"),
    ("se", b"5", b"5"), ("e", b"1.0", b"1.0"), ("e", b"1.00", b"1.00"), ("s", b"1.00", b"number not carried, pos 4"),
    ("e", b"922337203685477580.7", b"922337203685477580.7"),
    ("s", b"922337203685477580.7", b"number not carried, pos 20"),
    ("se", b"0.000000000000000000000000000000000000001", b"number not carried, pos 41"),
    ("se", b"100000000000000000000000000000000000000", b"number not carried, pos 39"),
    # Strings.
    ("se", b'{"\xff":1}', b"invalid string, pos 4"), ("se", b'"a\\n"', b'"a\\n"'), ("se", b'"it\'s"', b'"it\'s"'),
    ("e", b"'a", b"EOF while parsing a value, pos 2"), ("e", b'\'a"', b"EOF while parsing a value, pos 3"),
    ("e", b"'a\\'", b"EOF while parsing a value, pos 4"),
    ("se", b'"\\uD834\\u{DD1E}\\n\\\\"', b'"\xf0\x9d\x84\x9e\\n\\\\"'),
    ("se", b'"\t"', b'"\\t"'), ("se", b'"\\uD800\\u0041"', b'"\\\\uD800\\\\u0041"'), ("se", b'"00AF"', b'"00AF"'),
    ("se", b'"\\\n"', b"invalid escaped 'A', pos 4"), ("s", b'"\\\'"', b"invalid escaped '27', pos 4"),
    ("se", b'"\\u"a"b"', b"invalid hex '22', pos 8"), ("se", b'"\\u000\0"', b"invalid hex '0', pos 8"),
    ("j", b'"\t"', b"control character (\\u0000-\\u001F) found while parsing a string, pos 3"),
    # Arrays and objects, elements that are left out, and keys.
    ("se", b'{"name":"Fred","phones":[{"type":"home","number":3720453},{"type":"work","number":5062051}]}',
     b'{"name":"Fred","phones":[{"number":3720453,"type":"home"},{"number":5062051,"type":"work"}]}'),
    ("se", b" [ 1 , [ ] , { } ] ", b"[1,[],{}]"), ("se", b'{"b" : 1 , "a" : [null]}', b'{"a":[null],"b":1}'),
    ("se", b'{"\\n\\"":"\\u0001"}', b'{"\\n\\"":"\\u0001"}'), ("se", b"{} x", b"trailing characters, pos 4"),
    ("se", b'[{"a":1,"a":2},', b'duplicate object attribute "a", pos 11'),
    ("se", b'[{"a":1},{"a":2}]', b'[{"a":1},{"a":2}]'), ("e", b"[1,]", b"[1,null]"),
    ("e", b"[,,]", b"[null,null,null]"), ("e", b"[,,3]", b"[null,null,3]"), ("e", b"[,2,]", b"[null,2,null]"),
    ("e", b"[,2,3]", b"[null,2,3]"), ("e", b"[1,,]", b"[1,null,null]"), ("e", b"[1,2,3]", b"[1,2,3]"),
    ("e", b"[[],,{}]", b"[[],null,{}]"), ("e", b"[,{a:[,,]},]", b'[null,{"a":[null,null,null]},null]'),
    ("e", b"[ , /*a*/ ,//b\n]", b"[null,null,null]"), ("s", b"[,2,3]", b"expected value, pos 2"),
    ("s", b"[1,,3]", b"expected value, pos 4"), ("s", b"[1,2,]", b"expected value, pos 6"),
    ("e", b'{"a":1,}', b"object attribute name cannot be invalid character, pos 7"),
    ("e", b"{\xc3(:1}", b"invalid string, pos 3"), ("e", b'{a:1,\'b\':[],"c":{}}', b'{"a":1,"b":[],"c":{}}'),
    ("e", b"{$a_1\xc3\xa9:1}", b'{"$a_1\xc3\xa9":1}'), ("e", b"{a:1,a:2}", b'duplicate object attribute "a", pos 6'),
    ("e", b"[-1.50,0x1F,+.5,00.]", b"[-1.50,31,0.5,0]"),
    ("se", b'{"a":{"a":{"a":[{"a":1},{"a":2}]}}}', b'{"a":{"a":{"a":[{"a":1},{"a":2}]}}}'),
    ("se", b'{"a":{"b":{"c":1,"c":2}}}', b'duplicate object attribute "c", pos 20'),
    ("se", b'{"a":[{"b":1,"b":2}],"a":3}', b'duplicate object attribute "b", pos 16'),
    ("se", b'{"a":[1],"a":[2]}', b'duplicate object attribute "a", pos 12'),
    ("se", b'{"a":{},"b":{"a":{}},"a":[]}', b'duplicate object attribute "a", pos 24'),
    ("e", b'{a:{\'b\':1,"b":2}}', b'duplicate object attribute "b", pos 13'),
    ("e", b'{a:{"\\u0062":1,b:[]}}', b'duplicate object attribute "b", pos 16'),
    ("se", b"[]", b"[]"), ("se", b"{}", b"{}"), ("se", b'{"q\\"":"\\u0001\\n"}', b'{"q\\"":"\\u0001\\n"}'),
    ("se", b'[[1,null],{"b":2,"a":1},[]]', b'[[1,null],{"a":1,"b":2},[]]'),
    ("se", b'{"b":[1,{"d":-0,"c":"\\u0041"}],"\\u0061":null}', b'{"a":null,"b":[1,{"c":"A","d":0}]}'),
    ("se", b"[" * 513 + b"]" * 513, b"depth limit exceeded, pos 513"),
    # Comments, some of which are no text, and whitespace alone.
    ("s", b"/", b"expected value, pos 1"), ("s", b"[/", b"expected value, pos 2"),
    ("s", b"1/", b"trailing characters, pos 2"), ("s", b"1 /x", b"trailing characters, pos 3"),
    ("s", b"[1/2]", b"expected `,` or `]`, pos 2"), ("e", b"1 // a", b"1"), ("e", b"1/**/", b"1"),
    ("e", b'"a"//', b'"a"'), ("e", b"// \xff\n1", b"1"), ("e", b"{/*", b"EOF while parsing a value, pos 3"),
    ("e", b"{a:1//", b"EOF while parsing a value, pos 6"), ("s", b"-/**/1", b"invalid number, pos 1"),
    ("se", b'"/*a*/"', b'"/*a*/"'), ("se", b'"// a"', b'"// a"'), ("e", b"1/**/2", b"trailing characters, pos 6"),
    ("e", b"n/**/ull", b"expected ident, pos 2"), ("e", b"{a/**/b:1}", b"expected `:`, pos 6"),
    ("s", b"/**/1", b"expected value, pos 1"), ("e", b"/*\xff*/[1]", b"[1]"), ("e", b"[1]//\xff", b"[1]"),
    ("e", b"//\xff", b"null"), ("e", b"{a/*\xc3*/:'b'}", b'{"a":"b"}'), ("e", b'[1,//\xf0\n"b"]', b'[1,"b"]'),
    ("e", b'[\'\\n\'/*\xff*/,"\xc3\xa9",]', b'["\\n","\xc3\xa9",null]'),
    ("e", b"[1/*\xff", b"EOF while parsing a value, pos 5"), ("e", b"[1/*\xff*/2]", b"expected `,` or `]`, pos 7"),
    ("e", b'[/*\xff*/"\xff"]', b"invalid string, pos 9"), ("s", b"[1]//\xff", b"trailing characters, pos 4"),
    ("s", b" ", b"EOF while parsing a value, pos 1"), ("e", b" ", b"null"),
    ("s", b" \r\n\t", b"EOF while parsing a value, pos 4"), ("e", b" \r\n\t", b"null"),
    ("s", b"\\n\\r\\t\\x0C", b"EOF while parsing a value, pos 10"), ("e", b"\\n\\r\\t\\x0C", b"null"),
    ("e", b" /*a*/\n/**/ ", b"null"), ("e", b" // a\n ", b"null"), ("e", b"[1/*a*/,//b\n2] //c", b"[1,2]"),
    # Of two faults the first is told.
    ("se", b"[1 2,x]", b"expected `,` or `]`, pos 3"), ("se", b'{"a" 1:x}', b"expected `:`, pos 5"),
    ("se", b'{"a":1 "a":2}', b"expected `,` or `}`, pos 7"),
    ("se", b'[{"a":1,"a":2},x]', b'duplicate object attribute "a", pos 11'),
    ("e", b"{1a:x}", b"object attribute name cannot be a number, pos 2"),
    ("e", b"{:x}", b"object attribute name cannot be invalid character, pos 1"),
    ("s", b"[01,1.5]", b"invalid number, pos 3"), ("s", b"[1.5,01]", b"number not carried, pos 4"),
    ("e", b"[1..,1e5]", b"invalid number, pos 3"), ("e", b"[1e5,1..]", b"number not carried, pos 4"),
    ("se", b'["\xff",x]', b"invalid string, pos 4"), ("se", b'["\\z\\q"]', b"invalid escaped '7A', pos 5"),
    ("se", b'["\\u00G0\\z"]', b"invalid hex '47', pos 9"),
    ("se", b'["\\u{00}12\\z"]', b"unexpected end of hex escape, pos 5"),
    ("se", b'["\\z', b"EOF while parsing a value, pos 4"), ("se", b"[trux,1 2]", b"expected ident, pos 5"),
    ("se", b"[x,1 2]", b"expected value, pos 2"), ("se", b"1 2 x", b"trailing characters, pos 3"),
]

# Bodies of strings, with their texts or rejections and the indexes that are left.
BODIES = [
    (b"hello\\nworld", "hello\nworld", 12), (b'\\"\\\\\\b\\f\\n\\r\\t', '"\\\b\f\n\r\t', 14),
    (b"forward\\/slash", "forward/slash", 14), (b"Unicode: \\u{00A9} \\u{00AE}", "Unicode: \xa9 \xae", 26),
    (b"\\u007F", "\x7f", 6), (b"\\u0000", "\0", 6), (b"\\u0041\\u0042\\u0043", "ABC", 18),
    (b"CJK: \\u4E2D\\u6587", "CJK: \u4e2d\u6587", 17), (b'a"b', 'a"b', 3), (b"", "", 0),
    (b"\\u{00}", ("UnexpectedEndOfHexEscape", 2), 2), (b"\\u{0041x", ("UnexpectedEndOfHexEscape", 2), 2),
    (b"\\u{00G1}", ("InvalidHex", 8, 71), 8), (b"\\uD800\\uDC0", ("UnexpectedEndOfHexEscape", 8), 8),
    (b"\\z", ("InvalidEscaped", 2, 122), 2), (b"\\u123", ("UnexpectedEndOfHexEscape", 2), 2),
    (b"\\uGHIJ", ("InvalidHex", 6, 71), 6), (b"\\'", ("InvalidEscaped", 2, 39), 2),
    (b"ab\\", ("UnexpectedEndOfHexEscape", 3), 3), (b"\xff\\n", ("InvalidStringValue", 3), 3),
    (b"\\n\xffab", ("InvalidStringValue", 5), 5),
]

# The written text of some values, in extended mode.
WRITTEN = [
    (b"'say \"x\"'", b'"say \\"x\\""'), (b'"\\uD800\\n"', b'"\\\\uD800\\n"'),
    (b'"\\u0001\\u001F\\u007f\\b"', b'"\\u0001\\u001f\x7f\\u0008"'), (b"-0.05", b"-0.05"), (b"-0.0", b"0.0"),
    (b"+007", b"7"), (b".5", b"0.5"), (b"1.00", b"1.00"), (b"-12.5", b"-12.5"),
    (b"[,/**/{'b\"':1,a:tRUE}]", b'[null,{"a":true,"b\\"":1}]'), (b"'/'", b'"/"'), (b'"\xc3\xa9"', b'"\xc3\xa9"'),
]

# Values upwards, in extended mode; those of one line are equal.
UPWARDS = [
    [b"false"], [b"true"], [b"-0x8000000000000001"], [b"-1.5"], [b"-1", b"-1.0"], [b"-0.1"],
    [b"0", b"-0", b"-0x0", b"0.00"],
    [b"0." + b"0" * 37 + b"1"], [b"5", b"5.", b"0x5", b"+05.0"], [b"12", b"12.0"], [b"12.1"], [b"12.34", b"12.340"],
    [b"0xFFFFFFFFFFFFFFFF"], [b"0x10000000000000000"], [b"''"], [b"'a'", b'"\\u0061"'], [b"'a\\u0000'"], [b"'b'"],
    [b"'\xc3\xa9'"],
    [b"{}"], [b"{'':1}"], [b"{a:1}", b"{'a':1.0}"], [b"{a:1,b:0}", b"{b:0,a:1}"], [b"{a:2}"], [b"{a:[]}"], [b"{b:1}"],
    [b"[]", b"[/**/]"], [b"[1]", b"[1.0]"], [b"[1,0]"], [b"[2]"], [b"[,]"], [b"null", b"", b"//"],
]


# Numbers, spelled as in a tree, with their exact casts and with their rounded ones: to 128 bits, `i64` and `u64`.
CASTS = [
    ("Decimal64(200,0)", (0, 0, 0), (0, 0, 0)), ("Decimal64(200,1)", (None, None, None), (0, 0, 0)),
    ("Decimal64(1,1234)", (None, None, None), (123, 123, 123)),
    ("Decimal128(1,-1230)", (-123, -123, None), (-123, -123, None)),
    (f"UInt64({2 ** 64 - 1})", (2 ** 64 - 1, None, 2 ** 64 - 1), (2 ** 64 - 1, None, 2 ** 64 - 1)),
    ("Decimal64(1,-5)", (None, None, None), (-1, -1, None)), ("Decimal64(1,-4)", (None, None, None), (0, 0, 0)),
    ("Decimal128(1,-1235)", (None, None, None), (-124, -124, None)),
    ("Decimal128(1,92233720368547758075)", (None, None, None), (2 ** 63, None, 2 ** 63)),
    (f"Decimal128(38,{5 * 10 ** 37})", (None, None, None), (1, 1, 1)),
    (f"Decimal128(38,{5 * 10 ** 37 - 1})", (None, None, None), (0, 0, 0)),
    (f"Decimal128(38,{2 ** 127 - 1})", (None, None, None), (2, 2, 2)),
    (f"Decimal128(39,{2 ** 127 - 1})", (None, None, None), (0, 0, 0)),
    (f"Decimal128(38,{-2 ** 127})", (None, None, None), (-2, -2, None)),
    (f"Decimal128(39,{-2 ** 127})", (None, None, None), (0, 0, 0)),
]

# Numbers with their texts.
NUMBER_TEXTS = [
    (f"Int64({-2 ** 63})", "-9223372036854775808"), (f"UInt64({2 ** 64 - 1})", "18446744073709551615"),
    ("Decimal64(0,5)", "5"), ("Decimal128(2,100)", "1.00"),
    ("Decimal64(39,1)", "0.000000000000000000000000000000000000001"),
    (f"Decimal128(0,{10 ** 38})", "100000000000000000000000000000000000000"),
    ("Int64(0)", "0"), ("Decimal64(2,0)", "0.00"), ("Decimal64(2,-5)", "-0.05"), ("Decimal64(0,-5)", "-5"),
    (f"Decimal64(1,{2 ** 63 - 1})", "922337203685477580.7"),
    (f"Decimal64(255,{-2 ** 63})", "-0." + "0" * 236 + "9223372036854775808"),
    (f"Decimal128(38,{2 ** 127 - 1})", "1.70141183460469231731687303715884105727"),
    (f"Decimal128(40,{-2 ** 127})", "-0.0170141183460469231731687303715884105728"),
    (f"Decimal128(255,{-2 ** 127})", "-0." + "0" * 216 + "170141183460469231731687303715884105728"),
]

# What arithmetic answers.
ARITHMETIC = [
    ("add", "Int64(-1)", f"UInt64({2 ** 63})", f"Int64({2 ** 63 - 1})"),
    ("add", f"UInt64({2 ** 64 - 1})", "Int64(-1)", "Int64 overflow"),
    ("add", f"UInt64({2 ** 64 - 1})", "Int64(1)", "UInt64 overflow"), ("add", "Int64(5)", "UInt64(1)", "UInt64(6)"),
    ("add", "Int64(5)", "Int64(-7)", "Int64(-2)"), ("add", "UInt64(1)", "Decimal128(0,1)", "UnexpectedType"),
    ("mul", "Int64(-1)", f"UInt64({2 ** 63})", f"Int64({-2 ** 63})"),
    ("mul", "Int64(-2)", f"UInt64({2 ** 63})", "Int64 overflow"),
    ("mul", "UInt64(2)", f"UInt64({2 ** 63})", "UInt64 overflow"), ("mul", "UInt64(3)", "Int64(-2)", "Int64(-6)"),
    ("mul", "Decimal64(0,1)", "UInt64(1)", "UnexpectedType"),
    ("sub", "Int64(5)", f"UInt64({2 ** 63})", "Int64(-9223372036854775803)"),
    ("sub", f"UInt64({2 ** 64 - 1})", f"UInt64({2 ** 64 - 1})", "Int64(0)"),
    ("sub", "UInt64(0)", "UInt64(1)", "Int64(-1)"), ("sub", f"Int64({-2 ** 63})", "Int64(1)", "Int64 overflow"),
    ("sub", f"UInt64({2 ** 64 - 1})", "UInt64(0)", "UInt64 overflow"),
    ("sub", f"UInt64({2 ** 64 - 1})", "Int64(-1)", "Int64 overflow"),
    ("rem", "Int64(-7)", f"UInt64({2 ** 64 - 1})", "Int64(-7)"),
    ("rem", f"UInt64({2 ** 64 - 1})", "Int64(-2)", "Int64(1)"), ("rem", "Int64(7)", "UInt64(4)", "UInt64(3)"),
    ("rem", "Int64(-7)", "Int64(2)", "Int64(-1)"), ("rem", "UInt64(7)", "UInt64(4)", "UInt64(3)"),
    ("rem", f"UInt64({2 ** 63})", "Int64(-1)", "Int64(0)"),
    ("rem", f"Int64({-2 ** 63})", "Int64(-1)", "Int64 overflow"),
    ("rem", "UInt64(3)", "UInt64(0)", "Division by zero"), ("rem", "Decimal64(1,5)", "Int64(0)", "UnexpectedType"),
]

# What `neg` answers.
OPPOSITES = [
    (f"UInt64({2 ** 63})", "Int64 overflow"), (f"Int64({-2 ** 63})", "Int64 overflow"), ("UInt64(5)", "Int64(-5)"),
    (f"Decimal64(0,{-2 ** 63})", "Decimal64 overflow"), (f"Decimal128(3,{-2 ** 127})", "Decimal128 overflow"),
    ("Decimal64(3,-7)", "Decimal64(3,7)"),
]

# The order of two numbers: products within 128 bits, just within, and past them.
ORDERED_NUMBERS = [
    ("Decimal128(0,17014118346046923173168730371588410572)", f"Decimal128(1,{2 ** 127 - 1})", "less"),
    ("Decimal128(0,17014118346046923173168730371588410573)", f"Decimal128(1,{2 ** 127 - 1})", "greater"),
    (f"Decimal128(0,{2 ** 127 - 1})", f"Decimal128(38,{2 ** 127 - 1})", "greater"),
    ("Decimal64(0,1)", f"Decimal128(255,{2 ** 127 - 1})", "greater"),
    ("Decimal64(0,-1)", f"Decimal128(255,{-2 ** 127})", "less"),
    ("Decimal128(255,1)", "Decimal128(0,0)", "greater"), ("Decimal128(0,0)", "Decimal128(255,0)", "equal"),
    ("Decimal64(2,1234)", "Decimal128(3,12340)", "equal"), ("Int64(12)", "Decimal64(1,121)", "less"),
    (f"UInt64({2 ** 64 - 1})", f"Decimal128(0,{2 ** 63 - 1})", "greater"), ("Int64(5)", "UInt64(5)", "equal"),
]

# Sort keys of numbers.
NUMBER_KEYS = [
    ("Decimal128(0,0)", "80"), ("Decimal128(255,0)", "80"), ("Decimal128(0,1)", "a114"), ("UInt64(1)", "a114"),
    ("Decimal128(2,100)", "a114"), ("Decimal128(0,42)", "a254"), ("Int64(42)", "a254"),
    ("Decimal128(0,123)", "a3193c"), ("UInt64(65535)", "a5836b64"), ("Decimal128(0,1000)", "a414"),
    ("Decimal128(1,5)", "a064"), ("Decimal64(2,314)", "a13f50"), ("Decimal128(30,1)", "8314"),
    ("Decimal128(31,1)", "8214"), ("Decimal128(32,1)", "81e014"), ("Decimal128(255,1)", "810114"),
    ("Decimal128(0,-42)", "5dab"), ("Decimal128(2,-5)", "609b"),
    (f"Decimal128(0,{2 ** 127 - 1})", "c72303532545795db93f9321af3d4b1fb1530b918c"),
]

# Sort keys of texts in extended mode.
KEYS_OF_TEXTS = [
    (b"''", "d00001"), (b"'a'", "d0610001"), (b"[1,null]", "d2a114d300"), (b"'\\u0000'", "d000ff0001"),
    (b"{b:2,a:1.0}", "d1610001a114620001a1280000"), (b"true", "16"), (b"false", "15"), (b"[]", "d200"),
    (b"{}", "d10000"), (b"null", "d3"), (b"'a\\u0000b'", "d06100ff620001"),
    (b"{b:.5,a:0x1F}", "d1610001a23e620001a0640000"),
]


def parts_of(rejection):
    argument = () if rejection.argument is None else (rejection.argument,)
    return (rejection.code, rejection.position, *argument)


def answer_of(text, mode):
    try:
        return reference.described(reference.read(text, mode))
    except reference.Rejection as rejection:
        return parts_of(rejection)


def printed_of(text, mode):
    try:
        return reference.written(reference.read(text, mode))
    except reference.Rejection as rejection:
        return rejection.printed()


def answer_of_body(data):
    body = reference.Body(data, 0, reference.STANDARD)
    try:
        return body.decoded().decode(), body.idx
    except reference.Rejection as rejection:
        return parts_of(rejection), body.idx


def faults_of_reading():
    for modes, text, wanted in ROWS:
        for mode in modes:
            found = answer_of(text, MODES[mode])
            if found != wanted:
                yield f"{MODES[mode]} {text[:80]!r}: {found}, and not {wanted}"
    for modes, text, wanted in PRINTED:
        for mode in modes:
            found = printed_of(text, MODES[mode])
            if found != wanted:
                yield f"{MODES[mode]} {text[:80]!r}: {found!r}, and not {wanted!r}"
    for body, *wanted in BODIES:
        found = answer_of_body(body)
        if found != tuple(wanted):
            yield f"body {body!r}: {found}, and not {wanted}"


def faults_of_writing():
    for text, wanted in WRITTEN:
        found = reference.written(reference.read(text, reference.EXTENDED))
        if found != wanted:
            yield f"{text!r} is written {found}, and not {wanted}"


def faults_of_order():
    places = [(place, text) for place, equal in enumerate(UPWARDS) for text in equal]
    for (i, left), (j, right) in itertools.product(places, places):
        wanted = "equal" if i == j else "less" if i < j else "greater"
        if reference.answer_pair(left, right, reference.EXTENDED) != wanted:
            yield f"{left!r} and {right!r}: not {wanted}"


def known_of_numbers():
    """Each row of numbers with what the reference answers of it, and what it is to answer."""
    number = reference.number_of
    for word, casts, nearest in CASTS:
        wanted = " ".join(str("none" if cast is None else cast) for cast in casts + nearest)
        yield word, " ".join(reference.answer_number(number(word)).split(" ")[1:7]), wanted
    for word, text in NUMBER_TEXTS:
        yield word, reference.answer_number(number(word)).split(" ")[0], text
    for name, left, right, wanted in ARITHMETIC:
        found = reference.operated(name, number(left), number(right))
        yield f"{name} of {left} and {right}", found if isinstance(found, str) else reference.described(found), wanted
    for word, wanted in OPPOSITES:
        found = reference.negated(number(word))
        yield f"neg of {word}", found if isinstance(found, str) else reference.described(found), wanted
    for left, right, wanted in ORDERED_NUMBERS:
        yield f"{left} and {right}", reference.answer_two_numbers(number(left), number(right)).split(" ")[0], wanted
    for word, wanted in NUMBER_KEYS:
        yield f"key of {word}", reference.answer_number(number(word)).split(" ")[-1], wanted
    for text, wanted in KEYS_OF_TEXTS:
        yield f"key of {text!r}", reference.answer_key(text), f"ok {wanted}"


def faults_of_numbers():
    for what, found, wanted in known_of_numbers():
        if found != wanted:
            yield f"{what}: {found}, and not {wanted}"


def main():
    """Prints what the reference answers in another way."""
    faults = [*faults_of_reading(), *faults_of_writing(), *faults_of_order(), *faults_of_numbers()]
    texts = len(ROWS) + len(PRINTED)
    counts = f"{texts} texts, {len(BODIES)} bodies, {len(WRITTEN)} written texts, {len(UPWARDS)} places in the order"
    rows = len(list(known_of_numbers()))
    print("\n".join(faults) or f"the reference gives what is known: {counts}, {rows} rows of numbers and keys")
    sys.exit(1 if faults else 0)


if __name__ == "__main__":
    main()
