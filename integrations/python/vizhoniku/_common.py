"""Modes, texts, paths and errors."""

import enum
from typing import Optional, Union

Text = Union[str, bytes, bytearray, memoryview]

BAD_PATH = ("the path is no JSON Pointer (RFC 6901): it is empty or begins with /, and ~ occurs only in ~0 and ~1")
NO_KEY = "the bytes aren't a sort key"
NO_DOCUMENT = "the bytes aren't a document"
TOO_DEEP = "more than 512 nested arrays and objects"
NO_NAME = "the name isn't UTF-8"


class Mode(enum.IntEnum):
    """Which grammar a text is read by."""

    STANDARD = 0  # JSON as RFC 8259 has it, numbers as integers of 64 bits alone
    EXTENDED = 1  # also decimals, hexadecimals, comments, single quotes, keys without quotes and more
    JSON = 2  # RFC 8259 to the letter, with fractions and exponents at their exact value
    EXTENDED_JSON = 3  # extended, with exponents


STANDARD = Mode.STANDARD
EXTENDED = Mode.EXTENDED
JSON = Mode.JSON
EXTENDED_JSON = Mode.EXTENDED_JSON


def pointer(*steps: Union[str, int]) -> str:
    """The path that names and indices lead along, a JSON Pointer (RFC 6901): pointer("a/b", 0) is "/a~1b/0".

    Without a step it is "", the path of the whole. A step of another type raises TypeError.
    """
    return "".join("/" + _step(step) for step in steps)


def _step(step: Union[str, int]) -> str:
    if isinstance(step, str):
        return str.__str__(step).replace("~", "~0").replace("/", "~1")
    if isinstance(step, int):
        return int.__repr__(step)
    raise TypeError(f"a name is a str and an index an int, and not {type(step).__name__}")


class RejectedText(ValueError):
    """A text that is no document of its mode.

    index, line and column are those of the fault: the index is counted from 0, line and column from 1. They count
    characters where the text is a str, and bytes otherwise. path is that of the innermost item or member at which the
    text was rejected, as a JSON Pointer ("" is the whole), or None where it isn't known. message says what is
    wrong, code is its number, and which is 1, or 2 where the second text of a comparison is rejected.
    """

    def __init__(self, message: str, code: int, which: int, index: int, line: int, column: int,
                 path: Optional[str] = None) -> None:
        super().__init__(message, code, which, index, line, column, path)
        self.message = message
        self.code = code
        self.which = which
        self.index = index
        self.line = line
        self.column = column
        self.path = path

    def __str__(self) -> str:
        second = "second text, " if self.which == 2 else ""
        return f"{second}line {self.line}, column {self.column}: {self.message}"


class PathError(ValueError):
    """A path that is no JSON Pointer (RFC 6901)."""


def _characters(data: bytes) -> int:
    """How many characters begin in bytes that came from a str."""
    return sum(byte & 0xC0 != 0x80 for byte in data)


def rejection(text: Text, data: bytes, words: bytes, code: int, which: int, index: int, line: int, column: int,
              path: Optional[str]) -> RejectedText:
    """The error for a text, whose bytes are the data: with the words, the location in bytes and the path that the
    library reports."""
    if isinstance(text, str):
        begins = index - (column - 1)  # of the line
        until = index + 1 if index < len(data) else index
        past = 0 if index < len(data) else 1
        column = _characters(data[begins:until]) + past
        index = _characters(data[:until]) + past - 1
    return RejectedText(words.decode("utf-8", "replace"), code, which, index, line, column, path)
