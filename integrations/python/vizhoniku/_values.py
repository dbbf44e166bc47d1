"""Values of Python and documents: what Key.value and Document.value return, the text of what Key.of and Document.of
take, and what float, int and slices make of keys.

Neither calls itself, so that a document of 512 levels takes no more of the stack than a flat one.
"""

import itertools
import json
import re
import sys
from decimal import Decimal
from typing import Any, Iterable, Iterator, List, NoReturn, Optional, Set, Tuple, Type, Union

from ._common import TOO_DEEP, pointer

_LEVELS = 512  # arrays and objects in one another
_DIGITS = 38  # of a number, before and behind the point together

_decode = json.JSONDecoder(parse_float=Decimal).decode
_quote = json.JSONEncoder(ensure_ascii=False).encode  # of a str


def value_of(stored: Any) -> Any:
    """The value of a key or a document: a number that has a point in the text is a Decimal, any other an int."""
    text: str = stored.text()
    try:
        return _decode(text)
    except RecursionError:  # which json raises where the caller's calls are deep already
        return _value_by_parts(getattr(stored, "key", stored), text)


_NUMBERS = re.compile(r'"(?:[^"\\]|\\.)*"|(-?[0-9.]+)')


def _value_by_parts(key: Any, text: str) -> Any:
    """The value of a key, with the numbers of the text, which come in the order of the key's parts."""
    numbers = (found[1] for found in _NUMBERS.finditer(text) if found[1])
    whole: List[Any] = []
    open_ones: List[Tuple[Iterator[Tuple[Any, Any]], Any]] = [(iter([(None, key)]), whole)]
    while open_ones:
        parts, into = open_ones[-1]
        for name, part in parts:
            kind = part.kind
            made: Any = {} if kind == "object" else [] if kind == "array" else \
                _decode(next(numbers) if kind == "number" else part.text())
            if isinstance(into, list):
                into.append(made)
            else:
                into[name] = made
            if kind in ("object", "array"):
                open_ones.append((part.items() if kind == "object" else ((None, item) for item in part), made))
                break
        else:
            open_ones.pop()
    return whole[0]


def float_of(stored: Any) -> float:
    """The float nearest to the number of a key or a document."""
    return float(stored.text())


def int_of(stored: Any) -> int:
    """The int that the number of a key or a document is. ValueError where it has a fraction."""
    text: str = getattr(stored, "key", stored).text()  # of a key, where 2.00 is 2
    if "." in text:
        raise ValueError(f"{text} is no whole number")
    return int(text)


def items_of(array: Any, which: slice) -> List[Any]:
    """The items that a list would have in the slice. The array is walked through once, up to the last of them."""
    wanted = range(*which.indices(len(array)))
    if not wanted:
        return []
    rising = wanted if wanted.step > 0 else wanted[::-1]
    items = list(itertools.islice(array, rising[0], rising[-1] + 1, min(rising.step, sys.maxsize)))
    return items if wanted.step > 0 else items[::-1]


def text_of(value: object, stored: Tuple[type, ...], keeps_zeros: bool) -> str:
    """The JSON text of a value, where one of the types in it, keys and documents, stands for its value. TypeError or
    ValueError where it has none, with the path of what has none."""
    return _Writer(stored, keeps_zeros).write(value)


def _decimal(value: Decimal, keeps_zeros: bool) -> Optional[str]:
    """The text of a finite number, exactly, perhaps with the zeros that end its decimals; None where it has too many
    digits."""
    sign, digits, exponent = value.as_tuple()
    text = "".join(map(str, digits))
    kept = text if keeps_zeros and int(exponent) < 0 else text.rstrip("0")
    power = int(exponent) + len(text) - len(kept)  # the value is the kept digits times 10 to this
    if not kept:
        return "0"
    if len(kept) + max(power, 0) > _DIGITS or -power > _DIGITS:
        return None
    if power >= 0:
        return "-" * sign + kept + "0" * power
    kept = kept.zfill(1 - power)
    return "-" * sign + kept[:power] + "." + kept[power:]


class _Level:
    """A dict, a list or a tuple that is written: what is left of it, and the name or the index of what is written."""

    __slots__ = ("container", "parts", "step", "end")

    def __init__(self, container: object, parts: Iterable[Tuple[Any, Any]], end: str) -> None:
        self.container = container
        self.parts = iter(parts)
        self.step: Union[str, int, None] = None
        self.end = end


class _Writer:
    def __init__(self, stored: Tuple[type, ...], keeps_zeros: bool) -> None:
        self._stored = stored
        self._keeps_zeros = keeps_zeros
        self._out: List[str] = []
        self._levels: List[_Level] = []
        self._open: Set[int] = set()  # the identities of the containers

    def write(self, value: object) -> str:
        self._value(value)
        while self._levels:
            level = self._levels[-1]
            is_first = level.step is None
            for level.step, part in level.parts:
                if not is_first:
                    self._out.append(",")
                if isinstance(level.step, str):
                    self._out.append(_quote(level.step) + ":")
                self._value(part)
                break
            else:
                self._out.append(level.end)
                self._open.remove(id(level.container))
                self._levels.pop()
        return "".join(self._out)

    def _fail(self, error: Type[Exception], words: str) -> NoReturn:
        path = pointer(*(level.step for level in self._levels if level.step is not None))
        raise error(f"{words} at {path}" if path else words)

    def _value(self, value: object) -> None:
        """Writes a scalar, or begins with a container."""
        if value is None:
            self._out.append("null")
        elif isinstance(value, str):
            self._utf8(value, "a string")
            self._out.append(_quote(value))
        elif isinstance(value, bool):
            self._out.append("true" if value else "false")
        elif isinstance(value, (int, float, Decimal)):
            self._out.append(self._number(value))
        elif isinstance(value, dict):
            self._begin(value, self._members(value), "{", "}")
        elif isinstance(value, (list, tuple)):
            self._begin(value, enumerate(value), "[", "]")
        elif isinstance(value, self._stored):
            self._out.append(value.text())  # type: ignore[attr-defined]
        else:
            self._fail(TypeError, "a value is a dict, list, tuple, str, int, float, Decimal, bool, None, Key or"
                       f" Document, and not {type(value).__name__}")

    def _number(self, value: Union[int, float, Decimal]) -> str:
        if isinstance(value, int):
            text = int.__repr__(value) if -10**_DIGITS < value < 10**_DIGITS else None
        else:
            exact = Decimal(float.__repr__(value)) if isinstance(value, float) else value
            if not exact.is_finite():
                self._fail(ValueError, f"{exact} is no number of JSON")
            text = _decimal(exact, self._keeps_zeros)
        if text is None:
            self._fail(ValueError, "number not carried")
        return text

    def _utf8(self, text: str, what: str) -> None:
        try:
            str.encode(text)
        except UnicodeEncodeError:
            self._fail(ValueError, f"{what} has half of a surrogate pair")

    def _begin(self, container: object, parts: Iterable[Tuple[Any, Any]], begin: str, end: str) -> None:
        if id(container) in self._open:
            self._fail(ValueError, "circular reference")
        if len(self._levels) == _LEVELS:
            self._fail(ValueError, TOO_DEEP)
        self._out.append(begin)
        self._open.add(id(container))
        self._levels.append(_Level(container, parts, end))

    def _members(self, members: "dict[Any, Any]") -> List[Tuple[str, Any]]:
        """The members of an object, whose names are read before any of them is written."""
        for name in members:
            if not isinstance(name, str):
                self._fail(TypeError, f"a name is a str, and not {type(name).__name__}")
            self._utf8(name, "a name")
        if len({str.__str__(name) for name in members}) < len(members):
            self._fail(ValueError, "a name is there twice")
        return list(members.items())
