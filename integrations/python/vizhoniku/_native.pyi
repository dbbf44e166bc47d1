"""The calls of the library by a module in C."""

from typing import Any, Iterator, List, Optional, Tuple, TypeVar, Union, final, overload

from ._common import EXTENDED_JSON, Text

_T = TypeVar("_T")

INTERFACE: int

def check(text: Text, mode: int = EXTENDED_JSON) -> None:
    """Raises RejectedText where the text is no document of the mode."""

def is_valid(text: Text, mode: int = EXTENDED_JSON) -> bool:
    """Whether the text is a document of the mode."""

def text(text: Text, mode: int = EXTENDED_JSON) -> str:
    """The text of the document's value: no whitespace, and members in the order of their keys' bytes.

    Raises RejectedText where the text is no document of the mode.
    """

def sort_key(text: Text, mode: int = EXTENDED_JSON) -> bytes:
    """Bytes that compare as the values of documents do: equal for equal values, and none the beginning of others.

    Raises RejectedText where the text is no document of the mode.
    """

def text_and_key(text: Text, mode: int = EXTENDED_JSON) -> Tuple[str, bytes]:
    """What text and sort_key return, of one reading. Raises RejectedText as they do."""

def get(text: Text, path: Text, mode: int = EXTENDED_JSON) -> Optional[str]:
    """The text of the part at the path, a JSON Pointer (RFC 6901), or None where there is none.

    The path "" is the whole document, and "/a/0" the first item of the member "a". PathError is raised where the path
    is no JSON Pointer, and RejectedText where the text is no document of the mode.
    """

def compare(left: Text, right: Text, mode: int = EXTENDED_JSON) -> int:
    """-1, 0 or 1: the first document's value is below the second's, equal to it, or above it.

    Raises RejectedText where one is no document of the mode: its which is 2 for the second.
    """


@final
class Key:
    """A document as its sort key: bytes that compare as the values do. Its parts are found in them.

    Keys are compared and hashed by their bytes, so by value. An array is iterated over its items, which are keys, and
    an object over the names of its members, which are str; len counts either. key[name] is the key of a member,
    key[index] that of an item, and key[1:3] a list of those of items. float takes a number, and int one without a
    fraction. A key is always true. RejectedText is raised where the text is no document of the mode.
    """

    def __new__(cls, text: Text, mode: int = EXTENDED_JSON) -> Key: ...
    @classmethod
    def from_bytes(cls, data: Union[bytes, bytearray, memoryview]) -> Key:
        """The key that bytes(key) was. Raises ValueError where the bytes aren't a sort key."""

    @classmethod
    def of(cls, value: Any) -> Key:
        """The key of a value: a dict, list, tuple, str, int, float, Decimal, bool, None, a key or a document.

        The names of a dict are str. A float is the decimal that repr shows, and a Decimal is exact. TypeError is raised
        for another type, and ValueError for a number of more than 38 digits, NaN, infinity, half of a surrogate pair
        and more than 512 nested arrays and objects.
        """

    def value(self) -> Any:
        """The value: a dict, list, str, int, Decimal, bool or None. A number without a fraction is an int."""

    @property
    def kind(self) -> str:
        """null, boolean, number, string, array or object."""

    def __bytes__(self) -> bytes:
        """The bytes that from_bytes takes."""

    def text(self) -> str:
        """The text of the value, with the fewest digits in each number."""

    @overload
    def get(self, path: Text, default: None = None) -> Optional[Key]:
        """The part at the path, a JSON Pointer (RFC 6901), or the default where there is none.

        A name alone is no path: its path is "/name", or pointer(name) where the name may have a / or a ~. Raises
        PathError where the path is none.
        """

    @overload
    def get(self, path: Text, default: _T) -> Union[Key, _T]: ...
    def contains(self, other: Any) -> bool:
        """Whether the value contains another one, as @> of PostgreSQL's jsonb: a key or what Key.of takes."""

    def set(self, path: Text, value: Any, create: bool = True) -> Key:
        """The key with the part at the path set to the value, which is a key or what Key.of takes.

        Where only the last step leads nowhere, a member or an item is added, unless create is false. In an array -1 is
        the last item, and an index past either end adds one there. The key itself where nothing changes. Raises
        PathError where the path is none, and ValueError where the key would nest too deep.
        """

    def remove(self, path: Text) -> Key:
        """The key without the part at the path, or the key itself where there is none.

        In an array -1 is the last item. Raises PathError where the path is none.
        """

    def put(self, name: str, value: Any) -> Key:
        """The key of an object with a member of this name and value, which is a key or what Key.of takes.

        Raises TypeError of another kind, and ValueError where the key would nest too deep.
        """

    def push(self, item: Any) -> Key:
        """The key of an array with an item more at its end, which is a key or what Key.of takes.

        Raises TypeError of another kind, and ValueError where the key would nest too deep.
        """

    def merge(self, other: Any) -> Key:
        """The key merged with another value, as || of PostgreSQL's jsonb does: a key or what Key.of takes.

        Two objects become one with the members of both, where those of the other win. Else two arrays become one, for
        which a value that is no array is an array of itself.
        """

    def items(self) -> Iterator[Tuple[str, Key]]:
        """The members of an object, in the order of their names' bytes: pairs of the name, a str, and the part.

        Raises TypeError of another kind.
        """

    @overload
    def __getitem__(self, which: Union[str, int]) -> Key:
        """The member of a name, the item of an index, or a list of the items of a slice.

        Raises KeyError or IndexError where there is none, and TypeError of another kind.
        """

    @overload
    def __getitem__(self, which: slice) -> List[Key]: ...
    def __iter__(self) -> Iterator[Any]:
        """The items of an array, or the names of an object. Raises TypeError of another kind."""

    def __reversed__(self) -> Iterator[Any]:
        """The same as iter, from the last one on."""

    def __len__(self) -> int:
        """How many items an array has, or how many members an object. Raises TypeError of another kind."""

    def __bool__(self) -> bool:
        """True, also of [] and of false, so that a part is told from the None of get."""

    def __contains__(self, part: object) -> bool:
        """Whether an object has the name, or an array an item that equals the part."""

    def __float__(self) -> float:
        """The float nearest to a number. Raises TypeError of another kind."""

    def __int__(self) -> int:
        """The int that a number is. Raises ValueError where it has a fraction, and TypeError of another kind."""

    def __copy__(self) -> Key:
        """The same, since it doesn't change."""

    def __deepcopy__(self, memo: Any) -> Key:
        """The same, since it doesn't change."""

    def __eq__(self, other: object) -> bool: ...
    def __lt__(self, other: Key) -> bool: ...
    def __le__(self, other: Key) -> bool: ...
    def __gt__(self, other: Key) -> bool: ...
    def __ge__(self, other: Key) -> bool: ...
    def __hash__(self) -> int: ...


@final
class Document:
    """A value as a store keeps it: its sort key, and behind it the zeros that end its decimals, so 1.50 stays 1.50.

    Documents are compared and hashed by their bytes: they are in the order of their values, and those of equal values
    in that of these zeros. Two are equal where their texts are. A key's bytes are the document of a value without such
    zeros. Parts are found as in a key, and are documents. RejectedText is raised where the text is no document of the
    mode.
    """

    def __new__(cls, text: Text, mode: int = EXTENDED_JSON) -> Document: ...
    @classmethod
    def from_bytes(cls, data: Union[bytes, bytearray, memoryview]) -> Document:
        """The document that bytes(document) was, or the one that bytes(key) is.

        Raises ValueError where the bytes aren't a document.
        """

    @classmethod
    def from_trusted_bytes(cls, data: Union[bytes, bytearray, memoryview]) -> Document:
        """The same of bytes that aren't checked.

        Of others than from_bytes takes the calls find nothing, or something in them, or raise ValueError.
        """

    @classmethod
    def of(cls, value: Any) -> Document:
        """The document of a value: a dict, list, tuple, str, int, float, Decimal, bool, None, a key or a document.

        It is as Key.of, but a Decimal has all its digits, and a float those that repr shows. ValueError is raised where
        these are more than 38.
        """

    @property
    def key(self) -> Key:
        """The sort key of the value."""

    def value(self) -> Any:
        """The value: a dict, list, str, int, Decimal, bool or None. A Decimal has all digits of the number."""

    def __bytes__(self) -> bytes:
        """The bytes that from_bytes takes."""

    def text(self) -> str:
        """The text of the value, with all digits of each number."""

    @overload
    def get(self, path: Text, default: None = None) -> Optional[Document]:
        """The part at the path, a JSON Pointer (RFC 6901), or the default where there is none.

        Raises PathError where the path is none.
        """

    @overload
    def get(self, path: Text, default: _T) -> Union[Document, _T]: ...
    def contains(self, other: Any) -> bool:
        """Whether the value contains another one, as @> of PostgreSQL's jsonb: zeros at the end don't count."""

    def set(self, path: Text, value: Any, create: bool = True) -> Document:
        """The document with the part at the path set to the value, a document or what Document.of takes.

        It is as Key.set, with all digits. The document itself where nothing changes. Raises what Key.set raises.
        """

    def remove(self, path: Text) -> Document:
        """The document without the part at the path, or the document itself where there is none.

        In an array -1 is the last item. Raises PathError where the path is none.
        """

    def put(self, name: str, value: Any) -> Document:
        """The document of an object with a member of this name and value, a document or what Document.of takes.

        Raises TypeError of another kind, and ValueError where the document would nest too deep.
        """

    def push(self, item: Any) -> Document:
        """The document of an array with an item more at its end, a document or what Document.of takes.

        Raises TypeError of another kind, and ValueError where the document would nest too deep.
        """

    def merge(self, other: Any) -> Document:
        """The document merged with another value, as Key.merge has it: a document or what Document.of takes."""

    def items(self) -> Iterator[Tuple[str, Document]]:
        """The members of an object, in the order of their names' bytes: pairs of the name, a str, and the part.

        Raises TypeError of another kind.
        """

    @overload
    def __getitem__(self, which: Union[str, int]) -> Document:
        """The member of a name, the item of an index, or a list of the items of a slice.

        Raises KeyError or IndexError where there is none, and TypeError of another kind.
        """

    @overload
    def __getitem__(self, which: slice) -> List[Document]: ...
    def __iter__(self) -> Iterator[Any]:
        """The items of an array, or the names of an object. Raises TypeError of another kind."""

    def __reversed__(self) -> Iterator[Any]:
        """The same as iter, from the last one on."""

    def __len__(self) -> int:
        """How many items an array has, or how many members an object. Raises TypeError of another kind."""

    def __bool__(self) -> bool:
        """True, also of [] and of false, so that a part is told from the None of get."""

    def __contains__(self, part: object) -> bool:
        """Whether an object has the name, or an array an item that equals the part."""

    def __float__(self) -> float:
        """The float nearest to a number. Raises TypeError of another kind."""

    def __int__(self) -> int:
        """The int that a number is. Raises ValueError where it has a fraction, and TypeError of another kind."""

    def __copy__(self) -> Document:
        """The same, since it doesn't change."""

    def __deepcopy__(self, memo: Any) -> Document:
        """The same, since it doesn't change."""

    def __eq__(self, other: object) -> bool: ...
    def __lt__(self, other: Document) -> bool: ...
    def __le__(self, other: Document) -> bool: ...
    def __gt__(self, other: Document) -> bool: ...
    def __ge__(self, other: Document) -> bool: ...
    def __hash__(self) -> int: ...
