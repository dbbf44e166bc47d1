"""JSON documents by value, over the library libvizhoniku: check, text, sort key, part and comparison; sort keys as
stored documents, and with all digits of their numbers.

A document is a str or bytes in UTF-8. Every call takes a mode: EXTENDED_JSON, the default, JSON, EXTENDED or STANDARD.
A text that is no document of the mode raises RejectedText, a ValueError with line and column. A call that runs out of
memory raises MemoryError. The calls keep no state: threads need no lock, and other threads run while a call reads a
long text.

The calls go by a module in C, which has the library in it. INTERFACE is the version of the library's interface.
`python3 -m vizhoniku` prints it, and where the module is.
"""

from ._common import EXTENDED, EXTENDED_JSON, JSON, STANDARD, Mode, PathError, RejectedText, Text, pointer

try:
    from ._native import INTERFACE, Document, Key, check, compare, get, is_valid, sort_key, text, text_and_key
except ModuleNotFoundError:
    raise ImportError("this folder has the sources of vizhoniku alone, without its module in C: install the package "
                      "by pip, or a wheel of it") from None

__all__ = [
    "EXTENDED", "EXTENDED_JSON", "INTERFACE", "JSON", "STANDARD", "Document", "Key", "Mode", "PathError",
    "RejectedText", "Text", "check", "compare", "get", "is_valid", "pointer", "sort_key", "text", "text_and_key",
]

__version__ = "0.2.0"
