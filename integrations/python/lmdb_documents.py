"""Documents in LMDB, one for each value, in the order of their values.

A document is stored under its sort key, and what is stored there is the rest of it (vizhoniku.Document): nothing where
no decimal ends in zeros. LMDB bounds its keys, at 511 bytes as Debian builds it. A sort key past the bound is cut, the
beginning of a hash of the whole key follows what is left, and the whole document is stored there. A cut key that
differs from another key still has the order of the values; documents whose cut keys are equal are sorted by their
whole keys when they are read.

An environment in which the texts of documents were stored, as an older version did it, is read as well.

Numbers with an exponent are taken as vizhoniku takes them, and stored as decimals without one.
"""

import hashlib
from typing import Iterable, Iterator, List, Optional

import lmdb

import vizhoniku

_HASH = 16  # bytes of the hash behind a cut key
_END = b"\xff"  # of a document with zeros behind its key; no text has this byte
_ABOVE_TEXTS = 0x80  # the first byte of a long document, which is no number, is from here on, and that of a text below


class Documents:
    """The documents of one LMDB environment. Every text is read in the given mode.

    lmdb.open takes how many bytes an environment may have as map_size, and 10 MB without it. Past that put and put_all
    raise lmdb.MapFullError.
    """

    def __init__(self, environment: lmdb.Environment, mode: int = vizhoniku.EXTENDED_JSON) -> None:
        self._environment = environment
        self._mode = mode
        self._bound: int = environment.max_key_size()

    def _stored(self, whole: bytes) -> bytes:
        if len(whole) <= self._bound - _HASH:
            return whole  # no cut key begins with it, since no sort key begins another
        return whole[:self._bound - _HASH] + hashlib.sha256(whole).digest()[:_HASH]

    def _is_cut(self, stored: bytes) -> bool:
        return len(stored) == self._bound

    def _document(self, stored: bytes, value: bytes) -> vizhoniku.Document:
        if self._is_cut(stored):
            is_text, whole = value[0] < _ABOVE_TEXTS, value
        else:
            is_text, whole = bool(value) and not value.endswith(_END), stored + value
        return vizhoniku.Document(value.decode(), self._mode) if is_text else vizhoniku.Document.from_bytes(whole)

    def put(self, text: vizhoniku.Text) -> bool:
        """Stores the document, and returns whether it is new. One of an equal value stays as it was."""
        return self.put_all([text]) == 1

    def put_all(self, texts: Iterable[vizhoniku.Text]) -> int:
        """Stores the documents in one transaction, and returns how many are new, as put does each.

        Nothing of them is stored where one of the texts is rejected.
        """
        new = 0
        with self._environment.begin(write=True) as transaction:
            for text in texts:
                document = vizhoniku.Document(text, self._mode)
                key = bytes(document.key)
                stored = self._stored(key)
                value = bytes(document) if self._is_cut(stored) else bytes(document)[len(key):]
                if transaction.put(stored, value, overwrite=False):
                    new += 1
                else:
                    self._find(transaction, key)
        return new

    def get(self, text: vizhoniku.Text) -> Optional[str]:
        """The text of the stored document whose value equals the text's, or None."""
        with self._environment.begin() as transaction:
            found = self._find(transaction, vizhoniku.sort_key(text, self._mode))
            return None if found is None else found.text()

    def _find(self, transaction: lmdb.Transaction, key: bytes) -> Optional[vizhoniku.Document]:
        stored = self._stored(key)
        value = transaction.get(stored)
        if value is None:
            return None
        document = self._document(stored, value)
        if bytes(document.key) != key:
            raise RuntimeError("two documents that differ have one hash")
        return document

    def between(self, low: vizhoniku.Text, high: vizhoniku.Text) -> Iterator[str]:
        """The texts of the documents from low up to and without high, in the order of their values."""
        return (document.text() for document in self.documents(low, high))

    def __iter__(self) -> Iterator[str]:
        """The texts of all documents, in the order of their values."""
        return (document.text() for document in self.documents())

    def keys(self, low: Optional[vizhoniku.Text] = None, high: Optional[vizhoniku.Text] = None
             ) -> Iterator[vizhoniku.Key]:
        """The keys of the documents from low up to and without high.

        ValueError is raised where something else is stored in the environment.
        """
        return (document.key for document in self.documents(low, high))

    def documents(self, low: Optional[vizhoniku.Text] = None, high: Optional[vizhoniku.Text] = None
                  ) -> Iterator[vizhoniku.Document]:
        """The documents from low up to and without high, in the order of their values."""
        first = b"" if low is None else vizhoniku.sort_key(low, self._mode)
        last = None if high is None else vizhoniku.sort_key(high, self._mode)
        with self._environment.begin() as transaction:
            for document in self._from(transaction, first[:self._bound - _HASH]):
                key = bytes(document.key)
                if last is not None and key >= last:
                    return
                if key >= first:
                    yield document

    def part(self, key: vizhoniku.Key, path: vizhoniku.Text) -> Optional[vizhoniku.Document]:
        """The part at the path of the stored document whose key this is. None where either isn't there."""
        if key.get(path) is None:
            return None
        with self._environment.begin() as transaction:
            found = self._find(transaction, bytes(key))
            return None if found is None else found.get(path)

    def where(self, path: vizhoniku.Text, low: vizhoniku.Text, high: Optional[vizhoniku.Text] = None) -> Iterator[str]:
        """The texts of the documents whose part at the path equals low or, with high, is from low up to and without
        high.

        They are in the order of their values. All documents are read.
        """
        first = vizhoniku.Key(low, self._mode)
        last = None if high is None else vizhoniku.Key(high, self._mode)
        first.get(path)  # so that a path that is none is rejected where nothing is stored too

        def is_wanted(document: vizhoniku.Document) -> bool:
            part = document.key.get(path)
            return part is not None and (part == first if last is None else first <= part < last)

        return (document.text() for document in self.documents() if is_wanted(document))

    def _from(self, transaction: lmdb.Transaction, first: bytes) -> Iterator[vizhoniku.Document]:
        run: List[vizhoniku.Document] = []  # those whose cut keys are equal
        front = b""
        with transaction.cursor() as cursor:
            if not cursor.set_range(first):
                return
            for stored, value in cursor:
                if run and not (self._is_cut(stored) and stored.startswith(front)):
                    yield from sorted(run)
                    run = []
                document = self._document(stored, value)
                if self._is_cut(stored):
                    front = stored[:-_HASH]
                    run.append(document)
                else:
                    yield document
        yield from sorted(run)
