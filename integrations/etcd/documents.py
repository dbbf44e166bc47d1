#!/usr/bin/env python3
"""Documents in etcd, one for each value, in the order of their values.

    documents.py [--endpoints URL,URL] [--prefix PREFIX] [--standard] put TEXT ...
    documents.py ... get TEXT               prints the stored document of an equal value
    documents.py ... delete TEXT            removes it
    documents.py ... between LOW HIGH       prints the documents from LOW up to and without HIGH
    documents.py ... list                   prints all
    documents.py ... where PATH LOW [HIGH]  prints those whose part at the path equals LOW, or is from LOW up to HIGH
    documents.py ... parts PATH             prints the part at the path of each document that has one

A document is stored under a prefix and its sort key; what is stored is the text of its value. Numbers with an exponent
are taken as vizhoniku takes them, and stored as decimals without one. It speaks to etcd's JSON
gateway (etcd 3.4 and later) by plain HTTP, without user names. The status is 0, or 1 where nothing is found, or 2 where
a text is rejected or no member answers.
"""

import argparse
import base64
import json
import sys
import time
import urllib.error
import urllib.request
from typing import Any, Dict, Iterator, List, Optional, Sequence, Tuple

import vizhoniku

_PAGE = 1000  # documents that one request reads
_LATER = (4, 14)  # the codes of gRPC for a request that another member, or a later time, may answer
_opener = urllib.request.build_opener(urllib.request.ProxyHandler({}))


class EtcdError(Exception):
    """A request that etcd refused, in its words: such as one that is too large."""


class Unavailable(EtcdError):
    """No member answered in time. Whether the request was carried out isn't known."""


def _to_json(data: bytes) -> str:
    return base64.b64encode(data).decode()


class Documents:
    """The documents under one prefix. A request that a member doesn't answer goes to the next one, until time is up.

    A sort key is a document too (vizhoniku.Key): keys and part read no text of a document, and where parses none.
    """

    def __init__(self, endpoints: Sequence[str], prefix: bytes = b"documents/", mode: int = vizhoniku.EXTENDED_JSON,
                 timeout: float = 10.0) -> None:
        if not endpoints:
            raise ValueError("no endpoint is named")
        if not prefix.strip(b"\xff"):
            raise ValueError("the prefix has no byte below FF")
        self._endpoints: List[str] = [endpoint.rstrip("/") for endpoint in endpoints]
        self._prefix = prefix
        self._mode = mode
        self._timeout = timeout

    def _ask(self, path: str, request: Dict[str, Any]) -> Dict[str, Any]:
        data, until, outcome = json.dumps(request).encode(), time.monotonic() + self._timeout, "no member answers"
        while True:
            for endpoint in list(self._endpoints):
                left = until - time.monotonic()
                if left <= 0:
                    raise Unavailable(outcome)
                try:
                    # A member that lives answers or rejects in seconds; half of what is left is kept for the others.
                    sent = urllib.request.Request(endpoint + path, data)
                    with _opener.open(sent, timeout=max(left / 2, 0.1)) as answer:
                        answered: Dict[str, Any] = json.loads(answer.read())
                        return answered
                except urllib.error.HTTPError as error:
                    body = error.read().decode("utf-8", "replace")
                    try:
                        rejected = json.loads(body)
                        outcome, code = rejected["error"], rejected["code"]
                    except (ValueError, KeyError, TypeError):
                        outcome, code = body or str(error), None
                    if code not in _LATER:
                        raise EtcdError(outcome) from None
                except OSError as error:  # rejected, reset or timed out
                    outcome = f"{endpoint}: {getattr(error, 'reason', error)}"
                # The member goes to the end, so that the next request doesn't begin with it.
                self._endpoints.remove(endpoint)
                self._endpoints.append(endpoint)
            time.sleep(0.1)

    def _key(self, text: vizhoniku.Text) -> bytes:
        return self._prefix + vizhoniku.sort_key(text, self._mode)

    def put(self, text: vizhoniku.Text) -> bool:
        """Stores the document, and returns whether it is new. One of an equal value stays as it was.

        Where a member stops in between and the request is sent to another one, a new document may be reported as not new.
        """
        document, key = vizhoniku.text_and_key(text, self._mode)
        name = _to_json(self._prefix + key)
        answer = self._ask("/v3/kv/txn", {
            "compare": [{"key": name, "target": "CREATE", "result": "EQUAL", "createRevision": "0"}],
            "success": [{"requestPut": {"key": name, "value": _to_json(document.encode())}}]})
        return bool(answer.get("succeeded", False))

    def get(self, text: vizhoniku.Text) -> Optional[str]:
        """The stored document whose value equals the text's, or None."""
        answer = self._ask("/v3/kv/range", {"key": _to_json(self._key(text))})
        found = answer.get("kvs", [])
        return base64.b64decode(found[0]["value"]).decode() if found else None

    def delete(self, text: vizhoniku.Text) -> bool:
        """Removes the document whose value equals the text's, and returns whether there was one."""
        answer = self._ask("/v3/kv/deleterange", {"key": _to_json(self._key(text))})
        return int(answer.get("deleted", 0)) > 0

    def between(self, low: vizhoniku.Text, high: vizhoniku.Text) -> Iterator[str]:
        """The documents from low up to and without high, in the order of their values, as of one moment."""
        return (text for _, text in self._range(low, high))

    def __iter__(self) -> Iterator[str]:
        """All documents, in the order of their values, as of one moment."""
        return (text for _, text in self._range(None, None))

    def keys(self, low: Optional[vizhoniku.Text] = None, high: Optional[vizhoniku.Text] = None
             ) -> Iterator[vizhoniku.Key]:
        """The documents from low up to and without high, as keys, as of one moment. No text is sent.

        ValueError is raised where something else is stored under the prefix.
        """
        return (vizhoniku.Key.from_bytes(key) for key, _ in self._range(low, high, keys_only=True))

    def part(self, key: vizhoniku.Key, path: vizhoniku.Text) -> Optional[vizhoniku.Key]:
        """The part at the path of the stored document whose key this is. None where either isn't there."""
        part = key.get(path)
        if part is None:
            return None
        answer = self._ask("/v3/kv/range", {"key": _to_json(self._prefix + bytes(key)), "count_only": True})
        return part if int(answer.get("count", 0)) > 0 else None

    def where(self, path: vizhoniku.Text, low: vizhoniku.Text, high: Optional[vizhoniku.Text] = None) -> Iterator[str]:
        """The documents whose part at the path equals low or, with high, is from low up to and without high.

        They are in the order of their values, as of one moment. All documents are sent, and no text is parsed.
        """
        first = vizhoniku.Key(low, self._mode)
        last = None if high is None else vizhoniku.Key(high, self._mode)
        first.get(path)  # so that a path that is none is rejected here, and not when the first document is asked for

        def is_wanted(key: bytes) -> bool:
            part = vizhoniku.Key.from_bytes(key).get(path)
            return part is not None and (part == first if last is None else first <= part < last)

        return (text for key, text in self._range(None, None) if is_wanted(key))

    def _end(self) -> bytes:
        front = self._prefix.rstrip(b"\xff")
        return front[:-1] + bytes([front[-1] + 1])

    def _range(self, low: Optional[vizhoniku.Text], high: Optional[vizhoniku.Text], keys_only: bool = False
               ) -> Iterator[Tuple[bytes, str]]:
        first = self._prefix if low is None else self._key(low)
        end = self._end() if high is None else self._key(high)
        return self._pages(first, end, keys_only)

    def _pages(self, first: bytes, end: bytes, keys_only: bool) -> Iterator[Tuple[bytes, str]]:
        revision = "0"  # the newest, for the first page; the later pages are of the same one
        more = first < end
        while more:
            answer = self._ask("/v3/kv/range", {"key": _to_json(first), "range_end": _to_json(end), "limit": str(_PAGE),
                                                "revision": revision, "keys_only": keys_only})
            if revision == "0":
                revision = answer["header"]["revision"]
            found = answer.get("kvs", [])
            for entry in found:
                yield (base64.b64decode(entry["key"])[len(self._prefix):],
                       base64.b64decode(entry.get("value", "")).decode())
            more = bool(answer.get("more", False)) and bool(found)
            if more:
                first = base64.b64decode(found[-1]["key"]) + b"\x00"


def main() -> int:
    parser = argparse.ArgumentParser(description="Documents in etcd, in the order of their values.")
    parser.add_argument("--endpoints", default="http://127.0.0.1:2379", help="the members, with commas between them")
    parser.add_argument("--prefix", default="documents/")
    parser.add_argument("--standard", action="store_true", help="read texts in standard mode")
    calls = parser.add_subparsers(dest="call", required=True, metavar="put|get|delete|between|list|where|parts")
    calls.add_parser("put").add_argument("texts", nargs="+", metavar="TEXT")
    for name, texts in (("get", 1), ("delete", 1), ("between", 2)):
        calls.add_parser(name).add_argument("texts", nargs=texts, metavar="TEXT")
    calls.add_parser("list")
    where = calls.add_parser("where")
    where.add_argument("path", metavar="PATH")
    where.add_argument("low", metavar="LOW")
    where.add_argument("high", nargs="?", metavar="HIGH")
    calls.add_parser("parts").add_argument("path", metavar="PATH")
    given = parser.parse_args()
    mode = vizhoniku.STANDARD if given.standard else vizhoniku.EXTENDED_JSON
    try:
        documents = Documents(given.endpoints.split(","), given.prefix.encode(), mode)
        if given.call == "put":
            for text in given.texts:
                vizhoniku.check(text, mode)  # all of them before the first is stored
            for text in given.texts:
                print("new" if documents.put(text) else "there already")
            return 0
        if given.call == "get":
            found = documents.get(given.texts[0])
            if found is not None:
                print(found)
            return 0 if found is not None else 1
        if given.call == "delete":
            return 0 if documents.delete(given.texts[0]) else 1
        if given.call == "where":
            for text in documents.where(given.path, given.low, given.high):
                print(text)
            return 0
        if given.call == "parts":
            for part in (key.get(given.path) for key in documents.keys()):
                if part is not None:
                    print(part.text())
            return 0
        for text in documents.between(*given.texts) if given.call == "between" else iter(documents):
            print(text)
        return 0
    except (vizhoniku.RejectedText, EtcdError, ValueError) as error:
        print(f"documents.py: {error}", file=sys.stderr)
        return 2


if __name__ == "__main__":
    sys.exit(main())
