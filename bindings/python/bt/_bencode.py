"""Bencoding (BEP 3): the library judges the bytes, and this only makes values of what it accepted."""
from __future__ import annotations

import ctypes as C
from typing import Any, Dict, List, Tuple, Union

from . import _library as lib

# An integer, a string, a list of values, or a dictionary of them.
Value = Union[int, bytes, List[Any], Dict[bytes, Any]]
_END = 0x65  # an e


class BencodeError(ValueError):
    """Raised by `bdecode`. `at` is the offset of the fault, and the message says what it is."""

    def __init__(self, at: int, why: str) -> None:
        self.at = at
        self.why = why
        super().__init__("%s at byte %d" % (why, at))

    def __reduce__(self) -> Tuple[Any, Tuple[int, str]]:
        return type(self), (self.at, self.why)


class Decoder:
    """Makes values of bytes in which the library found a dictionary. Of a key that comes twice the first value counts.

    `unsorted` has the offsets of the keys that aren't above the key before them, and `twice` of those that came before.
    """

    def __init__(self, data: bytes) -> None:
        self._data, self._at = data, 0
        self.unsorted: List[int] = []
        self.twice: List[int] = []

    def _string(self) -> bytes:
        colon = self._data.index(b":", self._at)
        begin = colon + 1
        self._at = begin + int(self._data[self._at:colon])
        return self._data[begin:self._at]

    def _integer(self) -> int:
        begin, end = self._at + 1, self._data.index(b"e", self._at)
        self._at = end + 1
        return int(self._data[begin:end])

    def _list(self) -> List[Any]:
        found: List[Any] = []
        self._at += 1
        while self._data[self._at] != _END:
            found.append(self.value())
        self._at += 1
        return found

    def dictionary(self) -> Dict[bytes, Any]:
        """Returns the dictionary that starts at this place."""
        found: Dict[bytes, Any] = {}
        last = None
        self._at += 1
        while self._data[self._at] != _END:
            at = self._at
            key = self._string()
            if last is not None and key <= last:
                self.unsorted.append(at)
            if key in found:
                self.twice.append(at)
            last = key
            found.setdefault(key, self.value())
        self._at += 1
        return found

    def value(self) -> Value:
        """Returns the value that starts at this place."""
        first = self._data[self._at:self._at + 1]
        if first == b"i":
            return self._integer()
        if first == b"l":
            return self._list()
        if first == b"d":
            return self.dictionary()
        return self._string()


def bdecode(data: lib.Bytes, strict: bool = False) -> Dict[bytes, Any]:
    """Returns the bencoded dictionary that these bytes are (BEP 3): metadata, a .torrent, the dictionary of an extended message.

    Integers become int, strings bytes, lists list, and dictionaries dict, whose keys are bytes. The library judges the bytes: integers
    are from -2^63 to 2^63 - 1 and have one spelling, as lengths have, and values nest at most 32 deep. Raises BencodeError at the
    first byte with which no dictionary goes on, at the end of bytes that are cut, at bytes after the dictionary, at a key that comes
    twice; and if it is strict, at a key that isn't above the one before it.

    If there is another fault in bytes with a string of more than 1 MiB, it may be at the length of that string.
    """
    content, size = lib.content(data), C.c_uint64()
    if not hasattr(lib.bt, "bt_check_dictionary"):
        raise NotImplementedError("libbt.so is older than this package, and has no bt_check_dictionary")
    answer = lib.bt.bt_check_dictionary(content, len(content), size)
    if answer == lib.MORE:
        raise BencodeError(size.value, "the dictionary is cut")
    if answer != lib.ITEM:
        raise BencodeError(size.value, "no dictionary goes on")
    if size.value < len(content):
        raise BencodeError(size.value, "the dictionary is over")
    decoder = Decoder(content)
    found = decoder.dictionary()
    if strict and decoder.unsorted:
        raise BencodeError(decoder.unsorted[0], "a key isn't above the one before it")
    if decoder.twice:
        raise BencodeError(decoder.twice[0], "a key comes twice")
    return found
