"""The items of a whole stream in columns: quicker than one at a time, and what numpy and pandas take."""
from __future__ import annotations

import ctypes as C
from array import array
from typing import Any, Dict, List, Optional, Sequence, Tuple

from . import _library as lib
from ._values import Own, Refused, receiver

_ROOM = 1024
# The columns: the kind of number, and where it lies in a bt_item.
_FIELDS: Dict[str, Tuple[str, int]] = {
    "start": ("Q", 0), "size": ("Q", 8), "id": ("H", 46), "kind": ("B", 84), "index": ("I", 32), "begin": ("I", 36), "length": ("I", 40),
    "body": ("Q", 16), "port": ("H", 44), "extended_id": ("B", 48), "piece": ("I", 80), "dict_size": ("Q", 72), "total_size": ("Q", 56),
    "metadata_size": ("Q", 64), "ut_metadata": ("B", 85)}
_USUAL = ("start", "size", "id", "kind", "index", "begin", "length", "body")


class Columns:
    """The items of a stream, a column for each field: `columns.id` is a memoryview of as many numbers as there are items.

    `columns["id"]` is the same, and `dict(columns)` has all by name. What an item doesn't have is 0. `body` is how many bytes
    the body has, which are an item's last. A column can't be changed; `numpy.asarray(columns.id)` copies nothing.

    `refused` says why the stream ends here, if it was read with `partial` and is refused; else it is None.
    """

    refused: Optional[Refused]

    def __init__(self, made: Dict[str, memoryview], count: int, refused: Optional[Refused]) -> None:
        """Takes the columns by name, and how many items they have. `columns` calls it."""
        self._made, self._count, self.refused = made, count, refused

    def __len__(self) -> int:
        return self._count

    def keys(self) -> List[str]:
        """Returns the names of the columns."""
        return list(self._made)

    def __getitem__(self, name: str) -> memoryview:
        return self._made[name]

    def __getattr__(self, name: str) -> memoryview:
        try:
            return self.__dict__["_made"][name]  # type: ignore[no-any-return]
        except KeyError:
            raise AttributeError("there is no column %s: `fields` has %s" % (name, ", ".join(self._made))) from None

    def __repr__(self) -> str:
        return "<bt.Columns %s of %d items>" % (" ".join(self._made), self._count)


def columns(data: lib.Bytes, own: Optional[Own] = None, fields: Sequence[str] = _USUAL, partial: bool = False) -> Columns:
    """Returns the items of a whole stream in columns of these fields, which are numbers of `Item`, and `body` its length.

    Raises Refused if the stream is refused; with `partial` it returns the columns of what comes before. Raises ValueError for
    a field that isn't a column.
    """
    stream, items, state, batch = lib.content(data), (lib.Item * _ROOM)(), lib.Reader(), lib.Batch()
    lib.bt.bt_reader_init(state, receiver(Own() if own is None else own))
    made = _made(items, fields)
    at = count = 0
    answer = lib.ITEM
    while answer == lib.ITEM:
        C.memset(items, 0, C.sizeof(items))  # (the library leaves what an item doesn't have as it is)
        answer = lib.bt.bt_reader_batch(state, lib.address(stream, at), len(stream) - at, items, _ROOM, batch)
        for column, numbers in made.values():
            column.frombytes(numbers[:batch.count].tobytes())
        at, count = at + batch.used, count + batch.count
    last = items[batch.count] if answer == lib.REFUSED else items[0]
    if answer == lib.MORE:
        answer = lib.bt.bt_reader_finish(state, lib.address(stream, at), len(stream) - at, last)
    refused = Refused(last.start + last.size, last.reason, count) if answer == lib.REFUSED else None
    if refused is not None and not partial:
        raise refused
    return Columns({name: memoryview(column).toreadonly() for name, (column, _) in made.items()}, count, refused)


def _made(items: Any, fields: Sequence[str]) -> Dict[str, Tuple[Any, Any]]:
    """An empty column for each field, and the numbers of the field in the batch, without a copy."""
    raw, made = memoryview(items).cast("B"), {}
    if isinstance(fields, str) or not hasattr(fields, "__iter__"):
        raise TypeError("fields is %s, not a sequence of names" % type(fields).__name__)
    for name in fields:
        if name not in _FIELDS:
            raise ValueError("fields has %r, which is none of: %s" % (name, ", ".join(_FIELDS)))
        code, at = _FIELDS[name]
        column: Any = array(code)
        every: Any = raw
        made[name] = column, every.cast(code)[at // column.itemsize::C.sizeof(lib.Item) // column.itemsize]
    return made
