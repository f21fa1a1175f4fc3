"""Streams read: whole, or in chunks."""
from __future__ import annotations

import threading
from collections import deque
from functools import partial
from itertools import chain
from typing import TYPE_CHECKING, Any, AsyncIterator, Deque, Iterator, List, Optional, Union

from . import _library as lib
from ._values import Item, Own, Refused, items, receiver

if TYPE_CHECKING:
    import asyncio

_ROOM = 256
_ONE = "a feed is used by one thread at a time"


class _Reader:
    """A reader and the items that it reads at a time."""

    def __init__(self, own: Optional[Own]) -> None:
        self.state, self.items, self.batch, self.count = lib.Reader(), (lib.Item * _ROOM)(), lib.Batch(), 0
        self.structs = memoryview(self.items).cast("B")
        lib.bt.bt_reader_init(self.state, receiver(Own() if own is None else own))

    def next(self, data: Union[bytes, bytearray], at: int, ended: bool) -> int:
        """Reads from `at` on as many items as there is room for, and returns how many bytes they have.

        Raises Refused if there is none, since the stream is refused there.
        """
        place = lib.address(data, at)
        answer = lib.bt.bt_reader_batch(self.state, place, len(data) - at, self.items, _ROOM, self.batch)
        if self.batch.count == 0 and answer == lib.MORE and ended:
            answer = lib.bt.bt_reader_finish(self.state, place, len(data) - at, self.items)
        if self.batch.count == 0 and answer == lib.REFUSED:
            refusal = self.items[0]
            raise Refused(refusal.start + refusal.size, refusal.reason, self.count)
        self.count += self.batch.count
        return int(self.batch.used)

    def shown(self, data: bytes, base: int) -> List[Item]:
        """The items that were read last, with the bytes that they lie in and the offset of these."""
        return items(self.structs[:self.batch.count * lib.ITEM_FIELDS.size], (data, base))


def read(data: lib.Bytes, own: Optional[Own] = None) -> Iterator[Item]:
    """Returns an iterator over the items of a whole stream, which raises Refused if the stream is refused."""
    if hasattr(data, "read") or hasattr(data, "recv"):
        raise TypeError("data is %s, not bytes: `stream` reads files and sockets" % type(data).__name__)
    return chain.from_iterable(_batches(lib.content(data), _Reader(own)))


def _batches(data: bytes, reader: _Reader) -> Iterator[List[Item]]:
    at, used = 0, reader.next(data, 0, True)
    while used:
        yield reader.shown(data, 0)
        at += used
        used = reader.next(data, at, True)


class Feed:
    """Reads a stream that comes in chunks of any size.

    `push` and `finish` return iterators over the items that are whole by then. What isn't taken from an iterator isn't
    lost: the next one begins with it. Both raise Refused, and each later call does so again. A call raises RuntimeError if
    another thread uses the feed at the time.
    """

    def __init__(self, own: Optional[Own] = None) -> None:
        self._reader = _Reader(own)
        self._data, self._at = bytearray(), 0
        self._ready: Deque[Item] = deque()
        # (the library reads the data while other threads run, so they may not change them)
        self._used = threading.Lock()

    def _use(self) -> None:
        if not self._used.acquire(False):
            raise RuntimeError(_ONE)

    @property
    def start(self) -> int:
        """The offset of the next item in the stream."""
        return self._ready[0].start if self._ready else int(self._reader.state.start)

    def push(self, chunk: lib.Bytes) -> Iterator[Item]:
        """Takes all bytes of the chunk, and returns an iterator over the items that are whole."""
        chunk = lib.content(chunk, "chunk")
        self._use()
        try:
            del self._data[:self._at]
            self._at = 0
            self._data += chunk
        finally:
            self._used.release()
        return self._items(False)

    def finish(self) -> Iterator[Item]:
        """Ends the stream, and returns an iterator over the items that are left, which then raises Refused if one is unfinished.

        If no item is left it raises at once.
        """
        if not self._ready:
            self._read(True)
        return self._items(True)

    def _read(self, ended: bool) -> None:
        self._use()
        try:
            base = self._reader.state.start
            used = self._reader.next(self._data, self._at, ended)
            if used:
                with memoryview(self._data) as view:
                    self._ready.extend(self._reader.shown(bytes(view[self._at:self._at + used]), base))
            self._at += used
        finally:
            self._used.release()

    def _items(self, ended: bool) -> Iterator[Item]:
        ready = self._ready
        while True:
            while ready:
                try:
                    found = ready.popleft()
                except IndexError:  # (another thread took the last one)
                    raise RuntimeError(_ONE) from None
                yield found
            self._read(ended)
            if not ready:
                return


def stream(source: Any, own: Optional[Own] = None, size: int = 65536) -> Iterator[Item]:
    """Returns an iterator over the items of a socket, a binary file, or an iterable of bytes, until that ends.

    It takes at most `size` bytes at a time, and raises Refused as `Feed` does.
    """
    return _fed(_chunks(source, lib.positive(size, "size")), Feed(own))


def _chunks(source: Any, size: int) -> Iterator[Any]:
    if isinstance(source, (bytes, bytearray, memoryview, str)):
        raise TypeError("source is %s, not a socket, a file or an iterable of bytes: `read` takes bytes" % type(source).__name__)
    # (a buffered file's `read` waits until it has all)
    for name in ("recv", "read1", "read"):
        if hasattr(source, name):
            return iter(partial(getattr(source, name), size), b"")
    try:
        return iter(source)
    except TypeError:
        raise TypeError("source is %s, not a socket, a file or an iterable of bytes" % type(source).__name__) from None


def _fed(chunks: Iterator[Any], feed: Feed) -> Iterator[Item]:
    for chunk in chunks:
        yield from feed.push(chunk)
    yield from feed.finish()


async def stream_async(reader: asyncio.StreamReader, own: Optional[Own] = None, size: int = 65536) -> AsyncIterator[Item]:
    """Iterates over the items of an `asyncio.StreamReader` until its stream ends, as `stream`: `async for item in ..`."""
    feed, size = Feed(own), lib.positive(size, "size")
    if not hasattr(reader, "read"):
        raise TypeError("reader is %s, not an asyncio.StreamReader" % type(reader).__name__)
    while True:
        chunk = await reader.read(size)
        for item in feed.push(chunk) if chunk else feed.finish():
            yield item
        if not chunk:
            return


def check(data: lib.Bytes, own: Optional[Own] = None) -> int:
    """Judges a whole stream, and returns how many messages it has. Raises Refused."""
    verdict, stream = lib.Verdict(), lib.content(data)
    if lib.bt.bt_check(receiver(Own() if own is None else own), stream, len(stream), verdict) == lib.REFUSED:
        raise Refused(verdict.at, verdict.reason, verdict.message)
    return int(verdict.message)
