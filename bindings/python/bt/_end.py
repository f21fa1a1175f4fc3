"""One end of a connection."""
from __future__ import annotations

import ctypes as C
import struct
import threading
from functools import partial
from typing import Any, Iterator, NamedTuple, Optional

from . import _library as lib
from ._names import Announce, Event, Id, Kind
from ._values import Item, Own, Refused, item, receiver

_DONE, _BUSY, _NO_MEMORY = 0, 5, 6
_WATCH, _SERVE, _FETCH = range(3)
_WHY = {lib.UNWRITTEN: "an end doesn't say it", _BUSY: "1 MiB or more waits to be sent", 7: "the end is closed",
        8: "limit isn't 32,768 to 1,048,576", 9: "own has no info_hash", 10: "serve hasn't 1 to 67,108,864 bytes",
        11: "the connection isn't open", 12: "the piece count isn't known", 13: "the peer would refuse it",
        14: "no metadata of this size can be fetched now"}
# Of a bt_heard: how many bytes were used, the item as of ITEM_FIELDS, the bytes of its Extended, and the event.
_told = struct.Struct("<Q2Q16xI10xH8x32sQ2I4B20x").unpack_from
_EVENTS = tuple(Event)
_WITH_PIECE = tuple(it in (Event.BLOCK, Event.REJECTED, Event.SERVED, Event.DECLINED) for it in Event)
_ANNOUNCED = int(Event.ANNOUNCED)


class Heard(NamedTuple):
    """What the peer said, and what that made of the end.

    item     what the peer said
    event    what that made of the end
    piece    the number of a metadata block, of BLOCK, REJECTED, SERVED and DECLINED
    id       the id under which the peer wants metadata messages, if it announced one (ANNOUNCED)
    size     the size of the metadata that the peer announced (ANNOUNCED)
    begins   whether metadata of this size is fetched from now on (ANNOUNCED)
    """

    item: Item
    event: Event
    piece: Optional[int] = None
    id: Optional[int] = None
    size: Optional[int] = None
    begins: bool = False


# Heard of its fields in a tuple, which is quicker.
_heard: Any = partial(tuple.__new__, Heard)


class Progress(NamedTuple):
    """How far a fetch has come.

    size     the size of the metadata in bytes
    blocks   how many blocks it has
    held     how many of them are held
    """

    size: int
    blocks: int
    held: int


def _done(status: int) -> None:
    if status == _NO_MEMORY:
        raise MemoryError
    if status != _DONE:
        raise ValueError(_WHY.get(status, "status %d" % status))


class End:
    """One end of a connection. It exchanges handshakes, and fetches or serves the torrent's metadata.

        with bt.End(bt.Own(info_hash=info_hash), fetch=True) as end:
            while end.metadata is None:
                sock.sendall(end.take())
                data = sock.recv(65536)
                if not data:
                    raise EOFError("the peer closed the connection")
                for heard in end.receive(data):
                    print(heard.event.name, heard.item.name)

    It opens no socket and reads no clock. It is used by the thread that made it.
    """

    def __init__(self, own: Own, fetch: bool = False, serve: Optional[lib.Bytes] = None, most: Optional[int] = None,
                 window: int = 8, announce: Announce = Announce.NONE, peer_id: lib.Bytes = b"-XX0001-pythonpython") -> None:
        """Makes an end on a new connection. Its handshake waits to be sent.

        `own` has an info hash, and a limit of 32,768 to 1,048,576. `fetch` fetches the metadata, of at most `most` bytes, and
        asks for `window` blocks at once, 1 to 8. `serve` is metadata to serve. Raises ValueError, or MemoryError.
        """
        self._c, self._heard, self._own, self._thread = lib.End(), lib.Heard(), own, threading.get_ident()
        if fetch and serve is not None:
            raise ValueError("an end fetches or serves")
        metadata = b"" if serve is None else lib.content(serve, "serve")
        config = lib.Config(receiver(own), lib.number(most or 0, 64, "most"), lib.array(lib.content(peer_id, "peer_id", 20)),
                            self._announced(announce), self._window(window), _FETCH if fetch else _WATCH if serve is None else _SERVE)
        if fetch and most == 0:
            raise ValueError("most is 0")
        _done(lib.bt.bt_end_new(self._c, config, metadata, len(metadata)))
        self._view, self._place, self._size = memoryview(self._heard).cast("B"), C.c_void_p(), C.c_size_t()
        # (no body is copied: items have the bytes that came)
        self._next = partial(lib.end_next, C.byref(self._c), self._place, self._size, C.byref(self._heard), None, C.c_size_t(0))
        self._begin()

    def _begin(self) -> None:
        """Nothing came. What isn't handled is `_data` from `_at` on; `_kept` is what came from the offset `_from` on."""
        self._data, self._address, self._at = b"", 0, 0
        self._kept, self._from = bytearray(), 0
        self._source, self._ends = (b"", 0), 0

    def close(self) -> None:
        """Frees it. Later calls raise ValueError."""
        self._see()
        lib.bt.bt_end_free(self._c)

    def __enter__(self) -> End:
        return self

    def __exit__(self, *_: Any) -> None:
        self.close()

    def __del__(self) -> None:
        if "_thread" in self.__dict__ and self._thread == threading.get_ident():
            lib.bt.bt_end_free(self._c)

    def _see(self) -> None:
        if self._thread != threading.get_ident():
            raise RuntimeError("an end is used by the thread that made it")

    def _open(self) -> None:
        self._see()
        if not self._c.held:
            raise ValueError("the end is closed")

    @staticmethod
    def _window(window: int) -> int:
        if lib.number(window, 8, "window") not in range(1, 9):
            raise ValueError("window is %d, not 1 to 8" % window)
        return window

    @staticmethod
    def _announced(announce: Announce) -> Announce:
        try:
            return Announce(announce)
        except ValueError:
            raise ValueError("announce is %r, not one of bt.Announce" % (announce,)) from None

    def receive(self, data: lib.Bytes) -> Iterator[Heard]:
        """Takes all bytes, and returns an iterator over the items in them, each handled before it is returned.

        What isn't taken from an iterator isn't lost: the next one begins with it. It ends early if 1 MiB waits to be sent:
        send some, and receive again, which may be no bytes. It raises Refused if the peer breaks a rule, and so does each
        later one; MemoryError, after which the next goes on; and ValueError if the end is closed.
        """
        self._open()
        data = lib.content(data)
        self._data, self._at = self._data[self._at:] + data, 0
        self._address = lib.address(self._data) or 0
        self._kept += data
        return self._items()

    def _items(self) -> Iterator[Heard]:
        thread, place, room, view = self._thread, self._place, self._size, self._view
        while True:
            if thread != threading.get_ident():
                self._see()
            # (between two items the program may have called `receive`)
            at = self._at
            place.value, room.value = self._address + at, len(self._data) - at
            answer = self._next()
            used, start, length, index, number, extended, size, kind, piece, id, has_id, has_size, begins = _told(view)
            self._at = at + used
            if answer != lib.ITEM:
                return self._stop(answer)
            if start + length > self._ends:
                self._show(start)
            said = item(start, length, index, number, extended, self._source)
            if kind == _ANNOUNCED:
                yield Heard(said, _EVENTS[kind], None, id if has_id else None, size if has_size else None, bool(begins))
            else:
                yield _heard((said, _EVENTS[kind], piece if _WITH_PIECE[kind] else None, None, None, False))

    def _stop(self, answer: int) -> None:
        """Raises why no item comes, if that isn't that none is whole, or that too much waits to be sent."""
        if answer == lib.REFUSED:
            verdict = self._heard.verdict
            raise Refused(verdict.at, verdict.reason, verdict.message)
        if answer not in (lib.MORE, _BUSY):
            _done(answer)

    def _show(self, start: int) -> None:
        """Copies what came from this offset on, where an item starts, for its items. What comes before isn't kept any more."""
        del self._kept[:start - self._from]
        self._from, self._source = start, (bytes(self._kept), start)
        self._ends = start + len(self._kept)

    def _waiting(self) -> int:
        """How many bytes wait to be sent."""
        return int(lib.bt.bt_end_waiting(self._c))

    def outgoing(self, most: int = 65536) -> bytes:
        """Returns the first bytes that wait to be sent, at most this many. They still wait."""
        self._open()
        out = C.create_string_buffer(min(lib.number(most, 63, "most"), self._waiting()))
        n = lib.bt.bt_end_outgoing(self._c, out, len(out))
        return out.raw[:n]

    def sent(self, n: int) -> None:
        """Drops the first bytes that wait, since this many were sent."""
        self._open()
        lib.bt.bt_end_sent(self._c, lib.number(n, 64, "n"))

    def take(self) -> bytes:
        """Returns all bytes that wait to be sent, which then wait no more."""
        found = self.outgoing(self._waiting())
        self.sent(len(found))
        return found

    def say(self, id: int, index: int = 0, begin: int = 0, length: int = 0, port: int = 0, body: lib.Bytes = b"") -> None:
        """Queues a message by its id, the numbers that the id has, and its bitfield or block. It then waits to be sent.

        Raises ValueError if the peer would refuse it, or if the end can't say it now; then nothing has changed.
        """
        self._say(lib.Item(id=lib.number(id, 16, "id"), index=lib.number(index, 32, "index"), begin=lib.number(begin, 32, "begin"),
                           length=lib.number(length, 32, "length"), port=lib.number(port, 16, "port")), lib.content(body, "body"))

    def say_donthave(self, piece: int) -> None:
        """Announces that a piece isn't there any more, as `say`. The peer has announced lt_donthave."""
        message = lib.Item(id=Id.EXTENDED)
        message.extended.kind, message.extended.piece = Kind.DONTHAVE, lib.number(piece, 32, "piece")
        self._say(message, b"")

    def _say(self, message: lib.Item, body: bytes) -> None:
        self._see()
        _done(lib.bt.bt_end_say(self._c, message, body, len(body)))

    @property
    def metadata(self) -> Optional[bytes]:
        """The metadata that was fetched, whose SHA-1 is the info hash; None while it isn't there."""
        self._open()
        n = lib.bt.bt_end_metadata(self._c, None, 0)
        out = C.create_string_buffer(n)
        lib.bt.bt_end_metadata(self._c, out, n)
        return out.raw if n else None

    @property
    def progress(self) -> Optional[Progress]:
        """How far the fetch has come; None if no size is known, or nothing is fetched."""
        self._open()
        found = lib.Progress()
        return Progress(found.size, found.blocks, found.held) if lib.bt.bt_end_progress(self._c, found) else None

    @property
    def is_hopeless(self) -> bool:
        """Whether no block can come any more on this connection, whatever the peer sends."""
        self._open()
        return bool(lib.bt.bt_end_is_hopeless(self._c))

    @property
    def mismatches(self) -> int:
        """How often, on this connection, the blocks that came were those of other metadata."""
        self._open()
        return int(lib.bt.bt_end_mismatches(self._c))

    def begin(self, size: int) -> None:
        """Begins a fetch of this size anew, for a peer that announced a false one. Raises ValueError or MemoryError.

        The blocks that are held are dropped, and each is asked for again, also if the size is the present one.
        """
        self._see()
        _done(lib.bt.bt_end_begin(self._c, lib.number(size, 64, "size")))

    def set_window(self, window: int) -> None:
        """Requests at most this many blocks at once from now on, 1 to 8."""
        self._open()
        lib.bt.bt_end_set_window(self._c, self._window(window))

    def reset(self) -> None:
        """Begins a new connection, with another peer or the same. What was fetched stays. Raises MemoryError."""
        self._see()
        _done(lib.bt.bt_end_reset(self._c))
        self._begin()
