"""Messages written as the peer may get them."""
from __future__ import annotations

import ctypes as C
import struct
from dataclasses import replace
from functools import partial
from typing import Any, Optional

from . import _library as lib
from ._names import DHT, EXTENSIONS, FAST, Id, Kind
from ._values import Item, Own, Refused, receiver

# What a message has besides its body, and a dictionary that the library writes.
_HEAD, _DICT = 17, 160
# The numbers of a bt_item that a message may have, in order.
_NUMBERS = struct.Struct("<32x3I2HB")


def _block(data: lib.Bytes, what: str) -> bytes:
    """The bytes of a message, so that `message` gets no others."""
    return data if type(data) is bytes else lib.content(data, what)


def handshake(info_hash: lib.Bytes, peer_id: lib.Bytes, reserved: int = FAST | DHT | EXTENSIONS) -> bytes:
    """Returns the 68 bytes of a handshake. Raises ValueError for what doesn't fit."""
    made = lib.Handshake(lib.number(reserved, 64, "reserved"), lib.array(lib.content(info_hash, "info_hash", 20)),
                         lib.array(lib.content(peer_id, "peer_id", 20)))
    out = C.create_string_buffer(68)
    lib.bt.bt_write_handshake(made, out, 68)
    return out.raw


class Writer:
    """Writes messages, each judged as the peer judges it.

    It is made of your own values and the reserved bits of the peer's handshake, and has to be given the peer's extended
    handshakes. Write in the order in which you send. Each method returns the bytes of a message. It raises Refused if the
    peer would refuse it, and ValueError for a number that doesn't fit; then nothing has changed.
    """

    def __init__(self, own: Own, reserved: int) -> None:
        self._c, self._written, self._item, self._own, self._count = lib.Reader(), lib.Item(), lib.Item(), own, 1
        lib.bt.bt_writer_init(self._c, receiver(own), lib.number(reserved, 64, "reserved"))
        self._own = replace(own, reserved=self._c.own.reserved, metadata_id=self._c.own.metadata_id)
        self._numbers = memoryview(self._item).cast("B")
        self._sizes = memoryview(self._written).cast("B")[:16].cast("Q")
        self._make_room(512)

    def _make_room(self, room: int) -> None:
        """Makes the buffer for what is written, and the calls with all arguments that stay, which ctypes then needn't convert."""
        self._room, out = room, C.create_string_buffer(room)
        self._out = memoryview(out).cast("B")
        end = C.byref(out), C.c_size_t(room), C.byref(self._written)
        self._body, self._size = C.c_char_p(), C.c_size_t()
        self._write = partial(lib.write, C.byref(self._c), C.byref(self._item), self._body, self._size, *end)

    @property
    def peer(self) -> Own:
        """What the peer is taken to be: it has announced neither its limit nor its rules, so these are yours.

        Set it if you know better: `writer.peer = dataclasses.replace(writer.peer, limit=1 << 20)`.
        """
        return self._own

    @peer.setter
    def peer(self, own: Own) -> None:
        self._c.own, self._own = receiver(own, "peer"), own

    def hear(self, item: Item) -> None:
        """Takes the id for ut_metadata if the peer's item announces one."""
        if not isinstance(item, Item):
            raise TypeError("item is %s, not bt.Item" % type(item).__name__)
        if item.ut_metadata is not None:
            self.peer = replace(self.peer, metadata_id=item.ut_metadata)

    def _end(self, answer: int, out: Any, why: str) -> bytes:
        if answer == lib.REFUSED:
            raise Refused(self._written.start + self._written.size, self._written.reason, self._count)
        if answer != lib.ITEM:
            raise ValueError(why)
        self._count += 1
        return bytes(out[:self._sizes[1]])

    def message(self, id: int, index: int = 0, begin: int = 0, length: int = 0, port: int = 0, extended_id: int = 0,
                body: lib.Bytes = b"") -> bytes:
        """Writes a message by its id, the numbers that the id has, and its bitfield, block or payload."""
        try:
            _NUMBERS.pack_into(self._numbers, 0, index, begin, length, port, id, extended_id)
        except struct.error:
            for value, bits, what in ((id, 16, "id"), (index, 32, "index"), (begin, 32, "begin"), (length, 32, "length"),
                                      (port, 16, "port"), (extended_id, 8, "extended_id")):
                lib.number(value, bits, what)
            raise
        if type(body) is not bytes:
            body = lib.content(body, "body")
        if _HEAD + len(body) > self._room:
            self._make_room(_HEAD + len(body))
        self._body.value, self._size.value = body, len(body)
        answer = self._write()
        if answer != lib.ITEM:
            return self._end(answer, self._out, "no message has the id %d" % id)
        self._count += 1
        return bytes(self._out[:self._sizes[1]])

    def keep_alive(self) -> bytes:
        """Writes a keep-alive."""
        return self.message(Id.KEEP_ALIVE)

    def choke(self) -> bytes:
        """Writes: you get no blocks."""
        return self.message(Id.CHOKE)

    def unchoke(self) -> bytes:
        """Writes: you may request blocks."""
        return self.message(Id.UNCHOKE)

    def interested(self) -> bytes:
        """Writes: I want blocks."""
        return self.message(Id.INTERESTED)

    def not_interested(self) -> bytes:
        """Writes: I want no blocks."""
        return self.message(Id.NOT_INTERESTED)

    def have(self, index: int) -> bytes:
        """Writes: I have this piece."""
        return self.message(Id.HAVE, index)

    def bitfield(self, bits: lib.Bytes) -> bytes:
        """Writes which pieces you have, a bit each, the first piece in the highest bit."""
        return self.message(Id.BITFIELD, body=_block(bits, "bits"))

    def request(self, index: int, begin: int, length: int) -> bytes:
        """Writes a request for a block."""
        return self.message(Id.REQUEST, index, begin, length)

    def piece(self, index: int, begin: int, block: lib.Bytes) -> bytes:
        """Writes a block."""
        return self.message(Id.PIECE, index, begin, body=_block(block, "block"))

    def cancel(self, index: int, begin: int, length: int) -> bytes:
        """Writes that a requested block is no more wanted."""
        return self.message(Id.CANCEL, index, begin, length)

    def port(self, port: int) -> bytes:
        """Writes the port of your DHT node (BEP 5)."""
        return self.message(Id.PORT, port=port)

    def suggest(self, index: int) -> bytes:
        """Writes which piece the peer might ask for (BEP 6)."""
        return self.message(Id.SUGGEST, index)

    def have_all(self) -> bytes:
        """Writes: I have all pieces (BEP 6)."""
        return self.message(Id.HAVE_ALL)

    def have_none(self) -> bytes:
        """Writes: I have no piece (BEP 6)."""
        return self.message(Id.HAVE_NONE)

    def reject(self, index: int, begin: int, length: int) -> bytes:
        """Writes that a requested block won't come (BEP 6)."""
        return self.message(Id.REJECT, index, begin, length)

    def allowed_fast(self, index: int) -> bytes:
        """Writes a piece that the peer may request while it is choked (BEP 6)."""
        return self.message(Id.ALLOWED_FAST, index)

    def extended(self, extended_id: int, payload: lib.Bytes) -> bytes:
        """Writes an extended message under the id that the peer announced for it (BEP 10)."""
        return self.message(Id.EXTENDED, extended_id=extended_id, body=_block(payload, "payload"))

    def extended_handshake(self, metadata_id: int = 0, size: Optional[int] = None) -> bytes:
        """Writes the extended handshake: your id for ut_metadata, if it isn't 0, and the size of the metadata that you serve."""
        out = C.create_string_buffer(_HEAD + _DICT)
        lib.number(metadata_id, 8, "metadata_id")
        lib.number(size or 0, 63, "size")
        answer = lib.bt.bt_write_extended_handshake(self._c, metadata_id, size is not None, size or 0, out, len(out), self._written)
        return self._end(answer, out, "there is no room for it")

    def metadata(self, kind: int, piece: int, total_size: int = 0, block: lib.Bytes = b"") -> bytes:
        """Writes a metadata message: METADATA_REQUEST, METADATA_DATA or METADATA_REJECT (BEP 9)."""
        if kind not in (Kind.METADATA_REQUEST, Kind.METADATA_DATA, Kind.METADATA_REJECT):
            raise ValueError("the kind is METADATA_REQUEST, METADATA_DATA or METADATA_REJECT, not %r" % kind)
        lib.number(piece, 32, "piece")
        lib.number(total_size, 63, "total_size")
        if kind == Kind.METADATA_DATA and total_size == 0:
            raise ValueError("total_size is 0")
        block = lib.content(block, "block")
        out = C.create_string_buffer(_HEAD + _DICT + len(block))
        answer = lib.bt.bt_write_metadata(self._c, kind, piece, total_size, block, len(block), out, len(out), self._written)
        return self._end(answer, out, "the peer announced no id for ut_metadata")

    def metadata_request(self, piece: int) -> bytes:
        """Writes a request for a block of the metadata."""
        return self.metadata(Kind.METADATA_REQUEST, piece)

    def metadata_data(self, piece: int, total_size: int, block: lib.Bytes) -> bytes:
        """Writes a block of the metadata."""
        return self.metadata(Kind.METADATA_DATA, piece, total_size, block)

    def metadata_reject(self, piece: int) -> bytes:
        """Writes that a block of the metadata won't come."""
        return self.metadata(Kind.METADATA_REJECT, piece)
