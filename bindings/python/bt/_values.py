"""The receiver, the items of a stream, and what is raised if it is refused."""
from __future__ import annotations

import ctypes as C
import struct
import sys
from dataclasses import dataclass
from operator import attrgetter
from typing import Any, Callable, Dict, List, Optional, Tuple

from . import _library as lib
from ._bencode import Decoder
from ._names import DHT, EXTENSIONS, FAST, Id, Kind, Reason

def _table(others: Any, given: Dict[Id, Any]) -> Tuple[Any, ...]:
    """A table by the number of a bt_item, which is at most that of the handshake: these, and the others."""
    made = list(others)
    for number, value in given.items():
        made[number] = value
    return tuple(made)


_EACH = range(Id.HANDSHAKE + 1)
_IDS = _table(_EACH, {it: it for it in Id})
_KINDS: Dict[int, Kind] = {it.value: it for it in Kind}
_BLOCKS = Id.REQUEST, Id.CANCEL, Id.REJECT
_WITH_LENGTH = _table([False] * len(_EACH), dict.fromkeys(_BLOCKS, True))
_WITH_BEGIN = _table(_WITH_LENGTH, {Id.PIECE: True})
_WITH_INDEX = _table(_WITH_BEGIN, dict.fromkeys((Id.HAVE, Id.SUGGEST, Id.ALLOWED_FAST), True))
# where the body begins, or where a message without one ends; the view of a handshake is all of it
_BODY_AT = _table([5 + 4 * sum(has) for has in zip(_WITH_INDEX, _WITH_BEGIN, _WITH_LENGTH)],
                  {Id.HANDSHAKE: 0, Id.KEEP_ALIVE: 4, Id.PORT: 7, Id.EXTENDED: 6})
_WITH_PIECE = frozenset(map(int, (Kind.METADATA_REQUEST, Kind.METADATA_DATA, Kind.METADATA_REJECT, Kind.DONTHAVE)))
_NOT_EXTENDED = (0,) * 8
_u32 = struct.Struct(">I").unpack_from
_EXTENDED = int(Id.EXTENDED)


class Refused(ValueError):
    """Raised if a stream breaks a rule, or if the peer would refuse a message that is to be written.

    `at` is the offset on the stream, `message` the number of the message (0 is the handshake), `reason` a `Reason`, and
    `name` its name as `bt_tool` prints it, like 'WrongLength'.
    """

    def __init__(self, at: int, reason: int, message: int) -> None:
        self.at = at
        self.reason = Reason(reason)
        self.message = message
        self.name = lib.name_of(lib.bt.bt_reason_name, reason)
        super().__init__("message %d refused at byte %d: %s" % (message, at, self.name))

    def __reduce__(self) -> Tuple[Any, Tuple[int, int, int]]:
        return type(self), (self.at, int(self.reason), self.message)


@dataclass(frozen=True)
class Own:
    """The receiver: what a stream is judged by. `dataclasses.replace` makes one with other values.

    reserved      its reserved bits, as a big-endian number
    info_hash     the torrent's info hash; None accepts every one
    pieces        how many pieces the torrent has, if that is known
    metadata_id   the id that it announced for ut_metadata; 0 for none
    donthave_id   the id that it announced for lt_donthave; 0 for none
    strict        whether all rules hold (`bep`), or only those that a decoder needs (`free`)
    limit         the greatest length of a message

    Raises ValueError for a number that doesn't fit.
    """

    reserved: int = FAST | DHT | EXTENSIONS
    info_hash: Optional[bytes] = None
    pieces: Optional[int] = None
    metadata_id: int = 3
    donthave_id: int = 0
    strict: bool = False
    limit: int = 262144

    def __post_init__(self) -> None:
        lib.number(self.reserved, 64, "reserved")
        lib.number(self.limit, 32, "limit")
        lib.number(self.metadata_id, 8, "metadata_id")
        lib.number(self.donthave_id, 8, "donthave_id")
        if self.pieces is not None:
            lib.number(self.pieces, 32, "pieces")
        if self.info_hash is not None:
            object.__setattr__(self, "info_hash", lib.content(self.info_hash, "info_hash", 20))

    def _struct(self) -> lib.Own:
        return lib.Own(self.reserved, self.limit, self.pieces or 0, self.pieces is not None, self.info_hash is not None,
                       self.metadata_id, self.donthave_id, bool(self.strict), lib.array(self.info_hash or bytes(20)))


def receiver(own: Own, what: str = "own") -> lib.Own:
    """Returns the struct of the receiver. Raises TypeError for another object."""
    if not isinstance(own, Own):
        raise TypeError("%s is %s, not bt.Own" % (what, type(own).__name__))
    return own._struct()


class Item:
    """The handshake or a message. A field that this kind of item doesn't have is None.

    Readers make items. An item keeps the bytes that it was read from. Most fields are worked out when they are asked for;
    `data`, `body` and `rest` are copied then, and `view` isn't. Items can't be changed.
    """

    __slots__ = ("_start", "_size", "_id", "_index", "_extended", "_source")
    _start: int
    _size: int
    _id: int
    _index: Optional[int]
    _extended: bytes  # of an extended message only
    _source: Tuple[bytes, int]  # what it was read from, and the offset of that on the stream

    @property
    def start(self) -> int:
        """Its offset on the stream."""
        return self._start

    @property
    def size(self) -> int:
        """How many bytes it has."""
        return self._size

    @property
    def id(self) -> int:
        """Its `Id`, or the number of an unknown message."""
        return self._id

    @property
    def name(self) -> str:
        """Its name as `bt_tool show` prints it, like 'have' or 'metadata-request'."""
        number = self._id
        return _NAMES[number if number != _EXTENDED else _EXTENDED + (self._extended[28] << 9)]

    @property
    def data(self) -> bytes:
        """All its bytes."""
        source, base = self._source
        at = self._start - base
        return source[at:at + self._size]

    @property
    def index(self) -> Optional[int]:
        """The number of a piece, of have, suggest, allowed-fast, request, piece, cancel and reject."""
        return self._index

    def _number(self, at: int) -> int:
        source, base = self._source
        return _u32(source, self._start - base + at)[0]  # type: ignore[no-any-return]

    @property
    def begin(self) -> Optional[int]:
        """The offset of a block in its piece, of request, piece, cancel and reject."""
        return self._number(9) if _WITH_BEGIN[self._id] else None

    @property
    def length(self) -> Optional[int]:
        """How many bytes the block has, of request, cancel and reject. A piece has them as its body."""
        return self._number(13) if _WITH_LENGTH[self._id] else None

    @property
    def port(self) -> Optional[int]:
        """The port of the peer's DHT node."""
        return int.from_bytes(self.data[5:7], "big") if self._id == Id.PORT else None

    @property
    def body(self) -> Optional[bytes]:
        """The bitfield, block or payload, which is empty if the message has none. None of a handshake."""
        if self._id == Id.HANDSHAKE:
            return None
        source, base = self._source
        at = self._start - base
        return source[at + _BODY_AT[self._id]:at + self._size]

    @property
    def view(self) -> memoryview:
        """The body without a copy, or all bytes of a handshake."""
        source, base = self._source
        at = self._start - base
        return memoryview(source)[at + _BODY_AT[self._id]:at + self._size]

    @property
    def reserved(self) -> Optional[int]:
        """The reserved bits of a handshake."""
        return int.from_bytes(self.data[20:28], "big") if self._id == Id.HANDSHAKE else None

    @property
    def info_hash(self) -> Optional[bytes]:
        """The info hash of a handshake, 20 bytes."""
        return self.data[28:48] if self._id == Id.HANDSHAKE else None

    @property
    def peer_id(self) -> Optional[bytes]:
        """The peer id of a handshake, 20 bytes."""
        return self.data[48:68] if self._id == Id.HANDSHAKE else None

    @property
    def _parsed(self) -> Tuple[int, ...]:
        """The fields of a `bt_extended` in order."""
        return lib.EXTENDED_FIELDS.unpack(self._extended) if self._id == _EXTENDED else _NOT_EXTENDED

    @property
    def extended_id(self) -> Optional[int]:
        """The id within the extension protocol."""
        source, base = self._source
        return source[self._start - base + 5] if self._id == _EXTENDED else None

    @property
    def kind(self) -> Optional[Kind]:
        """What an extended message is."""
        return _KINDS[self._extended[28]] if self._id == _EXTENDED else None

    @property
    def piece(self) -> Optional[int]:
        """The number of a metadata block, or the piece that the peer no longer has (lt_donthave)."""
        fields = self._parsed
        return fields[3] if fields[4] in _WITH_PIECE else None

    @property
    def total_size(self) -> Optional[int]:
        """How many bytes the metadata has, by a data message."""
        fields = self._parsed
        return fields[0] if fields[4] == Kind.METADATA_DATA else None

    @property
    def dict_size(self) -> Optional[int]:
        """How many bytes of the body are the dictionary of an extended message."""
        return self._parsed[2] if self._id == _EXTENDED else None

    @property
    def metadata_size(self) -> Optional[int]:
        """How many bytes the metadata has, by an extended handshake."""
        fields = self._parsed
        return fields[1] if fields[4] == Kind.EXT_HANDSHAKE and fields[6] else None

    @property
    def ut_metadata(self) -> Optional[int]:
        """The id for ut_metadata that an extended handshake announces."""
        fields = self._parsed
        return fields[5] if fields[4] == Kind.EXT_HANDSHAKE and fields[7] else None

    @property
    def rest(self) -> Optional[bytes]:
        """What follows the dictionary of an extended message, as the block of a data message."""
        body, size = self.body, self.dict_size
        return None if body is None or size is None else body[size:]

    def asdict(self) -> Dict[str, Any]:
        """Returns the fields that it has by name, except `data`. `json.dumps(item.asdict(), default=bytes.hex)` makes a line."""
        found = {name: getattr(self, name) for name in _SHOWN if name != "data"}
        return {name: value for name, value in found.items() if value is not None}

    def as_json(self) -> Dict[str, Any]:
        """Returns the members of the object that `bt_tool show --json` prints of it, in order. `json.dumps` takes it."""
        found: Dict[str, Any] = {"offset": self._start, "item": self.name}
        found.update((name, _MEMBERS[name](self)) for name in _MEMBERS_OF.get(self.name, ()))
        return found

    def _all(self) -> Tuple[Any, ...]:
        return tuple(getattr(self, name) for name in _SHOWN)

    def __eq__(self, other: object) -> bool:
        if not isinstance(other, Item):
            return NotImplemented
        return self._all() == other._all()

    def __hash__(self) -> int:
        return hash((self.start, self.data))

    def __repr__(self) -> str:
        return "<bt.Item %s at %d, %d bytes>" % (self.name, self.start, self.size)

    def __reduce__(self) -> Tuple[Any, Tuple[Any, ...]]:
        # (a copy has its own bytes only, not the whole buffer)
        source = self.data, self._start
        return item, (self._start, self._size, self._index or 0, int(self._id), getattr(self, "_extended", b""), source)


if sys.version_info < (3, 12):
    # (they are quicker so; later ones read a property as quickly)
    for _name in ("start", "size", "id", "index"):
        _quicker = property(attrgetter("_" + _name), doc=getattr(Item, _name).__doc__)
        getattr(_quicker, "__set_name__", lambda *_: None)(Item, _name)  # (so that messages have the name)
        setattr(Item, _name, _quicker)


def item(start: int, size: int, index: int, number: int, extended: bytes, source: Tuple[bytes, int]) -> Item:
    """Returns the item of these fields of a `bt_item`, the bytes of its `bt_extended`, and the bytes that it lies in."""
    made = Item()
    made._start = start
    made._size = size
    made._source = source
    made._id = _IDS[number]
    made._index = index if _WITH_INDEX[number] else None
    if number == _EXTENDED:
        made._extended = extended
    return made


def items(structs: memoryview, source: Tuple[bytes, int]) -> List[Item]:
    """Returns the items of the bytes of these structs. It does what `item` does, without a call for each."""
    found: List[Item] = []
    has_extended = False
    new, add, ids, with_index = Item, found.append, _IDS, _WITH_INDEX
    for start, size, index, number in lib.ITEM_FIELDS.iter_unpack(structs):
        made = new()
        made._start = start
        made._size = size
        made._source = source
        made._id = ids[number]
        if with_index[number]:
            made._index = index
        else:
            made._index = None
            if number == _EXTENDED:
                has_extended = True
        add(made)
    if has_extended:
        for made, (extended,) in zip(found, lib.EACH_EXTENDED.iter_unpack(structs)):
            if made._id == _EXTENDED:
                made._extended = extended
    return found


_SHOWN = ("start", "size", "id", "name", "data", "index", "begin", "length", "port", "body", "reserved", "info_hash", "peer_id",
          "extended_id", "kind", "piece", "total_size", "dict_size", "metadata_size", "ut_metadata")


def _text(data: Any) -> Optional[str]:
    """The text in UTF-8, if it is one."""
    try:
        return data.decode() if isinstance(data, bytes) else None
    except UnicodeDecodeError:
        return None


def _client(shown: Item) -> Optional[str]:
    """The name of the client in an extended handshake (BEP 10)."""
    return _text(Decoder(shown.body or b"").dictionary().get(b"v"))


# What `bt_tool show --json` has of an item besides `offset` and `item`, by the item's name.
_MEMBERS: Dict[str, Callable[[Any], Any]] = {
    "reserved": lambda it: "%016x" % it.reserved, "info_hash": lambda it: it.info_hash.hex(), "peer_id": lambda it: it.peer_id.hex(),
    "peer_id_text": lambda it: _text(it.peer_id), "index": lambda it: it.piece if it.index is None else it.index,
    "begin": attrgetter("begin"), "length": attrgetter("length"), "port": attrgetter("port"), "piece": attrgetter("piece"),
    "id": lambda it: it.id if it.extended_id is None else it.extended_id, "dictionary": attrgetter("dict_size"),
    "rest": lambda it: len(it.rest), "metadata_size": attrgetter("metadata_size"), "ut_metadata": attrgetter("ut_metadata"),
    "client": _client, "total_size": attrgetter("total_size"), "bytes": lambda it: len(it.rest if it.piece is not None else it.body)}
_BLOCK, _PAYLOAD = ("index", "begin", "length"), ("id", "bytes")
_MEMBERS_OF: Dict[str, Tuple[str, ...]] = {
    "handshake": ("reserved", "info_hash", "peer_id", "peer_id_text"), "have": ("index",), "suggest": ("index",), "allowed-fast": ("index",),
    "donthave": ("index",), "request": _BLOCK, "cancel": _BLOCK, "reject": _BLOCK, "bitfield": ("bytes",), "piece": ("index", "begin", "bytes"),
    "port": ("port",), "unknown": _PAYLOAD, "extended": _PAYLOAD,
    "ext-handshake": ("dictionary", "rest", "metadata_size", "ut_metadata", "client"), "metadata-request": ("piece",),
    "metadata-data": ("piece", "total_size", "bytes"), "metadata-reject": ("piece",), "metadata-other": ("dictionary", "rest"),
    "metadata-malformed": ("dictionary", "rest")}


class _Names(Dict[int, str]):
    """The names of items by their id, and 512 times the kind of an extended message. Each is asked for once."""

    def __missing__(self, key: int) -> str:
        named = lib.Item(id=key % 512)
        named.extended.kind = key // 512
        found = self[key] = lib.name_of(lib.bt.bt_item_name, C.byref(named))
        return found


_NAMES = _Names()
