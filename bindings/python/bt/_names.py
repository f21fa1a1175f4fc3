"""The numbers of bt.h by name."""
from __future__ import annotations

import enum
from typing import List

FAST = 0x4
DHT = 0x1
EXTENSIONS = 0x100000


class _Named(enum.EnumMeta):
    """Has the names only, so that `help` shows them without the methods of `int`."""

    def __dir__(cls) -> List[str]:
        return ["__doc__", *cls.__members__]


class Id(enum.IntEnum, metaclass=_Named):
    """The id of a message; or that of a keep-alive or the handshake, which have none on the wire."""

    CHOKE = 0
    UNCHOKE = 1
    INTERESTED = 2
    NOT_INTERESTED = 3
    HAVE = 4
    BITFIELD = 5
    REQUEST = 6
    PIECE = 7
    CANCEL = 8
    PORT = 9
    SUGGEST = 13
    HAVE_ALL = 14
    HAVE_NONE = 15
    REJECT = 16
    ALLOWED_FAST = 17
    EXTENDED = 20
    KEEP_ALIVE = 256
    HANDSHAKE = 257


class Kind(enum.IntEnum, metaclass=_Named):
    """What an extended message is."""

    EXT_HANDSHAKE = 1
    METADATA_REQUEST = 2
    METADATA_DATA = 3
    METADATA_REJECT = 4
    METADATA_OTHER = 5
    METADATA_MALFORMED = 6
    EXT_RAW = 7
    DONTHAVE = 8


class Reason(enum.IntEnum, metaclass=_Named):
    """Why a stream or a message is refused."""

    BAD_PROTOCOL = 1
    WRONG_INFO_HASH = 2
    TOO_LONG = 3
    UNKNOWN_ID = 4
    NOT_NEGOTIATED = 5
    WRONG_LENGTH = 6
    BAD_INDEX = 7
    SPARE_BITS = 8
    LATE = 9
    MISSING = 10
    BAD_BENCODE = 11
    UNSORTED = 12
    BAD_FIELD = 13
    BAD_BLOCK = 14
    STREAM_FULL = 15
    END_INSIDE = 16
    BAD_EXT_LENGTH = 17


class Event(enum.IntEnum, metaclass=_Named):
    """What an item of the peer made of an end.

    OTHER        nothing that the item itself doesn't say
    OPENED       the peer's handshake came
    ANNOUNCED    the peer's extended handshake came
    BLOCK        a block that was asked for came, and others lack
    REJECTED     a block that was asked for was rejected
    FETCHED      the last block came, and the metadata is there
    MISMATCHED   the last block came, and the blocks are those of other metadata: the fetch starts over
    SERVED       the peer asked for a block of the metadata, which waits to be sent
    DECLINED     the peer asked for a block of the metadata, and a reject waits to be sent
    REQUESTED    the peer asked for a block of a piece
    PIECE        a block of a piece came
    """

    OTHER = 0
    OPENED = 1
    ANNOUNCED = 2
    BLOCK = 3
    REJECTED = 4
    FETCHED = 5
    MISMATCHED = 6
    SERVED = 7
    DECLINED = 8
    REQUESTED = 9
    PIECE = 10


class Announce(enum.IntEnum, metaclass=_Named):
    """What an end announces of its pieces after the handshakes."""

    NOTHING = 0
    ALL = 1
    NONE = 2


# a line each, which checkers of types understand
CHOKE = Id.CHOKE
UNCHOKE = Id.UNCHOKE
INTERESTED = Id.INTERESTED
NOT_INTERESTED = Id.NOT_INTERESTED
HAVE = Id.HAVE
BITFIELD = Id.BITFIELD
REQUEST = Id.REQUEST
PIECE = Id.PIECE
CANCEL = Id.CANCEL
PORT = Id.PORT
SUGGEST = Id.SUGGEST
HAVE_ALL = Id.HAVE_ALL
HAVE_NONE = Id.HAVE_NONE
REJECT = Id.REJECT
ALLOWED_FAST = Id.ALLOWED_FAST
EXTENDED = Id.EXTENDED
KEEP_ALIVE = Id.KEEP_ALIVE
HANDSHAKE = Id.HANDSHAKE
EXT_HANDSHAKE = Kind.EXT_HANDSHAKE
METADATA_REQUEST = Kind.METADATA_REQUEST
METADATA_DATA = Kind.METADATA_DATA
METADATA_REJECT = Kind.METADATA_REJECT
METADATA_OTHER = Kind.METADATA_OTHER
METADATA_MALFORMED = Kind.METADATA_MALFORMED
EXT_RAW = Kind.EXT_RAW
DONTHAVE = Kind.DONTHAVE
