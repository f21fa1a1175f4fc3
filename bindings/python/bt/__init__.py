"""The BitTorrent peer wire (BEP 3, 5, 6, 9 and 10), over the proved library libbt.so.

    import bt

    for item in bt.read(data):                      # raises bt.Refused if the stream is refused
        print(item.start, item.name, item.index)

    for item in bt.stream(sock): ...                # a socket, a binary file or an iterable of bytes; bt.stream_async by asyncio

    table = bt.columns(data)                        # table.id, table.index ..: a number of each item, as numpy takes them

    feed = bt.Feed(bt.Own(strict=True))             # chunks of any size, as a socket gives them
    for item in feed.push(chunk): ...
    for item in feed.finish(): ...

    writer = bt.Writer(own, handshake.reserved)     # what is sent is judged as the peer reads it
    sock.sendall(writer.request(0, 0, 16384))       # raises bt.Refused if the peer would refuse it

    metadata = bt.fetch("localhost:6881", info_hash)    # or peers=[..]; bt.End is one end of a connection, without a socket

What there is, each with its own help, as help(bt.Item):

    read, stream, stream_async, Feed, check     items of bytes, of a socket or a file, of chunks; a verdict only
    columns, Columns                            numbers of all items at once
    Own, Item, Refused                          what a stream is judged by, the handshake or a message, why it is refused
    Writer, handshake                           messages and the handshake, as bytes
    End, Heard, Progress, Event, Announce       one end of a connection, and what it heard
    fetch, fetch_async, FetchError              a torrent's metadata, from the first of some peers that gives it
    bdecode, BencodeError                       a bencoded dictionary, as that metadata
    Id, Kind, Reason                            numbers by name; HAVE is Id.HAVE, and METADATA_DATA is Kind.METADATA_DATA

The library is looked for in BT_LIBRARY if that is set, beside this package, and in dist/ and crates/bt_c/out of the repository.
An object is used by one thread at a time.
"""
from ._bencode import BencodeError, bdecode
from ._columns import Columns, columns
from ._end import End, Heard, Progress
from ._fetching import fetch, fetch_async
from ._names import (ALLOWED_FAST, BITFIELD, CANCEL, CHOKE, DHT, DONTHAVE, EXT_HANDSHAKE, EXT_RAW, EXTENDED, EXTENSIONS, FAST,
                     HANDSHAKE, HAVE, HAVE_ALL, HAVE_NONE, INTERESTED, KEEP_ALIVE, METADATA_DATA, METADATA_MALFORMED,
                     METADATA_OTHER, METADATA_REJECT, METADATA_REQUEST, NOT_INTERESTED, PIECE, PORT, REJECT, REQUEST, SUGGEST,
                     UNCHOKE, Announce, Event, Id, Kind, Reason)
from ._peers import FetchError
from ._reading import Feed, check, read, stream, stream_async
from ._values import Item, Own, Refused
from ._writing import Writer, handshake

__version__ = "0.2.0"

__all__ = ["FAST", "DHT", "EXTENSIONS", "CHOKE", "UNCHOKE", "INTERESTED", "NOT_INTERESTED", "HAVE", "BITFIELD", "REQUEST", "PIECE",
           "CANCEL", "PORT", "SUGGEST", "HAVE_ALL", "HAVE_NONE", "REJECT", "ALLOWED_FAST", "EXTENDED", "KEEP_ALIVE", "HANDSHAKE",
           "EXT_HANDSHAKE", "METADATA_REQUEST", "METADATA_DATA", "METADATA_REJECT", "METADATA_OTHER", "METADATA_MALFORMED",
           "EXT_RAW", "DONTHAVE", "Id", "Kind", "Reason", "Own", "Item", "Refused", "read", "stream", "stream_async", "columns",
           "Columns", "check", "Feed", "handshake", "Writer", "End", "Heard", "Event", "Announce", "Progress", "fetch",
           "fetch_async", "FetchError", "bdecode", "BencodeError"]
