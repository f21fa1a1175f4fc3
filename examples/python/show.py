#!/usr/bin/env python3
"""Prints the items of a stream as `bt_tool show` does. usage: show.py [FILE..], or show.py <STREAM

The options of `show` are read from the environment: RULES=free or bep, LIMIT, PIECES, INFO_HASH in hex. PIECE is how many
bytes are read at once.
"""
import os
import sys

sys.path.insert(0, os.path.join(os.path.dirname(os.path.abspath(__file__)), "../../bindings/python"))
import bt


def or_dash(number):
    return "-" if number is None else str(number)


def words(item):
    if item.id == bt.HANDSHAKE:
        return "%016x %s %s" % (item.reserved, item.info_hash.hex(), item.peer_id.hex())
    if item.id in (bt.HAVE, bt.SUGGEST, bt.ALLOWED_FAST):
        return "%d" % item.index
    if item.id in (bt.REQUEST, bt.CANCEL, bt.REJECT):
        return "%d %d %d" % (item.index, item.begin, item.length)
    if item.id == bt.PIECE:
        return "%d %d %d" % (item.index, item.begin, len(item.body))
    if item.id == bt.BITFIELD:
        return "%d" % len(item.body)
    if item.id == bt.PORT:
        return "%d" % item.port
    if item.name == "unknown":
        return "%d %d" % (item.id, len(item.body))
    if item.kind == bt.EXT_HANDSHAKE:
        return "%d %d size=%s ut_metadata=%s" % (item.dict_size, len(item.rest), or_dash(item.metadata_size),
                                                 or_dash(item.ut_metadata))
    if item.kind in (bt.METADATA_REQUEST, bt.METADATA_REJECT, bt.DONTHAVE):
        return "%d" % item.piece
    if item.kind == bt.METADATA_DATA:
        return "%d %d %d" % (item.piece, item.total_size, len(item.rest))
    if item.kind == bt.EXT_RAW:
        return "%d %d" % (item.extended_id, len(item.body))
    if item.kind is not None:
        return "%d %d" % (item.dict_size, len(item.rest))
    return ""


def show(own, pieces, line):
    """Gives the lines of a stream in pieces to `line`, and returns whether it is accepted."""
    feed, count = bt.Feed(own), 0
    try:
        for piece in pieces:
            for item in feed.push(piece):
                line(" ".join(part for part in (str(item.start), item.name, words(item)) if part))
                count += 1
        for _ in feed.finish():
            pass
    except bt.Refused as refused:
        line("refused message=%d at=%d %s" % (refused.message, refused.at, refused.name))
        return False
    line("ok messages=%d bytes=%d" % (count - 1, feed.start))
    return True


def main():
    given = os.environ.get
    own = bt.Own(strict=given("RULES") == "bep", limit=int(given("LIMIT", 262144)),
                 pieces=int(given("PIECES")) if given("PIECES") else None,
                 info_hash=bytes.fromhex(given("INFO_HASH")) if given("INFO_HASH") else None)
    size, accepted = int(given("PIECE", 65536)), True
    for path in sys.argv[1:] or [None]:
        with open(path, "rb") if path else sys.stdin.buffer as stream:
            accepted &= show(own, iter(lambda: stream.read(size), b""), print)
    return 0 if accepted else 1


if __name__ == "__main__":
    sys.exit(main())
