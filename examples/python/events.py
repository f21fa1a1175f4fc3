#!/usr/bin/env python3
"""Prints the events of an end that fetches, by what peers sent, and its answers. usage: events.py INFO-HASH FILE.."""
import os
import sys

sys.path.insert(0, os.path.join(os.path.dirname(os.path.abspath(__file__)), "../../bindings/python"))
import bt


def lines(stream, info_hash, size):
    with bt.End(bt.Own(info_hash=info_hash), fetch=True) as end:
        try:
            for at in range(0, len(stream), size):
                for heard in end.receive(stream[at:at + size]):
                    told = [heard.piece, heard.id, heard.size, "begins" if heard.begins else None]
                    yield " ".join(map(str, [heard.item.start, heard.item.name, heard.event.name, len(heard.item.data),
                                             *(it for it in told if it is not None)]))
        except bt.Refused as refused:
            yield "refused message=%d at=%d %s" % (refused.message, refused.at, refused.name)
        yield "metadata %s, hopeless %d, mismatches %d" % (len(end.metadata or b""), end.is_hopeless, end.mismatches)
        yield "answers " + end.take()[68:].hex()


for path in sys.argv[2:]:
    with open(path, "rb") as file:
        for line in lines(file.read(), bytes.fromhex(sys.argv[1]), int(os.environ.get("PIECE", 65536))):
            print(line)
