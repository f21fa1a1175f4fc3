"""Bencoding, the torrent under test, and a torrent for the purpose."""
import hashlib
import os
import random

BLOCK = 16384


def decode(data, at=0, depth=0):
    """Returns a bencoded value and where it ends. It is lenient: it reads what clients send."""
    if depth > 40:
        raise ValueError("too deep")
    first = data[at:at + 1]
    if first == b"i":
        end = data.index(b"e", at)
        return int(data[at + 1:end]), end + 1
    if first == b"l":
        at, values = at + 1, []
        while data[at:at + 1] != b"e":
            value, at = decode(data, at, depth + 1)
            values.append(value)
        return values, at + 1
    if first == b"d":
        at, pairs = at + 1, {}
        while data[at:at + 1] != b"e":
            key, at = decode(data, at, depth + 1)
            value, at = decode(data, at, depth + 1)
            if not isinstance(key, bytes):
                raise ValueError("a key is no string")
            pairs.setdefault(key, value)
        return pairs, at + 1
    if first.isdigit():
        colon = data.index(b":", at)
        end = colon + 1 + int(data[at:colon])
        if end > len(data):
            raise ValueError("cut")
        return data[colon + 1:end], end
    raise ValueError("no bencoding")


def encode(value):
    if isinstance(value, int):
        return b"i%de" % value
    if isinstance(value, bytes):
        return b"%d:" % len(value) + value
    if isinstance(value, list):
        return b"l" + b"".join(map(encode, value)) + b"e"
    return b"d" + b"".join(encode(key) + encode(value[key]) for key in sorted(value)) + b"e"


def wholly(data):
    """A dictionary and the bytes after it; an empty one if there is none."""
    try:
        value, end = decode(data)
    except (ValueError, RecursionError):
        return {}, data
    return (value, data[end:]) if isinstance(value, dict) else ({}, data)


class Torrent:
    """What the suite knows of the torrent: its metadata, its pieces, and its data if they are given."""

    def __init__(self, path, data=None):
        with open(path, "rb") as file:
            raw = file.read()
        at = raw.index(b"4:info") + 6
        info, end = decode(raw, at)
        self.info = raw[at:end]
        self.hash = hashlib.sha1(self.info).digest()
        self.piece = info[b"piece length"]
        self.hashes = info[b"pieces"]
        self.pieces = len(self.hashes) // 20
        files = info.get(b"files", [])
        self.size = info[b"length"] if b"length" in info else sum(file[b"length"] for file in files)
        self.data = None
        if data is None and os.path.isfile(os.path.splitext(path)[0] + ".bin"):
            data = os.path.splitext(path)[0] + ".bin"
        if data is not None:
            with open(data, "rb") as file:
                self.data = file.read()

    def length(self, index):
        """The bytes of a piece."""
        return self.piece if index < self.pieces - 1 else self.size - self.piece * (self.pieces - 1)

    def block(self, index, begin, length):
        """The bytes of a block, as far as they are inside the torrent."""
        at = index * self.piece + begin
        return self.data[at:at + length]

    def metadata(self, index):
        return self.info[index * BLOCK:index * BLOCK + BLOCK]

    def blocks(self):
        """How many blocks the metadata has."""
        return -(-len(self.info) // BLOCK)


PIECE, PIECES, LAST = 32768, 38, 17000
TRACKER = b"http://127.0.0.1:1/announce"


def make(folder):
    """Writes peertest.torrent and its data, peertest.bin.

    It has 38 pieces of two blocks, the last one shorter, so that a bitfield has spare bits and a last block is short. The metadata
    has two blocks. The same bytes come each time. It names a tracker that isn't there, since rtorrent loads no torrent without one.
    """
    os.makedirs(folder, exist_ok=True)
    data = random.Random(7).randbytes((PIECES - 1) * PIECE + LAST)
    digests = b"".join(hashlib.sha1(data[at:at + PIECE]).digest() for at in range(0, len(data), PIECE))
    info = {b"length": len(data), b"name": b"peertest.bin", b"piece length": PIECE, b"pieces": digests, b"x_pad": b"x" * 20000}
    names = [os.path.join(folder, "peertest" + end) for end in (".torrent", ".bin")]
    for name, content in zip(names, (b"d8:announce" + encode(TRACKER) + b"4:info" + encode(info) + b"e", data)):
        with open(name, "wb") as file:
            file.write(content)
    return names
