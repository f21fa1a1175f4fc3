"""The bytes that a line of a case names."""
import re
import struct

from .torrent import BLOCK

FAST, EXTENSIONS = 0x4, 0x100000
PROTOCOL = b"\x13BitTorrent protocol"
METADATA_ID, DONTHAVE_ID = 3, 7
NUMBERS = {"choke": 0, "unchoke": 1, "interested": 2, "not-interested": 3, "have": 4, "request": 6, "cancel": 8, "suggest": 13,
           "have-all": 14, "have-none": 15, "reject": 16, "allowed-fast": 17}
QUESTION = b"d8:msg_typei0e5:piecei0ee"


def message(number, fields=b""):
    return struct.pack(">IB", len(fields) + 1, number) + fields


def handshake(reserved, info_hash, peer_id):
    return PROTOCOL + struct.pack(">Q", reserved) + info_hash + peer_id


def values(torrent, link):
    """What `{name}` stands for."""
    last, size, blocks = torrent.pieces - 1, len(torrent.info), torrent.blocks()
    begin = (torrent.length(last) - 1) // BLOCK * BLOCK
    um, dont = link.heard.um or 1, link.heard.dont or 1
    fast_set = link.heard.fast_set
    # Where the block begins in a message with data of block 0.
    block_at = 6 + len(b"d8:msg_typei1e5:piecei0e10:total_sizei%dee" % size)
    return {"n": torrent.pieces, "last": last, "last_begin": begin, "last_length": torrent.length(last) - begin,
            "um": um, "um_hex": "%02x" % um, "dont": dont, "dont_hex": "%02x" % dont, "free": 1 + max(um, dont),
            "blocks": blocks, "last_block": blocks - 1, "last_size": size - (blocks - 1) * BLOCK, "size": size,
            "first_size": min(size, BLOCK), "block_at": block_at, "second_at": 2 * block_at + BLOCK,
            "field_end": 4 + -(-torrent.pieces // 8),
            "af": fast_set[0] if fast_set else 0, "hash": torrent.hash.hex(), "peer": link.peer_id.hex()}


def filled(text, known):
    """The text with its values; `~` stands for a space."""
    def value(found):
        return str(known[found[1]])
    return re.sub(r"\{(\w+)\}", value, re.sub(r"\{(\w+)\}", value, text)).replace("~", " ")


def plain(words):
    """Bytes: hex, "text", zN for N zero bytes, `-` for none; each maybe `*N`; joined by `+`."""
    out = b""
    for part in re.findall(r'"[^"]*"(?:\*\d+)?|[^+]+', words):
        part = part.strip()
        text, _, times = part.rpartition("*") if re.search(r"\*\d+$", part) else (part, "", "1")
        if text.startswith('"'):
            found = text[1:-1].encode("latin1")
        elif text in ("-", ""):
            found = b""
        else:
            found = bytes(int(text[1:])) if text[0] == "z" else bytes.fromhex(text)
        out += found * int(times)
    return out


def field(torrent, words):
    """A bitfield by its name, or by its bytes."""
    size = -(-torrent.pieces // 8)
    if words in ("none", "short", "long"):
        return bytes(size + {"none": 0, "short": -1, "long": 1}[words])
    if words in ("some", "spare", "all", "all-and-spare"):
        bits = bytearray(size) if words in ("some", "spare") else bytearray(b"\xff" * size)
        if words == "some":
            bits[0] = 0xa5
        if words == "spare":
            bits[-1] |= 1
        if words == "all" and torrent.pieces % 8:
            bits[-1] = 0xff << (8 - torrent.pieces % 8) & 0xff
        return bytes(bits)
    return plain(words)


def line(torrent, text):
    """The bytes of a message, as a line of `pack` names it; a bitfield may have a name, a block the words of `plain`."""
    words = text.split()
    name, numbers = words[0], words[1:]
    if name == "keep-alive":
        return bytes(4)
    if name == "bitfield":
        return message(5, field(torrent, numbers[0]))
    if name == "port":
        return message(9, struct.pack(">H", int(numbers[0])))
    if name == "piece":
        return message(7, struct.pack(">II", int(numbers[0]), int(numbers[1])) + plain(numbers[2]))
    if name == "extended":
        return message(20, bytes([int(numbers[0])]) + plain(" ".join(numbers[1:])))
    if name == "unknown":
        return message(int(numbers[0]), plain(numbers[1]))
    return message(NUMBERS[name], b"".join(struct.pack(">I", int(number)) for number in numbers))


def block_range(torrent, words):
    """`range COUNT LENGTH [NAME]`: requests of blocks that follow each other, from piece 1 on."""
    count, length = int(words[0]), int(words[1])
    name = words[2] if len(words) > 2 else "request"
    at = [number * length for number in range(count)]
    return b"".join(line(torrent, "%s %d %d %d" % (name, 1 + begin // torrent.piece, begin % torrent.piece, length)) for begin in at)


def step_bytes(torrent, link, word, text):
    """The bytes of a step that makes some."""
    if word == "rep":
        times, word, text = text.split(" ", 2)
        return step_bytes(torrent, link, word, text) * int(times)
    if word == "send":
        return line(torrent, text)
    if word == "ext":
        return message(20, b"\0" + plain(text))
    if word == "um":
        return message(20, bytes([link.heard.um or 1]) + plain(text))
    if word == "range":
        return block_range(torrent, text.split())
    return plain(text)
