#!/usr/bin/env python3
"""Makes the streams of the benchmark, each in a file NAME.bin that begins with the same handshake.

The bytes depend on the options alone: the random numbers have fixed seeds. All streams are legal under the
rules `free` and the receiver's default options, but for big-string, which needs `--limit 1048576`.
"""
import argparse
import os
import random
import struct

HANDSHAKE = (b"\x13BitTorrent protocol" + bytes.fromhex("0000000000100005")
             + bytes.fromhex("a9993e364706816aba3e25717850c26c9cd0d89d") + b"-XX0001-000000000000")
BLOCK = 16384
MEGABYTE = 1000000
LIMIT = 262144          # the default message limit
GREATEST_LIMIT = 1048576
METADATA_ID = 3         # the receiver's default id for ut_metadata
METADATA_SIZE = 33554432


def message(ident, fields=b""):
    return struct.pack(">IB", 1 + len(fields), ident) + fields


def extended(ident, payload):
    return message(20, bytes([ident]) + payload)


def bencode(value):
    if isinstance(value, int):
        return b"i%de" % value
    if isinstance(value, bytes):
        return b"%d:%s" % (len(value), value)
    if isinstance(value, list):
        return b"l" + b"".join(map(bencode, value)) + b"e"
    return b"d" + b"".join(bencode(key) + bencode(value[key]) for key in sorted(value)) + b"e"


def repeated(pool, count):
    """`count` messages: those of the pool, again and again."""
    joined = b"".join(pool)
    for _ in range(count // len(pool)):
        yield joined
    yield b"".join(pool[:count % len(pool)])


def columns(template, count, rng, filled):
    """`count` messages like the template; `filled` gives for some of its bytes a table for random bytes.

    Byte columns are filled by slices with a step, so no loop goes over single messages.
    """
    while count > 0:
        some = min(count, 500000)
        out = bytearray(template * some)
        drawn = {}
        for place, (source, table) in filled.items():
            if source not in drawn:
                drawn[source] = rng.randbytes(some)
            out[place::len(template)] = drawn[source].translate(table)
        yield bytes(out)
        count -= some


SAME = bytes(range(256))
# A block's place in a piece of 4 MiB is its number shifted left by 14: these are the two bytes that it fills.
BEGIN_HIGH = bytes(n >> 2 for n in range(256))
BEGIN_LOW = bytes((n & 3) << 6 for n in range(256))


def haves(rng, factor, args):
    return columns(message(4, bytes(4)), count_of(3000000, factor), rng, {7: ("a", SAME), 8: ("b", SAME)})


def keep_alives(rng, factor, args):
    return columns(bytes(4), count_of(10000000, factor), rng, {})


def requests(rng, factor, args):
    template = message(6, struct.pack(">III", 0, 0, BLOCK))
    filled = {7: ("a", SAME), 8: ("b", SAME), 10: ("c", BEGIN_HIGH), 11: ("c", BEGIN_LOW)}
    return columns(template, count_of(3000000, factor), rng, filled)


def small_message(rng):
    """One small message of a random kind."""
    index, begin = rng.randrange(65536), BLOCK * rng.randrange(256)
    three = struct.pack(">III", index, begin, BLOCK)
    kind = rng.randrange(21)
    if kind in (0, 1, 2, 3, 14, 15):
        return message(kind)
    if kind in (4, 13, 17):
        return message(kind, struct.pack(">I", index))
    if kind == 5:
        return message(5, rng.randbytes(rng.randrange(1, 64)))
    if kind in (6, 8, 16):
        return message(kind, three)
    if kind == 7:
        return message(7, three[:8] + rng.randbytes(rng.randrange(64)))
    if kind == 9:
        return message(9, struct.pack(">H", rng.randrange(1, 65536)))
    if kind == 10:
        return bytes(4)
    if kind == 11:
        return message(rng.choice((10, 11, 12, 18, 19, 21, 99, 255)), rng.randbytes(rng.randrange(16)))
    if kind == 12:
        return extended(rng.choice((1, 2, 4, 5, 7)), rng.randbytes(rng.randrange(48)))
    if kind == 18:
        return metadata(rng.choice((0, 2)), rng.randrange(2048))
    if kind == 19:
        return extended(0, bencode({b"m": {b"ut_metadata": rng.randrange(1, 256), b"ut_pex": 1}, b"reqq": 500}))
    return message(4, struct.pack(">I", index))


def mixed(rng, factor, args):
    count = count_of(3000000, factor)
    return repeated([small_message(rng) for _ in range(min(count, 100000))], count)


def blocks(rng, factor, args):
    filler = rng.randbytes(1 << 20)
    for k in range(count_of(args.blocks_mb * MEGABYTE // (BLOCK + 13), factor)):
        piece, begin = k // 64, BLOCK * (k % 64)
        yield struct.pack(">IBII", 9 + BLOCK, 7, piece, begin)
        yield filler[begin:begin + BLOCK]


def bitfields(rng, factor, args):
    filler = rng.randbytes(2 * LIMIT)
    for k in range(count_of(1000, factor)):
        size = LIMIT - 1 - 37 * (k % 100)
        yield struct.pack(">IB", 1 + size, 5)
        yield filler[k:k + size]


def metadata(kind, piece, block=None):
    fields = {b"msg_type": kind, b"piece": piece}
    if block is not None:
        fields[b"total_size"] = METADATA_SIZE
    return extended(METADATA_ID, bencode(fields) + (block or b""))


def metadata_data(rng, factor, args):
    filler = rng.randbytes(1 << 20)
    for k in range(count_of(8000, factor)):
        piece = k % (METADATA_SIZE // BLOCK)
        begin = BLOCK * (piece % 64)
        yield metadata(1, piece, filler[begin:begin + BLOCK])


def metadata_requests(rng, factor, args):
    count = count_of(1000000, factor)
    return repeated([metadata(0, rng.randrange(2048)) for _ in range(min(count, 50000))], count)


CLIENTS = [b"qBittorrent/4.6.3", b"libtorrent/2.0.8.0", b"Transmission 3.00", "\u00b5Torrent 3.6".encode(), b"Deluge 2.1.1"]
NAMES = [b"lt_donthave", b"share_mode", b"upload_only", b"ut_holepunch", b"ut_comment"]


def client_handshake(rng):
    names = {name: rng.randrange(1, 16) for name in rng.sample(NAMES, rng.randrange(len(NAMES) + 1))}
    names[b"ut_metadata"] = rng.randrange(1, 16)
    names[b"ut_pex"] = rng.randrange(1, 16)
    fields = {b"m": names, b"complete_ago": rng.randrange(-1, 5000), b"e": 0, b"ipv6": rng.randbytes(16),
              b"metadata_size": rng.randrange(1, 200000), b"p": rng.randrange(1024, 65536),
              b"reqq": rng.choice((250, 500, 2000)), b"upload_only": rng.randrange(2),
              b"v": rng.choice(CLIENTS), b"yourip": rng.randbytes(rng.choice((4, 16)))}
    for key in rng.sample((b"complete_ago", b"e", b"ipv6", b"upload_only"), rng.randrange(3)):
        del fields[key]
    return extended(0, bencode(fields))


def ext_handshakes(rng, factor, args):
    count = count_of(500000, factor)
    return repeated([client_handshake(rng) for _ in range(min(count, 5000))], count)


def wide_handshake(rng):
    """An extended handshake of about 200 KB: many short keys in rising order, most with an integer."""
    pairs, size, k = [], 0, 0
    while size < 200000:
        value = (rng.randrange(100000), rng.randrange(100), b"abcd", [1, b"x"], {b"a": 1})[k % 5]
        pairs.append(b"5:%05d" % k + bencode(value))
        size += len(pairs[-1])
        k += 1
    end = b"1:m" + bencode({b"ut_metadata": 2, b"ut_pex": 1}) + b"13:metadata_sizei31235e"
    return extended(0, b"d" + b"".join(pairs) + end + b"e")


def many_pairs(rng, factor, args):
    count = count_of(500, factor)
    return repeated([wide_handshake(rng) for _ in range(min(count, 5))], count)


def big_string(rng, factor, args):
    size = GREATEST_LIMIT - len(b"\x14\x00d1:a1000000:e")
    one = extended(0, b"d1:a%d:%se" % (size, rng.randbytes(size)))
    return repeated([one], count_of(128, factor))


STREAMS = {"haves": haves, "keep-alives": keep_alives, "requests": requests, "mixed": mixed, "blocks": blocks,
           "bitfields": bitfields, "metadata-data": metadata_data, "metadata-requests": metadata_requests,
           "ext-handshakes": ext_handshakes, "many-pairs": many_pairs, "big-string": big_string}
OPTIONS = {"big-string": ["--limit", str(GREATEST_LIMIT)]}


def count_of(count, factor):
    return max(1, round(count * factor))


def make(name, folder, args):
    path = os.path.join(folder, name + ".bin")
    with open(path + ".part", "wb") as out:
        out.write(HANDSHAKE)
        for some in STREAMS[name](random.Random(name), args.factor, args):
            out.write(some)
    os.replace(path + ".part", path)
    return path


def main():
    parser = argparse.ArgumentParser(description=__doc__.split("\n")[0])
    here = os.path.dirname(os.path.abspath(__file__))
    parser.add_argument("folder", nargs="?", default=os.path.join(here, "out"), help="default: bench/out")
    parser.add_argument("--only", action="append", choices=STREAMS, metavar="STREAM", help="make this stream alone")
    parser.add_argument("--factor", type=float, default=1.0, help="number of messages, as a part of the full number")
    parser.add_argument("--blocks-mb", type=int, default=256, help="size of the stream blocks in MB (default 256)")
    args = parser.parse_args()
    os.makedirs(args.folder, exist_ok=True)
    for name in args.only or STREAMS:
        path = make(name, args.folder, args)
        print("%-18s %6.1f MB" % (name, os.path.getsize(path) / MEGABYTE))


if __name__ == "__main__":
    main()
