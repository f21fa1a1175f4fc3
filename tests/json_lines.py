#!/usr/bin/env python3
"""Compares `show --json` with `show` on streams: every line parses as JSON, and its fields are the words of the line of `show`.

usage: tests/json_lines.py [PROGRAM [FILE..]]

PROGRAM is the built program, or else the script `bt_tool` at the top of the repository. FILEs are streams to compare besides
those that this script makes. The fields' names are those of docs/COMMANDS.md.
"""
import json
import os
import subprocess
import sys

ROOT = os.path.dirname(os.path.dirname(os.path.abspath(__file__)))

# The fields of an item, in the order of the words of `show`.
PART = ["index", "begin", "length"]
SIZES = ["dictionary", "rest"]
FIELDS = {
    "handshake": ["reserved", "info_hash", "peer_id"],
    "have": ["index"], "suggest": ["index"], "allowed-fast": ["index"],
    "request": PART, "cancel": PART, "reject": PART,
    "bitfield": ["bytes"], "piece": ["index", "begin", "bytes"], "port": ["port"], "unknown": ["id", "bytes"],
    "ext-handshake": SIZES + ["metadata_size", "ut_metadata"],
    "metadata-request": ["piece"], "metadata-data": ["piece", "total_size", "bytes"], "metadata-reject": ["piece"],
    "metadata-other": SIZES, "metadata-malformed": SIZES, "extended": ["id", "bytes"],
}
# The fields that `show` hasn't.
MORE = {"handshake": ["peer_id_text"], "ext-handshake": ["client"]}


def unique(pairs):
    names = [name for name, _ in pairs]
    if len(set(names)) < len(names):
        raise ValueError("a name stands twice: %s" % names)
    return dict(pairs)


def words_of(item):
    """The line of `show` that has these fields."""
    if "verdict" in item:
        if item["verdict"] == "ok":
            assert list(item) == ["verdict", "messages", "bytes"], item
            return "ok messages=%d bytes=%d" % (item["messages"], item["bytes"])
        assert list(item) == ["verdict", "message", "offset", "reason"], item
        return "refused message=%d at=%d %s" % (item["message"], item["offset"], item["reason"])
    name = item["item"]
    fields = FIELDS.get(name, [])
    assert list(item) == ["offset", "item"] + fields + MORE.get(name, []), item
    values = ["-" if item[field] is None else str(item[field]) for field in fields]
    if name == "ext-handshake":
        values[2:] = ["size=" + values[2], "ut_metadata=" + values[3]]
    return " ".join([str(item["offset"]), name] + values)


def text_of(data):
    try:
        return data.decode("utf-8")
    except UnicodeDecodeError:
        return None


def run(program, words, data):
    return subprocess.run([program] + words, input=data, capture_output=True)


def compare(program, words, data, texts):
    """Returns what is wrong, or nothing."""
    plain, objects = run(program, ["show"] + words, data), run(program, ["show", "--json"] + words, data)
    if (plain.returncode, plain.stderr) != (objects.returncode, objects.stderr):
        return "the statuses or the texts on standard error differ"
    items = [json.loads(line, object_pairs_hook=unique) for line in objects.stdout.decode("utf-8").split("\n")[:-1]]
    lines = plain.stdout.decode("ascii").split("\n")[:-1]
    if [words_of(item) for item in items] != lines:
        return "%s\nand\n%s" % (objects.stdout.decode(), plain.stdout.decode())
    for item in items:
        if "peer_id_text" in item and item["peer_id_text"] != text_of(bytes.fromhex(item["peer_id"])):
            return "another text of the peer id"
    found = [item.get("peer_id_text", item.get("client")) for item in items if "peer_id_text" in item or "client" in item]
    if texts is not None and found != texts:
        return "the texts are %r" % found
    return None


def message(number, payload=b""):
    return (1 + len(payload)).to_bytes(4, "big") + bytes([number]) + payload


def extended(number, payload):
    return message(20, bytes([number]) + payload)


def numbers(*values):
    return b"".join(value.to_bytes(4, "big") for value in values)


def hand(peer):
    return b"\x13BitTorrent protocol" + bytes.fromhex("0000000000100005") + bytes(range(20)) + peer


def client(name):
    return extended(0, b"d1:md11:ut_metadatai3ee13:metadata_sizei70000e1:v%d:%se" % (len(name), name))


PEER = b"-XX0001-000000000000"
ALL = (b"\0\0\0\0" + message(5, b"\xff\xc0") + message(0) + message(1) + message(2) + message(3) + message(4, numbers(9))
       + message(6, numbers(1, 2, 16384)) + message(7, numbers(1, 16384) + b"block") + message(8, numbers(1, 2, 3))
       + message(9, b"\x1a\xe1") + message(13, numbers(7)) + message(16, numbers(4, 5, 6)) + message(17, numbers(2 ** 32 - 1))
       + message(99, b"some") + extended(77, b"raw") + extended(3, b"d8:msg_typei0e5:piecei0ee")
       + extended(3, b"d8:msg_typei1e5:piecei0e10:total_sizei5eehello") + extended(3, b"d8:msg_typei2e5:piecei4ee")
       + extended(3, b"d8:msg_typei9ee??") + extended(3, b"de?") + extended(0, b"de"))

MIXED = [b"Name 1.2", b"a \"b\"", "\u00b5T".encode(), b"\\x\n"]

# The options, the stream, and the texts of peer ids and clients that have to be there.
ROWS = [
    ([], hand(PEER), [PEER.decode()]),
    ([], hand(PEER) + ALL, [PEER.decode(), None]),
    (["--pieces", "10"], hand(PEER) + ALL, None),
    ([], hand(PEER) + message(14) + message(15), [PEER.decode()]),
    ([], hand(bytes(range(20))) + client(b"say \"\\/\" \x00\x1f\x7f\b\f\n\r\t"),
     [bytes(range(20)).decode(), "say \"\\/\" \x00\x1f\x7f\b\f\n\r\t"]),
    ([], hand(b"\xff" * 20) + client("\u00b5Torrent 3.5 \u2603 \U0001f300 \u2028".encode()),
     [None, "\u00b5Torrent 3.5 \u2603 \U0001f300 \u2028"]),
    ([], hand(b"\xed\xa0\x80" + PEER[3:]) + client(b"half \xc3") + client(b""), [None, None, ""]),
    ([], hand(PEER) + extended(0, b"d1:vi7ee") + extended(0, b"d1:vl1:aee") + extended(0, b"d1:v1:a1:v1:be"),
     [PEER.decode(), None, None, "a"]),
    ([], hand(PEER) + client(b"x" * 200000), [PEER.decode(), "x" * 200000]),
    ([], hand(PEER) + b"".join(client(b"x" * n) for n in (255, 256, 257)), [PEER.decode(), "x" * 255, "x" * 256, "x" * 257]),
    ([], hand(PEER) + b"".join(client(b"\x01" * n) for n in (255, 256, 257)), [PEER.decode(), "\x01" * 255, "\x01" * 256, "\x01" * 257]),
    ([], hand(PEER) + b"".join(client(bytes([byte])) for byte in range(256)),
     [PEER.decode()] + [text_of(bytes([byte])) for byte in range(256)]),
    # (the text grows at many places of a line, before names that are put at once and others)
    ([], hand(PEER) + b"".join(message(4, numbers(n)) * (n % 7) + client(MIXED[n % 4] * (n % 90)) for n in range(3000)),
     [PEER.decode()] + [(MIXED[n % 4] * (n % 90)).decode() for n in range(3000)]),
    ([], hand(PEER) + message(4), [PEER.decode()]),
    ([], b"", []),
    ([], b"GET / HTTP/1.1\r\n\r\n", []),
    ([], hand(PEER)[:67], []),
    (["--limit", "1"], hand(PEER) + message(4, numbers(9)), [PEER.decode()]),
    ([], hand(PEER) + message(4, numbers(9)) * 40000, [PEER.decode()]),
]


def main():
    program = os.path.abspath(sys.argv[1]) if len(sys.argv) > 1 else os.path.join(ROOT, "bt_tool")
    rows = list(ROWS)
    for name in sys.argv[2:]:
        with open(name, "rb") as file:
            data = file.read()
        rows += [([], data, None), (["--metadata-id", "0"], data, None), (["--rules", "bep"], data, None)]
    failed = 0
    for number, (words, data, texts) in enumerate(rows):
        try:
            wrong = compare(program, words, data, texts)
        except (ValueError, KeyError, AssertionError) as error:
            wrong = repr(error)
        if wrong:
            failed += 1
            print("row %d, %s: %s" % (number, words, wrong[:2000]))
    print("json: %d rows, %d failed" % (len(rows), failed))
    return 1 if failed else 0


if __name__ == "__main__":
    sys.exit(main())
