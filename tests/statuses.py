#!/usr/bin/env python3
"""Runs the program on small inputs, and compares what it prints on both outputs, and its exit status.

usage: tests/statuses.py [PROGRAM]

PROGRAM is the built program, or else the script `bt_tool` at the top of the repository. What is expected was worked out from
docs/RULES.md and docs/COMMANDS.md. The texts of help, usage and of mistakes aren't fixed: a row has TEXT where some text has to be, and Parts
where a text has to have some parts.
"""
import bz2
import gzip
import hashlib
import lzma
import os
import re
import struct
import subprocess
import sys
import tempfile

ROOT = os.path.dirname(os.path.dirname(os.path.abspath(__file__)))
TEXT = object()


class Parts:
    """A text that has these parts."""

    def __init__(self, *parts):
        self.parts = parts


class Hint:
    """What standard error has, and after it the line of a hint with these parts, if hints are asked for."""

    def __init__(self, stated, *parts):
        self.stated, self.parts = stated, parts

    def is_in(self, found):
        hint = found[len(self.stated):]
        return (found.startswith(self.stated + b"hint: ") and hint.endswith(b"\n") and hint.count(b"\n") == 1
                and all(part in hint for part in self.parts))


# Input that can't be read, and output that can't be written.
FOLDER, FULL = object(), object()

# Why a file can't be read, as the system says it.
NO_FILE = b"fault: read: No such file or directory (os error 2)\n"
NO_SUCH = b"none: " + NO_FILE
IS_FOLDER = b"fault: read: it is a directory\n"
NO_CAPTURE = b"a: fault: capture: neither a pcap nor a pcapng file\n"
HASH = "a9993e364706816aba3e25717850c26c9cd0d89d"
PEER = b"-XX0001-000000000000"
HAND = b"\x13BitTorrent protocol" + bytes.fromhex("0000000000100005") + bytes.fromhex(HASH) + PEER
HAVE_9 = bytes.fromhex("00000005 04 00000009")
LINE = ("handshake 0000000000100005 %s %s\n" % (HASH, PEER.hex())).encode()
JSON_HAND = (b'{"offset":0,"item":"handshake","reserved":"0000000000100005","info_hash":"%s","peer_id":"%s","peer_id_text":"%s"}\n'
             % (HASH.encode(), PEER.hex().encode(), PEER))
REQUEST = b"d8:msg_typei0e5:piecei0ee"
# A piece message of which much comes after the first read.
LONG = bytes.fromhex("00030d49 07 00000001 00000000") + bytes(200000)
MISTAKE = Parts(b"error: ", b"Usage: bt_tool ")


def by(program, reader):
    """The line on a capture that a program has compressed, and on the command that reads it."""
    return b"capture: compressed by %s; this reads it: %s -c FILE | bt_tool capture\n" % (program.encode(), reader.encode())


NUMBER = "a number from 0 to 4294967295"
# The file with the digits of the digest over the sources, which `--version` prints.
with open(os.path.join(ROOT, "crates", "bt_tool", "src", "sources.rt")) as file:
    VERSION = b"bt_tool 0.2.0 (sources %s)\n" % re.search('"([0-9a-f]{12})"', file.read())[1].encode()


def syntax(line, column, expected):
    """What `pack` says of a line that is none."""
    return Hint(b"refused line=%d Syntax\n" % line, b" line %d, column %d: expected %s\n" % (line, column, expected.encode()))


# Words, standard input, standard output, standard error, exit status. Words are a list where one is empty or has a space.
ROWS = [
    # streams
    ("", HAND, b"0 " + LINE + b"ok messages=0 bytes=68\n", b"", 0),
    ("show", HAND + bytes(4), b"0 " + LINE + b"68 keep-alive\nok messages=1 bytes=72\n", b"", 0),
    ("show", b"", b"refused message=0 at=0 EndInside\n", b"", 1),
    ("show", HAND + bytes.fromhex("0000000404"), b"0 " + LINE + b"refused message=1 at=68 WrongLength\n", b"", 1),
    ("check", HAND + bytes(4), b"ok messages=1 bytes=72\n", b"", 0),
    ("check", HAND + bytes.fromhex("0000000101"), b"refused message=1 at=72 Missing\n", b"", 1),
    ("check --rules free", HAND + bytes.fromhex("0000000101"), b"ok messages=1 bytes=73\n", b"", 0),
    ("unpack", HAND + bytes.fromhex("0000001b1403") + REQUEST, LINE + b"extended 3 " + REQUEST.hex().encode() + b"\n", b"", 0),
    ("unpack", HAND + bytes.fromhex("0000000404"), LINE, b"refused message=1 at=68 WrongLength\n", 1),
    ("unpack", HAND[:67], b"", b"refused message=0 at=67 EndInside\n", 1),
    ("unpack --limit 1", HAND + HAVE_9, LINE, b"refused message=1 at=68 TooLong\n", 1),
    ("unpack", HAND + bytes.fromhex("00000000 00000004 04 000000"), LINE + b"keep-alive\n",
     b"refused message=2 at=72 WrongLength\n", 1),
    ("show", HAND[:5] + b"O" + HAND[6:], b"refused message=0 at=5 BadProtocol\n", b"", 1),
    ("show --info-hash " + 40 * "0", HAND, b"refused message=0 at=28 WrongInfoHash\n", b"", 1),
    ("show", HAND + bytes(4) + HAVE_9, b"0 " + LINE + b"68 keep-alive\n72 have 9\nok messages=2 bytes=81\n", b"", 0),
    ("show", HAND + bytes.fromhex("00000003 05 ffc0"), b"0 " + LINE + b"68 bitfield 2\nok messages=1 bytes=75\n", b"", 0),
    ("show", HAND + LONG + LONG + HAVE_9,
     b"0 " + LINE + b"68 piece 1 0 200000\n200081 piece 1 0 200000\n400094 have 9\nok messages=3 bytes=400103\n", b"", 0),
    ("show", HAND + LONG[:-1], b"0 " + LINE + b"refused message=1 at=200080 EndInside\n", b"", 1),
    ("unpack", HAND + LONG, LINE + b"piece 1 0 " + 400000 * b"0" + b"\n", b"", 0),
    ("show", HAND + bytes.fromhex("00040001"), b"0 " + LINE + b"refused message=1 at=68 TooLong\n", b"", 1),
    ("show", HAND + bytes.fromhex("00040000"), b"0 " + LINE + b"refused message=1 at=72 EndInside\n", b"", 1),
    ("show", HAND + bytes.fromhex("ffffffff"), b"0 " + LINE + b"refused message=1 at=68 TooLong\n", b"", 1),
    ("show", HAND + bytes.fromhex("000000"), b"0 " + LINE + b"refused message=1 at=71 EndInside\n", b"", 1),
    # objects
    ("show --json", HAND + HAVE_9, JSON_HAND + b'{"offset":68,"item":"have","index":9}\n{"verdict":"ok","messages":1,"bytes":77}\n', b"", 0),
    ("show --json", HAND + bytes.fromhex("0000000404"),
     JSON_HAND + b'{"verdict":"refused","message":1,"offset":68,"reason":"WrongLength"}\n', b"", 1),
    ("check --json", HAND, b"", MISTAKE, 2),
    # hints
    ("show", b"\xd4\xc3\xb2\xa1", b"refused message=0 at=0 BadProtocol\n", Hint(b"", b"pcap"), 1),
    ("show", b"\n\r\r\n", b"refused message=0 at=0 BadProtocol\n", Hint(b"", b"pcapng"), 1),
    ("show", b"\x1f\x8b\x08", b"refused message=0 at=0 BadProtocol\n", Hint(b"", b"gunzip"), 1),
    ("check", b"\x16\x03\x01\x02", b"refused message=0 at=0 BadProtocol\n", Hint(b"", b"TLS"), 1),
    ("check", b"GET / HTTP/1.1\r\n", b"refused message=0 at=0 BadProtocol\n", Hint(b"", b"HTTP"), 1),
    ("show", b"d8:announce3:abce", b"refused message=0 at=0 BadProtocol\n", Hint(b"", b".torrent"), 1),
    ("show", HAND.hex().encode(), b"refused message=0 at=0 BadProtocol\n", Hint(b"", b"xxd"), 1),
    ("show", LINE, b"refused message=0 at=0 BadProtocol\n", Hint(b"", b"bt_tool pack"), 1),
    ("show", b"0 " + LINE, b"refused message=0 at=0 BadProtocol\n", Hint(b"", b"'show'"), 1),
    ("show", b"d8:announc", b"refused message=0 at=0 BadProtocol\n", b"", 1),
    ("show", 335 * b"x" + HAND, b"refused message=0 at=0 BadProtocol\n",
     Hint(b"", b"a handshake stands at 335; this reads from there: tail -c +336 FILE | bt_tool show\n"), 1),
    ("check --rules free", HAND + bytes(8) + HAND, b"refused message=3 at=76 TooLong\n", Hint(b"", b"a second ", b" 76;"), 1),
    ("check --rules free", HAND + HAVE_9 + bytes(1024) + b"\xff" * 4, b"refused message=258 at=1101 TooLong\n",
     Hint(b"", b"from 77 on 1024 zero bytes"), 1),
    ("check --rules free", HAND + HAVE_9 + bytes(1020) + b"\xff" * 4, b"refused message=257 at=1097 TooLong\n", b"", 1),
    ("check --rules free", HAND + bytes(1023) + b"\xff", b"refused message=256 at=1092 EndInside\n", b"", 1),
    ("check --rules free", HAND + bytes(1024) + b"\xff" * 4, b"refused message=257 at=1092 TooLong\n",
     Hint(b"", b"from 68 on 1024 zero bytes"), 1),
    ("check --rules free", HAND + HAND, b"refused message=1 at=68 TooLong\n", Hint(b"", b"a second ", b" 68;"), 1),
    # what a hint would name comes after the refusal
    ("show --info-hash " + 40 * "0", HAND + bytes(1024), b"refused message=0 at=28 WrongInfoHash\n", b"", 1),
    ("show --info-hash " + 40 * "0", HAND + HAND, b"refused message=0 at=28 WrongInfoHash\n", b"", 1),
    # 65,536 bytes are looked at, and no more
    ("check --rules free", HAND + 7160 * HAVE_9 + bytes(1028) + b"\xff" * 4, b"refused message=7418 at=65536 TooLong\n",
     Hint(b"", b"from 64508 on 1028 zero bytes"), 1),
    ("check --rules free", HAND + 7163 * HAVE_9 + bytes(1024) + b"\xff" * 4, b"refused message=7420 at=65559 TooLong\n", b"", 1),
    ("check --rules free", HAND + bytes(2048), b"ok messages=512 bytes=2116\n", b"", 0),
    ("show", b"x" * 70000 + HAND, b"refused message=0 at=0 BadProtocol\n", b"", 1),
    # fetching and serving
    ("fetch", b"", b"", MISTAKE, 2),
    ("fetch --no-dht " + HASH, b"", b"", Parts(b"error: a peer is missing"), 2),
    ("peers --no-dht " + HASH, b"", b"", b"asked 0 trackers, 0 nodes; 0 peers\n", 1),
    ("fetch 00 127.0.0.1:9", b"", b"", MISTAKE, 2),
    ("fetch " + HASH + " 127.0.0.1", b"", b"", MISTAKE, 2),
    ("fetch " + HASH + " localhost", b"", b"", MISTAKE, 2),
    ("fetch " + HASH + " 127.0.0:9", b"", b"", MISTAKE, 2),
    ("fetch " + HASH + " localhost:65536", b"", b"", MISTAKE, 2),
    ("fetch --no-dht magnet:?xt=urn:btih:" + HASH, b"", b"", Parts(b"error: a peer is missing"), 2),
    ("fetch magnet:?x.pe=127.0.0.1:9", b"", b"", Parts(b"error: the magnet link has no 'xt=urn:btih:'"), 2),
    ("fetch magnet:?xt=urn:btmh:1220" + HASH, b"", b"", Parts(b"error: the magnet link has no 'xt=urn:btih:'"), 2),
    ("fetch magnet:?xt=urn:btih:%s0&x.pe=127.0.0.1:9" % HASH, b"", b"", Parts(b"error: ", b"at offset 20\n"), 2),
    ("fetch magnet:?dn=a&&xt=urn:btih:%s1&x.pe=127.0.0.1:9" % HASH[:31], b"", b"", Parts(b"error: ", b"at offset 26\n"), 2),
    ("fetch magnet:?x.pe=127.0.0.1&xt=urn:btih:" + HASH, b"", b"", Parts(b"error: ", b"at offset 13\n"), 2),
    ("fetch magnet:?xt=urn:btih:%s&tr=http%%3A%%2F%%2Fa&x.pe=a" % HASH, b"", b"", Parts(b"error: ", b"at offset 84\n"), 2),
    ("fetch %s --peers -" % HASH, b"127.0.0.1:9 # one\n\n# two\n  nowhere\n", b"", Parts(b"error: line 4 of '-'", b"Usage: bt_tool fetch "), 2),
    ("fetch %s --peers -" % HASH, b"127.0.0.1:9\r\n\xff:1\r\n", b"", Parts(b"error: line 2 of '-'"), 2),
    ("fetch %s --peers -" % HASH, b"\n# nobody\n", b"", b"not fetched in 0 s tried=0 silent=0 unreachable=0 refused=0\n", 1),
    ("fetch %s --peers -" % HASH, b"#" * 16777216, b"", b"not fetched in 0 s tried=0 silent=0 unreachable=0 refused=0\n", 1),
    ("fetch %s --peers -" % HASH, b"#" * 16777217, b"", Parts(b"error: '-', the file of '--peers', has more than 16777216 bytes"), 2),
    ("fetch %s --peers -" % HASH, FOLDER, b"", b"fault: read\n", 3),
    ("fetch %s --peers none" % HASH, b"", b"", NO_SUCH, 3),
    ("fetch " + HASH + " 127.0.0.1:9 --limit 32767", b"", b"", MISTAKE, 2),
    ("fetch " + HASH + " 127.0.0.1:9 --limit 1048577", b"", b"", MISTAKE, 2),
    ("fetch " + HASH + " 127.0.0.1:9 --window 0", b"", b"", MISTAKE, 2),
    ("fetch " + HASH + " 127.0.0.1:9 --window 9", b"", b"", MISTAKE, 2),
    ("fetch " + HASH + " 127.0.0.1:9 --at-once 0", b"", b"", Parts(b"error: '--at-once' takes "), 2),
    ("fetch " + HASH + " 127.0.0.1:9 --at-once 257", b"", b"", Parts(b"error: '--at-once' takes "), 2),
    ("fetch " + HASH + " 127.0.0.1:9 --timeout 0", b"", b"", Parts(b"error: '--timeout' takes "), 2),
    ("fetch " + HASH + " 127.0.0.1:9 --timeout 86401", b"", b"", Parts(b"error: '--timeout' takes "), 2),
    ("fetch " + HASH + " 127.0.0.1:9 --patience 0", b"", b"", Parts(b"error: '--timeout' takes "), 2),
    ("fetch " + HASH + " 127.0.0.1:9 --max-size 0", b"", b"", Parts(b"error: '--max-size' takes "), 2),
    ("fetch " + HASH + " 127.0.0.1:9 --max-size 67108865", b"", b"", Parts(b"error: '--max-size' takes "), 2),
    ("fetch " + HASH + " 127.0.0.1:9 --most 0", b"", b"", Parts(b"error: '--max-size' takes "), 2),
    ("fetch " + HASH + " 127.0.0.1:9 --timeout 1 --patience 1", b"", b"", MISTAKE, 2),
    ("fetch " + HASH + " 127.0.0.1:9 --rules strict", b"", b"", MISTAKE, 2),
    ("serve", b"", b"", MISTAKE, 2),
    ("serve /dev/null --listen nowhere", b"", b"", MISTAKE, 2),
    ("serve /dev/null --max-connections 0", b"", b"", Parts(b"error: '--max-connections' takes "), 2),
    ("serve /dev/null --at-once 0", b"", b"", Parts(b"error: '--max-connections' takes "), 2),
    ("serve /dev/null --exit-after 0", b"", b"", Parts(b"error: '--exit-after' takes "), 2),
    ("serve /dev/null --connections 4294967296", b"", b"", Parts(b"error: '--exit-after' takes "), 2),
    ("serve /dev/null --timeout 0", b"", b"", Parts(b"error: '--timeout' takes "), 2),
    ("serve /dev/null", b"", b"", b"refused file: not one bencoded dictionary that nests at most 32 deep\n", 1),
    ("serve /dev/null/none", b"", b"", b"fault: read\n", 3),
    # scripts
    ("pack", LINE, HAND, b"", 0),
    ("pack", LINE + b"keep-alive\nhave 9", HAND + bytes.fromhex("00000000 00000005 04 00000009"), b"", 0),
    ("pack", LINE + b"extended 3 " + REQUEST.hex().encode(), HAND + bytes.fromhex("0000001b1403") + REQUEST, b"", 0),
    ("pack", LINE + b"have 09\n", HAND, syntax(2, 6, NUMBER), 1),
    ("pack", LINE + b"unknown 9 -\n", HAND, syntax(2, 9, "a number from 0 to 255 that is the id of no message"), 1),
    ("pack", b"", b"", syntax(1, 1, "the word handshake"), 1),
    ("pack", b"choke\n", b"", syntax(1, 1, "the word handshake"), 1),
    ("pack --pieces 10", LINE + b"have 10\n", HAND, b"refused line=2 BadIndex\n", 1),
    ("pack", LINE + b"extended 0 -\n", HAND, b"refused line=2 BadBencode\n", 1),
    ("pack --info-hash " + 40 * "0", LINE, b"", b"refused line=1 WrongInfoHash\n", 1),
    ("pack --pieces 10", LINE, HAND, b"", 0),
    ("pack --pieces 10", LINE + b"have 9\n", HAND + HAVE_9, b"", 0),
    ("pack --pieces 10", LINE + b"keep-alive\nhave 9", HAND + bytes(4) + HAVE_9, b"", 0),
    ("pack --pieces 10", LINE + b"extended 3 " + REQUEST.hex().encode() + b"\n", HAND + bytes.fromhex("0000001b1403") + REQUEST,
     b"", 0),
    ("pack --pieces 10", LINE + b"piece 1 2 ABcd\n", HAND + bytes.fromhex("0000000b 07 00000001 00000002 abcd"), b"", 0),
    ("pack --pieces 10", LINE + b"have 09\n", HAND, syntax(2, 6, NUMBER), 1),
    ("pack --pieces 10", LINE + b"unknown 9 -\n", HAND, syntax(2, 9, "a number from 0 to 255 that is the id of no message"), 1),
    ("pack --pieces 10", LINE + b"have  9\n", HAND, syntax(2, 6, NUMBER), 1),
    ("pack --pieces 10", LINE + b"\n", HAND, syntax(2, 1, "the name of a message"), 1),
    ("pack --pieces 10", LINE + b"choke\n\nchoke\n", HAND + bytes.fromhex("00000001 00"), syntax(3, 1, "the name of a message"), 1),
    ("pack --pieces 10", LINE + b"extended 0 -\n", HAND, b"refused line=2 BadBencode\n", 1),
    ("pack --pieces 10", LINE + LINE, HAND, syntax(2, 1, "the name of a message"), 1),
    ("pack", b"\n", b"", syntax(1, 1, "the word handshake"), 1),
    ("pack", b"handshake\n", b"", syntax(1, 10, "the reserved bytes, 16 hex digits"), 1),
    ("pack", b"handshake 0000000000100005 a9\n", b"", syntax(1, 28, "the info hash, 40 hex digits"), 1),
    ("pack", LINE[:-1] + b" \n", b"", syntax(1, 110, "the end of the line"), 1),
    ("pack", LINE + b"request 0 0\n", HAND, syntax(2, 12, NUMBER), 1),
    ("pack", LINE + b"request 0 0 16384 \n", HAND, syntax(2, 19, "the end of the line"), 1),
    ("pack", LINE + b"have 9\r\n", HAND, syntax(2, 6, NUMBER), 1),
    ("pack", LINE + b"have 4294967296\n", HAND, syntax(2, 6, NUMBER), 1),
    ("pack", LINE + b"port 65536\n", HAND, syntax(2, 6, "a number from 0 to 65535"), 1),
    ("pack", LINE + b"extended 256 -\n", HAND, syntax(2, 10, "a number from 0 to 255"), 1),
    ("pack", LINE + b"bitfield\n", HAND, syntax(2, 9, "bytes in hex, two digits each, or -"), 1),
    ("pack", LINE + b"keep-alive 1", HAND, syntax(2, 12, "the end of the line"), 1),
    # a line after the first 65,536 bytes has no column
    ("pack", LINE + 13000 * b"choke\n" + b"chok\n", HAND + 13000 * bytes.fromhex("00000001 00"), b"refused line=13002 Syntax\n", 1),
    # nor has one that they cut
    ("pack --hints always", LINE + 10903 * b"choke\n" + b"piece 0 0 1z\n", HAND + 10903 * bytes.fromhex("00000001 00"),
     b"refused line=10905 Syntax\n", 1),
    # digits of a block that may be meant as a length
    ("pack", LINE + b"piece 0 0 16384\n", HAND, syntax(2, 11, "bytes in hex, two digits each, or -"), 1),
    ("pack", LINE + b"choke\npiece 0 0 4096\n", HAND + bytes.fromhex("00000001 00 0000000b 07 00000000 00000000 4096"),
     Hint(b"", b' line 3: piece INDEX BEGIN HEX: "4096" is two bytes of a block; a request has a length\n'), 0),
    ("pack", LINE + 2 * b"piece 0 0 16\n", HAND + 2 * bytes.fromhex("0000000a 07 00000000 00000000 16"),
     Hint(b"", b' line 2: piece INDEX BEGIN HEX: "16" is one byte of a block; a request has a length\n'), 0),
    ("pack", LINE + b"piece 0 0 ab\n", HAND + bytes.fromhex("0000000a 07 00000000 00000000 ab"), b"", 0),
    ("pack", LINE + b"piece 0 0 0123456789\n", HAND + bytes.fromhex("0000000e 07 00000000 00000000 0123456789"), b"", 0),
    # a line of twice the limit and 256 characters is judged by what it says, a longer one isn't
    ("pack --limit 1", LINE + b"piece 0 0 " + 248 * b"0", HAND, b"refused line=2 TooLong\n", 1),
    ("pack --limit 1", LINE + b"unknown 10 " + 248 * b"0", HAND, b"refused line=2 Syntax\n", 1),
    ("pack --limit 1", LINE + b"unknown 10 " + 1248 * b"0", HAND, b"refused line=2 Syntax\n", 1),
    # words that are no command line, and texts
    ("show --limit 0", HAND, b"", TEXT, 2),
    ("show --pieces 10 --pieces 10", HAND, b"", TEXT, 2),
    ("list", HAND, b"", TEXT, 2),
    ("pack --rules loose", FOLDER, b"", TEXT, 2),
    ("--help", b"", Parts(b"Usage: bt_tool ", b"bt_tool COMMAND --help"), b"", 0),
    ("-h", b"", Parts(b"Exit status:"), b"", 0),
    ("help", b"", Parts(b"Example:"), b"", 0),
    ("show --limit 0 --help", b"", Parts(b"--info-hash"), b"", 0),
    ("--version", b"", VERSION, b"", 0),
    ("-V", b"", VERSION, b"", 0),
    # devices that fail
    ("show", FOLDER, b"", b"fault: read\n", 3),
    ("check", FOLDER, b"", b"fault: read\n", 3),
    ("unpack", FOLDER, b"", b"fault: read\n", 3),
    ("pack", FOLDER, b"", b"fault: read\n", 3),
    ("show", HAND, FULL, b"fault: write\n", 3),
    ("check", HAND, FULL, b"fault: write\n", 3),
    ("unpack", HAND, FULL, b"fault: write\n", 3),
    ("pack", LINE, FULL, b"fault: write\n", 3),
    ("--help", b"", FULL, b"fault: write\n", 3),
]

# Two ends of which one fetches the metadata `abc` from the other, over a second connection after a loss (BEP 9).
NINE = "deliver right 68\nturn right\ndeliver left 98\nturn left\nturn left\ndeliver right 49\nturn right\ndeliver left 31\nturn left\n"
FETCH = ("left serve 616263\nright fetch %s\n" % HASH + NINE + "deliver right 20\nreset\n" + NINE
         + "deliver right 50\nturn right\n").encode()
HANDED = "delivered 68\nhandled\ndelivered 98\nhandled\nhandled\ndelivered 49\nhandled\ndelivered 31\nhandled\n"
LEFT = "0 handshake 0000000000100005 %s %s\n" % (HASH, b"-BT0001-LLLLLLLLLLLL".hex())
RIGHT = "0 handshake 0000000000100005 %s %s\n" % (HASH, b"-BT0001-RRRRRRRRRRRR".hex())


def fetched(number, handled):
    """The lines of a connection over which the block was asked for and sent."""
    return ("connection %d\nleft sent=3 handled=3\n" % number + LEFT
            + "68 ext-handshake 43 0 size=3 ut_metadata=3\n117 metadata-data 0 3 3\nright sent=3 handled=%d\n" % handled + RIGHT
            + "68 ext-handshake 24 0 size=- ut_metadata=9\n98 metadata-request 0\n")


FETCHED = (HANDED + "delivered 20\nreset\n" + HANDED + "delivered 50\nhandled\n" + fetched(1, 2) + fetched(2, 3)
           + "left metadata -\nright metadata sha1=%s bytes=3\n" % HASH).encode()

# Two ends that neither serve nor fetch, and say what they have.
WATCH = "".join("%s watch %s\n%s pieces 10\n%s metadata-id 0\n" % (side, HASH, side, side) for side in ("left", "right"))
SAYINGS = (WATCH + "left announce all\nright announce nothing\nsay left unchoke\ndeliver left 68\nturn left\nsay left have 9\n"
           "say left have 10\nsay left have-all\ndeliver right 200\n" + 5 * "turn right\n").encode()
SAID = ("not-said NotOpen\ndelivered 68\nhandled\nsaid\nnot-said Illegal BadIndex\nnot-said Illegal Late\ndelivered 95\n"
        + 4 * "handled\n" + "idle\nconnection 1\nleft sent=4 handled=1\n" + LEFT
        + "68 ext-handshake 7 0 size=- ut_metadata=-\n81 have-all\n86 have 9\nright sent=3 handled=4\n" + RIGHT
        + "68 ext-handshake 7 0 size=- ut_metadata=-\n81 have-none\nleft metadata -\nright metadata -\n").encode()
NO_STEPS = ("connection 1\nleft sent=1 handled=0\n" + LEFT + "right sent=1 handled=0\n" + RIGHT
            + "left metadata -\nright metadata -\n").encode()
TWO = ("left watch %s\nright watch %s\n" % (HASH, HASH)).encode()


def byte_by_byte(lines):
    """Each line `deliver SIDE N`, or `delivered N`, as N lines of one byte."""
    return re.sub(rb"(deliver.*) (\d+)\n", lambda found: int(found[2]) * (found[1] + b" 1\n"), lines)


LINK_ROWS = [
    ("link", byte_by_byte(FETCH), byte_by_byte(FETCHED), b"", 0),
    ("link", FETCH, FETCHED, b"", 0),
    ("link", SAYINGS, SAID, b"", 0),
    ("link", TWO, NO_STEPS, b"", 0),
    ("link", b"# two ends\n\n" + TWO[:-1], NO_STEPS, b"", 0),
    ("link", TWO + b"left limit 32768\nright limit 32769\n", b"", b"refused config ConfigMismatch\n", 1),
    ("link", TWO + b"left pieces 1\nright pieces 2\n", b"", b"refused config ConfigMismatch\n", 1),
    ("link", b"left serve 616264\nright fetch " + HASH.encode(), b"", b"refused config ConfigMismatch\n", 1),
    ("link", TWO + b"left limit 1\nright limit 1\n", b"", b"refused config BadLimit\n", 1),
    ("link", b"left serve -\nright watch da39a3ee5e6b4b0d3255bfef95601890afd80709\n", b"", b"refused config BadSize\n", 1),
    ("link", b"", b"", b"refused config BadConfig\n", 1),
    ("link", TWO + b"turn left\nturn up\nturn right\n", b"", b"refused line=4 Syntax\n", 1),
    ("link", TWO + b"reset\nleft pieces 1\n", b"", b"refused line=4 Syntax\n", 1),
    ("link", b"# a comment\n\nleft window 9\n", b"", b"refused line=3 Syntax\n", 1),
    ("link", TWO + b"say left have 09\n", b"", b"refused line=3 Syntax\n", 1),
    ("link", TWO + b"say left bitfield\n", b"", b"refused line=3 Syntax\n", 1),
    ("link", TWO + b"deliver left 4294967296\n", b"", b"refused line=3 Syntax\n", 1),
    ("link", TWO + b"turn left ", b"", b"refused line=3 Syntax\n", 1),
    ("link", FOLDER, b"", b"fault: read\n", 3),
    ("link", TWO, FULL, b"fault: write\n", 3),
]
ROWS += LINK_ROWS

# Watchers of one torrent, each of which has the settings that follow, and what comes of it.
LEFT_ONE, RIGHT_ONE = TWO[:TWO.index(b"right")], TWO[TWO.index(b"right"):]
# The SHA-1 of no bytes.
NO_BYTES = b"da39a3ee5e6b4b0d3255bfef95601890afd80709\n"
RUNS, MISMATCH = (NO_STEPS, b"", 0), (b"", b"refused config ConfigMismatch\n", 1)
BAD_LIMIT, BAD_SIZE = [(b"", b"refused config %s\n" % name, 1) for name in (b"BadLimit", b"BadSize")]


def limits(left, right):
    return b"left limit %d\nright limit %d\n" % (left, right)


CONFIGS = [
    # two receivers
    (TWO + b"right metadata-id 3\n", RUNS),
    (TWO + b"right pieces 7\n", RUNS),
    (TWO + b"left pieces 7\n", RUNS),
    (TWO + b"left pieces 7\nright pieces 7\n", RUNS),
    (TWO + b"left pieces 7\nright pieces 8\n", MISMATCH),
    (TWO + b"left pieces 8\nright pieces 7\n", MISMATCH),
    (TWO + limits(32769, 32768), MISMATCH),
    (TWO + limits(32766, 32767), MISMATCH),
    (TWO + b"right rules free\n", MISMATCH),
    (LEFT_ONE + b"right watch " + NO_BYTES, MISMATCH),
    (LEFT_ONE, MISMATCH),
    (RIGHT_ONE, MISMATCH),
    # the metadata that is served, and its SHA-1
    (b"left serve 616263\n" + RIGHT_ONE, RUNS),
    (LEFT_ONE + b"right serve 616263\n", RUNS),
    (b"left serve 616264\n" + TWO.replace(b"left watch", b"left info-hash"), MISMATCH),
    (b"right serve 616264\n" + TWO.replace(b"right watch", b"right info-hash"), MISMATCH),
    (b"left serve -\n" + TWO.replace(b"left watch", b"left info-hash"), MISMATCH),
    # an end alone: a wrong limit, no info hash, metadata of no bytes, first cause first
    (TWO + limits(32767, 32767), BAD_LIMIT),
    (TWO + limits(32768, 32768), RUNS),
    (TWO + limits(1048576, 1048576), RUNS),
    (TWO + limits(1048577, 1048577), BAD_LIMIT),
    (limits(32767, 32767), BAD_LIMIT),
    (b"left serve -\nright serve -\n" + limits(32767, 32767), BAD_LIMIT),
    (b"left serve -\nright watch " + NO_BYTES, BAD_SIZE),
    (b"left watch " + NO_BYTES + b"right serve -\n", BAD_SIZE),
]
ROWS += [("link", script, *wanted) for script, wanted in CONFIGS]


def naming_ids(settings, size, metadata):
    """A link whose left end has these settings, and its extended handshake: a dictionary of `size` bytes, which names `metadata`."""
    said = ("delivered 68\nhandled\nconnection 1\nleft sent=2 handled=1\n" + LEFT + "68 ext-handshake %d 0 size=- ut_metadata=%s\n"
            % (size, metadata) + "right sent=1 handled=0\n" + RIGHT + "left metadata -\nright metadata -\n")
    lines = "".join("left %s\n" % setting for setting in settings.split(", "))
    return ("link", TWO + lines.encode() + b"deliver left 68\nturn left\n", said.encode(), b"", 0)


# An end names both ids that its last lines have, in whatever order these stand, unless they are equal. `d1:md`, `11:ut_metadatai9e` and
# `ee` are 24 bytes, and `11:lt_donthavei3e` 17 more.
ROWS += [
    naming_ids("donthave-id 3, metadata-id 9", 41, "9"),
    naming_ids("metadata-id 9, donthave-id 3", 41, "9"),
    naming_ids("donthave-id 4, metadata-id 4, metadata-id 5", 41, "5"),
    naming_ids("metadata-id 4, donthave-id 4, metadata-id 3", 41, "3"),
    naming_ids("donthave-id 4, metadata-id 4", 24, "4"),
    naming_ids("metadata-id 4, donthave-id 4", 24, "4"),
    naming_ids("donthave-id 3", 24, "3"),
    naming_ids("donthave-id 4, donthave-id 0", 24, "3"),
    naming_ids("donthave-id 3, metadata-id 0", 24, "-"),
    naming_ids("metadata-id 0", 7, "-"),
]


def looped(size, digest, items):
    """What `loop` prints of metadata whose ends send and handle `items` items each."""
    line = "sent=%d handled=%d" % (items, items)
    return ("fetched bytes=%d sha1=%s\nleft %s\nright %s\n" % (size, digest, line, line)).encode()


# Two ends over a TCP connection of the process to itself: a handshake, an extended handshake and a block each way, and a request
# and a block more for each further 16,384 bytes. The digests are those of FIPS 180-4.
ALPHABET = b"abcdbcdecdefdefgefghfghighijhijkijkljklmklmnlmnomnopnopq"
LOOP_ROWS = [
    ("loop", b"abc", looped(3, HASH, 3), b"", 0),
    ("loop", ALPHABET, looped(56, "84983e441c3bd26ebaae4aa1f95129e5e54670f1", 3), b"", 0),
    ("loop", 1000000 * b"a", looped(1000000, "34aa973cd4c4daa4f61eeb2bdbad27316534016f", 64), b"", 0),
    ("loop --rules free --limit 32768", b"abc", looped(3, HASH, 3), b"", 0),
    ("loop --rules bep --limit 1048576", b"abc", looped(3, HASH, 3), b"", 0),
    ("loop", b"", b"", b"refused size\n", 1),
    # one byte more than 32 MiB: 2,049 blocks
    ("loop", (2 ** 25 + 1) * b"a", looped(2 ** 25 + 1, hashlib.sha1((2 ** 25 + 1) * b"a").hexdigest(), 2051), b"", 0),
    ("loop --limit 32767", b"abc", b"", MISTAKE, 2),
    ("loop --limit 1048577", b"abc", b"", MISTAKE, 2),
    ("loop --rules all", b"abc", b"", MISTAKE, 2),
    ("loop --rules bep --rules bep", b"abc", b"", MISTAKE, 2),
    ("loop --pieces 1", b"abc", b"", MISTAKE, 2),
    ("loop more", b"abc", b"", MISTAKE, 2),
    ("loop --help", b"", TEXT, b"", 0),
    ("loop", FOLDER, b"", b"fault: read\n", 3),
    ("loop", b"abc", FULL, b"fault: write\n", 3),
]
ROWS += LOOP_ROWS


# How each command is called, its options, and words of it that are no command line: such as clap finds, and such as the program
# finds itself.
RECEIVER = "reserved pieces metadata-id donthave-id info-hash other rules limit hints"
COMMANDS = {
    "show": ("bt_tool show [OPTIONS] [FILE]", RECEIVER + " json", ["--exit-after 1", "--limit 0", "--pieces", "a b"]),
    "check": ("bt_tool check [OPTIONS] [FILE]..", RECEIVER, ["--json", "--rules all", "--rules bep --rules bep"]),
    "unpack": ("bt_tool unpack [OPTIONS] [FILE]", RECEIVER, ["--torrent", "--hints no"]),
    "pack": ("bt_tool pack [OPTIONS] [FILE]", RECEIVER, ["--window 1", "--info-hash 00"]),
    "link": ("bt_tool link [FILE]", "", ["--limit 32768", "--hints always", "a b"]),
    "capture": ("bt_tool capture [OPTIONS] [FILE]", "pieces torrent limit show stream json only peer strict-status",
                ["--rules bep", "--json a b", "--pieces", "--pieces x", "--pieces 4294967296", "--pieces 1 --torrent a b", "--torrent",
                 "--torrent a --torrent a b", "--torrent -", "--torrent - -", "--limit 0", "--limit 1048577", "--limit x", "--show=1", "--stream",
                 "--stream 0", "--stream 0-", "--stream -A", "--stream 0-C", "--stream 0-a", "--stream 0-A-A", "--stream x-A",
                 "--stream 4294967296-A", "--stream 0-A --stream 0-B", "--stream 0-A --show", "--stream 0-A --json", "a b",
                 "--only", "--only Refused", "--only refused --show", "--only refused --stream 0-A", "--peer", "--peer x", "--peer 10.0.0",
                 "--peer 10.0.0.1:", "--peer 10.0.0.1:65536", "--peer [::1]", "--peer 10.0.0.1 --show", "--peer 10.0.0.1 --stream 0-A"]),
    "loop": ("bt_tool loop [OPTIONS]", "rules limit", ["--hints always", "--limit 32767", "--rules", "more"]),
    "fetch": ("bt_tool fetch [OPTIONS] MAGNET|INFOHASH [ADDRESS]..", "peers at-once rules limit timeout window max-size torrent json tracker dht no-trackers no-dht local",
              ["", "--no-dht " + HASH, "--tracker x " + HASH, "--dht 127.0.0.1 " + HASH, HASH + " 127.0.0.1:9 --max-connections 1", HASH + " 127.0.0.1:9 --window 9", HASH + " a", "0 127.0.0.1:9",
               HASH + " 127.0.0.1:9 --hints always"]),
    "peers": ("bt_tool peers [OPTIONS] MAGNET|INFOHASH", "tracker dht no-trackers no-dht local",
              ["", "a", HASH + " a", "--json " + HASH, "--tracker x " + HASH, "--tracker udp://a " + HASH, "--dht localhost " + HASH]),
    "serve": ("bt_tool serve [OPTIONS] FILE", "listen rules limit timeout exit-after max-connections",
              ["", "/dev/null --max-size 1", "/dev/null --max-connections 1025", "/dev/null --listen a", "/dev/null a"]),
}
ROWS += [("%s %s" % (name, words), HAND, b"", Parts(b"error: ", b"Usage: %s\n" % usage.encode()), 2)
         for name, (usage, _, mistakes) in COMMANDS.items() for words in mistakes]

# Words that are no command line.
MISTAKES = [
    [""],
    ["SHOW"],
    ["sho"],
    ["checks"],
    ["show", "--piece", "10"],
    ["show", "-p", "10"],
    ["show", "--unknown"],
    ["show", "--pieces"],
    ["show", "--pieces="],
    ["show", "--pieces", ""],
    ["show", "--pieces", "+1"],
    ["show", "--pieces", "-1"],
    ["show", "--pieces", "1 "],
    ["show", "--pieces", "0x10"],
    ["show", "--pieces", "4294967296"],
    ["show", "--pieces", "18446744073709551617"],
    ["show", "--pieces", "10", "--pieces", "10"],
    ["show", "--pieces=10", "--pieces=10"],
    ["show", "--reserved", "000000000010000"],
    ["show", "--reserved", "00000000001000050"],
    ["show", "--reserved", "000000000010000g"],
    ["show", "--reserved", ""],
    ["show", "--metadata-id", "256"],
    ["show", "--metadata-id", "x"],
    ["show", "--metadata-id", "3", "--metadata-id", "4"],
    ["show", "--donthave-id", "256"],
    ["show", "--donthave-id", ""],
    ["check", "--metadata-id", "4", "--donthave-id", "4"],
    ["show", "--info-hash", "a9993e364706816aba3e25717850c26c9cd0d8"],
    ["show", "--info-hash", "a9993e364706816aba3e25717850c26c9cd0d89d00"],
    ["show", "--info-hash", "g9993e364706816aba3e25717850c26c9cd0d89d"],
    ["show", "--rules", "Free"],
    ["show", "--rules", "BEP"],
    ["show", "--rules", ""],
    ["show", "--rules"],
    ["show", "--rules", "bep", "--rules", "bep"],
    ["show", "--limit", "0"],
    ["show", "--limit", "1048577"],
    ["show", "--limit", "4294967297"],
    ["show", "--limit", "1e3"],
    ["show", "--rules", "bep", "--limit", "0"],
    ["show", "--donthave-id", "3"],
    ["show", "--hints"],
    ["show", "--hints", ""],
    ["show", "--hints", "Always"],
    ["show", "--hints", "always", "--hints", "always"],
    ["--donthave-id", "3"],
    ["stream.bin"],
    ["show", "--other"],
    ["show", "--other", "a", "--other", "b", "c"],
    ["show", "--other", "-"],
    ["show", "--other", "-", "-"],
    ["check", "--other", "-", "a", "-"],
    ["show", "a", "b"],
    ["unpack", "a", "b"],
    ["pack", "a", "b"],
    ["link", "a", "b"],
    ["link", "--other", "a"],
]


def hand(reserved):
    """A handshake with these reserved bits."""
    return HAND[:20] + bytes.fromhex(reserved) + HAND[28:]


def message(content):
    """A message with this id and what follows it."""
    return len(content).to_bytes(4, "big") + content


def naming(number):
    """An extended handshake that has this id for `ut_metadata`."""
    return message(b"\x14\0d1:md11:ut_metadatai%deee" % number)


def taking(donthave, metadata):
    """An extended handshake that has these ids for `lt_donthave` and `ut_metadata`."""
    return message(b"\x14\0d1:md11:lt_donthavei%de11:ut_metadatai%deee" % (donthave, metadata))


# A message under 4 that takes back piece 9.
TAKES_9 = message(b"\x14\x04\0\0\0\x09")
# Extended messages under 3 and 1 that are no dictionary, and one that is.
RAW_3, RAW_1, ASKS_1 = message(b"\x14\x03\x01"), message(b"\x14\x01\x01"), message(b"\x14\x01" + REQUEST)
# Have all, which only a receiver with the Fast Extension (BEP 6) takes.
HAVE_ALL = message(b"\x0e")
NO_FAST, FAST, NOTHING = "0000000000100000", "0000000000100005", "0000000000000000"
PEX = message(b"\x14\0d1:md6:ut_pexi1eee")


def shown(*lines):
    """What `show` prints of the handshake and of these lines."""
    return b"0 " + LINE + b"".join(line + b"\n" for line in lines)


def other_row(other, rest, lines, options="", status=0):
    """`show` of what follows a handshake, with this stream as the other direction."""
    return ("show %s --other other a" % options, {"other": other, "a": HAND + rest}, b"", shown(*lines), b"", status)


def lacks(word):
    """What is said of a first word that stands where a command has to."""
    return Parts(b"error: a command has to stand before '%s'\n" % word.encode(), b"Usage: bt_tool [COMMAND] [OPTIONS] [FILE]\n")


NO_HANDSHAKE = Parts(b"error: ", b"other", b"doesn't begin with a whole handshake", b"Usage: bt_tool ")
KEPT = (b"68 extended 3 1", b"ok messages=1 bytes=75")
JUDGED = (b"refused message=1 at=74 BadBencode",)

UNCHOKE, HAVE_NONE = message(b"\x01"), message(b"\x0f")
BOTH_EXTENSIONS = (b"68 have-all", b"73 extended 1 1", b"ok messages=2 bytes=80")
NOT_NEGOTIATED = (b"refused message=1 at=72 NotNegotiated",)
SEVERAL = "--limit 9 --pieces=7 --rules=bep"

# The receiver's options, what follows the handshake, and what `show` prints of it.
OPTIONS = [
    ("", HAVE_9, (b"68 have 9", b"ok messages=1 bytes=77")),
    ("", HAVE_ALL + RAW_1, BOTH_EXTENSIONS),
    ("--reserved 80000000001000aF", HAVE_ALL + RAW_1, BOTH_EXTENSIONS),
    ("--reserved 0000000000000000", HAVE_ALL, NOT_NEGOTIATED),
    ("--reserved 0000000000000000", RAW_1, NOT_NEGOTIATED),
    ("--metadata-id 9 --reserved 0000000000000004", HAVE_ALL + RAW_1, (b"68 have-all", b"refused message=2 at=77 NotNegotiated")),
    ("--metadata-id 1", ASKS_1, (b"68 metadata-request 0", b"ok messages=1 bytes=99")),
    ("--metadata-id 0", RAW_3, (b"68 extended 3 1", b"ok messages=1 bytes=75")),
    ("--metadata-id 3", RAW_3, (b"refused message=1 at=74 BadBencode",)),
    ("--pieces 10", message(b"\x04\0\0\0\x0a"), (b"refused message=1 at=73 BadIndex",)),
    ("--pieces=10", HAVE_9, (b"68 have 9", b"ok messages=1 bytes=77")),
    ("--pieces=10", message(b"\x04\0\0\0\x0a"), (b"refused message=1 at=73 BadIndex",)),
    ("--pieces 0000000000010", HAVE_9, (b"68 have 9", b"ok messages=1 bytes=77")),
    ("--pieces 0000000000010", message(b"\x04\0\0\0\x0a"), (b"refused message=1 at=73 BadIndex",)),
    ("--info-hash " + HASH, b"", (b"ok messages=0 bytes=68",)),
    ("--info-hash " + HASH.upper(), b"", (b"ok messages=0 bytes=68",)),
    ("--limit=262144", b"\0\x04\0\0", (b"refused message=1 at=72 EndInside",)),
    ("--limit=262144", b"\0\x04\0\x01", (b"refused message=1 at=68 TooLong",)),
    ("--limit 262145", b"\0\x04\0\x01", (b"refused message=1 at=72 EndInside",)),
    ("--limit 262145", b"\0\x04\0\x02", (b"refused message=1 at=68 TooLong",)),
    (SEVERAL, HAVE_NONE + message(b"\x04\0\0\0\x06"), (b"68 have-none", b"73 have 6", b"ok messages=2 bytes=82")),
    (SEVERAL, HAVE_NONE + message(b"\x04\0\0\0\x07"), (b"68 have-none", b"refused message=2 at=78 BadIndex")),
    (SEVERAL, UNCHOKE, (b"refused message=1 at=72 Missing",)),
    (SEVERAL, b"\0\0\0\x09", (b"refused message=1 at=72 EndInside",)),
    (SEVERAL, b"\0\0\0\x0a", (b"refused message=1 at=68 TooLong",)),
]
ROWS += [("show " + options if options else "", HAND + rest, shown(*lines), b"", int(lines[-1].startswith(b"refused")))
         for options, rest, lines in OPTIONS]
# The rules by which a command judges.
ROWS += [
    ("show", HAND + UNCHOKE, shown(b"68 unchoke", b"ok messages=1 bytes=73"), b"", 0),
    ("show --rules bep", HAND + UNCHOKE, shown(b"refused message=1 at=72 Missing"), b"", 1),
    ("check --rules bep", HAND + UNCHOKE, b"refused message=1 at=72 Missing\n", b"", 1),
    ("unpack --rules=free", HAND + UNCHOKE, LINE + b"unchoke\n", b"", 0),
    ("unpack --rules=bep", HAND + UNCHOKE, LINE, b"refused message=1 at=72 Missing\n", 1),
    ("pack --rules bep", LINE + b"unchoke\n", HAND, b"refused line=2 Missing\n", 1),
]

# A capture of one connection: A names piece 38.
with open(os.path.join(ROOT, "examples", "refused.pcap"), "rb") as file:
    REFUSED = file.read()
REFUSED_38 = b'"free":{%s},"bep":{%s}' % (2 * (b'"verdict":"refused","message":2,"offset":78,"reason":"BadIndex",'
                                               b'"why":"The have message names piece 38, and the torrent has 38 pieces, so the last index is 37"',))
BITS_38 = b'"receiver":{"reserved":"0000000000100005","pieces":38}'
# The object of --json for it, if the torrent has 38 pieces.
REPORT_38 = (b'{"connection":0,"a":"10.0.0.1:51413","b":"10.0.0.2:6881","bittorrent":true,'
             b'"from_a":{"name":"-AA0001-000000000000",' + REFUSED_38 + b"," + BITS_38 + b'},'
             b'"from_b":{"name":"-BB0001-000000000000","free":{"verdict":"ok","messages":0,"bytes":68},'
             b'"bep":{"verdict":"ok","messages":0,"bytes":68},' + BITS_38 + b'},'
             b'"closed":{"side":"B","by":"FIN","time":0.009000,'
             b'"a":{"sent":87,"last":{"verdict":"refused","message":2,"offset":78,"reason":"BadIndex"}},'
             b'"b":{"sent":68,"last":{"offset":0,"item":"handshake","reserved":"0000000000100005",'
             b'"info_hash":"a9993e364706816aba3e25717850c26c9cd0d89d","peer_id":"2d4242303030312d303030303030303030303030",'
             b'"peer_id_text":"-BB0001-000000000000"}}}}\n')
# The begin of a record whose length is impossible.
BAD_RECORD = bytes(8) + 8 * b"\xff"
BAD_LENGTH = b"fault: capture: a record of a pcap file has an impossible length\n"
CUT_IN_PACKET = b"capture: ends inside a packet, which is left out\n"
NONE_FOUND = b"no BitTorrent connection in %d packets; %d of them aren't TCP\n"
# Frames of Ethernet of two types that aren't read, and one with the first fragment of a packet of IPv4.
ARP, LLDP = bytes(12) + b"\x08\x06" + bytes(28), bytes(12) + b"\x88\xcc" + bytes(20)
FRAGMENT = bytes(12) + b"\x08\x00" + bytes.fromhex("4500 0024 0001 2000 4006 0000 0a000001 0a000002") + bytes(16)


def frames(link, packets):
    """A pcap file of packets with this link type."""
    file = struct.pack("<IHHIIII", 0xA1B2C3D4, 2, 4, 0, 0, 65535, link)
    return file + b"".join(struct.pack("<IIII", 0, 0, len(packet), len(packet)) + packet for packet in packets)


def torrent(members):
    """A .torrent whose info dictionary has these members."""
    return b"d8:announce1:x4:infod%see" % members


# Torrents of 38 pieces, and of more than a message's string may have SHA-1s for.
TORRENT_38, TORRENT_52429 = (torrent(b"6:lengthi1e6:pieces%d:%s" % (20 * n, 20 * n * b"p")) for n in (38, 52429))


def hash_of(file):
    """The info hash of a .torrent of `torrent`."""
    return hashlib.sha1(file[file.index(b"4:info") + 6:-1]).digest()


def of(file):
    """The capture REFUSED, of a connection of this torrent."""
    return REFUSED.replace(bytes.fromhex(HASH), hash_of(file))


def streamed(port):
    """What was sent from this port of the capture REFUSED, each packet once."""
    found, at = b"", 24
    while at < len(REFUSED):
        size = int.from_bytes(REFUSED[at + 8:at + 12], "little")
        packet = REFUSED[at + 16:at + 16 + size]
        found += packet[54:] if int.from_bytes(packet[34:36], "big") == port else b""
        at += 16 + size
    return found


def no_torrent(why):
    return b"t: fault: torrent: %s\n" % why


NO_DICTIONARY = no_torrent(b"not one bencoded dictionary that nests at most 32 deep")
NO_INFO = no_torrent(b"no dictionary under 'info'")
NO_PIECES = no_torrent(b"no string under 'pieces' in 'info': a torrent of version 2 only has none")
NO_COUNT = no_torrent(b"the length of 'pieces' in 'info' is no multiple of 20, or too great")

# Words, files, standard input, standard output, standard error, exit status. The words are run where the files are.
FILES = [
    # files
    ("show a", {"a": HAND}, b"", shown(b"ok messages=0 bytes=68"), b"", 0),
    ("show -", {}, HAND, shown(b"ok messages=0 bytes=68"), b"", 0),
    ("show -- a", {"a": HAND}, b"", shown(b"ok messages=0 bytes=68"), b"", 0),
    ("show show", {"show": HAND}, b"", shown(b"ok messages=0 bytes=68"), b"", 0),
    ("unpack a", {"a": HAND}, b"", LINE, b"", 0),
    ("pack a", {"a": LINE}, b"", HAND, b"", 0),
    ("link a", {"a": TWO}, b"", NO_STEPS, b"", 0),
    ("link -", {}, TWO, NO_STEPS, b"", 0),
    ("show a", {"a": b""}, HAND, b"refused message=0 at=0 EndInside\n", b"", 1),
    ("check a", {"a": HAND}, b"", b"ok messages=0 bytes=68\n", b"", 0),
    ("check a -", {"a": HAND}, HAND + bytes(4), b"a: ok messages=0 bytes=68\n-: ok messages=1 bytes=72\n", b"", 0),
    ("check a b a", {"a": HAND, "b": b"\x13Bit"}, b"",
     b"a: ok messages=0 bytes=68\nb: refused message=0 at=4 EndInside\na: ok messages=0 bytes=68\n", b"", 1),
    ("check a none . b", {"a": HAND, "b": b""}, b"", b"a: ok messages=0 bytes=68\nb: refused message=0 at=0 EndInside\n",
     NO_SUCH + b".: " + IS_FOLDER, 3),
    (["check", "a", "", "b"], {"a": HAND, "b": HAND}, b"", b"a: ok messages=0 bytes=68\nb: ok messages=0 bytes=68\n",
     b": " + NO_FILE, 3),
    ("check a b", {"a": HAND, "b": HAND}, b"", FULL, b"fault: write\n", 3),
    ("pack -", {}, LINE, HAND, b"", 0),
    ("show - --metadata-id 3 --reserved=0000000000000000", {}, HAND + HAVE_ALL, shown(*NOT_NEGOTIATED), b"", 1),
    # options and files without a command
    ("--pieces 9", {}, HAND + HAVE_9, b"", lacks("--pieces"), 2),
    ("--pieces=9 a", {"a": HAND + HAVE_9}, b"", b"", lacks("--pieces=9"), 2),
    ("--pieces 9 show", {}, HAND, b"", lacks("--pieces"), 2),
    ("--reserved=0000000000000000 show", {"show": HAND}, b"", b"", lacks("--reserved=0000000000000000"), 2),
    ("--other other", {"other": hand(NO_FAST)}, HAND, b"", lacks("--other"), 2),
    ("--json", {}, HAND, b"", lacks("--json"), 2),
    ("--hints always", {}, HAND, b"", lacks("--hints"), 2),
    ("--unknown", {}, HAND, b"", lacks("--unknown"), 2),
    ("-p 9", {}, HAND, b"", lacks("-p"), 2),
    ("-- show", {}, HAND, b"", lacks("--"), 2),
    ("-", {}, HAND, b"", lacks("-"), 2),
    ("a", {"a": HAND}, b"", b"", Parts(b"error: ", b"'a'", b"Usage: bt_tool [COMMAND] [OPTIONS] [FILE]\n"), 2),
    ("show none", {}, HAND, b"", NO_SUCH, 3),
    ("show .", {}, HAND, b"", b".: " + IS_FOLDER, 3),
    ("check .", {}, HAND, b"", b".: " + IS_FOLDER, 3),
    ("unpack none", {}, HAND, b"", NO_SUCH, 3),
    ("pack .", {}, LINE, b"", b".: " + IS_FOLDER, 3),
    ("link none", {}, TWO, b"", NO_SUCH, 3),
    ("capture none", {}, b"", b"", NO_SUCH, 3),
    ("capture a/b", {"a": REFUSED}, b"", b"", b"a/b: fault: read: Not a directory (os error 20)\n", 3),
    ("capture a", {"a": REFUSED[:10]}, b"", b"", CUT_IN_PACKET + NONE_FOUND % (0, 0), 3),
    ("capture -", {}, REFUSED[:24], b"", NONE_FOUND % (0, 0), 3),
    ("capture a", {"a": frames(147, [b"abc"] * 80)}, b"", b"", NONE_FOUND % (80, 0) + b"link type 147 is not read: 80 of the packets\n", 3),
    ("capture a", {"a": frames(1, [ARP, LLDP, FRAGMENT, ARP, b"abc", FRAGMENT, ARP])}, b"", b"", NONE_FOUND % (7, 1)
     + b"type 0x806 of Ethernet is not read: 3 of the packets\nother types of Ethernet are not read: 1 of the packets\n"
     b"fragments are not read: 2 of the packets\n", 3),
    ("capture", {}, REFUSED[:900], TEXT, CUT_IN_PACKET, 0),
    ("capture a", {"a": REFUSED}, b"", TEXT, b"", 0),
    ("capture --pieces 38 a", {"a": REFUSED}, b"", TEXT, b"", 1),
    ("capture --pieces=39", {}, REFUSED, TEXT, b"", 0),
    ("capture --json --pieces 38 a", {"a": REFUSED}, b"", REPORT_38, b"", 1),
    ("capture --json", {}, REFUSED[:24], b"", NONE_FOUND % (0, 0), 3),
    ("capture a", {"a": HAND}, b"", b"", NO_CAPTURE, 3),
    # compressed captures
    ("capture a", {"a": gzip.compress(REFUSED)}, b"", b"", NO_CAPTURE + by("gzip", "gunzip"), 3),
    ("capture a", {"a": bz2.compress(REFUSED)}, b"", b"", NO_CAPTURE + by("bzip2", "bunzip2"), 3),
    ("capture a", {"a": lzma.compress(REFUSED)}, b"", b"", NO_CAPTURE + by("xz", "unxz"), 3),
    ("capture a", {"a": bytes.fromhex("28b52ffd0458") + REFUSED}, b"", b"", NO_CAPTURE + by("zstd", "unzstd"), 3),
    ("capture a", {"a": bytes.fromhex("04224d186440") + REFUSED}, b"", b"", NO_CAPTURE + by("lz4", "unlz4"), 3),
    ("capture", {}, gzip.compress(REFUSED), b"", NO_CAPTURE[3:] + by("gzip", "gunzip"), 3),
    ("capture a", {"a": gzip.compress(REFUSED)[:1]}, b"", b"", NO_CAPTURE, 3),
    # a .torrent: its connections have its piece count, and others none
    ("capture --json --torrent t a", {"t": TORRENT_38, "a": of(TORRENT_38)}, b"",
     REPORT_38.replace(HASH.encode(), hash_of(TORRENT_38).hex().encode()), b"", 1),
    ("capture --torrent t a", {"t": TORRENT_38, "a": REFUSED}, b"", TEXT, b"", 0),
    ("capture --torrent - a", {"a": of(TORRENT_38)}, TORRENT_38, TEXT, b"", 1),
    ("capture --torrent=t", {"t": TORRENT_38}, of(TORRENT_38), TEXT, b"", 1),
    # more than 52,428 pieces
    ("capture --torrent t a", {"t": TORRENT_52429, "a": of(TORRENT_52429)}, b"", TEXT, b"", 0),
    # files that are none
    ("capture --torrent none a", {"a": REFUSED}, b"", b"", NO_SUCH, 3),
    ("capture --torrent . a", {"a": REFUSED}, b"", b"", b".: " + IS_FOLDER, 3),
    ("capture --torrent t a", {"t": b"", "a": REFUSED}, b"", b"", NO_DICTIONARY, 3),
    ("capture --torrent t a", {"t": TORRENT_38[:-1], "a": REFUSED}, b"", b"", NO_DICTIONARY, 3),
    ("capture --torrent t a", {"t": TORRENT_38 + b"\n", "a": REFUSED}, b"", b"", NO_DICTIONARY, 3),
    ("capture --torrent t a", {"t": b"d8:announce1:xe", "a": REFUSED}, b"", b"", NO_INFO, 3),
    ("capture --torrent t a", {"t": b"d4:info1:xe", "a": REFUSED}, b"", b"", NO_INFO, 3),
    ("capture --torrent t a", {"t": torrent(b"9:file treede12:meta versioni2e"), "a": REFUSED}, b"", b"", NO_PIECES, 3),
    ("capture --torrent t a", {"t": torrent(b"6:piecesi20e"), "a": REFUSED}, b"", b"", NO_PIECES, 3),
    ("capture --torrent t a", {"t": torrent(b"6:pieces19:" + 19 * b"p"), "a": REFUSED}, b"", b"", NO_COUNT, 3),
    ("capture --torrent -", {}, REFUSED, b"", MISTAKE, 2),
    # a side's stream, of a connection that is there and one that isn't
    ("capture --pieces 38 --stream 0-A a", {"a": REFUSED}, b"", streamed(51413), b"", 1),
    ("capture --stream=0-B", {}, REFUSED, streamed(6881), b"", 0),
    ("capture --stream 0-B -", {}, REFUSED[:900], streamed(6881), CUT_IN_PACKET, 0),
    ("capture --stream 1-A a", {"a": REFUSED}, b"", b"", b"no connection 1\n", 3),
    ("capture --stream 4294967295-B", {}, REFUSED, b"", b"no connection 4294967295\n", 3),
    ("capture --stream 0-A a", {"a": HAND}, b"", b"", NO_CAPTURE, 3),
    ("capture a", {"a": REFUSED + BAD_RECORD}, b"", TEXT, b"a: " + BAD_LENGTH, 3),
    ("capture", {}, REFUSED + BAD_RECORD, TEXT, BAD_LENGTH, 3),
    ("capture", {}, REFUSED[:24] + BAD_RECORD, b"", BAD_LENGTH, 3),
    ("capture --stream 0-B a", {"a": REFUSED + BAD_RECORD}, b"", streamed(6881), b"a: " + BAD_LENGTH, 3),
    ("capture --stream 1-A", {}, REFUSED + BAD_RECORD, b"", BAD_LENGTH, 3),
    # a limit that each message keeps, and a smaller one
    # what isn't reported doesn't count
    ("capture --json --pieces 38 --only refused a", {"a": REFUSED}, b"", REPORT_38, b"", 1),
    ("capture --only refused", {}, REFUSED, b"", b"", 0),
    ("capture --json --pieces 38 --peer 10.0.0.2 a", {"a": REFUSED}, b"", REPORT_38, b"", 1),
    ("capture --json --pieces 38 --only=refused --peer=10.0.0.1:51413 a", {"a": REFUSED}, b"", REPORT_38, b"", 1),
    ("capture --pieces 38 --peer 10.0.0.1:6881 a", {"a": REFUSED}, b"", b"", b"", 0),
    ("capture --pieces 38 --peer ::ffff:10.0.0.1 a", {"a": REFUSED}, b"", b"", b"", 0),
    ("capture --pieces 38 --peer 10.0.0.3 --strict-status a", {"a": REFUSED}, b"", b"", b"", 0),
    ("capture --peer 10.0.0.1", {}, REFUSED[:24], b"", NONE_FOUND % (0, 0), 3),
    ("capture --limit 10 a", {"a": REFUSED}, b"", TEXT, b"", 0),
    ("capture --limit 4 a", {"a": REFUSED}, b"", TEXT, b"", 1),
    # the other direction: its reserved bits
    other_row(hand(NO_FAST), HAVE_ALL, [b"refused message=1 at=72 NotNegotiated"], status=1),
    other_row(hand(NO_FAST), HAVE_ALL, [b"68 have-all", b"ok messages=1 bytes=73"], "--reserved " + FAST),
    other_row(hand(FAST), HAVE_ALL, [b"68 have-all", b"ok messages=1 bytes=73"]),
    other_row(hand(NOTHING), RAW_1, [b"refused message=1 at=72 NotNegotiated"], status=1),
    # its id of `ut_metadata`: the first that it names, and none where it names none or 0
    other_row(hand(NO_FAST), RAW_3, KEPT),
    other_row(hand(NO_FAST), RAW_3, JUDGED, "--metadata-id 3", 1),
    other_row(hand(NO_FAST) + PEX, RAW_3, KEPT),
    other_row(hand(NO_FAST) + naming(0) + naming(3), RAW_3, KEPT),
    other_row(hand(NO_FAST) + naming(1) + naming(3), RAW_3, KEPT),
    other_row(hand(NO_FAST) + naming(3), RAW_3, JUDGED, status=1),
    other_row(hand(NO_FAST) + PEX + naming(3), RAW_3, JUDGED, status=1),
    other_row(hand(NO_FAST) + naming(3), RAW_3, KEPT, "--metadata-id 0"),
    other_row(hand(NO_FAST) + naming(1), ASKS_1, [b"68 metadata-request 0", b"ok messages=1 bytes=99"]),
    other_row(HAND + message(b"\0") + naming(3), RAW_3, JUDGED, status=1),
    other_row(hand(NO_FAST) + naming(3) + naming(0), RAW_3, JUDGED, status=1),
    other_row(hand(FAST) + naming(1), RAW_3, NOT_NEGOTIATED, "--metadata-id 3 --reserved " + NOTHING, 1),
    other_row(hand(FAST) + naming(1), RAW_3, JUDGED, "--metadata-id 3 --reserved " + NO_FAST, 1),
    # its id of `lt_donthave`, which doesn't count where it is that of `ut_metadata`
    other_row(hand(NO_FAST) + naming(3) + taking(4, 3), TAKES_9, [b"68 donthave 9", b"ok messages=1 bytes=78"]),
    other_row(hand(NO_FAST) + taking(4, 4), TAKES_9, JUDGED, status=1),
    other_row(hand(NO_FAST) + taking(4, 3), TAKES_9, [b"68 extended 4 4", b"ok messages=1 bytes=78"], "--donthave-id 0"),
    ("unpack --donthave-id 4 a", {"a": HAND + TAKES_9}, b"", LINE + b"extended 4 00000009\n", b"", 0),
    ("pack --donthave-id 4 a", {"a": LINE + b"extended 4 00000009\n"}, b"", HAND + TAKES_9, b"", 0),
    ("pack --donthave-id 4 a", {"a": LINE + b"extended 4 000009\n"}, b"", HAND, b"refused line=2 BadExtLength\n", 1),
    # what follows a refusal says nothing, and an unfinished message neither
    other_row(hand(NO_FAST) + bytes.fromhex("00000002 00 00") + naming(3), RAW_3, KEPT),
    other_row(hand(NO_FAST) + naming(3)[:-1], RAW_3, KEPT),
    other_row(hand(NO_FAST) + b"\0\x10\0\x01" + naming(3), RAW_3, KEPT),
    other_row(hand(NO_FAST) + naming(3) + b"\0", RAW_3, JUDGED, status=1),
    # the same stream
    ("show --other a a", {"a": HAND + naming(1) + RAW_1}, b"",
     shown(b"68 ext-handshake 24 0 size=- ut_metadata=1", b"refused message=2 at=104 BadBencode"), b"", 1),
    # other commands, and standard input
    ("check --rules free --other other a", {"other": hand(NO_FAST), "a": HAND + RAW_3}, b"", KEPT[1] + b"\n", b"", 0),
    ("check --other other a", {"other": hand(NO_FAST), "a": HAND + HAVE_9}, b"", b"ok messages=1 bytes=77\n", b"", 0),
    ("unpack --other other a", {"other": hand(NO_FAST), "a": HAND + RAW_3}, b"", LINE + b"extended 3 01\n", b"", 0),
    ("unpack a --metadata-id 3 --other=other", {"other": hand(NO_FAST), "a": HAND + RAW_3}, b"", LINE,
     b"refused message=1 at=74 BadBencode\n", 1),
    ("pack --other other a", {"other": hand(NO_FAST), "a": LINE + b"extended 3 01\n"}, b"", HAND + RAW_3, b"", 0),
    ("pack --other other a", {"other": hand(NO_FAST) + naming(3), "a": LINE + b"extended 3 01\n"}, b"", HAND,
     b"refused line=2 BadBencode\n", 1),
    ("show --other - a", {"a": HAND + RAW_3}, hand(NO_FAST), shown(*KEPT), b"", 0),
    ("show --other other", {"other": hand(NO_FAST)}, HAND + RAW_3, shown(*KEPT), b"", 0),
    # another direction that says nothing
    ("show --other other a", {"other": b"", "a": HAND}, b"", b"", NO_HANDSHAKE, 2),
    ("check --other other a", {"other": HAND[:67], "a": HAND}, b"", b"", NO_HANDSHAKE, 2),
    ("check --other other a", {"other": b"BitTorrent protocol", "a": HAND}, b"", b"", NO_HANDSHAKE, 2),
    ("unpack --other other a", {"other": LINE, "a": HAND}, b"", b"", NO_HANDSHAKE, 2),
    ("pack --other other a", {"other": b"\x13BitTorrent protocoL" + bytes(48), "a": LINE}, b"", b"", NO_HANDSHAKE, 2),
    ("show --other none a", {"a": HAND}, b"", b"", NO_SUCH, 3),
    ("show --other . a", {"a": HAND}, b"", b"", b".: " + IS_FOLDER, 3),
    ("pack --other . a", {"a": LINE}, b"", b"", b".: " + IS_FOLDER, 3),
]

# Words whose output nobody reads, and standard input.
UNREAD = [("show", HAND), ("check", HAND), ("unpack", HAND), ("pack", LINE), ("link", TWO), ("--help", b""),
          ("check - -", HAND), ("capture", REFUSED)]

# What follows the handshake; the verdict's line of `check`, under `bep`; the script's lines of `unpack`, under `free`.
SCRIPTS = [
    (b"", b"ok messages=0 bytes=68\n", b""),
    (b"\0\0\0\x1b\x14\x03" + REQUEST, b"ok messages=1 bytes=99\n",
     b"extended 3 64383a6d73675f74797065693065353a706965636569306565\n"),
    (b"\0\0\0\x01\x0f\0\0\0\x01\x01", b"ok messages=2 bytes=78\n", b"have-none\nunchoke\n"),
    (b"\0\0\0\x01\x01", b"refused message=1 at=72 Missing\n", b"unchoke\n"),
    (b"\0\0\0\x01\x0f\0\0\0\x03\x05\xff\xc0", b"refused message=2 at=77 Late\n", b"have-none\nbitfield ffc0\n"),
    (b"\0\0\0\x01\x63", b"refused message=1 at=72 UnknownId\n", b"unknown 99 -\n"),
    (b"\0\0\0\0\0\0\0\x03\x09\x1a\xe1", b"ok messages=2 bytes=79\n", b"keep-alive\nport 6881\n"),
    (b"\0\0\0\x01\x0e\0\0\0\x0c\x07\0\0\0\x01\0\0\x40\0\xab\x0c\x7f", b"ok messages=2 bytes=89\n",
     b"have-all\npiece 1 16384 ab0c7f\n"),
    (b"\0\0\0\x02\x14\x04", b"ok messages=1 bytes=74\n", b"extended 4 -\n"),
]

# A message, and its line, which `unpack` writes and `pack` reads.
MESSAGE_LINES = [
    (b"\0\0\0\0", b"keep-alive"),
    (b"\0\0\0\x01\0", b"choke"),
    (b"\0\0\0\x01\x01", b"unchoke"),
    (b"\0\0\0\x01\x02", b"interested"),
    (b"\0\0\0\x01\x03", b"not-interested"),
    (b"\0\0\0\x05\x04\0\0\0\0", b"have 0"),
    (b"\0\0\0\x05\x04\0\0\0\x09", b"have 9"),
    (b"\0\0\0\x05\x04\xff\xff\xff\xff", b"have 4294967295"),
    (b"\0\0\0\x03\x05\xff\xc0", b"bitfield ffc0"),
    (b"\0\0\0\x01\x05", b"bitfield -"),
    (b"\0\0\0\x0d\x06\0\0\0\x01\0\0\x40\0\0\0\x40\0", b"request 1 16384 16384"),
    (b"\0\0\0\x09\x07\0\0\0\x01\0\0\x40\0", b"piece 1 16384 -"),
    (b"\0\0\0\x0c\x07\0\0\0\x01\0\0\0\0abc", b"piece 1 0 616263"),
    (b"\0\0\0\x0d\x08\0\0\0\0\0\0\0\0\0\0\0\x01", b"cancel 0 0 1"),
    (b"\0\0\0\x0d\x08\0\0\0\x01\0\0\0\x02\0\0\0\x03", b"cancel 1 2 3"),
    (b"\0\0\0\x03\x09\x1a\xe1", b"port 6881"),
    (b"\0\0\0\x03\x09\xff\xff", b"port 65535"),
    (b"\0\0\0\x05\x0d\0\0\0\x07", b"suggest 7"),
    (b"\0\0\0\x01\x0e", b"have-all"),
    (b"\0\0\0\x01\x0f", b"have-none"),
    (b"\0\0\0\x0d\x10\0\0\0\x01\0\0\0\x02\0\0\0\x03", b"reject 1 2 3"),
    (b"\0\0\0\x05\x11\0\0\0\x07", b"allowed-fast 7"),
    (b"\0\0\0\x0b\x14\0d1:mdeeab", b"extended 0 64313a6d6465656162"),
    (b"\0\0\0\x1b\x14\x03d8:msg_typei0e5:piecei0ee", b"extended 3 64383a6d73675f74797065693065353a706965636569306565"),
    (b"\0\0\0\x02\x14\x04", b"extended 4 -"),
    (b"\0\0\0\x03\x14\x04\xff", b"extended 4 ff"),
    (b"\0\0\0\x01\x0a", b"unknown 10 -"),
    (b"\0\0\0\x01\x63", b"unknown 99 -"),
    (b"\0\0\0\x03\x63\x0a\x0b", b"unknown 99 0a0b"),
    (b"\0\0\0\x03\x63\x0a\xfb", b"unknown 99 0afb"),
    (b"\0\0\0\x01\xff", b"unknown 255 -"),
]

# Messages, and further lines that `pack` reads as them.
READ_LINES = [
    (b"\0\0\0\x03\x05\xff\xc0", b"bitfield FFc0"),
    (b"\0\0\0\x0b\x07\0\0\0\x01\0\0\0\x02\xab\xcd", b"piece 1 2 ABcd"),
    (b"\0\0\0\x03\x14\xff\x0a", b"extended 255 0A"),
]

# Texts that are no lines after the first.
NO_LINES = b"""

-
have
have\x20
have 09
have 00
have  9
have 9\x20
 have 9
have 9\r
have\t9
have -1
have +1
have a
have 4294967296
have 10000000000
have 18446744073709551625
have 9 9
HAVE 9
bitfield
bitfield\x20
bitfield f
bitfield ffg0
bitfield ff ff
bitfield --
bitfield -ff
request 1 2
request 1 2 3 4
piece 1 2
piece 1 2 3
port 65536
port 080
extended 256 -
extended 03 -
extended 3
extended -
unknown 9 -
unknown 20 -
unknown 256 -
unknown 099 -
unknown 99
unknown 99 9
choke\x20
choke -
keep-alive\x20
keepalive
ok
""".split(b"\n")[1:-1] + [b" ", LINE[:-1]]

# Texts that are no first lines.
WORDS = LINE.split()
NO_FIRST_LINES = [
    b"",
    b"choke",
    b"keep-alive",
    b"handshake",
    b"handshake 0000000000100005",
    LINE[:-1] + b" ",
    LINE[:-1].replace(b" ", b"  ", 1),
    b"handshake 000000000010005 " + b" ".join(WORDS[2:]),
    LINE[:-1].replace(b"89d 2d", b"89g 2d"),
    b" ".join(WORDS[:3]) + b" -",
    b"H" + LINE[1:-1],
]

ROWS += [("unpack", HAND + spelled, LINE + line + b"\n", b"", 0) for spelled, line in MESSAGE_LINES]
# (the block of one line has decimal digits alone)
ROWS += [("pack", LINE + line + b"\n", HAND + spelled, Hint(b"", b"line 2: piece") if line.endswith(b" 616263") else b"", 0)
         for spelled, line in MESSAGE_LINES + READ_LINES]
ROWS += [("pack", LINE + text + b"\n", HAND, b"refused line=2 Syntax\n", 1) for text in NO_LINES]
ROWS += [("pack", text + b"\n", b"", b"refused line=1 Syntax\n", 1) for text in NO_FIRST_LINES]
ROWS += [("pack", b"handshake " + b" ".join(WORDS[1:]).upper() + b"\n", HAND, b"", 0)]

FREE = "--rules free"
TEN = "--rules free --pieces 10"
NONE = "--rules free --pieces 0"
BEP = "--rules bep"
# Strict, with neither extension.
PLAIN = "--rules bep --reserved 0000000000000000"
# With the Extension Protocol and without the Fast Extension.
SLOW = "--rules free --reserved 0000000000100001"

# The receiver's options, what follows the handshake, and the lines that follow the handshake's.
STREAMS = [
    # messages
    (FREE, b"\0\0\0\x0d\x06\0\0\0\x01\0\0\x40\0\0\0\x40\0", b"68 request 1 16384 16384\nok messages=1 bytes=85\n"),
    (FREE, b"\0\0\0\x01\x0e\0\0\0\x01\0\0\0\0\x01\x02\0\0\0\x01\x03\0\0\0\x05\x0d\0\0\0\x01\0\0\0\x05\x11\0\0\0\x02\0\0\0"
     b"\x0d\x08\0\0\0\x01\0\0\0\x02\0\0\0\x03\0\0\0\x0d\x10\0\0\0\x04\0\0\0\x05\0\0\0\x06\0\0\0\x05\x12data",
     b"68 have-all\n73 choke\n78 interested\n83 not-interested\n88 suggest 1\n"
     b"97 allowed-fast 2\n106 cancel 1 2 3\n123 reject 4 5 6\n140 unknown 18 4\n"
     b"ok messages=9 bytes=149\n"),
    (FREE, b"\0\0\0\x03\x05\xff\xe0", b"68 bitfield 2\nok messages=1 bytes=75\n"),
    (TEN, b"\0\0\0\x03\x05\xff\xc0", b"68 bitfield 2\nok messages=1 bytes=75\n"),
    (TEN, b"\0\0\0\x03\x05\xff\xe0", b"refused message=1 at=74 SpareBits\n"),
    (TEN, b"\0\0\0\x04\x05", b"refused message=1 at=68 WrongLength\n"),
    (TEN, b"\0\0\0\x05\x04\0\0\0\x09", b"68 have 9\nok messages=1 bytes=77\n"),
    (TEN, b"\0\0\0\x05\x04\0\0\0\x0a", b"refused message=1 at=73 BadIndex\n"),
    (FREE, b"\0\0\0\x03\x09\x1a\xe1", b"68 port 6881\nok messages=1 bytes=75\n"),
    (FREE, b"\0\0\0\x09\x07\0\0\0\x01\0\0\x40\0", b"68 piece 1 16384 0\nok messages=1 bytes=81\n"),
    (FREE, b"\0\0\0\x08\x07", b"refused message=1 at=68 WrongLength\n"),
    (TEN, b"\0\0\0\x0a\x07\0\0\0\x0a\0\0\0\0", b"refused message=1 at=81 EndInside\n"),
    (TEN, b"\0\0\0\x0a\x07\0\0\0\x0a\0\0\0\0a", b"refused message=1 at=73 BadIndex\n"),
    (NONE, b"\0\0\0\x01\x05", b"68 bitfield 0\nok messages=1 bytes=73\n"),
    (FREE, b"\0\0\0\x01\x05", b"68 bitfield 0\nok messages=1 bytes=73\n"),
    (NONE, b"\0\0\0\x05\x04\0\0\0\0", b"refused message=1 at=73 BadIndex\n"),
    # numbers, and payloads of messages of other ids
    (FREE, b"\0\0\0\x05\x04\xff\xfe\xfd\xfc", b"68 have 4294901244\nok messages=1 bytes=77\n"),
    (TEN, b"\0\0\0\x0b\x07\0\0\0\x09\xff\xff\xff\xff\xab\xcd", b"68 piece 9 4294967295 2\nok messages=1 bytes=83\n"),
    (TEN, b"\0\0\0\x03\x0aab", b"68 unknown 10 2\nok messages=1 bytes=75\n"),
    (FREE + " --pieces 8", b"\0\0\0\x02\x05\xff", b"68 bitfield 1\nok messages=1 bytes=74\n"),
    (FREE, b"\0\0\0\0\xff\xff\xff\xff\0\0\0\0", b"68 keep-alive\nrefused message=2 at=72 TooLong\n"),
    (FREE, b"\0\0\0\x01\x63\0\0\0\0", b"68 unknown 99 0\n73 keep-alive\nok messages=2 bytes=77\n"),
    # first messages
    (SLOW, b"\0\0\0\x01\x0e", b"refused message=1 at=72 NotNegotiated\n"),
    (FREE, b"\0\0\0\x01\x63", b"68 unknown 99 0\nok messages=1 bytes=73\n"),
    (BEP, b"\0\0\0\x01\x63", b"refused message=1 at=72 UnknownId\n"),
    (BEP, b"\0\0\0\0\0\0\0\x01\x0f\0\0\0\x01\x01",
     b"68 keep-alive\n72 have-none\n77 unchoke\nok messages=3 bytes=82\n"),
    (BEP, b"\0\0\0\x01\x01", b"refused message=1 at=72 Missing\n"),
    (BEP, b"\0\0\0\x01\x0f\0\0\0\x03\x05\xff\xc0", b"68 have-none\nrefused message=2 at=77 Late\n"),
    (FREE, b"\0\0\0\x01\x0f\0\0\0\x03\x05\xff\xc0", b"68 have-none\n73 bitfield 2\nok messages=2 bytes=80\n"),
    (PLAIN, b"\0\0\0\x01\x01\0\0\0\x03\x05\xff\xc0", b"68 unchoke\nrefused message=2 at=77 Late\n"),
    (PLAIN, b"\0\0\0\x01\x01", b"68 unchoke\nok messages=1 bytes=73\n"),
    (FREE, b"\0\0\0\x02\x0f\0", b"refused message=1 at=68 WrongLength\n"),
    (BEP, b"\0\0\0\x2d\x14\0d1:md11:ut_metadatai3ee13:metadata_sizei3ee\0\0\0\0\0\0\0\x01\x0f\0\0\0\x01\x01",
     b"68 ext-handshake 43 0 size=3 ut_metadata=3\n117 keep-alive\n121 have-none\n"
     b"126 unchoke\nok messages=4 bytes=131\n"),
    # extended messages
    (FREE, b"\0\0\0\x2d\x14\0d1:md11:ut_metadatai3ee13:metadata_sizei3ee",
     b"68 ext-handshake 43 0 size=3 ut_metadata=3\nok messages=1 bytes=117\n"),
    (BEP, b"\0\0\0\x2d\x14\0d1:md11:ut_metadatai3ee13:metadata_sizei3ee",
     b"68 ext-handshake 43 0 size=3 ut_metadata=3\nok messages=1 bytes=117\n"),
    (FREE, b"\0\0\0\x2d\x14\0d13:metadata_sizei3e1:md11:ut_metadatai3eee",
     b"68 ext-handshake 43 0 size=3 ut_metadata=3\nok messages=1 bytes=117\n"),
    (BEP, b"\0\0\0\x2d\x14\0d13:metadata_sizei3e1:md11:ut_metadatai3eee", b"refused message=1 at=94 Unsorted\n"),
    (BEP, b"\0\0\0\x42\x14\0d1:md11:ut_metadatai2e6:ut_pexi1ee1:pi6881e4:reqqi500e1:v4:teste",
     b"68 ext-handshake 64 0 size=- ut_metadata=2\nok messages=1 bytes=138\n"),
    (FREE, b"\0\0\0\x1b\x14\x03d8:msg_typei0e5:piecei0ee", b"68 metadata-request 0\nok messages=1 bytes=99\n"),
    (FREE + " --metadata-id 0", b"\0\0\0\x1b\x14\x03d8:msg_typei0e5:piecei0ee", b"68 extended 3 25\nok messages=1 bytes=99\n"),
    (FREE, b"\0\0\0\x1b\x14\x04d8:msg_typei0e5:piecei0ee", b"68 extended 4 25\nok messages=1 bytes=99\n"),
    (FREE, b"\0\0\0\x2e\x14\x03d8:msg_typei1e5:piecei0e10:total_sizei3eeabc",
     b"68 metadata-data 0 3 3\nok messages=1 bytes=118\n"),
    (FREE, b"\0\0\0\x2e\x14\x03d8:msg_typei1e5:piecei0e10:total_sizei3eeeee",
     b"68 metadata-data 0 3 3\nok messages=1 bytes=118\n"),
    (BEP, b"\0\0\0\x2e\x14\x03d8:msg_typei1e5:piecei0e10:total_sizei3eeabc",
     b"68 metadata-data 0 3 3\nok messages=1 bytes=118\n"),
    (FREE, b"\0\0\0\x2d\x14\x03d8:msg_typei1e5:piecei0e10:total_sizei3eeab",
     b"68 metadata-data 0 3 2\nok messages=1 bytes=117\n"),
    (BEP, b"\0\0\0\x2d\x14\x03d8:msg_typei1e5:piecei0e10:total_sizei3eeab", b"refused message=1 at=115 BadBlock\n"),
    (FREE, b"\0\0\0\x1b\x14\x03d8:msg_typei1e5:piecei0ee", b"68 metadata-malformed 25 0\nok messages=1 bytes=99\n"),
    (BEP, b"\0\0\0\x1b\x14\x03d8:msg_typei1e5:piecei0ee", b"refused message=1 at=74 BadField\n"),
    (FREE, b"\0\0\0\x1b\x14\x03d8:msg_typei7e5:piecei0ee", b"68 metadata-other 25 0\nok messages=1 bytes=99\n"),
    (BEP, b"\0\0\0\x1b\x14\x03d8:msg_typei7e5:piecei0ee", b"68 metadata-other 25 0\nok messages=1 bytes=99\n"),
    (FREE, b"\0\0\0\x1c\x14\x03d8:msg_typei2e5:piecei0ee\0", b"68 metadata-reject 0\nok messages=1 bytes=100\n"),
    (BEP, b"\0\0\0\x1c\x14\x03d8:msg_typei2e5:piecei0ee\0", b"refused message=1 at=99 BadBlock\n"),
    (BEP, b"\0\0\0\x0a\x14\0d1:mi1ee", b"refused message=1 at=74 BadField\n"),
    (FREE + " --donthave-id 4", TAKES_9, b"68 donthave 9\nok messages=1 bytes=78\n"),
    (BEP + " --donthave-id 4 --metadata-id 0", TAKES_9, b"68 donthave 9\nok messages=1 bytes=78\n"),
    (FREE + " --donthave-id 4 --pieces 9", TAKES_9, b"refused message=1 at=74 BadIndex\n"),
    (FREE + " --donthave-id 4", b"\0\0\0\x05\x14\x04\0\0\x09", b"refused message=1 at=74 BadExtLength\n"),
    (BEP + " --donthave-id 4", b"\0\0\0\x02\x14\x04", b"refused message=1 at=74 BadExtLength\n"),
    (FREE + " --donthave-id 4 --pieces 10", TAKES_9, b"68 donthave 9\nok messages=1 bytes=78\n"),
    (BEP + " --donthave-id 4 --pieces 9", b"\0\0\0\x05\x14\x04\0\0\x09", b"refused message=1 at=74 BadExtLength\n"),
    (BEP + " --donthave-id 4 --pieces 9", b"\0\0\0\x06\x14\x05\0\0\0\x09", b"68 extended 5 4\nok messages=1 bytes=78\n"),
    (FREE, TAKES_9, b"68 extended 4 4\nok messages=1 bytes=78\n"),
    (FREE, b"\0\0\0\x0b\x14\0d1:pi-0ee", b"refused message=1 at=80 BadBencode\n"),
    (FREE, b"\0\0\0\x09\x14\0d1:pi1e", b"refused message=1 at=81 BadBencode\n"),
    (FREE, b"\0\0\0\x47\x14\0d1:plllllllllllllllllllllllllllllllleeeeeeeeeeeeeeeeeeeeeeeeeeeeeeeee",
     b"refused message=1 at=109 BadBencode\n"),
    (FREE, b"\0\0\0\x45\x14\0d1:pllllllllllllllllllllllllllllllleeeeeeeeeeeeeeeeeeeeeeeeeeeeeeee",
     b"68 ext-handshake 67 0 size=- ut_metadata=-\nok messages=1 bytes=141\n"),
]

# Options of further receivers, whose names say what is missing or known.
SLOW_TEN = SLOW + " --pieces 10"
SLOW_BEP = "--rules bep --reserved 0000000000100001"
BEP_TEN = "--rules bep --pieces 10"
PLAIN_TEN = "--rules free --pieces 10 --reserved 0000000000000005"
NO_EXT = "--rules bep --reserved 0000000000000005"
NARROW = "--rules free --pieces 10 --limit 2"
NARROW_BEP = "--rules bep --limit 2"

# What comes before a message, and its line.
FIRST, HAVE_NONE, UNCHOKE = (b"", b""), (b"\0\0\0\x01\x0f", b"68 have-none\n"), (b"\0\0\0\x01\x01", b"68 unchoke\n")

# Extended messages with one fault each: no dictionary, keys out of order, an `m` that is none, a block of 2 bytes for 3.
NO_INTEGER = b"\0\0\0\x0b\x14\0d1:pi-0ee"
UNSORTED = b"\0\0\0\x2d\x14\0d13:metadata_sizei3e1:md11:ut_metadatai3eee"
NO_NAMES = b"\0\0\0\x0a\x14\0d1:mi1ee"
SHORT = b"\0\0\0\x2d\x14\x03d8:msg_typei1e5:piecei0e10:total_sizei3eeab"

# The receiver's options, what comes before a message, the message, and where in it and why it is refused: each reason alone, and
# then each two that can hold together, of which the first counts.
REASONS = [
    (FREE, FIRST, b"\0\x04\0\x01", 0, b"TooLong"),
    (BEP_TEN, FIRST, b"\0\0\0\x01\x63", 4, b"UnknownId"),
    (SLOW_TEN, FIRST, b"\0\0\0\x01\x0e", 4, b"NotNegotiated"),
    (SLOW_TEN, FIRST, b"\0\0\0\x01\x0f", 4, b"NotNegotiated"),
    (SLOW_TEN, UNCHOKE, b"\0\0\0\x05\x0d\0\0\0\x09", 4, b"NotNegotiated"),
    (SLOW_TEN, UNCHOKE, b"\0\0\0\x0d\x10\0\0\0\x09", 4, b"NotNegotiated"),
    (SLOW_TEN, UNCHOKE, b"\0\0\0\x05\x11\0\0\0\x09", 4, b"NotNegotiated"),
    (PLAIN_TEN, FIRST, b"\0\0\0\x02\x14\x04", 4, b"NotNegotiated"),
    (PLAIN_TEN, FIRST, b"\0\0\0\x01\x14", 4, b"NotNegotiated"),
    (FREE, FIRST, b"\0\0\0\x04\x04", 0, b"WrongLength"),
    (FREE, FIRST, b"\0\0\0\x08\x07", 0, b"WrongLength"),
    (TEN, FIRST, b"\0\0\0\x04\x05", 0, b"WrongLength"),
    (BEP_TEN, HAVE_NONE, b"\0\0\0\x03\x05\xff\xc0", 4, b"Late"),
    (BEP_TEN, HAVE_NONE, b"\0\0\0\x01\x0e", 4, b"Late"),
    (BEP_TEN, HAVE_NONE, b"\0\0\0\x01\x0f", 4, b"Late"),
    (SLOW_BEP, UNCHOKE, b"\0\0\0\x03\x05\xff\xc0", 4, b"Late"),
    (BEP_TEN, FIRST, b"\0\0\0\x01\x01", 4, b"Missing"),
    (TEN, FIRST, b"\0\0\0\x05\x04\0\0\0\x0a", 5, b"BadIndex"),
    (TEN, FIRST, b"\0\0\0\x0d\x06\0\0\0\x0a\0\0\0\0\0\0\0\0", 5, b"BadIndex"),
    (TEN, FIRST, b"\0\0\0\x0a\x07\0\0\0\x0a\0\0\0\0a", 5, b"BadIndex"),
    (TEN, FIRST, b"\0\0\0\x0d\x08\0\0\0\x0a\0\0\0\0\0\0\0\0", 5, b"BadIndex"),
    (TEN, FIRST, b"\0\0\0\x05\x0d\0\0\0\x0a", 5, b"BadIndex"),
    (TEN, FIRST, b"\0\0\0\x0d\x10\xff\xff\xff\xff\0\0\0\0\0\0\0\0", 5, b"BadIndex"),
    (TEN, FIRST, b"\0\0\0\x05\x11\0\0\0\x0a", 5, b"BadIndex"),
    (NONE, FIRST, b"\0\0\0\x05\x04\0\0\0\0", 5, b"BadIndex"),
    (TEN, FIRST, b"\0\0\0\x03\x05\xff\xe0", 6, b"SpareBits"),
    (TEN, FIRST, b"\0\0\0\x03\x05\0\x01", 6, b"SpareBits"),
    (NARROW, FIRST, b"\0\0\0\x03\x05\xff\xe0", 0, b"TooLong"),
    (NARROW, FIRST, b"\0\0\0\x05\x04\0\0\0\x0a", 0, b"TooLong"),
    (BEP_TEN, FIRST, b"\0\x04\0\x01\x63", 0, b"TooLong"),
    (SLOW_TEN, FIRST, b"\0\x04\0\x01\x0e", 0, b"TooLong"),
    (FREE, FIRST, b"\0\x04\0\x01\0", 0, b"TooLong"),
    (SLOW_BEP, UNCHOKE, b"\0\x04\0\x01\x05", 0, b"TooLong"),
    (BEP_TEN, FIRST, b"\0\x04\0\x01\x07", 0, b"TooLong"),
    (SLOW_TEN, FIRST, b"\0\0\0\x02\x0e\0", 4, b"NotNegotiated"),
    (SLOW_BEP, UNCHOKE, b"\0\0\0\x01\x0f", 4, b"NotNegotiated"),
    (SLOW_TEN, FIRST, b"\0\0\0\x05\x0d\0\0\0\x0a", 4, b"NotNegotiated"),
    (BEP_TEN, HAVE_NONE, b"\0\0\0\x02\x0f\0", 0, b"WrongLength"),
    (BEP_TEN, FIRST, b"\0\0\0\x02\x01\0", 0, b"WrongLength"),
    (TEN, FIRST, b"\0\0\0\x06\x04\0\0\0\x0a\0", 0, b"WrongLength"),
    (TEN, FIRST, b"\0\0\0\x04\x05\xff\xc0\x01", 0, b"WrongLength"),
    (BEP_TEN, HAVE_NONE, b"\0\0\0\x03\x05\xff\xe0", 4, b"Late"),
    (BEP_TEN, FIRST, b"\0\0\0\x05\x04\0\0\0\x0a", 4, b"Missing"),
]

# The same for extended messages, which are refused alike as the first message and after another.
EXT_REASONS = [
    (FREE, NO_INTEGER, 12, b"BadBencode"),
    (BEP, NO_INTEGER, 12, b"BadBencode"),
    (FREE, b"\0\0\0\x09\x14\0d1:pi1e", 13, b"BadBencode"),
    (FREE, b"\0\0\0\x02\x14\0", 6, b"BadBencode"),
    (BEP, b"\0\0\0\x04\x14\x03le", 6, b"BadBencode"),
    (BEP, UNSORTED, 26, b"Unsorted"),
    (BEP, NO_NAMES, 6, b"BadField"),
    (BEP, b"\0\0\0\x1b\x14\x03d8:msg_typei1e5:piecei0ee", 6, b"BadField"),
    (BEP, SHORT, 47, b"BadBlock"),
    (NARROW_BEP, NO_INTEGER, 0, b"TooLong"),
    (NARROW_BEP, UNSORTED, 0, b"TooLong"),
    (NARROW_BEP, NO_NAMES, 0, b"TooLong"),
    (NARROW_BEP, SHORT, 0, b"TooLong"),
    (NO_EXT, b"\0\x04\0\x01\x14", 0, b"TooLong"),
    (NO_EXT, NO_INTEGER, 4, b"NotNegotiated"),
    (NO_EXT, UNSORTED, 4, b"NotNegotiated"),
    (NO_EXT, NO_NAMES, 4, b"NotNegotiated"),
    (NO_EXT, SHORT, 4, b"NotNegotiated"),
    (BEP, b"\0\0\0\x0b\x14\0d1:b0:1:a", 15, b"BadBencode"),
    (BEP, b"\0\0\0\x09\x14\0d1:mi1e", 13, b"BadBencode"),
    (BEP, b"\0\0\0\x2d\x14\x03d8:msg_typei1e5:piecei0e10:total_sizei3eabc", 46, b"BadBencode"),
    (BEP, b"\0\0\0\x10\x14\0d1:pi1e1:mi1ee", 13, b"Unsorted"),
    (BEP, b"\0\0\0\x1b\x14\x03d5:piecei0e8:msg_typei1ee", 17, b"Unsorted"),
    (BEP, b"\0\0\0\x2d\x14\x03d8:msg_typei1e10:total_sizei3e5:piecei0eeab", 36, b"Unsorted"),
]

# A message, and why it is refused as the first, later, and as the first of a connection without the Fast Extension, under the
# strict rules; None where it isn't. Then whether it counts as one before others (docs/RULES.md, "Rules").
MISSING, LATE, NOT_AGREED, UNKNOWN = b"Missing", b"Late", b"NotNegotiated", b"UnknownId"
ORDERS = [
    (b"\0\0\0\0", None, None, None, False),
    (b"\0\0\0\x01\0", MISSING, None, None, True),
    (b"\0\0\0\x01\x01", MISSING, None, None, True),
    (b"\0\0\0\x01\x02", MISSING, None, None, True),
    (b"\0\0\0\x01\x03", MISSING, None, None, True),
    (b"\0\0\0\x05\x04\0\0\0\0", MISSING, None, None, True),
    (b"\0\0\0\x02\x05\0", None, LATE, None, True),
    (b"\0\0\0\x0d\x06" + bytes(12), MISSING, None, None, True),
    (b"\0\0\0\x09\x07" + bytes(8), MISSING, None, None, True),
    (b"\0\0\0\x0d\x08" + bytes(12), MISSING, None, None, True),
    (b"\0\0\0\x03\x09\0\0", None, None, None, False),
    (b"\0\0\0\x05\x0d\0\0\0\0", MISSING, None, NOT_AGREED, True),
    (b"\0\0\0\x01\x0e", None, LATE, NOT_AGREED, True),
    (b"\0\0\0\x01\x0f", None, LATE, NOT_AGREED, True),
    (b"\0\0\0\x0d\x10" + bytes(12), MISSING, None, NOT_AGREED, True),
    (b"\0\0\0\x05\x11\0\0\0\0", MISSING, None, NOT_AGREED, True),
    (b"\0\0\0\x02\x14\x04", None, None, None, False),
    (b"\0\0\0\x01\x63", UNKNOWN, UNKNOWN, UNKNOWN, True),
]

# The lines of the streams that were recorded between clients (examples/README.md), which are the same under both rules.
FETCHING_LINES = """\
0 handshake 0000000000100004 af5a3b2ac0bec218a9f53f021946bfee0f069177 2d5452333030302d686b75727434303468756272
68 ext-handshake 102 0 size=- ut_metadata=3
176 have-none
181 extended 1 29
216 metadata-request 0
247 metadata-request 1
ok messages=5 bytes=278
"""

SERVING_LINES = """\
0 handshake 0000000000100005 af5a3b2ac0bec218a9f53f021946bfee0f069177 2d4c54323038302d4f53426328562d2d70487938
68 ext-handshake 212 0 size=25486 ut_metadata=2
286 have-all
291 unchoke
296 choke
301 metadata-data 0 25486 16384
16736 metadata-data 1 25486 9102
ok messages=6 bytes=25889
"""

DOWNLOADING_LINES = """\
0 handshake 0000000000100005 cf838b3f2fdddabfed5ebd0e56b3cf4c48c9ce45 2d4c54323038302d4b3252702864633078596d7e
68 ext-handshake 203 0 size=829 ut_metadata=2
277 have-none
282 interested
287 request 20 0 16384
304 request 21 0 16384
321 request 22 0 16384
338 request 23 0 16384
355 request 10 0 16384
372 request 11 0 16384
389 request 1 0 16384
406 request 2 0 16384
423 have 20
432 request 4 0 16384
449 request 5 0 16384
466 request 17 0 16384
483 request 18 0 16384
500 have 21
509 have 22
518 have 23
527 request 24 0 16384
544 request 25 0 16384
561 request 26 0 16384
578 request 27 0 16384
595 request 28 0 16384
612 request 29 0 16384
629 have 10
638 have 1
647 have 11
656 request 30 0 16384
673 request 31 0 16384
690 request 32 0 16384
707 request 33 0 16384
724 request 34 0 16384
741 request 35 0 16384
758 request 36 0 16384
775 request 37 0 8269
792 request 12 0 16384
809 request 13 0 16384
826 have 2
835 have 18
844 have 17
853 have 5
862 have 4
871 request 14 0 16384
888 request 15 0 16384
905 request 16 0 16384
922 request 0 0 16384
939 request 6 0 16384
956 request 7 0 16384
973 request 8 0 16384
990 request 9 0 16384
1007 request 3 0 16384
1024 request 19 0 16384
1041 have 24
1050 have 26
1059 have 27
1068 have 28
1077 have 25
1086 have 29
1095 have 30
1104 have 31
1113 have 32
1122 have 33
1131 have 34
1140 have 35
1149 have 36
1158 have 37
1167 have 12
1176 have 13
1185 have 14
1194 have 15
1203 have 16
1212 have 0
1221 have 6
1230 have 7
1239 have 8
1248 have 9
1257 have 3
1266 have 19
1275 not-interested
ok messages=80 bytes=1280
"""

# The receiver's options, the file, and its lines.
CAPTURES = [
    ("--reserved 0000000000100005 --metadata-id 2", "fetching.bin", FETCHING_LINES.encode()),
    ("--reserved 0000000000100004", "serving.bin", SERVING_LINES.encode()),
    ("--reserved 0000000000100004 --pieces 38", "downloading.bin", DOWNLOADING_LINES.encode()),
]


def has_lines(options, stream, lines):
    """`show` prints the lines, and `check` the last of them."""
    verdict = lines[lines.rindex(b"\n", 0, -1) + 1:] if lines.count(b"\n") > 1 else lines
    status = 0 if verdict.startswith(b"ok ") else 1
    return [("show " + options, stream, lines, b"", status), ("check " + options, stream, verdict, b"", status)]


def scripted(rest, verdict, script):
    """`check` prints the verdict, `unpack` the script, and `pack` makes the stream of it."""
    status = 0 if verdict.startswith(b"ok ") else 1
    stream, script = HAND + rest, LINE + script
    return [("check", stream, verdict, b"", status), ("unpack", stream, script, b"", 0), ("pack", script, stream, b"", 0)]


def reasons():
    """The receiver's options, what follows the handshake, and the lines that follow the handshake's."""
    extended = [(options, before, *row) for options, *row in EXT_REASONS for before in (FIRST, HAVE_NONE)]
    for options, (before, line), refused, at, reason in [*REASONS, *extended]:
        place = 68 + len(before) + at
        yield options, before + refused, line + b"refused message=%d at=%d %s\n" % (2 if before else 1, place, reason)


def judged(options, rest, reason, number, start):
    """The row of `check` of a stream of which this message is refused at its id, or of which none is."""
    stream = HAND + rest
    if reason:
        return "check " + options, stream, b"refused message=%d at=%d %s\n" % (number, start + 4, reason), b"", 1
    return "check " + options, stream, b"ok messages=%d bytes=%d\n" % (number, len(stream)), b"", 0


def orders():
    """Each message as the first, later, as the first without the Fast Extension, and before another that has to come first."""
    for content, first, later, slow, counts in ORDERS:
        yield judged(BEP, content, first, 1, 68)
        yield judged(BEP, HAVE_NONE[0] + content, later, 2, 73)
        yield judged(SLOW_BEP, content, slow, 1, 68)
        if not first:
            yield judged(BEP, content + HAVE_NONE[0], LATE if counts else None, 2, 68 + len(content))


def streams():
    """The receiver's options, a stream, and its lines."""
    found = [(options, HAND + rest, b"0 " + LINE + lines) for options, rest, lines in [*STREAMS, *reasons()]]
    for options, name, lines in CAPTURES:
        with open(os.path.join(ROOT, "examples", name), "rb") as file:
            stream = file.read()
        found += [("--rules %s %s" % (rules, options), stream, lines) for rules in ("free", "bep")]
    return found


def both_directions():
    """The captures, each with what its receiver sent: the lines are those with the receiver's options."""
    found = []
    for (_, name, lines), other in zip(CAPTURES, ("serving.bin", "fetching.bin", None)):
        with open(os.path.join(ROOT, "examples", name), "rb") as file:
            stream = file.read()
        # Transmission's direction of the third connection isn't stored: its reserved bits and its id are known.
        sent = hand("0000000000100004") + naming(3)
        if other:
            with open(os.path.join(ROOT, "examples", other), "rb") as file:
                sent = file.read()
        for options in ("", "--rules bep ", "--metadata-id %d " % (2 if name == "fetching.bin" else 3)):
            found.append(("show %s--other other a" % options, {"other": sent, "a": stream}, b"", lines, b"", 0))
    return found


def on_a_terminal(program, words, given):
    """What a terminal gets that is standard error."""
    terminal, end = os.openpty()
    subprocess.run([program, *words.split()], input=given, stdout=subprocess.DEVNULL, stderr=end)
    os.write(end, b"END")
    os.close(end)
    said = b""
    while not said.endswith(b"END"):
        said += os.read(terminal, 4096)
    os.close(terminal)
    return said[:-3].replace(b"\r\n", b"\n")


def hints_on_a_terminal(program):
    """Whether a terminal gets a hint, unless that is forbidden."""
    hint = Hint(b"", b".torrent")
    found = [on_a_terminal(program, "show" + option, b"d8:announce3:abce")
             for option in ("", " --hints auto", " --hints always", " --hints never")]
    return all(hint.is_in(said) for said in found[:3]) and found[3] == b""


def has_help(program, name):
    """Whether the help of a command has its usage, its options and all sections, in lines that a script can read."""
    usage, options, _ = COMMANDS[name]
    texts = [run(program, words, b"", None) for words in (name + " --help", name + " -h", "help " + name)]
    text = texts[0][0].decode()
    sections = re.findall(r"^(Usage|Options|Example|Exit status):", text, re.M)
    lines = re.findall(r"^  (?:-\w, |    )--(\S+)(?: <[][\w:-]+>)? {2,}\S.*$", text, re.M)
    with_values = re.findall(r"^ +--(\S+) <[][\w:-]+> .* \[default: .+\]$", text, re.M)
    return (texts[1:] == [texts[0]] * 2 and texts[0][1:] == (b"", 0) and "\n\nUsage: %s\n" % usage in text
            and sections == ["Usage", "Options", "Example", "Exit status"] and sorted(lines) == sorted(options.split() + ["help"])
            and set(lines) - set(with_values) <= {"help", "json", "local", "no-dht", "no-trackers", "show", "strict-status", "torrent"}
            and "\nExample:\n  bt_tool %s " % name in text and "\n  2    Usage error" in text)


def devices(program):
    """What is tried on pipes and terminals, and whether it was right."""
    found = [("bt_tool %s, whose output nobody reads" % words, ends_quietly(program, words, given)) for words, given in UNREAD]
    found.append(("bt_tool show --other, of a pipe that stays open", needs_no_end(program)))
    found.append(("bt_tool show, with a hint on a terminal", hints_on_a_terminal(program)))
    found.append(("bt_tool show --other, on a terminal", is_informed_on_a_terminal(program)))
    found += [("bt_tool %s --help" % name, has_help(program, name)) for name in COMMANDS]
    found += [("bt_tool %s, on a terminal" % words, is_awaited(program, words, awaited))
              for words, awaited in (("show", b"a stream"), ("check", b"a stream"), ("pack", b"a script"), ("link", b"a script"),
                                     ("capture", b"a capture"))]
    return found


def rows():
    """All rows, those of the tables of streams and mistakes too."""
    found = [row for row in ROWS if not isinstance(row[3], Hint)]
    found += [(words, HAND, b"", MISTAKE, 2) for words in MISTAKES] + list(orders())
    for words, given, out, errors, status in ROWS:
        if isinstance(errors, Hint):
            found += [(words + option, given, out, said, status)
                      for option, said in ((" --hints always", errors), ("", errors.stated), (" --hints auto", errors.stated),
                                           (" --hints never", errors.stated))]
    for row in SCRIPTS:
        found += scripted(*row)
    for row in streams():
        found += has_lines(*row)
    return found


def run(program, words, given, out, folder=None):
    """Standard output, standard error and the exit status."""
    source = os.open(ROOT, os.O_RDONLY) if given is FOLDER else None
    target = os.open("/dev/full", os.O_WRONLY) if out is FULL else None
    words = words.split() if isinstance(words, str) else words
    ended = subprocess.run([program, *words], stdin=source, input=None if given is FOLDER else given,
                           stdout=subprocess.PIPE if target is None else target, stderr=subprocess.PIPE, cwd=folder)
    for device in (source, target):
        if device is not None:
            os.close(device)
    return ended.stdout, ended.stderr, ended.returncode


def run_with_files(program, words, files, given, out):
    """As `run`, in a folder that has these files."""
    with tempfile.TemporaryDirectory() as folder:
        for name, content in files.items():
            with open(os.path.join(folder, name), "wb") as file:
                file.write(content)
        return run(program, words, given, out, folder)


def ends_quietly(program, words, given):
    """Whether a run whose output nobody reads says nothing, and has the status of a program that SIGPIPE ended."""
    source, target = os.pipe()
    os.close(source)
    ended = subprocess.run([program, *words.split()], input=given, stdout=target, stderr=subprocess.PIPE)
    os.close(target)
    return (ended.stderr, ended.returncode) == (b"", 141)


def needs_no_end(program):
    """Whether the other direction is read only as far as needed: its pipe stays open, and the stream is judged."""
    with tempfile.TemporaryDirectory() as folder:
        pipe = os.path.join(folder, "other")
        os.mkfifo(pipe)
        running = subprocess.Popen([program, "show", "--other", pipe], stdin=subprocess.PIPE, stdout=subprocess.PIPE)
        with open(pipe, "wb", buffering=0) as file:
            file.write(hand(NO_FAST) + taking(4, 7))
            try:
                shows = running.communicate(HAND + RAW_3, timeout=20)[0]
            except subprocess.TimeoutExpired:
                running.kill()
                running.wait()
                return False
        return shows == shown(*KEPT)


def is_informed_on_a_terminal(program):
    """Whether the other direction counts too if standard error is a terminal."""
    terminal, end = os.openpty()
    with tempfile.NamedTemporaryFile() as other:
        other.write(hand(NO_FAST) + taking(4, 7))
        other.flush()
        ended = subprocess.run([program, "show", "--other", other.name], input=HAND + RAW_3, stdout=subprocess.PIPE, stderr=end)
    os.close(end)
    os.close(terminal)
    return ended.stdout == shown(*KEPT)


def is_awaited(program, words, awaited):
    """Whether a run on a terminal says what it awaits, and reads it."""
    terminal, end = os.openpty()
    running = subprocess.Popen([program, words], stdin=end, stdout=subprocess.PIPE, stderr=subprocess.PIPE)
    os.close(end)
    os.write(terminal, b"x\n\x04")
    _, said = running.communicate(timeout=20)
    os.close(terminal)
    return said.startswith(b"bt_tool: " + awaited) and b"\n" in said


def is_as(found, wanted):
    if isinstance(wanted, Parts):
        return all(part in found for part in wanted.parts)
    if isinstance(wanted, Hint):
        return wanted.is_in(found)
    return bool(found) if wanted is TEXT else wanted is FULL or found == wanted


def comes_back(program, options, stream):
    """Whether what is unpacked of a stream is packed to the stream, or to a prefix of it where the stream is refused."""
    script, _, status = run(program, "unpack " + options, stream, None)
    packed = run(program, "pack " + options, script, None)
    return packed == (stream, b"", 0) if status == 0 else status == 1 and stream.startswith(packed[0])


def main():
    program = os.path.abspath(sys.argv[1] if len(sys.argv) > 1 else os.path.join(ROOT, "bt_tool"))
    wrong = runs = 0
    for words, given, *wanted in rows():
        runs += 1
        found = run(program, words, given, wanted[0])
        if not all(map(is_as, found, wanted)):
            wrong += 1
            print("statuses: wrong: bt_tool %s: of %r\nexpected: %r\ngot:      %r" % (words, given, wanted, found))
    for words, files, given, *wanted in FILES + both_directions():
        runs += 1
        found = run_with_files(program, words, files, given, wanted[0])
        if not all(map(is_as, found, wanted)):
            wrong += 1
            print("statuses: wrong: bt_tool %s: of %r and %r\nexpected: %r\ngot:      %r" % (words, files, given, wanted, found))
    for what, is_right in devices(program):
        runs += 1
        if not is_right:
            wrong += 1
            print("statuses: wrong: %s" % what)
    for options, stream, _ in streams():
        runs += 2
        if not comes_back(program, options, stream):
            wrong += 1
            print("statuses: wrong: bt_tool unpack %s, and pack of its output: of %r" % (options, stream))
    print("statuses: %s %d runs" % ("failed: %d wrong of" % wrong if wrong else "ok:", runs))
    sys.exit(1 if wrong else 0)


if __name__ == "__main__":
    main()
