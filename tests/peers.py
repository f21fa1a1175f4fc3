#!/usr/bin/env python3
"""Runs `fetch` and `serve` against peers on 127.0.0.1, honest and hostile ones.

usage: tests/peers.py [PROGRAM]

PROGRAM is the built program, or else the script `bt_tool` at the top of the repository. Each row has the peers in the order in
which they are dialled, the words after their addresses, and what is expected: standard output, standard error, where `@0` is
the first address, and the exit status. It was worked out from docs/FETCH.md. tests/clients.py has real clients.
"""
import base64
import collections
import hashlib
import json
import os
import pty
import random
import re
import resource
import socket
import struct
import subprocess
import sys
import tempfile
import threading
import time

ROOT = os.path.dirname(os.path.dirname(os.path.abspath(__file__)))
BLOCK = 16384
PROTOCOL = b"\x13BitTorrent protocol"


def info_of(length):
    """An info dictionary of this many bytes."""
    pieces = bytes(i * 7 % 251 for i in range((length - 100) // 20 * 20))
    for name in range(length):
        info = b"d6:lengthi16384e4:name%d:%s12:piece lengthi16384e6:pieces%d:%se" % (name, b"n" * name, len(pieces), pieces)
        if len(info) == length:
            return info
    raise ValueError(length)


INFO = info_of(50000)
HASH = hashlib.sha1(INFO).digest()
FALSE = bytes(len(INFO))


def message(number, fields):
    return struct.pack(">IB", 1 + len(fields), number) + fields


def handshake(reserved="0000000000100004", info_hash=HASH):
    return PROTOCOL + bytes.fromhex(reserved) + info_hash + b"-XX0001-000000000000"


def extended(size, number=2):
    told = b"13:metadata_sizei%de" % size if size is not None else b""
    return message(20, b"\0d1:md11:ut_metadatai%dee%se" % (number, told))


def data(number, piece, info=INFO, total=None):
    head = b"d8:msg_typei1e5:piecei%de10:total_sizei%dee" % (piece, len(info) if total is None else total)
    return message(20, bytes([number]) + head + info[piece * BLOCK:(piece + 1) * BLOCK])


def reject(number, piece):
    return message(20, bytes([number]) + b"d8:msg_typei2e5:piecei%dee" % piece)


class Peer:
    """Listens on 127.0.0.1, and talks to the connections one after the other."""

    def __init__(self, talk):
        self.talk = talk
        self.count = 0
        self.socket = socket.socket()
        self.socket.setsockopt(socket.SOL_SOCKET, socket.SO_REUSEADDR, 1)
        self.socket.bind(("127.0.0.1", 0))
        self.socket.listen(8)
        self.address = "127.0.0.1:%d" % self.socket.getsockname()[1]
        threading.Thread(target=self.serve, daemon=True).start()

    def serve(self):
        while True:
            try:
                link, _ = self.socket.accept()
            except OSError:
                return self.socket.close()
            self.count += 1
            try:
                self.talk(Link(link), self.count)
            except OSError:
                pass
            link.close()

    def close(self):
        # (the thread closes it: a number that it is about to use mustn't become that of another peer's socket)
        self.socket.shutdown(socket.SHUT_RDWR)


class Link:
    """A connection, with what it received."""

    def __init__(self, link):
        self.link = link
        self.buffer = b""
        self.link.settimeout(60)

    def send(self, *messages):
        self.link.sendall(b"".join(messages))

    def exactly(self, count):
        while len(self.buffer) < count:
            got = self.link.recv(65536)
            if not got:
                raise OSError("closed")
            self.buffer += got
        taken, self.buffer = self.buffer[:count], self.buffer[count:]
        return taken

    def receive(self):
        return self.exactly(struct.unpack(">I", self.exactly(4))[0])

    def request(self):
        """The number of the next block that is asked for."""
        while True:
            got = self.receive()
            if got[:1] == b"\x14" and got[1:2] != b"\0" and b"8:msg_typei0e" in got:
                return int(got[got.index(b"5:piecei") + 8:].split(b"e")[0])

    def has_more(self):
        """Whether more than keep-alives and the like comes within half a second: another request for a block."""
        self.link.settimeout(0.5)
        try:
            self.buffer += self.link.recv(65536)
        except TimeoutError:
            pass
        self.link.settimeout(60)
        return b"8:msg_typei0e" in self.buffer

    def hold(self):
        """Waits until the other end closes."""
        while self.link.recv(65536):
            pass


def greet(link, size=len(INFO), number=2, info_hash=HASH):
    link.exactly(68)
    link.send(handshake(info_hash=info_hash), extended(size, number))


def honest(link, count):
    greet(link)
    while True:
        link.send(data(3, link.request()))


def paced(link, count):
    """An honest peer that takes a tenth of a second for each block."""
    greet(link)
    while True:
        time.sleep(0.1)
        link.send(data(3, link.request()))


def giving(info, info_hash=None):
    """An honest peer that has this metadata, or one that has it under another info hash."""
    def talk(link, count):
        greet(link, len(info), info_hash=info_hash or hashlib.sha1(info).digest())
        while True:
            link.send(data(3, link.request(), info))
    return talk


def silent(link, count):
    link.hold()


def silent_later(link, count):
    link.exactly(68)
    link.send(handshake())
    link.hold()


def slow(link, count):
    """Makes some progress each 1.6 seconds."""
    link.exactly(68)
    time.sleep(1.6)
    link.send(handshake())
    time.sleep(1.6)
    link.send(extended(len(INFO)))
    while True:
        time.sleep(1.6)
        link.send(data(3, link.request()))


def rejecting_slowly(link, count):
    greet(link)
    while True:
        time.sleep(1.6)
        link.send(reject(3, link.request()))


def rejecting(link, count):
    greet(link)
    while True:
        link.send(reject(3, link.request()))


def telling(size, number=2):
    def talk(link, count):
        greet(link, size, number)
        link.hold()
    return talk


def no_extension(link, count):
    link.exactly(68)
    link.send(handshake("0000000000000004"))
    link.hold()


def false_blocks(link, count):
    greet(link)
    while True:
        link.send(data(3, link.request(), FALSE))


def cut(link, count):
    """Gives the first two blocks, and closes inside the third."""
    greet(link)
    for _ in range(2):
        link.send(data(3, link.request()))
    link.send(data(3, 2)[:100])


def half_size(link, count):
    """Tells another size, gives a block of it, and closes."""
    greet(link, 20000)
    link.send(data(3, link.request(), INFO[:20000]))
    time.sleep(0.2)


def one_at_a_time(link, count):
    """Answers the first request, and no later one while another is outstanding, as rtorrent does."""
    greet(link)
    link.send(data(3, link.request()))
    while True:
        piece = link.request()
        if count == 1 or link.has_more():
            link.hold()
        link.send(data(3, piece))


def as_rtorrent(link, count):
    """Has the peer id of rtorrent. It stops for good at a request that comes before it has answered the one before."""
    link.exactly(68)
    link.send(handshake()[:48] + b"-lt0D80-000000000000", extended(len(INFO)))
    while True:
        piece = link.request()
        if link.has_more():
            link.hold()
        link.send(data(3, piece))


def one_outstanding(link, count):
    """Stops for good at a request that comes before it has answered the one before, as `as_rtorrent`, with another peer id."""
    greet(link)
    while True:
        piece = link.request()
        if link.has_more():
            link.hold()
        link.send(data(3, piece))


def in_two_reads(link, count):
    """An honest peer whose extended handshake comes in two reads."""
    link.exactly(68)
    told = extended(len(INFO))
    link.send(handshake(), told[:20])
    time.sleep(0.3)
    link.send(told[20:])
    while True:
        link.send(data(3, link.request()))


def telling_later(link, count):
    """Tells nothing of metadata in its first extended handshake, and all of it in the second one."""
    link.exactly(68)
    link.send(handshake(), message(20, b"\0d1:mdee"))
    time.sleep(0.3)
    link.send(extended(len(INFO)))
    while True:
        link.send(data(3, link.request()))


def lying_once(link, count):
    """Tells a false size, takes the requests for it, tells the true one, and is honest from then on."""
    greet(link, 20000)
    for _ in range(2):
        link.request()
    link.send(extended(len(INFO)))
    while True:
        link.send(data(3, link.request()))


def lying_each_time(link, count):
    """Tells another size each time that blocks are asked for."""
    greet(link, 20000)
    for size in range(20001, 30000):
        link.request()
        link.send(extended(size))
    link.hold()


def false_twice(link, count):
    """Gives false blocks until each was given twice, and true ones from then on."""
    greet(link)
    for _ in range(8):
        link.send(data(3, link.request(), FALSE))
    while True:
        link.send(data(3, link.request()))


def false_once(link, count):
    """Gives false blocks until each was given once, and true ones from then on."""
    greet(link)
    for _ in range(4):
        link.send(data(3, link.request(), FALSE))
    while True:
        link.send(data(3, link.request()))


def false_at_first(link, count):
    """Gives false blocks on its first connection, until each was given twice, and is honest on the next one."""
    greet(link)
    while True:
        link.send(data(3, link.request(), FALSE if count == 1 else INFO))


def closing(link, count):
    link.exactly(68)


def wrong_hash(link, count):
    link.exactly(68)
    link.send(handshake(info_hash=bytes(20)))
    link.hold()


def too_long(link, count):
    link.exactly(68)
    link.send(handshake(), struct.pack(">I", 0x7fffffff))
    link.hold()


def flood(bytes_of):
    def talk(link, count):
        greet(link, None)
        while True:
            link.send(bytes_of * 1000)
    return talk


def quiet_flood(bytes_of):
    """Sends the same message without an extended handshake."""
    def talk(link, count):
        link.exactly(68)
        link.send(handshake())
        while True:
            link.send(bytes_of * 1000)
    return talk


def repeating(link, count):
    """Sends its extended handshake again and again, ten times a second, and no block."""
    greet(link)
    while True:
        time.sleep(0.1)
        link.send(extended(len(INFO)))


def changing_size_no_more(link, count):
    """Changes its size twice, and from then on each tenth of a second, which is no progress any more."""
    greet(link)
    for size in range(20001, 30000):
        time.sleep(0.1)
        link.send(extended(size))


def bytewise(link, count):
    """Sends each byte by itself."""
    link.link.setsockopt(socket.IPPROTO_TCP, socket.TCP_NODELAY, 1)
    link.exactly(68)
    for byte in handshake(info_hash=hashlib.sha1(SMALL).digest()) + extended(300) + data(3, 0, SMALL):
        link.send(bytes([byte]))
    link.hold()


def unasked(link, count):
    """Sends blocks that nobody asked for, and then those that were."""
    link.exactly(68)
    link.send(handshake(), data(3, 0, FALSE), extended(len(INFO)), reject(3, 9))
    while True:
        piece = link.request()
        link.send(data(3, piece), data(3, piece, FALSE))


def block_of_piece(link, count):
    """Gives a block of metadata, and then one of a piece, which nobody asked for, and a part of a message."""
    greet(link)
    link.send(data(3, link.request()), message(7, bytes(8) + b"block"), bytes(3))
    link.hold()


def requesting(link, count):
    """Asks for blocks of pieces, and is honest if `fetch` has no Fast Extension, which would oblige it to reject them."""
    if link.exactly(68)[20:28] != bytes.fromhex("0000000000100000"):
        return
    link.send(handshake(), extended(len(INFO)), request(0, 0, BLOCK), request(0, BLOCK, BLOCK))
    while True:
        link.send(data(3, link.request()))


SMALL = info_of(300)
TORRENT = b"d4:info" + INFO + b"e"
NOBODY = object()

# The peers, the words, standard output, standard error, the status. NOBODY is an address where nobody listens. One is asked at a time.
# If no peer gives the metadata each comes again after all others, so that the lines stand there twice.
ROWS = [
    ([honest], "", INFO, "@0 fetched\n", 0),
    ([honest], "--torrent", TORRENT, "@0 fetched\n", 0),
    ([honest], "--window 1 --rules bep --limit 32768", INFO, "@0 fetched\n", 0),
    ([honest], "--patience 30 --most 50000", INFO, "@0 fetched\n", 0),
    ([honest], "--max-size 50000", INFO, "@0 fetched\n", 0),
    ([honest], "--max-size 49999", b"", "@0 no-metadata\n", 1),
    ([NOBODY], "", b"", "@0 unreachable\n", 1),
    ([NOBODY, honest], "", INFO, "@0 unreachable\n@1 fetched\n", 0),
    ([silent], "--timeout 2", b"", "@0 silent\n", 1),
    ([silent_later, honest], "--timeout 2", INFO, "@0 left\n@1 fetched\n", 0),
    ([slow], "--timeout 3", INFO, "@0 fetched\n", 0),
    ([rejecting_slowly], "--timeout 3", b"", "@0 rejected\n", 1),
    ([closing, honest], "", INFO, "@0 closed\n@1 fetched\n", 0),
    ([rejecting], "", b"", "@0 rejected\n", 1),
    ([rejecting, honest], "", INFO, "@0 rejected\n@1 fetched\n", 0),
    ([telling(0)], "", b"", "@0 no-metadata\n", 1),
    ([telling(None)], "--timeout 2", b"", "@0 no-metadata\n", 1),
    ([telling(-1)], "--timeout 2", b"", "@0 no-metadata\n", 1),
    ([telling(67108865)], "", b"", "@0 no-metadata\n", 1),
    ([telling(len(INFO), 0)], "--timeout 2", b"", "@0 no-metadata\n", 1),
    ([telling_later], "--timeout 3", INFO, "@0 fetched\n", 0),
    ([telling(None), honest], "--timeout 2", INFO, "@0 left\n@1 fetched\n", 0),
    ([in_two_reads], "", INFO, "@0 fetched\n", 0),
    ([in_two_reads], "--max-size 49999", b"", "@0 no-metadata\n", 1),
    ([honest, NOBODY], "", INFO, "@0 fetched\n", 0),
    ([lying_once], "--timeout 3", INFO, "@0 fetched\n", 0),
    ([lying_each_time], "--timeout 2 --window 8", b"", "@0 silent\n", 1),
    ([false_once], "", INFO, "@0 fetched\n", 0),
    ([false_twice], "", b"", "@0 mismatch\n", 1),
    ([no_extension], "", b"", "@0 no-metadata\n", 1),
    ([false_blocks], "", b"", "@0 mismatch\n", 1),
    ([false_blocks, honest], "", INFO, "@0 mismatch\n@1 fetched\n", 0),
    ([NOBODY, false_blocks, honest], "", INFO, "@0 unreachable\n@1 mismatch\n@2 fetched\n", 0),
    ([cut, honest], "", INFO, "@0 closed\n@1 fetched\n", 0),
    ([half_size, honest], "", INFO, "@0 closed\n@1 fetched\n", 0),
    ([one_at_a_time], "--timeout 2", INFO, "@0 silent\n@0 fetched\n", 0),
    ([one_at_a_time], "--timeout 2 --window 8", b"", "@0 silent\n", 1),
    ([as_rtorrent], "", INFO, "@0 fetched\n", 0),
    ([half_size, as_rtorrent], "--timeout 3", INFO, "@0 closed\n@1 fetched\n", 0),
    ([half_size, one_outstanding], "--timeout 3 --window 1", INFO, "@0 closed\n@1 fetched\n", 0),
    ([cut, one_outstanding], "--timeout 3 --window 1", INFO, "@0 closed\n@1 fetched\n", 0),
    ([wrong_hash], "", b"", "@0 refused message=0 at=28 WrongInfoHash\n", 1),
    ([too_long], "", b"", "@0 refused message=1 at=68 TooLong\n", 1),
    ([quiet_flood(bytes(4))], "--timeout 2", b"", "@0 silent\n", 1),
    ([quiet_flood(message(4, bytes(4)))], "--timeout 2 --rules bep", b"", "@0 silent\n", 1),
    ([quiet_flood(message(4, bytes(4)))], "--timeout 2", b"", "@0 silent\n", 1),
    ([flood(bytes(4))], "--timeout 2", b"", "@0 no-metadata\n", 1),
    ([repeating], "--timeout 2", b"", "@0 silent\n", 1),
    ([unasked], "", INFO, "@0 fetched\n", 0),
    ([block_of_piece, honest], "", INFO, "@0 unasked\n@1 fetched\n", 0),
    ([requesting], "", INFO, "@0 fetched\n", 0),
    ([false_at_first], "", INFO, "@0 mismatch\n@0 fetched\n", 0),
    ([NOBODY, false_at_first], "", INFO, "@0 unreachable\n@1 mismatch\n@0 unreachable\n@1 fetched\n", 0),
]
# How many connections a peer may see, if more than one, though another gives the metadata.
CONNECTIONS = {one_at_a_time: 2, false_at_first: 2}
# The cut peer gives blocks 0 and 1; the second one is then asked for the others alone.
ASKED = [2, 3]


def program_of(words):
    return os.path.abspath(words[0]) if words else os.path.join(ROOT, "bt_tool")


# The sockets that keep the addresses where nobody listens.
KEPT = collections.deque(maxlen=400)


def nobody():
    """An address where nobody listens, and which no other socket takes for long."""
    kept = socket.socket()
    kept.bind(("127.0.0.1", 0))
    KEPT.append(kept)
    return "127.0.0.1:%d" % kept.getsockname()[1]


def run(program, info_hash, addresses, words):
    return subprocess.run([program, "fetch", info_hash.hex()] + addresses + words, stdin=subprocess.DEVNULL,
                          capture_output=True, timeout=120)


def summary(errors):
    """The summary after these lines; S stands for the seconds."""
    lines = errors.splitlines()
    sources = [line.rsplit(" ", 1)[0] for line in lines if line.endswith(" fetched")]
    counts = (len(lines), *(sum(" " + word in line for line in lines) for word in ("silent", "unreachable", "refused")))
    return ("fetched from " + sources[0] if sources else "not fetched") + " in S s tried=%d silent=%d unreachable=%d refused=%d\n" % counts


def timeless(errors):
    """These lines, with S for the seconds of a summary."""
    return re.sub(r"(?m)^(not fetched|fetched from \S+) in \d+ s tried=", r"\1 in S s tried=", errors)


def differs(what, done, output, errors, status):
    """Whether the run of a fetch differs from these lines and their summary."""
    return differs_whole(what, done, output, errors + summary(errors), status)


def differs_whole(what, done, output, errors, status):
    got = (done.stdout, timeless(done.stderr.decode()), done.returncode)
    if got == (output, errors, status):
        return 0
    print("%s: got %d bytes, %r, status %d; expected %d bytes, %r, status %d"
          % ((what, len(got[0])) + got[1:] + (len(output), errors, status)))
    return 1


def hostile(program):
    failed, tried = 0, len(ROWS)
    for talks, words, output, errors, status in ROWS:
        peers = [None if talk is NOBODY else Peer(talk) for talk in talks]
        addresses = [nobody() if peer is None else peer.address for peer in peers]
        for number, address in enumerate(addresses):
            errors = errors.replace("@%d" % number, address)
        errors *= 2 if status == 1 else 1
        names = " ".join("nobody" if talk is NOBODY else talk.__qualname__ for talk in talks)
        begin = time.monotonic()
        done = run(program, HASH, addresses, words.split() + ["--at-once", "1"])
        took = time.monotonic() - begin
        failed += differs("%s %s" % (names, words), done, output, errors, status)
        stated = int(re.search(rb" in (\d+) s tried=", done.stderr)[1])
        if not took - 2 <= stated <= took + 1:
            print("%s %s: the summary says %d seconds, and it took %.1f" % (names, words, stated, took))
            failed += 1
        if "--timeout 2" in words and "silent" in errors and not 2 <= took <= 10:
            print("%s %s: it took %.1f seconds, and the timeout is 2" % (names, words, took))
            failed += 1
        for peer in peers:
            if peer is not None:
                failed += same("connections of %s %s" % (names, words), str(peer.count <= CONNECTIONS.get(peer.talk, status + 1)), "True")
                tried += 1
                peer.close()
    return failed, tried


def kept(program):
    """Held blocks are kept from one connection to the next, and aren't asked for again."""
    asked = []

    def counting(link, count):
        greet(link)
        while True:
            asked.append(link.request())
            link.send(data(3, asked[-1]))
    peers = [Peer(cut), Peer(counting)]
    done = run(program, HASH, [peer.address for peer in peers], ["--at-once", "1"])
    for peer in peers:
        peer.close()
    failed = differs("kept", done, INFO, "%s closed\n%s fetched\n" % tuple(peer.address for peer in peers), 0)
    if asked != ASKED:
        print("kept: blocks %r were asked for, expected %r" % (asked, ASKED))
        failed += 1
    return failed, 2


BASE32 = base64.b32encode(HASH).decode()
TRACKERS = "bt_tool: trackers aren't asked\n"
OTHERS = "bt_tool: other keys of the link aren't used\n"
WRONG = "bt_tool: trackers of the link with a wrong URL aren't asked\n"
# What comes before the summary if peers were searched, and nobody was asked.
ASKED_NOBODY = "asked 0 trackers, 0 nodes; 0 peers\n"
NO_DHT = ["--no-dht"]
# A link, the words after it, standard input, and what standard error gets before the lines. `@` is the peer's address.
LINKS = [
    ("magnet:?xt=urn:btih:%s&x.pe=@" % HASH.hex(), NO_DHT, b"", ""),
    ("MAGNET:?xt=URN:BTIH:%s&x.pe=@&dn=name" % HASH.hex().upper(), NO_DHT, b"", ""),
    ("magnet:?x.pe=@&xt=urn:btih:" + BASE32, NO_DHT, b"", ""),
    ("magnet:?xt=urn%%3abtih%%3A%s&x%%2Epe=127.0.0.1%%3a@P" % BASE32.lower(), NO_DHT, b"", ""),
    ("magnet:?&&xt=urn:btmh:1220&xt=urn:btih:%s&xt=urn:btih:0&x.pe=@&tr=a&tr=b&xl=9" % HASH.hex(), NO_DHT, b"", OTHERS + WRONG),
    (BASE32, ["@"], b"", ""),
    (BASE32.lower(), ["--peers", "-"], b"# peers\r\n\r\n \t @ # one\r\n", ""),
    (HASH.hex(), ["--peers", "-"], b"@", ""),
]


def linked(program):
    """A link and a list say what is fetched and from whom; those of the words come first, and those of the list last."""
    failed = 0
    for link, words, given, before in LINKS:
        peer = Peer(honest)
        here = [word.replace("@P", peer.address.split(":")[1]).replace("@", peer.address) for word in [link] + words]
        done = subprocess.run([program, "fetch"] + here, input=given.replace(b"@", peer.address.encode()), capture_output=True, timeout=60)
        peer.close()
        fetched = peer.address + " fetched\n"
        asked = ASKED_NOBODY if words == NO_DHT else ""
        failed += differs_whole(" ".join(here), done, INFO, before + fetched + asked + summary(fetched), 0)
    # (its trackers are the .torrent's: the first by itself, and each in a tier of its own)
    for trackers, pairs in (("", b""), ("&tr=udp%3A%2F%2Fa%3A1&tr=http://b/x%3Fy",
                                        b"8:announce9:udp://a:113:announce-listll9:udp://a:1el12:http://b/x?yee")):
        peer = Peer(honest)
        link, fetched = "magnet:?xt=urn:btih:%s%s" % (HASH.hex(), trackers), peer.address + " fetched\n"
        done = subprocess.run([program, "fetch", "--torrent", link, peer.address], stdin=subprocess.DEVNULL, capture_output=True, timeout=60)
        peer.close()
        said = (TRACKERS if trackers else "") + fetched + summary(fetched)
        failed += differs_whole("--torrent " + link, done, b"d" + pairs + b"4:info" + INFO + b"e", said, 0)
    peers = [Peer(rejecting) for _ in range(4)]
    with tempfile.NamedTemporaryFile("w") as file:
        file.write("%s\n%s\n" % (peers[3].address, peers[2].address))
        file.flush()
        done = run(program, HASH, [], ["--at-once", "1", "--peers", file.name, peers[0].address, peers[1].address])
        order = "".join("%s rejected\n" % peers[number].address for number in 2 * (0, 1, 3, 2))
        failed += differs("the list is last", done, b"", order, 1)
        link = "magnet:?x.pe=%s&x.pe=%s&xt=urn:btih:%s" % (peers[2].address, peers[1].address, HASH.hex())
        done = subprocess.run([program, "fetch", "--at-once", "1", link, peers[0].address], stdin=subprocess.DEVNULL, capture_output=True, timeout=60)
        order = "".join("%s rejected\n" % peers[number].address for number in 2 * (0, 2, 1))
        failed += differs("the link is second", done, b"", order, 1)
    for peer in peers:
        peer.close()
    return failed, len(LINKS) + 4


def several_ids(program):
    """Each run has a peer id of its own, and each digit of it can be any."""
    ids = []

    def noting(link, count):
        ids.append(link.exactly(68)[48:])
        link.send(handshake(), extended(len(INFO)))
        while True:
            link.send(data(3, link.request()))
    peer = Peer(noting)
    for _ in range(4):
        run(program, HASH, [peer.address], [])
    peer.close()
    return (same("peer ids", str([name[:8] for name in ids]), str(4 * [b"-TZ0001-"])) + same("different", str(len(set(ids))), "4")
            + same("digits", str(len(set(b"".join(name[8:] for name in ids))) > 3), "True")), 3


def largest(program):
    """An info dictionary of 67,108,864 bytes, in strings of at most a mebibyte, is served in its own memory; one of a byte more isn't."""
    keys = b"".join(b"3:a%02d1048576:" % number + bytes(1048576) for number in range(63))
    failed = 0
    for size, begin in ((67108864, b"serving "), (67108865, b"")):
        rest = size - len(keys) - len(b"d5:b0000" + b"%d:12:piece lengthi16384ee" % 1000000)
        info = b"d%s5:b0000%d:%s12:piece lengthi16384ee" % (keys, rest, bytes(rest))
        with tempfile.NamedTemporaryFile() as file:
            file.write(info)
            file.flush()
            server = subprocess.Popen([program, "serve", file.name], stdin=subprocess.DEVNULL, stdout=subprocess.PIPE, stderr=subprocess.PIPE)
            first = server.stdout.readline()
            failed += same("memory of the largest", resident(server) < size + 8388608, True)
            server.kill()
            errors = server.communicate(timeout=60)[1]
        wanted = begin and b"serving %s size=%d on " % (hashlib.sha1(info).hexdigest().encode(), size)
        failed += same("length", len(info), size) + same("largest", str((first[:len(wanted)], errors)), str((wanted, b"" if begin else b"refused file: info dictionary of more than 67108864 bytes\n")))
    return failed, 4


def many_pieces(program):
    """A .torrent whose SHA-1s of pieces have more bytes than a string of the wire may have is served, and fetched again."""
    info = b"d4:name1:a12:piece lengthi16384e6:pieces1300000:" + os.urandom(1300000) + b"e"
    with tempfile.NamedTemporaryFile() as file:
        file.write(b"d8:announce3:udp4:info" + info + b"e")
        file.flush()
        server = Server(program, file.name)
        done = run(program, hashlib.sha1(info).digest(), ["127.0.0.1:%d" % server.port], [])
        server.process.kill()
    return same("first line of many pieces", "size=%d " % len(info) in server.first, True) + same("many pieces", done.stdout == info, True), 2


def hosted(program):
    """A host's name is looked up; one without an address is unreachable, and so is an address that the system refuses."""
    peer = Peer(honest)
    refused = "255.255.255.255:9"
    failed = differs("refused by the system", run(program, HASH, [refused], []), b"", 2 * (refused + " unreachable\n"), 1)
    name = "localhost:" + peer.address.split(":")[1]
    done = run(program, HASH, ["a..b:9", name], ["--at-once", "1"])
    peer.close()
    lines = timeless(done.stderr.decode()).splitlines()
    return (failed + same("hosted", done.stdout, INFO) + same("no host", lines[0], "a..b:9 unreachable")
            + same("a host", lines[-2], name + " fetched") + same("its summary", lines[-1].split(" tried=")[0], "fetched from %s in S s" % name)), 5


def taken(program):
    """Where nothing can listen, `serve` says at which address and why."""
    with socket.socket() as held, tempfile.NamedTemporaryFile() as file:
        held.bind(("127.0.0.1", 0))
        held.listen(1)
        file.write(INFO)
        file.flush()
        address = "127.0.0.1:%d" % held.getsockname()[1]
        done = subprocess.run([program, "serve", file.name, "--listen", address], stdin=subprocess.DEVNULL, capture_output=True, timeout=60)
    said = done.stderr.decode()
    return same("taken", str((done.returncode, said.startswith("fault: net %s: " % address), said.count("\n"), "in use" in said)),
                str((3, True, 1, True))), 1


def million(program):
    """One million letters `a`, whose last block is shorter: the third peer gives them. The digest is that of FIPS 180-4."""
    letters, info_hash = 1000000 * b"a", bytes.fromhex("34aa973cd4c4daa4f61eeb2bdbad27316534016f")
    ends = "%s unreachable\n%s mismatch\n%s fetched\n", "%s unreachable\n%s no-metadata\n%s no-metadata\n"
    rows = [("--max-size 1000000", letters, ends[0], 0), ("--torrent", b"d4:info" + letters + b"e", ends[0], 0),
            ("--max-size 999999", b"", ends[1], 1)]
    failed = 0
    for words, output, errors, status in rows:
        peers = [Peer(giving(1000000 * b"b", info_hash)), Peer(giving(letters))]
        addresses = [nobody()] + [peer.address for peer in peers]
        done = run(program, info_hash, addresses, words.split() + ["--at-once", "1"])
        failed += differs("million %s" % words, done, output, errors % tuple(addresses) * (status + 1), status)
        for peer in peers:
            peer.close()
    return failed, len(rows)


def single(program):
    """A stream whose bytes come one by one."""
    peer = Peer(bytewise)
    done = run(program, hashlib.sha1(SMALL).digest(), [peer.address], [])
    peer.close()
    return differs("bytewise", done, SMALL, "%s fetched\n" % peer.address, 0), 1


def shown(program):
    """On a terminal the progress of a fetch is a line that is rewritten, and cleared at the end."""
    peer = Peer(paced)
    near, far = pty.openpty()
    done = subprocess.run([program, "fetch", HASH.hex(), peer.address], stdin=subprocess.DEVNULL, stdout=subprocess.PIPE, stderr=far,
                          timeout=60)
    os.close(far)
    text = b""
    try:
        while True:
            text += os.read(near, 65536)
    except OSError:
        os.close(near)
    peer.close()
    lines = peer.address + " fetched\n"
    shows = re.findall(rb"\r\x1b\[Kfetching(?: (\d) of 4 blocks at \d+ KiB/s)?, 1 open", text)
    rest = re.sub(rb"\r\x1b\[Kfetching[^\r]*, 1 open", b"", text)
    expected = b"\r\x1b[K" + (lines + summary(lines)).replace("\n", "\r\n").encode()
    held = [int(show) for show in shows[1:]]
    return (same("shown", done.stdout, INFO) + same("the end of progress", timeless(rest.decode()).encode(), expected)
            + same("progress", shows[:1] == [b""] and len(held) > 0 and held == sorted(held), True)), 3


def unread(program):
    """Where nobody reads the output, `loop` and `fetch` end as `show` does."""
    failed = 0
    peer = Peer(honest)
    fetched = "%s fetched\n" % peer.address
    for words, given, errors in ((["loop"], INFO, ""), (["fetch", HASH.hex(), peer.address], b"", fetched + summary(fetched))):
        near, far = os.pipe()
        os.close(near)
        done = subprocess.run([program] + words, input=given, stdout=far, stderr=subprocess.PIPE, timeout=60)
        os.close(far)
        failed += same("unread %s" % words[0], "%d %s" % (done.returncode, timeless(done.stderr.decode())), "141 " + errors)
    peer.close()
    return failed, 2


def unwritten(program):
    """Where the output is closed, full or open for reading alone, `fetch` says so after it has the metadata."""
    failed = 0
    peer = Peer(honest)
    for name, mode in ((None, 0), ("/dev/full", os.O_WRONLY), ("/dev/null", os.O_RDONLY)):
        device = os.open(name, mode) if name else None
        for words in ([], ["--torrent"]):
            done = subprocess.run([program, "fetch", HASH.hex(), peer.address] + words, stdin=subprocess.DEVNULL, stdout=device,
                                  stderr=subprocess.PIPE, timeout=60, preexec_fn=None if name else lambda: os.close(1))
            fetched = "%s fetched\n" % peer.address
            failed += same("unwritten %s" % name, "%d %s" % (done.returncode, timeless(done.stderr.decode())),
                           "3 %s%sfault: write\n" % (fetched, summary(fetched)))
        if name:
            os.close(device)
    peer.close()
    return failed, 6


def dialled(program):
    """A peer that tells another size than the one before it is asked on the same connection, also by the rules for rtorrent."""
    def fickle(link, count):
        link.exactly(68)
        link.send(handshake()[:48] + b"-lt0D80-000000000000", extended(len(INFO) + 1))
        link.request()
        link.hold()
    peers = [Peer(half_size), Peer(fickle)]
    done = run(program, HASH, [peer.address for peer in peers], ["--timeout", "2", "--at-once", "1"])
    for peer in peers:
        peer.close()
    return (differs("dialled", done, b"", 2 * ("%s closed\n%s silent\n" % tuple(peer.address for peer in peers)), 1)
            + same("connections", str([peer.count for peer in peers]), "[2, 2]")), 2


def placed(program):
    """At all places peers tell false sizes, each another one, and hold. A peer that takes one request at a time is asked by its own size."""
    peers = [Peer(telling(20000 + number)) for number in range(16)] + [Peer(as_rtorrent)]
    done = run(program, HASH, [peer.address for peer in peers], ["--timeout", "20"])
    for peer in peers:
        peer.close()
    giver = [end for end in told(done.stderr.decode()) if end[1] == "fetched"]
    return same("placed", done.stdout, INFO) + same("its giver", giver, [[peers[16].address, "fetched"]]), 2


def hindered(program):
    """At all places peers send messages that bring no block. Each gives up its place after half a second, as a silent one does."""
    failed = 0
    talks = [repeating, changing_size_no_more, flood(bytes(4)), flood(message(4, bytes(4))), flood(extended(len(INFO)))]
    for talk in talks:
        peers = [Peer(talk) for _ in range(16)] + [Peer(honest)]
        begin = time.monotonic()
        done = run(program, HASH, [peer.address for peer in peers], ["--timeout", "10"])
        took = time.monotonic() - begin
        for peer in peers:
            peer.close()
        giver = [end for end in told(done.stderr.decode()) if end[1] == "fetched"]
        failed += (same("hindered by " + talk.__qualname__, done.stdout, INFO) + same("its giver", giver, [[peers[16].address, "fetched"]])
                   + same("its time", took < 4, True))
    return failed, 3 * len(talks)


def told(errors):
    """The lines of a fetch but its summary, each as a peer's name and the word for its end."""
    return [line.split(" ")[:2] for line in errors.splitlines()[:-1]]


def both(program):
    """Of two honest peers that are asked at the same time one gives the metadata, and the other is left."""
    failed = 0
    for _ in range(4):
        peers = [Peer(honest), Peer(honest)]
        done = run(program, HASH, [peer.address for peer in peers], [])
        for peer in peers:
            peer.close()
        ends = told(done.stderr.decode())
        failed += (same("both", done.stdout, INFO) + same("ends of both", [end for _, end in ends], ["fetched", "left"])
                   + same("names of both", sorted(name for name, _ in ends), sorted(peer.address for peer in peers)))
    return failed, 3 * 4


STRANGERS = 40 * [NOBODY] + 16 * [silent] + 4 * [half_size] + 3 * [false_blocks] + [honest]


def swarm(program):
    """Of 64 strangers one is honest: it is found within two seconds, though a silent one may take 30."""
    failed = 0
    for seed in range(3):
        talks = list(STRANGERS)
        random.Random(seed).shuffle(talks)
        peers = [None if talk is NOBODY else Peer(talk) for talk in talks]
        addresses = [nobody() if peer is None else peer.address for peer in peers]
        begin = time.monotonic()
        done = run(program, HASH, addresses, [])
        took = time.monotonic() - begin
        for peer in peers:
            if peer is not None:
                peer.close()
        ends = told(done.stderr.decode())
        giver = [addresses[talks.index(honest)], "fetched"]
        most = max([sum(name == address for name, _ in ends) for address in addresses])
        failed += (same("swarm", done.stdout, INFO) + same("its giver", [end for end in ends if end[1] == "fetched"], [giver])
                   + same("its connections", most <= 2, True) + same("its time", took < 2, True)
                   + same("its summary", timeless(done.stderr.decode()).splitlines()[-1] + "\n", summary("".join("%s %s\n" % tuple(end) for end in ends))))
    return failed, 5 * 3


class Mute:
    """An address at which nobody answers: it listens, and the one connection that may wait there is taken."""

    def __init__(self):
        self.socket = socket.socket()
        self.socket.bind(("127.0.0.1", 0))
        self.socket.listen(0)
        self.address = "127.0.0.1:%d" % self.socket.getsockname()[1]
        self.waiting = [socket.socket() for _ in range(3)]
        for link in self.waiting:
            link.setblocking(False)
            link.connect_ex(self.socket.getsockname())

    def close(self):
        for link in self.waiting + [self.socket]:
            link.close()


def dead(program):
    """Of 201 addresses only the last one answers: the others take no place, and an address at a time costs none either."""
    failed, tried = 0, 0
    mute = Mute()
    gone = [nobody() for _ in range(200)]
    for name, addresses, words in (("silent", 200 * [mute.address], ""), ("refused", gone, ""), ("both", 100 * [mute.address] + gone[:100], ""),
                                   ("one place", 200 * [mute.address], "--at-once 1")):
        peer = Peer(honest)
        begin = time.monotonic()
        done = run(program, HASH, addresses + [peer.address], words.split())
        took = time.monotonic() - begin
        peer.close()
        ends = told(done.stderr.decode())
        failed += (same("dead, " + name, done.stdout, INFO) + same("its giver", [end for end in ends if end[1] == "fetched"], [[peer.address, "fetched"]])
                   + same("its connections", (len(ends) >= 201, peer.count), (True, 1)) + same("its time, %.2f s" % took, took < 1, True))
        tried += 4
    mute.close()

    # Nobody answers at all: five seconds, twice.
    mute = Mute()
    begin = time.monotonic()
    done = run(program, HASH, 3 * [mute.address], ["--at-once", "1"])
    took = time.monotonic() - begin
    mute.close()
    failed += differs("all dead", done, b"", 6 * (mute.address + " unreachable\n"), 1) + same("its time, %.1f s" % took, 10 <= took < 13, True)
    return failed, tried + 2


def objects(program):
    """With `--json` standard error gets an object a line."""
    peers = [Peer(wrong_hash), Peer(honest)]
    gone, link = nobody(), "magnet:?xt=urn:btih:%s&tr=a&xl=9" % HASH.hex()
    done = subprocess.run([program, "fetch", "--json", "--at-once", "1", link, gone] + [peer.address for peer in peers],
                          stdin=subprocess.DEVNULL, capture_output=True, timeout=60)
    lost = run(program, HASH, [gone], ["--json"])
    for peer in peers:
        peer.close()
    expected = [{"note": "trackers aren't asked"}, {"note": "other keys of the link aren't used"}, {"peer": gone, "end": "unreachable"},
                {"peer": peers[0].address, "end": "refused", "message": 0, "offset": 28, "reason": "WrongInfoHash"},
                {"peer": peers[1].address, "end": "fetched"},
                {"fetched": peers[1].address, "seconds": 0, "tried": 3, "silent": 0, "unreachable": 1, "refused": 1}]
    nothing = 2 * [{"peer": gone, "end": "unreachable"}] + [{"fetched": None, "seconds": 0, "tried": 2, "silent": 0, "unreachable": 2, "refused": 0}]
    got = [[json.loads(line) for line in run.stderr.decode().splitlines()] for run in (done, lost)]
    for each in got:
        each[-1]["seconds"] *= each[-1]["seconds"] > 1
    return same("objects", got[0], expected) + same("objects of nothing", got[1], nothing) + same("object's metadata", done.stdout, INFO), 3


class Server:
    """Runs `serve`, and reads its lines."""

    def __init__(self, program, name, *words):
        self.process = subprocess.Popen([program, "serve", name] + list(words), stdin=subprocess.DEVNULL, stdout=subprocess.PIPE)
        self.first = self.process.stdout.readline().decode()
        self.port = int(self.first.rsplit(":", 1)[1])

    def connect(self):
        link = Link(socket.create_connection(("127.0.0.1", self.port)))
        return link, "127.0.0.1:%d" % link.link.getsockname()[1]

    def end(self):
        lines, _ = self.process.communicate(timeout=60)
        return sorted(lines.decode().splitlines()), self.process.returncode


def leech(server, bytewise=False):
    """Gets the metadata from the server, and returns it with the address of this end."""
    link, address = server.connect()
    greeting = handshake() + message(20, b"\0d1:md11:ut_metadatai7eee")
    for cut in range(0, len(greeting), 1 if bytewise else len(greeting)):
        link.send(greeting[cut:cut + 1] if bytewise else greeting)
    if link.exactly(68)[:48] != handshake()[:48]:
        return b"another handshake", address
    metadata = b""
    for piece in range(-(-len(INFO) // BLOCK)):
        link.send(message(20, b"\3d8:msg_typei0e5:piecei%dee" % piece))
        got = link.receive()
        while got[:2] != b"\x14\7":
            got = link.receive()
        metadata += got[got.index(b"ee") + 2:]
    link.link.close()
    return metadata, address


def same(what, got, expected):
    if got == expected:
        return 0
    print("%s: got %s, expected %s" % (what, *(text if len(text) < 1000 else "%d characters" % len(text) for text in (repr(got), repr(expected)))))
    return 1


def serving(program):
    """Serves to honest and hostile peers at the same time."""
    failed = 0
    with tempfile.TemporaryDirectory() as work:
        names = [os.path.join(work, name) for name in ("a.torrent", "info", "neither")]
        for name, content in zip(names, (b"d8:announce3:udp4:info" + INFO + b"e", INFO, b"d4:name1:ae")):
            with open(name, "wb") as file:
                file.write(content)
        done = subprocess.run([program, "serve", names[2]], capture_output=True, timeout=60)
        failed += differs_whole("serve neither", done, b"", "refused file: no dictionary under 'info' and no number under 'piece length'\n", 1)

        server = Server(program, names[0], "--exit-after", "4", "--timeout", "3")
        failed += same("first line", server.first, "serving %s size=%d on 127.0.0.1:%d\n" % (HASH.hex(), len(INFO), server.port))
        mute, first = server.connect()
        garbage, second = server.connect()
        garbage.send(b"GET / HTTP/1.0\r\n\r\n")
        metadata, third = leech(server)
        failed += same("served", metadata, INFO)
        metadata, fourth = leech(server, True)
        failed += same("served bytewise", metadata, INFO)
        # Sent: nothing to the first two peers, whose handshake didn't come, and else the handshake, the extended handshake, have none
        # and four blocks.
        expected = ["%s sent=0 handled=0 silent" % first, "%s sent=0 handled=0 refused message=0 at=0 BadProtocol" % second,
                    "%s sent=7 handled=6 closed" % third, "%s sent=7 handled=6 closed" % fourth]
        lines, status = server.end()
        failed += same("lines", lines, sorted(expected)) + same("status", str(status), "0")
        mute.link.close()

        server = Server(program, names[1], "--exit-after", "2", "--max-connections", "1", "--listen", "127.0.0.1:0")
        held, first = server.connect()
        done = subprocess.Popen([program, "fetch", HASH.hex(), "127.0.0.1:%d" % server.port], stdout=subprocess.PIPE)
        time.sleep(1)
        waited = done.poll() is None
        held.link.close()
        failed += same("one at once", str(waited), "True") + same("fetched from serve", done.communicate(timeout=60)[0], INFO)
        lines, status = server.end()
        failed += same("ends", str((len(lines), status)), "(2, 0)")
    return failed, 9


def request(index, begin, length):
    """Asks for a block of a piece (BEP 3)."""
    return message(6, struct.pack(">III", index, begin, length))


def rejected(index, begin, length):
    """The reject of it (BEP 6)."""
    return message(16, struct.pack(">III", index, begin, length))


def rest_of(link):
    """All that comes until the other end closes."""
    got = link.buffer
    while True:
        more = link.link.recv(65536)
        if not more:
            return got
        got += more


def bytes_within(link, seconds):
    """What comes within some seconds."""
    link.link.settimeout(seconds)
    try:
        return link.link.recv(65536)
    except TimeoutError:
        return b""
    finally:
        link.link.settimeout(60)


# The info dictionary has 2,495 pieces, 0 to 2494: 49,900 bytes of SHA-1s, 20 for each.
PIECES = 2495
REQUESTS = [(0, 0, 16384), (2494, 16384, 16384), (7, 3, 1)]
HAVE_NONE = message(15, b"")
HELLO = message(20, b"\0d1:md11:ut_metadatai3ee13:metadata_sizei%dee" % len(INFO))
NO_PIECES = b"d6:lengthi1e4:name1:a12:piece lengthi16384e6:pieces21:" + bytes(21) + b"e"


def pieces(program):
    """What a peer gets that asks `serve` for pieces, sends one, or counts them wrongly."""
    requests = b"".join(request(*block) for block in REQUESTS)
    rejects = b"".join(rejected(*block) for block in REQUESTS)
    none = handshake() + HAVE_NONE
    # What each peer sends, what it gets after the handshake, and its line's end. An offset is that of a refused message's index, or of its start.
    # Items sent: the handshake, the extended handshake, have none if both know the Fast Extension, and the rejects.
    rows = [("rejects", none + requests, HELLO + HAVE_NONE + rejects, "sent=6 handled=5 closed"),
            ("more rejects than wait", none + 7000 * requests, HELLO + HAVE_NONE + 7000 * rejects, "sent=21003 handled=21002 closed"),
            ("no rejects without Fast", handshake("0000000000100000") + requests, HELLO, "sent=2 handled=4 closed"),
            ("no Extension Protocol", handshake("0000000000000004") + HAVE_NONE + requests, HAVE_NONE + rejects, "sent=5 handled=5 closed"),
            ("a block", none + message(7, bytes(8) + b"block"), HELLO + HAVE_NONE, "sent=3 handled=3 unasked"),
            ("a block without Fast", handshake("0000000000100000") + message(7, bytes(8) + b"block"), HELLO, "sent=2 handled=2 unasked"),
            ("a rejected request and a block", none + request(*REQUESTS[0]) + message(7, bytes(8)), HELLO + HAVE_NONE + rejected(*REQUESTS[0]),
             "sent=4 handled=4 unasked"),
            ("a request beyond the last piece", none + request(PIECES, 0, 1), HELLO + HAVE_NONE, "sent=3 handled=2 refused message=2 at=78 BadIndex"),
            ("a have beyond the last piece", none + message(4, struct.pack(">I", PIECES)), HELLO + HAVE_NONE,
             "sent=3 handled=2 refused message=2 at=78 BadIndex"),
            ("the last piece", none + message(4, struct.pack(">I", PIECES - 1)), HELLO + HAVE_NONE, "sent=3 handled=3 closed"),
            ("a bitfield", handshake() + message(5, b"\xff" * 311 + b"\xfe"), HELLO + HAVE_NONE, "sent=3 handled=2 closed"),
            ("a bitfield of a byte less", handshake() + message(5, b"\xff" * 311), HELLO + HAVE_NONE,
             "sent=3 handled=1 refused message=1 at=68 WrongLength"),
            ("another info hash", handshake(info_hash=bytes(20)) + HAVE_NONE, None, "sent=0 handled=0 refused message=0 at=28 WrongInfoHash"),
            ("half a handshake", handshake()[:47], None, "sent=0 handled=0 closed")]
    failed = 0
    with tempfile.NamedTemporaryFile() as file:
        file.write(INFO)
        file.flush()
        server = Server(program, file.name, "--exit-after", str(len(rows) + 1), "--timeout", "20")
        expected = []
        late, address = server.connect()
        failed += same("before the handshake", bytes_within(late, 1), b"")
        late.send(handshake()[:67])
        failed += same("before its last byte", bytes_within(late, 1), b"")
        late.send(handshake()[67:])
        failed += same("after it", late.exactly(68)[:48] + late.exactly(len(HELLO + HAVE_NONE)), handshake()[:48] + HELLO + HAVE_NONE)
        late.link.close()
        for name, sent, got, end in rows:
            link, other = server.connect()
            sender = threading.Thread(target=link.send, args=(sent,), daemon=True)
            sender.start()
            if got is not None:
                failed += same(name, link.exactly(68)[:48], handshake()[:48]) + same(name, link.exactly(len(got)), got)
            sender.join()
            if end.endswith("closed"):
                link.link.shutdown(socket.SHUT_WR)
            failed += same("after " + name, rest_of(link), b"")
            expected.append("%s %s" % (other, end))
        lines, status = server.end()
        failed += same("lines", lines, sorted(expected + ["%s sent=3 handled=1 closed" % address])) + same("status", str(status), "0")

        # Of a string that isn't 20 bytes for each piece the count isn't known, and nothing is rejected.
        file.seek(0)
        file.truncate()
        file.write(NO_PIECES)
        file.flush()
        server = Server(program, file.name, "--exit-after", "1")
        link, other = server.connect()
        link.send(handshake(info_hash=hashlib.sha1(NO_PIECES).digest()) + HAVE_NONE + requests)
        link.exactly(68)
        link.receive(), link.receive()
        failed += same("the count isn't known", bytes_within(link, 1), b"")
        link.link.close()
        failed += same("its line", server.end()[0], ["%s sent=3 handled=5 closed" % other])
    return failed, 2 * len(rows) + 7


def one_write(program):
    """Each line of `serve` comes by one write: a packet of its own."""
    ours, theirs = socket.socketpair(socket.AF_UNIX, socket.SOCK_SEQPACKET)
    ours.settimeout(60)
    with tempfile.NamedTemporaryFile() as file:
        file.write(INFO)
        file.flush()
        server = subprocess.Popen([program, "serve", file.name, "--exit-after", "2"], stdin=subprocess.DEVNULL, stdout=theirs)
        theirs.close()
        packets = [ours.recv(65536).decode()]
        port = int(packets[0].rsplit(":", 1)[1])
        ends = []
        for sent, end in ((handshake() + HAVE_NONE, "sent=3 handled=2 closed"), (bytes(68), "sent=0 handled=0 refused message=0 at=0 BadProtocol")):
            link = Link(socket.create_connection(("127.0.0.1", port)))
            ends.append("127.0.0.1:%d %s\n" % (link.link.getsockname()[1], end))
            link.send(sent)
            if end.endswith("closed"):
                link.exactly(68 + len(HELLO + HAVE_NONE))
            link.link.close()
            packets.append(ours.recv(65536).decode())
        server.wait(timeout=60)
    expected = ["serving %s size=%d on 127.0.0.1:%d\n" % (HASH.hex(), len(INFO), port)] + ends
    return same("packets", packets, expected), 1


def resident(process):
    """The most bytes that were resident so far; 0 where the process has ended."""
    try:
        with open("/proc/%d/status" % process.pid) as status:
            return max([1024 * int(line.split()[1]) for line in status if line.startswith("VmHWM:")], default=0)
    except (FileNotFoundError, ProcessLookupError):
        return 0


def peak(process, seconds):
    """The most bytes that are resident until the process ends, or for `seconds` seconds."""
    most = 0
    end = time.monotonic() + seconds
    while process.poll() is None and time.monotonic() < end:
        most = max(most, resident(process))
        time.sleep(0.01)
    return most


def above(what, got, least, bound):
    """Whether at most `bound` bytes more were resident than without a peer."""
    if got > 0 and got - least <= bound:
        return 0
    print("%s: %d bytes more than without a peer, expected up to %d" % (what, got - least, bound))
    return 1


def longest_messages(link, count):
    """Sends messages without a meaning, each as long as the limit."""
    greet(link)
    while True:
        link.send(message(99, bytes(LIMIT - 1)))


LIMIT = 262144
# Two messages of the limit, four buffers of 64 KiB, and what the heap keeps.
BUFFERS = 2 * LIMIT + 4 * 65536 + 1048576
# Besides, what waits to be sent: less than 1 MiB and a message.
WAITING = 1048576 + LIMIT


def memory(program):
    """What a peer can take of memory, above what a run without a peer takes. The bounds are those of docs/FETCH.md."""
    failed = 0
    large = info_of(8000000)
    rows = [(telling(33554432), HASH, "--window 8 --max-size 33554432", 33554432 + BUFFERS, "silent"),
            (longest_messages, HASH, "--window 8", BUFFERS, "silent"),
            (giving(large), hashlib.sha1(large).digest(), "--torrent", 2 * len(large) + BUFFERS, "fetched")]

    def fetch(info_hash, address, words):
        process = subprocess.Popen([program, "fetch", info_hash.hex(), address, "--timeout", "2"] + words.split(), stdin=subprocess.DEVNULL,
                                   stdout=subprocess.PIPE, stderr=subprocess.PIPE)
        most = peak(process, 6)
        return most, process.communicate(timeout=60)[1].decode()
    mute = Peer(silent)
    least, _ = fetch(HASH, mute.address, "")
    mute.close()
    for talk, info_hash, words, bound, end in rows:
        peer = Peer(talk)
        most, errors = fetch(info_hash, peer.address, words)
        ends = "%s %s\n" % (peer.address, end) * (2 if end == "silent" else 1)
        failed += above("memory of fetch %s" % words, most, least, bound) + same("end of it", timeless(errors), ends + summary(ends))
        peer.close()

    with tempfile.NamedTemporaryFile() as file:
        file.write(INFO)
        file.flush()
        server = Server(program, file.name, "--exit-after", "8", "--timeout", "3")
        least = resident(server.process)
        links = [server.connect()[0] for _ in range(8)]
        for link in links:
            link.send(handshake(), message(20, b"\0d1:md11:ut_metadatai7eee"), message(20, b"\3d8:msg_typei0e5:piecei0ee") * 400)
        most = peak(server.process, 2)
        for link in links:
            link.link.close()
        failed += above("memory of serve", most, least, len(INFO) + 8 * (WAITING + 2 * LIMIT + 65536) + 1048576)
        failed += same("ends of greedy peers", str(server.end()[1]), "0")
    return failed, 2 * len(rows) + 2


def served_apart(program):
    """Two runs of `serve` have peer ids of their own, and each goes on after its peers, since nobody says `--exit-after`."""
    failed, ids = 0, set()
    with tempfile.NamedTemporaryFile() as file:
        file.write(INFO)
        file.flush()
        for _ in range(2):
            server = Server(program, file.name)
            metadata, _ = leech(server)
            link, _ = server.connect()
            link.send(handshake())
            ids.add(link.exactly(68)[48:])
            link.link.close()
            link, _ = server.connect()
            link.send(handshake())
            goes_on = link.exactly(48) == handshake()[:48] and server.process.poll() is None
            failed += same("serves and goes on", str((metadata == INFO, goes_on)), "(True, True)")
            server.process.kill()
            server.end()
            link.link.close()
    return failed + same("peer ids of serve", str(len(ids)), "2"), 3


def spent(process):
    """The processor seconds of a process so far."""
    with open("/proc/%d/stat" % process.pid) as stat:
        fields = stat.read().rsplit(")", 1)[1].split()
    return (int(fields[11]) + int(fields[12])) / os.sysconf("SC_CLK_TCK")


def descriptors(program):
    """At its limit of open files `serve` keeps serving those it has, doesn't spin, and lets in others when one leaves."""
    with tempfile.NamedTemporaryFile() as file:
        file.write(INFO)
        file.flush()
        limit = lambda: resource.setrlimit(resource.RLIMIT_NOFILE, (16, 16))
        process = subprocess.Popen([program, "serve", file.name], stdin=subprocess.DEVNULL, stdout=subprocess.PIPE, preexec_fn=limit)
        port = int(process.stdout.readline().decode().rsplit(":", 1)[1])
        links = [Link(socket.create_connection(("127.0.0.1", port))) for _ in range(32)]
        for link in links:
            link.send(handshake(), message(20, b"\0d1:md11:ut_metadatai7eee"))
        inside = [link for link in links if bytes_within(link, 0.2)]
        outside = [link for link in links if link not in inside]
        before = spent(process)
        time.sleep(2)
        failed = same("some are inside", 4 <= len(inside) < 16, True) + same("processor at the limit", spent(process) - before < 0.4, True)
        inside[0].send(message(20, b"\3d8:msg_typei0e5:piecei0ee"))
        inside[0].exactly(16384)
        failed += same("goes on", process.poll(), None)
        inside[1].link.close()
        time.sleep(1)
        failed += same("another is let in", any(bytes_within(link, 0.2) for link in outside), True)
        for link in links:
            link.link.close()
        process.kill()
        process.communicate()
    return failed, 4


def soaked(program):
    """No edge is lost in a short soak, where strace can tell."""
    words = [os.path.join(ROOT, "tests", "soak_sockets"), "3", "1", program]
    last = subprocess.run(words, capture_output=True, text=True, timeout=300).stdout
    return same("edges of %r" % last, (" 0 lost edges" in last or "no edges were counted" in last) and "serve ended" not in last, True), 1


def main(words):
    program = program_of(words)
    failed = count = 0
    for part in (hostile, kept, linked, hosted, taken, largest, many_pieces, million, single, shown, unread, unwritten, dialled, placed, hindered, both, swarm, dead, objects,
                 several_ids, serving, pieces, one_write, memory, served_apart, descriptors, soaked):
        more, tried = part(program)
        failed += more
        count += tried
    print("peers: %d of %d as expected" % (count - failed, count))
    return 1 if failed else 0


if __name__ == "__main__":
    sys.exit(main(sys.argv[1:]))
