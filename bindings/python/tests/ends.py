#!/usr/bin/env python3
"""Tests bt.End, bt.fetch and bt.fetch_async: two ends, and a peer of its own wire code that breaks one rule at a time. usage: ends.py"""
import array
import asyncio
import hashlib
import os
import random
import socket
import struct
import subprocess
import sys
import threading
import time
import unittest

HERE = os.path.dirname(os.path.abspath(__file__))
PACKAGE = os.path.dirname(HERE)
EXAMPLES = os.path.join(PACKAGE, "..", "..", "examples")
sys.path.insert(0, PACKAGE)
import bt

METADATA = random.Random(9).randbytes(40000) if hasattr(random.Random, "randbytes") else bytes(range(250)) * 160
INFO_HASH = hashlib.sha1(METADATA).digest()
PEER = b"-XX0001-000000000000"
OWN = bt.Own(info_hash=INFO_HASH)
BLOCK = 16384


class Peer:
    """A peer that serves metadata, by wire code of its own, and breaks one rule."""

    def __init__(self, broken=""):
        self.broken, self.metadata = broken, METADATA
        self.listener = socket.create_server(("127.0.0.1", 0))
        self.listener.settimeout(20)
        self.address = "127.0.0.1:%d" % self.listener.getsockname()[1]
        self.thread = threading.Thread(target=self.serve, daemon=True)

    def __enter__(self):
        self.thread.start()
        return self.address

    def __exit__(self, *_):
        self.thread.join(20)
        self.listener.close()

    def serve(self):
        try:
            sock, _ = self.listener.accept()
            with sock:
                sock.settimeout(20)
                self.talk(sock)
                sock.shutdown(socket.SHUT_WR)
                while sock.recv(65536):
                    pass
        except OSError:
            pass

    def send(self, sock, data):
        if self.broken == "bytes come one by one":
            sock.setsockopt(socket.IPPROTO_TCP, socket.TCP_NODELAY, 1)
            for at in range(0, min(len(data), 400)):
                sock.send(data[at:at + 1])
            data = data[400:]
        sock.sendall(data)

    def exactly(self, stream, n):
        data = stream.read(n)
        if len(data) < n:
            raise OSError("closed")
        return data

    def extended(self, number, payload):
        return struct.pack(">IBB", len(payload) + 2, 20, number) + payload

    def block(self, piece):
        data = self.metadata[BLOCK * piece:BLOCK * (piece + 1)]
        size = len(self.metadata) + (self.broken == "another total size")
        if self.broken == "a short block":
            data = data[:-1]
        if self.broken == "another metadata":
            data = bytes(len(data))
        return b"d8:msg_typei1e5:piecei%de10:total_sizei%dee" % (piece, size) + data

    def talk(self, sock):
        broken, stream = self.broken, sock.makefile("rb")
        if broken == "it closes at once":
            return
        if broken == "no BitTorrent":
            sock.sendall(b"HTTP/1.1 400 Bad Request\r\n\r\n")
            return
        self.exactly(stream, 68)
        reserved = 0 if broken == "no extensions" else 0x100000
        info_hash = bytes(20) if broken == "another info hash" else INFO_HASH
        self.send(sock, b"\x13BitTorrent protocol" + struct.pack(">Q", reserved) + info_hash + PEER)
        if broken == "no extended handshake":
            stream.read()
        size = {"a size of 0": 0, "a huge size": 1 << 40, "a size above most": 50001}.get(broken, len(self.metadata))
        told = b"d1:md11:ut_metadatai9ee13:metadata_sizei%dee" % size
        if broken == "no bencoding":
            told = b"d1:md11:ut_metadata"
        if broken != "no extensions":
            self.send(sock, self.extended(0, told))
        if broken == "a false length":
            self.send(sock, struct.pack(">IB", 1 << 30, 7))
        while True:
            length, = struct.unpack(">I", self.exactly(stream, 4))
            message = self.exactly(stream, length)
            if message[:1] == b"\x14" and message[1:2] == b"\x00":
                self.id = int(message.split(b"11:ut_metadatai")[1].split(b"e")[0])
            elif message[:2] == b"\x14\x09":
                self.answer(sock, int(message.split(b"5:piecei")[1].split(b"e")[0]))

    def answer(self, sock, piece):
        broken = self.broken
        if broken == "no answer":
            return
        if broken == "it closes in a block":
            self.send(sock, self.extended(self.id, self.block(piece))[:1000])
            sock.shutdown(socket.SHUT_RDWR)
        elif broken == "it rejects":
            self.send(sock, self.extended(self.id, b"d8:msg_typei2e5:piecei%dee" % piece))
        elif broken == "blocks that nobody asked for":
            for other in (7, 7, 100, piece):
                self.send(sock, self.extended(self.id, self.block(other) if other < 3 else b"d8:msg_typei1e5:piecei%de10:total_sizei%dee"
                                              % (other, len(METADATA)) + bytes(BLOCK)))
        elif broken == "another id":
            self.send(sock, self.extended(self.id + 1, self.block(piece)))
        else:
            self.send(sock, self.extended(self.id, self.block(piece)))


# What comes of a fetch from a peer that breaks a rule, where it isn't the metadata.
FAILS = {
    "it closes at once": (OSError, "closed"), "no BitTorrent": (bt.Refused, "BadProtocol"), "another info hash": (bt.Refused, "WrongInfoHash"),
    "no extensions": (bt.FetchError, "no metadata"), "no extended handshake": (TimeoutError, "in time"), "no bencoding": (bt.Refused, "BadBencode"),
    "a false length": (bt.Refused, "TooLong"), "a huge size": (bt.FetchError, "of 1099511627776 bytes, not of 1 to 50000"),
    "a size above most": (bt.FetchError, "of 50001 bytes, not of 1 to 50000"), "a size of 0": (bt.FetchError, "of 0 bytes, not of 1 to 50000"),
    "no answer": (TimeoutError, "in time"), "it closes in a block": (OSError, "closed"), "it rejects": (bt.FetchError, "rejected"),
    "another metadata": (bt.FetchError, "other metadata"), "another id": (OSError, ""), "a short block": ((OSError, bt.Refused), ""),
    "another total size": ((OSError, bt.Refused), ""),
}
RIGHT = ["", "bytes come one by one", "blocks that nobody asked for"]


class Bytes(unittest.TestCase):
    """Items have the bytes that came, in chunks of each size."""

    STREAM = (bt.handshake(INFO_HASH, b"-XX0001-000000000000") + bytes.fromhex("00000001 0f" "00000000" "00000005 04 00000007") * 40
              + bytes.fromhex("00000003 14 05 78" "00000002 0505"))

    def test_in_chunks(self):
        for size in (1, 3, 64, 5000):
            with bt.End(bt.Own(info_hash=INFO_HASH)) as end:
                items = []
                for at in range(0, len(self.STREAM), size):
                    items += [heard.item for heard in end.receive(self.STREAM[at:at + size])]
                self.assertEqual(items, list(bt.read(self.STREAM)), size)

    def test_what_is_not_taken_comes_next(self):
        with bt.End(bt.Own(info_hash=INFO_HASH)) as end:
            first = [next(end.receive(self.STREAM[:100])).item]
            self.assertEqual(first + [heard.item for heard in end.receive(self.STREAM[100:])], list(bt.read(self.STREAM)))

    def test_an_old_iterator_after_a_reset(self):
        with bt.End(bt.Own(info_hash=INFO_HASH)) as end:
            old = end.receive(self.STREAM)
            kept = next(old).item
            end.reset()
            another = bt.handshake(INFO_HASH, b"-YY0001-000000000000")
            end.receive(another)
            self.assertEqual((next(old).item.data, kept.data), (another, self.STREAM[:68]))


class Fetches(unittest.TestCase):
    def fetched(self, address, seconds):
        return bt.fetch(address, INFO_HASH, timeout=seconds, most=50000)

    def test_from_a_peer_that_is_right(self):
        for broken in RIGHT:
            with self.subTest(broken), Peer(broken) as address:
                self.assertEqual(self.fetched(address, 20), METADATA)

    def test_by_the_name_of_a_host(self):
        with Peer() as address:
            self.assertEqual(self.fetched(address.replace("127.0.0.1", "localhost"), 20), METADATA)
        with Peer() as address:
            self.assertEqual(self.fetched(("localhost", int(address.split(":")[1])), 20), METADATA)

    def test_from_a_peer_that_breaks_a_rule(self):
        for broken, (kind, text) in FAILS.items():
            with self.subTest(broken), Peer(broken) as address:
                with self.assertRaises(kind) as caught:
                    # (the time is over only where that may be)
                    self.fetched(address, 0.7 if kind is TimeoutError or not text else 20)
                self.assertIn(text, str(caught.exception))

    def test_nobody_there(self):
        with socket.create_server(("127.0.0.1", 0)) as listener:
            address = listener.getsockname()
        self.assertRaises(ConnectionRefusedError, self.fetched, address, 5)

    def test_the_example(self):
        with Peer() as address:
            done = subprocess.run([sys.executable, "-B", os.path.join(EXAMPLES, "python", "fetch.py"), INFO_HASH.hex(), address],
                                  capture_output=True, timeout=30)
        self.assertEqual((done.returncode, done.stdout), (0, METADATA), done.stderr)
        self.assertIn(b"FETCHED metadata-data", done.stderr)

    def test_what_does_not_fit(self):
        for call in (lambda: bt.fetch("127.0.0.1:70000", INFO_HASH), lambda: bt.fetch("127.0.0.1:6881", b"short"),
                     lambda: bt.fetch("127.0.0.1", INFO_HASH), lambda: bt.fetch("127.0.0.1:1", INFO_HASH, most=0)):
            self.assertRaises(ValueError, call)


class Sizes(unittest.TestCase):
    """A size that isn't taken ends the fetch at once, also without a bound of its own, and with one of the size it doesn't."""

    def test_sizes(self):
        for most, broken, why in ((10, "", "of 40000 bytes, not of 1 to 10"), (39999, "", "not of 1 to 39999"),
                                  (None, "a huge size", "not of 1 to 67108864"), (1 << 40, "a huge size", "not of 1 to 67108864")):
            with self.subTest(most), Peer(broken) as address:
                self.assertRaisesRegex(bt.FetchError, why, bt.fetch, address, INFO_HASH, most=most)
        with Peer() as address:
            self.assertEqual(bt.fetch(address, INFO_HASH, most=40000), METADATA)


class Example(unittest.TestCase):
    """The example in the help of End ends, also if the peer closes the connection."""

    CODE = "\n".join(line[8:] for line in bt.End.__doc__.split("\n\n")[1].splitlines())

    def run_on(self, sock):
        names = {"bt": bt, "sock": sock, "info_hash": INFO_HASH, "print": lambda *words: self.said.append(words)}
        self.said = []
        exec(self.CODE, names)
        return names["end"]

    def test_it_fetches(self):
        with Peer() as address:
            host, port = address.split(":")
            with socket.create_connection((host, int(port)), 20) as sock:
                self.run_on(sock)
        self.assertEqual(self.said[-1], ("FETCHED", "metadata-data"))

    def test_the_peer_closes(self):
        class Closed:
            calls = 0

            def sendall(self, data):
                pass

            def recv(self, size):
                self.calls += 1
                assert self.calls < 10, "it goes on for ever"
                return b""

        self.assertRaisesRegex(EOFError, "closed the connection", self.run_on, Closed())


class AsyncFetches(Fetches):
    def fetched(self, address, seconds):
        return asyncio.run(bt.fetch_async(address, INFO_HASH, timeout=seconds, most=50000))

    test_the_example = test_what_does_not_fit = None


def told(items):
    """The items of an iterator, and the refusal in which it ends."""
    found = []
    try:
        for item in items:
            found.append(item)
    except bt.Refused as refused:
        return found, repr(refused)
    return found, None


class Ends(unittest.TestCase):
    def pair(self, sizes, one, two):
        """Moves bytes between two ends in chunks until none waits. Returns what each heard, and the bytes that went to it."""
        heard, sent = ([], []), (bytearray(), bytearray())
        for turn in range(100000):
            moved = 0
            for source, target, k in ((one, two, 1), (two, one, 0)):
                data = source.outgoing(sizes[turn % len(sizes)])
                source.sent(len(data))
                sent[k].extend(data)
                heard[k].extend(target.receive(data))
                moved += len(data)
            if not moved:
                return heard, sent
        self.fail("the ends go on for ever")

    def test_two_ends(self):
        for sizes in ([65536], [1], [7, 1, 30000]):
            with bt.End(OWN, fetch=True) as one, bt.End(OWN, serve=METADATA, peer_id=PEER) as two:
                self.assertEqual((one.progress, one.metadata, one.is_hopeless), (None, None, False))
                heard, sent = self.pair(sizes, one, two)
                self.assertEqual((one.metadata, one.progress, one.mismatches), (METADATA, (40000, 3, 3), 0))
                for told, stream in zip(heard, sent):
                    self.assertEqual([it.item for it in told], list(bt.read(stream, OWN)))
                events = [(it.event, it.piece, it.id, it.size, it.begins) for it in heard[0] if it.event != bt.Event.OTHER]
                self.assertEqual(events, [(bt.Event.OPENED, None, None, None, False), (bt.Event.ANNOUNCED, None, 3, 40000, True),
                                          (bt.Event.BLOCK, 0, None, None, False), (bt.Event.BLOCK, 1, None, None, False),
                                          (bt.Event.FETCHED, None, None, None, False)])
                self.assertEqual(heard[0][0].item.peer_id, PEER)
                served = [(it.event, it.piece) for it in heard[1] if it.event == bt.Event.SERVED]
                self.assertEqual(served, [(bt.Event.SERVED, k) for k in range(3)])

    def test_changed_bytes(self):
        """An end hears the items that are read of the same bytes, up to the same refusal."""
        with bt.End(OWN, fetch=True) as one, bt.End(OWN, serve=METADATA, peer_id=PEER) as two:
            streams, chosen, ends = self.pair([65536], one, two)[1], random.Random(5), time.monotonic() + 3
        while time.monotonic() < ends:
            stream = bytearray(chosen.choice(streams))
            for _ in range(chosen.choice([1, 1, 2])):
                stream[chosen.randrange(min(len(stream), 200))] = chosen.choice([0, 1, 2, chosen.randrange(256)])
            size = chosen.choice([1, 9, 1000, 65536])
            with bt.End(OWN, **chosen.choice([{}, {"fetch": True}, {"serve": METADATA}])) as end:
                heard = told(it.item for at in range(0, min(len(stream), 1000 * size), size) for it in end.receive(stream[at:at + size]))
            read = told(item for at in range(0, min(len(stream), 1000 * size), size) for item in self.feed(stream[at:at + size], at))
            self.assertEqual(heard, read)

    def feed(self, chunk, at):
        if at == 0:
            self.reader = bt.Feed(OWN)
        return self.reader.push(chunk)

    def test_say(self):
        own = bt.Own(info_hash=INFO_HASH, pieces=9)
        with bt.End(own) as one, bt.End(own) as two:
            self.assertRaisesRegex(ValueError, "isn't open", one.say, bt.UNCHOKE)
            self.pair([65536], one, two)
            one.say(bt.HAVE, 8)
            one.say(bt.REQUEST, 1, 2, 3)
            one.say(bt.PIECE, 1, 2, body=b"abc")
            one.say(bt.PORT, port=6881)
            heard, _ = self.pair([5], one, two)
            self.assertEqual([(it.item.id, it.item.index, it.item.begin, it.item.length, it.item.port, it.item.body) for it in heard[1]],
                             [(bt.HAVE, 8, None, None, None, b""), (bt.REQUEST, 1, 2, 3, None, b""), (bt.PIECE, 1, 2, None, None, b"abc"),
                              (bt.PORT, None, None, None, 6881, b"")])
            self.assertEqual([it.event for it in heard[1]], [0, bt.Event.REQUESTED, bt.Event.PIECE, 0])
            self.assertRaisesRegex(ValueError, "would refuse", one.say, bt.HAVE, 9)
            self.assertRaisesRegex(ValueError, "doesn't say", one.say, bt.HANDSHAKE)
            self.assertRaises(ValueError, one.say, bt.HAVE, -1)

    def test_a_refusal_comes_again(self):
        end = bt.End(OWN)
        for data in (b"\x13BitTorrent protocoX", b"", b"x"):
            with self.assertRaises(bt.Refused) as caught:
                list(end.receive(data))
            self.assertEqual((caught.exception.message, caught.exception.at, caught.exception.name), (0, 19, "BadProtocol"))
        end.reset()
        hello = list(end.receive(bt.handshake(INFO_HASH, PEER, 0)))
        self.assertEqual([(it.event, it.item.start) for it in hello], [(bt.Event.OPENED, 0)])

    def test_what_is_not_taken_comes_later(self):
        end = bt.End(OWN)
        for heard in end.receive(bt.handshake(INFO_HASH, PEER, 0) + bytes(8)):
            break
        self.assertEqual([it.item.start for it in end.receive(bytes(4))], [68, 72, 76])

    def test_what_does_not_fit(self):
        for call in (lambda: bt.End(bt.Own()), lambda: bt.End(bt.Own(info_hash=INFO_HASH, limit=32767)), lambda: bt.End(OWN, serve=b""),
                     lambda: bt.End(OWN, fetch=True, serve=METADATA), lambda: bt.End(OWN, window=0), lambda: bt.End(OWN, window=9),
                     lambda: bt.End(OWN, announce=3), lambda: bt.End(OWN, peer_id=b"x"), lambda: bt.End(OWN, fetch=True, most=0),
                     lambda: bt.End(OWN, most=-1), lambda: bt.End(OWN, fetch=True).set_window(0)):
            self.assertRaises(ValueError, call)
        for call in (lambda: bt.End(OWN, serve=5), lambda: bt.End(OWN).receive(5), lambda: bt.End(OWN).receive(array.array("I", [1]))):
            self.assertRaises(TypeError, call)

    def test_a_closed_end(self):
        with bt.End(OWN) as end:
            pass
        for call in (lambda: end.receive(b""), end.take, lambda: end.metadata, end.reset, lambda: end.say(bt.HAVE, 1), lambda: end.progress):
            self.assertRaisesRegex(ValueError, "closed", call)
        end.close()

    def test_another_thread(self):
        end, caught = bt.End(OWN), []

        def use():
            try:
                end.take()
            except RuntimeError as error:
                caught.append(str(error))

        thread = threading.Thread(target=use)
        thread.start()
        thread.join()
        self.assertEqual(caught, ["an end is used by the thread that made it"])


if __name__ == "__main__":
    unittest.main(argv=sys.argv[:1], verbosity=0)
