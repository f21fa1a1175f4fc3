#!/usr/bin/env python3
"""Tests bt.fetch from several peers: who wins, who doesn't stop it, which blocks stay, and what is told. usage: many.py"""
import collections
import contextlib
import os
import socket
import sys
import threading
import time
import unittest

HERE = os.path.dirname(os.path.abspath(__file__))
sys.path.insert(0, HERE)
import ends
from ends import FAILS, INFO_HASH, METADATA, bt


class Server(ends.Peer):
    """A peer that takes any number of connections, one after another or at the same time, and notes what it is asked."""

    def __init__(self, broken="", metadata=METADATA, blocks=None):
        super().__init__(broken)
        self.metadata, self.blocks, self.asked = metadata, blocks, []
        self.open, self.most, self.count, self.lock = 0, 0, 0, threading.Lock()

    def __exit__(self, *_):
        # (it wakes `accept`)
        self.listener.shutdown(socket.SHUT_RDWR)
        super().__exit__()

    def serve(self):
        while True:
            try:
                sock, _ = self.listener.accept()
            except OSError:
                return
            threading.Thread(target=self.one, args=(sock,), daemon=True).start()

    def one(self, sock):
        with self.lock:
            self.count += 1
        try:
            with sock:
                sock.settimeout(20)
                self.talk(sock)
                sock.shutdown(socket.SHUT_WR)
                while sock.recv(65536):
                    pass
        except OSError:
            pass

    def answer(self, sock, piece):
        self.asked.append(piece)
        # it closes the connection when it is asked for more blocks than it gives
        if self.blocks is not None and piece not in self.blocks:
            raise OSError("no more")
        super().answer(sock, piece)


def served(*servers):
    """The addresses of these servers while they run."""
    stack = contextlib.ExitStack()
    return stack, [stack.enter_context(server) for server in servers]


def nobody(case):
    """An address where nobody listens, and which no other socket takes while the case runs."""
    kept = socket.socket()
    case.addCleanup(kept.close)
    kept.bind(("127.0.0.1", 0))
    return "127.0.0.1:%d" % kept.getsockname()[1]


# The peers that break a rule and don't stay silent.
LIARS = {name: (kind, text) for name, (kind, text) in FAILS.items() if kind is not TimeoutError and text}


class Winners(unittest.TestCase):
    def test_liars_do_not_stop_it(self):
        told, closed = [], nobody(self)
        stack, addresses = served(*map(Server, LIARS), Server())
        with stack:
            found = bt.fetch(addresses[0], INFO_HASH, peers=[closed, *addresses[1:]], most=50000, at_once=3,
                             failed=lambda *words: told.append(words))
        self.assertEqual(found, METADATA)
        heard = {name for name, _ in told}
        self.assertLessEqual(heard, {closed, *addresses[:-1]})
        self.assertGreaterEqual(len(heard), len(LIARS) - 1)  # (two other places may have one when the metadata is there)

    def test_each_failure_is_told(self):
        stack, addresses = served(*map(Server, LIARS))
        with stack, self.assertRaisesRegex(bt.FetchError, "^no peer gave the metadata: 127.0.0.1:") as caught:
            bt.fetch(None, INFO_HASH, peers=addresses, most=50000)
        failures = caught.exception.failures
        self.assertEqual(collections.Counter(name for name, _ in failures), dict.fromkeys(addresses, 2))
        for address, (broken, (kind, text)) in zip(addresses, LIARS.items()):
            for why in [why for name, why in failures if name == address]:
                with self.subTest(broken):
                    self.assertIsInstance(why, kind)
                    self.assertIn(text, str(why))
                    self.assertIn("%s: %s" % (address, why), str(caught.exception))

    def test_who_is_not_reached(self):
        address, host = nobody(self), ("no-such-host.invalid", 1)
        with self.assertRaises(bt.FetchError) as caught:
            bt.fetch(address, INFO_HASH, peers=[host])
        self.assertEqual([(name, type(why)) for name, why in caught.exception.failures],
                         [(host, socket.gaierror), (address, ConnectionRefusedError), (address, ConnectionRefusedError)])
        self.assertIn("no-such-host.invalid:1: ", str(caught.exception))

    def test_from_one_and_from_none(self):
        with Server() as address:
            host, port = address.split(":")
            self.assertEqual(bt.fetch(None, INFO_HASH, peers=[(host, int(port))]), METADATA)
        self.assertRaisesRegex(bt.FetchError, "there are none", bt.fetch, None, INFO_HASH, peers=[])

    def test_by_the_name_of_a_host(self):
        with Server() as address:
            self.assertEqual(bt.fetch(address.replace("127.0.0.1", "localhost"), INFO_HASH, peers=[]), METADATA)

    def test_bytes_one_by_one(self):
        for broken in ends.RIGHT:
            with self.subTest(broken), Server(broken) as address:
                self.assertEqual(bt.fetch(None, INFO_HASH, peers=[nobody(self), address]), METADATA)

    def test_what_does_not_fit(self):
        address = "127.0.0.1:1"
        for kind, call in ((ValueError, lambda: bt.fetch(None, INFO_HASH)), (TypeError, lambda: bt.fetch(None, INFO_HASH, peers=address)),
                           (ValueError, lambda: bt.fetch(None, INFO_HASH, peers=[address, "127.0.0.1"])),
                           (TypeError, lambda: bt.fetch(None, INFO_HASH, peers=[5])),
                           (ValueError, lambda: bt.fetch(address, INFO_HASH, peers=[], at_once=0)),
                           (ValueError, lambda: bt.fetch(address, INFO_HASH, peers=[], at_once=257)),
                           (ValueError, lambda: bt.fetch(address, INFO_HASH, peers=[], patience=0)),
                           (ValueError, lambda: bt.fetch(address, INFO_HASH, peers=[], most=0)),
                           (ValueError, lambda: bt.fetch(address, b"short", peers=[]))):
            self.assertRaises(kind, call)


class Turns(unittest.TestCase):
    """As `bt_tool fetch` does it: docs/FETCH.md has the rules."""

    def test_the_silent_give_up_their_places(self):
        """Two places, four silent peers before the right one: each takes a place for half a second."""
        told, began = [], time.monotonic()
        stack, addresses = served(*(Server("no answer") for _ in range(4)), Server())
        with stack:
            found = bt.fetch(None, INFO_HASH, peers=addresses, at_once=2, failed=lambda *words: told.append(words))
        self.assertEqual(found, METADATA)
        self.assertTrue(0.9 < time.monotonic() - began < 8)
        self.assertLessEqual({name for name, _ in told}, {*addresses[:4]})
        self.assertGreaterEqual(len(told), 3)
        for _, why in told:
            self.assertIsInstance(why, TimeoutError)
            self.assertIn("another took its place", str(why))

    def test_patience(self):
        """If no address waits that wasn't dialled, a silent peer keeps its place for the patience; and it comes again once."""
        began = time.monotonic()
        with Server("no answer") as address, self.assertRaises(bt.FetchError) as caught:
            bt.fetch(None, INFO_HASH, peers=[address], patience=1)
        self.assertTrue(2 <= time.monotonic() - began < 8)
        self.assertEqual([(name, str(why)) for name, why in caught.exception.failures],
                         [(address, "the peer made no progress for 1 seconds")] * 2)

    def test_who_announces_nothing(self):
        for broken, text in (("no extended handshake", "made no progress"), ("no size", "announced no id for ut_metadata, or no size")):
            server = Server(broken)
            if broken == "no size":
                server.extended = lambda number, payload: ends.Peer.extended(server, number, b"d1:md11:ut_metadatai9eee")
            with self.subTest(broken), server as address, self.assertRaises(bt.FetchError) as caught:
                bt.fetch(None, INFO_HASH, peers=[address], patience=0.5)
            self.assertIn(text, str(caught.exception.failures[0][1]))

    def test_the_time_is_over(self):
        began = time.monotonic()
        with Server("no answer") as address, self.assertRaises(bt.FetchError) as caught:
            bt.fetch(None, INFO_HASH, timeout=1, peers=[address])
        self.assertTrue(1 <= time.monotonic() - began < 6)
        self.assertEqual([(name, type(why), str(why)) for name, why in caught.exception.failures],
                         [(address, TimeoutError, "the peer didn't give the metadata in time")])

    def test_the_blocks_of_a_place_stay(self):
        one, two = Server(blocks=[0, 1]), Server()
        stack, addresses = served(one, two)
        with stack:
            self.assertEqual(bt.fetch(None, INFO_HASH, peers=addresses, at_once=1), METADATA)
        self.assertEqual((sorted(one.asked), two.asked), ([0, 1, 2], [2]))

    def test_blocks_of_a_liar(self):
        """The blocks of a place are those of two peers, one of whom lies: the right one is asked for all once more."""
        liar, two = Server("another metadata", blocks=[0]), Server()
        stack, addresses = served(liar, two)
        with stack:
            self.assertEqual(bt.fetch(None, INFO_HASH, peers=addresses, at_once=1), METADATA)
        self.assertEqual(sorted(two.asked), [0, 1, 1, 2, 2])

    def test_another_size(self):
        """The blocks that are held are those of another size: they are dropped."""
        one, two = Server(metadata=METADATA + bytes(20000), blocks=[0]), Server()
        stack, addresses = served(one, two)
        with stack:
            self.assertEqual(bt.fetch(None, INFO_HASH, peers=addresses, at_once=1), METADATA)
        self.assertEqual(sorted(two.asked), [0, 1, 2])

    def test_one_block_at_a_time_when_it_comes_again(self):
        """The first connection closes after the requests; the second one asks for a block at a time."""
        server = Server(blocks=[])
        with server as address, self.assertRaises(bt.FetchError):
            bt.fetch(None, INFO_HASH, peers=[address])
        self.assertEqual((server.count, server.asked), (2, [0, 0]))
        silent = Server("no answer")
        with silent as address, self.assertRaises(bt.FetchError):
            bt.fetch(None, INFO_HASH, peers=[address], patience=0.6)
        self.assertEqual((silent.count, silent.asked), (2, [0, 1, 2, 0]))

    def test_as_many_at_once_as_may_be(self):
        """No silent peer has given up its place by then."""
        servers = [Server("no answer") for _ in range(6)]
        stack, addresses = served(*servers)
        with stack, self.assertRaises(bt.FetchError) as caught:
            bt.fetch(None, INFO_HASH, timeout=0.4, peers=addresses, at_once=3)
        self.assertEqual([server.count for server in servers], [1, 1, 1, 0, 0, 0])
        self.assertEqual([name for name, _ in caught.exception.failures], addresses[:3])

    def test_a_block_of_a_piece(self):
        class Sends(Server):
            def answer(self, sock, piece):
                self.send(sock, b"\0\0\0\x0a\x07" + bytes(8) + b"x")

        with Sends() as address, self.assertRaises(bt.FetchError) as caught:
            bt.fetch(None, INFO_HASH, peers=[address])
        self.assertIn("a block of a piece", str(caught.exception.failures[0][1]))

    def test_what_failed_raises_ends_it(self):
        def failed(name, why):
            raise KeyError(name)

        address = nobody(self)
        with self.assertRaises(KeyError):
            bt.fetch(None, INFO_HASH, peers=[address], failed=failed)


if __name__ == "__main__":
    unittest.main(argv=sys.argv[:1], verbosity=0)
