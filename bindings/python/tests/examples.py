#!/usr/bin/env python3
"""Tests examples/python, each as a program. usage: examples.py"""
import hashlib
import os
import subprocess
import sys
import tempfile
import unittest

HERE = os.path.dirname(os.path.abspath(__file__))
sys.path.insert(0, HERE)
import ends
from ends import INFO_HASH, METADATA, bt

EXAMPLES = os.path.join(ends.EXAMPLES, "python")
TESTED = set()


def words(name, *more):
    TESTED.add(name)
    return [sys.executable, "-B", os.path.join(EXAMPLES, name), *more]


def stream(name):
    return os.path.join(ends.EXAMPLES, name + ".bin")


class Examples(unittest.TestCase):
    def ran(self, command, given=b"", status=0):
        done = subprocess.run(command, input=given, capture_output=True, timeout=60)
        self.assertEqual(done.returncode, status, done.stderr)
        return done.stdout

    def test_show(self):
        said = self.ran(words("show.py", stream("first"))).decode().splitlines()
        self.assertEqual([line.split()[:2] for line in said], [["0", "handshake"], ["68", "keep-alive"], ["72", "have"], ["ok", "messages=2"]])

    def test_events(self):
        said = self.ran(words("events.py", "a9993e364706816aba3e25717850c26c9cd0d89d", stream("first"))).decode().splitlines()
        self.assertEqual([line.split()[:3] for line in said[:3]],
                         [["0", "handshake", "OPENED"], ["68", "keep-alive", "OTHER"], ["72", "have", "OTHER"]])

    def test_fetch(self):
        with ends.Peer() as address:
            self.assertEqual(self.ran(words("fetch.py", INFO_HASH.hex(), address)), METADATA)

    def test_write(self):
        """The id for ut_metadata of serving.bin is 2; the bytes are those of BEP 3, BEP 10 and BEP 9."""
        with open(stream("serving"), "rb") as file:
            peer = file.read()
        wanted = (b"\x13BitTorrent protocol" + (0x100005).to_bytes(8, "big") + peer[28:48] + b"-XX0001-writewritewr"
                  + b"\0\0\0\x1a\x14\x00d1:md11:ut_metadatai3eee" + b"\0\0\0\x1b\x14\x02d8:msg_typei0e5:piecei0ee")
        self.assertEqual(self.ran(words("write.py"), peer), wanted)
        # without the Extension Protocol the handshake only; and what came before a refusal
        plain = peer[:20] + bytes(8) + peer[28:68]
        self.assertEqual(self.ran(words("write.py"), plain), wanted[:68])
        self.assertEqual(self.ran(words("write.py"), plain + b"\xff\xff\xff\xff", 1), wanted[:68])

    def test_serve(self):
        # one of more than 1 MiB, since an end handles no requests while so much waits
        for metadata in (METADATA, bytes(range(256)) * 8192):
            with tempfile.NamedTemporaryFile() as file:
                file.write(metadata)
                file.flush()
                server = subprocess.Popen(words("serve.py", file.name), stdout=subprocess.PIPE)
                try:
                    digits, address = server.stdout.readline().decode().split()
                    self.assertEqual(digits, hashlib.sha1(metadata).hexdigest())
                    self.assertEqual(bt.fetch(address, bytes.fromhex(digits)), metadata)
                    blocks = -(-len(metadata) // 16384)
                    self.assertRegex(server.stdout.readline().decode(), "^127.0.0.1:[0-9]+ %d blocks$" % blocks)
                    self.assertEqual(self.asked_at_once(address, bytes.fromhex(digits), blocks), metadata)
                    server.stdout.readline()
                    self.assertRaises(OSError, bt.fetch, address, bytes(20), timeout=20)
                    self.assertIn("message 0 refused at byte 28: WrongInfoHash", server.stdout.readline().decode())
                    self.assertEqual(bt.fetch(address, bytes.fromhex(digits)), metadata)
                finally:
                    server.kill()
                    server.communicate()

    def asked_at_once(self, address, info_hash, blocks):
        """Asks for all blocks before it reads one."""
        import socket
        host, port = address.split(":")
        own = bt.Own(info_hash=info_hash)
        with socket.create_connection((host, int(port)), 20) as sock:
            sock.sendall(bt.handshake(info_hash, ends.PEER, own.reserved))
            found, asked = [], False
            for item in bt.stream(sock, own):
                if item.id == bt.HANDSHAKE:
                    writer = bt.Writer(own, item.reserved)
                    sock.sendall(writer.extended_handshake(own.metadata_id))
                elif item.kind == bt.EXT_HANDSHAKE and not asked:
                    writer.hear(item)
                    sock.sendall(b"".join(map(writer.metadata_request, range(blocks))))
                    asked = True
                elif item.kind == bt.METADATA_DATA:
                    found.append(item.rest)
                if len(found) == blocks:
                    return b"".join(found)

    def test_z_each_one(self):
        self.assertEqual(TESTED, {name for name in os.listdir(EXAMPLES) if name.endswith(".py")})


if __name__ == "__main__":
    unittest.main(argv=sys.argv[:1], verbosity=0)
