#!/usr/bin/env python3
"""A small BitTorrent client for the tests of tools/peertest: right in every case, or with one rule broken.

usage: tests/standin.py MODE TORRENT IP:PORT [BROKEN]         listens there
       tests/standin.py magnet TORRENT --dial IP:PORT OUT [BROKEN]

MODE is seed, leech or magnet: it has all pieces, none, or the info hash alone. It reads the wire by code of its own, which shares
nothing with the proved reader. Each rule has a name where it is kept, by the method `keeps`; the client whose BROKEN it is doesn't
keep it.
"""
import hashlib
import os
import re
import select
import socket
import struct
import sys
import threading
import time

sys.dont_write_bytecode = True
sys.path.insert(0, os.path.join(os.path.dirname(os.path.dirname(os.path.abspath(__file__))), "tools"))
from peertest_lib.torrent import Torrent, encode  # noqa: E402

PROTOCOL = b"\x13BitTorrent protocol"
FAST, EXTENSIONS = 0x4, 0x100000
LIMIT = 262144
BLOCK = 16384
UM, DONT = 2, 6
LENGTHS = {0: 1, 1: 1, 2: 1, 3: 1, 4: 5, 6: 13, 8: 13, 9: 3, 13: 5, 14: 1, 15: 1, 16: 13, 17: 5}
FAST_IDS = (13, 14, 15, 16, 17)
NOT_COUNTED = (9, 20)
QUESTION = b"d8:msg_typei0e5:piecei0ee"


class Close(Exception):
    """The connection ends here."""


def strict(data, at=0, depth=0):
    """A bencoded value and its end. Raises Close for what isn't one."""
    first = data[at:at + 1]
    if depth > 31 or not first:
        raise Close
    if first == b"i":
        found = re.compile(rb"i(0|-?[1-9][0-9]*)e").match(data, at)
        if not found:
            raise Close
        return (int(found[1]) if len(found[1]) < 4000 else 10 ** 4000), found.end()
    if first in b"ld":
        at, values = at + 1, []
        while data[at:at + 1] != b"e":
            value, at = strict(data, at, depth + 1)
            if first == b"d" and len(values) % 2 == 0 and not isinstance(value, bytes):
                raise Close
            values.append(value)
        if first == b"l":
            return values, at + 1
        if len(values) % 2:
            raise Close
        pairs = {}
        for key, value in zip(values[::2], values[1::2]):
            pairs.setdefault(key, value)
        return pairs, at + 1
    found = re.compile(rb"(0|[1-9][0-9]{0,6}):").match(data, at)
    if not found or found.end() + int(found[1]) > len(data):
        raise Close
    return data[found.end():found.end() + int(found[1])], found.end() + int(found[1])


def dictionary(data):
    value, end = strict(data)
    if not isinstance(value, dict):
        raise Close
    return value, data[end:]


def message(number, fields=b""):
    return struct.pack(">IB", len(fields) + 1, number) + fields


class Connection:
    """One connection, in a thread of its own."""

    def __init__(self, client, end):
        self.client, self.torrent, self.mode, self.keeps, self.end = client, client.torrent, client.mode, client.keeps, end
        self.buffer, self.both, self.past, self.deaf = b"", 0, False, False
        self.choking, self.choked, self.interested, self.served = True, True, False, 0
        self.ids, self.size, self.have, self.handshakes, self.seen = {}, None, set(), 0, {}
        self.asked, self.rejected, self.blocks, self.metadata_asked, self.metadata = [], set(), {}, [], {}
        self.answered = 0.0

    def send(self, data):
        self.end.sendall(data)

    def hold(self):
        while self.end.recv(65536):
            pass
        raise Close

    def read(self):
        data = self.end.recv(65536)
        if not data:
            if not self.keeps("an end that nobody answers is closed"):
                time.sleep(4)
            raise Close
        self.buffer += data

    # The handshake.

    def greeting(self):
        reserved = FAST | EXTENSIONS
        self.send(PROTOCOL + struct.pack(">Q", reserved) + self.torrent.hash + b"-SI0001-" + b"%012d" % self.client.number())

    def handshake(self, dials=False):
        loud = dials or not self.keeps("nothing before the info hash")
        if not self.keeps("the handshake is first"):
            self.send(message(14))
        if loud:
            self.greeting()
        self.read()
        if len(self.buffer) < 68 and not self.keeps("a handshake may be cut"):
            raise Close
        while len(self.buffer) < 48:
            if self.buffer[:20] != PROTOCOL[:len(self.buffer)]:
                break
            self.read()
        if self.buffer[:20] != PROTOCOL:
            self.refuse("another protocol is closed")
        if self.buffer[28:48] != self.torrent.hash:
            self.refuse("another info hash is closed")
        if not loud:
            self.greeting()
        if len(self.buffer) < 68 and not self.keeps("own bytes are right"):
            self.send(message(99))
        while len(self.buffer) < 68:
            self.read()
        head, self.buffer = self.buffer[:68], self.buffer[68:]
        if self.buffer and not dials and not self.keeps("messages may follow at once"):
            raise Close
        reserved, = struct.unpack(">Q", head[20:28])
        if reserved & ~(FAST | EXTENSIONS | 1) and not self.keeps("reserved bits are no matter"):
            raise Close
        if head[48:] == bytes(20) and not self.keeps("a peer id may be anything"):
            raise Close
        self.both = reserved & (FAST | EXTENSIONS)

    def refuse(self, name):
        if self.keeps(name):
            raise Close
        self.hold()

    def introduce(self):
        """What comes after both handshakes."""
        if self.both & FAST or not self.keeps("no Fast message without the extension"):
            if self.keeps("the first message says the pieces"):
                self.send(message(14 if self.mode == "seed" else 15))
            if self.mode == "seed" and self.both & FAST:
                self.send(message(17, struct.pack(">I", 5)))
        elif self.mode == "seed":
            bits = bytearray(b"\xff" * -(-self.torrent.pieces // 8))
            bits[-1] = 0xff << -self.torrent.pieces % 8 & 0xff
            self.send(message(5, bytes(bits)))
        if (self.both & EXTENSIONS and self.keeps("the extended handshake comes by itself")
                or not self.keeps("no extended message without the protocol")):
            self.extended_handshake()
        if self.mode == "leech" and not self.keeps("interest is true"):
            self.send(message(2))

    def extended_handshake(self):
        told = {b"m": {b"lt_donthave": DONT, b"ut_metadata": UM}, b"reqq": 2500, b"v": b"standin"}
        if self.mode != "magnet":
            told[b"metadata_size"] = len(self.torrent.info)
        self.send(message(20, b"\0" + encode(told)))

    def run(self, dials=False):
        self.handshake(dials)
        self.introduce()
        while True:
            self.messages()
            self.read()

    def messages(self):
        """Takes the whole messages of the buffer."""
        at, count = 0, 0
        while len(self.buffer) - at >= 4:
            length, = struct.unpack_from(">I", self.buffer, at)
            if length > LIMIT:
                self.odd()
                if not self.deaf and self.keeps("a length has a limit"):
                    raise Close
            if length > 10000 and not self.keeps("messages may be long"):
                raise Close
            if len(self.buffer) - at < 4 + length:
                break
            body, at, count = self.buffer[at + 4:at + 4 + length], at + 4 + length, count + 1
            if length <= LIMIT:
                self.take(body)
        self.buffer = self.buffer[at:]
        if self.buffer and not self.keeps("messages may be cut"):
            raise Close
        if count > 90 and not self.keeps("one read may have many messages"):
            raise Close

    # Messages.

    def is_question(self, body):
        """Whether it is of the suite's opening or its last question, so that it has nothing odd."""
        last = self.torrent.pieces - 1
        first = b"\x0f" if self.mode == "seed" else b"\x0e\x0f"
        questions = b"\x14\x02" + QUESTION, b"\x06" + struct.pack(">III", last, 1024, 512)
        return (not body or body[:1] in first and len(body) == 1 and not self.past or b"peertest" in body[:200]
                or body in questions or body == b"\x02" and (self.past or not self.both & FAST))

    def odd(self):
        """What three broken clients do at a message that isn't of the opening."""
        if not self.keeps("own bytes are right"):
            self.send(message(99))
        if not self.keeps("questions are answered after it"):
            self.deaf = True
        if not self.keeps("it lives on"):
            self.client.die()

    def counted(self, name):
        """How often this came."""
        self.seen[name] = self.seen.get(name, 0) + 1
        return self.seen[name]

    def take(self, body):
        if not self.is_question(body):
            self.odd()
        if self.deaf:
            return
        if not body:
            self.keep_alive()
            return
        number, fields = body[0], body[1:]
        if not self.judge(number, body):
            return
        if number not in NOT_COUNTED:
            self.past = True
        handler = HANDLERS.get(number)
        if handler:
            handler(self, number, fields)

    def keep_alive(self):
        if self.mode == "seed" and self.counted("keep-alive") >= 500 and not self.keeps("keep-alives may be many"):
            raise Close
        if not self.keeps("a keep-alive is ignored") or not self.past and not self.keeps("a keep-alive may be first"):
            raise Close

    def judge(self, number, body):
        """Raises Close for what no peer may send. Says whether the message counts."""
        if number in FAST_IDS and not self.both & FAST:
            return self.ignores("no Fast message is taken without it")
        if number == 20 and not self.both & EXTENSIONS:
            raise Close
        if LENGTHS.get(number, len(body)) != len(body) or number == 7 and len(body) < 9 or number == 20 and len(body) < 2:
            return self.ignores("a wrong length is closed")
        if number in (0, 1, 2, 3, 4, 8) and not self.keeps("right messages are taken"):
            raise Close
        if number in (5, 14, 15) and self.past:
            return self.ignores("a bitfield is first" if number == 5 else "have all and have none are first")
        if not self.past and number not in (5, 14, 15) + NOT_COUNTED and number < 20:
            if self.both & FAST or number == 3 and not self.keeps("a bitfield may be left out"):
                raise Close
        if number == 5:
            self.judge_bitfield(body[1:])
        return True

    def ignores(self, name):
        """Raises Close, or says that the message doesn't count."""
        if self.keeps(name):
            raise Close
        return False

    def judge_bitfield(self, bits):
        count = self.torrent.pieces
        if self.mode != "magnet" and len(bits) != -(-count // 8) and self.keeps("a bitfield has its length"):
            raise Close
        if bits and len(bits) == -(-count // 8) and bits[-1] & (1 << -count % 8) - 1 and self.keeps("spare bits are zero"):
            raise Close
        if any(bits) and not self.keeps("a bitfield may have pieces") or not any(bits) and not self.keeps("a bitfield may be empty"):
            raise Close

    def on_choke(self, number, fields):
        if self.counted("choke") > 50 and not self.keeps("choke may change"):
            raise Close
        self.choked = number == 0
        if self.choked and not (self.both & FAST and self.keeps("choke keeps requests")):
            self.asked = []
        if not self.choked:
            self.ask()

    def on_interest(self, number, fields):
        if self.counted("interest") > 100 and not self.keeps("interest may change"):
            raise Close
        if number == 2 and self.mode == "seed" and self.choking and self.keeps("an interested peer is unchoked"):
            self.choking = False
            self.send(message(1))

    def on_have(self, number, fields):
        index, = struct.unpack(">I", fields[:4])
        count = self.counted("have")
        if index >= self.torrent.pieces and self.keeps("an index is inside the torrent"):
            raise Close
        if index in self.have and not self.keeps("a have may come again") or not self.keeps("a have is taken"):
            raise Close
        if count > 1000 and not self.keeps("haves may be many"):
            raise Close
        self.have.add(index)
        self.interest()

    def on_pieces(self, number, fields):
        if number == 14:
            self.have = set(range(self.torrent.pieces))
        if number == 5:
            self.have = {index for index in range(self.torrent.pieces) if fields[index // 8:index // 8 + 1] and
                         fields[index // 8] >> 7 - index % 8 & 1}
        self.interest()

    def interest(self):
        if self.mode == "leech" and self.have and not self.interested and self.keeps("interest is told"):
            self.interested = True
            self.send(message(2))
            if not self.keeps("nothing is asked for while choked"):
                self.send(message(6, struct.pack(">III", 0, 0, BLOCK)))

    def on_request(self, number, fields):
        if len(fields) < 12:
            return
        index, begin, length = struct.unpack(">III", fields[:12])
        self.served += 1
        if not self.keeps("many requests are answered") and self.served > 50:
            return
        if not self.keeps("each request is answered") and (fields[:12] in self.seen):
            return
        self.seen[fields[:12]] = 1
        allowed = index == 5 and self.both & FAST and self.keeps("the allowed fast set is given")
        if self.mode != "seed" or self.choking and not allowed:
            self.answer_choked(fields[:12], index, begin, length)
        elif self.wants_block(index, begin, length):
            self.block(index, begin, length)
        elif self.both & FAST:
            self.send(message(16, fields[:12]))
        else:
            raise Close

    def wants_block(self, index, begin, length):
        """Whether a request is answered by a block."""
        if index >= self.torrent.pieces or begin + length > self.torrent.length(index):
            return not self.keeps("a request beyond the torrent gets no block")
        if length > BLOCK:
            return not self.keeps("a request is of 16 KiB at most")
        if length == 0:
            return not self.keeps("an empty request isn't answered by a block")
        if length < 16:
            return self.keeps("small blocks are given")
        # (the suite's last question is for 512 bytes)
        return index < self.torrent.pieces - 1 or length == 512 or self.keeps("the last block is given")

    def block(self, index, begin, length):
        data = self.torrent.block(index, begin, length)
        if not self.keeps("blocks are right"):
            data = bytes([data[0] ^ 1]) + data[1:] if data else data
        self.send(message(7, struct.pack(">II", index, begin) + data))

    def answer_choked(self, fields, index, begin, length):
        if self.both & FAST:
            if self.keeps("a choked request is rejected"):
                self.send(message(16, fields))
        elif not self.keeps("no block goes to a choked peer"):
            self.block(index, begin, length)
        elif not self.keeps("no reject without the Fast Extension"):
            self.send(message(16, fields))

    def on_cancel(self, number, fields):
        if fields[:12] not in self.seen and not self.keeps("a cancel may come too late"):
            raise Close
        if fields[:12] in self.seen and not self.keeps("a cancelled request has one response"):
            self.send(message(16, fields[:12]))

    # Blocks for this client.

    def ask(self):
        """Asks for blocks, up to four at once."""
        if self.mode != "leech" or self.choked or not self.have:
            return
        size = BLOCK if self.keeps("requests are of 16 KiB") else 2 * BLOCK
        wanted = sorted(self.have - self.client.pieces)
        missing = [(index, begin) for index in wanted for begin in range(0, self.torrent.length(index), size)]
        for index, begin in missing:
            block = index, begin, min(size, self.torrent.length(index) - begin)
            if len(self.asked) < 4 and block not in self.asked and block not in self.rejected and block[:2] not in self.blocks:
                self.asked.append(block)
                self.send(message(6, struct.pack(">III", *block)))

    def on_piece(self, number, fields):
        if len(fields) < 8:
            return
        index, begin = struct.unpack(">II", fields[:8])
        block = index, begin, len(fields) - 8
        if block not in self.asked:
            if self.mode != "magnet" and not self.both & FAST:
                outside = index >= self.torrent.pieces or begin + block[2] > self.torrent.piece
                if outside and self.keeps("a block beyond the torrent is closed"):
                    raise Close
            elif self.both & FAST and self.keeps("a block that wasn't asked for is closed"):
                raise Close
            return
        if not self.keeps("blocks are taken"):
            raise Close
        self.asked.remove(block)
        self.blocks[index, begin] = fields[8:]
        begins = range(0, self.torrent.length(index), BLOCK)
        if all((index, at) in self.blocks for at in begins):
            data = b"".join(self.blocks.pop((index, at)) for at in begins)
            if hashlib.sha1(data).digest() == self.torrent.hashes[20 * index:20 * index + 20]:
                self.client.pieces.add(index)
            elif self.keeps("a false piece is closed"):
                raise Close
        self.ask()

    def on_reject(self, number, fields):
        block = struct.unpack(">III", fields[:12])
        if block not in self.asked:
            if self.keeps("a reject of nothing is closed"):
                raise Close
            return
        self.asked.remove(block)
        if self.keeps("what is rejected isn't asked for at once"):
            self.rejected.add(block)
        self.ask()

    def on_advice(self, number, fields):
        index, = struct.unpack(">I", fields[:4])
        if index >= self.torrent.pieces:
            raise Close
        if number == 13 and not self.keeps("a suggestion is taken") or number == 17 and not self.keeps("allowed fast is taken"):
            raise Close
        if self.counted("advice") > 1000 and not self.keeps("advice may be long"):
            raise Close
        if number == 17 and self.mode == "leech" and not self.keeps("only the allowed piece is asked for"):
            self.send(message(6, struct.pack(">III", 6, 0, BLOCK)))

    def on_port(self, number, fields):
        if not self.keeps("a port message is taken"):
            raise Close

    # Extended messages.

    def on_extended(self, number, fields):
        if not fields:
            return
        if fields[0] == 0:
            self.on_extended_handshake(fields[1:])
        elif fields[0] == UM:
            self.on_metadata(fields[1:])
        elif fields[0] == DONT:
            if len(fields) != 5 or struct.unpack(">I", fields[1:])[0] >= self.torrent.pieces:
                raise Close

    def on_extended_handshake(self, payload):
        self.handshakes += 1
        if payload == b"de" and not self.keeps("each item is optional"):
            raise Close
        if self.handshakes > 2 and not self.keeps("it may come again"):
            raise Close
        if self.handshakes > 100 and not self.keeps("it may come often"):
            raise Close
        if not self.keeps("integers have any size") and re.search(rb"i[0-9]{19,}e", payload):
            raise Close
        pairs, _ = dictionary(payload)
        names = pairs.get(b"m", {})
        names = names if isinstance(names, dict) else {}
        if (set(pairs) | set(names)) & {b"a", b"foobar"} and not self.keeps("unknown names are ignored"):
            raise Close
        if not self.keeps("names are added"):
            self.ids = {}
        before = self.ids.get(b"ut_metadata")
        self.ids.update({name: number for name, number in names.items() if isinstance(number, int) and 0 <= number < 256})
        if before and not self.ids.get(b"ut_metadata", 0) and b"ut_metadata" in names and not self.keeps("the id 0 switches off"):
            self.ids[b"ut_metadata"] = before
        if before and not self.keeps("ids may change"):
            self.ids[b"ut_metadata"] = before
        size = pairs.get(b"metadata_size")
        fits = isinstance(size, int) and 0 < size <= 1 << 26
        if self.mode == "magnet" and fits and self.ids.get(b"ut_metadata") and self.size is None:
            self.size = size
            self.ask_metadata()

    def metadata_message(self, kind, piece, rest=b"", total=None):
        number = self.ids.get(b"ut_metadata", 0)
        if not number and self.keeps("no answer without an id") or self.handshakes and not number:
            return
        pairs = {b"msg_type": kind, b"piece": piece}
        if total is not None:
            pairs[b"total_size"] = total
        self.send(message(20, bytes([number or 3]) + encode(pairs) + rest))

    def on_metadata(self, payload):
        try:
            pairs, rest = dictionary(payload)
        except Close:
            pairs, rest = {}, b""
        kind, piece = pairs.get(b"msg_type"), pairs.get(b"piece")
        if not isinstance(kind, int) or not isinstance(piece, int):
            if not self.keeps("a broken message is ignored"):
                raise Close
            return
        if kind == 0:
            self.on_metadata_request(piece, pairs, rest)
        elif kind == 1:
            self.on_metadata_data(piece, pairs.get(b"total_size"), rest)
        elif kind == 2:
            self.on_metadata_reject(piece)
        elif not self.keeps("an unknown type is ignored"):
            raise Close

    def on_metadata_request(self, piece, pairs, rest):
        if rest and not self.keeps("bytes after it are no matter") or len(pairs) > 2 and not self.keeps("further keys are no matter"):
            return
        self.served += 1
        if not self.keeps("metadata is given"):
            return
        if self.served > 100 and not self.keeps("many metadata requests are answered"):
            return
        if self.mode == "magnet" and not self.client.metadata:
            if self.keeps("without metadata a request is rejected"):
                self.metadata_message(2, piece)
            return
        since, self.answered = time.monotonic() - self.answered, time.monotonic()
        if since < 0.1 and not self.keeps("two requests have two answers"):
            return
        inside = 0 <= piece < self.torrent.blocks()
        if not inside and not self.keeps("a block that isn't there is rejected"):
            self.metadata_message(1, 0, self.torrent.metadata(0), len(self.torrent.info))
        elif not inside:
            self.metadata_message(2, piece)
        else:
            data = self.torrent.metadata(piece)
            if piece and not self.keeps("the last block is as long as it is"):
                data = data.ljust(BLOCK, b"\0")
            self.metadata_message(1, piece, data, len(self.torrent.info))

    def ask_metadata(self):
        if not self.keeps("metadata is asked for"):
            return
        for piece in range(min(-(-self.size // BLOCK), 8)):
            if piece not in self.metadata:
                self.metadata_asked.append(piece)
                self.metadata_message(0, piece)

    def on_metadata_data(self, piece, total, rest):
        if piece not in self.metadata_asked:
            return
        self.metadata_asked.remove(piece)
        if total != self.size or len(rest) != min(BLOCK, self.size - piece * BLOCK):
            self.again()
            return
        self.metadata[piece] = rest
        if len(self.metadata) == -(-self.size // BLOCK):
            data = b"".join(self.metadata[at] for at in sorted(self.metadata))
            if hashlib.sha1(data).digest() != self.torrent.hash:
                self.metadata = {}
                self.again()
                return
            self.client.metadata = data
            self.mode = "leech"
            self.interest()

    def again(self):
        """What was false isn't asked for again on this connection."""
        if not self.keeps("what is false isn't asked for at once"):
            self.ask_metadata()

    def on_metadata_reject(self, piece):
        if piece not in self.metadata_asked:
            if not self.keeps("a metadata reject of nothing is ignored"):
                raise Close
            return
        self.metadata_asked.remove(piece)


HANDLERS = {0: Connection.on_choke, 1: Connection.on_choke, 2: Connection.on_interest, 3: Connection.on_interest, 4: Connection.on_have,
            5: Connection.on_pieces, 6: Connection.on_request, 7: Connection.on_piece, 8: Connection.on_cancel, 9: Connection.on_port,
            13: Connection.on_advice, 14: Connection.on_pieces, 15: Connection.on_pieces, 16: Connection.on_reject,
            17: Connection.on_advice, 20: Connection.on_extended}


class Client:
    """Listens, and has the state of the torrent."""

    def __init__(self, torrent, mode, broken=None, address=("127.0.0.1", 0)):
        self.torrent, self.mode, self.broken = torrent, mode, broken
        self.pieces, self.metadata = set(), b"" if mode == "magnet" else torrent.info
        self.count, self.ends, self.sources, self.dead, self.left = 0, [], [], False, 0
        self.door = socket.socket(socket.AF_INET6 if ":" in address[0] else socket.AF_INET)
        self.door.setsockopt(socket.SOL_SOCKET, socket.SO_REUSEADDR, 1)
        self.door.bind(address)
        self.door.listen(128)
        self.address = self.door.getsockname()
        threading.Thread(target=self.accept, daemon=True).start()

    def keeps(self, name):
        """Whether the rule is kept."""
        return name != self.broken

    def number(self):
        self.count += 1
        return self.count

    def die(self):
        self.dead = True
        self.close()
        raise Close

    def accept(self):
        while True:
            try:
                if not self.keeps("connections are taken at once"):
                    self.wait_for_second()
                end, source = self.door.accept()
            except OSError:
                return
            self.sources.append(source[0])
            self.ends = [one for one in self.ends if one.fileno() >= 0]
            self.ends.append(end)
            if len(self.ends) > 90 and not self.keeps("a crowd is no reason to close"):
                self.shut(self.ends.pop(0))
            if len(self.ends) > 90 and not self.keeps("a crowd shuts nobody out"):
                self.shut(self.ends.pop())
                continue
            threading.Thread(target=self.talk, args=(end,), daemon=True).start()

    def wait_for_second(self):
        """Waits so that three connections are taken when a second begins, and none before the next one."""
        if self.left == 0 or not select.select([self.door], [], [], 0)[0]:
            time.sleep(1 - time.monotonic() % 1)
            self.left = 3
        self.left -= 1

    @staticmethod
    def shut(end):
        try:
            end.shutdown(socket.SHUT_RDWR)
        except OSError:
            pass
        end.close()

    def talk(self, end):
        # (the first two are the suite's first look and its gate)
        if len(self.sources) > 3 and not self.keeps("later connections are answered"):
            return
        try:
            end.setsockopt(socket.IPPROTO_TCP, socket.TCP_NODELAY, 1)
            Connection(self, end).run()
        except (Close, OSError):
            pass
        end.close()

    def close(self):
        self.shut(self.door)
        for end in self.ends:
            self.shut(end)


def dial(path, address, output, broken):
    """Gets the metadata from one peer, as a client that dials."""
    client = Client(Torrent(path), "magnet", broken)
    host, _, port = address.rpartition(":")
    connection = Connection(client, socket.create_connection((host, int(port)), 5))
    connection.end.settimeout(5)
    try:
        connection.handshake(True)
        connection.introduce()
        while not client.metadata:
            connection.messages()
            if not client.metadata:
                connection.read()
    except (Close, OSError):
        pass
    if not client.metadata:
        return 1
    with open(output, "wb") as file:
        file.write(client.metadata if client.keeps("what is written is right") else client.metadata[1:])
    return 0


def main(words):
    if words[2] == "--dial":
        return dial(words[1], words[3], words[4], words[5] if len(words) > 5 else None)
    host, _, port = words[2].replace("[", "").replace("]", "").rpartition(":")
    client = Client(Torrent(words[1]), words[0], words[3] if len(words) > 3 else None, (host, int(port)))
    while not client.dead:
        time.sleep(0.01)
    return 70


if __name__ == "__main__":
    sys.exit(main(sys.argv[1:]))
