#!/usr/bin/env python3
"""Runs `bt_tool capture` on random captures, and compares its reports with those of a plain model.

usage: tests/captures.py [PROGRAM]

PROGRAM is the built bt_tool, or else the script at the top of the repository. The model is written from the standards and from
docs/CAPTURES.md and docs/RULES.md: it keeps all bytes, and looks at all of them again for each packet. Of the remarks it has requests
that got no answer. The captures have lost, swapped, repeated, overlapping, changed and cut segments, resets that neither side sent,
sequence numbers that wrap, several connections between the same ports, both formats and byte orders; two files are cut after each byte.
One capture has more connections than are followed at once. The seed is fixed. The limits of memory are those of tests/limits.py.
`--stream` writes the model's bytes. Where tshark is installed, they are compared with those that tshark has of some captures, too:
captures in which all copies of a byte are the same, and each is captured before its acknowledgement.
"""
import json
import os
import random
import re
import resource
import shutil
import struct
import subprocess
import sys

sys.dont_write_bytecode = True
sys.path.insert(0, os.path.dirname(os.path.abspath(__file__)))
import made_captures as writer  # noqa: E402
from judged import HANDSHAKE, HELLO, ROW, shown_lines  # noqa: E402
from reason_words import reason_words  # noqa: E402

ROOT = os.path.dirname(os.path.dirname(os.path.abspath(__file__)))
FILES = 500
# The captures that tshark reads, too, and the connections of each.
PLAIN, CONNECTIONS = 10, 12
EXCHANGE = 2048
FIN, SYN, RST, ACK = 1, 2, 4, 16
FAST, EXT = 0x4, 0x100000
# How far back a repeated byte is compared, and how long a connection that has ended is without a segment until it is over.
HISTORY, QUIET = 16384, 4_000_000_000
WINDOW = 65535 << 14
# How many connections are followed at once, and how many of them may be without a byte besides the one whose segment came last.
MOST, SILENT = 16384, 8192


# ---- the model: messages

class Receiver:
    """Who a stream is judged for. Its ids don't matter: no stream here has a message under one."""

    def __init__(self, reserved, limit=262144, metadata=0, donthave=None, guessed=False):
        self.reserved, self.limit, self.guessed = reserved, limit, guessed
        self.options = "--reserved %016x --metadata-id %d" % (reserved, metadata)
        self.options += "" if donthave is None else " --donthave-id %d" % donthave


LENGTHS = {**dict.fromkeys(range(4), 1), 4: 5, 6: 13, 8: 13, 9: 3, 13: 5, 14: 1, 15: 1, 16: 13, 17: 5}
FIRST, UNCOUNTED = (5, 14, 15), (9, 20)


def reason_of(receiver, rules, sender, length, number, counted):
    """Why a message is refused by its first five bytes, and at which of them; docs/RULES.md."""
    on = receiver.reserved & sender
    known = number in LENGTHS or number in (5, 7, 20)
    if rules == "bep" and not known:
        return "UnknownId", 4
    if number in (13, 14, 15, 16, 17) and not on & FAST or number == 20 and not on & EXT:
        return "NotNegotiated", 4
    if length != LENGTHS.get(number, length) or number in (5, 20) and length < 2 or number == 7 and length < 9:
        return "WrongLength", 0
    if rules == "bep" and number in FIRST and counted:
        return "Late", 4
    if rules == "bep" and on & FAST and not counted and number not in FIRST and known and number not in UNCOUNTED:
        return "Missing", 4
    return None


def read(stream, receiver, rules):
    """The messages of a stream that begins with a handshake, and its refusal as message, offset and reason, if there is one."""
    found, at, counted = [], HANDSHAKE, False
    if len(stream) < HANDSHAKE:
        return None, (0, len(stream), "EndInside")
    sender = int.from_bytes(stream[20:28], "big")
    while at < len(stream):
        head = stream[at:at + 5]
        length = int.from_bytes(head[:4], "big")
        if len(head) >= 4 and length > receiver.limit:
            return found, (len(found) + 1, at, "TooLong")
        if len(head) == 5 and length:
            refused = reason_of(receiver, rules, sender, length, head[4], counted)
            if refused:
                return found, (len(found) + 1, at + refused[1], refused[0])
        if len(head) < 4 or at + 4 + length > len(stream):
            return found, (len(found) + 1, len(stream), "EndInside")
        found.append(stream[at + 4:at + 4 + length])
        if length and (head[4] in LENGTHS or head[4] in (5, 7)) and head[4] not in UNCOUNTED:
            counted = True
        at += 4 + length
    return found, None


def sentence(stream, found, refused):
    """A refusal in the words of tools/reasons.json."""
    number, at, reason = refused
    start = HANDSHAKE + sum(4 + len(it) for it in found) if number else 0
    end = start + 4 + int.from_bytes(stream[start:start + 4], "big") if number else HANDSHAKE
    return reason_words(reason, number, at, start, stream[start:end], None)


def number_in(dictionary, key):
    at = dictionary.find(b"%d:%s" % (len(key), key))
    return int(dictionary[dictionary.index(b"i", at + 2 + len(key)) + 1:].split(b"e")[0]) if at >= 0 else None


class Said:
    """What the front of what a side sends says of that side."""

    def __init__(self, front):
        place = front[:EXCHANGE + len(HELLO)].find(HELLO)
        self.start, self.size = place if place >= 0 else None, len(front)
        self.stranger = place < 0 and len(front) >= EXCHANGE + len(HELLO)
        self.reserved, self.name, self.all, self.ids = None, None, False, (None, None)
        found, refused = read(front[place:], Receiver(EXT | 5, 1048576), "free") if place >= 0 else (None, None)
        if found is not None:
            self.reserved, self.name = int.from_bytes(front[place + 20:place + 28], "big"), front[place + 48:place + 68]
            extended = [it[2:] for it in found if it[:2] == b"\x14\0"]
            self.all = bool(extended) or len(found) >= 1000 or bool(refused and refused[2] != "EndInside")
            for it in extended:
                self.ids = number_in(it, b"ut_metadata"), number_in(it, b"lt_donthave")
                self.name = it[it.index(b"1:v") + 5:][:int(it[it.index(b"1:v") + 3:][:1])] if b"1:v" in it else self.name


def is_settled(a, b):
    """Whether the opening of a connection is over."""
    if a.reserved is not None and b.reserved is not None:
        return not a.reserved & b.reserved & EXT or a.all and b.all
    return all(it.stranger or it.reserved is not None for it in (a, b)) and (a.stranger or b.stranger)


# ---- the model: TCP

def nearest(zero, near, sequence):
    """The place nearest to another one that has a sequence number; 2^40 has `zero`. Of two the later one."""
    ahead = (sequence - zero - near) % 2 ** 32
    return near + ahead - (2 ** 32 if ahead > 2 ** 31 else 0)


class Side:
    """A direction. Its stream begins after the SYN if that is known at the first captured byte, and else with that byte."""

    def __init__(self):
        self.zero = self.opening = self.fin = self.base = None
        self.end = self.acked = 2 ** 40
        self.bytes, self.conflicts, self.length, self.strays = {}, 0, 0, 0

    def place(self, number):
        return nearest(number if self.zero is None else self.zero, self.end, number)

    def window_end(self, syn=False):
        """The greatest place that the receiver's window may have (RFC 7323 2.3), if the side's numbers are certain."""
        is_numbered = self.bytes or self.opening is not None and not syn
        return max(self.end, self.acked) + WINDOW if is_numbered else None

    def passes(self, it):
        """Whether a segment isn't in the window of the receiver, or has a FIN before what that acknowledged."""
        at, end = self.place((it.sequence + bool(it.flags & SYN)) % 2 ** 32), self.window_end(it.flags & SYN)
        return end is not None and (at >= end or bool(it.flags & FIN) and at + len(it.payload) + 1 < self.acked)

    def hear(self, acked, opens):
        end = self.window_end()
        if end is not None and self.place(acked) > end:
            return
        self.zero = acked if self.zero is None else self.zero
        if opens and self.opening is None:
            self.opening = (acked - 1) % 2 ** 32
        self.acked = max(self.acked, self.place(acked))

    def after_syn(self):
        return None if self.opening is None else nearest(self.zero, 2 ** 40, (self.opening + 1) % 2 ** 32)

    def next(self):
        """The place of the next byte. Without a byte and a SYN it is the first one that the capture speaks of, if it does."""
        if self.base is not None:
            return self.base + self.length
        return self.after_syn() or (None if self.zero is None else 2 ** 40)

    def take(self, it):
        number = (it.sequence + bool(it.flags & SYN)) % 2 ** 32
        if self.passes(it):
            return
        self.zero = number if self.zero is None else self.zero
        at = self.place(number)
        self.opening = it.sequence % 2 ** 32 if it.flags & SYN else self.opening
        self.end = max(self.end, at + len(it.payload))
        self.fin = at + len(it.payload) if it.flags & FIN else self.fin
        if not it.captured:
            return
        if self.base is None:
            self.base = self.after_syn() or at
        is_keep_alive = len(it.captured) == 1 and at + 1 == self.next()
        for place, byte in enumerate(b"" if is_keep_alive else it.captured, at):
            if self.base <= place and self.next() <= place + HISTORY and self.bytes.get(place, byte) != byte:
                self.conflicts += 1
        for place, byte in enumerate(it.captured, at):
            self.bytes.setdefault(place, byte)
        while self.base + self.length in self.bytes:
            self.length += 1

    def stream(self):
        return b"" if self.base is None else bytes(self.bytes[self.base + k] for k in range(self.length))

    def high(self):
        return 0 if self.base is None else max(0, max(self.bytes) + 1 - self.base)

    def gaps(self):
        """The runs of bytes that were sent and not captured: offset from the base, and length."""
        first = self.next()
        if first is None:
            return []
        highest = max(self.bytes, default=0) + 1
        known = max(first, highest)
        sent = self.fin if self.fin is not None else max(self.end, self.acked if self.acked > known + 1 else known)
        missing = [place for place in range(first, max(sent, highest)) if place not in self.bytes]
        runs = [k for k, place in enumerate(missing) if not k or missing[k - 1] != place - 1] + [len(missing)]
        return [(missing[k] - (first - self.length), n - k) for k, n in zip(runs, runs[1:])]

    def has_hole(self):
        """Whether bytes after the stream are known to be sent."""
        first = self.next()
        if first is None:
            return False
        return first < (self.fin if self.fin is not None else max(self.end, self.acked if self.acked > first + 1 else first))

    def may_be_next(self, sequence):
        """Whether the receiver may expect this number next: from what it acknowledged, or else from the first known one, up to what was sent, with
        the FIN. If no number of the side is known, it may expect any."""
        if self.zero is None:
            return True
        return self.acked <= self.place(sequence) <= max(self.end, self.acked, 0 if self.fin is None else self.fin + 1)

    def is_closed(self):
        return self.fin is not None and self.next() is not None and self.fin <= self.next() and self.fin < self.acked


class Connection:
    def __init__(self, number, it):
        self.number, self.said, self.settled, self.closed, self.over = number, {}, False, None, None
        self.ends = it.ends[::-1] if it.flags & SYN and it.flags & ACK else it.ends
        self.sides = {end: Side() for end in self.ends}
        self.has_bytes = self.is_replaced = False
        self.marks = []  # for each segment: its side, the length of the side's stream, its time, and its packet's number from 1

    def is_stray(self, it):
        """Whether a segment is a RST that its receiver couldn't take (RFC 9293 3.5.3), or another one that isn't in its window (3.4)."""
        side = self.sides[it.ends[0]]
        return not side.may_be_next(it.sequence) if it.flags & RST else side.passes(it)

    def opens_again(self, it):
        side = self.sides[it.ends[0]]
        is_opener = it.flags & (SYN | ACK) == SYN and not (it.flags & RST and self.is_stray(it))
        return is_opener and (side.high() > 0 if side.opening is None else side.opening != it.sequence % 2 ** 32)

    def take(self, it, packet):
        is_stray = self.is_stray(it)
        self.sides[it.ends[0]].strays += is_stray
        if not it.flags & RST:
            self.has_bytes |= bool(it.captured)
            if it.flags & ACK:
                self.sides[it.ends[1]].hear(it.acked % 2 ** 32, it.flags & SYN)
            self.sides[it.ends[0]].take(it)
            self.marks.append((it.ends[0], self.sides[it.ends[0]].length, it.nanos, packet))
        flags = 0 if is_stray else it.flags
        if flags & (FIN | RST) and self.closed is None:
            self.closed = it.ends[0], "RST" if flags & RST else "FIN", it.nanos
        if self.over is not None or flags & RST or all(side.is_closed() for side in self.sides.values()):
            self.over = it.nanos
        self.settle()

    def settle(self, over=False):
        if not self.settled:
            for end, side in self.sides.items():
                if end not in self.said or self.said[end].size != side.length:
                    self.said[end] = Said(side.stream())
            self.settled = over or is_settled(*self.said.values())

    def streams(self):
        """What each side sent, up to the first gap: from its handshake on, or from its first byte if it sent none."""
        self.settle(True)
        return [self.sides[end].stream()[self.said[end].start or 0:] for end in self.ends]

    def receiver(self, end):
        """Who the stream of a side with a handshake is judged for."""
        other = self.said[self.ends[1 - self.ends.index(end)]]
        if other.reserved is None:
            return Receiver(self.said[end].reserved, guessed=True)
        metadata, donthave = other.ids
        return Receiver(other.reserved, 262144, metadata or 0, None if donthave == metadata else donthave)

    def read(self, end, rules="free"):
        return read(self.sides[end].stream()[self.said[end].start:], self.receiver(end), rules)

    def completed(self, end, offset):
        """The number and the time of the packet with which a side's stream reaches an offset."""
        place = self.said[end].start + offset
        return next((packet, nanos) for side, length, nanos, packet in self.marks if side == end and length >= place)

    def item_rows(self, lines, first):
        """The rows on items, in the order of the packets that complete them: packet, offset, seconds since `first`, side, the line of `lines`."""
        found = []
        for side, end, stream in zip("AB", self.ends, self.streams()):
            for line in lines.get(side, ()):
                offset = int(line.split()[0])
                size = 4 + int.from_bytes(stream[offset:offset + 4], "big") if offset else HANDSHAKE
                packet, nanos = self.completed(end, offset + size)
                found.append((packet, offset, "%d.%06d" % divmod(max(0, nanos - first) // 1000, 10 ** 6), side, line))
        return sorted(found)

    def events(self):
        """The messages of both sides, in the order of the packets that complete them: packet, offset, side and message."""
        found = []
        for end in self.ends:
            offset = HANDSHAKE
            for body in self.read(end)[0]:
                found.append((self.completed(end, offset + 4 + len(body))[0], offset, end, body))
                offset += 4 + len(body)
        return sorted(found)

    def unanswered(self, end, other):
        """The line on a side's requests that got no answer (BEP 6), if there are any."""
        if not all((self.said[it].reserved or 0) & FAST for it in self.ends) or self.read(other)[1] or self.sides[other].has_hole():
            return ""
        opened, later = {}, -1  # by index and begin the number of a request, its offset and its length; what came later
        for number, (_, offset, sender, body) in enumerate(self.events()):
            kind, key, size = body[:1], body[1:9], struct.pack(">I", len(body) - 9) if body[:1] == b"\7" else body[9:]
            if sender == end and kind == b"\6":
                opened[key] = number, offset, size
            elif sender == other and kind == b"\0":
                later = number
            elif sender == other and kind in (b"\7", b"\x10") and opened.get(key, (0, 0, None))[2] == size:
                later = max(later, opened.pop(key)[0])
        is_closer = bool(self.closed) and self.closed[0] == other
        late = sorted((*it, key) for key, it in opened.items() if is_closer or it[0] < later)
        if not late:
            return ""
        words = "%d request %d %d %d\n" % (late[0][1], *struct.unpack(">III", late[0][3] + late[0][2]))
        what = "a request that got no answer" if len(late) == 1 else "%d requests that got no answer, the first" % len(late)
        return "  %s sent %s: %s" % ("AB"[self.ends.index(end)], what, words)

    def direction(self, end):
        """The lines of a direction, and whether it is refused."""
        side, own, letter = self.sides[end], self.said[end], "AB"[self.ends.index(end)]
        gaps, stream = side.gaps(), side.stream()
        lines = ""
        if own.start:
            lines += "    handshake after %d bytes of a key exchange; offsets count from it\n" % own.start
        if side.conflicts:
            lines += "    repeated with other bytes: %d; the first ones count\n" % side.conflicts
        if side.strays:
            lines += "    %d segment%s outside the window\n" % (side.strays, "s" * (side.strays > 1))
        if gaps:
            more = "; %d gaps, %d bytes in all" % (len(gaps), sum(n for _, n in gaps)) if len(gaps) > 1 else ""
            lines += "    gap at %d: %d bytes aren't in the capture%s\n" % (max(0, gaps[0][0] - (own.start or 0)), gaps[0][1], more)
        if own.reserved is None:
            return "  %s sent %d bytes and no whole handshake\n%s" % (letter, len(stream), lines), False
        receiver = self.receiver(end)
        refused, verdicts = False, []
        for rules in ("free", "bep"):
            found, why = self.read(end, rules)
            note, cut = "", why is not None and why[2] == "EndInside"
            if gaps:
                note = " (cut by the gap)" if cut else " (up to the gap)" if why is None else ""
            elif cut and (self.closed is None or self.closed[0] != end):
                note = " (cut by the close of the other end)" if self.closed else " (cut by the capture's end)"
                note = " (cut by a later connection)" if self.is_replaced and not self.closed else note
            verdict = "refused message=%d at=%d %s" % why if why else "ok messages=%d bytes=%d" % (len(found), len(stream) - own.start)
            verdicts.append((rules, verdict, note, sentence(stream[own.start:], found, why) if why and not note else None))
            refused |= rules == "free" and why is not None and not (cut and note)
        for rules, verdict, note, words in verdicts:
            lines += "    %-4s %s%s\n" % (rules, verdict, note)
            lines += "    why  %s.\n" % words if words and (rules == "bep" or verdict != verdicts[1][1]) else ""
        guess = " (guessed: its receiver's handshake isn't there)" if receiver.guessed else ""
        return "  %s %s\n%s    options %s%s\n" % (letter, own.name.decode(), lines, receiver.options, guess), refused

    def report(self, start):
        """The lines, whether it is a BitTorrent connection, and whether a direction is refused."""
        self.settle(True)
        names = "connection %d  A %s > B %s" % (self.number, *("%s:%d" % end for end in self.ends))
        if all(said.start is None for said in self.said.values()):
            return names + "  no BitTorrent handshake: encrypted, another protocol, or its start isn't in the capture\n", False, False
        (a, bad_a), (b, bad_b) = map(self.direction, self.ends)
        close = "  not closed; a later connection has the same ports\n" if self.is_replaced else "  still open at the capture's end\n"
        if self.closed:
            end, means, nanos = self.closed
            micros = max(0, nanos - start) // 1000
            close = "  %s closed first, by %s, at %d.%06d s\n" % ("AB"[self.ends.index(end)], means, *divmod(micros, 10 ** 6))
        unanswered = self.unanswered(*self.ends) + self.unanswered(*self.ends[::-1])
        return names + "\n" + a + b + close + unanswered, True, bad_a or bad_b


def connections(packets):
    """The connections with a byte: first those that are over before the end, in the order in which that is known, then by number."""
    current, done, begun, ended = {}, [], 0, []
    for packet, it in enumerate(packets, 1):
        key = frozenset(it.ends)
        old = current.get(key)
        if old and (old.over is not None and it.nanos - old.over >= QUIET or old.opens_again(it)):
            old.is_replaced = True
            done.append(current.pop(key))
        if key not in current:
            current[key] = Connection(begun, it)
            begun += 1
        had_ended = current[key].over is not None
        current[key].take(it, packet)
        if not had_ended and current[key].over is not None:
            ended.append((it.nanos, key))
        if ended and it.nanos - ended[0][0] >= QUIET:
            ended_key = ended.pop(0)[1]
            old = current.get(ended_key)
            if old and old.over is not None:
                if it.nanos - old.over >= QUIET:
                    done.append(current.pop(ended_key))
                else:
                    ended.append((it.nanos, ended_key))
    done += sorted(current.values(), key=lambda it: it.number)
    return [it for it in done if it.has_bytes]


def item_rows(program, found, out, first):
    """The rows on the items of connections: the connection, and what `Connection.item_rows` has."""
    lines = {it.number: {} for it in found}
    for which, (items, _) in shown_lines(program, streams_of(found), out).items():
        lines[int(which[:-2])][which[-1]] = items
    return [(it.number, *row) for it in sorted(found, key=lambda it: it.number) for row in it.item_rows(lines[it.number], first)]


def are_in_time(wanted, shown):
    """Whether each row on an item is the line that `show` has of it, and has the time of the packet that completes it."""
    rows = [(int(row[0]), *row[1:4]) for row in ROW.findall(shown) if " refused message=" not in row[3]]
    return sorted(rows, key=lambda row: row[0]) == [(row[0], *row[3:]) for row in wanted]


def have_packets(wanted, objects):
    """Whether each row on an item has the number of the packet that completes it."""
    rows = [it for it in map(json.loads, objects.splitlines()) if "item" in it]
    found = [(it["connection"], it["packet"], it["offset"]) for it in rows]
    return sorted(found, key=lambda row: row[0]) == [row[:3] for row in wanted]


def streams_of(found):
    """The streams of connections, by the words that `--stream` has for them."""
    return {"%d-%s" % (it.number, side): stream for it in found for side, stream in zip("AB", it.streams())}


def reports(packets):
    """What `capture` writes, its exit status, and its connections."""
    found = connections(packets)
    told = [it.report(packets[0].nanos) for it in found]
    status = 3 if not any(it[1] for it in told) else int(any(it[2] for it in told))
    return "".join(it[0] for it in told), status, found


# ---- random captures

class Segment(writer.Packet):
    """A segment, with its ends, of which the first bytes of the payload were captured."""

    def __init__(self, ends, flags, sequence, acked, payload=b"", nanos=0, captured=None):
        super().__init__(None, flags, sequence, acked, payload, nanos)
        self.ends, self.nanos, self.captured = ends, nanos, payload if captured is None else payload[:captured]


def message(*parts):
    body = b"".join(parts)
    return struct.pack(">I", len(body)) + body


def any_message(rng, reserved):
    """A message after the first ones, and where its block begins."""
    index, size = struct.pack(">I", rng.randrange(9)), struct.pack(">I", rng.choice((0, 1, 40)))
    kind = rng.random()
    if kind < 0.2:
        return message(b"\x10" if reserved & FAST and rng.random() < 0.3 else b"\6", index, bytes(4), size), None
    if kind < 0.5:
        return message(b"\x07", index, bytes(4), rng.randbytes(rng.choice((0, 1, 40, 900, 3000)))), 13
    if kind < 0.97:
        return rng.choice((message(), message(b"\0"), message(b"\1"), message(b"\2"), message(b"\4", index),
                           message(b"\x09\x1a\xe1"), message(b"\x14\x7f", b"any"))), None
    return rng.choice((message(b"\4", bytes(3)), b"\0\4\0\1\7", message(b"\x15", b"new"), message(b"\5\xff"), message(b"\x0e"))), None


def stream_of(rng):
    """What a side sends, and the offsets at which another byte changes no message."""
    if rng.random() < 0.08:
        return b"GET / HTTP/1.1\r\n\r\n" + bytes(rng.choice((0, 3000))), set()
    stream = rng.randbytes(rng.choice((100, 608, 2048, 2049))) if rng.random() < 0.1 else b""
    free = set(range(len(stream)))
    reserved = rng.choice((EXT | 5, EXT | 4, EXT | 4, EXT | 1, 5, 0))
    stream += HELLO + struct.pack(">Q", reserved) + bytes(20) + b"-XX%04d-000000000000" % rng.randrange(10 ** 4)
    parts = []
    if reserved & FAST and rng.random() < 0.9:
        parts.append(rng.choice((message(b"\x0f"), message(b"\x0e"), message(b"\5\xf0"))))
    if reserved & EXT and rng.random() < 0.9:
        ids = b"".join((b"11:lt_donthavei7e" * rng.randrange(2), b"11:ut_metadatai%de" % rng.randrange(1, 9)))
        parts.insert(rng.randrange(len(parts) + 1), message(b"\x14\0d1:md", ids, b"e", b"1:v5:Seven" * rng.randrange(2), b"e"))
    stream += b"".join(parts)
    for _ in range(rng.choice((0, 2, 6, 15))):
        part, block = any_message(rng, reserved)
        if block is not None:
            free |= set(range(len(stream) + block, len(stream) + len(part)))
        stream += part
    return stream[:len(stream) - (rng.random() < 0.2) * rng.randrange(4)], free


def changed(rng, payload, offset, free):
    """The payload with other bytes, where these change no message."""
    return bytes(byte ^ 1 if offset + k in free and rng.random() < 0.5 else byte for k, byte in enumerate(payload))


def talk(rng, ends, first, is_plain=False):
    """The segments of a connection with these first sequence numbers, in the order in which they were sent. In a plain one all copies of
    a byte are the same, each segment is captured whole, and nothing resets it."""
    sides = [ends, ends[::-1]]
    streams = [stream_of(rng) for _ in sides]
    done, size = [0, 0], rng.choice((30, 536, 1460))
    found = [Segment(ends, SYN, first[0], 0), Segment(ends[::-1], SYN | ACK, first[1], first[0] + 1),
             Segment(ends, ACK, first[0] + 1, first[1] + 1)]
    while any(done[k] < len(streams[k][0]) for k in (0, 1)):
        k = rng.randrange(2)
        stream, free = streams[k]
        at, end = done[k], min(len(stream), done[k] + rng.randint(1, size))
        if at and rng.random() < 0.1:  # again, also over what came before
            at = rng.randrange(at)
            end = min(end, at + rng.randint(1, 2 * size))
        payload = stream[at:end]
        if rng.random() < 0.1 and not is_plain:
            payload = changed(rng, payload, at, free)
        done[k] = max(done[k], end)
        acked = first[1 - k] + 1 + done[1 - k]
        captured = rng.randrange(len(payload) + 1) if rng.random() < 0.02 and not is_plain else None
        found.append(Segment(sides[k], ACK, first[k] + 1 + at, acked, payload, captured=captured))
    for k in rng.choice(((), (0, 1), (1, 0), (0,))):
        found.append(Segment(sides[k], FIN | ACK, first[k] + 1 + done[k], first[1 - k] + 1 + done[1 - k]))
        done[k] += 1
        found.append(Segment(sides[1 - k], ACK, first[1 - k] + 1 + done[1 - k], first[k] + 1 + done[k]))
    if rng.random() < 0.1 and not is_plain:
        found.append(Segment(ends, RST, first[0] + 1 + done[0], 0))
    return found if is_plain else with_resets(rng, found, False)


def with_resets(rng, found, is_plain):
    """The segments, with resets among them that neither side sent. In a plain connection no receiver could take them."""
    far = (2 ** 31, 2 ** 31 - 1, 2 ** 30, 100_000_000, -100_000_000)
    for _ in range(rng.choice((0, 0, 1, 3))):
        k = rng.randint(3, len(found))
        it = next(it for it in found[k - 1::-1] if not it.flags & RST)
        flags = RST | rng.choice((0, ACK) if is_plain else (0, 0, ACK, FIN, SYN, SYN | FIN | ACK))
        by = rng.choice(far if is_plain else far + (-1, 0, 1, len(it.payload), len(it.payload) + 1, rng.randrange(2 ** 32)))
        found.insert(k, Segment(it.ends, flags, it.sequence + by, it.acked, b"" if is_plain else bytes(rng.choice((0, 0, 3)))))
    return found


def captured(rng, found, keep):
    """The segments as they were captured: some are lost, some swapped, some there twice."""
    loss, swaps, twice = (rng.choice((0, 0, 0.02, 0.1)) for _ in range(3))
    found = [it for it in found if it in keep or rng.random() >= loss]
    for k in range(len(found) - 1):
        if rng.random() < swaps and found[k + 1] not in keep and found[k] not in keep:
            found[k], found[k + 1] = found[k + 1], found[k]
    for k in range(len(found)):
        if rng.random() < twice:
            found.insert(rng.randint(k, len(found)), found[k])
    return found


def capture_of(rng):
    """The packets of a random capture."""
    lanes = []
    for lane in range(rng.choice((1, 1, 1, 2, 3))):
        ends, found = (("10.0.0.%d" % rng.randint(1, 9), 6881 + lane), ("10.0.1.1", 51413)), []
        first = [rng.choice((7, 2 ** 32 - 1, 2 ** 32 - 900, 2 ** 31 + 5, rng.randrange(2 ** 32))) for _ in ends]
        for turn in range(rng.choice((1, 1, 1, 2, 3))):
            part = talk(rng, ends, [number + 64_000 * turn for number in first])
            found += captured(rng, part, part[:1] if turn else [])
        lanes.append(found)
    return together(rng, lanes)


def together(rng, lanes):
    """The packets of connections that go on at once."""
    packets, nanos = [], 1_000_000_000_000
    while any(lanes):
        it = rng.choice([lane for lane in lanes if lane]).pop(0)
        nanos += 1000 * rng.choice((0, 20, 50_000, 50_000, 4_100_000 if rng.random() < 0.05 else 1))
        packets.append(Segment(it.ends, it.flags, it.sequence, it.acked, it.payload, nanos, len(it.captured)))
    return packets


def plain_talk(rng, ends):
    """The segments of a connection of which no byte is lost or captured after its acknowledgement: some are swapped, some there again."""
    first = [rng.choice((7, 2 ** 32 - 1, 2 ** 32 - 900, 2 ** 31 + 5, rng.randrange(2 ** 32))) for _ in ends]
    found = talk(rng, ends, first, True)
    opening, data, closing = found[:3], [it for it in found if it.payload], [it for it in found[3:] if not it.payload]
    for k in range(len(data) - 1):
        if rng.random() < 0.1 and data[k].ends == data[k + 1].ends:
            data[k], data[k + 1] = data[k + 1], data[k]
    for k in range(len(data)):
        if rng.random() < 0.05:
            data.insert(rng.randint(k, len(data)), data[k])
    return with_resets(rng, opening + data + closing, True)


def plain_capture(rng):
    """The packets of a few connections that are the same to each reader of TCP."""
    return together(rng, [plain_talk(rng, (("10.0.0.%d" % rng.randint(1, 9), 6881 + k), ("10.0.1.1", 51413))) for k in range(CONNECTIONS)])


def files_of(rng, packets, form=None):
    """The file of a capture, and how many of its bytes each front of the packets takes."""
    link, frame = writer.FRAMES[rng.choice(("ethernet", "vlan", "two tags", "cooked", "cooked 2", "raw", "mpls", "pppoe", "gre", "802.11"))]
    order, nano, ng = form or (rng.choice("<>"), rng.random() < 0.5, rng.random() < 0.5)
    unit = 1 if nano else 1000
    file = writer.pcapng((link, []), order, nano) if ng else writer.pcap((link, []), order, nano)
    sizes = [len(file)]
    for it in packets:
        whole = frame(writer.ipv4(it, it.ends), b"\x08\x00")
        kept = whole[:len(whole) - len(it.payload) + len(it.captured)]
        if ng:
            ticks = it.nanos // unit
            file += writer.block(order, 6, struct.pack(order + "5I", 1, ticks >> 32, ticks & 0xFFFFFFFF, len(kept), len(whole)) + kept)
        else:
            file += struct.pack(order + "4I", it.nanos // 10 ** 9, it.nanos % 10 ** 9 // unit, len(kept), len(whole)) + kept
        sizes.append(len(file))
    return file, sizes


def segments_of(file):
    """The segments of a capture of tests/made_captures.py."""
    return [Segment(ends, it.flags, it.sequence, it.acked, it.payload, 10 ** 12 + it.at * 10 ** 6, size) for it, ends, size in file.packets]


def short_talk():
    """A few packets of a connection."""
    left, right = writer.handshakes(reserved="0000000000000000")
    found = writer.Talk().say("A", left).say("B", right + message(b"\2")).close("A").packets
    return segments_of(writer.pcap(writer.frames(found, ends=(("10.0.0.1", 6881), ("10.0.1.1", 51413)))))


def plain_files():
    """Name, packets and file of the captures that tshark reads, too."""
    for seed in range(PLAIN):
        rng = random.Random(seed)
        packets = plain_capture(rng)
        yield "plain seed %d" % seed, packets, files_of(rng, packets)[0]


def rows():
    """Name, time of the first packet, file, output, status and connections."""
    yield from ((name, packets[0].nanos, file, *reports(packets)) for name, packets, file in plain_files())
    for seed in range(FILES):
        rng = random.Random(seed)
        packets = capture_of(rng)
        if seed % 10 == 8:  # the openings aren't in the capture
            packets = [it for it in packets if not it.flags & SYN]
        if seed % 10 == 9:  # one side's packets aren't
            packets = [it for it in packets if it.ends[1][1] == 51413] or packets
        yield ("seed %d" % seed, packets[0].nanos, files_of(rng, packets)[0], *reports(packets))
    packets = short_talk()
    wanted = [reports(packets[:n]) for n in range(len(packets) + 1)]
    for form in (("<", False, False), (">", True, True)):
        file, sizes = files_of(random.Random(1), packets, form)
        for cut in range(len(file) + 1):
            whole = sum(size <= cut for size in sizes[1:])
            yield ("%r cut after %d bytes" % (form, cut), 0, file[:cut], *wanted[whole])


# ---- a second opinion

# What tshark prints of a connection: its ends, and the bytes of both, those of the second one after a tab.
FOLLOWED = re.compile(r"^Node 0: (.*)\nNode 1: (.*)\n((?:\t?[0-9a-f]+\n)*)", re.M)


def followed(file):
    """The streams of each connection as tshark reassembles them, by the names of its ends."""
    words = [word for k in range(CONNECTIONS) for word in ("-z", "follow,tcp,raw,%d" % k)]
    done = subprocess.run(["tshark", "-r", "-", "-q", *words], input=file, stdout=subprocess.PIPE, stderr=subprocess.DEVNULL, timeout=100)
    found = {}
    for left, right, text in FOLLOWED.findall(done.stdout.decode()):
        lines = text.splitlines()
        found[left, right] = [bytes.fromhex("".join(it for it in lines if it.startswith("\t") == is_right)) for is_right in (False, True)]
    return found


def tshark_differs(program):
    """Each stream of the captures that tshark reads, too: its name if --stream writes other bytes than tshark has, or an empty text."""
    for name, packets, file in plain_files():
        found = followed(file)
        for it in connections(packets):
            for side, stream in zip("AB", found.get(tuple("%s:%d" % end for end in it.ends), (b"", b""))):
                words = "%d-%s" % (it.number, side)
                wanted = stream[max(0, stream[:EXCHANGE + len(HELLO)].find(HELLO)):]
                is_same = wanted and run(program, file, "--stream", words)[0] == wanted
                yield "" if is_same else "%s: --stream %s writes other bytes than tshark has" % (name, words)


# What the model doesn't have: other remarks, and what a side had sent at the close. tests/capture.py compares these.
UNKNOWN = re.compile(r"^(?:    [AB] had sent |  [AB] sent (?!\d+ bytes and no whole handshake|.* that got no answer)).*\n", re.M)


def run(program, file, *words):
    """What `capture` writes of a file, and its exit status."""
    done = subprocess.run([program, "capture", *words], input=file, capture_output=True, timeout=100)
    return done.stdout, done.returncode


def model_differs(program):
    """Each run: what is wrong with it, or an empty text. Of a random capture one stream is written, too, and of some the rows."""
    rng = random.Random(1)
    for name, first, file, out, status, connected in rows():
        told, ended = run(program, file, "-")
        found = UNKNOWN.sub("", told.decode()), ended
        is_right = found == (out, status)
        yield "" if is_right else "%s: got %d\n%s\nexpected %d\n%s" % (name, ended, told.decode(), status, out)
        streams = streams_of(connected) if first and is_right else {}
        if streams and rng.random() < 0.25:
            wanted = item_rows(program, connected, told.decode(), first)
            shown = run(program, file, "--show", "-")[0].decode()
            yield "" if are_in_time(wanted, shown) else "%s: other rows\n%s" % (name, shown)
            shown = run(program, file, "--show", "--json", "-")[0].decode()
            yield "" if have_packets(wanted, shown) else "%s: rows of other packets\n%s" % (name, shown)
        if streams:
            words = rng.choice(sorted(streams))
            is_same = run(program, file, "--stream", words) == (streams[words], status)
            yield "" if is_same else "%s: --stream %s writes other bytes" % (name, words)


def crowds_differ(program, crowd, count):
    """What is wrong with what standard error says of this capture of so many connections, whole and before a record of an impossible length; and
    of connections without a byte: as many as may be at once, one fewer, one more and three more."""
    nothing = "no BitTorrent connection in %d packets; 0 of them aren't TCP\n"
    broken = "fault: capture: a record of a pcap file has an impossible length\n"
    said = lambda count: "capture: %d connection%s not read further: too many at once\n" % (count, " was" if count == 1 else "s were")
    runs = [("too many", crowd, said(count - MOST), 0), ("too many before a broken record", crowd + bytes(8) + 8 * b"\xff", broken + said(count - MOST), 3)]
    for more in (-1, 0, 1, 3):
        ends = [(("10.0.%d.%d" % divmod(number, 256), 6881), ("10.1.0.1", 6881)) for number in range(SILENT + 1 + more)]
        framed = [writer.frames([writer.Packet("A", SYN, 7, 0, b"", 0)], ends=it) for it in ends]
        silent = writer.pcap((framed[0][0], [one for _, frames in framed for one in frames]))
        runs.append(("%d silent ones" % len(ends), silent, (said(more) if more > 0 else "") + nothing % len(ends), 3))
    for name, file, wanted, status in runs:
        done = subprocess.run([program, "capture", "-"], input=file, capture_output=True, timeout=100)
        found = done.stderr.decode()
        yield "" if (found, done.returncode) == (wanted, status) else "crowded: %s: got %d\n%s\nexpected %d\n%s" % (
            name, done.returncode, found, status, wanted)


def early_differ(program, crowd, packet):
    """What is wrong with what is said of two more than are followed at once, if a RST ends the first, or the first two, which have one frame
    and two: such a one counts as given up early, not as unread, if the last two, of one frame each, come before four seconds."""
    link, frames = crowd
    resets = [writer.frames([packet, writer.Packet("B", RST, 0, 0, b"", 0)], ends=(("10.0.0.%d" % number, 6881), ("10.1.0.1", 6881)))[1]
              for number in range(2)]
    early = "capture: %s that had ended %s given up early: too many at once\n"
    runs = [(resets[0] + frames[1:], [1], "capture: 1 connection was not read further: too many at once\n" + early % ("1 connection", "was"))]
    for at, said in ((0, early % ("2 connections", "were")), (3_999, early % ("2 connections", "were")), (4_000, "")):
        runs.append((resets[0] + resets[1] + frames[3:-2] + [(at, frame) for _, frame in frames[-2:]], [], said))
    for found, unread, said in runs:
        done = subprocess.run([program, "capture", "--json", "-"], input=writer.pcap((link, found)), capture_output=True, timeout=100)
        numbers = [it["connection"] for it in map(json.loads, done.stdout.splitlines()) if it.get("not_read_further")]
        yield "" if (numbers, done.stderr.decode()) == (unread, said) else "crowded: with ones that ended: got %s\n%s\nexpected %s\n%s" % (
            numbers, done.stderr.decode(), unread, said)


def left_differs(program):
    """What is wrong with how connections were left: the first two of two more than are followed at once, the second of which has ended its
    other direction, and one whose ports another takes."""
    hello, frames = writer.handshakes()[0], []
    packet, fin = writer.Packet("A", ACK, 7, 0, hello + bytes(2), 0), writer.Packet("B", ACK | FIN, 7, 0, b"", 0)
    for number in range(MOST + 2):
        end = "10.0.%d.%d" % divmod(number, 256), 6881
        link, more = writer.frames([packet, fin] if number == 1 else [packet], ends=(end, ("10.1.0.1", 6881)))
        frames += more
    crowd = writer.pcap((link, frames))
    told = re.split("(?m)^connection ", run(program, crowd, "-")[0].decode())[1:]
    yield "" if len(told) == MOST + 2 else "crowded: %d connections" % len(told)
    yield from crowds_differ(program, crowd, MOST + 2)
    unread = ("(cut: not read further)", "\n  not read further: too many connections at once\n")
    still = ("(cut by the capture's end)", "\n  still open at the capture's end\n")
    for words, wanted in ((unread, 2), (still, MOST)):
        found = [it for it in told if all(text in it for text in words)]
        yield "" if len(found) == wanted else "crowded: %d connections have %s" % (len(found), words)
    objects = list(map(json.loads, run(program, crowd, "--json", "-")[0].splitlines()))
    numbers = [it["connection"] for it in objects if it.get("not_read_further")]
    yield "" if numbers == [0, 1] else "crowded: these aren't read further: %s" % numbers
    closed = [it["connection"] for it in objects if "closed" in it]
    yield "" if closed == [1] and "\n  B closed first, by FIN, at " in told[1] else "crowded: these are closed: %s" % closed
    yield from early_differ(program, (link, frames), packet)
    first, second = (writer.Talk(start=start).say("A", hello).packets for start in (7, 70_000))
    objects = map(json.loads, run(program, writer.pcap(writer.frames(first + second)), "--json", "-")[0].splitlines())
    found = [it.get("replaced") for it in objects]
    yield "" if found == [True, None] else "replaced: %s" % found


def late_differs(program):
    """What is wrong with what is told of a stream of which bytes come after others that are more than 15 MiB ahead: their gap stays."""
    hello, theirs = writer.handshakes()
    piece = struct.pack(">IBII", 9 + 16_384, 7, 0, 0) + bytes(16_384)
    talk = writer.Talk(size=40_000).say("B", theirs).say("A", hello + 1_000 * piece)
    packets = talk.packets
    packets.append(packets.pop([k for k, it in enumerate(packets) if it.side == "A" and it.payload][3]))
    talk.close("A")
    for at, packet in enumerate(packets):
        packet.at = at
    capture = writer.pcap(writer.frames(packets))
    told, status = run(program, capture, "-")
    wanted = "    gap at 120000: 40000 bytes aren't in the capture, or came more than 15 MiB late\n"
    wanted += "    free refused message=8 at=120000 EndInside (cut by the gap)\n"
    yield "" if wanted in told.decode() and status == 0 else "late: got %d\n%s\nexpected 0 and\n%s" % (status, told.decode(), wanted)
    found = json.loads(run(program, capture, "--json", "-")[0])["from_a"]["gap"]
    wanted = {"offset": 120_000, "bytes": 40_000, "final": True}
    yield "" if found == wanted else "late: got %s\nexpected %s" % (found, wanted)


def late_costs(program):
    """Whether segments after a final gap take longer, in processor time, if 1,000 bytes of it were captured, none beside another."""
    times = []
    for count in (0, 1000):
        packets = [writer.Packet("A", SYN, 7, 0, b"", 0), writer.Packet("A", ACK, 8, 0, writer.handshakes()[0][:20], 0)]
        packets += [writer.Packet("A", ACK, 1000 + 2 * k, 0, b"x", 0) for k in range(count)]
        link, frames = writer.frames(packets + [writer.Packet("A", ACK, 8 + 2 ** 24, 0, b"x", 0)])
        before = resource.getrusage(resource.RUSAGE_CHILDREN).ru_utime
        run(program, writer.pcap((link, frames + 200_000 * frames[-1:])), "-")
        times.append(resource.getrusage(resource.RUSAGE_CHILDREN).ru_utime - before)
    yield "" if times[1] < 3 * times[0] + 0.1 else "late: after 1,000 bytes in a final gap it takes %.2f s for %.2f" % (times[1], times[0])


def main():
    program = sys.argv[1] if len(sys.argv) > 1 else os.path.join(ROOT, "bt_tool")
    found = [*model_differs(program), *left_differs(program), *late_differs(program), *late_costs(program)]
    if shutil.which("tshark"):
        found += tshark_differs(program)
    else:
        print("captures: tshark isn't installed, so it reassembled no stream")
    for text in filter(None, found):
        print("captures: " + text)
    wrong = sum(map(bool, found))
    print("captures: %d of %d as expected" % (len(found) - wrong, len(found)))
    return int(wrong > 0)


if __name__ == "__main__":
    sys.exit(main())
