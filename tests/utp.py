#!/usr/bin/env python3
"""Runs tools/utp on captures of uTP, and `bt_tool capture` on what it writes.

usage: tests/utp.py [PROGRAM]

PROGRAM is the built program, or else the script `bt_tool` at the top of the repository. The captures of tests/utp_captures were made
with libtorrent 2.0.8 on two hosts, with uTP alone: `two` has two torrents between the same two ports; `ipv6` one; `lossy` runs over a
relay that lost 5 % of the datagrams, delayed 12 % and repeated 2 %; in `refused` a relay made `interested` a message with the id 99.
What the sides sent is known of each of them by a rule that needs no order: the payloads by their numbers, each once.
"""
import importlib.machinery
import importlib.util
import os
import random
import struct
import subprocess
import sys
import tempfile

sys.dont_write_bytecode = True
sys.path.insert(0, os.path.dirname(os.path.abspath(__file__)))
from made_captures import ROOT  # noqa: E402

SCRIPT = os.path.join(ROOT, "tools/utp")
CAPTURES = os.path.join(ROOT, "tests/utp_captures")
LOADER = importlib.machinery.SourceFileLoader("utp", SCRIPT)
utp = importlib.util.module_from_spec(importlib.util.spec_from_loader("utp", LOADER))
LOADER.exec_module(utp)
DATA, FIN, STATE, RESET, SYN = range(5)
A, B = (bytes([10, 0, 0, 1]), 51413), (bytes([10, 0, 0, 2]), 6881)
ID = 100


# ---- connections made by hand

def packet(kind, id_, number, acked, payload=b"", extensions=(), lost=0):
    """A packet of uTP (BEP 29), of whose payload `lost` bytes weren't captured."""
    chain, first = b"", 0
    for code, body in reversed(extensions):
        chain, first = bytes([first, len(body)]) + body + chain, code
    head = struct.pack(">BBHIIIHH", kind << 4 | 1, first, id_, 0, 0, 1 << 20, number % 65_536, acked % 65_536)
    return head + chain + payload, lost


def from_a(kind, number, acked, payload=b"", extensions=(), lost=0):
    return A, B, packet(kind, ID + (kind != SYN), number, acked, payload, extensions, lost)


def from_b(kind, number, acked, payload=b"", extensions=(), lost=0):
    return B, A, packet(kind, ID, number, acked, payload, extensions, lost)


def opened(start=7, answer=50):
    """The SYN and its answer, which has the number of B's first data."""
    return [from_a(SYN, start, 0), from_b(STATE, answer, start)]


def turned(sent):
    """What becomes of each packet: its connection, whether A sent it, and its segment, or None; and the connections."""
    connections, found = utp.Connections(), []
    for source, target, (bytes_, lost) in sent:
        datagram = utp.Datagram(source, target, bytes_, len(bytes_) + lost)
        read = utp.utp_of(datagram)
        found.append(read and connections.turn(datagram, read))
    return found, connections


def stream_of(segments):
    """The bytes of a side up to its first gap, by the numbers of its segments."""
    out, start = bytearray(), None
    for it in segments:
        if it.payload:
            start = it.number if start is None else start
            out += it.payload if it.number - start == len(out) else b""
    return bytes(out)


# What each row's last packet becomes: side, sequence number, acknowledged number, flags, payload, whether a byte is missing before it.
ROWS = [
    ("a SYN", [from_a(SYN, 7, 0)], ("A", 7, None, "S", b"", False)),
    ("its answer", opened(), ("B", 0, 8, "SA", b"", False)),
    ("A's first data", [*opened(), from_a(DATA, 8, 49, b"abc")], ("A", 8, 1, "A", b"abc", False)),
    ("B's first data", [*opened(), from_b(DATA, 50, 7, b"xy")], ("B", 1, 8, "A", b"xy", False)),
    ("B's first data after an answer that is counted, as BEP 29 draws it",
     [*opened(), from_a(DATA, 8, 50, b"abc"), from_b(DATA, 51, 8, b"xy")], ("B", 1, 11, "A", b"xy", False)),
    ("an early packet", [*opened(), from_b(DATA, 51, 7, b"yy")], ("B", 1, 8, "A", b"", True)),
    ("the packet before it", [*opened(), from_b(DATA, 51, 7, b"yy"), from_b(DATA, 50, 7, b"x")], ("B", 1, 8, "A", b"xyy", False)),
    ("a repeat", [*opened(), from_b(DATA, 50, 7, b"x"), from_b(DATA, 50, 7, b"z")], ("B", 2, 8, "A", b"", False)),
    ("an ST_STATE past a packet that isn't there", [*opened(), from_b(STATE, 51, 7)], ("B", 1, 8, "A", b"", True)),
    ("an acknowledgment of a packet that isn't there", [*opened(), from_a(DATA, 8, 49, b"a"), from_b(STATE, 50, 9)], ("B", 1, 10, "A", b"", False)),
    ("an acknowledgment out of reach", [*opened(), from_b(STATE, 50, 5_000)], ("B", 1, None, "", b"", False)),
    ("a number out of reach", [*opened(), from_b(DATA, 50 + 4_096, 7, b"x")], ("B", 1, 8, "A", b"", True)),
    ("the next number after it", [*opened(), from_b(DATA, 50 + 4_096, 7, b"x"), from_b(DATA, 50, 7, b"y")], ("B", 1, 8, "A", b"", True)),
    ("the last number in reach", [*opened(), from_b(DATA, 50 + 4_095, 7, b"x"), from_b(DATA, 50, 7, b"y")], ("B", 1, 8, "A", b"y", True)),
    ("numbers that wrap", [*opened(65_535, 65_535), from_a(DATA, 0, 65_534, b"a"), from_b(DATA, 65_535, 0, b"x"), from_b(DATA, 0, 0, b"y")],
     ("B", 2, 65_537, "A", b"y", False)),
    ("a FIN", [*opened(), from_b(FIN, 50, 7)], ("B", 1, 8, "AF", b"", False)),
    ("a FIN with bytes", [*opened(), from_b(FIN, 50, 7, b"xy")], ("B", 1, 8, "AF", b"xy", False)),
    ("a FIN that waits", [*opened(), from_b(FIN, 51, 7), from_b(DATA, 50, 7, b"x")], ("B", 1, 8, "AF", b"x", False)),
    ("what follows a FIN", [*opened(), from_b(FIN, 50, 7), from_b(DATA, 51, 7, b"x")], ("B", 1, 8, "A", b"", False)),
    ("an acknowledged FIN", [*opened(), from_b(FIN, 50, 7), from_a(STATE, 8, 50)], ("A", 8, 2, "A", b"", False)),
    ("a RESET", [*opened(), from_b(RESET, 9, 7)], ("B", 1, None, "R", b"", False)),
    ("a RESET with the id that its sender received", [*opened(), (B, A, packet(RESET, ID + 1, 9, 7))], ("B", 1, None, "R", b"", False)),
    ("a packet that the capture cut", [*opened(), from_b(DATA, 50, 7, b"xy", lost=3)], ("B", 1, 8, "A", b"xy", True)),
    ("extensions", [*opened(), from_b(DATA, 50, 7, b"x", [(1, bytes(4)), (9, b""), (2, bytes(8))])], ("B", 1, 8, "A", b"x", False)),
    ("an extension that doesn't fit", [*opened(), (B, A, (bytes.fromhex("1103") + packet(FIN, ID, 50, 7)[0][2:] + b"\0\x50\0", 0))], None),
    ("an ST_DATA without payload", [*opened(), from_b(DATA, 50, 7)], None),
    ("an ST_STATE with payload", [*opened(), from_b(STATE, 50, 7, b"x")], None),
    ("another id", [*opened(), (B, A, packet(DATA, ID + 2, 50, 7, b"x"))], None),
    ("no SYN", [from_b(DATA, 50, 7, b"x")], None),
    ("the SYN again", [*opened(), from_a(SYN, 7, 0)], ("A", 7, None, "S", b"", False)),
    ("another SYN on the same channels", [*opened(), from_a(SYN, 900, 0)], ("A", 900, None, "S", b"", False)),
    ("a SYN to itself", [(A, A, packet(SYN, ID, 7, 0))], None),
]


def rows():
    for name, sent, wanted in ROWS:
        last = turned(sent)[0][-1]
        yield name, last and ("A" if last[1] else "B", *last[2]), wanted


def closes():
    """the reasons of a close, by libtorrent's extension 3"""
    why = [(3, bytes([0, 0, 1, 6]))]
    _, found = turned([*opened(), from_b(FIN, 50, 7, extensions=why), from_a(FIN, 8, 50, extensions=[(3, bytes([0, 0, 2, 255]))])])
    yield "line", utp.line_of(found.all[0]), "uTP  A 10.0.0.1:51413 > B 10.0.0.2:6881  id 100  4 packets; B closed: 262 (invalid message id); A closed: 767"


def ports():
    """connections between the same two ports: each has a port of its own for A"""
    other = (A, B, packet(SYN, 300, 7, 0))
    both = (B, A, packet(SYN, ID + 40, 7, 0))
    _, found = turned([from_a(SYN, 7, 0), other, both])
    yield "ports", [(it.a, it.port) for it in found.all], [(A, A[1]), (A, 300), (B, ID + 40)]
    _, found = turned([from_a(SYN, 7, 0), (B, A, packet(SYN, ID, 7, 0))])
    yield "both began with one id", len(found.all), 2


def bounds():
    """what is held past a gap"""
    _, found = turned([*opened(), *(from_b(DATA, 51 + k, 7, bytes(10_000)) for k in range(300))])
    b = found.all[0].of_b
    yield "of a direction", (b.size, b.size <= utp.HELD, found.size == b.size), (104 * 10_064, True, True)
    sent = [it for k in range(50) for it in [(A, B, packet(SYN, 4 * k, 7, 0)), (B, A, packet(STATE, 4 * k, 50, 7)),
            *((B, A, packet(DATA, 4 * k, 51 + j, 7, bytes(50_000))) for j in range(20))]]
    yield "of all", turned(sent)[1].size <= utp.HELD_BY_ALL, True


# ---- real captures

def datagrams(name):
    with open(os.path.join(CAPTURES, name + ".pcap"), "rb") as file:
        return [(it.source, it.target, (it.payload, 0)) for it in map(utp.datagram_of, map(utp.ip_of, utp.packets_of(file)))]


def sent_by(sent, syn_id):
    """What both sides of the connection sent: the payloads by their numbers, from the first on (no number wraps there)."""
    first = next(it for it in sent if it[2][0][0] >> 4 == SYN and struct.unpack(">H", it[2][0][2:4])[0] == syn_id)
    out = {}
    for side, source, id_ in (("A", first[0], syn_id + 1), ("B", first[1], syn_id)):
        by_number = {}
        for it in sent:
            read = utp.utp_of(utp.Datagram(it[0], it[1], it[2][0], len(it[2][0])))
            if it[0] == source and read and read.id == id_ and read.payload:
                by_number.setdefault(read.number, read.payload)
        out[side] = b"".join(by_number[number] for number in sorted(by_number))
    return out


def streams(sent):
    """The streams of each connection by its first id."""
    found, connections = turned(sent)
    parts = {it.id: {"A": [], "B": []} for it in connections.all}
    for connection, is_a, segment in filter(None, found):
        parts[connection.id]["A" if is_a else "B"].append(segment)
    return {id_: {side: stream_of(segments) for side, segments in there.items()} for id_, there in parts.items()}


def whole():
    """each stream is what its sides sent"""
    for name in ("two", "ipv6", "lossy", "refused"):
        sent = datagrams(name)
        for id_, found in streams(sent).items():
            yield "%s %d" % (name, id_), found, sent_by(sent, id_)


def shortened():
    """each packet left out in turn: both streams are fronts of what was sent"""
    for name in ("two", "ipv6", "lossy", "refused"):
        sent = datagrams(name)
        true = streams(sent)
        wrong = [(k, id_) for k in range(len(sent)) for id_, found in streams(sent[:k] + sent[k + 1:]).items()
                 for side in "AB" if not true[id_][side].startswith(found[side])]
        yield name, wrong, []


def disturbed():
    """packets that are swapped, repeated and lost: both streams are fronts of what was sent"""
    drawn = random.Random(29)
    for name in ("two", "lossy"):
        sent = datagrams(name)
        true, wrong = streams(sent), []
        for k in range(150):
            far, is_lossy, is_doubled = drawn.choice((2, 12)), k % 3 == 2, k % 3 == 1
            moved = sorted((at + drawn.uniform(0, far), it) for at, it in enumerate(sent) if not (is_lossy and drawn.random() < 0.03))
            again = [it for _, it in moved for _ in range(1 + (is_doubled and drawn.random() < 0.05))]
            wrong += [(k, id_, side) for id_, found in streams(again).items() for side in "AB" if not true[id_][side].startswith(found[side])]
        yield name, wrong, []


# ---- the program on what the script writes

def captured(program, file, *words):
    """The status and lines of the script, and those of the program on what it writes."""
    with open(file, "rb") if isinstance(file, str) else file as given:
        script = subprocess.run([SCRIPT, "-"], stdin=given, capture_output=True, timeout=60)
    ran = subprocess.run([program, "capture", "-", *words], input=script.stdout, capture_output=True, timeout=60)
    return (script.returncode, script.stderr.decode()), (ran.returncode, ran.stdout.decode(), ran.stderr.decode())


def programs(program):
    """bt_tool reads the streams, and says why the other side closed"""
    script, ran = captured(program, os.path.join(CAPTURES, "refused.pcap"))
    yield "refused", script, (0, "uTP  A 10.7.0.2:7000 > B 10.7.0.1:6881  id 61044  11 packets; B closed: 262 (invalid message id)\n")
    yield "its verdict", "bep  refused message=3 at=285 UnknownId" in ran[1], True
    yield "its close", "B closed first, by FIN, at 0.000634 s" in ran[1], True
    ran = subprocess.run([program, "capture", os.path.join(CAPTURES, "refused.pcap")], capture_output=True, timeout=60)
    yield "the line on uTP", ran.stdout.decode().splitlines()[-1], ("uTP  10.7.0.2:7000 > 10.7.0.1:6881  11 packets of BitTorrent over UDP (BEP 29), read from a SYN on; "
                                                  "10.7.0.1:6881 closed: 262 (invalid message id)")
    for name, ends in (("two", 2), ("ipv6", 1), ("lossy", 1)):
        script, ran = captured(program, os.path.join(CAPTURES, name + ".pcap"))
        sent = datagrams(name)
        sizes = sorted(len(it) for found in streams(sent).values() for it in found.values())
        read = sorted(int(line.split("bytes=")[1].split()[0]) for line in ran[1].splitlines() if line.startswith("    bep  ok"))
        yield name, (script[0], ran[0], read, len(script[1].splitlines())), (0, 0, sizes, ends)
    for name in ("two", "lossy"):
        sent = sent_by(datagrams(name), utp_ids(name)[0])
        with open(os.path.join(CAPTURES, name + ".pcap"), "rb") as given:
            script = subprocess.run([SCRIPT, "-"], stdin=given, capture_output=True, timeout=60)
        ran = subprocess.run([program, "capture", "-", "--stream", "0-B"], input=script.stdout, capture_output=True, timeout=60)
        yield name + " --stream", ran.stdout == sent["B"], True


# ---- the program on uTP itself, beside the script

def file_of(sent):
    """A pcap file of these datagrams in IP, a microsecond apart."""
    out = [struct.pack("<IHHIIII", 0xA1B2C3D4, 2, 4, 0, 0, 65535, 101)]
    for k, ((host, port), (other, service), (payload, lost)) in enumerate(sent):
        size = 8 + len(payload) + lost
        datagram = struct.pack(">HHHH", port, service, size, 0) + payload
        if len(host) == 4:
            head = struct.pack(">BBHHHBBH", 0x45, 0, 20 + size, 0, 0, 64, 17, 0) + host + other
        else:
            head = struct.pack(">IHBB", 6 << 28, size, 17, 64) + host + other
        out.append(struct.pack("<IIII", 1, k, len(head) + len(datagram), len(head) + size) + head + datagram)
    return b"".join(out)


def shown(program, file, *words):
    """The status of the program, and its lines on connections. Ports of the script's own are those of the capture again."""
    ran = subprocess.run([program, "capture", "-", "--show", *words], input=file, capture_output=True, timeout=60)
    return ran.returncode, [line for line in ran.stdout.decode().replace(" over uTP", "").splitlines() if not line.startswith("uTP  ")]


def both(program, sent):
    """What the program reads of these packets, and of what the script writes of them."""
    file = file_of(sent)
    script = subprocess.run([SCRIPT, "-"], input=file, capture_output=True, timeout=60)
    status, lines = shown(program, script.stdout)
    for it in turned(sent)[1].all:
        own, true = (utp.end_text((it.a[0], port)) for port in (it.port, it.a[1]))
        lines = [line.replace(own, true) if line.startswith("connection ") else line for line in lines]
    return shown(program, file), (status, lines)


def alike(program):
    """the program reads connections of uTP as the script turns them into TCP: whole, with packets left out, and disturbed"""
    for name in ("two", "ipv6", "lossy", "refused"):
        sent = datagrams(name)
        found, wanted = both(program, sent)
        yield name, found, wanted
        yield name + " has reports", len([line for line in found[1] if line.startswith("connection ")]), len(utp_ids(name))
        drawn = random.Random(name)
        wrong = []
        for k in range(60):
            far, loss = drawn.choice((0, 2, 12)), drawn.choice((0, 0.03))
            moved = sorted((at + drawn.uniform(0, far), it) for at, it in enumerate(sent) if drawn.random() >= loss)
            again = [it for _, it in moved for _ in range(1 + (drawn.random() < 0.05))]
            found, wanted = both(program, again[drawn.choice((0, 0, 0, 9)):])
            wrong += [(k, found, wanted)] if found != wanted else []
        yield name + " disturbed", wrong[:1], []


def peak(program, sent):
    """The status of the program on these packets, and whether it took no more than 300 MB."""
    with tempfile.TemporaryFile() as given:
        given.write(file_of(sent))
        given.seek(0)
        with subprocess.Popen([program, "capture", "-"], stdin=given, stdout=subprocess.DEVNULL, stderr=subprocess.DEVNULL) as ran:
            _, status, used = os.wait4(ran.pid, 0)
            ran.returncode = os.waitstatus_to_exitcode(status)
    return ran.returncode, used.ru_maxrss < 300_000


def crowds(program):
    """captures that are made to take memory: 60 MB past gaps in 3,000 connections, 70,000 SYNs, one SYN after another with one id"""
    def host(k):
        return struct.pack(">I", 0x0a010000 + k), 6881
    holes = [it for k in range(3_000) for it in [(host(k), B, packet(SYN, ID, 7, 0)), (B, host(k), packet(STATE, ID, 50, 7)),
             *((B, host(k), packet(DATA, ID, 51 + j, 7, bytes(1_000))) for j in range(20))]]
    yield "holes", peak(program, holes), (3, True)
    yield "SYNs", peak(program, [(host(k), B, packet(SYN, ID, 7, 0)) for k in range(70_000)]), (3, True)
    again = [it for k in range(20_000) for it in [from_a(SYN, k, 0), from_b(STATE, 50, k), from_b(DATA, 52, k, bytes(1_000))]]
    yield "SYNs with one id", peak(program, again), (3, True)


def utp_ids(name):
    return [it.id for it in turned(datagrams(name))[1].all]


def files(program):
    """other files"""
    with open(os.path.join(CAPTURES, "lossy.pcap"), "rb") as file:
        content = file.read()
    for name, given, wanted in (("cut", content[:-1], (2, "utp: -: it ends inside a packet")), ("no capture", b"hello", (2, "utp: -: it is no pcap or pcapng file")),
                                ("no packets", content[:24], (1, "")), ("empty", b"", (2, "utp: -: it is no pcap or pcapng file"))):
        ran = subprocess.run([SCRIPT, "-"], input=given, capture_output=True, timeout=60)
        yield name, (ran.returncode, (ran.stderr.decode().splitlines() or [""])[0]), wanted
    with open(os.path.join(ROOT, "examples/small.pcap"), "rb") as given:
        script = subprocess.run([SCRIPT, "-"], stdin=given, capture_output=True, timeout=60)
    by_script = subprocess.run([program, "capture", "-", "--show"], input=script.stdout, capture_output=True, timeout=60)
    plain = subprocess.run([program, "capture", os.path.join(ROOT, "examples/small.pcap"), "--show"], capture_output=True, timeout=60)
    yield "TCP stays as it is", (script.returncode, by_script.stdout), (1, plain.stdout)
    ran = subprocess.run([SCRIPT], capture_output=True, timeout=60)
    yield "no word", (ran.returncode, ran.stdout, b"usage" in ran.stderr), (2, b"", True)
    ran = subprocess.run([SCRIPT, "nothing.pcap"], capture_output=True, timeout=60)
    yield "no file", (ran.returncode, ran.stderr), (2, b"utp: nothing.pcap: No such file or directory\n")


def main(words):
    program = os.path.abspath(words[0]) if words else os.path.join(ROOT, "bt_tool")
    checks = failed = 0
    of_program = [lambda it=it: it(program) for it in (programs, alike, crowds, files)]
    for case in (rows, closes, ports, bounds, whole, shortened, disturbed, *of_program):
        for name, found, wanted in case():
            checks += 1
            if found != wanted:
                failed += 1
                print("utp: %s: got %r, expected %r" % (name, found, wanted))
    print("utp: failed: %d of %d checks" % (failed, checks) if failed else "utp: ok: %d checks" % checks)
    return int(failed > 0)


if __name__ == "__main__":
    sys.exit(main(sys.argv[1:]))
