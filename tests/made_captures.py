"""Captures that are made here, and what `bt_tool capture` has to print of each: for tests/capture.py and others.

The streams are those of examples/, whose verdicts examples/README.md states, and some made here by hand.
"""
import hashlib
import os
import re
import socket
import struct

ROOT = os.path.dirname(os.path.dirname(os.path.abspath(__file__)))
FIN, SYN, RST, ACK = 1, 2, 4, 16
A, B = ("10.0.0.1", 51413), ("10.0.0.2", 6881)
NOW = 1_795_000_000  # read as a length it is no packet's


def example(name):
    with open(os.path.join(ROOT, "examples", name), "rb") as file:
        return file.read()


FETCHING, SERVING = example("fetching.bin"), example("serving.bin")


# ---- writing captures

class Packet:
    """A TCP packet of end A or B at a time in milliseconds."""

    def __init__(self, side, flags, sequence, acked, payload, at):
        self.side, self.flags, self.sequence, self.acked = side, flags, sequence, acked
        self.payload, self.at = payload, at

    def tcp(self, ports):
        head = struct.pack(">HHIIHHHH", *ports, self.sequence % 2 ** 32, self.acked % 2 ** 32,
                           5 << 12 | self.flags, 65535, 0, 0)
        return head + self.payload


class Talk:
    """A TCP connection, packet by packet. A segment is acknowledged at once. Sequence numbers start at `start`."""

    def __init__(self, size=1000, start=7):
        self.packets, self.size, self.next = [], size, {"A": start, "B": start + 5}
        self.add("A", SYN)
        self.add("B", SYN | ACK)
        self.add("A", ACK)

    def add(self, side, flags, payload=b""):
        other = "B" if side == "A" else "A"
        self.packets.append(Packet(side, flags, self.next[side], self.next[other] if flags & ACK else 0, payload,
                                   len(self.packets)))
        self.next[side] += len(payload) + bool(flags & (SYN | FIN))

    def say(self, side, stream):
        for at in range(0, len(stream), self.size):
            self.add(side, ACK, stream[at:at + self.size])
            self.add("B" if side == "A" else "A", ACK)
        return self

    def close(self, side):
        other = "B" if side == "A" else "A"
        for end, flags in ((side, FIN | ACK), (other, FIN | ACK), (side, ACK)):
            self.add(end, flags)
        return self


def ipv4(packet, ends, total=None):
    tcp = packet.tcp([port for _, port in ends])
    hosts = b"".join(socket.inet_aton(host) for host, _ in ends)
    total = 20 + len(tcp) if total is None else total
    return struct.pack(">BBHHHBBH", 0x45, 0, total, 0, 0x4000, 64, 6, 0) + hosts + tcp


def ipv6(packet, ends, options=b""):
    tcp = packet.tcp([port for _, port in ends])
    hosts = b"".join(socket.inet_pton(socket.AF_INET6, host) if ":" in host else bytes(14) + bytes([int(host.split(".")[0]), int(host.split(".")[3])])
                     for host, _ in ends)
    return struct.pack(">IHBB", 6 << 28, len(options) + len(tcp), 0 if options else 6, 64) + hosts + options + tcp


MACS = bytes(12)


def session(ip):
    """A packet in a session of PPP over Ethernet."""
    return struct.pack(">HHHH", 0x1100, 7, 2 + len(ip), 0x0021) + ip


def carrying(protocol, payload):
    """A packet of IPv4 from 192.0.2.1 to 192.0.2.2."""
    return struct.pack(">BBHHHBBH4s4s", 0x45, 0, 20 + len(payload), 1, 0, 64, protocol, 0, b"\xc0\x00\x02\x01", b"\xc0\x00\x02\x02") + payload


def attribute(kind, value):
    """An attribute of NFLOG, padded to four bytes."""
    return struct.pack("<HH", 4 + len(value), kind) + value + bytes(-len(value) % 4)


# Name: the link type, and the frame of an IP packet of this version.
FRAMES = {
    "ethernet": (1, lambda ip, kind: MACS + kind + ip),
    "padded": (1, lambda ip, kind: (MACS + kind + ip).ljust(60, b"\xff")),
    "vlan": (1, lambda ip, kind: MACS + b"\x81\x00\x00\x05" + kind + ip),
    "two tags": (1, lambda ip, kind: MACS + b"\x88\xa8\x00\x05\x81\x00\x00\x06" + kind + ip),
    "cooked": (113, lambda ip, kind: bytes(14) + kind + ip),
    "cooked 2": (276, lambda ip, kind: kind + bytes(18) + ip),
    "raw": (101, lambda ip, kind: ip),
    "loopback": (0, lambda ip, kind: b"\x02\x00\x00\x00" + ip),
    "mpls": (1, lambda ip, kind: MACS + b"\x88\x47" + b"\x00\x01\x00\x40\x00\x02\x01\x40" + ip),
    "pppoe": (1, lambda ip, kind: MACS + b"\x88\x64" + session(ip)),
    "ppp": (9, lambda ip, kind: b"\x21" + ip),
    "ppp like hdlc": (50, lambda ip, kind: b"\xff\x03\x00\x21" + ip),
    "ppp over ethernet": (51, lambda ip, kind: session(ip)),
    "gre": (1, lambda ip, kind: MACS + kind + carrying(47, b"\x30\x00" + kind + b"\x00\x00\x00\x07\x00\x00\x00\x01" + ip)),
    "ethernet in gre": (101, lambda ip, kind: carrying(47, b"\x00\x00\x65\x58" + MACS + kind + ip)),
    "ip in ip in ip": (101, lambda ip, kind: carrying(4, carrying(4, ip))),
    "authenticated": (101, lambda ip, kind: carrying(51, b"\x04\x04" + bytes(22) + ip)),
    "nflog": (239, lambda ip, kind: b"\x02\x00\x00\x01" + attribute(10, b"in") + attribute(9, ip)),
    "802.11": (105, lambda ip, kind: b"\x88\x01" + bytes(24) + b"\xaa\xaa\x03\x00\x00\x00" + kind + ip),
    "radiotap": (127, lambda ip, kind: b"\x00\x00\x08\x00" + bytes(4) + b"\x08\x03" + bytes(28) + b"\xaa\xaa\x03\x00\x00\x00" + kind + ip),
    "pktap": (258, lambda ip, kind: struct.pack("<III", 108, 1, 1) + bytes(96) + MACS + kind + ip),
}


class Frame(bytes):
    """The bytes of a frame, with its TCP packet and its ends, the sender first."""


class File(bytes):
    """The bytes of a capture file, with a row for each of its TCP packets: the packet, its ends, its bytes that were captured."""
    packets = ()


def holding(data, **members):
    """These bytes, with more members."""
    vars(data).update(members)
    return data


def frames(packets, name="ethernet", ip=ipv4, ends=(A, B)):
    """The link type, and each packet's time and frame."""
    link, frame = FRAMES[name]
    kind = b"\x08\x00" if ip in (ipv4, offloaded) else b"\x86\xdd"
    ways = [(it, ends if it.side == "A" else ends[::-1]) for it in packets]
    return link, [(it.at, holding(Frame(frame(ip(it, way), kind)), packet=it, ends=way)) for it, way in ways]


def offloaded(packet, ends):
    """An IPv4 packet before the network card cuts it: its header has no length."""
    return ipv4(packet, ends, 0)


def pcap(framed, order="<", nano=False, snap=None, since=1000):
    link, found = framed
    parts = [struct.pack(order + "IHHIIII", 0xA1B23C4D if nano else 0xA1B2C3D4, 2, 4, 0, 0, 262144, link)]
    for at, frame in found:
        parts.append(struct.pack(order + "4I", since + at // 1000, at % 1000 * (10 ** 6 if nano else 1000),
                                 len(frame[:snap]), len(frame)) + frame[:snap])
    return holding(File(b"".join(parts)), packets=packets_of(found, snap))


def packets_of(found, snap=None):
    framed = [it for _, it in found if isinstance(it, Frame)]
    return [(it.packet, it.ends, max(0, len(it.packet.payload) - len(it) + len(it[:snap]))) for it in framed]


def block(order, kind, body):
    body += bytes(-len(body) % 4)
    return struct.pack(order + "II", kind, 12 + len(body)) + body + struct.pack(order + "I", 12 + len(body))


def pcapng(framed, order="<", nano=False):
    link, found = framed
    file = block(order, 0x0A0D0D0A, struct.pack(order + "IHHq", 0x1A2B3C4D, 1, 0, -1))
    option = struct.pack(order + "HHB3xHH", 9, 1, 9, 0, 0) if nano else b""
    # another interface comes first, and a block of a type that isn't read
    file += block(order, 1, struct.pack(order + "HHI", 101, 0, 0))
    file += block(order, 1, struct.pack(order + "HHI", link, 0, 0) + option) + block(order, 5, bytes(12))
    for at, frame in found:
        ticks = (1_000_000 + at) * (10 ** 6 if nano else 1000)
        file += block(order, 6, struct.pack(order + "5I", 1, ticks >> 32, ticks & 0xFFFFFFFF, len(frame), len(frame))
                      + frame)
    return holding(File(file), packets=packets_of(found))


def offset_option(order, *offsets):
    """The options of an interface whose packets' times these seconds are added to: only the first counts, and none of another length."""
    options = struct.pack(order + "HH4s", 1, 4, b"eth0") + struct.pack(order + "HHi", 14, 4, 77)
    return options + b"".join(struct.pack(order + "HHq", 14, 8, it) for it in offsets) + bytes(4)


def moved(framed, offsets, order="<", since=1_000_000):
    """A pcapng file whose packets are on its interfaces in turn. With each interface's offset the first packet is at this second."""
    link, found = framed
    file = block(order, 0x0A0D0D0A, struct.pack(order + "IHHq", 0x1A2B3C4D, 1, 0, -1))
    for offset in offsets:
        file += block(order, 1, struct.pack(order + "HHI", link, 0, 0) + offset_option(order, offset, 5))
    for k, (at, frame) in enumerate(found):
        number = k % len(offsets)
        ticks = (since - offsets[number]) * 10 ** 6 + at * 1000
        file += block(order, 6, struct.pack(order + "5I", number, ticks >> 32, ticks & 0xFFFFFFFF, len(frame), len(frame)) + frame)
    return holding(File(file), packets=packets_of(found))


def simple(framed, snap=0):
    """A pcapng file of simple packet blocks, whose interface has this snap length; 0 is none. Bytes that nobody sent fill each block up."""
    link, found = framed
    file = block("<", 0x0A0D0D0A, struct.pack("<IHHq", 0x1A2B3C4D, 1, 0, -1)) + block("<", 1, struct.pack("<HHI", link, 0, snap))
    for _, frame in found:
        kept = frame[:snap or None]
        file += block("<", 3, struct.pack("<I", len(frame)) + kept + b"\xff" * (-len(kept) % 4))
    return holding(File(file), packets=packets_of(found, snap or None))


def timeless(packets):
    """The same packets, all at one time: a simple packet block has none."""
    for packet in packets:
        packet.at = 0
    return packets


# ---- what is expected

A_LINES = """  A Transmission 3.00
    free ok messages=5 bytes=278
    bep  ok messages=5 bytes=278
    options --reserved 0000000000100005 --metadata-id 2 --donthave-id 7
"""
B_LINES = """  B libtorrent/2.0.8.0
    free ok messages=6 bytes=25889
    bep  ok messages=6 bytes=25889
    options --reserved 0000000000100004 --metadata-id 3
"""
CLOSE = """  A closed first, by FIN, at 0.057000 s
    B had sent 25889 bytes, last: 16736 metadata-data 1 25486 9102
    A had sent 278 bytes, last: 247 metadata-request 1
"""
NAMES = "connection 0  A 10.0.0.1:51413 > B 10.0.0.2:6881\n"
WHOLE = NAMES + A_LINES + B_LINES + CLOSE
WHOLE6 = "connection 0  A [::a01]:51413 > B [::a02]:6881\n" + A_LINES + B_LINES + CLOSE


def talk(**how):
    """Packet 3 has A's stream, and packets 5, 7, .. 55 have B's; packets 57 to 59 close."""
    return Talk(**how).say("A", FETCHING).say("B", SERVING).close("A").packets


def without(*numbers, **how):
    return [it for k, it in enumerate(talk(**how)) if k not in numbers]


def swapped(k, n):
    found = talk()
    found[k], found[n] = found[n], found[k]
    return found


def repeated(k, place, sequence=0, payload=None):
    """Packet k again at another place, `sequence` bytes later, with another payload."""
    found = talk()
    old = found[k]
    found.insert(place, Packet(old.side, old.flags, old.sequence + sequence, old.acked,
                               old.payload if payload is None else payload, found[place].at))
    return found


def refilled():
    """A lost segment that comes later with bytes of its neighbours."""
    found = without(9)
    old = found[7]
    found.insert(30, Packet("B", ACK, old.sequence + 500, old.acked, SERVING[1500:3500], 9))
    return found


def readings():
    """Captures of one connection that say the same: a name and the file."""
    plain = frames(talk())
    yield from ((name, pcap(frames(talk(), name))) for name in FRAMES)
    yield "nanoseconds", pcap(plain, nano=True)
    yield "big-endian", pcap(plain, order=">")
    yield "pcapng", pcapng(plain)
    yield "pcapng, big-endian", pcapng(plain, order=">")
    yield "pcapng, nanoseconds", pcapng(plain, nano=True)
    yield "pcapng, offsets", moved(plain, (999_990, -86_400))
    yield "pcapng, offsets, big-endian", moved(plain, (-3, 1_000_000), order=">")
    yield "segmentation offload", pcap(frames(talk(), ip=offloaded))
    yield "sequence numbers wrap", pcap(frames(talk(start=2 ** 32 - 100)))
    yield "sequence numbers wrap later", pcap(frames(talk(start=2 ** 32 - 20_000)))
    yield "reordered", pcap(frames(swapped(11, 15)))
    yield "after its acknowledgement", pcap(frames(swapped(11, 12)))
    yield "first bytes reordered", pcap(frames(swapped(5, 7)))
    yield "a segment twice", pcap(frames(repeated(9, 15)))
    yield "SYN twice", pcap(frames(repeated(0, 1)))
    yield "two segments again as one", pcap(frames(repeated(7, 20, 500, SERVING[1500:2700])))
    yield "a gap filled by a longer segment", pcap(frames(refilled()))
    yield "a probe without bytes", pcap(frames(repeated(7, 20, -1, b"")))
    yield "the close of B is lost", pcap(frames(without(58, 59)))
    yield "the close of B is lost, its acknowledgement isn't", pcap(frames(without(58)))
    yield "the opening is lost", pcap(frames(without(1, 2)))


def gap_lines(at, more="", message=5, size=1000):
    return B_LINES.replace("    free ok messages=6 bytes=25889\n    bep  ok messages=6 bytes=25889\n", (
        "    gap at %d: %d bytes aren't in the capture%s\n" % (at, size, more)
        + "".join("    %s refused message=%d at=%d EndInside (cut by the gap)\n" % (rules, message, at)
                  for rules in ("free", "bep "))))


def gap_close(last, sent=25889):
    return CLOSE.replace("25889 bytes, last: 16736 metadata-data 1 25486 9102", "%d bytes, last read: %s" % (sent, last))


BLOCK = "301 metadata-data 0 25486 16384"
# What the options say of a receiver whose handshake isn't there.
UNKNOWN = "    options --reserved 0000000000100005 --metadata-id 0 (guessed: its receiver's handshake isn't there)\n"


def gaps():
    """Captures with gaps: name, file, output."""
    yield "a segment lost", pcap(frames(without(7))), NAMES + A_LINES + gap_lines(1000) + gap_close("296 choke")
    link, framed = frames(talk())
    at, whole = framed[7]
    framed[7] = at, whole[:46] + b"\x20" + whole[47:]
    yield "a TCP header of 8 bytes", pcap((link, framed)), NAMES + A_LINES + gap_lines(1000) + gap_close("296 choke")
    lines = gap_lines(1000, "; 2 gaps, 2000 bytes in all")
    yield "two segments lost", pcap(frames(without(7, 11))), NAMES + A_LINES + lines + gap_close("296 choke")
    lines = NAMES + A_LINES + gap_lines(25000, message=6, size=889)
    yield "the end lost", pcap(frames(without(55))), lines + gap_close(BLOCK, 25000)
    yield "the end and the close lost", pcap(frames(without(55, 58, 59))), lines + gap_close(BLOCK, 25000)
    lines = NAMES + "  A sent 0 bytes and no whole handshake\n    gap at 0: 278 bytes aren't in the capture\n" + B_LINES
    lines = re.sub(" *options.*\n", UNKNOWN, lines) + CLOSE[:CLOSE.index("    A had")]
    # without the id of A's handshake the block of 9,102 bytes and its dictionary of 45 are only an extended message
    lines = lines.replace("16736 metadata-data 1 25486 9102", "16736 extended 3 9147")
    yield "one direction's start lost", pcap(frames(without(3))), lines


def one_side():
    """Only B's packets of a connection, after three packets of another one. The acknowledgements tell that A sent FETCHING."""
    link, before = frames(Talk().packets, ends=(("10.0.0.3", 1024), ("10.0.0.4", 6881)))
    said = [it for it in Talk().say("A", FETCHING).say("B", SERVING).packets if it.side == "B"]
    for it in said:
        it.at += len(before)
    return pcap((link, before + frames(said)[1]))


# ---- streams made by hand

HASH = bytes.fromhex("a9993e364706816aba3e25717850c26c9cd0d89d")


def hand(peer, reserved="0000000000100005", info_hash=HASH):
    return b"\x13BitTorrent protocol" + bytes.fromhex(reserved) + info_hash + peer


def message(*parts):
    body = b"".join(parts)
    return struct.pack(">I", len(body)) + body


def handshakes(**how):
    return hand(b"-AA0001-000000000000", **how), hand(b"-BB0001-000000000000", **how)


def report(name, sent, free, bep, options="--reserved 0000000000100005 --metadata-id 0", side="A", notes="", why=""):
    why = why and "    why  %s.\n" % why
    return "  %s %s\n%s    free %s\n    bep  %s\n%s    options %s\n" % (side, name, notes, free, bep, why, options)


def empty_b(options="--reserved 0000000000100005 --metadata-id 0", notes=""):
    """The lines of an end B that sends its handshake alone."""
    ok = "ok messages=0 bytes=68"
    return report("-BB0001-000000000000", 68, ok, ok, options, "B", notes)


LINE_A = "0 handshake 0000000000100005 %s 2d4141303030312d303030303030303030303030" % HASH.hex()
LINE_B = "0 handshake 0000000000100005 %s 2d4242303030312d303030303030303030303030" % HASH.hex()


def fault():
    """B answers an index that is too high by closing: packets 3 and 7 are A's, 5 is B's, 9 closes."""
    left, right = handshakes()
    found = Talk().say("A", left).say("B", right)
    found.say("A", message(b"\x0f") + message(b"\x04", struct.pack(">I", 38)) + message(b"\x02")).close("B")
    options = "--reserved 0000000000100005 --metadata-id 0 --pieces 38"
    refused = "refused message=2 at=78 BadIndex"
    why = "The have message names piece 38, and the torrent has 38 pieces, so the last index is 37"
    lines = NAMES + report("-AA0001-000000000000", 87, refused, refused, options, why=why) + empty_b(options)
    return pcap(frames(found.packets)), lines + """  B closed first, by FIN, at 0.009000 s
    A had sent 87 bytes, last: refused message=2 at=78 BadIndex
    B had sent 68 bytes, last: %s
""" % LINE_B


def shown():
    """The rows of `fault`, in the order of packets. Both ends send a FIN."""
    return """0     0.003000 A %s
0     0.005000 B %s
0     0.007000 A 68 have-none
0     0.007000 A 78 refused message=2 at=78 BadIndex
0     0.009000 B 68 (FIN)
0     0.010000 A 87 (FIN)
""" % (LINE_A, LINE_B)


def odd_peer_ids():
    """A's peer id has bytes that are escaped in JSON, and two that are one letter in UTF-8; B's isn't UTF-8."""
    found = Talk().say("A", hand(b'-AA"\\\n\t\x1f\xc3\xa4-000000000')).say("B", hand(20 * b"\xff"))
    ok = "ok messages=0 bytes=68"
    options = "--reserved 0000000000100005 --metadata-id 0"
    lines = report('-AA"\\.....-000000000', 68, ok, ok) + report(20 * ".", 68, ok, ok, options, "B")
    return pcap(frames(found.packets)), NAMES + lines + "  still open at the capture's end\n"


def other_extension():
    """B has ut_metadata under 9 and another extension under 3, of which A sends a byte."""
    left, right = handshakes()
    extended = message(b"\x14\x00d1:md11:upload_onlyi3e11:ut_metadatai9eee")
    found = Talk().say("B", right + message(b"\x0f") + extended)
    found.say("A", left + message(b"\x0f") + message(b"\x14\x03\x01"))
    lines = NAMES + report("-AA0001-000000000000", 80, *2 * ["ok messages=2 bytes=80"],
                           "--reserved 0000000000100005 --metadata-id 9")
    size = 68 + 5 + len(extended)
    return pcap(frames(found.packets)), lines + report(
        "-BB0001-000000000000", size, *2 * ["ok messages=2 bytes=%d" % size], side="B"
    ) + "  still open at the capture's end\n"


def gap_in_handshake():
    """A's bytes 17 to 33 aren't in the capture; with B's handshake, and without it."""
    left, right = handshakes()
    found = Talk(17).say("A", left)
    del found.packets[5]
    alone = pcap(frames(found.packets))
    guessed = "--reserved 0000000000100005 --metadata-id 0 (guessed: its receiver's handshake isn't there)"
    lines = NAMES + "  A sent 17 bytes and no whole handshake\n    gap at 17: 17 bytes aren't in the capture\n" + empty_b(guessed)
    yield pcap(frames(found.say("B", right).packets)), lines + "  still open at the capture's end\n", b"", 0
    none = "  no BitTorrent handshake: encrypted, another protocol, or its start isn't in the capture\n"
    yield alone, NAMES[:-1] + none, b"no BitTorrent connection in 10 packets", 3


SHORT = "A message that takes back a piece has four bytes after its extended id, and this one has another number"


def donthave(ids="11:lt_donthavei7e11:ut_metadatai9e", said="--metadata-id 9 --donthave-id 7",
             verdict="refused message=1 at=74 BadExtLength", why=SHORT, payload=b"\0\0\x09"):
    """B has these ids, and A sends bytes under 7; a message that takes back a piece has four."""
    left, right = handshakes()
    extended = message(b"\x14\x00d1:md%see" % ids.encode())
    found = Talk().say("B", right + extended).say("A", left + message(b"\x14\x07" + payload))
    lines = NAMES + report("-AA0001-000000000000", 74 + len(payload), verdict, verdict, "--reserved 0000000000100005 " + said, why=why)
    size = 68 + len(extended)
    return pcap(frames(found.packets)), lines + report(
        "-BB0001-000000000000", size, *2 * ["ok messages=1 bytes=%d" % size], side="B"
    ) + "  still open at the capture's end\n"


ONE_ID = ("11:lt_donthavei7e11:ut_metadatai7e", "--metadata-id 7", "refused message=1 at=74 BadBencode",
          "The payload has to begin with a bencoded dictionary, and none goes on with the byte 0x00 at 74")
TAKEN_BACK = {"verdict": "ok messages=1 bytes=78", "why": "", "payload": b"\0\0\0\x09"}
NO_ID = ("11:lt_donthavei0e11:ut_metadatai9e", "--metadata-id 9", "ok messages=1 bytes=77", "")


def without_fast():
    """B hasn't the Fast Extension, so A's first message may be any."""
    left, right = handshakes()[0], hand(b"-BB0001-000000000000", "0000000000100000")
    found = Talk().say("B", right).say("A", left + message(b"\x02"))
    lines = NAMES + report("-AA0001-000000000000", 73, *2 * ["ok messages=1 bytes=73"],
                           "--reserved 0000000000100000 --metadata-id 0")
    return pcap(frames(found.packets)), lines + empty_b() + "  still open at the capture's end\n"


def no_length():
    """A's extended handshake has a byte string whose length is below 0, at 75."""
    left, right = handshakes()
    found = Talk().say("A", left + message(b"\x14\x00d-3:ae")).say("B", right)
    refused = "refused message=1 at=75 BadBencode"
    why = "The payload has to begin with a bencoded dictionary, and none goes on with the byte 0x2d at 75"
    lines = NAMES + report("-AA0001-000000000000", 80, refused, refused, why=why) + empty_b()
    return pcap(frames(found.packets)), lines + "  still open at the capture's end\n"


def key_exchange():
    """Both streams begin after the key exchange of an encrypted connection whose payload is plain. A's end is cut."""
    left, right = handshakes()
    found = Talk(size=400).say("A", bytes(range(200)) * 3).say("B", bytes(range(200, 250)) * 10)
    found.say("A", left + message(b"\x0f") + b"\0\0").say("B", right)
    notes = "    handshake after %d bytes of a key exchange; offsets count from it\n"
    cut = "refused message=2 at=75 EndInside (cut by the capture's end)"
    lines = NAMES + report("-AA0001-000000000000", 75, cut, cut, notes=notes % 600) + empty_b(notes=notes % 500)
    return pcap(frames(found.packets)), lines + "  still open at the capture's end\n"


def cut_by_the_other():
    """B resets the connection inside a message of A."""
    left, right = handshakes()
    found = Talk().say("A", left + message(b"\x0f") + b"\0\0").say("B", right)
    found.add("B", RST)
    cut = "refused message=2 at=75 EndInside (cut by the close of the other end)"
    return pcap(frames(found.packets)), NAMES + report("-AA0001-000000000000", 75, cut, cut) + empty_b() + """\
  B closed first, by RST, at 0.007000 s
    A had sent 75 bytes, last: 68 have-none
    B had sent 68 bytes, last: %s
""" % LINE_B


def resets():
    """Name, capture and lines: after both handshakes come resets of A and B. One that its receiver couldn't take closes nothing (RFC 9293 3.5.3)."""
    left, right = handshakes()
    acked = Talk().say("A", left).say("B", right).packets  # then A's next number is 76, and B's is 81; the receivers acknowledged both
    unacked, bare = acked[:6], [Packet("A", 0, 8, 0, left, 0), Packet("B", 0, 13, 0, right, 0)]
    far, fin = ("A", RST, 76 + 2 ** 31), ("A", FIN | ACK, 76)
    rows = (
        ("2^31 ahead", acked, [far], None),
        ("2^31 - 1 ahead, with ACK", acked, [("B", RST | ACK, 81 + 2 ** 31 - 1)], None),
        ("100,000,000 ahead, of the other side", acked, [("B", RST, 100_000_081)], None),
        ("at the next number", acked, [("A", RST, 76)], ("A", "RST")),
        ("one past what was sent", acked, [("A", RST, 77)], None),
        ("one past what was sent, of the other side", acked, [("B", RST, 82)], None),
        ("one before what was acknowledged", acked, [("A", RST, 75)], None),
        ("at what was acknowledged", unacked, [("B", RST, 13)], ("B", "RST")),
        ("between what was acknowledged and sent", unacked, [("B", RST, 40)], ("B", "RST")),
        ("one past what was sent and not acknowledged", unacked, [("B", RST, 82)], None),
        ("one before the handshake, after the other's ACK", unacked, [("B", RST, 12)], None),
        ("at the first known number, without an acknowledgment", bare, [("A", RST, 8)], ("A", "RST")),
        ("before the first known number, without an acknowledgment", bare, [("A", RST, 7)], None),
        ("past what was sent, without an acknowledgment", bare, [("B", RST, 82)], None),
        ("before the first acknowledgment", acked[:1], [("A", RST, 9), *acked[1:]], None),
        ("twice", acked, [far, far], None),
        ("with SYN and FIN", acked, [("A", RST | SYN | FIN, 500)], None),
        ("before a true one", acked, [far, ("B", RST, 81)], ("B", "RST")),
        ("before a FIN", acked, [far, fin], ("A", "FIN")),
        ("after a FIN, before a true one", acked, [fin, far, ("A", RST, 77)], ("A", "FIN")),
    )
    ok = "ok messages=0 bytes=68"
    for name, before, after, closed in rows:
        found = before + [it if isinstance(it, Packet) else Packet(*it, 0, b"", 0) for it in after]
        for at, packet in enumerate(found):
            packet.at = at
        close = "  still open at the capture's end\n"
        if closed:
            at = next(at for at, it in enumerate(found) if it.side == closed[0] and it.flags & (FIN | RST) and it.sequence < 2 ** 31)
            had = ["    %s had sent 68 bytes, last: %s\n" % it for it in (("A", LINE_A), ("B", LINE_B))]
            close = "  %s closed first, by %s, at %d.%06d s\n" % (*closed, 0, 1000 * at) + "".join(had if closed[0] == "B" else had[::-1])
        is_true = len(found) == len(before) + 1 and closed
        count = {side: sum(bool(it.side == side and it.flags & RST) for it in found) for side in "AB"}
        if closed and closed[1] == "RST":
            count[closed[0]] -= 1
        if name.startswith("after a FIN"):
            count["A"] -= 1
        a = report("-AA0001-000000000000", 68, ok, ok, notes=outside(count["A"]))
        yield "%s reset %s" % ("a" if is_true else "a stray", name), pcap(frames(found)), NAMES + a + empty_b(notes=outside(count["B"])) + close


def outside(count):
    """The line on segments outside the window."""
    return "    %d segment%s outside the window\n" % (count, "s" * (count > 1)) if count else ""


def goes_on_after_a_reset():
    """A goes on five seconds after a RST that B couldn't take, amid a message: it is the same connection."""
    left, right = handshakes()
    found = Talk().say("A", left + message(b"\x0f") + b"\0\0").say("B", right)
    found.packets.append(Packet("A", RST, found.next["A"] + 2 ** 31, 0, b"", 7))
    found.say("A", b"\0\1\2")
    for packet in found.packets[-2:]:
        packet.at += 5000
    ok = "ok messages=2 bytes=78"
    lines = NAMES + report("-AA0001-000000000000", 78, ok, ok, notes=outside(1)) + empty_b()
    return pcap(frames(found.packets)), lines + "  still open at the capture's end\n"


def outside_the_window():
    """Name, capture and lines: among B's packets come some that aren't in the window of A, or can't acknowledge what A has sent (RFC 9293 3.4,
    3.10.7.4). None of them tells anything of B's bytes, nor ends, closes or begins anything."""
    last, first = talk()[19], talk()[1]
    at, acked = last.sequence + len(last.payload), last.acked
    rows = (
        ("a byte 2^30 ahead", [(ACK, at + 2 ** 30, acked, b"x")], 1),
        ("the first number past the greatest window", [(ACK, at + (65535 << 14), acked, b"")], 1),
        ("two empty ones with strange numbers", [(ACK, at + 2 ** 31 - 1, acked, b""), (ACK, at + 2 ** 30 + 5, acked, b"")], 2),
        ("two empty ones with strange numbers, the first one behind", [(ACK, at + 2 ** 31 + 9, acked, b""), (ACK, at + 2 ** 30 + 9, acked, b"")], 1),
        ("two acknowledgments of what A hasn't sent", [(ACK, at, acked + 2 ** 30, b""), (ACK, at, acked + 2 ** 31 - 1, b"")], 0),
        ("a FIN 2^30 ahead", [(FIN | ACK, at + 2 ** 30, acked, b"")], 1),
        ("a FIN before what was acknowledged", [(FIN | ACK, first.sequence + 1, acked, b"")], 1),
        ("a SYN 2^30 ahead", [(SYN | ACK, at + 2 ** 30, acked, b"")], 1),
        ("a SYN with a FIN and a byte, twice", 2 * [(SYN | FIN | ACK, at + 2 ** 31, acked, b"y")], 2),
    )
    for name, more, count in rows:
        found = talk()
        found[21:21] = [Packet("B", *it, found[20].at) for it in more]
        lines = B_LINES.replace("    free", outside(count) + "    free", 1)
        yield "outside the window: " + name, pcap(frames(found)), NAMES + A_LINES + lines + CLOSE


def keep_alive():
    """A keep-alive of B with another byte (RFC 1122 4.2.3.6)."""
    found = talk()
    last = found[19]
    found.insert(21, Packet("B", ACK, last.sequence + len(last.payload) - 1, last.acked, bytes([last.payload[-1] ^ 255]), found[20].at))
    return pcap(frames(found)), WHOLE


def cut_by_itself():
    """A closes inside a message of its own."""
    left, right = handshakes()
    found = Talk().say("A", left + b"\0\0").say("B", right).close("A")
    cut, why = "refused message=1 at=70 EndInside", "The stream ends inside the length of a message, after 2 of its 4 bytes"
    return pcap(frames(found.packets)), NAMES + report("-AA0001-000000000000", 70, cut, cut, why=why) + empty_b() + """\
  A closed first, by FIN, at 0.007000 s
    B had sent 68 bytes, last: %s
    A had sent 70 bytes, last: %s
""" % (LINE_B, LINE_A)


def twice():
    """Two connections between the same ports, one with HTTP, and packets that aren't TCP."""
    first, second = Talk(), Talk(start=5000)
    left, right = handshakes()
    first.say("A", left).say("B", right).close("A")
    second.say("A", left).say("B", right)
    link, found = frames(first.packets + second.packets)
    found += frames(Talk().say("A", b"GET / HTTP/1.1\r\n\r\n").packets, ends=(("10.0.0.3", 999), ("10.0.0.4", 80)))[1]
    found += frames(Talk().packets, ends=(("10.0.0.3", 998), ("10.0.0.4", 80)))[1]
    udp = struct.pack(">BBHHHBBH", 0x45, 0, 28, 0, 0, 64, 17, 0) + bytes(16)
    found += [(0, MACS + b"\x08\x00" + udp), (0, MACS + b"\x08\x06" + bytes(28)), (0, MACS), (0, b"")]
    ok = "ok messages=0 bytes=68"
    both = report("-AA0001-000000000000", 68, ok, ok) + empty_b()
    return pcap((link, found)), NAMES + both + """  A closed first, by FIN, at 0.007000 s
    B had sent 68 bytes, last: %s
    A had sent 68 bytes, last: %s
""" % (LINE_B, LINE_A) + NAMES.replace("0", "1", 1) + both + """  still open at the capture's end
connection 2  A 10.0.0.3:999 > B 10.0.0.4:80  no BitTorrent handshake: encrypted, another protocol, or its start \
isn't in the capture
"""


def replaced():
    """Another connection between the same ports begins before one is closed."""
    left, right = handshakes()
    link, found = frames(Talk().say("A", left).say("B", right).packets + Talk(start=5000).say("A", left).say("B", right).packets)
    both = report("-AA0001-000000000000", 68, *2 * ["ok messages=0 bytes=68"]) + empty_b()
    first = NAMES + both + "  not closed; a later connection has the same ports\n"
    return pcap((link, found)), first + NAMES.replace("0", "1", 1) + both + "  still open at the capture's end\n"


def conflict():
    """A segment comes again with two other bytes."""
    other = b"\xff\xff" + SERVING[1002:2000] if SERVING[1000] != 255 != SERVING[1001] else None
    lines = B_LINES.replace("    free", "    repeated with other bytes: 2; the first ones count\n    free", 1)
    return pcap(frames(repeated(7, 20, 0, other))), NAMES + A_LINES + lines + CLOSE


TORRENT = b"d8:announce1:x4:infod6:lengthi1e4:name1:a12:piece lengthi16384e6:pieces60:" + 60 * b"p" + b"ee"


def with_torrent():
    """Of two torrents one has its piece count in a .torrent file."""
    info_hash = hashlib.sha1(TORRENT[TORRENT.index(b"4:info") + 6:-1]).digest()
    left, right = handshakes(info_hash=info_hash)
    third = message(b"\x0f") + message(b"\x04", struct.pack(">I", 3))
    found = Talk().say("A", left + third).say("B", right)
    plain = Talk().say("A", handshakes()[0] + third).say("B", handshakes()[1])
    link, both = frames(found.packets)
    ends = (("10.0.0.1", 51414), B)
    both += frames(plain.packets, ends=ends)[1]
    options = "--reserved 0000000000100005 --metadata-id 0 --pieces 3"
    refused, ok = "refused message=2 at=78 BadIndex", "ok messages=2 bytes=82"
    still = "  still open at the capture's end\n"
    why = "The have message names piece 3, and the torrent has 3 pieces, so the last index is 2"
    lines = NAMES + report("-AA0001-000000000000", 82, refused, refused, options, why=why) + empty_b(options) + still
    lines += NAMES.replace("0", "1", 1).replace("51413", "51414") + report("-AA0001-000000000000", 82, ok, ok)
    return pcap((link, both)), lines + empty_b() + still + "  A sent a have of a piece that never came here: 73 have 3\n"


def stray():
    """A segment of 8 bytes that lies wholly before B's stream, and comes after B's first segments."""
    found = talk()
    found.insert(9, Packet("B", ACK, found[5].sequence - 20, found[5].acked, b"stray by", 9))
    return found


def number(*values):
    return struct.pack(">%dI" % len(values), *values)


def have(index):
    return message(b"\x04", number(index))


def request(*block):
    return message(b"\x06", number(*block))


def block_of(index, begin, size=1):
    return message(b"\x07", number(index, begin), bytes(size))


def together():
    """Each remark that needs both directions. A asks, B answers, and B closes with three requests open."""
    left, right = handshakes()
    found = Talk().say("A", left + message(b"\x0f")).say("B", right + message(b"\x05", b"\xc0"))
    found.say("A", request(0, 0, 1))  # 73: B hasn't unchoked A
    found.say("B", message(b"\x11", number(1)) + message(b"\x01"))  # 74: allows piece 1; 83: unchokes
    found.say("A", request(1, 0, 1) + request(1, 0, 1) + request(1, 1, 1))  # 90; 107: again; 124
    # 88: the first request's answer; 102: nobody asked; 116: a byte was asked for, and 2 come
    found.say("B", block_of(0, 0) + block_of(2, 0) + block_of(1, 0, 2))
    found.say("A", have(0) + have(5))  # 141: of what B has sent; 150: never came
    found.say("B", have(0) + have(1) + have(3))  # 131, 140: its bitfield has these; 149: B has it from elsewhere
    found.say("B", message(b"\x00"))  # 158
    found.say("A", request(1, 2, 1)).close("B")  # 159: piece 1 is allowed
    a = report("-AA0001-000000000000", 176, *2 * ["ok messages=8 bytes=176"])
    b = report("-BB0001-000000000000", 163, *2 * ["ok messages=10 bytes=163"], side="B")
    return pcap(frames(found.packets)), NAMES + a + b + """\
  B closed first, by FIN, at 0.023000 s
    A had sent 176 bytes, last: 159 request 1 2 1
    B had sent 163 bytes, last: 158 choke
  A sent a request while it was choked: 73 request 0 0 1
  A sent a request again before its answer: 107 request 1 0 1
  A sent 3 requests that got no answer, the first: 107 request 1 0 1
  A sent a have of a piece that never came here: 150 have 5
  B sent 2 answers that nobody asked for, the first: 102 piece 2 0 1
  B sent a have of a piece that never came here: 149 have 3
"""


def choked():
    """Requests that get no answer: B answers a later one, and chokes after another. A closes after one that B never could answer."""
    left, right = handshakes()
    found = Talk().say("A", left + message(b"\x0f")).say("B", right + message(b"\x0e") + message(b"\x01"))
    found.say("A", request(0, 0, 1) + request(0, 1, 1)).say("B", block_of(0, 1))  # 73, 90
    found.say("A", request(0, 2, 1)).say("B", message(b"\x00")).say("A", request(0, 3, 1)).close("A")  # 107, 124
    a = report("-AA0001-000000000000", 141, *2 * ["ok messages=5 bytes=141"])
    b = report("-BB0001-000000000000", 97, *2 * ["ok messages=4 bytes=97"], side="B")
    return pcap(frames(found.packets)), NAMES + a + b + """\
  A closed first, by FIN, at 0.017000 s
    B had sent 97 bytes, last: 92 choke
    A had sent 141 bytes, last: 124 request 0 3 1
  A sent a request while it was choked: 124 request 0 3 1
  A sent 2 requests that got no answer, the first: 73 request 0 0 1
"""


def asked_again():
    """Without the Fast Extension a choke drops the requests of the other side, and a cancel its own. Of three that A makes again only
    the last one was open."""
    options = "--reserved 0000000000100000 --metadata-id 0"
    left, right = handshakes(reserved="0000000000100000")
    found = Talk().say("A", left).say("B", right + message(b"\x01")).say("A", request(0, 0, 1))  # 68
    found.say("B", message(b"\x00") + message(b"\x01"))
    found.say("A", request(0, 0, 1) + message(b"\x08", number(0, 0, 1)) + request(0, 0, 1) + request(0, 0, 1))  # 85, 102, 119, 136
    a = report("-AA0001-000000000000", 153, *2 * ["ok messages=5 bytes=153"], options)
    b = report("-BB0001-000000000000", 83, *2 * ["ok messages=3 bytes=83"], options, "B")
    still = "  still open at the capture's end\n"
    return pcap(frames(found.packets)), NAMES + a + b + still + "  A sent a request again before its answer: 136 request 0 0 1\n"


def passed_over():
    """B answers the second of three requests, and A closes: the first got no answer, and the third may be under way."""
    left, right = handshakes()
    found = Talk().say("A", left + message(b"\x0f")).say("B", right + message(b"\x0e") + message(b"\x01"))
    found.say("A", request(0, 0, 1) + request(0, 1, 1)).say("B", block_of(0, 1)).say("A", request(0, 2, 1)).close("A")
    a = report("-AA0001-000000000000", 124, *2 * ["ok messages=4 bytes=124"])
    b = report("-BB0001-000000000000", 92, *2 * ["ok messages=3 bytes=92"], side="B")
    return pcap(frames(found.packets)), NAMES + a + b + """\
  A closed first, by FIN, at 0.013000 s
    B had sent 92 bytes, last: 78 piece 0 1 1
    A had sent 124 bytes, last: 107 request 0 2 1
  A sent a request that got no answer: 73 request 0 0 1
"""


def open_requests():
    """Names, captures and lines. B answers the second of two requests, and A closes: nothing is said of the first if B ends inside a
    message, if bytes of B are lost, or without the Fast Extension. A reject is an answer, too: B closes with the second one open."""
    full, none, fast = "0000000000100005", "0000000000100000", "0000000000000004"
    cut, lost = "refused message=4 at=95 EndInside (cut by the close of the other end)", "ok messages=3 bytes=92 (up to the gap)"
    gap, said = "    gap at 92: 9 bytes aren't in the capture\n", "  A sent a request that got no answer: 90 request 0 1 1\n"
    reject = message(b"\x10", number(0, 0, 1))
    for name, bits, answers, drop, free, notes, sent, last, closer, remark in (
            ("inside a message", full, [block_of(0, 1), have(1)[:3]], None, cut, "", 95, "78 piece 0 1 1", "A", ""),
            ("before a gap", full, [block_of(0, 1), have(1)], 11, lost, gap, 92, "78 piece 0 1 1", "A", ""),
            ("without the Fast Extension", none, [block_of(0, 1)], None, "ok messages=2 bytes=87", "", 87, "73 piece 0 1 1", "A", ""),
            ("after a reject", fast, [reject], None, "ok messages=3 bytes=95", "", 95, "78 reject 0 0 1", "B", said)):
        first = message(b"\x0f") if bits != none else b""
        left, right = handshakes(reserved=bits)
        found = Talk().say("A", left + first).say("B", right + first + message(b"\x01")).say("A", request(0, 0, 1) + request(0, 1, 1))
        for it in answers:
            found.say("B", it)
        at, size = len(found.packets), len(left + first) + 34
        packets = [it for k, it in enumerate(found.close(closer).packets) if k != drop]
        options, ok = "--reserved %s --metadata-id 0" % bits, "ok messages=%d bytes=%d" % (2 + bool(first), size)
        lines = report("-AA0001-000000000000", size, ok, ok, options) + report("-BB0001-000000000000", sent, free, free, options, "B", notes)
        lines += "  %s closed first, by FIN, at 0.%03d000 s\n" % (closer, at)
        read = " read" if notes else ""
        ends = ["    B had sent %d bytes, last%s: %s\n" % (sent, read, last), "    A had sent %d bytes, last: %d request 0 1 1\n" % (size, size - 17)]
        yield name, pcap(frames(packets)), NAMES + lines + "".join(ends if closer == "A" else ends[::-1]) + remark


def explained(bits):
    """Names, captures and lines. A lost segment may explain what else were remarked: the request of a block that comes, the unchoke
    before a request, and the block before a have. After it its sender says one thing more, so its bytes are known to be missing."""
    left, right = handshakes(reserved=bits)
    left, right = left + message(b"\x0f"), right + message(b"\x0e")
    unchoke, ask = message(b"\x01"), request(0, 0, 1)
    for name, said, lost, answer in (("request", [("A", left), ("B", right + unchoke)], ("A", ask), ("B", block_of(0, 0))),
                                     ("unchoke", [("A", left), ("B", right)], ("B", unchoke), ("A", ask)),
                                     ("block", [("A", left), ("B", right + unchoke), ("A", ask)], ("B", block_of(0, 0)), ("A", have(0)))):
        found = Talk()
        for side, stream in said:
            found.say(side, stream)
        at = len(found.packets)
        found.say(*lost).say(lost[0], message()).say(*answer)
        packets = [it for k, it in enumerate(found.packets) if k != at]
        known = {"A": "", "B": "", lost[0]: " (up to the gap)"}
        lines = NAMES
        for side, peer in (("A", "-AA0001-000000000000"), ("B", "-BB0001-000000000000")):
            stream = b"".join(it for sender, it in (said if side == lost[0] else [*said, answer]) if sender == side)
            count, rest = 0, stream[68:]
            while rest:
                count, rest = count + 1, rest[4 + int.from_bytes(rest[:4], "big"):]
            verdict = "ok messages=%d bytes=%d%s" % (count, len(stream), known[side])
            notes = "    gap at %d: %d bytes aren't in the capture\n" % (len(stream), len(lost[1])) if side == lost[0] else ""
            lines += report(peer, len(stream), verdict, verdict, "--reserved %s --metadata-id 0" % bits, side, notes)
        yield name, pcap(frames(packets)), lines + "  still open at the capture's end\n"


def one_sided():
    """Only A's packets: what A acknowledged of B is missing. The last acknowledgement is that of B's FIN."""
    lines = A_LINES.replace("0000000000100005 --metadata-id 2 --donthave-id 7", UNKNOWN.split("--reserved ")[1].strip().replace("100005", "100004"))
    lines += "  B sent 0 bytes and no whole handshake\n    gap at 0: 25890 bytes aren't in the capture\n"
    close = CLOSE[:CLOSE.index("    B had")] + "    A had sent 278 bytes, last: 247 extended 2 25\n"
    return pcap(frames([it for it in talk() if it.side == "A"])), NAMES + lines + close


def late():
    """A closes before B's handshake is whole, and B sends the rest and a message."""
    bits = "0000000000000000"
    left, right = handshakes(reserved=bits)
    found = Talk().say("A", left).say("B", right[:40])
    found.add("A", FIN | ACK)
    found.say("B", right[40:] + message(b"\x02")).add("B", FIN | ACK)
    found.add("A", ACK)
    options = "--reserved %s --metadata-id 0" % bits
    a = report("-AA0001-000000000000", 68, *2 * ["ok messages=0 bytes=68"], options)
    b = report("-BB0001-000000000000", 73, *2 * ["ok messages=1 bytes=73"], options, "B")
    return pcap(frames(found.packets)), NAMES + a + b + """\
  A closed first, by FIN, at 0.007000 s
    B had sent 40 bytes, last: nothing
    A had sent 68 bytes, last: %s
""" % handshake_line(left)


def dropped():
    """libtorrent closes at a block of a byte that nobody had asked for: neither direction is refused."""
    left, right = handshakes()
    found = Talk().say("A", left + message(b"\x0f")).say("B", right + message(b"\x0f")).say("A", block_of(0, 0)).close("B")
    a = report("-AA0001-000000000000", 87, *2 * ["ok messages=2 bytes=87"])
    b = report("-BB0001-000000000000", 73, *2 * ["ok messages=1 bytes=73"], side="B")
    return pcap(frames(found.packets)), NAMES + a + b + """\
  B closed first, by FIN, at 0.009000 s
    A had sent 87 bytes, last: 73 piece 0 0 1
    B had sent 73 bytes, last: 68 have-none
  A sent an answer that nobody asked for: 73 piece 0 0 1
"""


def drops():
    """The six streams for which libtorrent 2.0.8 hangs up, by its own log: the name, the words, the capture, the report, the
    status, and what is wrong in a sentence. Five are refused in one direction, and both together show the sixth."""
    plain = "0000000000100000"
    rows = [("a length above the limit", "0000000000100005", b"\x0f", struct.pack(">IB", 2000000, 7), 73, 2, "TooLong",
             "The message has the length 2000000, and the receiver takes at most 262144"),
            ("an unknown id", "0000000000100005", b"\x0f", message(b"\x63"), 77, 2, "UnknownId",
             "The message has the id 99, and BEP 3, 5, 6 and 10 have no such id"),
            ("a wrong length", "0000000000100005", b"\x0f", message(b"\x04\0\0\1"), 73, 2, "WrongLength",
             "The message has the length 4, and the length of a have message is 5"),
            ("an extension that isn't on", plain, b"\x0f", b"", 72, 1, "NotNegotiated",
             "A have none message needs the Fast Extension, and the two handshakes do not both have its reserved bit")]
    yield "an index that is too high", ["--pieces", "38"], *fault(), 1, "the have message names piece 38"
    for name, reserved, first, wrong, at, message_, reason, why in rows:
        left, right = handshakes()[0], hand(b"-BB0001-000000000000", reserved)
        stream = left + message(first) + wrong
        found = Talk().say("A", left).say("B", right).say("A", stream[68:]).close("B")
        refused, size = "refused message=%d at=%d %s" % (message_, at, reason), len(stream)
        free = "ok messages=2 bytes=%d" % size if reason == "UnknownId" else refused
        last = "73 unknown 99 0" if reason == "UnknownId" else refused
        lines = report("-AA0001-000000000000", size, free, refused, "--reserved %s --metadata-id 0" % reserved, why=why) + empty_b()
        lines += "  B closed first, by FIN, at 0.009000 s\n    A had sent %d bytes, last: %s\n    B had sent 68 bytes, last: %s\n"
        line_b = LINE_B.replace("0000000000100005", reserved)
        yield name, [], pcap(frames(found.packets)), NAMES + lines % (size, last, line_b), int(free == refused), why[0].lower() + why[1:]
    yield "a block that nobody asked for", [], *dropped(), 0, "an answer that nobody asked for"


def udp(ends, payload):
    datagram = struct.pack(">HHHH", ends[0][1], ends[1][1], 8 + len(payload), 0) + payload
    hosts = b"".join(socket.inet_aton(host) for host, _ in ends)
    return MACS + b"\x08\x00" + struct.pack(">BBHHHBBH", 0x45, 0, 20 + len(datagram), 0, 0, 64, 17, 0) + hosts + datagram


def utp_packet(kind, id_, payload=b"", extensions=()):
    """A packet of uTP (BEP 29): a header, extensions of a number and bytes, and a payload."""
    numbers = [number for number, _ in extensions] + [0]
    chain = b"".join(bytes((following, len(content))) + content for following, (_, content) in zip(numbers[1:], extensions))
    return struct.pack(">BBHIIIHH", kind << 4 | 1, numbers[0], id_, 1, 2, 3, 4, 5) + chain + payload


def utp():
    """A connection of uTP: SYN and STATE with the id 7, data with the id 8; and datagrams that are none: a DHT query, another id."""
    said = [((A, B), utp_packet(4, 7)), ((B, A), utp_packet(2, 7)), ((A, B), utp_packet(0, 8, FETCHING[:68])),
            ((A, B), b"d1:ad2:id20:" + bytes(20) + b"e1:q4:pinge"), ((A, B), utp_packet(2, 900))]
    return pcap((1, [(k, udp(*one)) for k, one in enumerate(said)])), \
        "uTP  10.0.0.1:51413 > 10.0.0.2:6881  3 packets of BitTorrent over UDP (BEP 29), read from a SYN on\n"


def utp_closes():
    """Both ends say why they close, one in an extension after another one. B's RESET of version 0 looks like a FIN, and says an
    extension of 80 bytes. Three datagrams are none: data without a payload, a SYN with one, and a chain that the capture cut."""
    reason = lambda number: (3, struct.pack(">HH", 0, number))
    said = [((A, B), utp_packet(4, 7)), ((B, A), utp_packet(2, 7)),
            ((A, B), utp_packet(0, 8, FETCHING[:68], [reason(8)])),
            ((B, A), utp_packet(1, 7, b"", [(1, bytes(4)), reason(271)])), ((A, B), utp_packet(1, 8, b"", [reason(265)])),
            ((B, A), bytes((0x11, 3)) + struct.pack(">H", 7) + bytes(17) + bytes((80, 0))),
            ((A, B), utp_packet(0, 8)), ((A, B), utp_packet(4, 7, b"x")), ((A, B), utp_packet(1, 8, b"", [reason(266)]))]
    found = [(k, udp(*one)) for k, one in enumerate(said)]
    return pcap((1, found[:-1] + [(found[-1][0], found[-1][1][:-1])])), \
        "uTP  10.0.0.1:51413 > 10.0.0.2:6881  5 packets of BitTorrent over UDP (BEP 29), read from a SYN on; " \
        "10.0.0.1:51413 closed: 265 (invalid have message); 10.0.0.2:6881 closed: 271 (invalid request message)\n"


def handshake_line(stream):
    return "0 handshake %s %s %s" % (stream[20:28].hex(), stream[28:48].hex(), stream[48:68].hex())


def short(kept=146):
    """The report if each segment has its first bytes: 25 of 1,000 and one of 889, and one of 278. The last one is at 25,000."""
    cut = "refused message=1 at=%d EndInside (cut by the gap)" % kept
    gap = "    gap at %d: %d bytes aren't in the capture%s\n"
    a = report("-TR3000-hkurt404hubr", kept, cut, cut, notes=gap % (kept, 278 - kept, ""))
    more = gap % (kept, 1000 - kept, "; 26 gaps, %d bytes in all" % (25889 - 26 * kept))
    b = report("-LT2080-OSBc(V--pHy8", kept, cut, cut, "--reserved 0000000000100004 --metadata-id 0", "B", more)
    return NAMES + a + b + """\
  A closed first, by FIN, at 0.057000 s
    B had sent %d bytes, last read: %s
    A had sent %d bytes, last read: %s
""" % (25000 + kept, handshake_line(SERVING), kept, handshake_line(FETCHING))


def simple_packets():
    """Simple packet blocks: whole, and cut by snap lengths. 54 bytes of a packet are headers."""
    yield "simple packets", simple(frames(timeless(talk()))), WHOLE
    for snap in (200, 201, 202, 203):
        yield "simple packets of %d bytes" % snap, simple(frames(timeless(talk())), snap), short(snap - 54)


def damaged():
    """Files with impossible or different lengths or an unknown interface after a whole connection, and files with the greatest lengths that are possible."""
    long_record, long_block = (b"fault: capture: a %s file has an impossible length" % it for it in (b"record of a pcap", b"block of a pcapng"))
    whole, blocks, most = pcap(frames(talk()), since=NOW), pcapng(frames(talk())), 2 ** 24
    record = lambda size: struct.pack("<4I", NOW, 0, size, 1500)
    make = lambda file, *parts: holding(File(b"".join((file, *parts))), packets=whole.packets)
    yield "two files put together", make(whole, whole), long_record, 3
    yield "a record of 16 MiB", make(whole[:24], record(most), bytes(most), whole[24:]), b"", 0
    yield "a record of 16 MiB and a byte", make(whole, record(most + 1)), long_record, 3
    yield "a packet block of 16 MiB", make(blocks, block("<", 6, bytes(20 + most))), b"", 0
    yield "a packet block of 16 MiB and a byte", make(blocks, struct.pack("<II", 6, 33 + most)), long_block, 3
    yield "a simple packet block of 16 MiB and a byte", make(blocks, struct.pack("<II", 3, 17 + most)), long_block, 3
    unknown = b"fault: capture: a packet of a pcapng file names an interface that isn't described"
    yield "a packet of an interface that isn't described", make(blocks, block("<", 6, struct.pack("<5I", 7, 0, 0, 0, 0))), unknown, 3
    yield "a packet before its section's interface", make(blocks, blocks[:28], block("<", 3, bytes(4))), unknown, 3
    yield "a block whose two lengths differ", make(blocks, struct.pack("<3I", 5, 12, 16)), b"fault: capture: the two lengths of a block of a pcapng file differ", 3
    yield "a longer block without a packet", make(blocks, struct.pack("<II", 5, 2 * most)), b"ends inside a packet", 0


def six():
    """A connection between hosts of IPv6, and how RFC 5952 (4.2 and 5) writes their addresses."""
    for a, b, written in (("2001:db8:0:0:1:0:0:1", "2001:db8:0:1:1:1:1:1", ("2001:db8::1:0:0:1", "2001:db8:0:1:1:1:1:1")),
                          ("2001:0:0:1:0:0:0:1", "0:0:0:0:0:ffff:192.0.2.1", ("2001:0:0:1::1", "::ffff:192.0.2.1")),
                          ("FE80:0:0:0:0A00:20FF:FE00:0", "0:0:0:0:0:0:0:1", ("fe80::a00:20ff:fe00:0", "::1"))):
        file = pcap(frames(talk(), ip=ipv6, ends=((a, A[1]), (b, B[1]))))
        yield "IPv6 between %s and %s" % written, file, WHOLE.replace(NAMES, "connection 0  A [%s]:51413 > B [%s]:6881\n" % written)


def rows():
    """Words, the capture, standard output, a part of standard error or b"" for none, the exit status, by name."""
    yield from ((name, [], file, WHOLE, b"", 0) for name, file in readings())
    yield "IPv6", [], pcap(frames(talk(), ip=ipv6)), WHOLE6, b"", 0
    option = lambda it, ends: ipv6(it, ends, b"\x06\x01" + bytes(14))
    yield "IPv6 with options", [], pcap(frames(talk(), ip=option)), WHOLE6, b"", 0
    yield from ((name, [], file, lines, b"", 0) for name, file, lines in [*six(), *gaps()])
    yield from (("a gap in a handshake", [], *row) for row in gap_in_handshake())
    yield "a short snap length", [], pcap(frames(talk()), snap=200), short(), b"", 0
    yield from ((name, [], file, lines.replace("0.057000", "0.000000"), b"", 0) for name, file, lines in simple_packets())
    yield "the first packet lost", [], pcap(frames(without(0))), WHOLE.replace("0.057000", "0.056000"), b"", 0
    whole = pcap(frames(talk()))
    yield "cut inside the last packet", [], holding(File(whole[:-1]), packets=whole.packets[:-1]), WHOLE, b"ends inside a packet", 0
    yield "one side's packets", [], *one_sided(), b"", 0
    yield "a fault", ["--pieces", "38"], *fault(), b"", 1
    yield "a fault, shown", ["--pieces", "38", "--show"], fault()[0], shown() + fault()[1], b"", 1
    yield "odd peer ids", [], *odd_peer_ids(), b"", 0
    yield "the id of another extension", [], *other_extension(), b"", 0
    yield "an id of lt_donthave", [], *donthave(), b"", 1
    yield "a piece that is taken back", [], *donthave(**TAKEN_BACK), b"", 0
    yield "one id for both extensions", [], *donthave(*ONE_ID), b"", 1
    yield "no id of lt_donthave", [], *donthave(*NO_ID), b"", 0
    yield "no Fast Extension", [], *without_fast(), b"", 0
    yield "a length below 0", [], *no_length(), b"", 1
    yield "a key exchange", [], *key_exchange(), b"", 0
    yield "cut by the other end", [], *cut_by_the_other(), b"", 0
    yield from ((name, [], file, lines, b"", 0) for name, file, lines in resets())
    yield "a stray reset before more of a message", [], *goes_on_after_a_reset(), b"", 0
    yield from ((name, [], file, lines, b"", 0) for name, file, lines in outside_the_window())
    yield "a keep-alive with another byte", [], *keep_alive(), b"", 0
    yield "cut by itself", [], *cut_by_itself(), b"", 1
    yield "a close before the other end's handshake is whole", [], *late(), b"", 0
    yield "two connections", [], *twice(), b"", 0
    yield "ports that another connection takes", [], *replaced(), b"", 0
    yield "other bytes again", [], *conflict(), b"", 0
    yield "a torrent", ["--torrent", "TORRENT"], *with_torrent(), b"", 1
    yield "a segment before the stream", [], pcap(frames(stray())), WHOLE, b"", 0
    yield "the two directions together", [], *together(), b"", 0
    yield "requests without an answer", [], *choked(), b"", 0
    yield "requests that are made again", [], *asked_again(), b"", 0
    yield "a request that is passed over", [], *passed_over(), b"", 0
    yield from (("an open request " + name, [], file, lines, b"", 0) for name, file, lines in open_requests())
    # with the bit of the Extension Protocol the opening goes on to the end, and without it ends with the handshakes
    for bits in ("0000000000100005", "0000000000000005"):
        yield from (("explained by a lost " + name, [], file, lines, b"", 0) for name, file, lines in explained(bits))
    yield from ((name, words, file, lines, b"", status) for name, words, file, lines, status, _ in drops())
    yield "uTP", [], *utp(), b"no BitTorrent connection in 5 packets", 3
    yield "why uTP closes", [], *utp_closes(), b"no BitTorrent connection in 9 packets", 3
    yield "no packet", [], whole[:24], "", b"no BitTorrent connection in 0 packets", 3
    yield "no handshake", [], pcap(frames(Talk().packets)), "", b"no BitTorrent connection in 3 packets", 3
    yield "no capture", [], b"d8:announce", "", b"fault: capture: neither a pcap nor a pcapng file", 3
    yield "nothing", [], b"", "", b"fault: capture: neither a pcap nor a pcapng file", 3
    yield from ((name, [], file, WHOLE, errors, status) for name, file, errors, status in damaged())
    yield "an impossible block", [], pcapng(frames([]))[:28] + bytes(8), "", b"fault: capture: a block of a pcapng file has an impossible length", 3
    yield "no torrent", ["--torrent", "CAPTURE"], whole, "", b"fault: torrent: ", 3
    yield "wrong words", ["--pieces", "x"], whole, "", b"'--pieces' takes a number", 2
