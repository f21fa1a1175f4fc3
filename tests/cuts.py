#!/usr/bin/env python3
"""Cuts each worked stream after each of its bytes, and tries lengths, extremes and floods.

usage: tests/cuts.py [PROGRAM]

PROGRAM is the built program, or else the script `bt_tool` at the top of the repository. The verdict of a cut stream follows from
that of the whole one and from docs/RULES.md: it is the refusal of the whole stream where the bytes with which that is judged are
there, else `ok` at a message's end, else EndInside at the cut.
"""
import os
import subprocess
import sys
import tempfile

from statuses import HAND, HASH, HAVE_9, LINE, ROOT, message, streams


def other_byte(at):
    """The handshake with another byte there."""
    return HAND[:at] + bytes([HAND[at] ^ 1]) + HAND[at + 1:]


# The receiver's options, a handshake that it refuses, and the verdict: one byte is another, or another info hash is wanted.
BAD_HANDS = [
    ("", HAND[:5] + b"O" + HAND[6:], b"refused message=0 at=5 BadProtocol\n"),
    ("--info-hash " + 40 * "0", HAND, b"refused message=0 at=28 WrongInfoHash\n"),
    ("--info-hash " + HASH, other_byte(0), b"refused message=0 at=0 BadProtocol\n"),
    ("--info-hash " + HASH, other_byte(1), b"refused message=0 at=1 BadProtocol\n"),
    ("--info-hash " + HASH, other_byte(5), b"refused message=0 at=5 BadProtocol\n"),
    ("--info-hash " + HASH, other_byte(19), b"refused message=0 at=19 BadProtocol\n"),
    ("--info-hash " + 20 * "2d", other_byte(19), b"refused message=0 at=19 BadProtocol\n"),
    ("--info-hash " + HASH, other_byte(28), b"refused message=0 at=28 WrongInfoHash\n"),
    ("--info-hash " + HASH, other_byte(47), b"refused message=0 at=28 WrongInfoHash\n"),
    ("--info-hash " + 20 * "2d", other_byte(67), b"refused message=0 at=28 WrongInfoHash\n"),
]

# Handshakes of which a byte is another, and which are read: reserved bits, an info hash where none is wanted, a peer id.
OTHER_HANDS = [("--info-hash " + HASH, at) for at in (20, 24, 48, 67)] + [("", 28), ("", 47)]

# How many bytes of the message a reason is judged with; the others are judged with the whole message.
JUDGED = {"TooLong": 4, "UnknownId": 5, "NotNegotiated": 5, "WrongLength": 5, "Late": 5, "Missing": 5}
# Longer streams aren't cut after every byte.
MOST = 2_000


def ends_in(stream):
    """Where the handshake and each message ends, as the lengths say."""
    found, at = [68], 68
    while at + 4 <= len(stream):
        at += 4 + int.from_bytes(stream[at:at + 4], "big")
        found.append(at)
    return found


def needed(stream, number, at, reason):
    """The least number of bytes with which the refusal is judged."""
    ends = ends_in(stream)
    if reason == "EndInside":
        return len(stream)
    if number == 0:
        return at + 1 if reason == "BadProtocol" else 48
    start = ends[number - 1]
    return start + JUDGED[reason] if reason in JUDGED else ends[number]


def verdict_at(stream, lines, n):
    """The verdict of the stream's first n bytes."""
    words = lines.rstrip(b"\n").rsplit(b"\n", 1)[-1].decode()
    if words.startswith("refused"):
        _, number, at, reason = words.split()
        number, at = int(number[len("message="):]), int(at[len("at="):])
        if n >= needed(stream, number, at, reason):
            return words
    ends = ends_in(stream)
    whole = sum(end <= n for end in ends)
    if n in ends:
        return "ok messages=%d bytes=%d" % (whole - 1, n)
    return "refused message=%d at=%d EndInside" % (whole, n)


def checked(program, options, files):
    """The verdicts of `check` of these files, in one run."""
    with tempfile.TemporaryDirectory() as folder:
        names = ["%d" % n for n in range(len(files))]
        for name, content in zip(names, files):
            with open(os.path.join(folder, name), "wb") as file:
                file.write(content)
        ended = subprocess.run([program, "check", *options.split(), *names], stdout=subprocess.PIPE, cwd=folder)
    lines = ended.stdout.decode().splitlines()
    return [line.removeprefix(name + ": ") for name, line in zip(names, lines)], ended.returncode


def shown(program, options, stream):
    """The lines of `show`."""
    return subprocess.run([program, "show", *options.split()], input=stream, stdout=subprocess.PIPE).stdout


def cuts(program):
    """What is wrong of cut streams, and how many were tried."""
    wrong, tried = [], 0
    for options, stream, lines in streams() + BAD_HANDS:
        if len(stream) > MOST:
            continue
        wanted = [verdict_at(stream, lines, n) for n in range(len(stream))]
        options = options if "--rules" in options else options + " --rules free"
        found, _ = checked(program, options, [stream[:n] for n in range(len(stream))])
        tried += len(stream)
        if found != wanted:
            wrong += ["check %s: %d bytes of %r: %s, not %s" % (options, n, stream, a, b)
                      for n, (a, b) in enumerate(zip(found, wanted)) if a != b][:3] or ["check %s: of %r" % (options, stream)]
    return wrong, tried


def lines_before(lines, n):
    """The lines of the items that end in the first n bytes: those that start before the last whole item's end."""
    return b"".join(line + b"\n" for line in lines.splitlines()[:-1] if int(line.split()[0]) < n)


def cut_lines(program):
    """As `cuts`, for the lines of `show` of shorter streams, cut where an item ends, and a byte before and after it."""
    wrong, tried = [], 0
    for options, stream, lines in streams():
        if len(stream) > 300:
            continue
        ends = [end for end in ends_in(stream) if end <= len(stream)]
        for n in sorted({end + more for end in ends for more in (-1, 0, 1) if end + more < len(stream)}):
            whole = max([end for end in ends if end <= n], default=0)
            wanted = lines_before(lines, whole) + verdict_at(stream, lines, n).encode() + b"\n"
            tried += 1
            if shown(program, options, stream[:n]) != wanted:
                wrong.append("show %s: of %r" % (options, stream[:n]))
    return wrong, tried


# Options, what follows the handshake, and the lines after the handshake's.
EXTREMES = [
    ("--pieces 4294967295", HAVE_9[:5] + b"\xff\xff\xff\xff", b"refused message=1 at=73 BadIndex\n"),
    ("--pieces 4294967295", HAVE_9[:5] + b"\xff\xff\xff\xfe", b"68 have 4294967294\nok messages=1 bytes=77\n"),
    ("--pieces 4294967295", b"\0\0\0\x02\x05\0", b"refused message=1 at=68 WrongLength\n"),
    ("--pieces 1", HAVE_9[:5] + b"\0\0\0\0", b"68 have 0\nok messages=1 bytes=77\n"),
    ("--pieces 1", HAVE_9[:5] + b"\0\0\0\x01", b"refused message=1 at=73 BadIndex\n"),
    ("--pieces 1", b"\0\0\0\x02\x05\x80", b"68 bitfield 1\nok messages=1 bytes=74\n"),
    ("--pieces 1", b"\0\0\0\x02\x05\x40", b"refused message=1 at=73 SpareBits\n"),
    ("--pieces 8", b"\0\0\0\x02\x05\xff", b"68 bitfield 1\nok messages=1 bytes=74\n"),
    ("--pieces 0", b"\0\0\0\x02\x05\0", b"refused message=1 at=68 WrongLength\n"),
    ("", b"\0\0\0\x0d\x06" + b"\xff" * 12, b"68 request 4294967295 4294967295 4294967295\nok messages=1 bytes=85\n"),
    ("", b"\0\0\0\x03\x09\xff\xff", b"68 port 65535\nok messages=1 bytes=75\n"),
    ("--metadata-id 255", b"\0\0\0\x1b\x14\xff" + b"d8:msg_typei0e5:piecei0ee", b"68 metadata-request 0\nok messages=1 bytes=99\n"),
    ("", b"\0\0\0\x24\x14\x03" + b"d8:msg_typei0e5:piecei4294967295ee", b"68 metadata-request 4294967295\nok messages=1 bytes=108\n"),
    ("", b"\0\0\0\x24\x14\x03" + b"d8:msg_typei0e5:piecei4294967296ee", b"68 metadata-malformed 34 0\nok messages=1 bytes=108\n"),
    ("--limit 1048576", message(b"\x63" + bytes(1048575)), b"68 unknown 99 1048575\nok messages=1 bytes=1048648\n"),
    ("--limit 1048576", message(b"\x07\0\0\0\x01\0\0\0\0" + 1048567 * b"e"), b"68 piece 1 0 1048567\nok messages=1 bytes=1048648\n"),
    ("--limit 1048576", message(b"\x05" + 1048575 * b"e"), b"68 bitfield 1048575\nok messages=1 bytes=1048648\n"),
    ("--limit 1048576", message(b"\x14\0de" + 1048572 * b"e"),
     b"68 ext-handshake 2 1048572 size=- ut_metadata=-\nok messages=1 bytes=1048648\n"),
    ("--limit 1048576", message(b"\x14\x03de" + 1048572 * b"e"), b"68 metadata-malformed 2 1048572\nok messages=1 bytes=1048648\n"),
    ("--limit 1048576", message(b"\x14\x09" + 1048574 * b"e"), b"68 extended 9 1048574\nok messages=1 bytes=1048648\n"),
    ("--limit 1048576", b"\0\x10\0\x01", b"refused message=1 at=68 TooLong\n"),
    ("--limit 1", b"\0\0\0\x01\x63", b"68 unknown 99 0\nok messages=1 bytes=73\n"),
    ("--limit 1", b"\0\0\0\x02\x63", b"refused message=1 at=68 TooLong\n"),
]


def extremes(program):
    wrong = []
    for options, rest, lines in EXTREMES:
        if shown(program, options, HAND + rest) != b"0 " + LINE + lines:
            wrong.append("show %s: of a handshake and %.60r" % (options, rest))
    return wrong, len(EXTREMES)


# An id, and its least and its greatest length, None for the limit (docs/RULES.md, the table of messages).
LENGTHS = [
    (0, 1, 1), (1, 1, 1), (2, 1, 1), (3, 1, 1), (4, 5, 5), (5, 1, None), (6, 13, 13), (7, 9, None), (8, 13, 13), (9, 3, 3),
    (10, 1, None), (12, 1, None), (13, 5, 5), (14, 1, 1), (15, 1, 1), (16, 13, 13), (17, 5, 5), (18, 1, None), (20, 2, None),
    (99, 1, None), (255, 1, None),
]

# A number of pieces, and the length of its bitfield.
BITFIELDS = [(0, 1), (1, 2), (7, 2), (8, 2), (9, 3), (10, 3), (16, 3), (17, 4)]


def head(length, number):
    """The handshake, and then a length and an id."""
    return HAND + length.to_bytes(4, "big") + bytes([number])


def after_head(length):
    """The verdict where the length is allowed: the message is there, has bytes to come, or is a keep-alive before a further byte."""
    if length == 1:
        return "ok messages=1 bytes=73"
    return "refused message=%d at=73 EndInside" % (1 if length else 2)


def lengths_of(number, least, greatest, limit):
    """The least and the greatest length of an id, one less and one more, and the verdict of each."""
    most = greatest or limit
    above = "refused message=1 at=68 " + ("TooLong" if most == limit else "WrongLength")
    below = after_head(0) if least == 1 else "refused message=1 at=68 WrongLength"
    return [(least - 1, below), (least, after_head(least)), (most, after_head(most)), (most + 1, above)]


def lengths(program):
    """The lengths of each id under several limits, and of bitfields."""
    tried = [("--rules free --limit %d" % limit, [(head(length, row[0]), verdict) for row in LENGTHS
                                                  for length, verdict in lengths_of(*row, limit)])
             for limit in (13, 262144, 1048576)]
    wrong = "refused message=1 at=68 WrongLength"
    tried += [("--rules free --pieces %d" % pieces, [(head(said, 5), after_head(said) if said == length else wrong)
                                                     for said in range(1, 6)]) for pieces, length in BITFIELDS]
    tried += [(options + " --rules free", [(other_byte(at) + bytes(4), "ok messages=1 bytes=72")]) for options, at in OTHER_HANDS]
    found = []
    for options, rows in tried:
        verdicts, _ = checked(program, options, [stream for stream, _ in rows])
        found += ["check %s: of %r: %s, not %s" % (options, stream, got, verdict)
                  for (stream, verdict), got in zip(rows, verdicts) if got != verdict]
        found += [] if len(verdicts) == len(rows) else ["check %s: of %d files" % (options, len(rows))]
    return found, sum(len(rows) for _, rows in tried)


def floods(program):
    """The greatest length before every id, and many keep-alives."""
    found, status = checked(program, "", [HAND + b"\xff\xff\xff\xff" + bytes([number]) for number in range(256)])
    wrong = []
    if found != ["refused message=1 at=68 TooLong"] * 256 or status != 1:
        wrong.append("check: of the length ffffffff before each id")
    for options in ("--rules free", "--rules bep"):
        found, status = checked(program, options, [HAND + bytes(400_000)])
        if (found, status) != (["ok messages=100000 bytes=400068"], 0):
            wrong.append("check %s: of 100,000 keep-alives" % options)
    return wrong, 258


def main():
    program = os.path.abspath(sys.argv[1] if len(sys.argv) > 1 else os.path.join(ROOT, "bt_tool"))
    wrong, tried = [], 0
    for part in (cuts, cut_lines, extremes, lengths, floods):
        more, count = part(program)
        wrong, tried = wrong + more, tried + count
    for line in wrong:
        print("cuts: wrong: bt_tool " + line)
    print("cuts: %s %d streams" % ("failed: %d wrong of" % len(wrong) if wrong else "ok:", tried))
    return 1 if wrong else 0


if __name__ == "__main__":
    sys.exit(main())
