#!/usr/bin/env python3
"""Runs each command under limits: broken standard streams, slow and lost readers, little memory, a small stack, few descriptors.

usage: tests/limits.py [PROGRAM]

PROGRAM is the built program, or else the script `bt_tool` at the top of the repository. Each part of `PARTS` checks a row of the
second table of docs/COMMANDS.md, "Limits", and says which. What is wanted follows from the rules for faults there.
"""
import contextlib
import fcntl
import itertools
import os
import resource
import select
import socket
import subprocess
import sys
import tempfile
import time

import peers
from faults import COMMANDS as STREAMS, HAND, LINE, capture_of, whole
from peers import summary, timeless
from statuses import HASH, ROOT

COMMANDS = STREAMS + [capture_of("no Fast Extension")]
HAVES = 60_000
# A stream of some hundred thousand bytes, its script, and what is written of it.
LONG = HAND + b"".join(b"\0\0\0\x05\x04" + number.to_bytes(4, "big") for number in range(HAVES))
SHOWN = b"0 " + LINE + b"".join(b"%d have %d\n" % (68 + 9 * number, number) for number in range(HAVES)) \
    + b"ok messages=%d bytes=%d\n" % (HAVES, len(LONG))
SCRIPT = LINE + b"".join(b"have %d\n" % number for number in range(HAVES))
LOOP = next(it for it in COMMANDS if it[0] == "loop")
LONG_COMMANDS = [("show", LONG, SHOWN), ("unpack", LONG, SCRIPT), ("pack", SCRIPT, LONG)]

# A fault at the last byte, and what is written at once.
NO_NUMBER = b"refused line=2 Syntax\nhint: line 2, column 6: expected a number from 0 to 4294967295\n"
REFUSED = [
    ("show", HAND + b"\xff\xff\xff\xff", (b"0 " + LINE + b"refused message=1 at=68 TooLong\n", b"", 1)),
    ("show --json", HAND[:5] + b"O", (b'{"verdict":"refused","message":0,"offset":5,"reason":"BadProtocol"}\n', b"", 1)),
    ("check", HAND + b"\0\0\0\x01\x01", (b"refused message=1 at=72 Missing\n", b"", 1)),
    ("unpack", HAND + b"\0\0\0\x04\x04", (LINE, b"refused message=1 at=68 WrongLength\n", 1)),
    ("pack --hints always", LINE + b"have 09\n", (HAND, NO_NUMBER, 1)),
    ("pack --limit 1", LINE + b"unknown 10 " + 1000 * b"0", (HAND, b"refused line=2 Syntax\n", 1)),
]

READ, WRITE, MEMORY, NET = [(b"", b"fault: %s\n" % name, 3) for name in (b"read", b"write", b"memory", b"net")]
# A port of this machine that nobody listens on.
DIALS = "fetch %s 127.0.0.1:9" % HASH


class Program:
    """The program, and how it is run."""

    def __init__(self, path):
        self.path, self.runs = path, 0

    def run(self, words, given=None, before=None, out=subprocess.PIPE, errors=subprocess.PIPE, source=None):
        """Standard output, standard error and the status; nothing for an output that isn't a pipe of this script."""
        self.runs += 1
        how = {"stdin": source} if given is None and source is not None else {"input": given or b""}
        ended = subprocess.run([self.path, *words.split()], stdout=out, stderr=errors, preexec_fn=before, timeout=60, **how)
        return ended.stdout or b"", ended.stderr or b"", ended.returncode

    def start(self, words, **how):
        self.runs += 1
        return subprocess.Popen([self.path, *words.split()], **how)


def closed(*devices):
    return lambda: [os.close(device) for device in devices]


def limited(what, size):
    return lambda: resource.setrlimit(what, (size, size))


def unlike(words, found, wanted):
    return [] if found == wanted else ["%s: %.300r, not %.300r" % (words, found, wanted)]


def accepted(parts):
    return whole(parts), b"", 0


# ---- peers

# The ids of messages that an end may send (BEP 3, 5, 6 and 10).
IDS = [*range(10), *range(13, 18), 20]


class Noted(peers.Link):
    """A connection, with all that it received."""

    def __init__(self, link):
        super().__init__(link)
        self.heard = b""

    def exactly(self, count):
        taken = super().exactly(count)
        self.heard += taken
        return taken

    def all_heard(self):
        """All that came until the other end closed."""
        try:
            while True:
                self.exactly(1)
        except OSError:
            return self.heard + self.buffer


def is_wire(stream):
    """Whether the bytes are a handshake, whole messages after it, and nothing else."""
    at = 68
    while at + 5 <= len(stream) and (size := int.from_bytes(stream[at:at + 4], "big")) and stream[at + 4] in IDS:
        at += 4 + size
    return stream.startswith(peers.PROTOCOL) and at == len(stream)


def holding_back(heard, other):
    """An honest peer that gives its blocks once the other one has closed twice. It keeps what it heard."""
    def talk(link, count):
        noted = Noted(link.link)
        try:
            peers.greet(noted)
            last = time.monotonic() + 10
            while other.count < 2 and time.monotonic() < last:
                time.sleep(0.01)
            time.sleep(0.2)
            while True:
                noted.send(peers.data(3, noted.request()))
        except OSError:
            heard.append(noted.all_heard())
    return talk


def connected(port):
    """A connection to a port of this machine, at which somebody begins to listen."""
    last = time.monotonic() + 20
    while True:
        try:
            return Noted(socket.create_connection(("127.0.0.1", port)))
        except ConnectionRefusedError:
            if time.monotonic() > last:
                raise
            time.sleep(0.01)


def crowd_at(port, count):
    """As many connections to a port of this machine; fewer if nobody listens there any more."""
    found = []
    with contextlib.suppress(OSError):
        for _ in range(count):
            found.append(Noted(socket.create_connection(("127.0.0.1", port))))
    return found


def asked_block(link):
    """The first block of the metadata that `serve` gives; what came of it, if it closes before."""
    return next_block(link, peers.handshake(), peers.message(20, b"\0d1:md11:ut_metadatai7eee"))


def next_block(link, *before):
    """The same, after these bytes."""
    start = len(link.heard)
    try:
        link.send(*before, peers.message(20, b"\3d8:msg_typei0e5:piecei0ee"))
        while not link.heard.endswith(peers.INFO[:peers.BLOCK], start):
            link.exactly(1)
    except OSError:
        pass
    return link.heard[start:][-peers.BLOCK:]


def is_closed(link):
    """Whether the other end has closed the connection, and sent nothing."""
    return bool(select.select([link.link], [], [], 0)[0]) and not link.all_heard()


# ---- the parts

def standard_input(program):
    """standard input is closed, a folder, open only for writing, or empty and doesn't block"""
    wrong = []
    for words, _, _ in COMMANDS:
        wrong += unlike(words + " <&-", program.run(words, before=closed(0)), READ)
        folder, written = os.open(ROOT, os.O_RDONLY), os.open("/dev/null", os.O_WRONLY)
        reader, writer = os.pipe()
        os.set_blocking(reader, False)
        for name, device in (("a folder", folder), ("/dev/null for writing", written), ("no data yet", reader)):
            wrong += unlike("%s of %s" % (words, name), program.run(words, source=device), READ)
        for device in (folder, written, reader, writer):
            os.close(device)
    out, errors, status = program.run(DIALS, before=closed(0))
    lines = 2 * "127.0.0.1:9 unreachable\n"
    wrong += unlike(DIALS + " <&-", (out, timeless(errors.decode()), status), (b"", lines + summary(lines), 1))
    return wrong


def standard_output(program):
    """standard output is closed, full, or open only for reading"""
    wrong = []
    for words, given, _ in COMMANDS + [("--help", b"", []), ("--version", b"", [])]:
        wrong += unlike(words + " >&-", program.run(words, given, before=closed(1)), WRITE)
        for name, mode in (("/dev/full", os.O_WRONLY), ("/dev/null", os.O_RDONLY)):
            device = os.open(name, mode)
            wrong += unlike("%s >%s" % (words, name), program.run(words, given, out=device), WRITE)
            os.close(device)
    return wrong


def full_pipe(program):
    """standard output is a full pipe that doesn't block"""
    wrong = []
    for words, given, wanted in LONG_COMMANDS:
        reader, writer = os.pipe()
        os.set_blocking(writer, False)
        _, errors, status = program.run(words, given, out=writer)
        os.close(writer)
        with open(reader, "rb") as file:
            found = file.read()
        is_prefix = wanted.startswith(found) and len(found) < len(wanted)
        wrong += unlike(words + " into a full pipe", (is_prefix, errors, status), (True, b"fault: write\n", 3))
    return wrong


def standard_error(program):
    """standard error is closed or full"""
    wrong = []
    rows = [(words, given, accepted(parts)) for words, given, parts in COMMANDS] + REFUSED
    for words, given, (out, _, status) in rows + [(DIALS, b"", (b"", b"", 1))]:
        full = os.open("/dev/full", os.O_WRONLY)
        for name, found in (("2>&-", program.run(words, given, before=closed(2))),
                            ("2>/dev/full", program.run(words, given, errors=full))):
            wrong += unlike("%s %s" % (words, name), found, (out, b"", status))
        os.close(full)
    return wrong


def without(devices, out, errors, status):
    """The outputs and the status, if these of the standard streams are closed."""
    return b"" if 1 in devices else out, b"" if 2 in devices else errors, status


def fetched_without(program, devices):
    """`fetch` from a peer while another one closes, without these of the standard streams."""
    heard, closing = [], peers.Peer(peers.closing)
    giving = peers.Peer(holding_back(heard, closing))
    words = "fetch --timeout 5 %s %s %s" % (peers.HASH.hex(), giving.address, closing.address)
    out, errors, status = program.run(words, before=closed(*devices))
    last = time.monotonic() + 10
    while not heard and time.monotonic() < last:
        time.sleep(0.01)
    for peer in (giving, closing):
        peer.close()
    lines = 2 * (closing.address + " closed\n") + giving.address + " fetched\n"
    lines += summary(lines) + ("fault: write\n" if 1 in devices else "")
    found = out.replace(peers.INFO, b"INFO"), timeless(errors.decode()).encode(), status, [is_wire(it) for it in heard]
    return unlike("%s without %s" % (words, devices), found,
                  (*without(devices, b"INFO", lines.encode(), 3 if 1 in devices else 0), [True]))


def served_without(program, devices, name):
    """`serve` of a file to a peer, without these of the standard streams."""
    with socket.create_server(("127.0.0.1", 0)) as server:
        port = server.getsockname()[1]
    running = program.start("serve --exit-after 1 --listen 127.0.0.1:%d %s" % (port, name), stdin=subprocess.PIPE, stdout=subprocess.PIPE,
                            stderr=subprocess.PIPE, preexec_fn=closed(*devices))
    link = connected(port)
    asked_block(link)
    link.link.shutdown(socket.SHUT_WR)
    heard = link.all_heard()
    out, errors = running.communicate(timeout=20)
    lines = "serving %s size=%d on 127.0.0.1:%d\n127.0.0.1:%d sent=4 handled=3 closed\n" % (
        peers.HASH.hex(), len(peers.INFO), port, link.link.getsockname()[1])
    return unlike("serve without %s" % (devices,), (out, errors, running.returncode, is_wire(heard)),
                  (*without(devices, lines.encode(), b"", 0), True))


def standard_streams(program):
    """some of the standard streams are closed, and `fetch` or `serve` has peers"""
    wrong = []
    with tempfile.NamedTemporaryFile() as file:
        file.write(peers.INFO)
        file.flush()
        for devices in [it for count in (1, 2, 3) for it in itertools.combinations(range(3), count)]:
            wrong += fetched_without(program, devices) + served_without(program, devices, file.name)
            looped = READ if 0 in devices else WRITE if 1 in devices else accepted(LOOP[2])
            found = program.run("loop", LOOP[1], before=closed(*devices))
            wrong += unlike("loop without %s" % (devices,), found, without(devices, *looped))
    return wrong


def lost_reader(program):
    """the reader of the output reads some, waits, and goes"""
    wrong = []
    for words, given, wanted in LONG_COMMANDS:
        with tempfile.TemporaryFile() as file:
            file.write(given)
            file.seek(0)
            running = program.start(words, stdin=file, stdout=subprocess.PIPE, stderr=subprocess.PIPE)
            found = running.stdout.read(100)
            time.sleep(0.1)
            still = running.poll() is None
            running.stdout.close()
            errors = running.stderr.read()
            running.stderr.close()
            wrong += unlike(words + " | head -c 100", (found, still, errors, running.wait(timeout=20)), (wanted[:100], True, b"", 141))
    return wrong


def slow_writer(program):
    """the input comes one byte at a time"""
    wrong = []
    for words, given, parts in COMMANDS:
        reader, writer = os.pipe()
        running = program.start(words, stdin=reader, stdout=subprocess.PIPE, stderr=subprocess.PIPE)
        os.close(reader)
        for byte in given[:200]:
            os.write(writer, bytes([byte]))
            time.sleep(0.0002)
        os.write(writer, given[200:])
        os.close(writer)
        out, errors = running.communicate(timeout=20)
        wrong += unlike(words + ", byte for byte", (out, errors, running.returncode), accepted(parts))
    return wrong


def open_input(program):
    """the input is refused, and stays open"""
    wrong = []
    for words, given, wanted in REFUSED:
        reader, writer = os.pipe()
        os.write(writer, given)
        try:
            running = program.start(words, stdin=reader, stdout=subprocess.PIPE, stderr=subprocess.PIPE)
            out, errors = running.communicate(timeout=20)
            wrong += unlike(words + ", whose input stays open", (out, errors, running.returncode), wanted)
        except subprocess.TimeoutExpired:
            running.kill()
            running.communicate()
            wrong.append(words + " reads on after a refusal")
        os.close(reader)
        os.close(writer)
    return wrong


def shown_at_once(program):
    """the input stays open after an item"""
    wrong = []
    for words, given, wanted in (("show", HAND + bytes(4), b"0 " + LINE + b"68 keep-alive\n"), ("unpack", HAND, LINE),
                                 ("pack", LINE, HAND)):
        reader, writer = os.pipe()
        running = program.start(words, stdin=reader, stdout=subprocess.PIPE)
        os.close(reader)
        found = b""
        for byte in given:
            os.write(writer, bytes([byte]))
        fcntl.fcntl(running.stdout, fcntl.F_SETFL, os.O_NONBLOCK)
        last = time.monotonic() + 20
        while len(found) < len(wanted) and time.monotonic() < last:
            found += running.stdout.read(len(wanted)) or b""
            time.sleep(0.001)
        wrong += unlike(words + " of an input that stays open", found, wanted)
        os.close(writer)
        running.communicate(timeout=20)
    return wrong


def descriptors(program):
    """four descriptors at most"""
    wrong = []
    few = limited(resource.RLIMIT_NOFILE, 4)
    with tempfile.NamedTemporaryFile() as file:
        file.write(HAND)
        file.flush()
        name = file.name
        lines = ("%s: ok messages=0 bytes=68\n" % name).encode()
        wrong += unlike("check FILE FILE", program.run("check %s %s" % (name, name), before=few), (2 * lines, b"", 0))
    for words, given, parts in COMMANDS:
        wrong += unlike(words, program.run(words, given, before=few), NET if words == "loop" else accepted(parts))
        wrong += unlike(words, program.run(words, given, before=limited(resource.RLIMIT_NOFILE, 6)), accepted(parts))
    wrong += unlike("--help", program.run("--help", before=few), program.run("--help"))
    return wrong


def scanned(program, what, sizes, ends):
    """Each command under each of these limits answers as ever, or ends so; and both are seen."""
    wrong = []
    for words, given, parts in COMMANDS:
        seen = set()
        for size in sizes:
            found = program.run(words, given, before=limited(what, size * 1024))
            how = "ample" if found == accepted(parts) else next((name for name, is_end in ends.items() if is_end(found)), None)
            seen.add(how)
            if how is None:
                wrong.append("%s under %d KiB: %.300r" % (words, size, found))
        if "ample" not in seen or len(seen) < 2:
            wrong.append("%s under %d to %d KiB: %s alone" % (words, sizes[0], sizes[-1], seen))
    return wrong


# What the loader says where there is no room for the program.
LOADERS = (b"loading shared libraries", b"cannot allocate TLS data structures")


def is_unloaded(found):
    return found[0] == b"" and found[2] == 127 and any(words in found[1] for words in LOADERS)


def is_overflow(found):
    """The system ended it, before it wrote anything: the stack can't grow."""
    return found == (b"", b"", -11)


def address_space(program):
    """little address space"""
    sizes = range(2_048, 16_384, 128)
    return scanned(program, resource.RLIMIT_AS, sizes,
                   {"memory": lambda found: found == MEMORY, "unloaded": is_unloaded, "overflow": is_overflow})


def crowded(program):
    """`serve` has more peers than there is memory for"""
    count, first, block = 400, 16, peers.INFO[:peers.BLOCK]
    with tempfile.NamedTemporaryFile() as file:
        file.write(peers.INFO)
        file.flush()
        with socket.create_server(("127.0.0.1", 0)) as server:
            port = server.getsockname()[1]
        words = "serve --max-connections 1024 --exit-after %d --listen 127.0.0.1:%d %s" % (count, port, file.name)
        running = program.start(words, stdout=subprocess.PIPE, stderr=subprocess.PIPE, preexec_fn=limited(resource.RLIMIT_AS, 80 << 20))
        links = [connected(port) for _ in range(first)]
        before = [asked_block(it) == block for it in links]
        crowd = crowd_at(port, count - first)
        last = time.monotonic() + 20
        while not any(map(is_closed, crowd)) and time.monotonic() < last:
            time.sleep(0.1)
        closed, during = any(map(is_closed, crowd)), [next_block(it) == block for it in links]
        for link in links + crowd:
            link.link.close()
        out, errors = running.communicate(timeout=60)
    wrong = unlike(words, (len(crowd), closed, before, during), (count - first, True, first * [True], first * [True]))
    return wrong + unlike(words, (len(out.splitlines()), errors, running.returncode), (1 + count, b"", 0))


def stack(program):
    """a small stack"""
    wrong = scanned(program, resource.RLIMIT_STACK, range(32, 201, 24), {"overflow": is_overflow})
    for words, given, parts in COMMANDS:
        found = program.run(words, given, before=limited(resource.RLIMIT_STACK, 200 * 1024))
        wrong += unlike(words + " under 200 KiB of stack", found, accepted(parts))
    return wrong


def too_long(program):
    """the metadata of `loop` is too long"""
    with tempfile.TemporaryFile() as file:
        # One byte more than the greatest metadata is read, and what follows isn't: the file's offset says so.
        os.ftruncate(file.fileno(), 67_108_865 + 200_000)
        wrong = unlike("loop of 67308865 bytes", program.run("loop", source=file), (b"", b"refused size\n", 1))
        return wrong + unlike("the offset after loop", os.lseek(file.fileno(), 0, os.SEEK_CUR), 67_108_865)


PARTS = [standard_input, standard_output, full_pipe, standard_error, standard_streams, lost_reader, slow_writer, open_input, shown_at_once,
         too_long, descriptors, address_space, crowded, stack]


def unlisted():
    """The parts whose row isn't in the table of docs/COMMANDS.md."""
    with open(os.path.join(ROOT, "docs/COMMANDS.md")) as file:
        text = file.read()
    return [part.__doc__ for part in PARTS if "\n| %s |" % part.__doc__ not in text]


def main():
    program = Program(os.path.abspath(sys.argv[1] if len(sys.argv) > 1 else os.path.join(ROOT, "bt_tool")))
    wrong = ["no row in docs/COMMANDS.md: " + row for row in unlisted()]
    for part in PARTS:
        wrong += ["%s: bt_tool %s" % (part.__doc__, line) for line in part(program)]
    for line in wrong:
        print("limits: wrong: " + line)
    print("limits: %s %d runs" % ("failed: %d wrong of" % len(wrong) if wrong else "ok:", program.runs))
    return 1 if wrong else 0


if __name__ == "__main__":
    sys.exit(main())
