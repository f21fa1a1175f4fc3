#!/usr/bin/env python3
"""Refuses each request for memory, and fails each read and each write, of each command in turn.

usage: tests/faults.py [PROGRAM]

PROGRAM is the built program, or else the script `bt_tool` at the top of the repository. It is run over a `malloc`, a `read` and a
`write` that count their calls and refuse or fail the Nth, or have it take nothing, for N = 1, 2, .. until a run makes fewer. What
is wanted follows from docs/COMMANDS.md: at a fault a prefix of what the command writes is written, standard error has the fault's
line alone, and the status is 3; otherwise nothing differs. `fetch` has a peer of tests/peers.py, and `serve` one that asks it for a
block. For `loop` a connection is also said to be another process's, or takes one byte a call. Without a C compiler, as `cc`, nothing
is run.
"""
import hashlib
import os
import shutil
import socket
import subprocess
import sys
import tempfile

import made_captures
from peers import INFO, Link, Peer, giving, handshake, info_of, summary, timeless
from statuses import FETCH, FETCHED, HAND, HASH, HAVE_9, JSON_HAND, LINE, ROOT, TWO, NO_STEPS, message, naming

# A run makes far fewer calls.
MOST = 20_000

CALLS = """
#define _GNU_SOURCE
#include <dlfcn.h>
#include <errno.h>
#include <fcntl.h>
#include <netinet/in.h>
#include <stdlib.h>
#include <sys/socket.h>
#include <unistd.h>

extern void *__libc_malloc(size_t);
extern void *__libc_calloc(size_t, size_t);
extern void *__libc_realloc(void *, size_t);

enum { MEMORY, READ, WRITE, NOTHING, WIRE, KINDS };
static const char *const names[KINDS] = { "MEMORY", "READ", "WRITE", "NOTHING", "WIRE" };
static long wanted[KINDS], calls[KINDS], most[3], stranger;
static int ready;

static long number_in(const char *name) {
    const char *text = getenv(name);
    return text ? atol(text) : 0;
}

__attribute__((constructor)) static void begin(void) {
    for (int kind = 0; kind < KINDS; kind++) wanted[kind] = number_in(names[kind]);
    most[0] = number_in("READ_MOST");
    most[1] = number_in("WRITE_MOST");
    most[2] = number_in("WIRE_MOST");
    stranger = number_in("STRANGER");
    ready = 1;
}

/* leaves a file where the call that was to fail was made */
__attribute__((destructor)) static void end(void) {
    const char *made = getenv("MADE");
    for (int kind = 0; kind < KINDS; kind++)
        if (made && wanted[kind] && calls[kind] >= wanted[kind]) close(open(made, O_CREAT | O_WRONLY, 0600));
}

static int fails(int kind) { return ready && ++calls[kind] == wanted[kind]; }

static size_t at_most(size_t size, int way) { return most[way] && size > (size_t)most[way] ? (size_t)most[way] : size; }

void *malloc(size_t size) { return fails(MEMORY) ? 0 : __libc_malloc(size); }

void *calloc(size_t count, size_t size) { return fails(MEMORY) ? 0 : __libc_calloc(count, size); }

void *realloc(void *old, size_t size) { return fails(MEMORY) ? 0 : __libc_realloc(old, size); }

static ssize_t failed(void) {
    errno = EIO;
    return -1;
}

static int is_socket(int device) {
    int kind;
    socklen_t size = sizeof kind;
    int kept = errno, answer = getsockopt(device, SOL_SOCKET, SO_TYPE, &kind, &size) == 0;
    errno = kept;
    return answer;
}

ssize_t read(int device, void *into, size_t size) {
    static ssize_t (*next)(int, void *, size_t);
    if (!next) next = (ssize_t (*)(int, void *, size_t))dlsym(RTLD_NEXT, "read");
    if (is_socket(device)) return fails(WIRE) ? failed() : next(device, into, size);
    return fails(READ) ? failed() : next(device, into, at_most(size, 0));
}

ssize_t write(int device, const void *from, size_t size) {
    static ssize_t (*next)(int, const void *, size_t);
    if (!next) next = (ssize_t (*)(int, const void *, size_t))dlsym(RTLD_NEXT, "write");
    if (is_socket(device)) return fails(WIRE) ? failed() : next(device, from, size);
    if (device == 2) return next(device, from, size);
    if (fails(NOTHING)) return 0;
    return fails(WRITE) ? failed() : next(device, from, at_most(size, 1));
}

ssize_t recv(int device, void *into, size_t size, int flags) {
    static ssize_t (*next)(int, void *, size_t, int);
    if (!next) next = (ssize_t (*)(int, void *, size_t, int))dlsym(RTLD_NEXT, "recv");
    return fails(WIRE) ? failed() : next(device, into, size, flags);
}

ssize_t send(int device, const void *from, size_t size, int flags) {
    static ssize_t (*next)(int, const void *, size_t, int);
    if (!next) next = (ssize_t (*)(int, const void *, size_t, int))dlsym(RTLD_NEXT, "send");
    return fails(WIRE) ? failed() : next(device, from, at_most(size, 2), flags);
}

/* says that another port connected */
int accept4(int device, struct sockaddr *peer, socklen_t *size, int flags) {
    static int (*next)(int, struct sockaddr *, socklen_t *, int);
    if (!next) next = (int (*)(int, struct sockaddr *, socklen_t *, int))dlsym(RTLD_NEXT, "accept4");
    int link = next(device, peer, size, flags);
    if (stranger && link >= 0) ((struct sockaddr_in *)peer)->sin_port ^= 1;
    return link;
}
"""

STREAM = HAND + bytes(4) + HAVE_9
VERDICT = b"ok messages=2 bytes=81\n"
SCRIPT = LINE + b"keep-alive\nhave 9\n"
LOOPED = b"fetched bytes=3 sha1=%s\nleft sent=3 handled=3\nright sent=3 handled=3\n" % HASH.encode()

# Words, standard input, what is written, and how much of it once the first bytes are read: where each part's cause ends.
COMMANDS = [
    ("show", STREAM, [(68, b"0 " + LINE), (72, b"68 keep-alive\n"), (81, b"72 have 9\n"), (None, VERDICT)]),
    ("show --json", STREAM, [(68, JSON_HAND), (72, b'{"offset":68,"item":"keep-alive"}\n'),
                             (81, b'{"offset":72,"item":"have","index":9}\n'), (None, b'{"verdict":"ok","messages":2,"bytes":81}\n')]),
    ("check --rules free", STREAM, [(None, VERDICT)]),
    ("unpack", STREAM, [(68, LINE), (72, b"keep-alive\n"), (81, b"have 9\n")]),
    ("pack", SCRIPT, [(len(LINE), HAND), (len(LINE) + 11, bytes(4)), (len(SCRIPT), HAVE_9)]),
    ("link", TWO, [(None, NO_STEPS)]),
    ("link", FETCH, [(None, FETCHED)]),
    ("loop", b"abc", [(None, LOOPED)]),
]


def capture_of(name):
    """A capture of tests/made_captures.py, which nothing is wrong with, and what is written of it at the end."""
    return next(("capture", packets, [(None, text.encode())]) for what, _, packets, text, _, _ in made_captures.rows() if what == name)


CAPTURE = capture_of("two connections")


class Runner:
    """Runs the program over the calls above."""

    def __init__(self, program, work):
        self.program, self.work, self.made, self.runs = program, work, os.path.join(work, "made"), 0
        self.library = os.path.join(work, "calls.so")
        subprocess.run([shutil.which("cc"), "-shared", "-fPIC", "-x", "c", "-o", self.library, "-", "-ldl"], input=CALLS.encode(),
                       check=True)

    def run(self, words, given, **failing):
        """Standard output, standard error, the status, and whether the call that was to fail was made."""
        self.runs += 1
        environment = {name: str(number) for name, number in failing.items()}
        ended = subprocess.run([self.program, *words.split()], input=given, capture_output=True, timeout=300, cwd=self.work,
                               env={"LD_PRELOAD": self.library, "MADE": self.made, **environment})
        was_made = os.path.exists(self.made)
        if was_made:
            os.remove(self.made)
        return (ended.stdout, ended.stderr, ended.returncode), was_made

    def in_turn(self, words, given, kind, **further):
        """The answer where the Nth call of this kind fails, for each N."""
        for number in range(1, MOST):
            answer, was_made = self.run(words, given, **{kind: number}, **further)
            yield number, answer, was_made
            if not was_made:
                return
        raise RuntimeError("a run of %s makes %d calls" % (words, MOST))


def whole(parts):
    return b"".join(text for _, text in parts)


def after(parts, n):
    """What is written once n bytes are read, and not the end."""
    return b"".join(text for end, text in parts if end is not None and end <= n)


def memory(runner, words, given, parts):
    """Each request for memory is refused."""
    ample = whole(parts)
    for number, answer, was_made in runner.in_turn(words, given, "MEMORY"):
        out, errors, status = answer
        is_fault = (errors, status) == (b"fault: memory\n", 3) and ample.startswith(out)
        if answer != (ample, b"", 0) and not (was_made and is_fault):
            yield "memory: request %d: %r" % (number, answer)


def reads(runner, words, given, parts):
    """Each read fails, of a few bytes a read or of many: what the bytes before it complete is written."""
    for most in (1, 5, 7, 100):
        for number, answer, was_made in runner.in_turn(words, given, "READ", READ_MOST=most):
            fault = (after(parts, most * (number - 1)), b"fault: read\n", 3)
            if answer != (fault if was_made else (whole(parts), b"", 0)):
                yield "read %d of %d bytes: %r" % (number, most, answer)


def writes(runner, words, given, parts):
    """Each write fails, of one byte a write: exactly the bytes before it are written; and of more, or it takes nothing."""
    ample = whole(parts)
    # `link` and `loop` write at their end alone.
    for further in ({},) if words in ("link", "loop") else ({}, {"READ_MOST": 1}):
        for number, answer, was_made in runner.in_turn(words, given, "WRITE", WRITE_MOST=1, **further):
            if answer != ((ample[:number - 1], b"fault: write\n", 3) if was_made else (ample, b"", 0)):
                yield "write %d of one byte %r: %r" % (number, further, answer)
    for kind, further in (("WRITE", {"READ_MOST": 9}), ("WRITE", {"WRITE_MOST": 9}), ("WRITE", {"READ_MOST": 1, "WRITE_MOST": 9}),
                          ("NOTHING", {"WRITE_MOST": 9})):
        for number, (out, errors, status), was_made in runner.in_turn(words, given, kind, **further):
            if not was_made:
                is_right = (out, errors, status) == (ample, b"", 0)
            else:
                is_right = ample.startswith(out) and out != ample and (errors, status) == (b"fault: write\n", 3)
            if not is_right:
                yield "%s %d %r: %r" % (kind, number, further, (out, errors, status))


def wires(runner, words, given, parts):
    """Each call of a socket fails."""
    for number, answer, was_made in runner.in_turn(words, given, "WIRE"):
        if answer != ((b"", b"fault: net\n", 3) if was_made else (whole(parts), b"", 0)):
            yield "call %d of the connection: %r" % (number, answer)


def looping(runner):
    """`loop` refuses another process that connects, and stops after 1,048,576 rounds, of which each moves a byte or more."""
    rows = [("a stranger", b"abc", {"STRANGER": 1}, b"fault: net\n"), ("bytes one by one", bytes(1048576), {"WIRE_MOST": 1}, b"fault: turns\n")]
    for what, given, further, errors in rows:
        answer, _ = runner.run("loop", given, **further)
        if answer != (b"", errors, 3):
            yield "loop: %s: %r" % (what, answer)


def prefixes(lines):
    """Each beginning of these lines, as whole lines."""
    return [b"".join(lines[:count]) for count in range(len(lines) + 1)]


def two_files(runner):
    """The calls of a `check` of two files fail in turn: the other file still has its line."""
    words = "check --rules free a b"
    for name in "ab":
        with open(os.path.join(runner.work, name), "wb") as file:
            file.write(STREAM)
    first, second = b"a: " + VERDICT, b"b: " + VERDICT
    ample = (first + second, b"", 0)
    # A file takes two reads: its bytes and its end.
    for number, answer, was_made in runner.in_turn(words, b"", "READ"):
        fault = (second, b"a: fault: read\n", 3) if number <= 2 else (first, b"b: fault: read\n", 3)
        if answer != (fault if was_made else ample):
            yield "%s: read %d: %r" % (words, number, answer)
    for number, answer, was_made in runner.in_turn(words, b"", "MEMORY"):
        is_fault = answer in [(out, b"fault: memory\n", 3) for out in (b"", first, second)]
        if answer != ample and not (was_made and is_fault):
            yield "%s: request %d: %r" % (words, number, answer)
    for number, answer, was_made in runner.in_turn(words, b"", "WRITE", WRITE_MOST=1):
        if answer != ((ample[0][:number - 1], b"fault: write\n", 3) if was_made else ample):
            yield "%s: write %d: %r" % (words, number, answer)


def two_directions(runner):
    """The calls of a `show` with its other direction fail in turn, of a few bytes a read and of many."""
    words = "show --other b a"
    # The other direction names 1 as the id of metadata messages, so that 3 is kept raw.
    for name, content in (("a", STREAM + message(b"\x14\x03\x01")), ("b", HAND + message(b"\0") + naming(1))):
        with open(os.path.join(runner.work, name), "wb") as file:
            file.write(content)
    lines = [b"0 " + LINE, b"68 keep-alive\n", b"72 have 9\n", b"81 extended 3 1\n"]
    ample = (b"".join(lines) + b"ok messages=3 bytes=88\n", b"", 0)
    reads = (b"a: fault: read\n", b"b: fault: read\n")
    for kind, faults, further in (("READ", reads, {}), ("READ", reads, {"READ_MOST": 1}), ("READ", reads, {"READ_MOST": 9}),
                                  ("MEMORY", (b"fault: memory\n",), {})):
        for number, answer, was_made in runner.in_turn(words, b"", kind, **further):
            out, errors, status = answer
            is_fault = out in prefixes(lines) and errors in faults and status == 3 and (out == b"" or errors[:1] != b"b")
            # A request may be refused whose answer nothing rests on.
            if not (was_made and is_fault) and (answer != ample or was_made and kind == "READ"):
                yield "%s: %s %d %r: %r" % (words, kind, number, further, answer)


def seen_in(packets, count):
    """The numbers of the connections that send a byte in the first `count` bytes of a capture of Ethernet frames."""
    seen, opened, at = [], [], 24
    while at + 16 <= count:
        size = int.from_bytes(packets[at + 8:at + 12], "little")
        frame, at = packets[at + 16:at + 16 + size], at + 16 + size
        if at > count:
            break
        packet = frame[14:]
        if frame[12:14] != b"\x08\0" or packet[9] != 6:
            continue
        tcp = packet[4 * (packet[0] & 15):int.from_bytes(packet[2:4], "big")]
        ends = [packet[12:16] + tcp[:2], packet[16:20] + tcp[2:4]]
        flags, data = tcp[13], tcp[4 * (tcp[12] >> 4):]
        if flags & 18 == 2:
            opened.append(ends)
        number = max(k for k, it in enumerate(opened) if sorted(it) == sorted(ends))
        if data and number not in seen:
            seen.append(number)
    return sorted(seen)


def capturing(runner):
    """The calls of a `capture` of three connections fail in turn: reports of what was read are written, or a part of them."""
    words, packets, parts = CAPTURE
    text = whole(parts)
    reports = [b"connection " + part for part in text.split(b"connection ")[1:]]
    heads = [report.splitlines()[0] for report in reports]
    ample = (text, b"", 0)
    # A connection for which memory runs out isn't told, and the others are, also the one that has its ports later; or a part is told.
    rests = [b"".join(report for report in reports if report != lost) for lost in reports]
    # What is lost is said too where the file can't be read on.
    for more, broken in ((b"", b""), (bytes(8) + 8 * b"\xff", b"fault: capture: a record of a pcap file has an impossible length\n")):
        both = broken + b"fault: memory\n"
        said = []
        for number, answer, was_made in runner.in_turn(words, packets + more, "MEMORY"):
            out, errors, ended = answer
            is_fault = (out in rests or text.startswith(out)) and errors in (b"fault: memory\n", both) and ended == 3
            if answer != ((text, broken, 3) if broken else ample) and not (was_made and is_fault):
                yield "capture: request %d: %r" % (number, answer)
            said.append(errors)
        if both not in said:
            yield "capture: memory runs out with no connection: %r" % set(said)
    for most in (7, 100):
        for number, (out, errors, ended), was_made in runner.in_turn(words, packets, "READ", READ_MOST=most):
            told = [line for line in out.splitlines() if line.startswith(b"connection ")]
            wanted = [heads[number] for number in seen_in(packets, most * (number - 1))]
            is_fault = (sorted(told), errors, ended) == (sorted(wanted), b"fault: read\n", 3)
            if not (is_fault if was_made else (out, errors, ended) == ample):
                yield "capture: read %d of %d bytes: %r, not %r" % (number, most, (out, errors, ended), wanted)
    for number, answer, was_made in runner.in_turn(words, packets, "WRITE", WRITE_MOST=1):
        if answer != ((text[:number - 1], b"fault: write\n", 3) if was_made else ample):
            yield "capture: write %d of one byte: %r" % (number, answer)


def streaming(runner):
    """The calls of a `capture` of three connections that writes a stream fail in turn: a prefix of the stream is written."""
    words, packets, stream = "capture --stream 0-B", CAPTURE[1], made_captures.handshakes()[1]
    for kind, fault, further in (("MEMORY", b"memory", {}), ("READ", b"read", {"READ_MOST": 7}), ("READ", b"read", {"READ_MOST": 100}),
                                 ("WRITE", b"write", {"WRITE_MOST": 1})):
        for number, answer, was_made in runner.in_turn(words, packets, kind, **further):
            out, errors, status = answer
            is_fault = stream.startswith(out) and (errors, status) == (b"fault: %s\n" % fault, 3)
            # A request may be refused whose answer nothing rests on.
            if not (was_made and is_fault) and (answer != (stream, b"", 0) or was_made and kind != "MEMORY"):
                yield "%s: %s %d %r: %r" % (words, kind, number, further, answer)


def summed(lines):
    """These lines of a fetch and their summary, as `fetched_in_turn` gives them."""
    return (lines + summary(lines)).encode()


def fetched_in_turn(runner, words, *kind, **further):
    """As `in_turn`, for a fetch: in place of the seconds of its summary stands S."""
    for number, (out, errors, status), was_made in runner.in_turn(words, b"", *kind, **further):
        yield number, (out, timeless(errors.decode()).encode(), status), was_made


def fetching(runner):
    """The calls of a `fetch` fail in turn: each write, each request for memory, and each call of the first connection."""
    tiny = info_of(100)
    torrent = b"d4:info" + tiny + b"e"
    peer = Peer(giving(tiny))
    words = "fetch --torrent %s %s" % (hashlib.sha1(tiny).hexdigest(), peer.address)
    fetched = summed(peer.address + " fetched\n")
    for number, answer, was_made in fetched_in_turn(runner, words, "WRITE", WRITE_MOST=1):
        if answer != ((torrent[:number - 1], fetched + b"fault: write\n", 3) if was_made else (torrent, fetched, 0)):
            yield "%s: write %d: %r" % (words, number, answer)
    for number, (out, errors, status), was_made in fetched_in_turn(runner, words, "NOTHING", WRITE_MOST=9):
        is_fault = torrent.startswith(out) and out != torrent and (errors, status) == (fetched + b"fault: write\n", 3)
        if not (is_fault if was_made else (out, errors, status) == (torrent, fetched, 0)):
            yield "%s: write %d takes nothing: %r" % (words, number, (out, errors, status))
    for number, answer, was_made in fetched_in_turn(runner, words, "MEMORY"):
        is_fault = answer in [(b"", errors + b"fault: memory\n", 3) for errors in (b"", summed(""), summed(peer.address + " left\n"), fetched)]
        # Without memory for it the summary is left out.
        is_unsummed = answer == (torrent, (peer.address + " fetched\n").encode(), 0)
        # Without memory for it the line of a connection's end is, too.
        is_untold = answer == (torrent, fetched.removeprefix((peer.address + " fetched\n").encode()), 0)
        # Without memory for a connection its address comes again.
        is_again = answer == (torrent, summed(peer.address + " unreachable\n" + peer.address + " fetched\n"), 0)
        if answer != (torrent, fetched, 0) and not (was_made and (is_fault or is_unsummed or is_untold or is_again)):
            yield "%s: request %d: %r" % (words, number, answer)
    peer.close()
    peer = Peer(giving(INFO))
    words = "fetch --at-once 1 %s %s %s" % (hashlib.sha1(INFO).hexdigest(), peer.address, peer.address)
    unreachable, closed, fetched = (peer.address + end for end in (" unreachable\n", " closed\n", " fetched\n"))
    for number, answer, was_made in fetched_in_turn(runner, words, "WIRE"):
        # Before a byte was moved there was no connection.
        failed = unreachable if number == 1 else closed
        if answer != (INFO, summed(failed + fetched if was_made else fetched), 0):
            yield "%s: call %d of the connection: %r" % (words, number, answer)
    peer.close()


def served_by(port, info):
    """The one block of the metadata that `serve` gives, and the address of this end; None if it closes before."""
    link = Link(socket.create_connection(("127.0.0.1", port)))
    address = "127.0.0.1:%d" % link.link.getsockname()[1]
    try:
        link.send(handshake(info_hash=hashlib.sha1(info).digest()), naming(7), message(b"\x14\x03d8:msg_typei0e5:piecei0ee"))
        link.exactly(68)
        got = link.receive()
        while got[:2] != b"\x14\7":
            got = link.receive()
        return got[-len(info):], address
    except OSError:
        return None, address
    finally:
        link.link.close()


def serving(runner):
    """Each request for memory of a `serve` is refused: that ends it, or its connection alone, or takes the line, or changes nothing."""
    tiny = info_of(100)
    with open(os.path.join(runner.work, "info"), "wb") as file:
        file.write(tiny)
    words = [runner.program, "serve", "--connections", "1", "info"]
    for number in range(1, MOST):
        runner.runs += 1
        process = subprocess.Popen(words, stdin=subprocess.DEVNULL, stdout=subprocess.PIPE, stderr=subprocess.PIPE, cwd=runner.work,
                                   env={"LD_PRELOAD": runner.library, "MADE": runner.made, "MEMORY": str(number)})
        first = process.stdout.readline()
        block, address = served_by(int(first.rsplit(b":", 1)[1]), tiny) if first else (None, "")
        out, errors = process.communicate(timeout=60)
        was_made = os.path.exists(runner.made)
        if was_made:
            os.remove(runner.made)
        lines = out.decode().splitlines()
        is_served = (block, errors, process.returncode) == (tiny, b"", 0) and lines == [address + " sent=4 handled=3 closed"]
        is_untold = (block, errors, process.returncode, lines) == (tiny, b"", 0, [])
        is_closed = (block, errors, process.returncode, len(lines)) == (None, b"", 0, 1) and lines[0].startswith(address) and lines[0].endswith(" closed")
        is_fault = (block, errors, process.returncode) == (None, b"fault: memory\n", 3) and lines in ([], [address + " sent=0 handled=0 closed"])
        if not (is_served or was_made and (is_untold or is_closed or is_fault)):
            yield "serve: request %d: %r" % (number, (block, first, out, errors, process.returncode))
        if not was_made:
            return
    raise RuntimeError("a run of serve makes %d calls" % MOST)


def main():
    program = os.path.abspath(sys.argv[1] if len(sys.argv) > 1 else os.path.join(ROOT, "bt_tool"))
    if shutil.which("cc") is None:
        print("faults: not run, since there is no cc")
        return 0
    wrong = 0
    with tempfile.TemporaryDirectory() as work:
        runner = Runner(program, work)
        for words, given, parts in COMMANDS:
            for device in (memory, reads, writes) + ((wires,) if words == "loop" else ()):
                for line in device(runner, words, given, parts):
                    wrong += 1
                    print("faults: wrong: bt_tool %s: %s" % (words, line))
        for part in (two_files, two_directions, capturing, streaming, looping, fetching, serving):
            for line in part(runner):
                wrong += 1
                print("faults: wrong: bt_tool " + line)
    print("faults: %s %d runs" % ("failed: %d wrong of" % wrong if wrong else "ok:", runner.runs))
    return 1 if wrong else 0


if __name__ == "__main__":
    sys.exit(main())
