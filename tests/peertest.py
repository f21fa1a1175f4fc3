#!/usr/bin/env python3
"""Tests the conformance suite tools/peertest, and `serve` and `fetch` by it.

usage: tests/peertest.py [PROGRAM [PART..]]

PROGRAM is the built program, or else dist's, or the script `bt_tool` at the top of the repository. The suite is held against what
is known: the proved rules say of each case's stream what the case says; a client that is right (tests/standin.py) passes all; and
for each rule there is a mutant of it that breaks only that, which fails. PART is stated, right, mutants, command, times or ours; and
whole, which isn't among the parts that run without a name: it measures whole runs, for some minutes. The library is libbt.so of
dist/x86_64-linux, of crates/bt_c/out, or BT_LIBRARY.
"""
import collections
import contextlib
import fnmatch
import json
import os
import pty
import queue
import re
import signal
import socket
import subprocess
import sys
import tempfile
import threading
import time
import xml.etree.ElementTree

sys.dont_write_bytecode = True
HERE = os.path.dirname(os.path.abspath(__file__))
ROOT = os.path.dirname(HERE)
sys.path[:0] = [os.path.join(ROOT, "tools"), HERE]
import standin  # noqa: E402
from peertest_lib import cases, client, command, judge, link, proved, replay, suite, torrent  # noqa: E402

PROGRAM = proved.tool(os.path.abspath(sys.argv[1]) if sys.argv[1:] else None)
SUITE = os.path.join(ROOT, "tools", "peertest")
STANDIN = os.path.join(HERE, "standin.py")
WORKERS = 32

# Each rule that the stand-in keeps, and the cases that fail if it doesn't.
MUTANTS = {
    "nothing before the info hash": "hs.quiet hs.quiet-wrong",
    "a handshake may be cut": "hs.bytewise hs.split/*",
    "another protocol is closed": "hs.wrong-protocol hs.wrong-length hs.http",
    "another info hash is closed": "hs.wrong-hash hs.zero-hash",
    "messages may follow at once": "hs.one-segment",
    "reserved bits are no matter": "hs.reserved-all/*",
    "a peer id may be anything": "hs.peer-id-zero",
    "no Fast message without the extension": "hs.reserved-none hs.reserved-ext",
    "no extended message without the protocol": "hs.reserved-none hs.reserved-fast",
    "the handshake is first": "hs.plain own.first",
    "the first message says the pieces": "own.first",
    "the extended handshake comes by itself": "own.extended",
    "a keep-alive is ignored": "ka.one ka.split",
    "a keep-alive may be first": "ka.first",
    "keep-alives may be many": "ka.thousand ka.flood",
    "right messages are taken": "len.right/* hv.fine ch.again",
    "messages may be long": "len.long",
    "a wrong length is closed": "len.wrong/* len.port/* len.fast/* len.ext-none",
    "a length has a limit": "len.huge/* len.huge-noid len.big-piece hs.twice",
    "a bitfield is first": "bf.late bf.twice fs.both",
    "a bitfield may be empty": "bf.none",
    "a bitfield may be left out": "bf.skip",
    "a bitfield may have pieces": "bf.some",
    "spare bits are zero": "bf.spare bf.all-and-spare",
    "a bitfield has its length": "bf.short bf.long bf.empty",
    "a have is taken": "hv.fine",
    "a have may come again": "hv.twice",
    "an index is inside the torrent": "hv.bad/* lc.have-beyond",
    "haves may be many": "hv.flood",
    "interest may change": "ch.again",
    "choke may change": "ch.unchoke",
    "a port message is taken": "pt.port/*",
    "messages may be cut": "fr.bytewise fr.length-cut lc.bytewise ka.split",
    "one read may have many messages": "fr.one-segment",
    "an end that nobody answers is closed": "fr.half-closed fr.half-message",
    "a crowd is no reason to close": "cr.crowd",
    "a crowd shuts nobody out": "cr.crowd-all",
    "blocks are right": "rq.plain rq.last rq.small rq.no-read",
    "the last block is given": "rq.last",
    "small blocks are given": "rq.small",
    "a request is of 16 KiB at most": "rq.whole-piece",
    "a request beyond the torrent gets no block": "rq.beyond/*",
    "an empty request isn't answered by a block": "rq.zero",
    "each request is answered": "rq.twice",
    "many requests are answered": "rq.pipeline rq.pipeline-2000 rq.no-read rq.cancel rq.choked-flood",
    "a choked request is rejected": "rq.choked rq.choked-slow rq.to-leech rq.choked-flood",
    "no block goes to a choked peer": "rq.choked-nofast",
    "no reject without the Fast Extension": "rq.choked-nofast",
    "the allowed fast set is given": "rq.allowed-fast",
    "a cancelled request has one response": "rq.cancel rq.cancel-one",
    "a cancel may come too late": "rq.cancel-unasked",
    "no Fast message is taken without it": "fs.off/*",
    "have all and have none are first": "fs.late/*",
    "a reject of nothing is closed": "fs.reject-unasked fs.reject-beyond",
    "a block that wasn't asked for is closed": "fs.piece-unasked/* lc.served/* lc.served-index lc.reject-and-piece",
    "a block beyond the torrent is closed": "fs.piece-beyond/* fs.piece-index/*",
    "a suggestion is taken": "fs.suggest",
    "allowed fast is taken": "fs.allowed",
    "advice may be long": "fs.allowed-flood",
    "each item is optional": "ex.fine",
    "unknown names are ignored": "ex.unknown len.long",
    "it may come again": "ex.twice",
    "it may come often": "ex.flood",
    "integers have any size": "ex.int/*",
    "the id 0 switches off": "ex.off",
    "ids may change": "ex.renumber",
    "names are added": "ex.additive",
    "metadata is given": "md.get md.last",
    "two requests have two answers": "md.both md.again",
    "without metadata a request is rejected": "mg.request",
    "a block that isn't there is rejected": "md.beyond/* md.beyond-32-bits/* md.negative",
    "the last block is as long as it is": "md.last",
    "a broken message is ignored": "md.malformed/*",
    "an unknown type is ignored": "md.unknown-type",
    "further keys are no matter": "md.extra-keys",
    "bytes after it are no matter": "md.trailing",
    "a metadata reject of nothing is ignored": "md.reject-unasked",
    "many metadata requests are answered": "md.flood",
    "no answer without an id": "md.no-handshake",
    "interest is true": "lc.not-interested",
    "interest is told": "lc.interested lc.have",
    "nothing is asked for while choked": "lc.choked",
    "requests are of 16 KiB": "lc.requests",
    "blocks are taken": "lc.good",
    "choke keeps requests": "lc.choke-after",
    "what is rejected isn't asked for at once": "lc.reject-all",
    "a false piece is closed": "lc.garbage",
    "only the allowed piece is asked for": "lc.allowed-fast",
    "metadata is asked for": "mg.asks mg.good",
    "what is false isn't asked for at once": "mg.meta/short mg.meta/long mg.meta/total",
    "it lives on": "len.wrong/piece-0 unk.id/99 mg.size/0",
    "own bytes are right": "hs.early-answer ex.twice-differs mg.size/* mg.meta/* lc.allowed-fast",
    "questions are answered after it":
        "unk.id/* len.big-unknown hv.complete rq.uninterested rq.cancel-beyond rq.first fs.missing fs.piece-unasked-off "
        "fs.advice-bad/* ex.bad/* ex.unsorted/* ex.trailing/* ex.deep/* ex.deep-dict ex.fields/* ex.same-ids ex.v-long ex.many "
        "ex.unknown-id ex.off-bit ex.size/* md.data-unasked md.data-odd/* dh.message/*",
    "what is written is right": "",
    "an interested peer is unchoked": "",
    "connections are taken at once": "",
    "later connections are answered": "",
}


class InProcess:
    """The stand-in in this process: a new one at each start."""

    restarts, movable, several = True, True, False
    wanted = staticmethod(lambda: True)

    def __init__(self, subject, mode, broken=None):
        self.torrent, self.mode, self.broken, self.client = subject, mode, broken, None

    def start(self):
        self.stop()
        self.client = standin.Client(self.torrent, self.mode, self.broken)
        self.address = self.client.address

    def copy(self):
        return InProcess(self.torrent, self.mode, self.broken)

    def lives(self):
        return not self.client.dead

    def status(self):
        return 70 if self.client.dead else None

    def stop(self):
        if self.client:
            self.client.close()


class Failures:
    """Counts what isn't as expected, and says it."""

    def __init__(self):
        self.count, self.lock = 0, threading.Lock()

    def same(self, what, got, expected):
        if got != expected:
            self.say("%s: got %r, expected %r" % (what, got, expected))

    def say(self, text):
        with self.lock:
            self.count += 1
            if self.count <= 50:
                print(text, flush=True)


def against(subject, mode, chosen, options, broken=None):
    """The suite against the stand-in in this process."""
    watched = InProcess(subject, mode, broken)
    watched.start()
    run = suite.Suite(subject, mode, chosen, link.Dialler(subject, watched.address), watched, options)
    if run.client.copy:  # the dialler of a new client has its address
        run.dialler.to = lambda address: link.Dialler(subject, address)
    return run, watched


def stated(loaded, subject, failures):
    """Each case's stream has the verdict that it states, by the library and by the program."""
    expected = {}
    with tempfile.TemporaryDirectory() as folder:
        for case in loaded:
            for mode in case.modes:
                stream, play = suite.dry(case, subject, mode)
                said = judge.stated(play)
                failures.same("%s %s: verdict" % (case.id, mode), judge.verdict_of_stream(stream, subject), said)
                path = os.path.join(folder, "%s~%s" % (case.id.replace("/", "~"), mode))
                with open(path, "wb") as file:
                    file.write(stream)
                expected[path] = "ok" if said is None else "at=%d %s" % (said[1], said[0])
        words = [PROGRAM, "check", "--rules", "bep", "--reserved", "0000000000100004", "--pieces", str(subject.pieces),
                 "--metadata-id", "2", "--info-hash", subject.hash.hex()]
        done = subprocess.run(words + sorted(expected), stdout=subprocess.PIPE, stderr=subprocess.DEVNULL)
        found = dict(line.split(": ", 1) for line in done.stdout.decode().splitlines())
        for path, said in expected.items():
            line = found.get(path, "nothing")
            line = "ok" if line.startswith("ok ") else re.sub(r"^refused message=\d+ ", "", line)
            failures.same("check of %s" % os.path.basename(path), line, said)


def sound(loaded, subject, failures):
    """A case that wants a close is refused by the rules, or says why it isn't; one that is kept is accepted, or says why not."""
    known = {case.id: case for case in loaded}
    failures.same("doubled ids", len(known), len(loaded))
    for case in loaded:
        refused = judge.stated(suite.dry(case, subject, case.modes[0])[1])
        if refused and refused[0] not in ("BadProtocol", "WrongInfoHash", "TooLong", "EndInside"):
            stream = suite.dry(case, subject, case.modes[0])[0]
            failures.same("%s: the rules on the rest of its stream" % case.id, rest_of(stream, subject, refused[0]), None)
        decides = any(verdict == "pass" and conditions != "any" for verdict, conditions in case.verdicts)
        said = "differs" if refused else "between"
        wrong = case.wants_close != bool(refused) and decides and case.id.split("/")[0] not in OTHERWISE
        if wrong and not getattr(case, said):
            failures.say("%s: it wants %s, the rules say %s, and it doesn't say why by `%s`"
                         % (case.id, "a close" if case.wants_close else "no close", refused, said))
        if not case.wants_close:
            continue
        twin = known.get(case.twin)
        if twin is None or twin.wants_close or not set(case.modes) <= set(twin.modes):
            failures.say("%s: its twin %r isn't a case that is kept in the same modes" % (case.id, case.twin))
        elif judge.stated(suite.dry(twin, subject, twin.modes[0])[1]):
            failures.say("%s: its twin %s is refused" % (case.id, twin.id))


def documented(loaded, failures):
    """docs/RIG.md has the number of cases of each family, each option, and how long a run takes."""
    with open(os.path.join(ROOT, "docs", "RIG.md"), encoding="utf8") as file:
        text = file.read()
    found = re.findall(r"^\| ((?:`[a-z]+`,? ?)+) \| (\d+) \|", text, re.M)
    families = [(re.findall("`([a-z]+)`", names), int(number)) for names, number in found]
    for names, number in families:
        failures.same("docs/RIG.md: %s" % names, number, sum(case.id.split(".")[0] in names for case in loaded))
    failures.same("docs/RIG.md: cases", sum(number for _, number in families), len(loaded))
    part = text.split("## The conformance suite")[1].split("\n## ")[0]
    help_ = " ".join(command.parser().format_help().split())
    options = set(re.findall(r"--[a-z][a-z-]*", help_)) - {"--help", "--other"}
    failures.same("docs/RIG.md: the options of --help", set(re.findall(r"`(--[a-z-]+)", part)) - {"--other"}, options)
    failures.same("what is told of the time", ["60 seconds" in told and "120" in told for told in (part, help_)], [True, True])


def rest_of(stream, subject, reason):
    """What the rules say of the stream without the messages that they refuse for this reason."""
    while True:
        found = judge.verdict_of_stream(stream, subject)
        if found is None or found[0] != reason:
            return found
        begin, end = 0, 68
        # (a wrong length is refused at the message's start, the others inside it or at its end)
        while begin < found[1] if reason == "WrongLength" else end < found[1]:
            begin, end = end, end + 4 + int.from_bytes(stream[end:end + 4], "big")
        stream = stream[:begin] + stream[end:]


# Their question is what comes before the refused bytes, or they may be answered by a reject or a close.
OTHERWISE = ("hs.quiet", "hs.quiet-wrong", "rq.beyond")


def right(loaded, subject, failures):
    """The stand-in that is right passes all cases of each mode."""
    def play(mode):
        chosen = cases.chosen(loaded, mode)
        run, watched = against(subject, mode, chosen, suite.Options(6, 6, "all", WORKERS))
        status = run.run()
        watched.stop()
        failures.same("%s: status of the right client" % mode, status, 0)
        for result in run.results.values():
            if result["result"] not in ("pass", "info"):
                failures.say("right %s %s: %s %s" % (mode, result["id"], result["result"], "; ".join(result["said"])))
        failures.same("%s: cases that were played" % mode, len(run.results), len(chosen))
    at_once([lambda mode=mode: play(mode) for mode in cases.MODES], len(cases.MODES))


def at_once(tasks, workers):
    """Runs the tasks, so many at a time. Raises what one of them raised."""
    waiting, faults = queue.Queue(), []
    for task in tasks:
        waiting.put(task)

    def work():
        while True:
            try:
                task = waiting.get_nowait()
            except queue.Empty:
                return
            try:
                task()
            except Exception as fault:
                faults.append(fault)
    threads = [threading.Thread(target=work) for _ in range(workers)]
    for thread in threads:
        thread.start()
    for thread in threads:
        thread.join()
    if faults:
        raise faults[0]


def mutants(loaded, subject, failures):
    """Each broken client fails the cases of its rule, and each case is failed by one."""
    with open(STANDIN, encoding="utf8") as file:
        calls = re.findall(r"(?:keeps|refuse|ignores)\(([^()]*)\)", file.read())
    named = {name for call in calls for name in re.findall(r'"([^"]+)"', call)}
    failures.same("rules of the stand-in without a row", sorted(named - set(MUTANTS)), [])
    failures.same("rows without a rule", sorted(set(MUTANTS) - named), [])
    tasks, covered = [], set()
    for broken, patterns in MUTANTS.items():
        for pattern in patterns.split():
            found = [case for case in loaded if fnmatch.fnmatchcase(case.id, pattern)]
            failures.same("%s: cases of %s" % (broken, pattern), bool(found), True)
            for case in found:
                covered.add(case.id)
                tasks.append(lambda broken=broken, case=case: mutant(subject, failures, broken, case))
    failures.same("cases that no mutant fails", sorted({case.id for case in loaded} - covered), [])
    at_once(tasks, WORKERS)


def mutant(subject, failures, broken, case):
    """A broken client fails a case."""
    run, watched = against(subject, case.modes[0], [case], suite.Options(1.2, 1.2, "all", 1, longest=1.5), broken)
    status = run.run()
    watched.stop()
    result = run.results[case.id]
    if result["result"] != "fail":
        failures.say("mutant %r: %s is %s: %s" % (broken, case.id, result["result"], "; ".join(result["said"])))
    failures.same("mutant %r: %s: status" % (broken, case.id), status, 4 if broken == "it lives on" else 1)


# The command, by a process of its own.


def run(*words, suite_=SUITE):
    done = subprocess.run([sys.executable, suite_, *words], stdin=subprocess.DEVNULL, capture_output=True, text=True)
    return done.returncode, done.stdout, done.stderr


@contextlib.contextmanager
def listening(mode, path, broken, port):
    """The stand-in in a process of its own, which the suite doesn't start."""
    words = [sys.executable, STANDIN, mode, path, "127.0.0.1:%d" % port, broken]
    with subprocess.Popen(words) as started:
        while started.poll() is None:
            try:
                socket.create_connection(("127.0.0.1", port), 1).close()
                break
            except OSError:
                time.sleep(0.05)
        try:
            yield started
        finally:
            started.kill()


def own_cases(folder, name, text):
    """The words that take these cases in place of the suite's own."""
    with open(os.path.join(folder, name), "w", encoding="utf8") as file:
        file.write(text)
    return ["--cases", os.path.join(cases.FOLDER, "00-sentences.txt"), "--cases", os.path.join(folder, name)]


def results_of(path):
    """What JUnit has of each case: its name, and the name of the element in it."""
    return [(case.get("name"), case[0].tag) for case in xml.etree.ElementTree.parse(path).getroot()]


def listener(mode, path, broken=""):
    """A command that starts the stand-in at {address}."""
    return "exec %s %s %s %s {address} %s" % (sys.executable, STANDIN, mode, path, broken and "'%s'" % broken)


def separate(loaded, subject, failures):
    """Each case has a source address of its own, and one that changes what the client has a client of its own."""
    chosen = [case for case in loaded if case.id in ("ka.one", "bf.some", "hv.fine")]
    played, watched = against(subject, "seed", chosen, suite.Options(6, 6, "all", 1))
    played.run()
    failures.same("source addresses", len(set(watched.client.sources)), len(chosen))
    watched.stop()
    chosen = [case for case in loaded if case.id in ("lc.good", "lc.served/short", "lc.garbage")]
    played, watched = against(subject, "leech", chosen, suite.Options(6, 6, "all", 1))
    played.run()
    failures.same("connections of the first client", len(watched.client.sources), 0)
    played.client = client.Watched()
    played.run()
    failures.same("cases that need a new client, without --start", [played.results[case.id]["result"] for case in chosen],
                  ["pass", "skip", "skip"])
    watched.stop()


def taken_away(loaded, subject, failures):
    """A run that was ended takes its clients away, which is no death."""
    case = next(case for case in loaded if case.id == "unk.id/10")
    played, watched = against(subject, "seed", [case], suite.Options(6, 6, "all", 1), "it lives on")
    for over, died in ((False, [case.id]), (True, [])):
        played.over, played.died = over, []
        played.play_moved(case)
        failures.same("deaths, %s" % ("once the run was ended" if over else "before"), played.died, died)
    watched.stop()


def lessons(path, failures):
    """What false findings taught: the gate, the twin, the crash, the new client; and the statuses."""
    at = "127.0.0.1:%d" % client.free_port("127.0.0.1")
    gate = run(at, "--torrent", path, "--patience", "1", "--start", listener("seed", path, "the handshake is first"))
    failures.same("a gate that fails", gate[0], 3)
    # A client that closes after each message closes the twins too, so that none of its closes counts.
    twin = run(at, "--torrent", path, "--only", "hv.fine,hv.bad", "--level", "all", "--start",
               listener("seed", path, "a have is taken"))
    failures.same("a close whose twin is closed", (twin[0], twin[1].count("skip  hv.bad/")), (1, 4))
    crash = run(at, "--torrent", path, "--only", "unk.id/10,unk.id/11,ka.one,bf.some,md.get", "--start",
                listener("seed", path, "it lives on"), "--jobs", "4")
    died = sorted(set(re.findall(r"fail +(\S+) .*THE CLIENT DIED \(status 70\)", crash[1])))
    # (each message that isn't of the opening or of the last question kills it)
    failures.same("deaths, each given to its case", (crash[0], died, "in this case or" in crash[1]),
                  (4, ["bf.some", "unk.id/10", "unk.id/11"], False))
    failures.same("the cases without a death", sorted(re.findall(r"pass +(\S+)", crash[1])), ["ka.one", "md.get"])
    # A client that the suite didn't start: the death is seen by its process, and the rest isn't run.
    port = client.free_port("127.0.0.1")
    with listening("seed", path, "it lives on", port) as watched:
        words = ["--only", "unk.id/10,ka.one,md.get,bf.some", "--jobs", "1", "--pid", str(watched.pid)]
        status, text, _ = run("127.0.0.1:%d" % port, "--torrent", path, *words)
    failures.same("a death of a client that wasn't started", (status, re.findall(r"^(pass|fail|skip) +(\S+)", text, re.M)),
                  (4, [("pass", "ka.one"), ("fail", "unk.id/10"), ("skip", "bf.some"), ("skip", "md.get")]))


UNPLAYED = """case my.closed
title another info hash
rule info-hash must
twin my.kept
open handshake=no
raw 13+"BitTorrent protocol"+0000000000100004+0102030405060708090a0b0c0d0e0f1011121314+{peer}
ping read 6
pass closed

case my.death
title an unknown id, so late that no earlier case is to blame, and then time for the process to end
rule unknown own
pause 3.5
raw 000000010a
noread 5
info alive

case my.kept
title a correct handshake
rule info-hash must
pass alive
"""


def unplayed(folder, path, failures):
    """A death before the twin of a case was played: all is summed up and written."""
    port, written = client.free_port("127.0.0.1"), os.path.join(folder, "unplayed.xml")
    words = own_cases(folder, "unplayed.txt", UNPLAYED)
    gate = ["--cases", os.path.join(cases.FOLDER, "10-handshake.txt"), "--only", "my.*"]
    for more in (gate, []):
        with listening("seed", path, "it lives on", port) as watched:
            status, text, errors = run("127.0.0.1:%d" % port, "--torrent", path, *words, *more, "--jobs", "1", "--pid",
                                       str(watched.pid), "--junit", written)
        failures.same("a death before a twin", (status, re.findall(r"^(pass|fail|skip) +(\S+)", text, re.M), errors),
                      (4, [("pass", "my.closed"), ("fail", "my.death"), ("skip", "my.kept")], ""))
        failures.same("its summary", text.endswith("1 pass, 1 fail, 1 skip; THE CLIENT DIED in my.death\n"), True)
        failures.same("its JUnit", results_of(written), [("my.closed", "system-out"), ("my.death", "failure"), ("my.kept", "skipped")])


ENDLESS = """case my.kept
title a correct handshake
rule info-hash must
{more}
pass alive

case my.endless
title a pause
rule unknown own
{more}
pause 600
pass alive

case my.later
title a case that isn't reached
rule unknown own
{more}
pass alive
"""


def shown(screen, played):
    """Waits until the first of three cases is played, and the next one has begun."""
    told = b""
    while b"1 of 3 cases" not in told and played.poll() is None:
        told += os.read(screen, 4096)
    time.sleep(1.5)


def terminated(folder, path, failures, mode, more):
    """SIGTERM ends it and its client within the ten seconds that CI gives, and what was played is written."""
    port, written = client.free_port("127.0.0.1"), os.path.join(folder, "terminated-%s.xml" % mode)
    tap = os.path.join(folder, "terminated-%s.tap" % mode)
    room = os.path.join(folder, "room of " + mode)
    os.mkdir(room)
    played_cases = own_cases(folder, "endless-%s.txt" % mode, ENDLESS.format(more=more))
    words = [sys.executable, SUITE, "127.0.0.1:%d" % port, "--torrent", path, *played_cases, "--mode", mode,
             "--jobs", "1", "--junit", written, "--tap", tap, "--start", listener(mode, path)]
    # (on a terminal it shows how many cases were played)
    screen, end = pty.openpty()
    with subprocess.Popen(words, stdout=subprocess.PIPE, stderr=end, text=True, start_new_session=True,
                          env={**os.environ, "TMPDIR": room}) as played:
        os.close(end)
        shown(screen, played)
        begin = time.monotonic()
        played.terminate()
        text = played.communicate(timeout=60)[0]
        took = time.monotonic() - begin
    failures.same("SIGTERM: status", played.returncode, 143)
    failures.same("SIGTERM: it says so", b"peertest: ended by SIGTERM" in os.read(screen, 4096), True)
    os.close(screen)
    failures.same("SIGTERM: lines", re.findall(r"^(?:pass +(my\S+)|peertest: .*: (.*))", text, re.M),
                  [("my.kept", ""), ("", "1 pass, 0 fail, 2 skip")])
    if os.path.exists(written):
        failures.same("SIGTERM: JUnit", results_of(written),
                      [("my.kept", "system-out"), ("my.endless", "skipped"), ("my.later", "skipped")])
    failures.same("SIGTERM: JUnit is there", os.path.exists(written), True)
    if os.path.exists(tap):
        failures.same("SIGTERM: TAP", [(ok, name, directive) for ok, _, name, directive, _ in points(tap)[0]],
                      [("ok", "my.kept", ""), ("ok", "my.endless", "SKIP the run was ended before"),
                       ("ok", "my.later", "SKIP the run was ended before")])
    failures.same("SIGTERM: TAP is there", os.path.exists(tap), True)
    failures.same("SIGTERM: it took less than 10 s", took < 10, True)
    failures.same("SIGTERM: folders that are left", os.listdir(room), [])
    with socket.socket() as door:
        failures.same("the client's port after SIGTERM", door.connect_ex(("127.0.0.1", port)) != 0, True)


def interrupted(path, failures):
    """Ctrl-C ends it and its client, with a word."""
    port = client.free_port("127.0.0.1")
    words = [sys.executable, SUITE, "127.0.0.1:%d" % port, "--torrent", path, "--jobs", "2", "--start", listener("seed", path)]
    # (a shell's background job ignores SIGINT, and what it starts does too)
    with subprocess.Popen(words, stdout=subprocess.DEVNULL, stderr=subprocess.PIPE, text=True, start_new_session=True,
                          preexec_fn=lambda: signal.signal(signal.SIGINT, signal.SIG_DFL)) as played:
        while played.poll() is None:
            try:
                socket.create_connection(("127.0.0.1", port), 1).close()
                break
            except OSError:
                time.sleep(0.05)
        time.sleep(0.5)
        played.send_signal(signal.SIGINT)
        said = played.communicate(timeout=60)[1]
    failures.same("Ctrl-C", (played.returncode, said), (130, "peertest: interrupted\n"))
    with socket.socket() as door:
        door.setsockopt(socket.SOL_SOCKET, socket.SO_REUSEADDR, 1)
        failures.same("the client's port after Ctrl-C", door.connect_ex(("127.0.0.1", port)) != 0, True)


def refusals(path, failures):
    """Addresses that aren't this machine's, and wrong words."""
    rows = [("192.0.2.9:6881", 2, "isn't on this machine"), ("[2001:db8::1]:6881", 2, "isn't on this machine"),
            ("0.0.0.0:6881", 2, "isn't on this machine"), ("127.0.0.1:0", 2, "no port"), ("localhost:1", 2, "is no IP:PORT")]
    for address, status, words in rows:
        got = run(address, "--torrent", path)
        failures.same("the address %s" % address, (got[0], words in got[2]), (status, True))
    nobody = client.free_port("127.0.0.1")
    failures.same("nobody listens", run("127.0.0.1:%d" % nobody, "--torrent", path, "--patience", "0.2")[0], 3)
    failures.same("an address that is owned", command.address_of("192.0.2.9:6881", ["192.0.2.9"]), ("192.0.2.9", 6881))
    failures.same("the next address", command.address_of("[::1]:6881", []), ("::1", 6881))
    if socket.has_ipv6 and os.path.exists("/proc/net/if_inet6"):
        six = run("[::1]:%d" % client.free_port("::1"), "--torrent", path, "--only", "md.get,bf.late", "--start",
                  listener("seed", path))
        failures.same("over IPv6", six[0], 0)
    for words in (["--torrent", path], ["127.0.0.1:1"], ["--nothing"], ["127.0.0.1:1", "--torrent", path, "--only", "no.such"]):
        failures.same("wrong words %s" % words, run(*words)[0], 2)


def outputs(folder, path, failures):
    """What it prints and writes."""
    at = "127.0.0.1:%d" % client.free_port("127.0.0.1")
    names = {name: os.path.join(folder, name) for name in ("a.json", "a.xml", "streams", "known")}
    with open(names["known"], "w", encoding="utf8") as file:
        file.write("# what may fail\nmd.unknown-type  it closes\nmd.get  it doesn't fail any more\nmd.got  no case\n")
    words = [at, "--torrent", path, "--only", "md.get,md.unknown-type,bf.late", "--start",
             listener("seed", path, "an unknown type is ignored"), "--json", names["a.json"], "--junit", names["a.xml"],
             "--streams", names["streams"]]
    status, text, _ = run(*words)
    failures.same("a failure: status", status, 1)
    sentence = 'BEP 9, "extension message" (must, paraphrased): a message type that an end doesn\'t know is ignored'
    failures.same("its sentence", sentence in text, True)
    with open(names["a.json"], encoding="utf8") as file:
        found = json.load(file)
    failures.same("json", ([case["result"] for case in found["cases"]], found["counts"], found["died"]),
                  (["pass", "pass", "fail"], {"pass": 2, "fail": 1}, []))
    tree = xml.etree.ElementTree.parse(names["a.xml"]).getroot()
    failed = [case.get("name") for case in tree if case.find("failure") is not None]
    failures.same("junit", (tree.get("tests"), tree.get("failures"), failed), ("3", "1", ["md.unknown-type"]))
    sent, got = [os.path.join(names["streams"], "bf.late." + end) for end in ("sent", "got")]
    verdict = subprocess.run([PROGRAM, "check", "--other", got, "--pieces", "38", sent], capture_output=True, text=True)
    failures.same("a stream that was written", verdict.stdout.split()[-1:], ["Late"])
    status, text, errors = run(*words, "--known", names["known"])
    failures.same("a known failure", (status, "md.get is known to fail, and passed" in text), (0, True))
    failures.same("a known case that isn't there", errors, "peertest: %s names md.got, and there is no such case\n" % names["known"])
    listed = run("--list", "--bep", "9", "--mode", "magnet")[1]
    failures.same("the list", ("(paraphrased)" in listed, listed.count('BEP 9, "') == int(listed.split()[-2]) > 0), (True, True))


def replays(loaded, subject, path, failures):
    """The script of a case makes its stream, by the program."""
    names = ("hs.plain", "bf.late", "len.wrong/have-1", "ex.int/2^64", "fs.off/suggest", "hs.wrong-hash", "hs.http",
             "md.malformed/abc", "lc.served/short", "ka.thousand")
    chosen = [case for case in loaded if case.id in names]
    for case in chosen:
        text, stream = replay.script(case, subject, case.modes[0])
        with tempfile.TemporaryDirectory() as folder:
            os.symlink(PROGRAM, os.path.join(folder, "bt_tool"))
            done = subprocess.run(["sh", "-c", text], cwd=folder, stdin=subprocess.DEVNULL, capture_output=True, text=True)
            with open(os.path.join(folder, "stream.bin"), "rb") as file:
                failures.same("replay of %s" % case.id, (done.returncode, file.read() == stream, done.stderr), (0, True, ""))
    text = run("--replay", "hs.plain", "--torrent", path)[1]
    failures.same("--replay", (text.startswith("#!/bin/sh\n# hs.plain"), "have-none" in text), (True, True))


def again(folder, path, failures):
    """A failure in JUnit has a line that runs its case again."""
    top, port, written = os.path.join(folder, "a top"), client.free_port("127.0.0.1"), os.path.join(folder, "again.xml")
    os.mkdir(top)
    os.symlink(PROGRAM, os.path.join(top, "bt_tool"))
    os.symlink(os.path.join(ROOT, "tools"), os.path.join(top, "tools"))
    for mode, name, broken in (("seed", "md.unknown-type", "an unknown type is ignored"), ("leech", "ka.one", "a keep-alive is ignored")):
        run("127.0.0.1:%d" % port, "--torrent", path, "--only", name, "--mode", mode, "--start", listener(mode, path, broken),
            "--junit", written, suite_=os.path.join(top, "tools", "peertest"))
        failure, = xml.etree.ElementTree.parse(written).getroot().iter("failure")
        sentence, line = failure.text.split("\n")
        failures.same("the sentence in JUnit", re.match('BEP [39], ".*" [(]must, paraphrased[)]: ', sentence) is not None, True)
        failures.same("the words in JUnit", re.match("again: .*--replay %s " % name, line) is not None, True)
        with listening(mode, path, broken, port):
            done = subprocess.run(["sh", "-c", line.partition(": ")[2]], cwd=folder, capture_output=True, text=True)
        failures.same("again: %s" % done.stderr, (done.returncode, re.search("talk: (closed|reset) after", done.stderr) is not None), (1, True))
        case = next(case for case in cases.load() if case.id == name)
        with open(os.path.join(top, "stream.bin"), "rb") as file:
            failures.same("the stream that was sent again", file.read() == replay.script(case, torrent.Torrent(path), mode)[1], True)
    # (what it writes on standard error isn't text that XML may have)
    dialled = "%s %s magnet %s --dial {addr} {out} 'what is written is right'; printf '\\033[31mred\\001\\n' >&2" % (sys.executable, STANDIN, path)
    run("--torrent", path, "--only", "mg.good,mg.meta/short", "--junit", written, "--dial", dialled)
    failures.same("control characters in JUnit", results_of(written), [("mg.meta/short", "system-out"), ("mg.good", "failure")])
    failure, = xml.etree.ElementTree.parse(written).getroot().iter("failure")
    done = subprocess.run(["sh", "-c", failure.text.partition("again: ")[2]], cwd=folder, capture_output=True, text=True)
    failures.same("again, of a client that dials", done.stdout.startswith("#!/bin/sh\n# mg.good"), True)


def dials(path, failures):
    """A client that dials: what it writes is judged."""
    words = ["--torrent", path, "--only", "mg.good,hs.plain,hs.wrong-hash", "--level", "all", "--dial"]
    command_ = "exec %s %s magnet %s --dial {addr} {out} " % (sys.executable, STANDIN, path)
    failures.same("a client that dials", run(*words, command_)[0], 0)
    false = run(*words, command_ + "'what is written is right'")
    failures.same("false metadata", (false[0], false[1].count("FALSE METADATA")), (1, 1))


# Results as TAP, and the file of known failures.

ODD = """case my.fine
title a correct handshake
rule info-hash must
pass alive

case my.number#1
title a client that takes an unknown type
rule metadata-type must
um "d8:msg_typei9e5:piecei0ee"
pass alive

case my.other
title another
rule info-hash must
um "d8:msg_typei9e5:piecei0ee"
pass alive

case my.lacking
title the client has the Fast Extension
rule info-hash must
need nofast
pass alive

case my.weak
title what no sentence forbids
rule info-hash should
um "d8:msg_typei9e5:piecei0ee"
pass alive
note closed
"""


def points(path):
    """The lines of a TAP file: ok or not, id, directive, and the YAML below; with its version, its plan, and what else it has."""
    with open(path, encoding="utf8") as file:
        lines = file.read().split("\n")
    found, others, block = [], [], None
    for line in lines:
        point = re.match(r"(ok|not ok) (\d+) - ((?:[^#\\]|\\.)*?)(?: # (.*))?$", line)
        if point:
            found.append((point[1], int(point[2]), re.sub(r"\\(.)", r"\1", point[3]), point[4] or "", {}))
        elif line in ("  ---", "  ..."):
            block = found[-1][4] if line == "  ---" else None
        elif block is not None:
            name, _, value = line.strip().partition(": ")
            block[name] = json.loads(value)
        else:
            others.append(line)
    return found, others


def tapped(folder, path, failures):
    """TAP has a line for each case, in the order of the cases, with YAML, SKIP, and TODO for what is known to fail."""
    names = [os.path.join(folder, name) for name in ("odd.tap", "odd.xml", "odd.known")]
    with open(names[2], "w", encoding="utf8") as file:
        file.write("my.other  it closes\nmy.fine  it did\n")
    words = [*own_cases(folder, "odd.txt", ODD), "--tap", names[0], "--junit", names[1], "--known", names[2]]
    at = "127.0.0.1:%d" % client.free_port("127.0.0.1")
    status, _, errors = run(at, "--torrent", path, *words, "--start", listener("seed", path, "an unknown type is ignored"))
    failures.same("TAP: status", (status, errors), (1, ""))
    found, others = points(names[0])
    failures.same("TAP: version and plan", others, ["TAP version 14", "1..5", ""])
    failures.same("TAP: numbers", [number for _, number, _, _, _ in found], [1, 2, 3, 4, 5])
    failures.same("TAP: lines", [(ok, name, directive) for ok, _, name, directive, _ in found], [
        ("ok", "my.fine", "TODO known to fail, and it doesn't: take it off the list"), ("not ok", "my.number#1", ""),
        ("not ok", "my.other", "TODO known to fail"),
        ("ok", "my.lacking", "SKIP the client has no way without the Fast Extension"), ("ok", "my.weak", "")])
    failures.same("TAP: the order of JUnit", [name for _, _, name, _, _ in found], [name for name, _ in results_of(names[1])])
    said = found[1][4]
    failures.same("TAP: a failure", {name: said.get(name) for name in ("result", "level", "bep")},
                  {"result": "fail", "level": "must", "bep": "BEP 9"})
    failures.same("TAP: its message", re.search("(closed|reset) after", said.get("message", "")) is not None, True)
    failures.same("TAP: its words", ("--replay 'my.number#1'" in said.get("again", ""), "(paraphrased)" in said.get("sentence", "")),
                  (True, True))
    failures.same("TAP: times", [name for *_, name, _, block in found if "duration_ms" not in block], ["my.lacking"])
    run("127.0.0.1:%d" % client.free_port("127.0.0.1"), "--torrent", path, "--patience", "0.2", "--tap", names[0])
    failures.same("TAP: nobody listens", points(names[0]),
                  ([], ["TAP version 14", "Bail out! the client takes no correct connection", ""]))


def writes_known(folder, path, failures):
    """What a run writes as known lets the next one pass; what no longer fails is told, and leaves the list."""
    first, second = os.path.join(folder, "first.known"), os.path.join(folder, "second.known")
    at = ["127.0.0.1:%d" % client.free_port("127.0.0.1"), "--torrent", path]
    broken, right_ = [["--start", listener("seed", path, name)] for name in ("an unknown type is ignored", "")]
    chosen = ["--only", "md.get,md.unknown-type,bf.late,hv.bad"]
    status, text, _ = run(*at, *chosen, *broken, "--write-known", first)
    failures.same("the first run", (status, re.findall(r"^fail +(\S+)", text, re.M)), (1, ["md.unknown-type"]))
    with open(first, encoding="utf8") as file:
        lines = [line.rstrip("\n") for line in file]
    listed = [line for line in lines if not line.startswith("#")]
    failures.same("what is known", [line.split()[0] for line in listed], ["md.unknown-type"])
    failures.same("its reason", re.match(r"md\.unknown-type  # (closed|reset) after \d+ bytes of ours\. BEP 9, ", listed[0]) is not None, True)
    status, text, errors = run(*at, *chosen, *broken, "--known", first)
    failures.same("a second run", (status, errors, "fail " in text), (0, "", False))
    # A line that somebody wrote stays, and so does one that this run says nothing of.
    with open(first, "w", encoding="utf8") as file:
        file.write("md.unknown-type  issue 12\nrq.last  flaky\nbf.late  it was kept\n")
    status, text, _ = run(*at, *chosen, *broken, "--known", first, "--write-known", second)
    told = "peertest: bf.late is known to fail, and passed: take it off the list\n"
    failures.same("what no longer fails", (status, told in text), (0, True))
    with open(second, encoding="utf8") as file:
        failures.same("the next list", [line for line in file if not line.startswith("#")],
                      ["md.unknown-type  issue 12\n", "rq.last  flaky\n"])
    status, text, _ = run(*at, *chosen, *right_, "--known", second, "--write-known", second)
    with open(second, encoding="utf8") as file:
        failures.same("the list of a client that is right", [line for line in file if not line.startswith("#")], ["rq.last  flaky\n"])
    own = own_cases(folder, "weak.txt", ODD)
    with open(first, "w", encoding="utf8") as file:
        file.write("my.weak  it closes\n")
    text = run(*at, *own, "--only", "my.weak", *broken, "--known", first)[1]
    failures.same("a known failure that is a note", "my.weak is known to fail, and is a note now: take it off the list" in text, True)
    run(*at, "--only", "unk.id/10", "--start", listener("seed", path, "it lives on"), "--write-known", second)
    with open(second, encoding="utf8") as file:
        last = file.readlines()[-1]
    failures.same("a death isn't forgiven", re.match(r"# unk\.id/10 isn't forgiven: .*THE CLIENT DIED", last) is not None, True)


# Deaths that only the process shows. They cost a second at most; the rest is for a machine that has other work.
SOON = 5


def ended_after(words, end):
    """A run in which `end()` ends the client in the second case: its status, its lines, and its seconds since. It is killed after 30."""
    screen, other = pty.openpty()
    with subprocess.Popen(words, stdin=subprocess.DEVNULL, stdout=subprocess.PIPE, stderr=other, text=True) as played:
        os.close(other)
        shown(screen, played)
        time.sleep(2.5)  # (so that the first case isn't to blame)
        end()
        begin = time.monotonic()
        try:
            text = played.communicate(timeout=30)[0]
        except subprocess.TimeoutExpired:
            played.kill()
            text = played.communicate()[0]
        took = time.monotonic() - begin
    os.close(screen)
    return played.returncode, text, took


def seen_by_pid(folder, path, failures):
    """The process of --pid ends while something keeps the connection open: the run is over within a second."""
    port = client.free_port("127.0.0.1")
    words = [sys.executable, SUITE, "127.0.0.1:%d" % port, "--torrent", path, *own_cases(folder, "pid.txt", ENDLESS.format(more="")),
             "--jobs", "1", "--pid"]
    with listening("seed", path, "", port), subprocess.Popen(["sleep", "600"]) as watched:
        status, text, took = ended_after([*words, str(watched.pid)], watched.kill)
    failures.same("a death that its process shows", (status, re.findall(r"^(pass|fail|skip) +(\S+)", text, re.M)),
                  (4, [("pass", "my.kept"), ("fail", "my.endless"), ("skip", "my.later")]))
    failures.same("seconds after it: %.1f" % took, took < SOON, True)


def seen_by_child(folder, path, failures):
    """The command of --start ends while what it started keeps the connection: a new client starts within a second."""
    port, log = client.free_port("127.0.0.1"), os.path.join(folder, "child.log")
    script, stop = os.path.join(folder, "child.sh"), os.path.join(folder, "stop")
    with open(script, "w", encoding="utf8") as file:
        file.write("echo start $(date +%%s.%%N) >> %s\ntrap '' TERM\n%s %s seed %s $1 &\nwhile [ ! -e %s ]; do sleep 0.1; done\nrm %s\n"
                   "echo end $(date +%%s.%%N) >> %s\nexit 70\n" % (log, sys.executable, STANDIN, path, stop, stop, log))
    words = [sys.executable, SUITE, "127.0.0.1:%d" % port, "--torrent", path, *own_cases(folder, "child.txt", ENDLESS.format(more="")),
             "--jobs", "1", "--start", "exec sh %s {address}" % script]
    def end():
        with open(stop, "w", encoding="utf8"):
            pass
    status, text, _ = ended_after(words, end)
    failures.same("a death that its child shows", (status, re.findall(r"^(pass|fail|skip) +(\S+)", text, re.M)),
                  (4, [("pass", "my.kept"), ("fail", "my.endless"), ("pass", "my.later")]))
    with open(log, encoding="utf8") as file:
        times = [float(line.split()[1]) for line in file]
    failures.same("seconds until the next start: %s" % times, len(times) > 2 and times[2] - times[1] < SOON, True)


# Cases that wait, at the same time.

READS = """case my.read
title reads for a while
rule info-hash must
each number: {rows}
ping read 2
pass open
"""
CROWDS = """case my.crowd
title a small crowd
rule connections own
alone
crowd 20
ping none
pass crowd 20
"""
FLOODS = """case my.flood
title an unknown id, by itself
rule unknown own
alone
each number: 1|2|3|4
refused UnknownId 4
raw 000000010a
pass alive
note silent
"""


def rows(number):
    return "|".join(map(str, range(number)))


def seconds_of(text):
    """What the last line says of the time."""
    return float(re.search(r"cases in ([0-9.]+) s: ", text)[1])


def waits(folder, path, failures):
    """Cases that wait are played at the same time, in their order, and no more of them than --at-once."""
    at = ["127.0.0.1:%d" % client.free_port("127.0.0.1"), "--torrent", path]
    many = own_cases(folder, "reads.txt", READS.format(rows=rows(60)))
    _, text, _ = run(*at, *many, "--start", listener("seed", path))
    failures.same("60 cases that read 2 seconds: %s" % text.splitlines()[-1], seconds_of(text) < 16, True)
    failures.same("their order", re.findall(r"^pass +my\.read/(\d+) ", text, re.M), [str(number) for number in range(60)])
    few = own_cases(folder, "few.txt", READS.format(rows=rows(4)))
    for option in ("--at-once", "--jobs"):
        _, text, _ = run(*at, *few, option, "2", "--start", listener("seed", path))
        failures.same("%s 2: %s" % (option, text.splitlines()[-1]), seconds_of(text) > 4, True)


def silent_floods(folder, path, failures):
    """After a flood an answer may take 5 times the patience; the next case begins while one waits for it."""
    at = ["127.0.0.1:%d" % client.free_port("127.0.0.1"), "--torrent", path]
    deaf = ["--start", listener("seed", path, "questions are answered after it"), "--patience", "1.5"]
    status, text, _ = run(*at, *own_cases(folder, "floods.txt", FLOODS), *deaf)
    failures.same("4 silent floods: %s" % text.splitlines()[-1], (status, text.count("note  my.flood"), seconds_of(text) < 40), (0, 4, True))


def hangs(folder, path, failures):
    """A client that answers no further handshake is waited for less."""
    at = ["127.0.0.1:%d" % client.free_port("127.0.0.1"), "--torrent", path]
    hung = ["--start", listener("seed", path, "later connections are answered"), "--patience", "2"]
    status, text, _ = run(*at, *own_cases(folder, "hung.txt", READS.format(rows=rows(60))), *hung)
    failures.same("60 cases of a client that hangs: %s" % text.splitlines()[-1], (status, seconds_of(text) < 30), (0, True))


def crowds(folder, path, failures):
    """A crowd's handshakes are waited for at the same time."""
    at = ["127.0.0.1:%d" % client.free_port("127.0.0.1"), "--torrent", path]
    slow = listener("seed", path, "connections are taken at once")
    status, text, _ = run(*at, *own_cases(folder, "crowds.txt", CROWDS), "--start", slow)
    failures.same("a crowd of 20, three a second: %s" % text.splitlines()[-1], (status, seconds_of(text) < 18), (0, True))


def several(folder, path, failures):
    """Several clients of --start share the cases; those that can't be used get none."""
    at = ["127.0.0.1:%d" % client.free_port("127.0.0.1"), "--torrent", path]
    slow = listener("seed", path, "connections are taken at once")
    log, reads = os.path.join(folder, "several.log"), own_cases(folder, "several.txt", READS.format(rows=rows(42)))
    words = ["--start", "echo {dir} >> %s; %s" % (log, slow)]
    status, text, _ = run(*at, *reads, *words)
    with open(log, encoding="utf8") as file:
        places = file.read().split()
    failures.same("several clients: %s: %s" % (places, text.splitlines()[-1]), (status, len(places) == len(set(places)) > 2), (0, True))
    failures.same("the order of several clients' cases", re.findall(r"^pass +my\.read/(\d+) ", text, re.M), [str(number) for number in range(42)])
    # Further clients that can't be used, since the first one has what only one can have.
    lock = os.path.join(folder, "lock")
    alike = listener("seed", path), listener("seed", path, "the handshake is first")
    status, text, _ = run(*at, *reads, "--start", "if mkdir %s; then %s; else %s; fi # {dir}" % (lock, *alike))
    failures.same("further clients that can't be used: %s" % text, status, 0)
    os.remove(log)
    run(*at, *reads, "--only", "my.read/[1-3]*", *words, "--clients", "1")
    with open(log, encoding="utf8") as file:
        failures.same("--clients 1", len(file.read().split()), 1)


def deaths_of_several(folder, path, failures):
    """Of several clients each death is given to its case, as it is of one."""
    at, log = "127.0.0.1:%d" % client.free_port("127.0.0.1"), os.path.join(folder, "deaths.log")
    chosen = ["--only", "unk.id/1*,hs.plain,hs.bytewise,hs.split,hs.zero-hash,hs.wrong-hash,ka.one,md.get,md.last,own.first,ex.off"]
    start = ["--start", "echo {dir} >> %s; %s" % (log, listener("seed", path, "it lives on"))]
    found = []
    for more in ([], ["--clients", "1", "--at-once", "1"]):
        status, text, _ = run(at, "--torrent", path, *chosen, *start, *more)
        lines = re.findall(r"^(pass|fail|skip|info|note) +(\S+) .*?(DIED)?(?: \(status 70\))?$", text, re.M)
        found.append((status, lines, re.search("; THE CLIENT DIED in (.*)", text)))
    failures.same("deaths of several clients", found[0][:2], found[1][:2])
    died = [name for _, name, word in found[1][1] if word]
    failures.same("deaths", ([name.split("/")[0] for name in died], found[1][0]), (["unk.id"] * 5 + ["ex.off", "md.last"], 4))
    failures.same("deaths, in order", [one and one[1].split(", ") for _, _, one in found], [died, died])


def bounded(loaded, subject, failures):
    """Never are more connections open than --at-once says, and never are more than four unchoked for cases."""
    chosen = [case for case in loaded if case.id.startswith(("rq.", "unk.")) and not case.alone and "seed" in case.modes]
    played, watched = against(subject, "seed", chosen, suite.Options(6, 6, "all", 9))
    lock, now, most = threading.Lock(), collections.Counter(), collections.Counter()
    link_, play = played.dialler.link, played.play

    def add(name, number):
        with lock:
            now[name] += number
            most[name] = max(most[name], now[name])

    def linked():
        found = link_()
        add("open", 1)
        close = found.close
        found.close = lambda: (add("open", -1), close())
        return found

    def counted(case, *words):
        unchoked = any(word == "unchoked" for word, _ in case.steps)
        add("unchoked", unchoked)
        try:
            return play(case, *words)
        finally:
            add("unchoked", -unchoked)
    played.dialler.link, played.play = linked, counted
    played.run()
    failures.same("the most at a time", most, {"open": 9, "unchoked": 4})
    watched.stop()


def one_by_one(loaded, subject, failures):
    """A silent client's results are those of one case at a time, and they are told in the order of the cases."""
    names = ["hs.plain", "unk.id/10", "bf.late", "rq.cancel-beyond", "fs.missing", "ex.size/0", "dh.message/fine", "md.get"]
    chosen, found = [case for case in loaded if case.id in names], []
    for at_once_ in (1, WORKERS):
        told = []
        played, watched = against(subject, "seed", chosen, suite.Options(1.5, 2, "all", at_once_), "questions are answered after it")
        played.tell = told.append
        played.run()
        watched.stop()
        found.append([(result["id"], result["result"], result["state"]) for result in told])
    failures.same("at the same time, and one by one", found[1], found[0])
    failures.same("told in order", [name for name, _, _ in found[1]], [case.id for case in chosen])


def whole(path, failures):
    """A whole run takes 60 seconds if the client answers, and 120 if it is silent."""
    rows_ = [("", 60), ("connections are taken at once", 60), ("an interested peer is unchoked", 120),
             ("questions are answered after it", 120), ("later connections are answered", 120)]

    def play(broken, most):
        at = "127.0.0.1:%d" % client.free_port("127.0.0.1")
        # (with a folder, so that several clients share the cases of one that is slow)
        start = listener("seed", path, broken) + (" {dir}" if broken == "connections are taken at once" else "")
        text = run(at, "--torrent", path, "--start", start)[1]
        print("%s: %s" % (broken or "right", text.splitlines()[-1]), flush=True)
        failures.same("a whole run, %s" % (broken or "right"), seconds_of(text) < most, True)
    # (they mostly wait)
    at_once([lambda row=row: play(*row) for row in rows_], 3)


# `serve` and `fetch`.

OURS = [
    ("seed", ["--start", "exec %s serve --listen {address} --timeout 20 --max-connections 1024 {torrent}"]),
    ("magnet", ["--dial", "exec %s fetch {hash} {addr} --timeout 2 > {out}"]),
]


def ours(path, failures):
    """`serve` fails no case as a seed, and `fetch` none as a client with the info hash alone."""
    for mode, (name, words) in OURS:
        at = ["127.0.0.1:%d" % client.free_port("127.0.0.1")] if name == "--start" else []
        status, text, errors = run(*at, "--torrent", path, "--mode", mode, "--unchoke", "1", "--jobs", "16", "--quiet", name, words % PROGRAM)
        failures.same("%s: %s" % (mode, text + errors), status, 0)
        print(text.splitlines()[-1] if text else errors)


def main(words):
    begin, failures, loaded = time.monotonic(), Failures(), cases.load()
    wanted = words[1:] or ["stated", "right", "mutants", "command", "times", "ours"]
    try:
        proved.load()
    except proved.Missing as missing:
        print("peertest: not run: %s" % missing)
        return 1
    with tempfile.TemporaryDirectory() as folder:
        path = torrent.make(folder)[0]
        subject = torrent.Torrent(path)
        parts = {
            "stated": [lambda: documented(loaded, failures), lambda: sound(loaded, subject, failures),
                       lambda: stated(loaded, subject, failures)],
            "right": [lambda: right(loaded, subject, failures)],
            "mutants": [lambda: mutants(loaded, subject, failures)],
            "command": [lambda: separate(loaded, subject, failures), lambda: taken_away(loaded, subject, failures), lambda: lessons(path, failures),
                        lambda: refusals(path, failures), lambda: dials(path, failures), lambda: interrupted(path, failures),
                        lambda: unplayed(folder, path, failures), lambda: terminated(folder, path, failures, "seed", "mode seed"),
                        lambda: terminated(folder, path, failures, "leech", "mode leech\nfresh"),
                        lambda: again(folder, path, failures), lambda: outputs(folder, path, failures), lambda: replays(loaded, subject, path, failures),
                        lambda: tapped(folder, path, failures), lambda: writes_known(folder, path, failures)],
            "times": [lambda: waits(folder, path, failures), lambda: silent_floods(folder, path, failures),
                      lambda: hangs(folder, path, failures), lambda: crowds(folder, path, failures), lambda: several(folder, path, failures),
                      lambda: deaths_of_several(folder, path, failures), lambda: seen_by_pid(folder, path, failures),
                      lambda: seen_by_child(folder, path, failures), lambda: bounded(loaded, subject, failures),
                      lambda: one_by_one(loaded, subject, failures)],
            "ours": [lambda: ours(path, failures)],
            "whole": [lambda: whole(path, failures)],
        }
        # What plays against a client in this process has it for itself: its answers have a time.
        for names in (("ours", "command", "stated"), ("times",), ("right",), ("mutants",), ("whole",)):
            at_once([part for name in names if name in wanted for part in parts[name]], 10)
    said = "ok" if not failures.count else "%d failed" % failures.count
    print("peertest: %s: %d cases, %d mutants" % (said, len(loaded), len(MUTANTS)))
    if time.monotonic() - begin > 60:
        print("peertest: it took %.0f seconds" % (time.monotonic() - begin))
    return 1 if failures.count else 0


if __name__ == "__main__":
    sys.exit(main(sys.argv[1:]))
