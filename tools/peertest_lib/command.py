"""The command line of tools/peertest."""
import argparse
import ipaddress
import os
import shlex
import shutil
import signal
import sys
import tempfile
import time

from . import cases, client, known, link, options, proved, replay, report, suite, tap, torrent

USAGE = """tools/peertest ADDRESS --torrent FILE [OPTIONS]
       tools/peertest --dial 'CLIENT .. {addr}' --torrent FILE [OPTIONS]
       tools/peertest --list | --make-torrent DIR | --replay CASE --torrent FILE"""
ABOUT = "Plays the peer against a live BitTorrent client, and says which sentence of which BEP it departs from."
STATUSES = """exit status: 0 nothing failed, 1 something did, 2 wrong words, 3 the gate case failed: the client takes no correct
connection, 4 the client died, 130 and 143 SIGINT and SIGTERM ended the run. A whole run takes up to 60 seconds with a client that
answers, and 120 with one that is silent. docs/RIG.md has an introduction. The sentences of the BEPs are paraphrased."""
# Clients take 50 connections for a torrent, or more.
AT_ONCE = 32, 6
ENDINGS = {signal.SIGINT: "interrupted", signal.SIGTERM: "ended by SIGTERM"}


class Usage(Exception):
    pass


class Ended(KeyboardInterrupt):
    """A signal that ends the run."""

    def __init__(self, number):
        super().__init__()
        self.number = number


def end(number, _):
    """The first signal ends the run, and no later one what that has to write and to stop."""
    for one in ENDINGS:
        signal.signal(one, signal.SIG_IGN)
    raise Ended(number)


def take_signals():
    for number in ENDINGS:
        # (a job in the background of a shell ignores SIGINT)
        if signal.getsignal(number) != signal.SIG_IGN:
            signal.signal(number, end)


def parser():
    found = argparse.ArgumentParser(prog="peertest", usage=USAGE, description=ABOUT, epilog=STATUSES, allow_abbrev=False)
    add = found.add_argument
    add("address", nargs="?", metavar="ADDRESS", help="IP:PORT or [IPv6]:PORT where the client listens")
    add("--torrent", metavar="FILE", help="the torrent that the client has")
    add("--data", metavar="FILE", help="its data, of one file; FILE.bin beside FILE.torrent is found")
    add("--mode", choices=cases.MODES, help="the client has all pieces, none, or only the info hash [seed; magnet with --dial]")
    add("--start", metavar="CMD", help="starts the client, again after a death, and anew for each case that needs a new one; "
        "{dir} is an empty folder; {torrent}, {hash}, {port} and {address} are filled in")
    add("--dial", metavar="CMD", help="starts the client for each case, and waits until it connects to {addr}; {hash}, and {out}, a "
        "file whose metadata is judged")
    add("--list", action="store_true", help="prints the cases with their sentences")
    add("--only", metavar="GLOB,..", help="only these cases")
    add("--skip", metavar="GLOB,..", help="not these cases")
    add("--bep", type=int, metavar="N", help="only cases of this BEP")
    add("--quick", action="store_true", help="only cases of level must")
    add("--replay", metavar="CASE", help="prints a case as a shell script for bt_tool pack and tools/talk")
    add("--make-torrent", metavar="DIR", help="writes a torrent for the purpose and its data")
    add("--known", metavar="FILE", help="ids of cases that may fail, one a line, with a reason after it")
    add("--write-known", metavar="FILE", help="writes the failures of this run, as --known reads them")
    add("--level", choices=("must", "should", "all"), default="must", help="from which level on a departure is a failure [must]")
    add("--at-once", "--jobs", type=int, metavar="N", help="cases at the same time, each on a connection of its own [%d, and %d if "
        "ADDRESS isn't of 127.0.0.0/8, since all come from one address then]" % AT_ONCE)
    add("--clients", type=int, default=6, metavar="N", help="clients at the same time: of --dial, of --start for cases that need "
        "a new one, and for all cases if {port} and {dir} are in CMD [6]")
    add("--pid", type=int, metavar="N", help="the client's process, to see its death")
    add("--json", metavar="FILE", help="writes the results")
    add("--junit", metavar="FILE", help="writes the results for CI")
    add("--tap", metavar="FILE", help="writes the results as TAP, version 14")
    add("--streams", metavar="DIR", help="writes both directions of each case, for bt_tool show --other")
    add("--patience", type=float, default=4.0, metavar="S", help="seconds that an answer may take [4]")
    add("--unchoke", type=float, default=25.0, metavar="S", help="seconds that an unchoke may take [25]")
    add("--settle", type=float, default=0.0, metavar="S", help="seconds between two cases of a job [0]")
    add("--i-own", action="append", default=[], metavar="IP", help="lets ADDRESS be this machine of yours; the suite ends clients")
    add("--cases", action="append", metavar="FILE", help="cases of this file, in place of the suite's own")
    add("--library", metavar="FILE", help="libbt.so [BT_LIBRARY, dist/x86_64-linux, crates/bt_c/out]")
    add("--quiet", action="store_true", help="prints failures and the last line only")
    return found


def address_of(text, owned):
    """The host and the port. Raises Usage for a host that is neither loopback nor named by --i-own."""
    host, _, port = text.rpartition(":")
    host = host[1:-1] if host.startswith("[") and host.endswith("]") else host
    try:
        found, number = ipaddress.ip_address(host), int(port)
        mine = {ipaddress.ip_address(one) for one in owned}
    except ValueError as error:
        raise Usage("%s is no IP:PORT or [IPv6]:PORT" % text) from error
    if not 0 < number < 65536:
        raise Usage("%s has no port from 1 to 65535" % text)
    if not found.is_loopback and found not in mine:
        raise Usage("%s isn't on this machine; the suite may end a client, so name a machine of yours by --i-own %s" % (text, host))
    return str(found), number


def selected(words):
    """The cases of the words. Raises Usage."""
    try:
        loaded = cases.load(words.cases)
    except (ValueError, OSError) as error:
        raise Usage(str(error)) from error
    mode = words.mode or ("magnet" if words.dial else "seed")
    found = cases.chosen(loaded, mode, words.only, words.skip, words.bep, words.quick)
    if not found:
        raise Usage("no case is chosen")
    return loaded, found, mode


def opened(words):
    if not words.torrent:
        raise Usage("--torrent is needed (--make-torrent DIR makes one)")
    try:
        return torrent.Torrent(words.torrent, words.data)
    except (OSError, ValueError, KeyError, IndexError) as error:
        raise Usage("%s: %s" % (words.torrent, error)) from error


def ends(words, subject, folder):
    """What makes connections, and the client."""
    if words.dial:
        if words.address or words.start:
            raise Usage("--dial stands without ADDRESS and --start")
        return link.Waiter(subject, words.dial, folder), client.Watched()
    if not words.address:
        raise Usage("ADDRESS is needed")
    address = address_of(words.address, words.i_own)
    watched = client.Started(words.start, address, subject, words.torrent, folder) if words.start else client.Watched(words.pid)
    return link.Dialler(subject, address), watched


def play(words):
    """Runs the suite. Returns the exit status."""
    loaded, chosen, mode = selected(words)
    subject = opened(words)
    if words.replay:
        case = next((case for case in loaded if case.id == words.replay), None)
        if case is None:
            raise Usage("there is no case %s" % words.replay)
        sys.stdout.write(replay.script(case, subject, mode if mode in case.modes else case.modes[0])[0])
        return 0
    forgiven = known_of(words, loaded)
    times = options.Options(words.patience, words.unchoke, words.level, at_once(words), words.settle, clients=max(1, words.clients))
    count = report.counter(len(chosen))

    def tell(result):
        if result["id"] in forgiven and result["result"] == "fail":
            return
        if not words.quiet or result["result"] in ("fail", "error"):
            count(None)
            print(report.line(result), flush=True)
    folder = tempfile.mkdtemp(prefix="peertest-")
    try:
        dialler, watched = ends(words, subject, folder)
        run = suite.Suite(subject, mode, chosen, dialler, watched, times, tell, count)
        try:
            return finish(words, run, loaded, forgiven)
        finally:
            count(None)
            watched.stop()
    finally:
        client.PROCESSES.end_all(signal.SIGKILL)
        shutil.rmtree(folder, ignore_errors=True)


def at_once(words):
    """How many cases at the same time: fewer if all come from one address, since a client may limit these."""
    if words.at_once is not None:
        return max(1, words.at_once)
    return AT_ONCE[0 if words.dial or (words.address or "").startswith("127.") else 1]


def known_of(words, loaded):
    """The failures that are known, and their lines. One that names no case is told."""
    found = known.read(words.known) if words.known else {}
    there = {case.id for case in loaded}
    for name in sorted({*found} - there):
        print("peertest: %s names %s, and there is no such case" % (words.known, name), file=sys.stderr)
    return {name: line for name, line in found.items() if name in there}


def finish(words, run, loaded, forgiven):
    """Starts the client, plays the cases, and writes what came of them. Returns the exit status."""
    begin = time.monotonic()
    try:
        if not starts(words, run, loaded):
            if words.tap:
                tap.write_bail(words.tap, "the client takes no correct connection")
            return 3
        status = run.run()
        results = written(words, run, forgiven, time.monotonic() - begin)
    except Ended:
        run.cut()
        written(words, run, forgiven, time.monotonic() - begin)
        raise
    if status == 1 and not any(result["result"] in ("fail", "error") for result in results):
        status = 0
    return status


def starts(words, run, loaded):
    """Whether the client listens, and takes a correct connection."""
    if not run.start():
        print("peertest: %s doesn't listen at %s" % (words.start, words.address), file=sys.stderr)
        return False
    gate = run.gate(loaded)
    if gate["result"] != "pass":
        print("peertest: the client takes no correct connection: %s" % "; ".join(gate["said"]), file=sys.stderr)
        print("Is the torrent loaded and checked? Does it take plain TCP, without encryption, from this machine?", file=sys.stderr)
        return False
    return True


def written(words, run, forgiven, seconds):
    """Writes and prints the results, and returns them."""
    run.count(None)
    results = [run.results[case.id] for case in run.cases if case.id in run.results]
    better = known.forgive(results, forgiven)
    if words.streams:
        report.write_streams(words.streams, results)
    if words.json:
        report.write_json(words.json, run, results, seconds, better)
    if words.junit:
        report.write_junit(words.junit, run, results, seconds, lambda name: again(words, run.mode, name))
    if words.tap:
        tap.write(words.tap, results, forgiven, lambda name: again(words, run.mode, name))
    if words.write_known:
        known.write(words.write_known, results, forgiven, head(words, run))
    for name, now in better:
        print("peertest: %s is known to fail, and %s: take it off the list" % (name, now))
    print(report.summary(run.peer_id, run.mode, results, seconds, run.died), flush=True)
    return results


def head(words, run):
    """What a file of known failures says of the run that wrote it."""
    text = "mode %s, level %s%s" % (run.mode, words.level, ", client " + run.peer_id if run.peer_id else "")
    return text + ("; the run was ended before all cases were played" if run.over else "")


def again(words, mode, name):
    """The words that run a case again, in the folder where this was called."""
    given = [("--torrent", words.torrent), ("--data", words.data), ("--mode", mode)] + [("--cases", path) for path in words.cases or []]
    line = shlex.join([sys.argv[0], "--replay", name] + [word for pair in given if pair[1] for word in pair])
    if words.address:
        top = os.path.dirname(os.path.dirname(sys.argv[0]))
        line += " | (cd %s && sh -s %s %d)" % (shlex.quote(top or "."), *address_of(words.address, words.i_own))
    return line


def main(arguments):
    words = parser().parse_args(arguments)
    take_signals()
    try:
        if words.make_torrent:
            print("\n".join(torrent.make(words.make_torrent)))
            return 0
        if words.list:
            print(report.listed(selected(words)[1]))
            return 0
        proved.load(words.library)
        return play(words)
    except BrokenPipeError:
        # Nobody reads the output any more, as after `| head`.
        os.dup2(os.open(os.devnull, os.O_WRONLY), sys.stdout.fileno())
        return 141
    except Ended as ended:
        print("peertest: %s" % ENDINGS[ended.number], file=sys.stderr)
        return 128 + ended.number
    except (Usage, proved.Missing, OSError) as error:
        print("peertest: %s" % error, file=sys.stderr)
        return 2
