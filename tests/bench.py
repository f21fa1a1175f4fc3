#!/usr/bin/env python3
"""Tests the scripts bench/run and bench/run_capture: what they do without a command or a program, and the captures that are made.

usage: tests/bench.py [PROGRAM]

PROGRAM is the built program, or else the script `bt_tool` at the top of the repository. bench/run is copied beside two workloads, and its
checkouts have shell scripts for programs.
"""
import collections
import importlib.machinery
import importlib.util
import os
import pathlib
import re
import shutil
import struct
import subprocess
import sys
import tempfile

sys.dont_write_bytecode = True
ROOT = pathlib.Path(__file__).resolve().parent.parent
PROGRAM = os.path.abspath(sys.argv[1]) if len(sys.argv) > 1 else str(ROOT / "bt_tool")
WORKLOADS = "show bt_perf show SEED 3\ncapture bt_tool capture <in.pcap  # of standard input\n"
SAYS = "#!/bin/sh\ncat\necho \"$@\"\n"
KNOWS_NONE = "#!/bin/sh\necho \"error: unrecognized subcommand '$1'\" >&2\nexit 2\n"


def checkout(folder, programs):
    """A checkout with these programs."""
    (folder / "bench").mkdir(parents=True)
    (folder / "bench/in.pcap").write_text("a capture\n")
    for name, text in programs.items():
        out = folder / "crates" / name / "out"
        out.mkdir(parents=True)
        (out / name).write_text(text)
        (out / name).chmod(0o755)
    return folder


def run(room, old, new):
    """The status of bench/run, what it printed, and its last words."""
    done = subprocess.run([sys.executable, room / "bench/run", "--turns", "3", old, new], capture_output=True, text=True)
    return done.returncode, done.stdout, done.stderr


def rows(text):
    return re.findall(r"^\| `(\w+)` \| [\d.]+ \| [\d.]+ \| [\d.]+ \|", text, re.M)


def two_checkouts(room):
    (room / "bench").mkdir()
    shutil.copy(ROOT / "bench/run", room / "bench/run")
    (room / "bench/workloads.txt").write_text(WORKLOADS)
    whole = checkout(room / "whole", {"bt_perf": SAYS, "bt_tool": SAYS})
    older = checkout(room / "older", {"bt_perf": SAYS, "bt_tool": KNOWS_NONE})
    lacks = checkout(room / "lacks", {"bt_tool": SAYS})
    other = checkout(room / "other", {"bt_perf": SAYS, "bt_tool": SAYS + "echo more\n"})
    status, text, said = run(room, whole, whole)
    assert (status, rows(text), said) == (0, ["show", "capture"], "") and "left out" not in text, (status, text, said)
    status, text, said = run(room, older, whole)
    assert (status, rows(text), said) == (0, ["show"], ""), (status, text, said)
    left = text.splitlines()[-1]
    assert left.startswith("`capture` is left out, since OLD can't run it: ") and left.endswith("unrecognized subcommand 'capture'"), left
    status, text, said = run(room, whole, older)
    assert status == 1 and "ended with 2: error: unrecognized subcommand 'capture'" in said and said.count("\n") == 1, (status, said)
    status, text, said = run(room, whole, other)
    assert status == 1 and said.startswith("capture: the outputs differ"), (status, said)
    for pair in ((lacks, whole), (whole, lacks)):
        status, text, said = run(room, *pair)
        assert (status, text, said.count("\n")) == (2, "", 1), (status, text, said)
        assert said.startswith("bench/run: %s isn't built" % (lacks / "crates/bt_perf/out/bt_perf")), said
    status, text, said = run(room, room / "nowhere", whole)
    assert (status, text, said) == (2, "", "bench/run: %s is no checkout: it has no folder bench\n" % (room / "nowhere")), said


def loaded():
    loader = importlib.machinery.SourceFileLoader("run_capture", str(ROOT / "bench/run_capture"))
    found = importlib.util.module_from_spec(importlib.util.spec_from_loader("run_capture", loader))
    loader.exec_module(found)
    return found


def packets(path):
    """The link of a capture and its packets, each as long as it says, up to its end."""
    content = pathlib.Path(path).read_bytes()
    link, at, found = struct.unpack("<I", content[20:24])[0], 24, []
    while at < len(content):
        size, whole = struct.unpack("<8xII", content[at:at + 16])
        assert size == whole and at + 16 + size <= len(content), "%s ends inside a packet at %d" % (path, at)
        found.append(content[at + 16:at + 16 + size])
        at += 16 + size
    return link, found


def captures(room):
    """Each capture ends with a whole packet, and those of requests and of far bytes are what their rows say."""
    made, seen = loaded(), []
    for _, path, streams in made.made(str(room), 10 ** 6, 2001):
        link, found = packets(path)
        seen.append((os.path.basename(path), link, len(found)))
        if seen[-1][0] == "requests":
            requests(streams)
        if seen[-1][0] == "far":
            far(path, found)
    names = [name for name, _, _ in seen]
    assert names == ["blocks", "lost", "small", "requests", "many", "flood", "open", "far"], names
    counts = {name: count for name, _, count in seen}
    assert (counts["flood"], counts["far"]) == (500_000, 20_000), counts
    assert [link for _, link, _ in seen] == [1] * 7 + [101], seen
    assert [os.path.basename(path) for _, path, _ in made.made(str(room), 10 ** 6, 2001, ["far"])] == ["far"]


def requests(streams):
    """The two streams have as many messages as the row says, and no block is asked for twice in one of them."""
    total = 0
    for stream in streams:
        content = pathlib.Path(stream).read_bytes()
        asked = re.findall(rb"\0\0\0\x0d\x06(.{12})", content, re.S)
        total += len(asked)
        assert len(set(asked)) == len(asked) and content.endswith(asked[-1]) and len(content) < 17 * len(asked) + 200, stream
        assert all(struct.unpack(">III", it)[2] == 16384 and struct.unpack(">III", it)[1] % 16384 == 0 for it in asked), stream
    assert total == 2001, total


def far(path, found):
    """Of each of 10,000 pairs of ends 114 bytes: a byte, and one that is 15,728,639 bytes further."""
    assert os.path.getsize(path) == 24 + 10_000 * 114, os.path.getsize(path)
    places = collections.defaultdict(list)
    for packet in found:
        assert len(packet) == 41 and packet[0] == 0x45, packet
        places[packet[12:24]].append(struct.unpack(">I", packet[24:28])[0])
    assert len(places) == 10_000 and all(it == [1, 15_728_640] for it in places.values()), len(places)


def printed():
    """The rows of one capture, by the program."""
    if not os.access("/usr/bin/time", os.X_OK):
        print("bench: no row is printed, since there is no /usr/bin/time")
        return
    done = subprocess.run([sys.executable, ROOT / "bench/run_capture", PROGRAM, "--only", "requests", "--messages", "2000", "--runs", "1"],
                          capture_output=True, text=True)
    found = re.findall(r"^\| 2000 requests, each for another block \| ([\w -]+) \| [\d.]+ \|", done.stdout, re.M)
    assert (done.returncode, found[:4], done.stderr) == (0, ["check", "capture", "show", "capture --show"], ""), done


def main():
    with tempfile.TemporaryDirectory(prefix="bench-") as name:
        two_checkouts(pathlib.Path(name))
        captures(pathlib.Path(name))
    printed()
    print("bench: ok")


if __name__ == "__main__":
    main()
