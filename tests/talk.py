#!/usr/bin/env python3
"""Runs tools/talk against an end that this script plays, and compares what it sends and says.

usage: tests/talk.py
"""
import os
import socket
import subprocess
import sys
import threading

sys.dont_write_bytecode = True
sys.path.insert(0, os.path.dirname(os.path.abspath(__file__)))
from made_captures import ROOT, handshakes, message  # noqa: E402

TALK = os.path.join(ROOT, "tools/talk")

# What an end answers to the handshake and to the rest, and whether it closes then; what tools/talk says, its status.
TALKS = [
    (b"h" * 68, b"rest", True, b"talk: closed after 73 bytes of ours, 72 bytes came\n", 1),
    (b"h" * 68, b"rest", False, b"talk: kept, 72 bytes came\n", 0),
    (b"h" * 67, None, True, b"talk: closed before its whole handshake, 67 bytes came\n", 1),
]


def answer(server, first, rest, closes, heard):
    """Takes a connection, answers the handshake and, but for None, the five bytes after it, and closes or waits."""
    with server.accept()[0] as end:
        heard.append(end.recv(1000))
        end.sendall(first)
        if rest is not None:
            heard.append(end.recv(1000))
            end.sendall(rest)
        if not closes:
            end.recv(1)


def is_talked(first, rest, closes, said, status):
    """Whether tools/talk sends the handshake, waits for another, sends the rest, and writes what comes."""
    stream, heard = handshakes()[0] + message(b"\x0f"), []
    with socket.create_server(("127.0.0.1", 0)) as server:
        thread = threading.Thread(target=answer, args=[server, first, rest, closes, heard])
        thread.start()
        words = ["127.0.0.1", str(server.getsockname()[1]), "0.5"]
        ended = subprocess.run([TALK, *words], input=stream, capture_output=True)
        thread.join()
    wanted = [stream[:68]] + [stream[68:]] * (rest is not None)
    return (heard, ended.stdout, ended.stderr, ended.returncode) == (wanted, first + (rest or b""), said, status)


def is_explained():
    """Whether tools/talk prints its help if it is asked to, and its usage after wrong words."""
    asked, wrong = (subprocess.run([TALK, *words], capture_output=True) for words in (["--help"], ["127.0.0.1"]))
    usage = b"usage: tools/talk HOST PORT"
    return (usage in asked.stdout and (asked.stderr, asked.returncode) == (b"", 0)
            and wrong.stderr.startswith(usage) and (wrong.stdout, wrong.returncode) == (b"", 2))


def main():
    wrong = ["%s" % (row,) for row in TALKS if not is_talked(*row)]
    if not is_explained():
        wrong.append("--help, or its usage")
    for text in wrong:
        print("talk: wrong: " + text)
    print("talk: %d of %d as expected" % (len(TALKS) + 1 - len(wrong), len(TALKS) + 1))
    return int(bool(wrong))


if __name__ == "__main__":
    sys.exit(main())
