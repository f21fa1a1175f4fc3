#!/usr/bin/env python3
"""Tests that mypy --strict accepts the package bt and a right program of a user, and finds each mistake of a wrong one.

Where mypy isn't installed it says so, and nothing is tested.
"""
import os
import re
import subprocess
import sys
import tempfile
import unittest

PACKAGE = os.path.dirname(os.path.dirname(os.path.abspath(__file__)))

RIGHT = """import asyncio
import socket
from typing import Dict, List, Optional
import bt

def seen(data: bytes) -> List[int]:
    found: List[int] = []
    for item in bt.read(data, bt.Own(strict=True)):
        index: Optional[int] = item.index
        if item.id == bt.HAVE and index is not None:
            found.append(index + len(item.view))
        kind: Optional[bt.Kind] = item.kind
        if kind == bt.METADATA_DATA:
            found.append(len(item.rest or b""))
    return found

async def names(reader: asyncio.StreamReader) -> List[str]:
    return [item.name async for item in bt.stream_async(reader)]

def table(data: bytes, sock: socket.socket) -> Dict[str, int]:
    columns = bt.columns(data, fields=["id"], partial=True)
    if columns.refused is not None:
        print(columns.refused.reason.name, columns.refused.at)
    print(columns.id[0], bt.__version__, next(bt.stream(sock)).asdict())
    return {name: len(columns[name]) for name in columns.keys()}

def talk(end: bt.End, data: bytes) -> bytes:
    for heard in end.receive(data):
        if heard.event == bt.Event.FETCHED:
            return end.metadata or b""
    try:
        return bt.fetch("localhost:6881", bytes(20), peers=[("localhost", 6882)], failed=lambda peer, why: print(peer, why))
    except bt.FetchError as error:
        for peer, why in error.failures:
            print(peer, why)
    try:
        name: bytes = bt.bdecode(b"de", strict=True)[b"name"]
    except bt.BencodeError as fault:
        name = b"%d" % fault.at
    print(name)
    return bt.fetch("localhost:6881", bytes(20), timeout=2.5)
"""
WRONG = """import bt
bt.read("text")
bt.HAVE.nothing
bt.Own(strikt=True)
next(bt.read(b"")).start = 3
next(bt.read(b"")).index + 1
bt.fetch("localhost:6881", "00" * 20)
bt.columns(b"", fields=[1])
bt.Writer(bt.Own(), 0).have("1")
bt.fetch(None, bytes(20), peers=[5])
bt.bdecode("de")
"""


def mypy(*words):
    with tempfile.TemporaryDirectory() as cache:
        command = [sys.executable if USES_MODULE else "mypy", *(["-m", "mypy"] if USES_MODULE else []), "--strict", "--cache-dir", cache, *words]
        return subprocess.run(command, env={**os.environ, "MYPYPATH": PACKAGE}, stdout=subprocess.PIPE, stderr=subprocess.STDOUT).stdout.decode()


def works(words):
    try:
        return subprocess.run([*words, "--version"], stdout=subprocess.DEVNULL, stderr=subprocess.DEVNULL).returncode == 0
    except OSError:
        return False


USES_MODULE = works([sys.executable, "-m", "mypy"])


class Types(unittest.TestCase):
    def test_the_package(self):
        self.assertRegex(mypy("-p", "bt"), "^Success")

    def test_a_right_program(self):
        self.assertRegex(mypy("-c", RIGHT), "^Success")

    def test_each_mistake_is_found(self):
        lines = {int(it) for it in re.findall(r"^<string>:(\d+): error", mypy("-c", WRONG), re.MULTILINE)}
        self.assertEqual(lines, set(range(2, WRONG.count("\n") + 1)))


if __name__ == "__main__":
    if USES_MODULE or works(["mypy"]):
        unittest.main(argv=sys.argv[:1])
    print("types_seen: mypy isn't installed, so the types of Python are left out")
