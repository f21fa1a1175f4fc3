#!/usr/bin/env python3
"""Tests bt.bdecode: values, the place of each fault, and random dictionaries with changed bytes. usage: bencoding.py [SECONDS]

The library judges the bytes. Here a reader of BEP 3 of its own says what they are.
"""
import os
import pickle
import random
import sys
import time
import unittest
import unittest.mock

HERE = os.path.dirname(os.path.abspath(__file__))
sys.path.insert(0, os.path.dirname(HERE))
import bt


class Fault(Exception):
    pass


def token_end(data, at, end, low, high):
    """Where a number that starts here ends, or the first byte with which none goes on. No leading zeros, and no -0."""
    sign = 1
    if data[at:at + 1] == b"-" and low < 0:
        sign, at = -1, at + 1
    begin = at
    while True:
        byte = data[at:at + 1]
        if byte == end and at > begin:
            return sign * int(data[begin:at]), at + 1
        if not byte.isdigit():
            raise Fault(at)
        number = sign * int(data[begin:at + 1])
        if at > begin and data[begin:begin + 1] == b"0" or sign < 0 and data[begin:begin + 1] == b"0" or not low <= number <= high:
            raise Fault(at)
        at += 1


def string(data, at):
    size, at = token_end(data, at, b":", 0, 1 << 20)
    if at + size > len(data):
        raise Fault(len(data))
    return data[at:at + size], at + size


def value(data, at, depth):
    first = data[at:at + 1]
    if first == b"i":
        return token_end(data, at + 1, b"e", -1 << 63, (1 << 63) - 1)
    if first.isdigit():
        return string(data, at)
    if depth == 0 or first not in (b"l", b"d") or not first:
        raise Fault(at)
    return several(data, at + 1, depth - 1, first == b"d")


def several(data, at, depth, is_dictionary):
    items = []
    while data[at:at + 1] != b"e":
        if is_dictionary:
            if not data[at:at + 1].isdigit():
                raise Fault(at)
            key, at = string(data, at)
        item, at = value(data, at, depth)
        items.append((key, item) if is_dictionary else item)
    if is_dictionary and len(dict(items)) < len(items):
        raise Fault(None)
    return (dict(items) if is_dictionary else items), at + 1


def judged(data):
    """The dictionary, or the place of the fault; None of a key that comes twice."""
    try:
        if data[:1] != b"d":
            raise Fault(0)
        found, at = value(data, 0, 32)
        return (found, None) if at == len(data) else (None, at)
    except Fault as fault:
        return None, fault.args[0]


def encoded(it):
    if isinstance(it, int):
        return b"i%de" % it
    if isinstance(it, bytes):
        return b"%d:%s" % (len(it), it)
    if isinstance(it, list):
        return b"l%se" % b"".join(map(encoded, it))
    return b"d%se" % b"".join(encoded(key) + encoded(it[key]) for key in it)


def made(chosen, depth):
    kind = chosen.randrange(4 if depth else 2)
    if kind == 0:
        return chosen.choice([0, 1, -1, 10, -10, (1 << 63) - 1, -1 << 63, chosen.randrange(1 << 40)])
    if kind == 1:
        return bytes(chosen.randrange(256) for _ in range(chosen.randrange(12)))
    if kind == 2:
        return [made(chosen, depth - 1) for _ in range(chosen.randrange(4))]
    return {bytes(chosen.choice(b"abi1:e") for _ in range(chosen.randrange(3))): made(chosen, depth - 1) for _ in range(chosen.randrange(4))}


class Decodes(unittest.TestCase):
    def test_values(self):
        for data, wanted in ((b"de", {}), (b"d1:ai-7e1:b3:abc1:cli1eleee", {b"a": -7, b"b": b"abc", b"c": [1, []]}),
                             (b"d0:de1:x0:e", {b"": {}, b"x": b""}), (b"d1:bi1e1:ai2ee", {b"b": 1, b"a": 2}),
                             (b"d1:ai9223372036854775807e1:bi-9223372036854775808ee", {b"a": (1 << 63) - 1, b"b": -1 << 63})):
            for given in (data, bytearray(data), memoryview(data)):
                self.assertEqual(bt.bdecode(given), wanted)
            self.assertEqual([*bt.bdecode(data)], [*wanted])

    def test_faults(self):
        for data, at, why in ((b"", 0, "the dictionary is cut"), (b"d1:ai3e", 7, "the dictionary is cut"), (b"d1:a9:abc", 9, "the dictionary is cut"),
                              (b"i3e", 0, "no dictionary goes on"), (b"d1:ai03ee", 6, "no dictionary goes on"), (b"d1:ai-0ee", 6, "no dictionary goes on"),
                              (b"d01:ai3ee", 2, "no dictionary goes on"), (b"di3ei4ee", 1, "no dictionary goes on"), (b"d1:ae", 4, "no dictionary goes on"),
                              (b"d1:ai9223372036854775808ee", 23, "no dictionary goes on"), (b"dee", 2, "the dictionary is over"),
                              (b"d1:ai1e1:bi2e1:ai3ee", 13, "a key comes twice"), (b"d1:ad1:bi1e1:bi2eee", 11, "a key comes twice"),
                              (b"d1:a" + b"l" * 32 + b"e" * 33, 35, "no dictionary goes on")):
            with self.subTest(data), self.assertRaises(bt.BencodeError) as caught:
                bt.bdecode(data)
            self.assertEqual((caught.exception.at, str(caught.exception)), (at, "%s at byte %d" % (why, at)))
            again = pickle.loads(pickle.dumps(caught.exception))
            self.assertEqual((again.at, str(again)), (at, "%s at byte %d" % (why, at)))

    def test_strict(self):
        """BEP 3: keys are sorted as raw strings."""
        for data, at in ((b"d1:bi1e1:ai2ee", 7), (b"d2:aai1e1:ai2ee", 8), (b"d1:ali1ed1:bi1e0:i2eeee", 15), (b"d1:ai1e1:ai2ee", 7)):
            with self.assertRaises(bt.BencodeError) as caught:
                bt.bdecode(data, strict=True)
            self.assertEqual((caught.exception.at, str(caught.exception)), (at, "a key isn't above the one before it at byte %d" % at))
        self.assertEqual([*bt.bdecode(b"d0:i1e1:Zi2e1:ai3e2:aai4e1:\xffi5ee", strict=True)], [b"", b"Z", b"a", b"aa", b"\xff"])

    def test_deep_and_long(self):
        deep = b"d1:a" + b"l" * 31 + b"e" * 32
        found = bt.bdecode(deep)[b"a"]
        for _ in range(30):
            found, = found
        self.assertEqual(found, [])
        pieces = os.urandom(20) * 60000
        info = {b"length": 60000 << 20, b"pieces": pieces, b"name": b"a"}
        self.assertEqual(bt.bdecode(encoded(info)), info)
        with self.assertRaises(bt.BencodeError) as caught:
            bt.bdecode(encoded(info)[:-1])
        # "d6:lengthi62914560000e6:pieces1200000:": the seventh digit is one too many for a message
        self.assertEqual(caught.exception.at, 36)

    def test_other_types(self):
        for given in ("de", 5, None, [1]):
            self.assertRaises(TypeError, bt.bdecode, given)

    def test_an_older_library(self):
        with unittest.mock.patch.object(bt._bencode.lib, "bt", object()):
            self.assertRaisesRegex(NotImplementedError, "older than this package", bt.bdecode, b"de")

    def test_of_an_item(self):
        """The dictionary of an extended message is a part of its body."""
        body = b"d8:msg_typei1e5:piecei0e10:total_sizei2ee"
        *_, item = bt.read(bt.handshake(bytes(20), bytes(20)) + (len(body) + 4).to_bytes(4, "big") + b"\x14\x03" + body + b"hi")
        self.assertEqual(bt.bdecode(item.body[:item.dict_size]), {b"msg_type": 1, b"piece": 0, b"total_size": 2})

    def test_random(self):
        chosen, ends, counts = random.Random(7), time.monotonic() + SECONDS, [0, 0]
        while time.monotonic() < ends or min(counts) < 50:
            data = bytearray(encoded({b"k": made(chosen, 4), b"": made(chosen, 3)}))
            for _ in range(chosen.choice([0, 1, 1, 2])):
                at = chosen.randrange(len(data))
                data[at:at + chosen.randrange(2)] = bytes([chosen.choice(b"0123456789-:eild")])
            del data[len(data) - chosen.choice([0, 0, 0, 1, chosen.randrange(len(data))]):]
            data += chosen.choice([b"", b"", b"", b"e"])
            wanted, at = judged(bytes(data))
            try:
                found, said = bt.bdecode(data), None
            except bt.BencodeError as fault:
                found, said = None, fault.at
            counts[found is None] += 1
            self.assertEqual((found, at if at is None else said), (wanted, at), bytes(data))
            self.assertEqual(found is None, wanted is None)


if __name__ == "__main__":
    SECONDS = float(sys.argv.pop(1)) if sys.argv[1:] else 2
    unittest.main(verbosity=0)
