#!/usr/bin/env python3
"""Tests the package bt: values that don't fit, chunks, refusals, items, messages written. usage: streams.py [SECONDS]

The messages' bytes are those of BEP 3, BEP 5, BEP 6, BEP 9 and BEP 10. SECONDS is how long random messages are written and read.
"""
import array
import asyncio
import copy
import dataclasses
import io
import json
import os
import pickle
import pydoc
import random
import socket
import subprocess
import sys
import threading
import time
import unittest

HERE = os.path.dirname(os.path.abspath(__file__))
PACKAGE = os.path.dirname(HERE)
sys.path.insert(0, PACKAGE)
import bt

HASH, PEER = bytes(range(20)), b"-XX0001-000000000000"
HELLO = bt.handshake(HASH, PEER)
STRICT = bt.Own(pieces=8, strict=True)


def example(name):
    with open(os.path.join(PACKAGE, "..", "..", "examples", name + ".bin"), "rb") as file:
        return file.read()


def open_writer(own=bt.Own(), metadata_id=7):
    """A writer after a have-none, to a peer that has all extensions."""
    writer = bt.Writer(own, bt.FAST | bt.DHT | bt.EXTENSIONS)
    writer.peer = dataclasses.replace(writer.peer, metadata_id=metadata_id)
    writer.have_none()
    return writer


class Json(unittest.TestCase):
    """The members of docs/COMMANDS.md, of items whose bytes are those of the BEPs."""

    def seen(self, messages):
        return [list(item.as_json().items()) for item in bt.read(HELLO + messages, bt.Own(donthave_id=9))]

    def test_members(self):
        hello, *found = self.seen(bytes.fromhex(
            "00000000 00000005 04 00000007 0000000d 06 00000001 00000002 00000003 0000000b 07 00000001 00000002 6162 00000003 09 1ae1"
            "00000003 63 6162 00000004 14 63 6162 00000006 14 09 00000011"))
        self.assertEqual(hello, [("offset", 0), ("item", "handshake"), ("reserved", "0000000000100005"), ("info_hash", HASH.hex()),
                                 ("peer_id", PEER.hex()), ("peer_id_text", PEER.decode())])
        self.assertEqual(found, [
            [("offset", 68), ("item", "keep-alive")], [("offset", 72), ("item", "have"), ("index", 7)],
            [("offset", 81), ("item", "request"), ("index", 1), ("begin", 2), ("length", 3)],
            [("offset", 98), ("item", "piece"), ("index", 1), ("begin", 2), ("bytes", 2)], [("offset", 113), ("item", "port"), ("port", 6881)],
            [("offset", 120), ("item", "unknown"), ("id", 99), ("bytes", 2)], [("offset", 127), ("item", "extended"), ("id", 99), ("bytes", 2)],
            [("offset", 135), ("item", "donthave"), ("index", 17)]])

    def test_extended_messages(self):
        def message(number, payload):
            return (len(payload) + 2).to_bytes(4, "big") + bytes([20, number]) + payload
        for told, client in ((b"1:v4:a\xc3\xa9b", "a\xe9b"), (b"1:v1:\xff", None), (b"1:vi1e", None), (b"", None), (b"1:v1:a1:v1:b", "a")):
            _, found = self.seen(message(0, b"d1:md11:ut_metadatai3ee13:metadata_sizei100e%se" % told + b"xyz"))
            self.assertEqual(found, [("offset", 68), ("item", "ext-handshake"), ("dictionary", 45 + len(told)), ("rest", 3),
                                     ("metadata_size", 100), ("ut_metadata", 3), ("client", client)])
        _, *found = self.seen(message(3, b"d8:msg_typei1e5:piecei0e10:total_sizei2eehi") + message(3, b"d8:msg_typei0e5:piecei1ee"))
        self.assertEqual(found, [[("offset", 68), ("item", "metadata-data"), ("piece", 0), ("total_size", 2), ("bytes", 2)],
                                 [("offset", 117), ("item", "metadata-request"), ("piece", 1)]])


class Values(unittest.TestCase):
    def test_numbers_that_do_not_fit(self):
        writer = open_writer()
        for call in (lambda: writer.have(-1), lambda: writer.have(2 ** 32 + 5), lambda: writer.request(0, 0, 2 ** 32),
                     lambda: writer.request(0, -1, 1), lambda: writer.port(70000), lambda: writer.extended(300, b""),
                     lambda: writer.message(65536 + 4, 7), lambda: writer.message(258), lambda: writer.metadata(258, 0),
                     lambda: writer.metadata_request(-1), lambda: writer.metadata_data(0, 0, b""),
                     lambda: writer.metadata_data(0, 2 ** 63, b""), lambda: writer.extended_handshake(256),
                     lambda: writer.extended_handshake(3, 2 ** 64 + 5), lambda: writer.extended_handshake(3, -1),
                     lambda: bt.Own(limit=2 ** 40), lambda: bt.Own(limit=-1), lambda: bt.Own(pieces=2 ** 33),
                     lambda: bt.Own(pieces=-1), lambda: bt.Own(reserved=2 ** 70 + 1), lambda: bt.Own(metadata_id=256),
                     lambda: bt.Own(info_hash=b"short"), lambda: bt.handshake(HASH, b"short"),
                     lambda: bt.handshake(HASH, PEER, 2 ** 64), lambda: bt.Writer(bt.Own(), -1)):
            with self.assertRaises(ValueError) as caught:
                call()
            self.assertNotIsInstance(caught.exception, bt.Refused)

    def test_what_is_of_another_type(self):
        writer = open_writer()
        for call in (lambda: bt.read(5), lambda: bt.check(3), lambda: bt.read("text"), lambda: bt.Feed().push(7),
                     lambda: writer.have("1"), lambda: writer.have(1.0), lambda: writer.bitfield(3), lambda: bt.Own(limit="1"),
                     lambda: writer.piece(0, 0, array.array("I", [1, 2])), lambda: bt.read([1, 2])):
            self.assertRaises(TypeError, call)

    def test_why_no_metadata_message(self):
        with self.assertRaisesRegex(ValueError, "announced no id"):
            open_writer(metadata_id=0).metadata_request(0)

    def test_any_truth_is_strict(self):
        self.assertRaises(bt.Refused, bt.check, example("first"), bt.Own(strict=256))

    def test_a_limit_takes_no_memory(self):
        self.assertEqual(len(list(bt.Feed(bt.Own(limit=2 ** 32 - 1)).push(example("first")))), 3)

    def test_bytes_of_each_kind(self):
        data = example("first")
        for given in (bytearray(data), memoryview(data), memoryview(b"xx" + data)[2:]):
            self.assertEqual(list(bt.read(given)), list(bt.read(data)))
            self.assertEqual(list(bt.Feed().push(given)), list(bt.read(data)))
            self.assertEqual(bt.check(given), 2)

    def test_own_is_readable(self):
        self.assertEqual(eval(repr(STRICT), {"Own": bt.Own}), STRICT)
        self.assertEqual(STRICT.pieces, 8)

    def test_own_is_a_dataclass(self):
        self.assertEqual([it.name for it in dataclasses.fields(bt.Own)], list(bt.Own.__match_args__))
        self.assertEqual((dataclasses.replace(STRICT, pieces=9), dataclasses.asdict(STRICT)["limit"]), (bt.Own(pieces=9, strict=True), 262144))
        self.assertNotEqual(STRICT, bt.Own(pieces=8))
        self.assertEqual(len({STRICT, copy.copy(STRICT), pickle.loads(pickle.dumps(STRICT)), dataclasses.replace(STRICT)}), 1)
        self.assertRaises(ValueError, dataclasses.replace, STRICT, info_hash=b"short")
        for call in (lambda: setattr(STRICT, "pieces", 9), lambda: delattr(STRICT, "pieces")):
            self.assertRaisesRegex(dataclasses.FrozenInstanceError, "pieces", call)

        @dataclasses.dataclass(frozen=True)
        class Named(bt.Own):
            name: str = ""
        self.assertEqual(bt.Writer(Named(pieces=8, name="one"), 0).peer.name, "one")
        self.assertNotEqual(Named(pieces=8, strict=True), STRICT)

    def test_names(self):
        self.assertEqual(sorted(bt.__all__), sorted(name for name in dir(bt) if not name.startswith("_")))
        for name in bt.__all__:
            if name.isupper():
                self.assertIsInstance(getattr(bt, name), int)
            else:
                self.assertTrue(getattr(bt, name).__doc__, name)
        for owner in (bt.Feed, bt.Writer):
            for name in vars(owner):
                self.assertTrue(name.startswith("_") or getattr(owner, name).__doc__, name)

    def test_a_library_that_is_not_there(self):
        for place, why in (("/nowhere/libbt.so", "BT_LIBRARY names no file: /nowhere/libbt.so"), (__file__, "isn't the library")):
            done = subprocess.run([sys.executable, "-B", "-c", "import bt"], cwd=PACKAGE, capture_output=True, text=True,
                                  env={**os.environ, "BT_LIBRARY": os.path.abspath(place)})
            self.assertIn("ImportError", done.stderr)
            self.assertIn(why, done.stderr)


class Chunks(unittest.TestCase):
    def test_push_takes_its_bytes_at_once(self):
        data, feed = example("first"), bt.Feed()
        for at in range(len(data)):
            feed.push(data[at:at + 1])
        self.assertEqual([item.name for item in feed.finish()], ["handshake", "keep-alive", "have"])

    def test_what_is_not_taken_comes_later(self):
        data, feed = HELLO + bytes(4) * 40001, bt.Feed(bt.Own(limit=101))
        for item in feed.push(data):
            break
        self.assertEqual(next(feed.push(b"")).start, 68)
        self.assertEqual(feed.start, 72)
        self.assertEqual(len(list(feed.push(b""))), 40000)
        self.assertEqual(list(feed.finish()), [])

    def test_push_within_the_loop(self):
        feed, found = bt.Feed(), []
        for item in feed.push(HELLO + bytes(8)):
            found.append(item.start)
            if len(found) == 1:
                found += [it.start for it in feed.push(bytes(4))]
        self.assertEqual(found, [0, 68, 72, 76])

    def test_chunks_of_any_size(self):
        chosen = random.Random(3)
        for name in ("first", "fetching", "serving", "downloading"):
            data = example(name)
            for _ in range(60):
                own = bt.Own(strict=chosen.random() < 0.5, pieces=chosen.choice([None, 38]))
                stream = bytearray(data[:chosen.randrange(len(data) + 1)])
                if stream and chosen.random() < 0.5:
                    stream[chosen.randrange(min(len(stream), 400))] = chosen.randrange(256)
                self.assertEqual(told(self.fed(stream, own, chosen)), told(bt.read(stream, own)))
                self.assertEqual(judged(stream, own), told(bt.read(stream, own))[1])

    @staticmethod
    def fed(stream, own, chosen):
        feed, at = bt.Feed(own), 0
        while at < len(stream):
            size = chosen.choice([1, 3, 68, 1000, 20000])
            yield from feed.push(stream[at:at + size])
            at += size
        yield from feed.finish()

    def test_a_refusal_comes_again(self):
        feed = bt.Feed(STRICT)
        for _ in range(3):
            with self.assertRaises(bt.Refused) as caught:
                list(feed.push(b"" if _ else example("first")))
            self.assertEqual((caught.exception.message, caught.exception.at), (2, 76))

    def test_finish_raises_without_a_loop(self):
        feed = bt.Feed()
        list(feed.push(HELLO[:-1]))
        with self.assertRaises(bt.Refused) as caught:
            feed.finish()
        self.assertEqual(caught.exception.reason, bt.Reason.END_INSIDE)


def told(items):
    """The items of an iterator, and how it ends: how many messages there are, or the refusal."""
    found = []
    try:
        for item in items:
            found.append(item)
    except bt.Refused as refused:
        return found, repr(refused)
    return found, len(found) - 1


def judged(stream, own):
    try:
        return bt.check(stream, own)
    except bt.Refused as refused:
        return repr(refused)


class Threads(unittest.TestCase):
    """A feed that two threads use at once: an error in Python, and not the end of the process."""

    def test_a_call_during_another(self):
        feed, said = bt.Feed(), []
        kept, read = feed.push(b""), feed._reader.next

        def other():
            for call in (lambda: feed.push(b"x"), feed.finish, lambda: list(kept)):
                try:
                    call()
                    said.append("nothing")
                except RuntimeError as error:
                    said.append(str(error))

        def slow(*words):
            feed._reader.next = read
            thread = threading.Thread(target=other)
            thread.start()
            thread.join()
            return read(*words)

        feed._reader.next = slow
        found = list(feed.push(example("first")))
        self.assertEqual(said, ["a feed is used by one thread at a time"] * 3)
        self.assertEqual(found, list(bt.read(example("first"))))
        self.assertEqual(list(feed.push(bytes(4)))[0].start, 81)

    def test_another_thread_afterwards(self):
        feed, found = bt.Feed(), []
        thread = threading.Thread(target=lambda: found.extend(feed.push(example("first"))))
        thread.start()
        thread.join()
        self.assertEqual(found + list(feed.finish()), list(bt.read(example("first"))))

    def test_threads_at_once(self):
        done = subprocess.run([sys.executable, "-B", "-c", AT_ONCE, PACKAGE], capture_output=True, text=True)
        self.assertEqual((done.returncode, done.stderr), (0, ""))
        refused, read = map(int, done.stdout.split())
        self.assertGreater(refused, 0)
        self.assertGreater(read, 0)


# Pushes to one feed from four threads, which also read; keep-alives are right in any order.
AT_ONCE = """
import sys, threading, time
sys.path.insert(0, sys.argv[1])
sys.setswitchinterval(1e-6)
import bt
feed, ends, chunks, count = bt.Feed(), time.monotonic() + 2, [bytes(4 * n) for n in (1, 1000, 70000)], [0, 0]
list(feed.push(bt.handshake(bytes(20), bytes(20))))
def use():
    turn = 0
    while time.monotonic() < ends:
        turn += 1
        try:
            for item in feed.push(chunks[turn % 3]):
                count[1] += 1
        except RuntimeError as error:
            assert str(error) == "a feed is used by one thread at a time"
            count[0] += 1
threads = [threading.Thread(target=use) for _ in range(4)]
for thread in threads:
    thread.start()
for thread in threads:
    thread.join()
print(*count)
"""


class Refusals(unittest.TestCase):
    def test_what_it_says(self):
        with self.assertRaises(bt.Refused) as caught:
            list(bt.read(example("first"), STRICT))
        refused = caught.exception
        self.assertEqual((refused.message, refused.at, refused.reason, refused.name), (2, 76, bt.Reason.MISSING, "Missing"))
        self.assertEqual(str(refused), "message 2 refused at byte 76: Missing")
        for again in (pickle.loads(pickle.dumps(refused)), copy.copy(refused)):
            self.assertEqual((again.message, again.at, again.reason, again.name, str(again)), (2, 76, 10, "Missing", str(refused)))

    def test_which_message_is_not_written(self):
        writer = open_writer(STRICT)
        writer.keep_alive()
        with self.assertRaises(bt.Refused) as caught:
            writer.have(8)
        self.assertEqual((caught.exception.message, caught.exception.at, caught.exception.reason), (3, 68 + 5 + 4 + 5, bt.Reason.BAD_INDEX))
        writer.have(7)

    def test_reasons(self):
        rows = [(bt.Reason.NOT_NEGOTIATED, lambda: bt.Writer(STRICT, 0).have_all()), (bt.Reason.LATE, lambda: open_writer(STRICT).bitfield(b"\0")),
                (bt.Reason.BAD_BLOCK, lambda: open_writer(STRICT).metadata_data(0, 2, b"h")),
                (bt.Reason.WRONG_LENGTH, lambda: open_writer().message(bt.CHOKE, body=b"x")),
                (bt.Reason.UNKNOWN_ID, lambda: open_writer(STRICT).message(99)),
                (bt.Reason.SPARE_BITS, lambda: bt.Writer(bt.Own(pieces=7), 0).bitfield(b"\x01"))]
        for reason, call in rows:
            with self.subTest(reason), self.assertRaises(bt.Refused) as caught:
                call()
            self.assertEqual(caught.exception.reason, reason)


class Items(unittest.TestCase):
    def test_they_compare_by_what_they_say(self):
        one, two = (list(bt.read(example("serving"))) for _ in range(2))
        self.assertEqual(one, two)
        self.assertEqual(len({*one, *two}), len(one))
        self.assertNotEqual(one[0], one[1])
        self.assertNotEqual(one[0], "handshake")

    def test_fields(self):
        stream = HELLO + bytes.fromhex("0000000d 06 00000007 00004000 00000001") + b"\0\0\0\x1a\x14\0d1:md11:ut_metadatai7eee"
        hello, request, extended, port = bt.read(stream + bytes.fromhex("00000003 09 1ae1"))
        self.assertEqual((port.name, port.port, port.index, port.body, extended.port), ("port", 6881, None, b"", None))
        self.assertEqual((hello.id, hello.reserved, hello.info_hash, hello.peer_id, hello.body),
                         (bt.Id.HANDSHAKE, 0x100005, HASH, PEER, None))
        self.assertEqual((request.start, request.id, request.name, request.index, request.begin, request.length, request.port),
                         (68, bt.REQUEST, "request", 7, 16384, 1, None))
        self.assertEqual((extended.kind, extended.extended_id, extended.ut_metadata, extended.metadata_size, extended.dict_size),
                         (bt.Kind.EXT_HANDSHAKE, 0, 7, None, 24))
        self.assertEqual((extended.rest, extended.data[6:]), (b"", b"d1:md11:ut_metadatai7eee"))
        self.assertEqual((extended.kind.name, bt.Reason(9).name, repr(request)), ("EXT_HANDSHAKE", "LATE", "<bt.Item request at 68, 17 bytes>"))

    def test_a_view_is_no_copy(self):
        data = example("downloading")
        for item in bt.read(data):
            self.assertIs(item.view.obj, data)
            self.assertEqual(bytes(item.view), item.data if item.id == bt.HANDSHAKE else item.body)

    def test_they_cannot_be_changed(self):
        item = next(bt.read(HELLO))
        for name in ("start", "size", "id", "index", "data", "kind", "another"):
            self.assertRaises(AttributeError, setattr, item, name, 1)
            self.assertRaises(AttributeError, delattr, item, name)
        self.assertRaisesRegex(AttributeError, "start" if sys.version_info >= (3, 10) else "", setattr, item, "start", 1)

    def test_they_keep_what_they_were_read_from(self):
        given = bytearray(example("downloading"))
        items, fed = list(bt.read(given)), list(bt.Feed().push(given))
        given[:] = bytes(len(given))
        self.assertEqual((items, fed), (list(bt.read(example("downloading"))),) * 2)
        self.assertLess(len(pickle.dumps(items[0])), 500)
        for again in (pickle.loads(pickle.dumps(items)), copy.deepcopy(items)):
            self.assertEqual([it.asdict() for it in again], [it.asdict() for it in items])

    def test_a_dictionary(self):
        items = list(bt.read(HELLO + open_writer().have_none() + open_writer().request(1, 2, 3)))
        self.assertEqual(items[2].asdict(), {"start": 73, "size": 17, "id": bt.REQUEST, "name": "request", "index": 1, "begin": 2,
                                             "length": 3, "body": b""})
        line = json.loads(json.dumps(items[0].asdict(), default=bytes.hex))
        self.assertEqual((line["info_hash"], line["name"], line["id"]), (HASH.hex(), "handshake", 257))

    def test_each_property_says_what_it_is(self):
        for name, found in vars(bt.Item).items():
            if isinstance(found, property):
                self.assertTrue(found.__doc__, name)


class Streams(unittest.TestCase):
    WANTED = [(it.start, it.data) for it in bt.read(example("downloading"))]

    def said(self, items):
        return [(it.start, it.data) for it in items]

    def test_files_and_chunks(self):
        data = example("downloading")
        for source in (io.BytesIO(data), io.BufferedReader(io.BytesIO(data)), [data], (data[k:k + 1] for k in range(len(data))),
                       [data[:70], b"", memoryview(data)[70:]]):
            self.assertEqual(self.said(bt.stream(source, size=7)), self.WANTED)

    def test_a_socket(self):
        one, other = socket.socketpair()
        with other:
            with one:
                one.sendall(example("first"))
                items = bt.stream(other)
                # (an item is there before the stream ends)
                self.assertEqual(next(items).name, "handshake")
            self.assertEqual(self.said(items), self.said(bt.read(example("first")))[1:])

    def test_by_asyncio(self):
        async def told(data):
            reader = asyncio.StreamReader()
            reader.feed_data(data)
            reader.feed_eof()
            return [item async for item in bt.stream_async(reader, size=11)]
        self.assertEqual(self.said(asyncio.run(told(example("downloading")))), self.WANTED)
        self.assertRaises(bt.Refused, lambda: asyncio.run(told(HELLO[:-1])))

    def test_what_is_no_source(self):
        for source in (b"bytes", "text", 5, io.StringIO("text"), ["text"], [1]):
            self.assertRaises(TypeError, lambda: list(bt.stream(source)))
        self.assertRaisesRegex(ValueError, "^size is 0$", bt.stream, [], None, 0)
        self.assertRaises(bt.Refused, list, bt.stream([]))
        self.assertRaises(bt.Refused, list, bt.stream([example("first")], STRICT))


class Columns(unittest.TestCase):
    FIELDS = ("start", "size", "id", "kind", "index", "begin", "length", "body", "port", "extended_id", "piece", "dict_size",
              "total_size", "metadata_size", "ut_metadata")

    def wanted(self, field, items):
        return [len(item.body or b"") if field == "body" else getattr(item, field) or 0 for item in items]

    def test_they_say_what_items_say(self):
        chosen = random.Random(5)
        for name in ("first", "fetching", "serving", "downloading"):
            for k in range(40):
                data = bytearray(example(name) + bytes(4) * chosen.choice([0, 1, 3000]))
                if k:
                    data = data[:chosen.randrange(len(data) + 1)]
                    for _ in range(chosen.randrange(2) if data else 0):
                        data[chosen.randrange(min(len(data), 400))] = chosen.randrange(256)
                items, end = told(bt.read(data))
                found = bt.columns(data, fields=self.FIELDS, partial=True)
                self.assertEqual(repr(found.refused) if found.refused else len(found) - 1, end)
                for field in self.FIELDS:
                    self.assertEqual(getattr(found, field).tolist(), self.wanted(field, items), field)

    def test_as_many_as_a_batch_has(self):
        for more in range(1020, 1028):
            data = HELLO + bytes(4) * more
            self.assertEqual(bt.columns(data).start.tolist(), [0, *range(68, len(data), 4)])
            broken = bt.columns(data + b"\0\0\0\1\x63", bt.Own(strict=True), ["id"], partial=True)
            self.assertEqual((len(broken), broken.refused.message, broken.refused.at), (more + 1, more + 1, len(data) + 4))

    def test_names(self):
        found = bt.columns(HELLO)
        self.assertEqual({name: list(column) for name, column in dict(found).items()},
                         dict(start=[0], size=[68], id=[bt.HANDSHAKE], kind=[0], index=[0], begin=[0], length=[0], body=[0]))
        self.assertRaisesRegex(AttributeError, "no column nothing: `fields` has start, size", lambda: found.nothing)
        self.assertRaises(KeyError, lambda: found["nothing"])
        self.assertEqual((len(bt.columns(HELLO, fields=[])), found.refused, found.id.readonly), (1, None, True))
        self.assertRaisesRegex(ValueError, "fields has 'data'", bt.columns, HELLO, None, ["data"])

    def test_refusals(self):
        self.assertRaises(bt.Refused, bt.columns, example("first"), STRICT)
        self.assertRaises(bt.Refused, bt.columns, b"")


class Package(unittest.TestCase):
    def test_it_loads_little(self):
        program = "import sys, bt; print(*sorted({'asyncio', 'socket', 'ssl', 'subprocess'} & {*sys.modules}))"
        said = subprocess.run([sys.executable, "-S", "-c", program], env={**os.environ, "PYTHONPATH": PACKAGE}, stdout=subprocess.PIPE, check=True)
        self.assertEqual(said.stdout.strip(), b"")

    def test_help_is_for_people(self):
        text = pydoc.plain(pydoc.render_doc(bt))
        self.assertLess(text.count("\n"), 1500)
        for said in ("metadata_id   the id that it announced", "blocks   how many blocks it has", "begins   whether metadata of this size",
                     "SERVED       the peer asked", "refused` says why"):
            self.assertIn(said, text)
        for kind in (bt.Id, bt.Kind, bt.Reason, bt.Event, bt.Announce):
            self.assertEqual(sorted(dir(kind)), sorted(["__doc__", *kind.__members__]))
            self.assertLessEqual({"name", "value"}, {*dir(list(kind)[0])})
        for kind in (bt.Own, bt.Heard, bt.Progress):
            for name in kind.__annotations__:
                self.assertRegex(kind.__doc__, r"(?m)^ *%s +\w" % name)
        for event in bt.Event:
            self.assertRegex(bt.Event.__doc__, r"(?m)^ *%s +\w" % event.name)

    def test_messages_name_the_argument(self):
        writer = open_writer()
        for says, call in (("info_hash is str, not bytes", lambda: bt.fetch("localhost:1", "00" * 20)),
                           ("data is int, not bytes", lambda: bt.read(5)),
                           ("data is BytesIO, not bytes: `stream` reads files and sockets", lambda: bt.read(io.BytesIO(HELLO))),
                           ("index is str, not an integer", lambda: writer.have("1")),
                           ("limit is float, not an integer", lambda: bt.Own(limit=1.5)),
                           ("own is int, not bt.Own", lambda: bt.read(HELLO, 3)), ("own is int, not bt.Own", lambda: bt.check(HELLO, 0)),
                           ("own is int, not bt.Own", lambda: bt.columns(HELLO, 3)), ("own is bytes, not bt.Own", lambda: bt.Feed(b"x")),
                           ("own is int, not bt.Own", lambda: bt.Writer(3, 0)), ("own is NoneType, not bt.Own", lambda: bt.End(None)),
                           ("peer is int, not bt.Own", lambda: setattr(writer, "peer", 3)), ("item is int, not bt.Item", lambda: writer.hear(3)),
                           ("source is int, not a socket, a file or an iterable of bytes", lambda: bt.stream(5)),
                           ("reader is int, not an asyncio.StreamReader", lambda: asyncio.run(bt.stream_async(5).__anext__())),
                           ("fields is int, not a sequence of names", lambda: bt.columns(HELLO, fields=5)),
                           ("fields is str, not a sequence of names", lambda: bt.columns(HELLO, fields="id")),
                           ("block is str, not bytes", lambda: writer.piece(0, 0, "x")), ("bits is int, not bytes", lambda: writer.bitfield(3)),
                           ("payload is str, not bytes", lambda: writer.extended(1, "x")),
                           ("address is int, not 'HOST:PORT' or \\(HOST, PORT\\)", lambda: bt.fetch(5, HASH)),
                           ("host is int, not str", lambda: bt.fetch((5, 80), HASH)), ("port is str, not an integer", lambda: bt.fetch(("a", "b"), HASH)),
                           ("timeout is str, not a number of seconds", lambda: bt.fetch("localhost:1", HASH, timeout="x")),
                           ("timeout is NoneType, not a number of seconds", lambda: asyncio.run(bt.fetch_async("localhost:1", HASH, timeout=None)))):
            self.assertRaisesRegex(TypeError, "^%s$" % says, call)
        for says, call in (("address is \\('a',\\), not 'HOST:PORT' or \\(HOST, PORT\\)", lambda: bt.fetch(("a",), HASH)),
                           ("timeout is -1, not above 0 and at most 1e9 seconds", lambda: bt.fetch("localhost:1", HASH, timeout=-1)),
                           ("timeout is nan, not above 0 .*", lambda: asyncio.run(bt.fetch_async("localhost:1", HASH, timeout=float("nan")))),
                           ("own has no info_hash", lambda: bt.End(bt.Own())), ("serve hasn't 1 to .*", lambda: bt.End(bt.Own(info_hash=HASH), serve=b"")),
                           ("limit isn't 32,768 to 1,048,576", lambda: bt.End(bt.Own(info_hash=HASH, limit=5))),
                           ("announce is 7, not one of bt.Announce", lambda: bt.End(bt.Own(info_hash=HASH), announce=7))):
            self.assertRaisesRegex(ValueError, "^%s$" % says, call)
        for address in ("localhost", "localhost:", ":6881", "localhost:http"):
            self.assertRaisesRegex(ValueError, "address is '%s', not 'HOST:PORT'" % address, bt.fetch, address, HASH)
        self.assertRaisesRegex(ValueError, "port is 65536", bt.fetch, ("localhost", 65536), HASH)


class Written(unittest.TestCase):
    def test_each_message(self):
        writer = open_writer()
        rows = [
            (writer.keep_alive(), "00000000"), (writer.choke(), "00000001 00"), (writer.unchoke(), "00000001 01"),
            (writer.interested(), "00000001 02"), (writer.not_interested(), "00000001 03"), (writer.have(9), "00000005 04 00000009"),
            (writer.request(7, 16384, 1), "0000000d 06 00000007 00004000 00000001"),
            (writer.piece(1, 2, b"ab"), "0000000b 07 00000001 00000002 6162"),
            (writer.cancel(7, 16384, 1), "0000000d 08 00000007 00004000 00000001"), (writer.port(6881), "00000003 09 1ae1"),
            (writer.suggest(4), "00000005 0d 00000004"), (writer.reject(7, 16384, 1), "0000000d 10 00000007 00004000 00000001"),
            (writer.allowed_fast(4), "00000005 11 00000004"), (writer.extended(9, b"xyz"), "00000005 14 09 78797a"),
            (writer.extended_handshake(3, 100), "0000002f 14 00" + b"d1:md11:ut_metadatai3ee13:metadata_sizei100ee".hex()),
            (writer.metadata_request(0), "0000001b 14 07" + b"d8:msg_typei0e5:piecei0ee".hex()),
            (writer.metadata_data(0, 2, b"hi"), "0000002d 14 07" + b"d8:msg_typei1e5:piecei0e10:total_sizei2eehi".hex()),
            (writer.metadata_reject(1), "0000001b 14 07" + b"d8:msg_typei2e5:piecei1ee".hex()),
            (bt.Writer(bt.Own(), bt.FAST).have_all(), "00000001 0e"), (bt.Writer(bt.Own(), bt.FAST).have_none(), "00000001 0f"),
            (bt.Writer(STRICT, 0).bitfield(b"\x80"), "00000002 05 80"),
            (bt.handshake(HASH, PEER, 5), "13" + b"BitTorrent protocol".hex() + "0000000000000005" + HASH.hex() + PEER.hex()),
        ]
        for got, wanted in rows:
            self.assertEqual(got.hex(), bytes.fromhex(wanted).hex())

    def test_the_id_that_the_peer_announces(self):
        writer = bt.Writer(bt.Own(), bt.EXTENSIONS)
        for item in bt.read(HELLO + b"\0\0\0\x1a\x14\0d1:md11:ut_metadatai7eee"):
            writer.hear(item)
        self.assertEqual(writer.peer.metadata_id, 7)
        self.assertEqual(writer.metadata_request(0)[5], 7)

    def test_what_is_read_is_written_again(self):
        for name in ("first", "fetching", "serving", "downloading"):
            hello, *items = bt.read(example(name))
            writer = bt.Writer(bt.Own(), hello.reserved)
            writer.peer = dataclasses.replace(writer.peer, metadata_id=3)
            again = b"".join(writer.message(it.id, it.index or 0, it.begin or 0, it.length or 0, it.port or 0, it.extended_id or 0,
                                            it.body) for it in items)
            self.assertEqual(bt.handshake(hello.info_hash, hello.peer_id, hello.reserved) + again, example(name))

    def test_random_messages(self):
        """What is written is what is read, and what isn't written would be refused."""
        chosen, ends = random.Random(43), time.monotonic() + SECONDS
        while time.monotonic() < ends:
            own = bt.Own(pieces=chosen.choice([None, 1, 9]), strict=chosen.random() < 0.5, limit=chosen.choice([20, 300]))
            writer, stream, said = bt.Writer(own, own.reserved), HELLO, []
            for _ in range(30):
                fields = [chosen.choice([0, 1, 8, 9, 2 ** 32 - 1]) for _ in range(3)]
                body = bytes(chosen.randrange(4))
                id = chosen.choice(list(bt.Id)[:-1] + [11, 255])
                try:
                    stream += writer.message(id, *fields, fields[0] & 65535, 9, body)
                    said.append((id, body))
                except bt.Refused as refused:
                    self.assertEqual((refused.message, refused.at >= len(stream)), (len(said) + 1, True))
            own = dataclasses.replace(own, metadata_id=0)
            self.assertEqual([(it.id, it.body) for it in bt.read(stream, own)][1:len(said) + 1],
                             [(id, body if id in (5, 7, 20, 11, 255) else b"") for id, body in said])


if __name__ == "__main__":
    SECONDS = float(sys.argv.pop(1)) if sys.argv[1:] else 2
    unittest.main(verbosity=0)
