#!/usr/bin/env python3
"""Tests the library in Python, Rust and JavaScript: each by its own tests, and all on the same bytes.

usage: tests/bindings.py [LIBRARIES]

LIBRARIES is the folder of libbt.a, libbt.so and bt.node, with bt.wasm in the folder above, or else dist/x86_64-linux. The three examples
`show` have to print the same for the example streams, of their cuts, and of streams with changed bytes, under each rule set and in chunks of
each size. The examples `fetch`, also in C, have to fetch from a peer that is right, from `bt_tool serve` if LIBRARIES has it, and from none
that breaks a rule. JavaScript is tried over the addon, without a flag, and over WebAssembly; its lines of JSON have to be those of
`bt_tool show --json`, and each of its examples has to print what is worked out here. A language whose tool isn't installed is left out,
and that is said.
"""
import hashlib
import itertools
import json
import os
import pathlib
import random
import shutil
import socket
import subprocess
import sys
import tempfile
import time

ROOT = pathlib.Path(__file__).resolve().parent.parent
LIBRARIES = pathlib.Path(sys.argv[1] if len(sys.argv) > 1 else ROOT / "dist/x86_64-linux").resolve()
WASM, ADDON = LIBRARIES.parent / "bt.wasm", LIBRARIES / "bt.node"
BINDINGS, EXAMPLES = ROOT / "bindings", ROOT / "examples"
# The addon needs no flag, and WebAssembly one in Node 20 and 22.
NODE, NODE_WASM = ["node"], ["node", "--experimental-wasm-memory64", "--no-warnings"]
WASM_NAME = "WebAssembly"
STREAMS = 300
SECONDS = "2"


def environment(room):
    return {**os.environ, "BT_LIBRARY": str(LIBRARIES / "libbt.so"), "BT_WASM": str(WASM), "BT_LIB_DIR": str(LIBRARIES),
            "CARGO_TARGET_DIR": str(room / "target"), "PYTHONDONTWRITEBYTECODE": "1",
            **({"BT_ADDON": str(ADDON)} if ADDON.is_file() else {})}


def passes(words, given, **how):
    """What a program prints that has to end with status 0."""
    done = subprocess.run(list(map(str, words)), env=given, stdout=subprocess.PIPE, stderr=subprocess.STDOUT, **how)
    if done.returncode:
        sys.exit("bindings: failed: %s\n%s" % (" ".join(map(str, words)), done.stdout.decode(errors="replace")))
    return done.stdout


def tests(words, given):
    """Runs a language's own tests, which have to pass, and prints what they left out."""
    for line in passes(words, given).decode().splitlines():
        if " left out" in line:
            print("bindings: " + line)


def shows(room, given):
    """The commands that show streams, by language, for the tools that are installed. Each language's own tests have passed."""
    found = {"Python": [sys.executable, EXAMPLES / "python/show.py"]}
    for test in sorted((BINDINGS / "python/tests").glob("*.py")):
        tests([sys.executable, "-W", "error", test, SECONDS], given)
    if shutil.which("cargo"):
        passes(["cargo", "test", "--offline", "--quiet"], given, cwd=BINDINGS / "rust")
        passes(["cargo", "build", "--offline", "--quiet", "--examples"], given, cwd=BINDINGS / "rust")
        found["Rust"] = [room / "target/debug/examples/show"]
        peeked = passes([room / "target/debug/examples/peek"], given, input=(EXAMPLES / "first.bin").read_bytes())
        if peeked != b"0 handshake\n68 keep-alive\n72 have\n":
            sys.exit("bindings: failed: examples/rust/peek.rs prints %r" % peeked)
        # (the bytes that Python writes are tested by its own tests)
        one, two = (passes(words, given, input=(EXAMPLES / "serving.bin").read_bytes())
                    for words in ([room / "target/debug/examples/write"], [sys.executable, EXAMPLES / "python/write.py"]))
        if one != two:
            sys.exit("bindings: failed: examples/rust/write.rs writes %r, and Python %r" % (one, two))
    if shutil.which("node") and WASM.is_file():
        for test in sorted((BINDINGS / "js/tests").glob("*.mjs")):
            tests([*NODE, *(["--expose-gc"] if test.stem == "ends" else []), test], given)
        tests([*NODE_WASM, BINDINGS / "js/tests/streams.mjs", WASM], given)
        found["JavaScript"] = ["env", "-u", "BT_WASM", *NODE, EXAMPLES / "javascript/show.mjs"]
        found[WASM_NAME] = [*NODE_WASM, EXAMPLES / "javascript/show.mjs"]
    for language in {"Rust", "JavaScript"} - {*found}:
        print("bindings: %s is left out, since its tool isn't installed" % language)
    return found


def fetches(commands, given):
    """How many fetches by the examples `fetch` ended as they have to, from peers that are right and peers that break a rule."""
    import ends
    count = 0
    for language, words in commands.items():
        for broken in [*ends.RIGHT, *(name for name, (kind, _) in ends.FAILS.items() if kind is not TimeoutError)]:
            # (a connection on which no block can come any more may be silent, and the examples wait)
            if broken in ("a huge size", "a size of 0", "another id", "another total size", "a short block", "a size above most"):
                continue
            with ends.Peer(broken) as address:
                given_to = address.split(":") if language == "C" else [address]
                done = subprocess.run([*map(str, words), ends.INFO_HASH.hex(), *given_to], env=given, capture_output=True, timeout=30)
            wanted = ends.METADATA if broken in ends.RIGHT else b""
            if done.stdout != wanted or (done.returncode == 0) != bool(wanted):
                sys.exit("bindings: failed: %s fetches from a peer with '%s': %s" % (language, broken, done.stderr.decode()[-2000:]))
            count += 1
    return count


# What the C example says of a peer that breaks a rule; offsets are those of the peer's stream: 68 bytes of a handshake, of which the
# info hash begins at 28, then an extended handshake: 4 bytes of length, 2 of ids, and its dictionary, of 47 bytes if it is whole.
TOLD_BY_C = {
    "it closes at once": "the peer closed the connection", "it closes in a block": "the peer closed the connection",
    "no BitTorrent": "message 0 refused at byte 0: BadProtocol", "another info hash": "message 0 refused at byte 28: WrongInfoHash",
    "no bencoding": "message 1 refused at byte 93: BadBencode", "a false length": "message 2 refused at byte 121: TooLong",
    "no extensions": "the peer has no metadata, or rejected a block of it", "it rejects": "the peer has no metadata, or rejected a block of it",
    "a huge size": "the peer announced metadata of 1099511627776 bytes, not of 1 to 67108864",
    "a size of 0": "the peer announced metadata of 0 bytes, not of 1 to 67108864", "another metadata": "the peer sent other metadata",
    "no answer": "the peer didn't give the metadata in time", "no extended handshake": "the peer didn't give the metadata in time",
    "another id": "the peer didn't give the metadata in time",
}


def says(program, words, status, wanted):
    """Fails if the C example doesn't end with this status within ten seconds, or doesn't say this."""
    done = subprocess.run([program, *words], capture_output=True, timeout=10)
    if (done.returncode, done.stdout) != (status, b"") or wanted not in done.stderr.decode():
        sys.exit("bindings: failed: C says %r, status %d, and not %r" % (done.stderr, done.returncode, wanted))


def told_by_c(program):
    """How many failures the C example tells apart, each with its text, and within its time."""
    import ends
    digits = ends.INFO_HASH.hex()
    for broken, wanted in TOLD_BY_C.items():
        with ends.Peer(broken) as address:
            says(program, [digits, *address.split(":"), "1" if "in time" in wanted else "9"], 1, "fetch: %s\n" % wanted)
    with socket.create_server(("127.0.0.1", 0)) as listener:
        port = str(listener.getsockname()[1])
    says(program, [digits, "127.0.0.1", port], 1, "fetch: 127.0.0.1 port %s isn't reached: Connection refused\n" % port)
    says(program, [digits, "127.0.0.1", "no-such-service"], 1, "fetch: 127.0.0.1 port no-such-service: ")
    for words in ([digits, "127.0.0.1"], [digits[1:], "127.0.0.1", port], ["+" + digits[1:], "127.0.0.1", port],
                  *([digits, "127.0.0.1", port, seconds] for seconds in ("0", "86401", "x", "1x", ""))):
        says(program, words, 2, "usage: fetch INFO-HASH HOST PORT [SECONDS] >METADATA\n")
    return len(TOLD_BY_C) + 2


def real(room, commands, given):
    """How many fetches from libtorrent had its metadata, where that is installed."""
    sys.path.insert(0, str(ROOT / "tests"))
    import clients
    if not clients.is_installed("libtorrent"):
        print("bindings: nothing is fetched from libtorrent, since it isn't installed")
        return 0
    torrent, port = room / "data.torrent", clients.free_port()
    torrent.write_bytes(b"d4:info" + clients.INFO + b"e")
    started = clients.seed("libtorrent", str(torrent), port, str(room))
    try:
        for language, words in commands.items():
            for _ in range(clients.TRIES):
                address = ["127.0.0.1", str(port)] if language == "C" else ["127.0.0.1:%d" % port]
                done = subprocess.run([*map(str, words), clients.HASH, *address], env=given, capture_output=True, timeout=60)
                if done.returncode == 0:
                    break
                time.sleep(0.25)
            if done.stdout != clients.INFO:
                sys.exit("bindings: failed: %s from libtorrent: %s" % (language, done.stderr.decode()[-2000:]))
    finally:
        clients.stop(started)
    return len(commands)


def served(room, commands, given):
    """How many fetches from `bt_tool serve` had its metadata, if that is beside the libraries."""
    tool = LIBRARIES / "bt_tool"
    if not tool.is_file():
        print("bindings: nothing is fetched from bt_tool, since it isn't beside the libraries")
        return 0
    metadata = b"d6:lengthi100e4:name1:a12:piece lengthi16384e6:pieces40000:%se" % bytes(40000)
    (room / "served").write_bytes(metadata)
    server = subprocess.Popen([tool, "serve", "--listen", "127.0.0.1:0", room / "served"], stdout=subprocess.PIPE, stderr=subprocess.STDOUT)
    try:
        _, digits, _, _, address = server.stdout.readline().decode().split()
        for language, words in commands.items():
            given_to = address.split(":") if language == "C" else [address]
            done = subprocess.run([*map(str, words), digits, *given_to], env=given, capture_output=True, timeout=60)
            if done.stdout != metadata:
                sys.exit("bindings: failed: %s from bt_tool serve: %s" % (language, done.stderr.decode()[-2000:]))
    finally:
        server.kill()
        server.communicate()
    return len(commands)


def as_the_program(given):
    """How many lists of peers Python and `bt_tool fetch` treat alike: which blocks they ask each peer for, and what they get."""
    import many
    tool, server, count = LIBRARIES / "bt_tool", many.Server, 0
    if not tool.is_file():
        return 0
    longer = many.METADATA + bytes(20000)
    for made in (lambda: [server(blocks=[0, 1]), server()], lambda: [server("another metadata", blocks=[0]), server()],
                 lambda: [server(metadata=longer, blocks=[0]), server()], lambda: [server(blocks=[]), server("no bencoding"), server("it rejects")],
                 lambda: [server("no answer"), server("another metadata"), server()]):
        def fetched(call):
            servers = made()
            stack, addresses = many.served(*servers)
            with stack:
                found = call(addresses)
            return found, [(it.count, sorted(it.asked)) for it in servers]

        def by_python(addresses):
            try:
                return many.bt.fetch(None, many.INFO_HASH, peers=addresses, at_once=1)
            except many.bt.FetchError:
                return b""
        words = [tool, "fetch", "--at-once", "1", many.INFO_HASH.hex()]
        wanted, got = fetched(lambda them: subprocess.run([*words, *them], env=given, capture_output=True, timeout=60).stdout), fetched(by_python)
        if wanted != got:
            sys.exit("bindings: failed: Python fetches from several peers %r, and bt_tool %r" % (got[1], wanted[1]))
        count += 1
    return count


def example_streams():
    return [it.read_bytes() for it in sorted(EXAMPLES.glob("*.bin"))]


def changed(chosen, examples):
    """Streams, then some of them cut, and some with changed bytes."""
    yield from examples
    for _ in range(STREAMS):
        stream = bytearray(chosen.choice(examples))
        if chosen.random() < 0.3:
            del stream[chosen.randrange(len(stream)):]
        for _ in range(chosen.choice([0, 1, 1, 2])):
            if stream:
                stream[chosen.randrange(min(len(stream), 600))] = chosen.choice([0, 1, 2, chosen.randrange(256)])
        yield bytes(stream)


def heard_streams():
    """What a fetching end hears from peers: from one that serves, and that and more."""
    import ends
    bt, found = ends.bt, []
    for more in ([], [("unchoke",), ("have", 3), ("metadata_reject", 1)], [("metadata_request", 0), ("request", 1, 2, 3), ("piece", 1, 2, b"x")]):
        with bt.End(ends.OWN, serve=ends.METADATA) as end:
            list(end.receive(bt.handshake(ends.INFO_HASH, ends.PEER)))
            writer = bt.Writer(ends.OWN, bt.FAST | bt.EXTENSIONS)
            asked = [writer.extended_handshake(3)]
            writer.hear(next(it for it in bt.read(end.outgoing(), ends.OWN) if it.kind == bt.EXT_HANDSHAKE))
            greeting = end.take()
            list(end.receive(b"".join(asked + [writer.metadata_request(piece) for piece in (0, 2, 1)])))
            other = bt.Writer(ends.OWN, bt.FAST | bt.EXTENSIONS)
            other.hear(next(it for it in bt.read(greeting, ends.OWN) if it.kind == bt.EXT_HANDSHAKE))
            other.have_none()
            said = b"".join(getattr(other, name)(*words) for name, *words in more)
            found.append(greeting + said + end.take())
    return found


def alike(commands, paths, options, what):
    """Fails if the commands, by language, don't print the same for the files. Returns how many files there are."""
    said = {language: subprocess.run([*map(str, words), *map(str, paths)], env=options, capture_output=True)
            for language, words in commands.items()}
    wanted = said["Python"]
    if wanted.stderr or wanted.stdout.count(b"\n") < len(paths):
        sys.exit("bindings: failed: Python prints %r %r" % (wanted.stdout[-500:], wanted.stderr))
    for language, done in said.items():
        if (done.stdout, done.stderr, done.returncode) != (wanted.stdout, b"", wanted.returncode):
            lines = zip(done.stdout.decode().split("\n"), wanted.stdout.decode().split("\n"))
            other = next((pair for pair in lines if pair[0] != pair[1]), "lines")
            sys.exit("bindings: failed: %s: %s and Python differ by %s %s" % (what, language, other, done.stderr.decode()))
    return len(paths)


def each_kind():
    """Streams with each kind of item, and extended handshakes with each kind of client's name."""
    import ends
    bt = ends.bt
    hello = bt.handshake(ends.INFO_HASH, b"-XX\"\\\n\x7f\xc3\xa9 0123456789", 2 ** 64 - 1)
    messages = ["", "00", "01", "02", "03", "04 ffffffff", "06 00000001 00000002 00000003", "07 00000001 00000002 6162", "07 00000001 00000002",
                "08 00000001 00000002 ffffffff", "09 ffff", "0d 00000007", "10 00000007 00000000 00004000", "11 00000000", "63 6162", "ff",
                "14 05", "14 63 6162", "14 09 00000011"]
    for first in ("0e", "0f", "05 ff00"):
        yield hello + b"".join(len(it).to_bytes(4, "big") + it for it in map(bytes.fromhex, [first, *messages]))
    yield bt.handshake(ends.INFO_HASH, b"\xff" * 20, 0)
    for dictionary in (b"de", b"d1:v3:\xc3\xa9xe", b"d1:v2:\xff\xfee", b"d1:vi7ee", b"d1:v0:e", b"d1:v1:a1:v1:be", b"d1:vle1:v1:be",
                       b"d1:v9:\"\\/\n\r\t\b\f\x01e", b"d1:md11:ut_metadatai256e11:ut_metadatai7ee13:metadata_sizei-1ee",
                       b"d1:md11:ut_metadatai0ee13:metadata_sizei9223372036854775807e1:v12:\xf0\x9f\x98\x80\xe2\x80\xa8\xed\x9f\xbf\x7f!e"):
        for rest in (b"", b"rest"):
            yield hello + (len(dictionary + rest) + 2).to_bytes(4, "big") + b"\x14\x00" + dictionary + rest
    for dictionary in (b"d8:msg_typei0e5:piecei7ee", b"d8:msg_typei1e5:piecei7e10:total_sizei200000ee", b"d8:msg_typei2e5:piecei4294967295ee",
                       b"d8:msg_typei3e5:piecei1ee", b"d8:msg_typei3ee", b"d8:msg_typei0ee", b"de"):
        for rest in (b"", b"rest"):
            yield hello + (len(dictionary + rest) + 2).to_bytes(4, "big") + b"\x14\x03" + dictionary + rest


def as_json(room, chosen, examples):
    """How many streams have the objects that `bt_tool show --json` prints, if that is beside the libraries."""
    import ends
    bt, tool = ends.bt, LIBRARIES / "bt_tool"
    if not tool.is_file():
        print("bindings: nothing is compared with `show --json`, since bt_tool isn't beside the libraries")
        return 0
    named, count = set(), 0
    for path in kept(room, "json", [*each_kind(), *changed(chosen, examples)]):
        metadata_id, donthave_id, rules = chosen.choice([3, 3, 2, 0]), chosen.choice([9, 9, 0]), chosen.choice(["free", "free", "bep"])
        words = [tool, "show", "--json", "--metadata-id", str(metadata_id), "--donthave-id", str(donthave_id), "--rules", rules, path]
        *wanted, verdict, _ = subprocess.run(words, capture_output=True).stdout.decode().split("\n")
        own, got = bt.Own(metadata_id=metadata_id, donthave_id=donthave_id, strict=rules == "bep"), []
        try:
            for item in bt.read(path.read_bytes(), own):
                got.append(json.dumps(item.as_json(), separators=(",", ":"), ensure_ascii=False))
                named.add(item.name)
        except bt.Refused:
            pass
        count += 1
        if [list(json.loads(it).items()) for it in wanted] != [list(json.loads(it).items()) for it in got]:
            other = next((pair for pair in zip(wanted, got) if pair[0] != pair[1]), verdict)
            sys.exit("bindings: failed: as_json and `show --json` differ by %s, on %s" % (other, path.read_bytes()[:400].hex()))
    missing = {bt.Id(it).name.lower().replace("_", "-") for it in bt.Id if it != bt.EXTENDED} - named
    missing |= {it.name.lower().replace("_", "-") for it in bt.Kind if it != bt.EXT_RAW} - named
    if missing or not {"unknown", "extended"} <= named:
        sys.exit("bindings: failed: no item is compared with `show --json` of %s" % (missing or "unknown, extended"))
    return count


# The options of `show --json`, and those of the example `json` for the same.
OBJECTS = (([], {}), (["--rules", "bep", "--pieces", "38", "--donthave-id", "77"], {"RULES": "bep", "PIECES": "38", "DONTHAVE_ID": "77"}),
           (["--limit", "300"], {"LIMIT": "300"}))


def objects(room, given):
    """How many streams JavaScript shows as `bt_tool show --json` does, if that is beside the libraries."""
    tool = LIBRARIES / "bt_tool"
    if not shutil.which("node") or not tool.is_file():
        print("bindings: no JSON is compared, since node isn't installed or bt_tool isn't beside the libraries")
        return 0
    sys.path.insert(0, str(ROOT / "tests"))
    import json_lines
    streams = [data for _, data, _ in json_lines.ROWS] + list(itertools.islice(changed(random.Random(44), example_streams()), 60))
    large = json_lines.hand(json_lines.PEER) + b"".join(json_lines.extended(0, b"d13:metadata_sizei%dee" % size)
                                                        for size in (0, 2 ** 53 - 1, 2 ** 53, 2 ** 53 + 1, 2 ** 63 - 1))
    paths = kept(room, "json", [*streams, large])
    for words, more in OBJECTS:
        said = subprocess.run([*NODE, EXAMPLES / "javascript/json.mjs", *paths], env={**given, **more}, capture_output=True)
        wanted = b"".join(subprocess.run([tool, "show", "--json", *words, path], capture_output=True).stdout for path in paths)
        if said.stdout != wanted or said.stderr:
            pairs = zip(said.stdout.decode().split("\n"), wanted.decode().split("\n"))
            other = next((pair for pair in pairs if pair[0] != pair[1]), "lines")
            sys.exit("bindings: failed: JavaScript and show --json %s differ by %s %s" % (words, other, said.stderr.decode()[-2000:]))
    return len(paths) * len(OBJECTS)


# What the examples of JavaScript print of examples/serving.bin, of which docs/RULES.md and examples/README.md tell what is in it. The answer
# is a handshake of 68 bytes, a dictionary d1:md11:ut_metadatai3eee of 24 after 6 bytes, have-none, d8:msg_typei0e5:piecei0ee of 25 after 6
# under the peer's id 2, interested, and a request.
READ = ["handshake af5a3b2ac0bec218a9f53f021946bfee0f069177", "ext-handshake ", "have-all ", "unchoke ", "choke ", "metadata-data ", "metadata-data "]
REFUSED = [*READ[:5], "message 5 breaks a rule at byte 400: EndInside"]
WRITTEN = ["98 have-none", "103 metadata-request 0", "134 interested", "139 request 0 0 16384", "ok messages=5 bytes=156"]
SERVED = bytes(40000)


def examples_in_javascript(room, given):
    """How many of JavaScript's examples printed what they have to: those that read, that write, and that have an end."""
    if not shutil.which("node"):
        return 0
    place, stream = EXAMPLES / "javascript", (EXAMPLES / "serving.bin").read_bytes()

    def lines(words, text):
        return passes([*map(str, words)], given, input=text).decode().split("\n")[:-1]

    for text, wanted in ((stream, READ), (stream[:400], REFUSED)):
        if lines([*NODE, place / "read.mjs"], text) != wanted:
            sys.exit("bindings: failed: examples/javascript/read.mjs prints %s" % lines([*NODE, place / "read.mjs"], text))
    answer = passes([*NODE, str(place / "write.mjs")], given, input=stream)
    if (LIBRARIES / "bt_tool").is_file() and lines([LIBRARIES / "bt_tool", "show", "--metadata-id", "2"], answer)[2:] != WRITTEN:
        sys.exit("bindings: failed: examples/javascript/write.mjs writes %r" % answer)
    (room / "info").write_bytes(SERVED)
    server = subprocess.Popen([*NODE, place / "serve.mjs", room / "info"], env=given, stdout=subprocess.PIPE, stderr=subprocess.DEVNULL)
    try:
        digits, address = server.stdout.readline().decode().split()
        for _ in range(2):
            done = subprocess.run([*NODE, place / "fetch.mjs", digits, address], env=given, capture_output=True, timeout=60)
            if (digits, done.stdout) != (hashlib.sha1(SERVED).hexdigest(), SERVED):
                sys.exit("bindings: failed: examples/javascript/fetch.mjs from serve.mjs: %s" % done.stderr.decode())
    finally:
        server.kill()
        server.communicate()
    return 4


def kept(room, name, streams):
    paths = []
    for number, stream in enumerate(streams):
        paths.append(room / ("%s.%d" % (name, number)))
        paths[-1].write_bytes(stream)
    return paths


def compare(room, commands, given):
    """How many streams the languages show alike, and of how many their ends hear the same."""
    import ends
    chosen, shown = random.Random(43), 0
    every = kept(room, "shown", changed(chosen, example_streams()))
    for size, rules, pieces in ((1, "free", None), (65536, "bep", None), (1000, "bep", "38"), (7, "free", "3")):
        paths = [it for it in every if size > 7 or it.stat().st_size < 2000]
        options = {**given, "PIECE": str(size), "RULES": rules, **({"PIECES": pieces} if pieces else {})}
        shown += alike(commands, paths, options, "chunks of %d, %s" % (size, rules))
    paths = kept(room, "heard", changed(chosen, heard_streams()))
    hearers = {language: [*words, ends.INFO_HASH.hex()] for language, words in others(commands, "events").items()}
    heard = sum(alike(hearers, paths, {**given, "PIECE": size}, "ends, chunks of " + size) for size in ("65536", "1000"))
    return shown, heard


def others(commands, name):
    """The commands of another example, in the languages that have it. An end isn't there in WebAssembly."""
    found = {language: [*words[:-1], pathlib.Path(str(words[-1]).replace("show", name))] for language, words in commands.items()
             if language != WASM_NAME}
    return {language: words for language, words in found.items() if words[-1].is_file()}


def main():
    with tempfile.TemporaryDirectory(prefix="bindings-") as name:
        room = pathlib.Path(name)
        given = environment(room)
        commands = shows(room, given)
        os.environ.update(given)
        sys.path.insert(0, str(BINDINGS / "python/tests"))
        shown, heard = compare(room, commands, given)
        fetchers = others(commands, "fetch")
        if shutil.which("cc"):
            fetchers["C"] = [room / "fetch"]
            passes(["cc", "-D_GNU_SOURCE", "-I", ROOT / "crates/bt_c", EXAMPLES / "c/fetch.c", LIBRARIES / "libbt.a",
                    "-o", room / "fetch"], given)
            print("bindings: C tells %d failures" % told_by_c(room / "fetch"))
        print("bindings: %d streams with the objects of `show --json`" % as_json(room, random.Random(44), example_streams()))
        print("bindings: %d lists of peers treated as by bt_tool fetch" % as_the_program(given))
        fetched = fetches(fetchers, given) + served(room, fetchers, given) + real(room, fetchers, given)
        lines, tried = objects(room, given), examples_in_javascript(room, given)
    print("bindings: ok: %s, %d streams shown alike, %d heard alike, %d fetches, %d streams in JSON, %d examples"
          % (", ".join(commands), shown, heard, fetched, lines, tried))


if __name__ == "__main__":
    main()
