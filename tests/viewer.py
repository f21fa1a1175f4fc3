#!/usr/bin/env python3
"""Tests dist/viewer.html in a real Chromium, against bt_tool.

usage: tests/viewer.py [PROGRAM]

PROGRAM is the built bt_tool, or else the script at the top of the repository.

1. dist/viewer.html is what viewer/build makes of the sources and of dist/bt.wasm.
2. Each capture of tests/made_captures.py is opened, and what the page says is compared with the text that `bt_tool capture` has to
   print for it: names, gaps, verdicts with their sentences, options, who closed first, remarks, uTP; and so are captures broken at
   random, and one of several megabytes with what the command does print.
3. The lines of the examples are those of `bt_tool show` and `show --json`, under both rule sets.
4. The page itself: the refusal's words and byte, keys, filter, search, dropped files, links, printing, screen readers; no exception,
   no complaint in the console, and no request.
5. A fuzz of broken captures under node, if that is installed.

Nothing is tested if dist/viewer.html or Chromium isn't there.
"""
import gzip
import os
import random
import re
import shutil
import struct
import subprocess
import sys
import tempfile

ROOT = os.path.dirname(os.path.dirname(os.path.abspath(__file__)))
sys.path[:0] = [os.path.join(ROOT, name) for name in ("tests/page", "tests")]
import browser as chromium  # noqa: E402
import made_captures as made  # noqa: E402

PAGE, LIBRARY = (os.path.join(ROOT, name) for name in ("dist/viewer.html", "dist/bt.wasm"))
BROKEN, FUZZ_RUNS, MEGABYTES = 15, 300, 9
wrong, right = [], 0


def same(what, found, wanted):
    global right
    if found == wanted:
        right += 1
    else:
        wrong.append("%s\n  wanted: %s\n  found:  %s" % (what, str(wanted)[:3000], str(found)[:3000]))


def example(name):
    return os.path.join(ROOT, "examples", name)


def content(path):
    with open(path, "rb") as file:
        return file.read()


def keep(path, data):
    with open(path, "wb") as file:
        file.write(data)
    return path


def opened(page, paths):
    """Chooses files, and gives what the page knows then."""
    before = page.run("Number(document.body.dataset.opened ?? 0)")
    page.choose("#chooser", paths)
    page.until("Number(document.body.dataset.opened ?? 0) > %d" % before)
    return page.run("viewer.listed")


# ---- what the page says, in the command's words

def verdict_text(verdict):
    if verdict["ok"]:
        return "ok messages=%(messages)d bytes=%(bytes)d" % verdict
    return "refused message=%(message)d at=%(at)d %(reason)s" % verdict


def sentences(page):
    """What the page shows of each refusal of the connection that it shows, by side and rules."""
    return dict(page.run("""(async () => {
        const found = [];
        for (const event of viewer.it.events) {
            if (event.kind !== 'refused' && event.kind !== 'bep') continue;
            await viewer.pickRow(event.row, false);
            found.push([event.side + event.rules, document.querySelector('.rwords').textContent]);
        }
        return found;
    })()"""))


def side_lines(k, side, closes, told):
    """The lines of one direction."""
    name = "AB"[k]
    if side["isWhole"]:
        yield "  %s %s" % (name, side["client"] if side["isNamed"] else "*")
    else:
        yield "  %s sent %d bytes and no whole handshake" % (name, side["sent"])
    if side["skipped"] > 0:
        yield "    handshake after %d bytes of a key exchange; offsets count from it" % side["skipped"]
    if side["conflicts"]:
        yield "    repeated with other bytes: %d; the first ones count" % side["conflicts"]
    if side["gapCount"]:
        gap, count = side["gaps"][0], side["gapCount"]
        more = "; %d gaps, %d bytes in all" % (count, side["gapBytes"]) if count > 1 else ""
        yield "    gap at %d: %d bytes aren't in the capture%s" % (gap["at"], gap["size"], more)
    why = ("the gap" if side["gapCount"] else "the capture's end" if not closes
           else None if closes[0][2] == k else "the close of the other end")
    for rules in ("free", "bep") if side["isWhole"] else ():
        verdict, note = side[rules], ""
        if not verdict["ok"] and verdict["reason"] == "EndInside" and why:
            note = " (cut by %s)" % why
        elif verdict["ok"] and side["gapCount"]:
            note = " (up to the gap)"
        yield "    %-4s %s%s" % (rules, verdict_text(verdict), note)
        if not verdict["ok"] and not note and (rules == "bep" or side["free"] != side["bep"]):
            yield "    why  %s" % (told.get("%d%s" % (k, rules)) or told.get("%dfree" % k))
    if side["isWhole"]:
        yield "    options %s%s" % (side["options"], " (guessed: its receiver's handshake isn't there)" if side["own"]["isGuessed"]
            else "")


def closing_lines(it):
    """Who closed first, and what both had sent by then."""
    closing = it["closing"]
    if not closing or not closing["event"]:
        yield "  not closed; a later connection has the same ports" if it["isReplaced"] else "  still open at the capture's end"
        return
    event = closing["event"]
    yield "  %s closed first, by %s, at %.6f s" % ("AB"[event["side"]], event["word"], event["time"])
    for k in (1 - event["side"], event["side"]):
        if it["sides"][k]["isWhole"]:
            last = closing["lasts"][k]
            words = "nothing" if not last else last["words"] if last.get("event") else "%(offset)d %(words)s" % last
            yield "    %s had sent * bytes, last: %s" % ("AB"[k], words)


def remark_lines(page):
    """The remarks of the summary."""
    return page.run("""(() => {
        const cards = [...document.querySelectorAll('#summary .card')];
        const card = cards.find(one => one.querySelector('h3').firstChild.textContent === 'Remarks');
        return card ? [...card.querySelectorAll('p')].map(line => '  ' + line.textContent.replace(/\\u202f/g, '')) : [];
    })()""")


def shown_lines(page, number):
    """The rows, as --show prints them."""
    for row in page.run("viewer.backend.call('rows', {from: 0, to: 1000})"):
        event, offset, words = row.get("event"), row["offset"], row["words"]
        if event and event["kind"] == "close":
            words = "(%s)" % event["word"]
        names = [name for bit, name in enumerate(("unasked", "choked", "again", "unanswered", "elsewhere"))
            if row["flags"] >> bit & 1]
        yield "%d  %11.6f %s %d %s%s" % (number, row["time"], "AB"[row["side"]], offset, words, "  (%s)" % ", ".join(names) if names else "")


def as_told(page, listed, is_shown=False):
    """The lines of the command, except for what `softened` leaves out."""
    lines, connections = [], {it["number"]: it for it in listed["connections"]}
    others = {it["number"]: it for it in listed["facts"]["others"]}
    for number in sorted({**connections, **others}):
        ends = others[number]["ends"] if number in others else connections[number]["names"]
        head = "connection %d  A %s > B %s" % (number, *ends)
        if number in others:
            lines.append(head + "  no BitTorrent handshake")
            continue
        page.run("viewer.openConnection(%d)" % connections[number]["id"])
        it, told = page.run("viewer.it"), sentences(page)
        closes = sorted((side["closed"]["time"], side["closed"]["packet"], k) for k, side in enumerate(it["sides"])
            if side["closed"])
        lines += [*(shown_lines(page, number) if is_shown else ()), head]
        for k, side in enumerate(it["sides"]):
            lines += side_lines(k, side, closes, told)
        lines += [*closing_lines(it), *remark_lines(page)]
    for it in listed["facts"]["utp"]:
        lines.append("uTP  %s > %s  %d packets of BitTorrent over UDP (BEP 29), read from a SYN on" % (*it["ends"],
            it["packets"]))
    return "\n".join(lines) + ("\n" if lines else "")


def softened(wanted, found):
    """The command's text without what the page says otherwise: names without a client, how many bytes before a close, the end of the line
    of another protocol, why uTP closed."""
    wanted = re.sub(r"had sent \d+ bytes, last( read)?", "had sent * bytes, last", wanted)
    wanted = re.sub(r"(no BitTorrent handshake).*", r"\1", wanted)
    wanted = re.sub(r"(\(BEP 29\), read from a SYN on);.*", r"\1", wanted)
    lines, other = wanted.splitlines(), found.splitlines()
    lines = [re.sub(r"^(  [AB]) .*", r"\1 *", line) if k < len(other) and re.fullmatch(r"  [AB] \*", other[k]) else line for k,
        line in enumerate(lines)]
    return "\n".join(lines) + ("\n" if lines else "")


# ---- against the command `capture`

def check_captures(page, folder):
    """The captures of tests/made_captures.py, against what that expects."""
    torrent = keep(os.path.join(folder, "a.torrent"), made.TORRENT)
    for name, words, capture, wanted, errors, status in made.rows():
        # the viewer takes each RST for a close, and each segment for one of the stream
        if status == 2 or b"fault" in errors or name.startswith(("a stray reset", "outside the window", "a keep-alive with")):
            continue
        path = keep(os.path.join(folder, "capture.pcap"), capture)
        listed = opened(page, [path, torrent] if "--torrent" in words else [path])
        if "--pieces" in words:
            page.run("viewer.setPieces('%s')" % words[words.index("--pieces") + 1])
            listed = page.run("viewer.listed")
        found = as_told(page, listed, "--show" in words)
        same("capture: " + name, found, softened(wanted, found))


def broken(packets, chance):
    """Packets of a capture, some of them lost, swapped, twice, or with a changed byte after the addresses."""
    packets = list(packets)
    for _ in range(chance.randrange(4)):
        packets.pop(chance.randrange(len(packets)))
    for _ in range(chance.randrange(4)):
        at = chance.randrange(len(packets) - 1)
        packets[at], packets[at + 1] = packets[at + 1], packets[at]
    for _ in range(chance.randrange(3)):
        packets.insert(chance.randrange(len(packets)), chance.choice(packets))
    for _ in range(chance.randrange(4)):
        at = chance.randrange(len(packets))
        if len(packets[at]) > 16 + 38:
            place = chance.randrange(16 + 38, len(packets[at]))
            packets[at] = packets[at][:place] + bytes([chance.randrange(256)]) + packets[at][place + 1:]
    return packets


def split(capture):
    """The header and the packets of a little-endian pcap."""
    at, packets = 24, []
    while at < len(capture):
        size = 16 + struct.unpack_from("<I", capture, at + 8)[0]
        packets.append(capture[at:at + size])
        at += size
    return capture[:24], packets


def check_as_told(page, program, what, path):
    """A capture as the program reads it, unless a name isn't UTF-8, or a segment is outside the window, which only the
    program sees."""
    wanted = subprocess.run([program, "capture", path], capture_output=True).stdout.decode(errors="replace")
    found = as_told(page, opened(page, [path]))
    if "\ufffd" not in wanted and "outside the window" not in wanted:
        same(what, found, softened(wanted, found))


def made_capture(path, *words):
    subprocess.run([sys.executable, os.path.join(ROOT, "tests/page/large_capture.py"), path, *words], check=True)
    return path


def check_broken(page, program, folder):
    chance, path = random.Random(46), os.path.join(folder, "broken.pcap")
    small = made_capture(path, "--mb", "0.15", "--block", "4096", "--faults")
    captures = [split(content(name)) for name in (example("small.pcap"), example("refused.pcap"), small)]
    for k in range(BROKEN):
        head, packets = captures[k % len(captures)]
        keep(path, head + b"".join(broken(packets, chance)))
        check_as_told(page, program, "a broken capture, %d" % k, path)
    # a file of more than two of the pages in which the viewer reads it
    check_as_told(page, program, "a large capture", made_capture(path, "--mb", str(MEGABYTES), "--faults", "--six"))


# ---- against bt_tool

def check_lines(page, program):
    """The lines of the examples as `show` prints them; of a pair, for the receiver that the other direction tells."""
    for names in (["first.bin"], ["downloading.bin"], ["fetching.bin"], ["serving.bin"], ["fetching.bin", "serving.bin"]):
        known = opened(page, [example(name) for name in names])["connections"][0]["names"]
        for name in names:
            other = ["--other", example(names[1 - names.index(name)])] if len(names) == 2 else []
            for rules in ("free", "bep"):
                for words in ([], ["--json"]):
                    wanted = subprocess.run([program, "show", "--rules", rules, *words, *other, example(name)],
                        capture_output=True).stdout
                    asked = "viewer.backend.call('lines', {id: 0, side: %d, rules: '%s', json: %s}).then(lines => lines.text())"
                    found = page.run(asked % (known.index(name), rules, str(bool(words)).lower()))
                    same("show %s %s %s" % (rules, words, name), found, wanted.decode())


# ---- the page itself

def text_at(page, selector):
    return page.run("document.querySelector('%s')?.textContent ?? null" % selector)


WHY = ("B closed the connection, by FIN, 2.00 ms after A sent a message that is refused: the have message names piece 38, and the "
       "torrent has 38 pieces, so the last index is 37.")


def check_refusal(page, folder):
    """The file is dropped as a user does; one sentence says why it closed, and a click on it shows the byte."""
    page.open("file://%s#theme=dark" % PAGE)
    drop(page, "refused", "dropped.pcap")
    same("why", text_at(page, ".whytext").removesuffix("byte 78 ↘"), WHY)
    page.run("viewer.pick(0)")
    page.run("document.querySelector('.whytext').click()")
    page.until("document.body.dataset.shown === '3'")
    same("the refusal's title", page.run("document.querySelector('.rtitle').firstChild.textContent"), "Piece 38 does not exist")
    same("its sentence", text_at(page, ".rwords"), WHY[WHY.index("the have"):].replace("the have", "The have", 1))
    same("the refused byte", page.run("[...document.querySelectorAll('.hexbytes .bad')].map(byte => byte.textContent)"), ["00"])
    same("its field", text_at(page, ".badrow"), "78index38piece")
    same("its row", text_at(page, ".row.e-refused.on .det"), "BadIndex at 78 · message 2 · rules free")
    same("the link", page.run("location.hash.includes('at=0-A-78')"), True)
    same("marks of what is proved", page.run("document.querySelectorAll('#why .proved, #summary .proved, .row .proved').length"), 0)
    # what belongs to one file isn't kept for the next one: of that the piece count isn't known, and the page says so
    page.run("document.querySelector('#limit').value = '20000'")
    capture = content(example("refused.pcap"))
    opened(page, [keep(os.path.join(folder, "other.pcap"), capture[:24] + capture[24:].replace(b"-AA0001-", b"-AA0002-"))])
    same("no piece count", text_at(page, ".whytext").split("last message of A, ")[1],
         '"interested". Nothing that A sent is refused. No piece count is known, so nobody judged whether piece 38 exists: '
         "type the count above, or drop the .torrent.byte 82 ↘")
    same("what was typed", page.run("[...document.querySelectorAll('#options input')].map(input => input.value).join('')"), "")
    same("the row of the file before", page.run("location.hash.includes('at=0-A-78') || location.hash.includes('pieces')"), False)
    opened(page, [keep(os.path.join(folder, "back.pcap"), made.donthave(**made.TAKEN_BACK)[0])])
    page.run("viewer.pick(3)")
    page.until("viewer.row?.name === 'donthave' && document.body.dataset.shown === '3'")
    same("a piece that is taken back", page.run("[...document.querySelectorAll('.fvalue')].map(it => it.textContent)"),
         ["6", "20", "7", "9"])
    for name, words, capture, _, _, said in made.drops():
        opened(page, [keep(os.path.join(folder, "drop.pcap"), capture)])
        page.run("viewer.setPieces('%s')" % (words[1] if words else ""))
        text = text_at(page, ".whytext")
        found = text.startswith("B closed the connection, by FIN, 2.00 ms after A sent ") and said in text
        same("why it closed, after %s: %s" % (name, text), found, True)
    same("a remark as the reason", text_at(page, ".whytext"),
         'B closed the connection, by FIN, 2.00 ms after A sent an answer that nobody asked for, "piece 0 0 1".byte 73 ↘')
    opened(page, [example("small.pcap")])
    same("metadata as the reason", text_at(page, ".whytext"), "A closed the connection, by RST, 100 ms after the last block of the "
         'metadata, "metadata-data 1 25486 9102": all of it was there then.byte 16736 ↘')


def drop(page, name, as_name):
    """Drops an example of the page as a file."""
    before = page.run("Number(document.body.dataset.opened ?? 0)")
    page.run("""(() => {
        const data = new DataTransfer(), text = document.getElementById('example-%s').textContent.trim();
        data.items.add(new File([Uint8Array.from(atob(text), sign => sign.charCodeAt(0))], '%s'));
        dispatchEvent(new DragEvent('drop', { dataTransfer: data, bubbles: true, cancelable: true }));
    })()""" % (name, as_name))
    page.until("Number(document.body.dataset.opened ?? 0) > %d" % before)


# What the inspector shows, when it shows this row.
SHOWN = "document.body.dataset.shown === '%d' && document.querySelector('.ititle .chip').textContent"


def check_keys(page):
    page.open("file://%s#example=small&theme=dark" % PAGE)
    page.run("viewer.pick(0)")
    for _ in range(3):
        page.key("j")
    same("three times j", page.until("viewer.selected === 3 && 3"), 3)
    page.key("k")
    same("then k", page.until("viewer.selected === 2 && 2"), 2)
    page.run("viewer.pickRow(4, true)")
    page.key("m")
    same("m goes to the answer", page.until(SHOWN % 11), "metadata-data")
    same("the mark of a dictionary", text_at(page, ".treehead .proved"), "∎ 45 bytes")
    page.key("n")
    same("n goes to the close", page.until(SHOWN % 13), "RST")
    page.key("s")
    charts = "document.querySelectorAll('#summary .card canvas').length"
    same("the summary", page.until("document.body.dataset.tab === 'summary' && " + charts), 4)
    page.key("s")
    page.key("t")
    same("the other theme", page.run("document.documentElement.dataset.theme"), "light")
    page.key("r")
    same("the other rules", page.until("viewer.it.rules === 'bep' && viewer.rules"), "bep")
    page.key("r")
    page.until("viewer.it.rules === 'free'")


def check_filter(page):
    page.run("viewer.filters.search('metadata-data 1')")
    same("the rows of a search", page.until("viewer.total === 1 && document.querySelector('#count').textContent"), "1 of 14 rows")
    page.run("viewer.filters.search('')")
    page.until("viewer.total === 14")
    page.run("document.querySelector('#kinds [data-k=\"6\"]').click()")
    same("one kind", page.until("viewer.total === 7 && document.querySelectorAll('#rows .row').length === 7 && 7"), 7)
    page.until("[...document.querySelectorAll('#rows .row')].every(row => row.classList.contains('k6'))")
    page.run("document.querySelector('#kinds [data-k=\"6\"]').click()")
    page.until("viewer.total === 14")
    page.run("document.querySelector('#sides [data-side=\"1\"]').click()")
    same("one side", page.until("viewer.total === 7 && 7"), 7)
    page.run("document.querySelector('#sides [data-side=\"-1\"]').click()")
    page.until("viewer.total === 14")


def check_reach(page):
    """Links, printing, and what a screen reader gets."""
    page.open("file://%s#example=small&at=0-B-301&theme=dark" % PAGE)
    same("a link to a row", page.until("document.body.dataset.shown === '11' && viewer.row.words"), "metadata-data 0 25486 16384")
    page.run("location.hash = '#at=0-A-247'")
    same("another link", page.until("document.body.dataset.shown === '5' && viewer.row.words"), "metadata-request 1")
    label = "0.000188 s, A sends metadata-request 1, at 247"
    selected = "document.querySelector('#rows [aria-selected=true]')?.getAttribute('aria-label')"
    same("a row's text", page.until("%s === '%s' && 1" % (selected, label)), 1)
    same("the selected row", page.run("document.querySelector('#rows').getAttribute('aria-activedescendant')"), "row-5")
    for tag, text in (("canvas", "one.ariaLabel"), ("button", "(one.textContent.trim() || one.ariaLabel)")):
        same("each %s has a text" % tag, page.run("[...document.querySelectorAll('%s')].every(one => %s.length > 0)" % (tag, text)), True)
    page.run("window.print = () => { window.printed = document.querySelectorAll('#print li').length; }")
    page.key("p")
    same("printed rows", page.until("window.printed"), 14)
    for width in (390, 820, 1180):
        page.resize(width, 800)
        same("no sideways scroll at %d" % width, page.run("document.documentElement.scrollWidth <= %d" % width), True)
    page.resize(1600, 1000)


def check_files(page, folder):
    opened(page, [keep(os.path.join(folder, "empty.pcap"), b"")])
    same("an empty file", text_at(page, "#toast"), "empty.pcap is empty")
    packed = os.path.join(folder, "small.pcap.gz")
    with gzip.open(packed, "wb") as out:
        out.write(content(example("small.pcap")))
    same("a compressed capture", opened(page, [packed])["connections"][0]["metadata"]["name"], "i25k")
    check_broken_files(page, folder)
    # a .torrent of the info dictionary that the capture has
    stream = content(example("serving.bin"))
    first, second = stream.index(b"total_sizei25486ee", 301) + 18, stream.index(b"total_sizei25486ee", 16736) + 18
    torrent = keep(os.path.join(folder, "i25k.torrent"), b"d4:info" + stream[first:16736] + stream[second:] + b"e")
    same("a .torrent", [side["own"]["pieces"] for side in opened(page, [torrent])["connections"][0]["sides"]], [1, 1])
    # nothing may leave the page: its policy refuses a request
    same("no network", page.run("fetch('http://127.0.0.1:9/').then(() => 'sent', () => 'refused')"), "refused")


def check_broken_files(page, folder):
    """Files that can't be read: it is said, and what is open stays. A capture without a packet, and a browser without the reader."""
    opened(page, [example("small.pcap")])
    section = struct.pack("<IIIHHq", 0x0A0D0D0A, 28, 0x1A2B3C4D, 1, 0, -1) + struct.pack("<I", 28)
    rows = [("broken.pcapng", section + struct.pack("<II", 6, 8) + bytes(40), "a block of the pcapng file has an impossible length"),
            ("unknown.pcapng", section + struct.pack("<8I", 6, 32, 0, 0, 0, 0, 0, 32),
             "a packet of the pcapng file names an interface that isn't described, or is beyond the first 1,024"),
            ("broken.gz", b"\x1f\x8b\x08broken", "broken.gz can't be unpacked: its gzip data is broken or cut"),
            ("empty.pcap", b"", "empty.pcap is empty")]
    for name, data, said in rows:
        opened(page, [keep(os.path.join(folder, name), data)])
        same(name, text_at(page, "#toast"), said)
        page.run("viewer.pick(4)")
        same("what was open before " + name, (text_at(page, "#file b"), page.until(SHOWN % 4)), ("small.pcap", "metadata-request"))
    opened(page, [keep(os.path.join(folder, "head.pcap"), content(example("small.pcap"))[:30])])
    same("no packet", (text_at(page, "#file b"), text_at(page, "#ends .dim"), page.run("viewer.total")),
         ("head.pcap", "The file begins as a capture, and has no whole packet: it ends inside the first one.", 0))
    with open(PAGE, encoding="utf8") as file:
        text = file.read()
    check = "WebAssembly.validate("
    same("places where the browser is asked", text.count(check), 1)
    page.open("file://" + keep(os.path.join(folder, "old.html"), text.replace(check, "(() => false)(").encode()))
    said = page.run("document.querySelector('#nowasm').innerText")
    same("a browser without 64-bit memories: " + said, all(it in said for it in ("memories of 64 bits", "Chromium", "133", "Firefox", "134")), True)
    opened(page, [example("small.pcap")])
    same("a file in such a browser", text_at(page, "#toast"), said)
    page.open("file://%s#example=small&theme=dark" % PAGE)


def check_build(folder):
    """The page is what the sources give, and made twice it is the same."""
    made = [os.path.join(folder, name) for name in ("one.html", "two.html")]
    for path in made:
        subprocess.run([os.path.join(ROOT, "viewer/build"), "--wasm", LIBRARY, "--out", path], check=True,
            stdout=subprocess.DEVNULL)
    same("two builds are equal", content(made[0]) == content(made[1]), True)
    same("dist/viewer.html is what viewer/build makes", content(made[0]) == content(PAGE), True)


def check_fuzz():
    if not shutil.which("node"):
        print("viewer: no fuzz: node isn't installed")
        return
    files = [example(name) for name in ("small.pcap", "refused.pcap", "fetching.bin", "downloading.bin")]
    words = ["node", "--experimental-wasm-memory64", "--no-warnings", os.path.join(ROOT, "tests/page/fuzz.mjs"), str(FUZZ_RUNS),
        "46", LIBRARY]
    ended = subprocess.run([*words, *files], capture_output=True, text=True)
    if "bad option" in ended.stderr:
        print("viewer: no fuzz: this node has no memories of 64 bits")
    else:
        same("fuzz: %s%s" % (ended.stdout, ended.stderr), ended.returncode, 0)


def main():
    program = os.path.abspath(sys.argv[1] if len(sys.argv) > 1 else os.path.join(ROOT, "bt_tool"))
    for path in (PAGE, LIBRARY):
        if not os.path.exists(path):
            print("viewer: not run: there is no %s" % os.path.relpath(path, ROOT))
            return
    if not chromium.program():
        print("viewer: not run: chromium isn't installed")
        return
    page = chromium.Browser()
    try:
        with tempfile.TemporaryDirectory(prefix="viewer-tests-") as folder:
            check_build(folder)
            page.open("file://%s#theme=dark" % PAGE)
            check_captures(page, folder)
            check_broken(page, program, folder)
            check_lines(page, program)
            check_refusal(page, folder)
            check_keys(page)
            check_filter(page)
            check_reach(page)
            check_files(page, folder)
        same("complaints", [one for one in page.complaints() if "127.0.0.1:9" not in one and "Content Security Policy" not in one],
            [])
    finally:
        page.close()
    check_fuzz()
    for text in wrong:
        print("viewer: wrong: " + text)
    print("viewer: %s %d checks" % ("failed: %d wrong of" % len(wrong) if wrong else "ok:", right + len(wrong)))
    sys.exit(1 if wrong else 0)


if __name__ == "__main__":
    main()
