#!/usr/bin/env python3
"""Runs `bt_tool capture` on the captures of tests/made_captures.py, from a file and from a pipe, and compares its output and status.

usage: tests/capture.py [PROGRAM]

PROGRAM is the built bt_tool, or else the script at the top of the repository. The objects of `--json` say what the lines of the
text say, and nothing else, by names that docs/COMMANDS.md has. With `--show` the rows stand before the report, and reports are the
same. `bt_tool check` gives the verdicts that are printed on the streams that were sent, with the options that are printed, and `show`
the rows, whose remarks are those of the report; `--stream` writes these streams. A terminal shows how much of a long file is read. The
sentences on reasons that bt_report defines have the words of tools/reasons.json, and that has what docs/RULES.md says. Where tcpdump is
installed and may capture, two ends talk over loopback, and their capture is read too.
"""
import json
import os
import pty
import re
import select
import shutil
import socket
import struct
import subprocess
import sys
import tempfile
import threading
import time

sys.dont_write_bytecode = True
sys.path.insert(0, os.path.dirname(os.path.abspath(__file__)))
import captures  # noqa: E402
import json_lines  # noqa: E402
import judged  # noqa: E402
import made_captures as made  # noqa: E402

ROOT = os.path.dirname(os.path.dirname(os.path.abspath(__file__)))


def unique(pairs):
    """An object's members, of which no two have one name."""
    assert len(dict(pairs)) == len(pairs), pairs
    return dict(pairs)


def item_of(item):
    """An item's offset and words."""
    offset, name, *values = item.values()
    if name == "handshake":
        text = values.pop()
        assert text == item["peer_id_text"] == json_lines.text_of(bytes.fromhex(item["peer_id"])), item
    if name == "ext-handshake":
        values = values[:2] + ["size=%s" % item.get("metadata_size", "-"), "ut_metadata=%s" % item.get("ut_metadata", "-")]
    return " ".join(map(str, [offset, name, *values]))


def verdict_of(found):
    """A verdict, taken out of its object."""
    if found.pop("verdict") == "ok":
        return "ok messages=%d bytes=%d" % (found.pop("messages"), found.pop("bytes"))
    return "refused message=%d at=%d %s" % (found.pop("message"), found.pop("offset"), found.pop("reason"))


def judged_lines(found):
    """The lines on a direction's verdicts and on its receiver."""
    verdicts = {rules: verdict_of(found[rules]) for rules in ("free", "bep")}
    for rules, words in verdicts.items():
        rest = found.pop(rules)
        note, why = rest.pop("note", None), rest.pop("why", None)
        yield "    %-4s %s%s\n" % (rules, words, " (%s)" % note if note else "")
        if why and (rules == "bep" or words != verdicts["bep"]):
            yield "    why  %s.\n" % why
        assert not rest, rest
    receiver = found.pop("receiver")
    names = ["%s %s" % (name, receiver.pop(key)) for name, key in ((" --donthave-id", "donthave_id"), (" --pieces", "pieces")) if key in receiver]
    guess = " (guessed: its receiver's handshake isn't there)" if receiver.pop("guessed", False) else ""
    yield "    options --reserved %s --metadata-id %d%s%s\n" % (receiver.pop("reserved"), receiver.pop("metadata_id", 0), "".join(names), guess)
    assert not receiver, receiver


def direction_lines(side, found):
    """The lines on a direction, whose members are taken out; its remarks are left."""
    yield "  %s %s\n" % (side, found.pop("name") if "name" in found else "sent %d bytes and no whole handshake" % found.pop("sent"))
    if "exchange" in found:
        yield "    handshake after %d bytes of a key exchange; offsets count from it\n" % found.pop("exchange")
    if "conflicts" in found:
        yield "    repeated with other bytes: %d; the first ones count\n" % found.pop("conflicts")
    if "strays" in found:
        strays = found.pop("strays")
        yield "    %d segment%s outside the window\n" % (strays, "s" * (strays > 1))
    if "gap" in found:
        gap, gaps, missing = found.pop("gap"), found.pop("gaps"), found.pop("missing")
        late = ", or came more than 15 MiB late" if gap.pop("final", False) else ""
        more = "; %d gaps, %d bytes in all" % (gaps, missing) if gaps > 1 else ""
        yield "    gap at %(offset)d: %(bytes)d bytes aren't in the capture" % gap + late + more + "\n"
    if "free" in found:
        yield from judged_lines(found)


def closing_lines(closed, gapped, is_unread, is_replaced):
    """The lines on how a connection was closed, and on what each side had sent, of which some have gaps; or on how it was left."""
    unread = ["  not read further: too many connections at once\n"] if is_unread else []
    if closed is None:
        return unread or ["  not closed; a later connection has the same ports\n" if is_replaced else "  still open at the capture's end\n"]
    assert not is_replaced
    lines = ["  %(side)s closed first, by %(by)s, at %(time)s s\n" % closed]
    for side in "BA" if closed["side"] == "A" else "AB":
        before = closed.pop(side.lower(), None)
        if before:
            last = before.get("last", {})
            words = "nothing" if not last else item_of(last) if "item" in last else verdict_of(last)
            name = "last read" if side in gapped else "last"
            lines.append("    %s had sent %d bytes, %s: %s\n" % (side, before["sent"], name, words))
    assert set(closed) == {"side", "by", "time"}, closed
    return lines + unread


REMARKS = {
    "unasked": ("an answer that nobody asked for", "answers that nobody asked for"),
    "choked": ("a request while it was choked", "requests while it was choked"),
    "again": ("a request again before its answer", "requests again before their answers"),
    "unanswered": ("a request that got no answer", "requests that got no answer"),
    "elsewhere": ("a have of a piece that never came here", "haves of pieces that never came here"),
}


def remark_lines(side, found):
    """The lines of the remarks, which are the members that are left."""
    for key, (one, many) in REMARKS.items():
        if key in found:
            noted = found.pop(key)
            what = one if noted["count"] < 2 else "%d %s, the first" % (noted["count"], many)
            yield "  %s sent %s: %s\n" % (side, what, item_of(noted["first"]))
    assert not found, found


def row_of(found):
    """The row that says what an object says."""
    connection, time_, _, side = (found.pop(key) for key in ("connection", "time", "packet", "side"))
    remarks = "  (%s)" % ", ".join(found.pop("remarks")) if "remarks" in found else ""
    if "verdict" in found:
        words = "%d %s" % (found["offset"], verdict_of(found))
    elif "gap" in found:
        words = "%d (gap of %d bytes; nothing after it is shown)" % (found.pop("offset"), found.pop("gap"))
    elif "closed" in found:
        words = "%d (%s)" % (found.pop("offset"), found.pop("closed"))
    else:
        words, found = item_of(found), {}
    assert not found, found
    return "%d  %11s %s %s%s\n" % (connection, time_, side, words, remarks)


def utp_line(source, target, packets, at_least=False, closed=()):
    count = "at least %d" % packets if at_least else packets
    said = "".join("; %s closed: %d%s" % (it["by"], it["reason"], " (%s)" % it["name"] if "name" in it else "") for it in closed)
    return "uTP  %s > %s  %s packets of BitTorrent over UDP (BEP 29), read from a SYN on%s\n" % (source, target, count, said)


def lines_of(line):
    """The text that says what an object says: a report, a row, or packets of uTP."""
    found = json.loads(line, parse_float=str, object_pairs_hook=unique)
    if "utp" in found:
        return utp_line(**found["utp"])
    if "packet" in found:
        return row_of(found)
    text = "connection %d  A %s > B %s" % (found.pop("connection"), found.pop("a"), found.pop("b"))
    if not found.pop("bittorrent"):
        assert not found, found
        return text + "  no BitTorrent handshake: encrypted, another protocol, or its start isn't in the capture\n"
    sides = [(side, found.pop("from_" + side.lower())) for side in "AB"]
    gapped = [side for side, way in sides if "gap" in way]
    lines = [line for side, way in sides for line in direction_lines(side, way)]
    lines += closing_lines(found.pop("closed", None), gapped, found.pop("not_read_further", False), found.pop("replaced", False))
    lines += [line for side, way in sides for line in remark_lines(side, way)]
    assert not found, found
    return text + "\n" + "".join(lines)


def read(name):
    with open(os.path.join(ROOT, name), encoding="utf8") as file:
        return file.read()


# What docs/COMMANDS.md names.
NAMES = set(re.findall(r"`(\w+)`", read("docs/COMMANDS.md")))


def words_of(reason, text):
    """The words between the numbers of each sentence that bt_report's definitions have for a reason."""
    clause = re.search(r"^reason_sentence reasons\.%s .*?^(?=\S)" % reason, text, re.M | re.S)
    name = re.search(r"\w+_sentence\b(?! reasons)", clause.group())
    found = re.search(r"^abbrev pub %s .*?^$" % name.group(), text, re.M | re.S) if name else clause
    return sorted(json.loads(words) for words in re.findall(r'codes ("(?:[^"\\]|\\.)*")', found.group()))


def other_words():
    """The reasons whose sentences have other words in bt_report's definitions than in tools/reasons.json."""
    text = read("crates/bt_report/specs/Whys.antt")
    for reason, row in json.loads(read("tools/reasons.json")).items():
        said = (words for key, words in row.items() if key.startswith("words"))
        if sorted(part for words in said for part in re.split(r"\{\w+\}", words) if part) != words_of(reason, text):
            yield reason


def documented():
    """Each reason of docs/RULES.md, with its rules, its places (what stands under At and under When) and its section."""
    found, head = {}, None
    for line in read("docs/RULES.md").splitlines():
        cells = [cell.strip() for cell in line.strip().strip("|").split("|")] if line.startswith("|") else None
        if cells is None or cells[0] == "Reason":
            head = cells
        elif head and re.match(r"[A-Z]\w+", cells[0]):
            row = dict(zip(head, cells))
            reason = found.setdefault(cells[0], {"places": []})
            if "When" in row:
                reason["rules"] = row["Rules"]
                reason["places"].append({"at": row["At"], "where": row["When"]})
            else:
                reason["section"] = row["Section"]
    return found


def reasons_differ():
    """What the documents and tools/reasons.json say differently of a reason."""
    table, told = json.loads(read("tools/reasons.json")), documented()
    wanted = {name: {key: reason[key] for key in ("places", "rules", "section")} for name, reason in table.items()}
    return ["%s: %s and %s" % (name, wanted.get(name), told.get(name)) for name in sorted({*wanted, *told}) if wanted.get(name) != told.get(name)]


def read_all(end, size):
    while size > 0:
        size -= len(end.recv(65536)) or size


def serve(server):
    end = server.accept()[0]
    read_all(end, len(made.FETCHING))
    end.sendall(made.SERVING)
    end.recv(1)
    end.close()


def capture_of(file):
    """Captures two ends over loopback, and returns their ports, or None where nothing can be captured."""
    with socket.create_server(("127.0.0.1", 0)) as server:
        port = server.getsockname()[1]
        words = ["-i", "lo", "--immediate-mode", "-U", "-B", "65536", "-w", file, "tcp port %d" % port]
        dump = subprocess.Popen(["tcpdump", *words], stderr=subprocess.PIPE)
        # it says so once it captures, and ends where it may not
        if not any(b"listening on" in line for line in iter(dump.stderr.readline, b"")):
            dump.wait()
            return None
        server_thread = threading.Thread(target=serve, args=[server])
        server_thread.start()
        with socket.create_connection(("127.0.0.1", port)) as client:
            ports = client.getsockname()[1], port
            client.sendall(made.FETCHING)
            read_all(client, len(made.SERVING))
        server_thread.join()
    time.sleep(0.5)
    dump.terminate()
    dump.communicate()
    return ports


def is_real_read(program, folder):
    """Whether a capture by tcpdump gives both verdicts, or None where nothing can be captured."""
    file = os.path.join(folder, "real.pcap")
    ports = shutil.which("tcpdump") and capture_of(file)
    if not ports:
        return None
    ended = subprocess.run([program, "capture", file], capture_output=True, text=True)
    wanted = "connection 0  A 127.0.0.1:%d > B 127.0.0.1:%d\n" % ports + made.A_LINES + made.B_LINES + made.CLOSE
    found = re.sub(r"at \d+\.\d{6} s", "at 0.057000 s", ended.stdout)
    if (found, ended.stderr, ended.returncode) == (wanted, "", 0):
        return True
    print("capture: a real capture: expected:\n%sgot:\n%s%s" % (wanted, found, ended.stderr))
    return False


def text_told(lines):
    """The text of the objects on a line each: of rows, of reports, and of packets of uTP."""
    return "".join(map(lines_of, lines.splitlines(True)))


def noted_in(out):
    """The remarks of a report but for those of its end: the words of `--stream`, the remark, how many and the first one's words."""
    for number, text in re.findall(r"^connection (\d+) (.*?)(?=^connection |\Z)", out, re.M | re.S):
        for key, (one, many) in REMARKS.items():
            for side, count, first in re.findall(r"^  ([AB]) sent (?:%s|(\d+) %s, the first): (.*)$" % (one, many), text, re.M):
                if key != "unanswered":
                    yield "%s-%s" % (number, side), key, int(count or 1), first


def is_remarked_again(out, shown):
    """Whether the rows have the remarks that the report has."""
    found = []
    for which, rows in judged.rows_of(shown).items():
        for key in REMARKS:
            noted = [words for _, words, remarks in rows if key in remarks]
            found += [(which, key, len(noted), noted[0])] if noted else []
    return sorted(found) == sorted(noted_in(out))


def is_gap_placed(program, folder):
    """Whether the gap of a side without a captured byte is shown at its connection's first packet, as a line and as an object."""
    capture = made.one_side()
    paths, segments = {"CAPTURE": keep(folder, "one-side", capture)}, captures.segments_of(capture)
    number, first = next((number, it) for number, it in enumerate(segments, 1) if it.ends[0] == made.B)
    seconds = "%d.%06d" % divmod((first.nanos - segments[0].nanos) // 1000, 10 ** 6)
    row = {"connection": 1, "time": seconds, "packet": number, "side": "A", "offset": 0, "gap": len(made.FETCHING)}
    objects = run(program, paths, ["--show", "--json", "CAPTURE"]).stdout.decode().splitlines()
    objects = [it for it in (json.loads(line, parse_float=str) for line in objects) if "gap" in it]
    lines = [line for line in run(program, paths, ["--show", "CAPTURE"]).stdout.decode().splitlines(True) if "(gap of " in line]
    return objects == [row] and lines == [row_of(dict(row))]


def lines_within(seconds, pipe, count):
    """The next lines of a pipe, `count` of them or as many as come in time."""
    text, end = b"", time.monotonic() + seconds
    while text.count(b"\n") < count and select.select([pipe], [], [], max(0, end - time.monotonic()))[0]:
        more = os.read(pipe.fileno(), 65536)
        if not more:
            break
        text += more
    return text.decode().splitlines(True)


def is_live(program):
    """Whether each row comes with the packet that completes it, while the pipe stays open: after the opening one by one."""
    link, framed = made.frames(made.talk())
    data = made.pcap((link, framed))
    done = subprocess.run([program, "capture", "--show", "-"], input=data, capture_output=True)
    rows = [line for line in done.stdout.decode().splitlines(True) if re.match(r"0 +\d", line)]
    # the time of a packet in milliseconds is that of its rows
    due = [sum(round(1000 * float(row.split()[1])) <= at for row in rows) for at, _ in framed]
    with subprocess.Popen([program, "capture", "--show", "-"], stdin=subprocess.PIPE, stdout=subprocess.PIPE) as running:
        running.stdin.write(data[:24])
        found, steps = [], 0
        for k, one in enumerate(framed):
            running.stdin.write(made.pcap((link, [one]))[24:])
            running.stdin.flush()
            if steps or k == len(framed) // 2:
                steps += 1
                found += lines_within(10, running.stdout, due[k] - len(found))
                if found != rows[:due[k]]:
                    running.kill()
                    return False
        running.stdin.close()
        return steps > 3 and len(rows) > 8


def is_told_when_over(program):
    """Whether a report comes with the first packet of any connection four seconds after the end, while the pipe stays open."""
    later = made.Talk().packets[:1]
    later[0].at = 5000
    link, framed = made.frames(made.talk())
    framed += made.frames(later, ends=(("10.0.0.9", 9), made.B))[1]
    with subprocess.Popen([program, "capture", "-"], stdin=subprocess.PIPE, stdout=subprocess.PIPE) as running:
        running.stdin.write(made.pcap((link, framed)))
        running.stdin.flush()
        found = lines_within(5, running.stdout, made.WHOLE.count("\n"))
        running.stdin.close()
        return "".join(found) == made.WHOLE


def is_kept(program):
    """Whether an open connection that is idle is read whole, though 20,000 others come and end meanwhile."""
    idle, half = made.talk(), 30
    for it in idle[half:]:
        it.at += 10 ** 6
    link, framed = made.frames(idle[:half])
    for k in range(20_000):
        brief = made.Talk().say("A", b"?").close("A").packets
        for it in brief:
            it.at += 100 + 20 * k
        framed += made.frames(brief, ends=(("10.1.%d.%d" % divmod(k, 250), 1024 + k), made.B))[1]
    framed += made.frames(idle[half:])[1]
    done = subprocess.run([program, "capture", "-"], input=made.pcap((link, framed)), capture_output=True, timeout=100)
    wanted = made.WHOLE.replace("at 0.057000", "at 1000.057000")
    return done.returncode == 0 and [line for line in done.stdout.decode().split("connection ") if ":51413 > " in line] == [wanted[11:]]


def drawn(program, path, on_terminal):
    """What a run says on standard error, a terminal or a pipe, while its rows are read only after more than a second."""
    ours, theirs = pty.openpty() if on_terminal else os.pipe()
    with subprocess.Popen([program, "capture", "--show", path], stdout=subprocess.PIPE, stderr=theirs) as running:
        os.close(theirs)
        time.sleep(1.2)
        running.stdout.read()
    said = b""
    while select.select([ours], [], [], 1)[0]:
        try:
            more = os.read(ours, 65536)
        except OSError:
            break
        if not more:
            break
        said += more
    os.close(ours)
    return said


def is_drawn(program, folder):
    """Whether a terminal shows how much of a file of over 64 MB is read, and at the end nothing of it; a pipe and a shorter file get nothing."""
    talk, hands = made.Talk(), made.handshakes(reserved="00" * 8)
    talk.say("B", hands[1]).say("A", hands[0] + made.message(b"\x02") * 8000)
    link, framed = made.frames(talk.packets)
    path = keep(folder, "long", made.pcap((link, framed)))
    few = drawn(program, path, True)
    size = os.path.getsize(path)
    # packets of a million zeros, which aren't IP: the file has no memory for them
    with open(path, "r+b") as file:
        for k in range(70):
            file.seek(size + 1000016 * k)
            file.write(struct.pack("<4I", 1000, 0, 1000000, 1000000))
        file.truncate(size + 1000016 * 70)
    many, piped = drawn(program, path, True), drawn(program, path, False)
    os.remove(path)
    line = rb"\r\x1b\[Kcapture: \d+ of %d MB\r" % ((size + 1000016 * 70) // 10 ** 6)
    return bool(re.fullmatch(rb"(%s)+\r\x1b\[K" % line, many)) and not few and not piped


def keep(folder, name, data):
    path = os.path.join(folder, name)
    with open(path, "wb") as file:
        file.write(data)
    return path


def without_rows(text):
    return "".join(line for line in text.splitlines(True) if not re.match(r"\d+ +\d+\.\d{6} [AB] ", line))


def runs_of(words, capture):
    """The words, the bytes of standard input, whether objects are written, and whether rows are that aren't compared."""
    yield [*words, "CAPTURE"], None, False, False
    yield [*words, "-"], capture, False, False
    yield [*words, "--json", "CAPTURE"], None, True, False
    if "--show" not in words:
        yield [*words, "--show", "CAPTURE"], None, False, True
        yield [*words, "--json", "--show", "CAPTURE"], None, True, True


def run(program, paths, words, data=None):
    return subprocess.run([program, "capture", *(paths.get(word, word) for word in words)], input=data, capture_output=True, timeout=100)


def difference(name, given, done, found, wanted):
    """What is wrong with a run; an empty text is right. Wanted are the output, a part of standard error or b"" for none, the status."""
    out, errors, status = wanted
    if found == out and done.returncode == status and (errors in done.stderr if errors else not done.stderr):
        return ""
    return "%s, %s: got\n%.9999s\nexpected\n%.9999s\nstandard error: %s\nstatus: %d" % (
        name, given, found, out, done.stderr, done.returncode)


def names_in(value):
    """The names of the members of an object, and of those in it."""
    if isinstance(value, dict):
        yield from value
        for member in value.values():
            yield from names_in(member)


def undocumented(lines):
    """The names in objects on a line each that docs/COMMANDS.md doesn't have, and that aren't remarks."""
    return sorted({name for line in lines.splitlines() for name in names_in(json.loads(line))} - {*NAMES, *REMARKS})


def report_differences(program, paths, row):
    """What is wrong with each run that writes reports."""
    name, words, capture, *wanted = row
    for given, data, is_json, has_rows in runs_of(words, capture):
        done = run(program, paths, given, data)
        found = done.stdout.decode()
        missing = undocumented(found) if is_json else []
        yield "%s: docs/COMMANDS.md doesn't have %s" % (name, ", ".join(missing)) if missing else ""
        found = text_told(found) if is_json else found
        yield difference(name, given, done, without_rows(found) if has_rows else found, wanted)


def row_differences(program, paths, row):
    """What is wrong with the rows of a capture."""
    name, words, capture, out, _, _ = row
    words = [word for word in words if word != "--show"]
    shown = run(program, paths, [*words, "--show", "CAPTURE"]).stdout.decode()
    objects = text_told(run(program, paths, [*words, "--show", "--json", "CAPTURE"]).stdout.decode())
    yield "" if objects == shown else name + ": the objects of --show say something else than its lines"
    segments = captures.segments_of(capture)
    wanted = captures.item_rows(program, captures.connections(segments), out, segments[0].nanos)
    yield "" if captures.are_in_time(wanted, shown) else name + ": rows have other times\n" + shown
    is_same = judged.is_shown_again(program, streams_in(capture), out, shown)
    yield "" if is_same else name + ": rows are other lines than those of show\n" + shown
    yield "" if is_remarked_again(out, shown) else name + ": the remarks of rows are other ones than those of the report\n" + shown


def streams_in(capture):
    """The streams of a capture, by the words that --stream has for them."""
    is_made = isinstance(capture, made.File)
    return captures.streams_of(captures.connections(captures.segments_of(capture))) if is_made else {}


def stream_differences(program, paths, row):
    """What is wrong with each run that writes a stream. If there is none, it may be said in either way."""
    name, words, capture, out, errors, status = row
    if "--show" in words:
        return
    streams = streams_in(capture) if out else {}
    errors = b"connection" if errors.startswith(b"no BitTorrent") else errors
    for which, stream in (streams or {"0-A": b""}).items():
        for given, data in ([*words, "--stream", which, "CAPTURE"], None), ([*words, "--stream", which, "-"], capture):
            done = run(program, paths, given, data)
            yield difference(name, given, done, done.stdout, (stream, errors, status))
    if streams:
        given = [*words, "--stream", "9-A", "CAPTURE"]
        done = run(program, paths, given)
        yield difference(name, given, done, done.stdout, (b"", errors if b"fault" in errors else b"no connection 9", 3))


# What a report says of a connection of which only a part was read.
PARTIAL = re.compile(r"^    gap at |^  [AB] sent [1-9]\d* bytes and no whole handshake$|not read further", re.M)


def strict_difference(program, paths, row):
    """What is wrong with a run under --strict-status: its status is 4 in place of 0 if the report says that only a part was read."""
    name, words, _, out, errors, status = row
    given = [*words, "--strict-status", "CAPTURE"]
    done = run(program, paths, given)
    strict = 4 if status == 0 and PARTIAL.search(out) else status
    return difference(name, given, done, done.stdout.decode(), (out, errors, strict))


def is_chosen(program, folder):
    """Whether one of three connections is reported, with its number, by each of its ends."""
    capture, lines = made.twice()
    paths, wanted = {"CAPTURE": keep(folder, "three", capture)}, lines[lines.index("connection 2"):]
    found = [run(program, paths, ["--peer", peer, "CAPTURE"]) for peer in ("10.0.0.3", "10.0.0.4", "10.0.0.3:999", "10.0.0.4:80")]
    return all((done.stdout.decode(), done.stderr, done.returncode) == (wanted, b"", 0) for done in found)


def differences(program, folder):
    """What is wrong with each run; an empty text is right."""
    paths = {"TORRENT": keep(folder, "a.torrent", made.TORRENT), "CAPTURE": os.path.join(folder, "capture")}
    for row in made.rows():
        name, _, capture, out, _, status = row
        keep(folder, "capture", capture)
        yield from report_differences(program, paths, row)
        yield from stream_differences(program, paths, row)
        yield strict_difference(program, paths, row)
        if status < 2:
            is_same = judged.is_said_again(program, streams_in(capture), out)
            yield "" if is_same else name + ": check gives other verdicts with these options"
            yield from row_differences(program, paths, row)
    yield "" if is_live(program) else "rows of a pipe don't come with their packets"
    yield "" if is_told_when_over(program) else "a report doesn't come when its connection is over"
    yield "" if is_kept(program) else "an idle connection isn't read whole"
    yield "" if is_drawn(program, folder) else "how much of a file is read"
    yield "" if is_chosen(program, folder) else "--peer reports other connections"
    yield "" if is_gap_placed(program, folder) else "a gap of a side without a byte isn't shown at its connection's first packet"
    yield "" if made.example("refused.pcap") == made.fault()[0] else "examples/refused.pcap isn't the capture of a fault"
    for reason in other_words():
        yield "%s has other words in bt_report than in tools/reasons.json" % reason
    yield from ("the words of a reason: " + text for text in reasons_differ())


def main():
    program = os.path.abspath(sys.argv[1] if len(sys.argv) > 1 else os.path.join(ROOT, "bt_tool"))
    with tempfile.TemporaryDirectory(prefix="capture-tests-") as folder:
        found = list(differences(program, folder))
        # a busy machine may lose packets
        real = is_real_read(program, folder) or is_real_read(program, folder)
    if real is None:
        print("capture: no real capture: tcpdump isn't installed or may not capture")
    else:
        found.append("" if real else "a real capture")
    for text in filter(None, found):
        print("capture: " + text)
    wrong = sum(map(bool, found))
    print("capture: %d of %d as expected" % (len(found) - wrong, len(found)))
    return int(wrong > 0)


if __name__ == "__main__":
    sys.exit(main())
