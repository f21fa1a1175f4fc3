"""A case as a shell script that makes its stream by `bt_tool pack` and sends it by tools/talk."""
from . import proved, suite


def printf(data):
    """A command that writes the bytes; a long run of one byte is made by head and tr."""
    lines, at = [], 0
    while at < len(data):
        run = len(data) - at - len(data[at:].lstrip(data[at:at + 1]))
        if run >= 64:
            lines.append("head -c %d /dev/zero | tr '\\0' '\\%o'" % (run, data[at]))
            at += run
            continue
        end = at
        while end < len(data) and end - at < 40 and not (end + 64 <= len(data) and len(set(data[end:end + 64])) == 1):
            end += 1
        lines.append("printf '%s'" % "".join("\\%03o" % byte for byte in data[at:end]))
        at = end
    return lines


def spelled(item, bt):
    """The line of `pack` of an item."""
    hexed = (item.body or b"").hex() or "-"
    if item.id == bt.HANDSHAKE:
        return "handshake %016x %s %s" % (item.reserved, item.info_hash.hex(), item.peer_id.hex())
    if item.id == bt.EXTENDED:
        return "extended %d %s" % (item.extended_id, item.body.hex() or "-")
    if item.id == bt.BITFIELD:
        return "bitfield " + hexed
    if item.id == bt.PIECE:
        return "piece %d %d %s" % (item.index, item.begin, hexed)
    if item.id == bt.PORT:
        return "port %d" % item.port
    numbers = [number for number in (item.index, item.begin, item.length) if number is not None]
    if item.name == "unknown":
        return "unknown %d %s" % (item.id, hexed)
    return " ".join([item.name] + ["%d" % number for number in numbers])


def parts(stream):
    """The lines that `pack` takes with its defaults, and the bytes after them."""
    bt = proved.load()
    lines, end = [], 0
    try:
        for item in bt.read(stream, bt.Own()):
            lines.append(spelled(item, bt))
            end = item.start + len(item.data)
    except bt.Refused:
        pass
    return lines, stream[end:]


def script(case, torrent, mode):
    """The script, as text."""
    stream, play = suite.dry(case, torrent, mode)
    lines, rest = parts(stream)
    text = ["#!/bin/sh", "# %s: %s" % (case.id, case.title), "# %s (paraphrased)" % case.rule]
    if any(word in ("wait", "pause", "unchoked", "bytewise", "noread", "fin", "crowd") for word, _ in case.steps):
        text.append("# The suite also waits, or cuts the bytes, where its steps say so; this sends them at once.")
    if any(word in ("serve", "meta") for word, _ in case.steps):
        text.append("# The blocks answer the client's first requests, which this doesn't wait for.")
    text += ["# usage: sh THIS HOST PORT, at the top of the repository", "set -e", "{"]
    if lines:
        text += ["./bt_tool pack <<'END'"] + lines + ["END"]
    text += printf(rest)
    text += ["} > stream.bin", '[ $# -lt 2 ] || tools/talk "$@" < stream.bin > answer.bin']
    return "\n".join(text) + "\n", stream
