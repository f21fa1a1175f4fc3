"""What reports of `bt_tool capture` say of streams, beside what `check` and `show` say of them: for tests/capture.py and tests/captures.py."""
import re
import subprocess

HELLO, HANDSHAKE = b"\x13BitTorrent protocol", 68
# The verdicts under both rule sets, and the options that describe the receiver.
VERDICTS = re.compile(r"^    free (.*)\n(?:    why .*\n)?    bep  (.*)\n(?:    why .*\n)?    options (.*)$", re.M)
# A row on an item or a refusal: connection, seconds, side, offset and words, remarks.
ROW = re.compile(r"^(\d+) +(\d+\.\d{6}) ([AB]) (\d+ (?!\().*?)(?:  \(([a-z, ]+)\))?$", re.M)


def judged_in(streams, out):
    """The streams with a whole handshake: the words of `--stream`, the bytes, and both verdicts and the options that a report has."""
    judged = [(which, it) for which, it in streams.items() if len(it) >= HANDSHAKE and it.startswith(HELLO)]
    return [(*one, *said) for one, said in zip(judged, VERDICTS.findall(out), strict=True)]


def unnoted(words):
    """A verdict or options without the note after them."""
    return re.sub(r" \(.*\)$", "", words)


def lines_by(program, command, stream, options, rules="free"):
    """What a command says of a stream, for a receiver with the options of a report."""
    words = [program, command, "--rules", rules, *unnoted(options).split()]
    return subprocess.run(words, input=stream, capture_output=True).stdout.decode().splitlines()


def is_said_again(program, streams, out):
    """Whether `check` gives the verdicts of a report on the streams that were sent, with the options that the report has."""
    for _, stream, free, bep, options in judged_in(streams, out):
        if [lines_by(program, "check", stream, options, rules) for rules in ("free", "bep")] != [[unnoted(free)], [unnoted(bep)]]:
            return False
    return True


def shown_lines(program, streams, out):
    """The lines of `show` on the items of each stream, and the refusal if it is no cut, by the words of `--stream`."""
    found = {}
    for which, stream, free, _, options in judged_in(streams, out):
        at = re.match(r"refused message=\d+ at=(\d+) \w+$", free)
        found[which] = lines_by(program, "show", stream, options)[:-1], ["%s %s" % (at.group(1), free)] if at else []
    return found


def rows_of(shown):
    """The rows on items and refusals, by the words of `--stream`: seconds, words, remarks."""
    found = {}
    for number, seconds, side, words, remarks in ROW.findall(shown):
        found.setdefault("%s-%s" % (number, side), []).append((seconds, words, remarks.split(", ")))
    return found


def is_shown_again(program, streams, out, shown):
    """Whether the rows are the lines of `show` on the streams that were sent."""
    wanted = {which: items + refusal for which, (items, refusal) in shown_lines(program, streams, out).items()}
    return {which: [words for _, words, _ in rows] for which, rows in rows_of(shown).items()} == wanted
