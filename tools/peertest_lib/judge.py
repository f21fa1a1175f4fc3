"""Says what a client's answer to a case is worth.

pass: as the sentence asks. fail: departs from a sentence of the chosen level, died, fell silent where it has to answer, or sent bytes
that the rules refuse or that aren't the torrent's. note: departs from a weaker sentence, or from good sense. info: no sentence
decides, so it only says what came. skip: the case doesn't apply, and why. error: the suite itself is at fault.
"""
import collections

from . import heard, proved, wire

RESULTS = ("pass", "note", "info", "fail", "skip", "error")
REACH = {"must": ("must",), "should": ("must", "should"), "all": ("must", "should", "may", "own")}
QUIET = ("(asked)", "keep-alive", "have ", "allowed-fast ", "ext-handshake")
ENDS = {"died": "kept until the client's death,"}
STATES = {"alive": "kept, answers", "silent": "kept, answers nothing", "open": "kept"}


def holds(condition, play, words):
    """Whether a condition of a verdict holds of the end's state and of what came."""
    name, _, rest = condition.partition(" ")
    state = play.state
    if name == "any":
        return True
    if name in ("closed", "silent", "open"):
        return state == name
    if name == "crowd":
        return play.crowd is not None and play.crowd >= int(rest)
    if name == "alive":
        # A client that can't be asked counts as alive if it keeps the connection.
        return state == "alive" or state == "open" and play.kind == "auto"
    if name == "repeats":
        patterns, _, number = rest.rpartition(" ")
        again = collections.Counter(word for word in words if heard.Heard.fits(patterns, word))
        return max(again.values(), default=0) >= int(number)
    patterns, _, number = rest.rpartition(" ") if name in ("count", "least", "most") else (rest, "", "1")
    count = sum(heard.Heard.fits(patterns, word) for word in words)
    return {"got": count > 0, "no": count == 0, "count": count == int(number), "least": count >= int(number),
            "most": count <= int(number)}[name]


def verdict_of(play, words):
    """The first verdict whose conditions hold, and its text; fail if none does."""
    for verdict, conditions in play.case.verdicts:
        if all(holds(condition.strip(), play, words) for condition in play.fill(conditions).split(",")):
            return verdict, conditions
    return "fail", ""


def came(words):
    """What came, in short."""
    told = ["handshake" if word.startswith("handshake ") else word for word in words if not word.startswith(QUIET)]
    counts = collections.Counter(told)
    told = [word + (" x%d" % count if count > 1 else "") for word, count in counts.items()]
    return told[:4] + (["%d more kinds" % (len(told) - 4)] if len(told) > 4 else [])


def said(play, words):
    link = play.link
    end = "%s after %d bytes of ours" % (ENDS.get(link.end, link.end), len(link.sent)) if play.state == "closed" else STATES[play.state]
    told = came(words) + [end] + ["%d %s" % (count, name) for name, count in play.counts.items()]
    if play.crowd is not None:
        told.append("%d of the other connections got a handshake" % play.crowd)
    return told + (["it stopped reading"] if play.stalled else [])


def judged(play, level):
    """The result of a case that was played, and what is said of it."""
    link, case = play.link, play.case
    start = 0 if play.counts_all else play.start
    words = [word for _, word in link.heard.events[start:]]
    if play.state == "closed" and link.end == "closed":
        link.heard.finish()
    result, rule = verdict_of(play, words)
    told = said(play, words)
    if result == "fail" and not rule and play.state == "open" and play.kind == "auto":
        result, told = "skip", told + ["it never unchoked, so nothing is known"]
    if play.stalled and result == "pass":
        result = "note"
    if result == "note" and case.level in REACH[level]:
        result = "fail" if level != "must" else "note"
    faults = [] if case.open.get("heard") == "any" else link.heard.faults
    faults = [fault for fault in faults if not fault.startswith(heard.MILD) or case.id == "own.first"]
    if faults or link.heard.false_bytes:
        told += ["it sent what the rules refuse: " + fault for fault in faults[:3]]
        told += ["it sent FALSE BYTES"] * (link.heard.false_bytes > 0)
        result = "fail"
    return {"result": result, "rule": rule, "said": told, "state": play.state, "events": link.heard.events, "start": start}


def dialled(link, result):
    """What the end of a client that was started for the case says."""
    if link.status is not None and (link.status < 0 or link.status > 127):
        return "fail", ["THE CLIENT DIED (status %d)" % link.status]
    written = link.written()
    if link.status == 0 and written and written not in (link.torrent.info, b"d4:info" + link.torrent.info + b"e"):
        return "fail", ["it wrote FALSE METADATA"]
    words = ["%s" % link.status if link.status is not None else "killed after 3 s"] + link.said.splitlines()[-1:]
    return result, ["its status: " + " ".join(words)]


def verdict_of_stream(stream, torrent, reserved=wire.FAST | wire.EXTENSIONS, metadata_id=2):
    """What the strict rules say of a stream that an end with these values gets: the reason and its offset, or None."""
    bt = proved.load()
    own = bt.Own(reserved=reserved, info_hash=torrent.hash, pieces=torrent.pieces, metadata_id=metadata_id, strict=True)
    try:
        bt.check(bytes(stream), own)
    except bt.Refused as refused:
        return refused.name, refused.at
    return None


def stated(play):
    """What the case says of its stream: the reason and its offset, or None."""
    if not play.marks:
        return None
    reason, at = play.marks[0]
    return reason, len(play.link.sent) if at == "end" else at


def kept_word(play):
    """Whether the stream that was sent is what the case says, as far as the client took it."""
    link = play.link
    # (what answers requests isn't sent to a client that has none)
    if 0 in play.counts.values():
        return True
    if play.link.both != play.link.reserved & (wire.FAST | wire.EXTENSIONS) or not link.heard.um or link.end or play.stalled:
        return True
    found = verdict_of_stream(link.sent, link.torrent, link.heard.theirs, link.heard.um)
    return found == stated(play)
