"""Plays a case: the opening, its steps, and a question that is legal after them."""
import time

from . import faults, wire
from .link import greet_all

# So many seconds a connection that waits for the client's handshake keeps others from being opened.
OPENING = 2.0
# Once nothing has come for so many seconds, the next case that runs by itself may begin.
QUIET = 2.0
# Of a crowd's handshakes one comes in so many seconds, or no more do.
CROWD = 2.0


class Skip(Exception):
    """The case doesn't apply to this client."""


class Play:
    """A case on a connection.

    state: alive (it answered the last question), closed, silent (kept, and nothing answered), open (kept, and not asked).
    """

    def __init__(self, case, link, mode, options):
        self.case, self.link, self.mode, self.options = case, link, mode, options
        self.state, self.start, self.stalled, self.crowd, self.marks = None, 0, False, None, []
        self.kind, self.segment, self.counts, self.again = "auto", None, {}, False

    def fill(self, text):
        return wire.filled(text, {**wire.values(self.link.torrent, self.link), **self.case.values})

    def run(self, others, greeted=lambda: None, waits=lambda: None):
        """Plays the case. Raises Skip.

        `others()` opens a further connection; `greeted()` is called once the client has answered the handshake, or takes long;
        `waits()` once only an answer is waited for.
        """
        self.others, self.greeted, self.waits = others, greeted, waits
        self.opening()
        if self.is_mute():
            return
        self.needs()
        self.start = 0 if self.counts_all else len(self.link.heard.events)
        for word, text in self.case.steps:
            if self.link.end:
                break
            self.step(word, self.fill(text))
        self.asked = len(self.link.heard.events)
        self.state = self.ask()
        if self.state == "alive":
            self.link.until(lambda: False, 0.1)
        if self.link.end:
            self.state = "closed"

    @property
    def counts_all(self):
        """Whether what comes in the opening belongs to the case."""
        return self.case.open.get("handshake") == "no" or self.case.open.get("from") == "start" or self.mode == "magnet"

    # The opening.

    def opening(self):
        link, open_ = self.link, {name: self.fill(value) for name, value in self.case.open.items()}
        link.agree(int(open_.get("reserved", "0000000000100004"), 16))
        if open_.get("handshake") == "no":
            link.first = open_.get("first") == "sent"
            self.greeted()
            return
        link.send(wire.handshake(link.reserved, link.torrent.hash, link.peer_id))
        if not self.is_greeted():
            return
        if open_.get("ext") != "no" and link.both & wire.EXTENSIONS:
            self.extended_handshake()
        self.first(open_.get("first", "none" if self.mode == "seed" else "all"))
        if link.both & wire.EXTENSIONS:
            link.until(lambda: link.heard.opened, self.options.patience)

    def is_greeted(self):
        """Waits for the client's handshake, and says whether it came."""
        link, hung = self.link, self.options.hung
        seconds = self.options.patience * (1 if hung else 2)
        first = 0 if hung else min(OPENING, seconds)
        if hung:
            self.waits()
        came = link.until(lambda: link.heard.theirs is not None, first)
        self.greeted()
        came = came or link.until(lambda: link.heard.theirs is not None, seconds - first)
        if not link.end:
            self.options.greeted(came)
        return came

    def is_mute(self):
        """Whether the case ends, since this handshake got no answer and those before it got none."""
        if self.case.open.get("handshake") == "no" or self.link.heard.theirs is not None or self.link.end or not self.options.hung:
            return False
        kinds = [text for word, text in self.case.steps if word == "ping"]
        self.state = "open" if kinds else "silent"
        return True

    def extended_handshake(self):
        pairs = {b"m": {b"ut_metadata": wire.METADATA_ID, b"lt_donthave": wire.DONTHAVE_ID}, b"reqq": 250, b"v": b"peertest"}
        if self.mode == "magnet":
            pairs[b"metadata_size"] = len(self.link.torrent.info)
        self.link.extended = True
        self.link.send(wire.message(20, b"\0" + faults.encode(pairs)))

    def first(self, what):
        """Says which pieces this end has, if anything has to be said."""
        fast = self.link.both & wire.FAST
        if what == "no":
            return
        self.link.first = True
        if what == "some":
            self.link.send(wire.line(self.link.torrent, "bitfield some"))
        elif what == "all":
            self.link.send(wire.message(14) if fast else wire.line(self.link.torrent, "bitfield all"))
        elif fast:
            self.link.send(wire.message(15))

    def needs(self):
        """Raises Skip if the client lacks what the case needs."""
        link, heard = self.link, self.link.heard
        if "accepts" in self.case.need and hasattr(link, "process"):
            raise Skip("the client has no " + NEEDS["accepts"])
        if heard.theirs is None or link.end:
            return
        if "af" in self.case.need:
            link.until(lambda: bool(heard.fast_set), 1.5)
        has = {"accepts": True, "fast": heard.theirs & wire.FAST, "nofast": not heard.theirs & wire.FAST,
               "ext": heard.theirs & wire.EXTENSIONS, "um": heard.um, "dont": heard.dont, "af": heard.fast_set,
               "data": link.torrent.data is not None or link.dry}
        for need in self.case.need:
            if not has[need] and not link.end:
                raise Skip("the client has no " + NEEDS[need] if need != "data" else "needs --data")

    # The steps.

    def step(self, word, text):
        if word in ("send", "raw", "ext", "um", "rep", "range"):
            self.put(wire.step_bytes(self.link.torrent, self.link, word, text))
            self.link.extended |= word == "ext"
        else:
            getattr(self, "step_" + word)(text)

    def put(self, data):
        if self.segment is not None:
            self.segment += data
        elif not self.link.send(data, 30) and not self.link.end:
            self.stalled = True

    def step_refused(self, text):
        """Notes where the rules refuse the stream: `refused REASON [OFFSET]`, from the next byte on, or `end`."""
        reason, _, offset = text.partition(" ")
        if reason != "-":
            begin = len(self.link.sent) + len(self.segment or b"")
            self.marks.append((reason, "end" if offset == "end" else begin + sum(map(int, (offset or "0").split("+")))))

    def step_first(self, text):
        self.first(text or ("none" if self.mode == "seed" else "all"))

    def step_bytewise(self, text):
        word, _, rest = text.partition(" ")
        data = wire.step_bytes(self.link.torrent, self.link, word, rest)
        for at in range(len(data)):
            if self.link.end:
                return
            self.link.send(data[at:at + 1])
            self.link.sleep(0.002)

    def step_segment(self, text):
        if text == "end":
            data, self.segment = self.segment, None
            self.put(data)
        else:
            self.segment = b""

    def step_pause(self, text):
        self.link.pause(float(text))

    def step_wait(self, text):
        """`wait PATTERN [xN] [@S]`: until N events fit, for S seconds."""
        words = text.split()
        seconds = float(words.pop()[1:]) if words[-1][0] == "@" else self.options.patience
        least = int(words.pop()[1:]) if words[-1][0] == "x" and words[-1][1:].isdigit() else 1
        # (a client that needs pieces may say so before the opening has ended)
        start = 0 if words == ["interested"] and self.case.open.get("first") != "none" else self.start
        self.link.until(lambda: self.link.heard.count(" ".join(words), start) >= least, self.options.at_most(seconds))

    def step_unchoked(self, _):
        self.link.send(wire.message(2))
        if not self.is_unchoked() and not self.link.end and not self.link.dry:
            self.options.unchoked(False)
            raise Skip("the client didn't unchoke in %g s" % self.options.unchoke_wait())
        self.options.unchoked(True)
        self.start = len(self.link.heard.events)

    def is_unchoked(self):
        """Waits for the client's unchoke; not so long any more once others have waited in vain."""
        begin, heard = time.monotonic(), self.link.heard
        self.link.until(lambda: heard.unchoked or time.monotonic() - begin >= self.options.unchoke_wait(), self.options.unchoke)
        return heard.unchoked

    def step_noread(self, text):
        self.link.sleep(float(text))

    def step_crowd(self, text):
        """So many more connections, each with a handshake, which stay open until the case ends."""
        crowd = []
        try:
            for _ in range(0 if self.link.dry else int(text)):
                crowd.append(self.others())
                crowd[-1].agree(0)
                crowd[-1].send(wire.handshake(0, self.link.torrent.hash, crowd[-1].peer_id))
        except OSError:
            pass
        greet_all(crowd, CROWD)
        self.crowd = sum(other.heard.theirs is not None for other in crowd)

    def step_fin(self, _):
        self.link.fin()

    def step_ping(self, text):
        self.kind = text

    def step_serve(self, text):
        how, seconds = text.split()
        self.counts["blocks asked for"] = faults.serve(self.link, how, self.options.at_most(float(seconds)))

    def step_meta(self, text):
        how, seconds = text.split()
        self.counts["metadata asked for"] = faults.give(self.link, how, self.options.at_most(float(seconds)))

    # The question at the end.

    def ask(self):
        link = self.link
        if link.end:
            return "closed"
        if self.kind.startswith("read"):
            link.pause(self.options.at_most(float(self.kind.split()[1])))
            return "closed" if link.end else "open"
        if self.kind == "none":
            return "open"
        if not link.until(lambda: link.heard.theirs is not None, self.options.patience):
            return "closed" if link.end else "silent"
        if link.both & wire.EXTENSIONS:
            link.until(lambda: link.heard.opened, 1)
        asked = False
        for question in (self.ask_metadata, self.ask_block, self.ask_unchoked):
            self.again = asked
            answer = question()
            if answer or link.end:
                return "closed" if link.end and not answer else "alive"
            asked |= answer is False
        return "silent" if asked else "open"

    def answered(self, patterns, start):
        """Whether one of the patterns comes. Its event belongs to the question, and not to the case."""
        events = self.link.heard.events
        # After a flood the client may still be reading.
        seconds = self.options.at_most(5 * self.options.patience) if self.case.alone else self.options.patience
        seconds = self.options.later_wait(seconds) if self.again else seconds
        came = self.comes(lambda: self.link.heard.count(patterns, start) > 0, seconds)
        if self.again and not self.link.end:
            self.options.later_answered(came)
        if not came:
            return False
        for at in range(start, len(events)):
            if self.link.heard.fits(patterns, events[at][1]):
                events[at] = (events[at][0], "(asked) " + events[at][1])
                break
        return True

    def comes(self, holds, seconds):
        """Waits until it holds. The next case may begin when nothing comes any more, unless this one has a crowd."""
        limit = time.monotonic() + seconds
        if self.crowd is None and self.case.alone:
            self.link.until(lambda: holds() or self.link.idle() >= QUIET, seconds)
            if not holds() and not self.link.end:
                self.waits()
        return self.link.until(holds, limit - time.monotonic())

    def ask_metadata(self):
        """A client with the Extension Protocol answers a metadata request by data or a reject (BEP 9)."""
        link = self.link
        if not (link.both & wire.EXTENSIONS and link.heard.um):
            return None
        if not link.extended or self.case.id.startswith("ex."):
            self.extended_handshake()
        start = len(link.heard.events)
        link.send(wire.message(20, bytes([link.heard.um]) + wire.QUESTION))
        return self.answered("metadata-data* 0 *|metadata-reject* 0", start)

    def ask_block(self):
        """A client with the Fast Extension answers a block request by the block or a reject (BEP 6)."""
        link = self.link
        if not link.both & wire.FAST:
            return None
        if not link.first:
            self.first("none")
        block, start = "%d 1024 512" % (link.torrent.pieces - 1), len(link.heard.events)
        link.send(wire.line(link.torrent, "request " + block))
        return self.answered("reject %s|piece %s*" % (block, block), start)

    def ask_unchoked(self):
        """A seed without both extensions answers a request once it has unchoked this end."""
        link = self.link
        if self.mode != "seed" or link.both & wire.FAST:
            return None
        link.send(wire.message(2))
        if not self.is_unchoked() and not link.dry:
            self.options.unchoked(False)
            return None
        block, start = "%d 1024 512" % (link.torrent.pieces - 1), len(link.heard.events)
        link.send(wire.line(link.torrent, "request " + block))
        return self.answered("piece %s*" % block, start)


NEEDS = {"fast": "Fast Extension", "nofast": "way without the Fast Extension", "ext": "Extension Protocol", "um": "ut_metadata",
         "dont": "lt_donthave", "af": "allowed fast set", "data": "data",
         "accepts": "part in this, since it opens the connection"}
