"""What the client sends, read by the proved reader, as lines of `show`.

Each byte goes through the reader under the strict rules. A message that it refuses is noted as a fault of the client, and
reading goes on after it if its end is known. Two answers aren't noted, since the standard asks for them and the rules refuse
them: a reject of a request whose index is beyond the torrent (BEP 6), and a metadata reject that repeats a number which no
block has (BEP 9).
"""
import collections
import fnmatch
import struct

from . import proved, wire
from .torrent import wholly

LIMIT = 1048576
HOPELESS = ("BadProtocol", "WrongInfoHash", "TooLong", "StreamFull")
# A client that never says which pieces it has breaks one rule, and not one in each case.
MILD = ("Missing",)
# The names of messages that have only numbers, and how many bytes these have.
NAMES = {number: (name, {4: 4, 13: 4, 17: 4, 6: 12, 8: 12, 16: 12}.get(number, 0)) for name, number in wire.NUMBERS.items()}
KINDS = {0: "request", 1: "data", 2: "reject"}


class Heard:
    def __init__(self, torrent, reserved, sent):
        self.torrent, self.sent, self.bt = torrent, sent, proved.load()
        self.own = self.bt.Own(reserved=reserved, info_hash=torrent.hash, pieces=torrent.pieces, metadata_id=wire.METADATA_ID,
                               strict=True, limit=LIMIT)
        self.feed, self.base, self.resume, self.over = self.bt.Feed(self.own), 0, None, False
        self.got, self.head, self.order = bytearray(), b"", b""
        self.faults, self.events = [], []
        self.theirs = self.um = self.dont = self.size = None
        self.opened = self.unchoked = False
        self.peer_id, self.fast_set = b"", []
        self.requests, self.metadata_requests = collections.deque(), collections.deque()
        self.false_bytes = 0

    def push(self, data, when):
        """Reads on, and returns how many events came."""
        before = len(self.events)
        self.got += data
        todo = bytes(data)
        while todo and not self.over:
            todo = self.after_skip() if self.resume is not None else self.read(todo, when)
        return len(self.events) - before

    def finish(self):
        """Whether the stream may end here; a fault is noted if not."""
        if self.over or self.resume is not None or not self.got:
            return
        try:
            list(self.feed.finish())
        except self.bt.Refused as refused:
            self.faults.append("%s at %d" % (refused.name, self.base + refused.at))

    def read(self, todo, when):
        try:
            for item in self.feed.push(todo):
                self.note(item, when)
            return b""
        except self.bt.Refused as refused:
            return self.refused(refused, when)

    def refused(self, refused, when):
        start = self.base + self.feed.start
        self.reason, self.at, self.when = refused.name, self.base + refused.at, when
        if refused.name in HOPELESS or not self.head:
            self.faults.append("%s at %d" % (refused.name, self.at))
            self.over = True
            return b""
        self.resume = start, start + 4 + int.from_bytes(self.got[start:start + 4], "big")
        return self.after_skip()

    def after_skip(self):
        """Goes on after the refused message once it is there; returns the bytes after it."""
        start, end = self.resume
        if len(self.got) < end:
            return b""
        words, lawful = self.lenient(bytes(self.got[start + 4:end]))
        self.events.append((self.when, words))
        if not lawful:
            self.faults.append("%s at %d (%s)" % (self.reason, self.at, words))
        self.feed, self.resume = self.bt.Feed(self.own), None
        again = self.head + (self.order or bytes(4))
        if self.reason == "Missing":
            again = self.head + (wire.message(15) if self.theirs & wire.FAST else bytes(4))
            self.order = again[68:]
        list(self.feed.push(again))
        self.base = end - len(again)
        return bytes(self.got[end:])

    def lenient(self, body):
        """The words of a refused message, and whether it is an answer that the standard asks for."""
        number, fields = body[0], body[1:]
        if number in NAMES and len(fields) == NAMES[number][1] and self.reason in ("BadIndex", "Missing", "Late"):
            numbers = ["%d" % value for value in struct.unpack(">%dI" % (len(fields) // 4), fields)]
            lawful = number == 16 and self.reason == "BadIndex" and wire.message(6, fields) in self.sent
            return " ".join([NAMES[number][0]] + numbers), lawful
        if number == 20 and fields:
            pairs, rest = wholly(fields[1:])
            kind, piece = KINDS.get(pairs.get(b"msg_type")), pairs.get(b"piece")
            if fields[0] == wire.METADATA_ID and kind and isinstance(piece, int):
                asked = b"5:piecei%de" % piece in self.sent
                odd = not 0 <= piece < 1 << 32
                return "metadata-%s %d%s" % (kind, piece, " -" * (kind == "data")), kind == "reject" and odd and asked
        return "refused id=%d length=%d" % (number, len(body)), False

    def note(self, item, when):
        """Keeps an item's words and what it changes."""
        if item.name not in ("handshake", "keep-alive", "port", "unknown") and item.extended_id is None and not self.order:
            self.order = item.data
        self.events.append((when, self.words(item)))

    def words(self, item):
        name, bt = item.name, self.bt
        if item.id == bt.HANDSHAKE:
            self.head, self.theirs, self.peer_id = item.data, item.reserved, item.peer_id
            return "handshake %016x %s" % (item.reserved, item.peer_id.hex())
        if item.id == bt.EXTENDED:
            return self.extended(item)
        if item.id in (bt.CHOKE, bt.UNCHOKE):
            self.unchoked = item.id == bt.UNCHOKE
        if item.id == bt.ALLOWED_FAST:
            self.fast_set.append(item.index)
        if item.id in (bt.REQUEST, bt.CANCEL, bt.REJECT):
            if item.id == bt.REQUEST:
                self.requests.append((item.index, item.begin, item.length))
            return "%s %d %d %d" % (name, item.index, item.begin, item.length)
        if item.id == bt.PIECE:
            return "piece %d %d %d" % (item.index, item.begin, len(item.body)) + self.content(item)
        if item.id in (bt.HAVE, bt.SUGGEST, bt.ALLOWED_FAST):
            return "%s %d" % (name, item.index)
        if item.id == bt.BITFIELD:
            return "bitfield %d" % len(item.body)
        return "port %d" % item.port if item.id == bt.PORT else name

    def content(self, item):
        """Says whether a block's bytes are those of the torrent."""
        if self.torrent.data is None or self.torrent.block(item.index, item.begin, len(item.body)) == item.body:
            return ""
        self.false_bytes += 1
        return " FALSE"

    def extended(self, item):
        bt, kind = self.bt, item.kind
        if kind == bt.EXT_HANDSHAKE:
            self.opened = True
            names = wholly(item.body)[0].get(b"m", {})
            self.um = self.um if item.ut_metadata is None else item.ut_metadata or None
            self.dont = (names.get(b"lt_donthave") or None) if isinstance(names, dict) else None
            self.size = item.metadata_size
            told = ["-" if value is None else value for value in (item.metadata_size, item.ut_metadata)]
            return "ext-handshake size=%s ut_metadata=%s" % tuple(told)
        if kind == bt.EXT_RAW:
            return self.raw(item)
        if kind in (bt.METADATA_REQUEST, bt.METADATA_REJECT):
            if kind == bt.METADATA_REQUEST:
                self.metadata_requests.append(item.piece)
            return "%s %d" % (item.name, item.piece)
        if kind == bt.METADATA_DATA:
            words = "metadata-data %d %d %d" % (item.piece, item.total_size, len(item.rest))
            return words + self.block(item.piece, item.total_size, item.rest)
        return item.name

    def raw(self, item):
        """A message under an id that this end doesn't have now, but may have told in another extended handshake."""
        pairs, rest = wholly(item.body)
        kind, piece = KINDS.get(pairs.get(b"msg_type")), pairs.get(b"piece")
        if kind is None or not isinstance(piece, int):
            return "extended %d %d" % (item.extended_id, len(item.body))
        words = "metadata-%s@%d %d" % (kind, item.extended_id, piece)
        if kind == "request":
            self.metadata_requests.append(piece)
        return words + (" %s %d" % (pairs.get(b"total_size"), len(rest)) + self.block(piece, pairs.get(b"total_size"), rest)
                        if kind == "data" else "")

    def block(self, piece, total, rest):
        if total == len(self.torrent.info) and self.torrent.metadata(piece) == rest:
            return ""
        self.false_bytes += 1
        return " FALSE"

    @staticmethod
    def fits(patterns, words):
        """Whether the words fit one of the patterns, which `|` parts."""
        return any(fnmatch.fnmatchcase(words, pattern.strip()) for pattern in patterns.split("|"))

    def count(self, patterns, start=0):
        """How many events fit one of the patterns."""
        return sum(self.fits(patterns, words) for _, words in self.events[start:])
