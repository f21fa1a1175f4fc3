"""The metadata of a torrent, from the first of several peers that gives it."""
from __future__ import annotations

import selectors
import socket
import time
from collections import deque
from typing import Any, Callable, Deque, Iterable, List, NamedTuple, Optional, Set, Tuple

from ._end import End, Heard
from ._peers import CHUNK, CLOSED, HOPELESS, IN_TIME, ONE_AT_A_TIME, OTHER, Address, FetchError, see_size
from ._names import Event
from ._values import Refused

# Who hears of a connection that ended without the metadata: the peer, and why.
Failed = Callable[[Address, Exception], None]
# Seconds that a peer may make no progress while addresses wait that weren't dialled; and until a byte is moved.
_LATE, _CONNECT = 0.5, 5.0
# How often a fetch may begin anew on one connection, since the peer announces another size; and how often other metadata may come.
_RESTARTS, _MISMATCHES = 2, 2
_WINDOW = 8
# From how many waiting bytes on an end handles nothing.
_BUSY = 1 << 20
_PROGRESS = Event.OPENED, Event.BLOCK, Event.REJECTED, Event.FETCHED, Event.MISMATCHED
_NOT_READY = BlockingIOError, InterruptedError


class Target(NamedTuple):
    """What the program calls a peer, and one of its addresses as a socket takes it."""

    name: Address
    family: int
    address: Any


def targets(peers: Iterable[Tuple[Address, Tuple[str, int]]], failed: Failed) -> List[Target]:
    """Returns all addresses of the peers, whose names are looked up."""
    found: List[Target] = []
    for name, (host, port) in peers:
        try:
            found += [Target(name, it[0], it[4]) for it in socket.getaddrinfo(host, port, type=socket.SOCK_STREAM)]
        except (OSError, UnicodeError) as why:
            failed(name, why)
    return found


class _Visit:
    """A connection to an address, and what its peer has told."""

    def __init__(self, number: int, sock: socket.socket, end: End, most: int, patience: float) -> None:
        self.number, self.sock, self._end, self._most, self._patience = number, sock, end, most, patience
        self.heard = time.monotonic()  # when the fetch made progress last
        self._has_moved = self._lacks = False
        self._is_flushed, self._restarts = True, 0

    def wanted(self) -> int:
        """Returns what the socket is to be ready for."""
        waiting = self._end._waiting()
        return (selectors.EVENT_READ if waiting < _BUSY else 0) | (selectors.EVENT_WRITE if waiting else 0)

    def over(self) -> float:
        """Returns when the patience is over, if nothing comes."""
        return self.heard + (self._patience if self._has_moved else min(self._patience, _CONNECT))

    def silence(self) -> Exception:
        """Returns why it ends once the patience is over."""
        if not self._has_moved:
            return TimeoutError("the peer isn't reached in time")
        if self._lacks:
            return FetchError("the peer announced no id for ut_metadata, or no size")
        return TimeoutError("the peer made no progress for %g seconds" % self._patience)

    def send(self) -> None:
        """Sends what waits, as much as the socket takes now."""
        data = self._end.outgoing()
        while data:
            try:
                n = self.sock.send(data)
            except _NOT_READY:
                break
            self._has_moved = True
            self._end.sent(n)
            data = self._end.outgoing()
        self._is_flushed = not data

    def _received(self) -> bytes:
        try:
            data = self.sock.recv(CHUNK)
        except _NOT_READY:
            return b""
        if not data:
            raise FetchError(CLOSED)
        self._has_moved = True
        return data

    def go_on(self, is_readable: bool) -> Optional[bytes]:
        """Moves what can be moved, and returns the metadata if that is there. Raises why the peer doesn't give it."""
        self.send()
        for heard in self._end.receive(self._received() if is_readable and self._end._waiting() < _BUSY else b""):
            if heard.event == Event.FETCHED:
                return self._end.metadata
            self._heed(heard)
        if self._end.is_hopeless:
            raise FetchError(HOPELESS)
        self.send()
        return None

    def _heed(self, heard: Heard) -> None:
        """Acts on what the peer said."""
        event, begins = heard.event, heard.begins
        if event == Event.OPENED:
            if (heard.item.peer_id or b"").startswith(ONE_AT_A_TIME):
                self._end.set_window(1)
            self.send()
        elif event == Event.ANNOUNCED:
            see_size(heard.size, self._most)
            self._lacks = heard.id is None or self._end.progress is None
            begins = begins or self._restarted(heard.size)
        elif event == Event.MISMATCHED and self._end.mismatches >= _MISMATCHES:
            raise FetchError(OTHER)
        elif event == Event.PIECE:
            raise FetchError("the peer sent a block of a piece, which nobody asked for")
        if begins or event in _PROGRESS:
            self.heard = time.monotonic()

    def _restarted(self, size: Optional[int]) -> bool:
        """Begins anew if the peer announces another size than that of the blocks that are held, and returns whether it did."""
        progress = self._end.progress
        if size is None or progress is None or size == progress.size or self._restarts == _RESTARTS:
            return False
        queued = self._end._waiting()
        try:
            self._end.begin(size)
        except ValueError:
            return False
        # the requests of the other size aren't sent, if no message was sent in part
        if self._is_flushed:
            self._end.sent(queued)
        self._restarts += 1
        return True


class _Place:
    """An end with the blocks that it holds, and its connection, if it has one."""

    def __init__(self, end: End) -> None:
        self.end = end
        self.visit: Optional[_Visit] = None
        self.wanted = 0


class Race:
    """A fetch from several addresses, from as many at the same time as there are ends.

    The addresses come in order. One that failed comes again once, after all others.
    """

    def __init__(self, found: List[Target], ends: List[End], most: int, patience: float, failed: Failed) -> None:
        self._targets, self._most, self._patience, self._failed = found, most, patience, failed
        self._places = [_Place(end) for end in ends]
        self._unseen: Deque[int] = deque(range(len(found)))
        self._back: Deque[int] = deque()
        self._again: Set[int] = set()
        self._selector = selectors.DefaultSelector()

    def __enter__(self) -> Race:
        return self

    def __exit__(self, *_: Any) -> None:
        for place in self._places:
            if place.visit:
                place.visit.sock.close()
            place.end.close()
        self._selector.close()

    def run(self, until: float) -> Optional[bytes]:
        """Returns the metadata, or None if no address gives it by this time."""
        while time.monotonic() < until:
            for place in self._places:
                self._fill(place)
            visits = [it.visit for it in self._places if it.visit]
            if not visits:
                return None
            for key, mask in self._selector.select(self._moment(visits, until)):
                found = self._go_on(key.data, mask)
                if found is not None:
                    return found
            self._drop()
        for place in self._places:
            if place.visit:
                self._leave(place, TimeoutError(IN_TIME))
        return None

    def _moment(self, visits: List[_Visit], until: float) -> float:
        """Returns the seconds until a connection ends, if nothing comes."""
        ends = min([it.over() for it in visits] + [it.heard + _LATE for it in visits if self._unseen])
        return max(min(ends, until) - time.monotonic(), 0)

    def _take(self) -> Optional[int]:
        """Returns the number of the next address."""
        if self._unseen:
            return self._unseen.popleft()
        if not self._back:
            return None
        number = self._back.popleft()
        self._again.add(number)
        return number

    def _fill(self, place: _Place) -> None:
        """Connects a free place to the next address that can be dialled."""
        while place.visit is None:
            number = self._take()
            if number is None:
                return
            try:
                sock = self._dialled(self._targets[number])
            except OSError as why:
                self._end(number, why)
                continue
            place.end.set_window(1 if number in self._again else _WINDOW)
            place.visit = _Visit(number, sock, place.end, self._most, self._patience)
            place.wanted = place.visit.wanted()
            self._selector.register(sock, place.wanted, place)

    def _dialled(self, target: Target) -> socket.socket:
        """Begins a connection, whose calls don't wait."""
        sock = socket.socket(target.family, socket.SOCK_STREAM)
        try:
            sock.setblocking(False)
            sock.setsockopt(socket.IPPROTO_TCP, socket.TCP_NODELAY, 1)
            sock.connect(target.address)
        except _NOT_READY:
            pass
        except BaseException:
            sock.close()
            raise
        return sock

    def _go_on(self, place: _Place, mask: int) -> Optional[bytes]:
        visit = place.visit
        assert visit is not None
        try:
            found = visit.go_on(bool(mask & selectors.EVENT_READ))
        except (Refused, OSError) as why:
            self._leave(place, why)
            return None
        if found is None and visit.wanted() != place.wanted:
            place.wanted = visit.wanted()
            self._selector.modify(visit.sock, place.wanted, place)
        return found

    def _drop(self) -> None:
        """Ends the connections whose patience is over, and those that made no progress for a while, as many as addresses wait."""
        now, needed = time.monotonic(), len(self._unseen) - sum(it.visit is None for it in self._places)
        for place in self._places:
            if place.visit and now >= place.visit.over():
                self._leave(place, place.visit.silence())
                needed -= 1
            elif place.visit and needed > 0 and now >= place.visit.heard + _LATE:
                self._leave(place, TimeoutError("the peer made no progress for %g seconds, and another took its place" % _LATE))
                needed -= 1

    def _leave(self, place: _Place, why: Exception) -> None:
        """Ends the connection of a place. The blocks that came stay."""
        visit, place.visit = place.visit, None
        assert visit is not None
        self._selector.unregister(visit.sock)
        visit.sock.close()
        place.end.reset()
        self._end(visit.number, why)

    def _end(self, number: int, why: Exception) -> None:
        if number not in self._again:
            self._back.append(number)
        self._failed(self._targets[number].name, why)
