"""The metadata of a torrent, from one peer or several."""
from __future__ import annotations

import time
from typing import Callable, Iterable, List, Optional, Tuple

from . import _library as lib
from ._end import End
from ._names import EXTENSIONS, FAST, Event
from ._peers import CHUNK, CLOSED, HOPELESS, IN_TIME, MOST, ONE_AT_A_TIME, OTHER, Address, FetchError, see_size, split
from ._values import Own


class _Wish:
    """What is fetched."""

    def __init__(self, info_hash: lib.Bytes, most: Optional[int], limit: int) -> None:
        self.own = Own(reserved=FAST | EXTENSIONS, info_hash=lib.content(info_hash, "info_hash", 20), limit=limit)
        self.given, self.most = most, min(most or MOST, MOST)

    def end(self) -> End:
        return End(self.own, fetch=True, most=self.given)


class _Fetch:
    """What a fetch does with the bytes of the peer."""

    def __init__(self, wish: _Wish) -> None:
        self.end, self.most = wish.end(), wish.most

    def handle(self, data: bytes) -> Optional[bytes]:
        """Handles what was received, and returns the metadata if that is there."""
        if not data:
            raise FetchError(CLOSED)
        for heard in self.end.receive(data):
            if heard.event == Event.OPENED and (heard.item.peer_id or b"").startswith(ONE_AT_A_TIME):
                self.end.set_window(1)
            if heard.event == Event.ANNOUNCED:
                see_size(heard.size, self.most)
            if heard.event == Event.FETCHED:
                return self.end.metadata
            if heard.event == Event.MISMATCHED:
                raise FetchError(OTHER)
        if self.end.is_hopeless:
            raise FetchError(HOPELESS)
        return None


def fetch(address: Optional[Address], info_hash: lib.Bytes, timeout: float = 30, most: Optional[int] = None, limit: int = 262144,
          peers: Optional[Iterable[Address]] = None, at_once: int = 16, patience: float = 30,
          failed: Optional[Callable[[Address, Exception], None]] = None) -> bytes:
    """Returns the metadata of a torrent, fetched from the peer at this address. Its SHA-1 is the info hash.

    It ends within `timeout` seconds, takes at most `most` bytes of metadata, and messages up to `limit`. Raises Refused if the
    peer breaks a rule, FetchError if it doesn't give the metadata or announces more, another OSError if it isn't reached,
    TimeoutError among them.

    With `peers`, more addresses, it asks up to `at_once` peers at the same time, in order, `address` first if that isn't None. The
    first that gives the metadata wins. A connection ends after `patience` seconds without progress. `failed` is called with the
    peer and the exception of each connection that ends without the metadata. If none is left, or the time is over, it raises
    FetchError, whose `failures` has all these pairs.
    """
    timeout, wish = lib.seconds(timeout, "timeout"), _Wish(info_hash, most, limit)
    if peers is None:
        if address is None:
            raise ValueError("address is None, and there are no peers")
        return _from_one(split(address), wish, timeout)
    if isinstance(peers, (str, bytes)):
        raise TypeError("peers is %s, not a list of addresses" % type(peers).__name__)
    if lib.positive(at_once, "at_once") > 256:
        raise ValueError("at_once is %d, not 1 to 256" % at_once)
    given: List[Address] = [] if address is None else [address]
    named = [(it, split(it)) for it in [*given, *peers]]
    return _from_many(named, wish, timeout, at_once, lib.seconds(patience, "patience"), failed)


def _from_one(place: Tuple[str, int], wish: _Wish, timeout: float) -> bytes:
    import socket  # (only who fetches needs it)

    ends, talk = time.monotonic() + timeout, _Fetch(wish)
    with talk.end, socket.create_connection(place, timeout) as sock:
        while True:
            sock.settimeout(max(ends - time.monotonic(), 0.001))
            try:
                sock.sendall(talk.end.take())
                found = talk.handle(sock.recv(CHUNK))
            except socket.timeout as silent:
                raise TimeoutError(IN_TIME) from silent
            if found is not None:
                return found


def _from_many(named: List[Tuple[Address, Tuple[str, int]]], wish: _Wish, timeout: float, at_once: int, patience: float,
               failed: Optional[Callable[[Address, Exception], None]]) -> bytes:
    from ._many import Race, targets

    failures: List[Tuple[Address, Exception]] = []

    def hear(name: Address, why: Exception) -> None:
        failures.append((name, why))
        if failed is not None:
            failed(name, why)

    until, wanted = time.monotonic() + timeout, targets(named, hear)
    with Race(wanted, [wish.end() for _ in range(min(at_once, len(wanted)))], wish.most, patience, hear) as race:
        found = race.run(until)
    if found is not None:
        return found
    words = "; ".join("%s: %s" % (name if isinstance(name, str) else "%s:%s" % (name[0], name[1]), why) for name, why in failures)
    error = FetchError("no peer gave the metadata: %s" % (words or "there are none"))
    error.failures = failures
    raise error


async def fetch_async(address: Address, info_hash: lib.Bytes, timeout: float = 30, most: Optional[int] = None,
                      limit: int = 262144) -> bytes:
    """Returns the metadata as `fetch` does from one peer, by asyncio."""
    import asyncio  # (it takes longer to load than all of this package)

    place, timeout = split(address), lib.seconds(timeout, "timeout")
    talk = _Fetch(_Wish(info_hash, most, limit))
    with talk.end:
        try:
            return await asyncio.wait_for(_talk(talk, place), timeout)
        except asyncio.TimeoutError as silent:
            raise TimeoutError(IN_TIME) from silent


async def _talk(talk: _Fetch, address: Tuple[str, int]) -> bytes:
    import asyncio

    reader, writer = await asyncio.open_connection(*address)
    try:
        while True:
            writer.write(talk.end.take())
            await writer.drain()
            found = talk.handle(await reader.read(CHUNK))
            if found is not None:
                return found
    finally:
        writer.close()
