"""The connection to the client, and one that only writes down what would be sent."""
import itertools
import os
import random
import select
import signal
import socket
import subprocess
import time

from . import wire
from .client import PROCESSES, send
from .heard import Heard

# So often a connection looks whether the client lives.
LOOK = 0.2
LETTERS = b"0123456789abcdefghijklmnopqrstuvwxyz"


def drawn_peer_id():
    return b"-PW0001-" + bytes(random.choice(LETTERS) for _ in range(12))


class Link:
    """A connection whose direction to the client is `sent`, and whose other direction is `heard`."""

    dry = False

    # Says whether nothing more can come, also if something keeps the connection open.
    ended_by = staticmethod(lambda: False)

    def __init__(self, torrent, end):
        self.torrent, self.socket = torrent, end
        end.setsockopt(socket.IPPROTO_TCP, socket.TCP_NODELAY, 1)
        end.setblocking(False)
        self.poll = select.poll()
        self.sent, self.out, self.end, self.ended = bytearray(), b"", None, None
        self.peer_id, self.reserved = drawn_peer_id(), 0
        self.heard, self.begin = Heard(torrent, 0, self.sent), time.monotonic()
        self.extended, self.first, self.looked, self.moved = False, False, self.begin, self.begin

    def agree(self, reserved):
        """Takes the own reserved bits, by which the client's bytes are judged."""
        self.reserved = reserved
        self.heard = Heard(self.torrent, reserved, self.sent)

    @property
    def both(self):
        """The bits that both ends set."""
        return (self.heard.theirs or 0) & self.reserved

    def idle(self):
        """The seconds since something was read or written."""
        return time.monotonic() - self.moved

    def clock(self):
        return time.monotonic() - self.begin

    def step(self, seconds):
        """Waits for the socket once, and moves what can be moved."""
        self.poll.register(self.socket, select.POLLIN | (select.POLLOUT if self.out else 0))
        ready = self.poll.poll(max(0, seconds) * 1000)
        events = ready[0][1] if ready else 0
        if events & select.POLLOUT:
            self.move(self.write_some)
        if events & ~select.POLLOUT:
            self.move(self.read_some)

    def move(self, call):
        try:
            call()
        except BlockingIOError:
            pass
        except OSError:
            self.ends("reset")

    def write_some(self):
        size = self.socket.send(self.out[:65536])
        self.moved = time.monotonic()
        self.sent += self.out[:size]
        self.out = self.out[size:]

    def read_some(self):
        data = self.socket.recv(262144)
        if data:
            self.moved = time.monotonic()
            self.heard.push(data, self.clock())
        else:
            self.ends("closed")

    def ends(self, how):
        if self.end is None:
            self.end, self.ended, self.out = how, self.clock(), b""

    def until(self, holds, seconds):
        """Reads and writes until it holds, the connection ends, or the time is over. Says whether it holds."""
        limit = time.monotonic() + seconds
        while not holds():
            left = limit - time.monotonic()
            if self.end or left <= 0:
                return holds()
            self.step(min(left, LOOK))
            self.look()
        return True

    def look(self):
        """Ends the connection if the client has died, which is seen by its process."""
        if time.monotonic() >= self.looked + LOOK:
            self.looked = time.monotonic()
            if not self.end and self.ended_by():
                self.ends("died")

    def send(self, data, seconds=20):
        """Says whether all was taken by the system."""
        self.out += data
        return self.until(lambda: not self.out, seconds)

    def pause(self, seconds):
        self.until(lambda: False, seconds)

    def sleep(self, seconds):
        """Reads nothing meanwhile."""
        limit = time.monotonic() + seconds
        while not self.end and time.monotonic() < limit:
            time.sleep(min(LOOK, max(0, limit - time.monotonic())))
            self.look()

    def fin(self):
        try:
            self.socket.shutdown(socket.SHUT_WR)
        except OSError:
            self.ends("reset")

    def close(self):
        self.socket.close()


def greet_all(links, quiet):
    """Reads and writes on all of them, until each has the other's handshake or ended, or none has got one for some seconds."""
    limit, before = time.monotonic() + quiet, None
    while time.monotonic() < limit:
        waiting = {link.socket.fileno(): link for link in links if not link.end and link.heard.theirs is None}
        if len(waiting) != before:
            before, limit = len(waiting), time.monotonic() + quiet
        if not waiting:
            return
        poll = select.poll()
        for number, link in waiting.items():
            poll.register(number, select.POLLIN | (select.POLLOUT if link.out else 0))
        for number, _ in poll.poll(LOOK * 1000):
            waiting[number].step(0)
        for link in waiting.values():
            link.look()


class Dialler:
    """Connects to the client, from another address of this machine each time."""

    def __init__(self, torrent, address):
        self.torrent, self.address, self.counts, self.second = torrent, address, itertools.count(1), 20 + random.randrange(200)

    def to(self, address):
        """The same for another client."""
        return Dialler(self.torrent, address)

    def source(self):
        """127.x.y.z, so that no ban and no count of one address holds for the next case."""
        count = next(self.counts)
        return "127.%d.%d.%d" % (self.second, count // 250 % 250 + 1, count % 250 + 2)

    def link(self):
        family = socket.AF_INET6 if ":" in self.address[0] else socket.AF_INET
        end = socket.socket(family)
        try:
            end.settimeout(5)
            if self.address[0].startswith("127."):
                end.bind((self.source(), 0))
            end.connect(self.address)
        except BaseException:
            end.close()
            raise
        return Link(self.torrent, end)


class DialledLink(Link):
    """A connection that a client of its own opened, which was started for it."""

    def __init__(self, torrent, end, process, output):
        super().__init__(torrent, end)
        self.process, self.output, self.status, self.said = process, output, None, ""

    def close(self):
        super().close()
        try:
            _, errors = self.process.communicate(timeout=3)
            self.status = self.process.returncode
        except subprocess.TimeoutExpired:
            send(self.process, signal.SIGKILL)
            _, errors = self.process.communicate()
        PROCESSES.ended(self.process)
        self.said = errors.decode("utf8", "replace").strip()

    def written(self):
        """What the client wrote to its file {out}, if anything."""
        if os.path.exists(self.output):
            with open(self.output, "rb") as file:
                return file.read()
        return b""


class Waiter:
    """Starts the client once for each case, and waits until it connects."""

    def __init__(self, torrent, command, folder, seconds=10):
        self.torrent, self.command, self.folder, self.seconds, self.counts = torrent, command, folder, seconds, itertools.count(1)

    def link(self):
        output = os.path.join(self.folder, "out-%d" % next(self.counts))
        with socket.socket() as door:
            door.bind(("127.0.0.1", 0))
            door.listen(4)
            door.settimeout(self.seconds)
            known = {"{addr}": "127.0.0.1:%d" % door.getsockname()[1], "{hash}": self.torrent.hash.hex(), "{out}": output}
            words = self.command
            for name, value in known.items():
                words = words.replace(name, value)
            process = PROCESSES.start(words, subprocess.DEVNULL, subprocess.PIPE)
            try:
                end, _ = door.accept()
            except OSError:
                send(process, signal.SIGKILL)
                process.communicate()
                PROCESSES.ended(process)
                raise
        return DialledLink(self.torrent, end, process, output)


class DryLink:
    """Writes down what is sent to a client with all extensions that answers nothing and keeps the connection."""

    dry, end, ended = True, None, None

    def __init__(self, torrent, mode):
        self.torrent, self.sent, self.peer_id, self.reserved = torrent, bytearray(), b"-PW0001-000000000000", 0
        self.mode, self.extended, self.first = mode, False, False
        self.agree(0)

    def agree(self, reserved):
        self.reserved = reserved
        heard = self.heard = Heard(self.torrent, reserved, self.sent)
        heard.theirs, heard.um, heard.dont, heard.fast_set, heard.opened = wire.FAST | wire.EXTENSIONS, 2, 6, [5], True
        heard.requests.append((0, 0, 16384))
        heard.metadata_requests.extend(range(self.torrent.blocks()))

    @property
    def both(self):
        return self.heard.theirs & self.reserved

    def idle(self):
        return 0.0

    def until(self, holds, seconds):
        return holds()

    def send(self, data, seconds=20):
        self.sent += data
        return True

    def pause(self, seconds):
        pass

    sleep = pause

    def fin(self):
        pass

    def close(self):
        pass
