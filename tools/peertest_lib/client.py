"""The client under test as a process: started, watched, started again."""
import os
import random
import shutil
import signal
import socket
import subprocess
import tempfile
import threading
import time


def alive(pid):
    """Whether the process runs; one that has ended and wasn't waited for doesn't."""
    try:
        with open("/proc/%d/stat" % pid) as file:
            return file.read().rsplit(")", 1)[1].split()[0] not in "ZX"
    except OSError:
        return False


class Processes:
    """The commands that run, each in a process group of its own, so that all can be ended at any time."""

    def __init__(self):
        self.lock, self.running, self.over = threading.Lock(), set(), False

    def start(self, words, output, errors):
        """Starts a command of the shell. Raises OSError."""
        with self.lock:
            if self.over:
                raise OSError("the run was ended")
            process = subprocess.Popen(["sh", "-c", words], stdin=subprocess.DEVNULL, stdout=output, stderr=errors, start_new_session=True)
            self.running.add(process)
            return process

    def ended(self, process):
        """It was waited for."""
        with self.lock:
            self.running.discard(process)

    def end(self, process, seconds=5):
        """Ends it, and what it started. What is left of one that has ended gets no time for it: it may hold the port."""
        limit = time.monotonic() + (seconds if process.poll() is None else 0)
        send(process, signal.SIGTERM)
        while time.monotonic() < limit and (process.poll() is None or is_left(process)):
            time.sleep(0.01)
        if process.poll() is None or is_left(process):
            send(process, signal.SIGKILL)
        process.wait()
        self.ended(process)

    def end_all(self, number=signal.SIGTERM):
        """Has all end, and starts no further one."""
        with self.lock:
            self.over, running = True, list(self.running)
        for process in running:
            send(process, number)


def send(process, number):
    """Sends a signal to the group of a process."""
    try:
        os.killpg(process.pid, number)
    except ProcessLookupError:
        pass


def is_left(process):
    """Whether something runs that the process started, by its process group."""
    for name in filter(str.isdigit, os.listdir("/proc") if os.path.isdir("/proc") else []):
        try:
            with open("/proc/%s/stat" % name) as file:
                state, _, group = file.read().rsplit(")", 1)[1].split()[:3]
        except OSError:
            continue
        if int(group) == process.pid and state not in "ZX":
            return True
    return False


PROCESSES = Processes()
GIVEN = set()


def ports():
    """Ports that the system gives to no connection, which would take one before the client listens there; any if it leaves few."""
    try:
        with open("/proc/sys/net/ipv4/ip_local_port_range") as file:
            end = int(file.read().split()[0])
    except OSError:
        end = 0
    return range(10240, end) if end > 12000 else [0]


def free_port(host):
    """A port that is free, and that wasn't given before. Raises OSError."""
    for _ in range(1000):
        with socket.socket(socket.AF_INET6 if ":" in host else socket.AF_INET) as taken:
            try:
                taken.bind((host, random.choice(ports())))
            except OSError:
                continue
            port = taken.getsockname()[1]
        if port not in GIVEN:
            GIVEN.add(port)
            return port
    raise OSError("no port of %s is free" % host)


class Watched:
    """A client that somebody else started, whose process is known or isn't."""

    restarts = movable = several = False
    wanted = staticmethod(lambda: True)

    def __init__(self, pid=None):
        self.pid = pid

    def lives(self):
        return self.pid is None or alive(self.pid)

    def status(self):
        return None

    def start(self):
        pass

    stop = start


class Started:
    """A client that is started by a command, in a new folder each time, which is made within one of the suite's."""

    restarts = True
    # Says whether it is still worth to wait until it listens.
    wanted = staticmethod(lambda: True)

    def __init__(self, command, address, torrent, torrent_path, within, seconds=40):
        self.command, self.address, self.seconds, self.process, self.folder = command, address, seconds, None, None
        self.within = within
        self.torrent, self.path = torrent, torrent_path
        self.known = {"{torrent}": os.path.abspath(torrent_path), "{hash}": torrent.hash.hex(), "{port}": str(address[1]),
                      "{address}": ("[%s]:%d" if ":" in address[0] else "%s:%d") % address}

    @property
    def movable(self):
        """Whether several can run at the same time, each at its port."""
        return "{port}" in self.command or "{address}" in self.command

    @property
    def several(self):
        """Whether each has a folder of its own too, so that cases can be spread over them."""
        return self.movable and "{dir}" in self.command

    def copy(self):
        """Another one, at a port that is free."""
        return Started(self.command, (self.address[0], free_port(self.address[0])), self.torrent, self.path, self.within, self.seconds)

    def start(self):
        """Starts it, and waits until it takes connections. Raises OSError."""
        self.stop()
        self.folder = tempfile.mkdtemp(prefix="client-", dir=self.within)
        words = self.command.replace("{dir}", self.folder)
        for name, value in self.known.items():
            words = words.replace(name, value)
        with open(os.path.join(self.folder, "client.log"), "wb") as log:
            self.process = PROCESSES.start(words, log, log)
        limit = time.monotonic() + self.seconds
        while True:
            try:
                socket.create_connection(self.address, 1).close()
                return
            except OSError:
                if self.process.poll() is not None or time.monotonic() > limit or not self.wanted():
                    raise
                time.sleep(0.05)

    def lives(self):
        return self.process is None or self.process.poll() is None

    def status(self):
        return self.process.poll() if self.process else None

    def stop(self):
        """Ends the process group that it started, and removes the folder."""
        if self.process is not None:
            PROCESSES.end(self.process)
            self.process = None
        if self.folder:
            shutil.rmtree(self.folder, ignore_errors=True)
            self.folder = None
