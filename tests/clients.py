#!/usr/bin/env python3
"""Runs `fetch` and `serve` with libtorrent, Transmission, aria2 and rtorrent on 127.0.0.1, where they are installed.

usage: tests/clients.py [PROGRAM]

PROGRAM is the built program, or else the script `bt_tool` at the top of the repository. Each client serves a torrent's metadata
to `fetch`, and then gets it from `serve`, as a magnet link whose tracker names the server. What `fetch --torrent` wrote is
compared with the file, byte by byte, and opened by libtorrent, Transmission and aria2, which say its info hash. rtorrent takes no
.torrent without a tracker. A client that isn't installed is skipped, and that is said.
"""
import hashlib
import http.server
import os
import pty
import re
import shutil
import signal
import socket
import struct
import subprocess
import sys
import tempfile
import threading
import time

ROOT = os.path.dirname(os.path.dirname(os.path.abspath(__file__)))
PIECE = 16384
PIECES = 6000
# How often a client that has just started is asked.
TRIES = 40

SEED = """
import libtorrent, sys, time
session = libtorrent.session({"listen_interfaces": "127.0.0.1:%s" % sys.argv[2], "enable_dht": False, "enable_lsd": False})
session.add_torrent({"ti": libtorrent.torrent_info(sys.argv[1]), "save_path": sys.argv[3]})
time.sleep(120)
"""

LEECH = """
import libtorrent, sys, time
session = libtorrent.session({"listen_interfaces": "127.0.0.1:%s" % sys.argv[4], "enable_dht": False, "enable_lsd": False,
    "enable_outgoing_utp": False})
wanted = libtorrent.parse_magnet_uri(sys.argv[1])
wanted.save_path = sys.argv[3]
torrent = session.add_torrent(wanted)
for _ in range(300):
    if torrent.status().has_metadata:
        break
    torrent.connect_peer(("127.0.0.1", int(sys.argv[2])))
    time.sleep(0.2)
sys.exit(0 if torrent.status().has_metadata else 1)
"""

OPEN = "import libtorrent, sys; print('hash', libtorrent.torrent_info(sys.argv[1]).info_hash())"


def free_port():
    with socket.socket() as taken:
        taken.bind(("127.0.0.1", 0))
        return taken.getsockname()[1]


def own_address():
    """An address of this machine that isn't 127.0.0.1; nothing where it has none."""
    with socket.socket(socket.AF_INET, socket.SOCK_DGRAM) as probe:
        try:
            probe.connect(("192.0.2.1", 9))
        except OSError:
            return None
        return probe.getsockname()[0]


def python_with_libtorrent():
    for name in ("python3", "/usr/bin/python3"):
        if shutil.which(name) and subprocess.run([name, "-c", "import libtorrent"], capture_output=True).returncode == 0:
            return name
    return None


def info_of():
    """An info dictionary of 120,000 bytes and some more, whose file nobody has."""
    pieces = b"".join(hashlib.sha1(struct.pack(">I", k)).digest() for k in range(PIECES))
    return b"d6:lengthi%de4:name4:data12:piece lengthi%de6:pieces%d:%se" % (PIECE * PIECES, PIECE, len(pieces), pieces)


INFO = info_of()
HASH = hashlib.sha1(INFO).hexdigest()
NO_TRACKER = b"http://127.0.0.1:9/announce"


def start(words, folder):
    return subprocess.Popen(words, cwd=folder, stdin=subprocess.DEVNULL, stdout=subprocess.DEVNULL, stderr=subprocess.DEVNULL,
                            start_new_session=True)


def start_on_terminal(words, folder):
    """rtorrent wants a terminal."""
    ours, theirs = pty.openpty()
    started = subprocess.Popen(words, cwd=folder, stdin=theirs, stdout=theirs, stderr=theirs, start_new_session=True,
                               env=dict(os.environ, TERM="xterm", HOME=folder))
    os.close(theirs)

    def drain():
        try:
            while os.read(ours, 65536):
                pass
        except OSError:
            pass
    threading.Thread(target=drain, daemon=True).start()
    return started


def stop(started):
    try:
        os.killpg(started.pid, signal.SIGKILL)
    except ProcessLookupError:
        pass
    started.wait()


def seed(client, torrent, port, folder):
    """Starts a client that has the torrent and none of its data."""
    if client == "libtorrent":
        return start([python_with_libtorrent(), "-c", SEED, torrent, str(port), folder], folder)
    if client == "transmission":
        return start(["transmission-cli", "-p", str(port), "-w", folder, "-g", folder + "/config", "-M", torrent], folder)
    if client == "aria2":
        return start(["aria2c", "--listen-port=%d" % port, "--enable-dht=false", "--bt-enable-lpd=false", "--file-allocation=none",
                      "--dir=" + folder, torrent], folder)
    return start_on_terminal(["rtorrent", "-n", "-d", folder, "-p", "%d-%d" % (port, port), "-b", "127.0.0.1", torrent], folder)


def is_installed(client):
    if client == "libtorrent":
        return python_with_libtorrent() is not None
    return shutil.which({"transmission": "transmission-cli", "aria2": "aria2c", "rtorrent": "rtorrent"}[client]) is not None


def opened(name):
    """Opens a .torrent with each client that can, and returns the names of those that don't say its info hash."""
    wrong = []
    python = python_with_libtorrent()
    openers = [("libtorrent", [python, "-c", OPEN, name] if python else None, "hash "),
               ("transmission", shutil.which("transmission-show") and ["transmission-show", name], "  Hash: "),
               ("aria2", shutil.which("aria2c") and ["aria2c", "-S", name], "Info Hash: ")]
    for client, words, before in openers:
        if words and before + HASH not in subprocess.run(words, capture_output=True, text=True).stdout.splitlines():
            wrong.append(client)
    return wrong


def fetched(program, client, torrent, work):
    """Fetches from a client, as a .torrent."""
    folder = os.path.join(work, "seed-" + client)
    os.mkdir(folder)
    port = free_port()
    address = "127.0.0.1:%d" % port
    started = seed(client, torrent, port, folder)
    try:
        for _ in range(TRIES):
            done = subprocess.run([program, "fetch", HASH, address, "--torrent", "--timeout", "12"], capture_output=True,
                                  timeout=300)
            # A client that has just started doesn't listen yet, or doesn't know the torrent.
            if done.returncode == 0 or not re.search(b" (unreachable|closed)\nnot fetched in ", done.stderr):
                break
            time.sleep(0.5)
    finally:
        stop(started)
    if done.returncode != 0 or done.stdout != b"d4:info" + INFO + b"e":
        print("fetch from %s: status %d, %d bytes, %r" % (client, done.returncode, len(done.stdout), done.stderr.decode()))
        return 1
    # rtorrent hangs at a second request, and then a second connection would be made
    ends = [line for line in done.stderr.decode().splitlines() if line.startswith(address) and not line.endswith((" unreachable", " closed"))]
    if len(ends) != 1:
        print("fetch from %s: %d connections: %s" % (client, len(ends), "; ".join(ends)))
        return 1
    name = os.path.join(folder, "fetched.torrent")
    with open(name, "wb") as file:
        file.write(done.stdout)
    wrong = opened(name)
    if wrong:
        print("fetch from %s: not opened by %s" % (client, ", ".join(wrong)))
        return 1
    return 0


class Tracker(http.server.BaseHTTPRequestHandler):
    """Names one peer."""
    host = "127.0.0.1"
    port = 0

    def do_GET(self):
        peer = socket.inet_aton(self.host) + struct.pack(">H", self.port)
        body = b"d8:completei1e10:incompletei1e8:intervali5e12:min intervali5e5:peers6:" + peer + b"e"
        self.send_response(200)
        self.send_header("Content-Length", str(len(body)))
        self.end_headers()
        self.wfile.write(body)

    def log_message(self, *words):
        pass


def leech(client, magnet, served, folder):
    """Starts a client that gets the metadata of the magnet link."""
    port = free_port()
    if client == "libtorrent":
        return start([python_with_libtorrent(), "-c", LEECH, magnet, str(served), folder, str(port)], folder)
    if client == "transmission":
        os.mkdir(folder + "/config")
        with open(folder + "/config/settings.json", "w") as file:
            file.write('{"utp-enabled": false, "dht-enabled": false}')
        return start(["transmission-cli", "-p", str(port), "-w", folder, "-g", folder + "/config", "-M", "-et", magnet], folder)
    if client == "aria2":
        return start(["aria2c", "--listen-port=%d" % port, "--enable-dht=false", "--bt-enable-lpd=false", "--dir=" + folder,
                      "--bt-metadata-only=true", "--bt-save-metadata=true", magnet], folder)
    os.mkdir(folder + "/session")
    return start_on_terminal(["rtorrent", "-n", "-d", folder, "-s", folder + "/session", "-p", "%d-%d" % (port, port), "-b",
                              "127.0.0.1", magnet], folder)


def has_metadata(folder):
    """Whether a file below the folder has the whole info dictionary."""
    for place, _, names in os.walk(folder):
        for name in names:
            path = os.path.join(place, name)
            if os.path.getsize(path) < 10 * len(INFO):
                with open(path, "rb") as file:
                    if INFO in file.read():
                        return True
    return False


def served(program, client, torrent, work):
    """Serves to a client."""
    folder = os.path.join(work, "leech-" + client)
    os.mkdir(folder)
    # Transmission connects to no peer at 127.0.0.1.
    host = own_address() if client == "transmission" else "127.0.0.1"
    if host is None:
        print("serve to %s: this machine has no address but 127.0.0.1: skipped" % client)
        return 0
    server = subprocess.Popen([program, "serve", torrent, "--listen", host + ":0"], stdout=subprocess.PIPE, start_new_session=True)
    first = server.stdout.readline().decode()
    want = "serving %s size=%d on %s:" % (HASH, len(INFO), host)
    if not first.startswith(want):
        stop(server)
        print("serve: first line %r" % first)
        return 1
    port = int(first[len(want):])
    Tracker.host, Tracker.port = host, port
    tracker = http.server.ThreadingHTTPServer(("127.0.0.1", 0), Tracker)
    threading.Thread(target=tracker.serve_forever, daemon=True).start()
    magnet = "magnet:?xt=urn:btih:%s&tr=http://127.0.0.1:%d/announce" % (HASH, tracker.server_address[1])
    started = leech(client, magnet, port, folder)
    is_there = False
    for _ in range(180):
        is_there = started.poll() == 0 if client == "libtorrent" else has_metadata(folder)
        if is_there:
            break
        time.sleep(0.5)
    stop(started)
    stop(server)
    tracker.shutdown()
    if not is_there:
        print("serve to %s: no metadata after 90 seconds" % client)
        return 1
    return 0


def main(words):
    program = os.path.abspath(words[0]) if words else os.path.join(ROOT, "bt_tool")
    only = words[1:]
    failed = count = 0
    with tempfile.TemporaryDirectory() as work:
        torrent = os.path.join(work, "data.torrent")
        with open(torrent, "wb") as file:
            # rtorrent takes no torrent without a tracker.
            file.write(b"d8:announce%d:%s4:info%se" % (len(NO_TRACKER), NO_TRACKER, INFO))
        for client in ("libtorrent", "transmission", "aria2", "rtorrent"):
            if not is_installed(client):
                print("%s isn't installed: skipped" % client)
                continue
            for way in (fetched, served):
                if only and way.__name__ not in only and client not in only:
                    continue
                count += 1
                before = time.time()
                bad = way(program, client, torrent, work)
                failed += bad
                print("%s %s: %s, %.1f s" % (way.__name__, client, "not as expected" if bad else "ok", time.time() - before), flush=True)
    print("clients: %d of %d as expected" % (count - failed, count))
    return 1 if failed else 0


if __name__ == "__main__":
    sys.exit(main(sys.argv[1:]))
