#!/usr/bin/env python3
"""Runs `peers` and `fetch` on magnet links in a network of their own, with trackers and nodes of the DHT that may lie.

usage: tests/magnets.py [PROGRAM] [CASE]..

PROGRAM is the built program, or else the script `bt_tool` at the top of the repository. CASE is the name of a case; without one all are
run. The network is a namespace in which all addresses of 5.0.0.0/8, 10.0.0.0/8 and 2a00::/16 are this machine's own, so that one socket
stands for any number of trackers or nodes. If the system allows no namespace, the script says so and nothing is run. If `opentracker` is
installed, it is asked too. What is expected was worked out from docs/FETCH.md and the BEPs.
"""
import contextlib
import hashlib
import ipaddress
import os
import re
import shutil
import socket
import struct
import subprocess
import sys
import tempfile
import threading
import time

import peers

ROOT = os.path.dirname(os.path.dirname(os.path.abspath(__file__)))
INSIDE = "MAGNETS_NAMESPACE"
TRACKER, NODE, PEER = 6969, 6881, 51413
HASH, INFO = peers.HASH, peers.INFO
LINK = "magnet:?xt=urn:btih:" + HASH.hex()
CONNECTION = b"connect!"
# What a stand-in sends to itself: what came before it has been heard.
CAUGHT_UP = b"caught up"
PKTINFO = {socket.AF_INET: (socket.IPPROTO_IP, 8, 8), socket.AF_INET6: (socket.IPPROTO_IPV6, 49, 50)}
IPV6_FREEBIND = 78
# The nodes by which the search in the DHT begins if the words name none.
ROUTERS = {"router.bittorrent.com": ("5.3.0.1", 6881), "dht.transmissionbt.com": ("5.3.0.2", 6881), "dht.libtorrent.org": ("5.3.0.3", 25401)}
NAMES = {"tracker.test": "5.0.0.7", "six.test": "2a00::7", "node.test": "5.2.0.7", "private.test": "10.0.0.7"}
DEAD_NAME = "udp://nobody.test:6969"


# ---- bytes

def compact(*addresses):
    """Addresses in 6 bytes (BEP 23) or 18 (BEP 7) each."""
    found = b""
    for address in addresses:
        host, port = address.rsplit(":", 1)
        found += ipaddress.ip_address(host.strip("[]")).packed + struct.pack(">H", int(port))
    return found


def many(count, first="5.1.0.0", port=PEER):
    """So many addresses, each with an IP address of its own."""
    low = int(ipaddress.ip_address(first))
    return ["%s:%d" % (ipaddress.ip_address(low + k), port) for k in range(count)]


def text(value):
    return b"%d:%s" % (len(value), value)


def far(address):
    """A node id that the address gives, most often far from the info hash."""
    return hashlib.sha1(address.encode()).digest()


def near(number):
    """A node id next to the info hash."""
    return HASH[:16] + (int.from_bytes(HASH[16:], "big") ^ (number + 1)).to_bytes(4, "big")


def node_entry(address, ident=None):
    return (far(address.rsplit(":", 1)[0]) if ident is None else ident) + compact(address)


def transaction(query):
    """The transaction id of a query for peers."""
    return query[-11:-7]


# ---- stand-ins

class Datagrams:
    """Hears the datagrams to a port of all addresses of a family, and sends what `answer` gives.

    `answer` gets the address that was asked, the sender and the bytes, and gives datagrams, or pairs of one and another address to send
    it from.
    """

    def __init__(self, port, answer, family=socket.AF_INET):
        self.port, self.answer, self.family, self.heard, self.lock = port, answer, family, [], threading.Lock()
        self.is_caught_up = threading.Event()
        self.socket = socket.socket(family, socket.SOCK_DGRAM)
        level, kind, self.kind = PKTINFO[family]
        if family == socket.AF_INET6:
            self.socket.setsockopt(socket.IPPROTO_IPV6, socket.IPV6_V6ONLY, 1)
            self.socket.setsockopt(socket.IPPROTO_IPV6, IPV6_FREEBIND, 1)
        self.level = level
        self.socket.setsockopt(level, kind, 1)
        self.socket.setsockopt(socket.SOL_SOCKET, socket.SO_RCVBUF, 1 << 22)
        self.socket.bind(("::" if family == socket.AF_INET6 else "0.0.0.0", port))
        self.is_closed = False
        self.thread = threading.Thread(target=self.serve, daemon=True)
        self.thread.start()

    def serve(self):
        while True:
            data, told, _, sender = self.socket.recvmsg(65536, 256)
            if self.is_closed:
                return
            if data == CAUGHT_UP:
                self.is_caught_up.set()
                continue
            info = told[0][2]
            to = str(ipaddress.ip_address(info[8:12] if self.family == socket.AF_INET else info[:16]))
            with self.lock:
                self.heard.append((to, sender[:2], data))
            for answer in self.answer(to, sender[:2], data) or []:
                datagram, source = answer if isinstance(answer, tuple) else (answer, (to, self.port))
                self.send(datagram, source, sender)

    def send(self, datagram, source, to):
        if source[1] == self.port:
            packed = ipaddress.ip_address(source[0]).packed
            info = struct.pack("=I4s4x", 0, packed) if self.family == socket.AF_INET else packed + bytes(4)
            self.socket.sendmsg([datagram], [(self.level, self.kind, info)], 0, to)
            return
        with socket.socket(self.family, socket.SOCK_DGRAM) as other:
            other.bind(source)
            other.sendto(datagram, to)

    def tell_itself(self, data):
        with socket.socket(self.family, socket.SOCK_DGRAM) as last:
            last.sendto(data, ("::1" if self.family == socket.AF_INET6 else "127.0.0.1", self.port))

    def close(self):
        self.is_closed = True
        self.tell_itself(b"")
        self.thread.join(10)
        self.socket.close()

    def asked(self):
        """The addresses that were asked, in order, and what they were asked: all that was sent before this call."""
        self.is_caught_up.clear()
        self.tell_itself(CAUGHT_UP)
        if not self.is_caught_up.wait(30):
            raise OSError("a stand-in doesn't hear")
        with self.lock:
            return [(to, data) for to, _, data in self.heard]


class Pages:
    """Hears the questions of HTTP at a port of all addresses, and sends what `answer` gives for each; `answer` may send by itself."""

    def __init__(self, port, answer, family=socket.AF_INET):
        self.answer, self.heard = answer, []
        self.socket = socket.socket(family)
        self.socket.setsockopt(socket.SOL_SOCKET, socket.SO_REUSEADDR, 1)
        self.socket.bind(("::" if family == socket.AF_INET6 else "0.0.0.0", port))
        self.socket.listen(64)
        threading.Thread(target=self.serve, daemon=True).start()

    def serve(self):
        while True:
            try:
                link, _ = self.socket.accept()
            except OSError:
                return
            threading.Thread(target=self.talk, args=(link,), daemon=True).start()

    def talk(self, link):
        link.settimeout(60)
        with link, contextlib.suppress(OSError):
            question = b""
            while not question.endswith(b"\r\n\r\n"):
                got = link.recv(65536)
                if not got:
                    return
                question += got
            self.heard.append((link.getsockname()[0], question))
            answer = self.answer(link)
            if answer:
                link.sendall(answer)

    def close(self):
        with contextlib.suppress(OSError):
            self.socket.shutdown(socket.SHUT_RDWR)
        self.socket.close()


class Seeds(Pages):
    """Peers at a port of all addresses, which talk as `talk_of` of their address says; those of no talk close at once."""

    def __init__(self, talk_of, port=PEER):
        self.talk_of, self.count = talk_of, 0
        super().__init__(port, None)

    def talk(self, link):
        host = link.getsockname()[0]
        self.heard.append((host, b""))
        self.count += 1
        talk = self.talk_of(host)
        with link, contextlib.suppress(OSError):
            if talk:
                talk(peers.Link(link), 1)

    def dialled(self):
        return {host for host, _ in self.heard}


def by_address(answers, otherwise=None):
    """An `answer` that is chosen by the address that is asked."""
    def answer(to, sender, data):
        chosen = answers.get(to, otherwise)
        return chosen(to, sender, data) if chosen else []
    return answer


def tracker(told, before=lambda data: [], after=lambda data: []):
    """A tracker over UDP that tells these bytes (BEP 15), with other datagrams before and after each of its answers."""
    def answer(to, sender, data):
        if len(data) == 16 and data[8:12] == bytes(4):
            sent = struct.pack(">I", 0) + data[12:16] + CONNECTION
        elif len(data) == 98 and data[:8] == CONNECTION:
            sent = struct.pack(">I4sIII", 1, data[12:16], 1800, 0, 5) + told
        else:
            return []
        return before(sent) + [sent] + after(sent)
    return answer


def lying(change):
    """A tracker whose answers are changed; what `change` gives is sent in place of each."""
    honest = tracker(compact("5.1.0.1:51413"))

    def answer(to, sender, data):
        return [sent for right in honest(to, sender, data) for sent in change(right, to)]
    return answer


def node(values=(), nodes=b"", nodes6=b"", ident=None):
    """A node of the DHT that tells these peers and nodes (BEP 5, BEP 32)."""
    def answer(to, sender, data):
        told = b"2:id" + text(ident or far(to))
        told += b"5:nodes" + text(nodes) if nodes else b""
        told += b"6:nodes6" + text(nodes6) if nodes6 else b""
        told += b"6:valuesl" + b"".join(map(text, values)) + b"e" if values else b""
        return [b"d1:rd" + told + b"e1:t" + text(transaction(data)) + b"1:y1:re"]
    return answer


def page(body, status=b"200 OK"):
    return lambda link: b"HTTP/1.0 " + status + b"\r\nContent-Type: text/plain\r\n\r\n" + body


def peers_page(told, told6=b""):
    return page(b"d8:intervali1800e5:peers" + text(told) + (b"6:peers6" + text(told6) if told6 else b"") + b"e")


# ---- the program

class Found:
    """What a run of the program wrote, and how long it took."""

    def __init__(self, done, took):
        self.output, self.errors, self.status, self.took = done.stdout, done.stderr.decode(), done.returncode, took
        self.lines = done.stdout.decode("latin-1").splitlines()
        self.summary = self.errors.splitlines()[-1:]


def run(program, *words, timeout=90):
    begin = time.monotonic()
    done = subprocess.run([program] + list(words), stdin=subprocess.DEVNULL, capture_output=True, timeout=timeout)
    return Found(done, time.monotonic() - begin)


def seek(program, *words, link=LINK):
    """Runs `peers` without the DHT's usual nodes."""
    return run(program, "peers", link, *words)


def link_to(*trackers):
    return LINK + "".join("&tr=" + url.replace("&", "%26") for url in trackers)


def summary(trackers, nodes, count, private=0):
    """The last line of `peers`."""
    def so_many(number, word):
        return "%d %s%s" % (number, word, "" if number == 1 else "s")
    tail = "; %s passed over (--local)" % ("1 private address" if private == 1 else "%d private addresses" % private) if private else ""
    return ["asked %s, %s; %s%s" % (so_many(trackers, "tracker"), so_many(nodes, "node"), so_many(count, "peer"), tail)]


# ---- the cases: each yields what is compared, what came, and what is expected

def udp(program, net):
    """a tracker over UDP: what goes out, byte for byte (BEP 15)"""
    told = many(5)
    stand = net.datagrams(TRACKER, tracker(compact(*told)))
    done = seek(program, "--no-dht", link=link_to("udp://5.0.0.1:6969/announce"))
    yield "peers", (done.lines, done.status), (told, 0)
    yield "summary", done.summary, summary(1, 0, 5)
    yield "no other line", done.errors.count("\n"), 1
    sent = [data for _, data in stand.asked()]
    yield "datagrams", [len(data) for data in sent], [16, 98, 98]
    connect, announce, stopped = (sent + 3 * [b""])[:3]
    yield "connect", connect[:12], struct.pack(">QI", 0x41727101980, 0)
    own = announce[36:56]
    yield "announce", announce[:12] + announce[16:88], (
        CONNECTION + struct.pack(">I", 1) + HASH + own + struct.pack(">QQQII", 0, 1, 0, 2, 0))
    yield "peer id", own[:8], b"-TZ0001-"
    yield "wanted and port", announce[92:], struct.pack(">iH", 50, 1)
    yield "stopped", stopped[:12] + stopped[16:88], (
        CONNECTION + struct.pack(">I", 1) + HASH + own + struct.pack(">QQQII", 0, 1, 0, 3, 0))
    yield "key of stopped", stopped[88:92], announce[88:92]
    yield "ids of their own", len({connect[12:16], announce[12:16], stopped[12:16]}), 3


def http(program, net):
    """a tracker over HTTP: what goes out, byte for byte (BEP 3, 7, 23)"""
    told, told6 = many(5), ["[2a00::9]:51413"]
    stand = net.pages(TRACKER, peers_page(compact(*told), compact(*told6)))
    done = seek(program, "--no-dht", link=link_to("http://5.0.0.1:6969/a?key=x"))
    yield "peers", (sorted(done.lines), done.status), (sorted(told + told6), 0)
    yield "summary", done.summary, summary(1, 0, 6)
    asked = [question for _, question in stand.heard if b"event=stopped" not in question]
    yield "questions", len(asked), 1
    own = re.search(rb"peer_id=((?:%[0-9A-F]{2}){20})&", asked[0])
    escaped = b"".join(b"%%%02X" % byte for byte in HASH)
    wanted = (b"GET /a?key=x&info_hash=" + escaped + b"&peer_id=" + (own[1] if own else b"") + b"&port=1&uploaded=0&downloaded=0&left=1"
              b"&compact=1&numwant=50&event=started HTTP/1.0\r\nHost: 5.0.0.1:6969\r\n\r\n")
    yield "question", asked[0], wanted
    last = wanted.replace(b"numwant=50&event=started", b"numwant=0&event=stopped")
    yield "told at the end", told_at_the_end(stand, 1), [last]
    done = seek(program, "--no-dht", link=link_to("http://5.0.0.1:6970/"))
    yield "one that isn't there is told nothing", (done.status, done.took < 8), (1, True)


def told_at_the_end(stand, count):
    """The questions by which pages are told that the search has stopped. The program doesn't wait until they are heard."""
    for _ in range(40):
        last = [question for _, question in stand.heard if b"event=stopped" in question]
        if len(last) >= count:
            break
        time.sleep(0.05)
    return last


def dht(program, net):
    """the DHT: what goes out, byte for byte (BEP 5, BEP 43); nodes that were told are asked"""
    told = many(3)
    stand = net.datagrams(NODE, by_address({
        "5.2.0.1": node(nodes=node_entry("5.2.0.2:6881") + node_entry("5.2.0.3:6881")),
        "5.2.0.2": node([compact(told[0]), compact(told[1])]),
        "5.2.0.3": node([compact(told[2])])}))
    done = seek(program, "--dht", "5.2.0.1:6881")
    yield "peers", (sorted(done.lines), done.status), (told, 0)
    yield "summary", done.summary, summary(0, 3, 3)
    yield "asked", sorted(to for to, _ in stand.asked()), ["5.2.0.1", "5.2.0.2", "5.2.0.3"]
    query = stand.asked()[0][1]
    own = query[12:32]
    yield "query", query, (b"d1:ad2:id20:" + own + b"9:info_hash20:" + HASH + b"e1:q9:get_peers2:roi1e1:t4:" + transaction(query) + b"1:y1:qe")
    yield "ids of their own", len({transaction(data) for _, data in stand.asked()}), 3
    again = seek(program, "--dht", "5.2.0.1:6881")
    yield "peers again", sorted(again.lines), told
    yield "a new node id", stand.asked()[-1][1][12:32] != own, True


def six(program, net):
    """IPv6: a tracker over UDP, one over HTTP, a node"""
    net.datagrams(TRACKER, tracker(compact("[2a00::5]:1000")), socket.AF_INET6)
    net.pages(TRACKER, peers_page(b"", compact("[2a00::6]:1000")), socket.AF_INET6)
    net.datagrams(NODE, by_address({"2a00::21": node(nodes6=node_entry("[2a00::22]:6881")),
                                    "2a00::22": node([compact("[2a00::8]:1000")])}), socket.AF_INET6)
    done = seek(program, "--dht", "[2a00::21]:6881", link=link_to("udp://[2a00::1]:6969", "http://[2a00::1]:6969/announce"))
    yield "peers", (sorted(done.lines), done.status), (["[2a00::5]:1000", "[2a00::6]:1000", "[2a00::8]:1000"], 0)
    yield "summary", done.summary, summary(2, 2, 3)


LIES = {
    "wrong id": lambda right, to: [right[:4] + bytes(x ^ 1 for x in right[4:8]) + right[8:]],
    "other port": lambda right, to: [(right, (to, 7000))],
    "other address": lambda right, to: [(right, ("5.0.0.99", TRACKER))],
    "truncated": lambda right, to: [right[:-7] if len(right) > 20 else right],
    "wrong action": lambda right, to: [struct.pack(">I", 1 - right[3]) + right[4:]],
    "action 7": lambda right, to: [struct.pack(">I", 7) + right[4:]],
    "refusal": lambda right, to: [right if right[3] == 0 else struct.pack(">I", 3) + right[4:8] + b"no"],
    "empty": lambda right, to: [b""],
}


def liars(program, net):
    """answers of trackers that don't count: wrong id, other port or address, truncated, wrong action, a refusal"""
    names = {"5.0.1.%d" % number: name for number, name in enumerate(LIES)}
    net.datagrams(TRACKER, by_address({to: lying(LIES[name]) for to, name in names.items()}))
    done = seek(program, "--no-dht", link=link_to(*("udp://%s:6969" % to for to in names)))
    yield "peers", (done.lines, done.status), ([], 1)
    yield "summary", done.summary, summary(len(names), 0, 0)
    yield "seconds", done.took < 12, True


def deep(program, net):
    """a node whose answer is 1,400 lists deep, one with a query, one with an error, one without an id"""
    def wrong(start, end):
        return lambda to, sender, data: [start + b"1:t" + text(transaction(data)) + end]
    value = b"l6:" + compact("5.1.0.1:51413") + b"e"
    net.datagrams(NODE, by_address({
        "5.2.0.1": wrong(b"d1:rd2:id20:" + bytes(20) + b"1:v" + 1400 * b"l" + 1400 * b"e" + b"6:values" + value + b"e", b"1:y1:re"),
        "5.2.0.2": wrong(b"d1:ad2:id20:" + bytes(20) + b"6:values" + value + b"e1:q9:get_peers", b"1:y1:qe"),
        "5.2.0.3": wrong(b"d1:eli201e1:ae", b"1:y1:ee"),
        "5.2.0.4": wrong(b"d1:rd6:values" + value + b"e", b"1:y1:re")}))
    words = [word for number in range(1, 5) for word in ("--dht", "5.2.0.%d:6881" % number)]
    done = seek(program, *words)
    yield "peers", (done.lines, done.status), ([], 1)
    yield "summary", done.summary, summary(0, 4, 0)


def takeable(program, net):
    """ten addresses of which one may be dialled, each answer twice"""
    told = ["5.1.0.1:51413", "5.1.0.2:0", "5.1.0.3:1", "0.0.0.5:51413", "127.0.0.1:51413", "224.0.0.1:51413", "255.255.255.255:51413",
            "240.0.0.1:51413", "192.0.2.1:51413", "198.51.100.1:51413"]
    net.datagrams(TRACKER, tracker(compact(*told), after=lambda right: [right]))
    done = seek(program, "--no-dht", link=link_to("udp://5.0.0.1:6969"))
    yield "peers", (done.lines, done.status), (["5.1.0.1:51413"], 0)


def private(program, net):
    """private addresses are passed over and counted, as peers, as nodes and as trackers of the link, unless --local is given"""
    told = ["10.1.0.1:51413", "5.1.0.1:51413", "192.168.1.1:80", "172.16.0.1:80", "169.254.1.1:80", "100.64.0.1:80"]
    stand = net.datagrams(TRACKER, tracker(compact(*told)))
    done = seek(program, "--no-dht", link=link_to("udp://5.0.0.1:6969"))
    yield "peers", (done.lines, done.status), (["5.1.0.1:51413"], 0)
    yield "summary", done.summary, summary(1, 0, 1, 5)
    done = seek(program, "--no-dht", "--local", link=link_to("udp://5.0.0.1:6969"))
    yield "peers with --local", sorted(done.lines), sorted(told)
    yield "summary with --local", done.summary, summary(1, 0, 6)
    before = len(stand.asked())
    done = seek(program, "--no-dht", link=link_to("udp://10.0.0.1:6969"))
    yield "a private tracker of the link", (done.lines, done.status, len(stand.asked())), ([], 1, before)
    yield "its summary", done.summary, summary(0, 0, 0, 1)
    done = seek(program, "--no-dht", link=link_to("udp://private.test:6969"))
    yield "a name with a private address", (done.lines, done.status, len(stand.asked())), ([], 1, before)
    for words in (["--no-dht", "--tracker", "udp://10.0.0.1:6969"], ["--no-dht", "--tracker", "udp://private.test:6969"]):
        done = seek(program, *words)
        yield "a private tracker of the words", (done.lines, done.status), (["5.1.0.1:51413"], 0)
    told = node([compact("5.1.0.3:9")], node_entry("10.2.0.2:6881"))
    nodes = net.datagrams(NODE, by_address({"10.2.0.1": told, "10.2.0.2": node([compact("5.1.0.4:9")])}))
    done = seek(program, "--dht", "10.2.0.1:6881")
    yield "a private node of the words", done.lines, ["5.1.0.3:9"]
    yield "it alone is asked", {to for to, _ in nodes.asked()}, {"10.2.0.1"}


def crowd(program, net):
    """10,000 peers in a datagram, and in a page; a page of more than 65,536 bytes; five ports of one IP address"""
    told = many(10000)
    net.datagrams(TRACKER, tracker(compact(*told)))
    done = seek(program, "--no-dht", link=link_to("udp://5.0.0.1:6969"))
    yield "peers of a datagram", (done.lines, done.status), (told[:200], 0)
    pages = net.pages(TRACKER, peers_page(compact(*told)))
    done = seek(program, "--no-dht", link=link_to("http://5.0.0.1:6969/announce"))
    yield "peers of a page", (done.lines, done.status), (told[:200], 0)
    pages.answer = peers_page(compact(*many(11000)))
    done = seek(program, "--no-dht", link=link_to("http://5.0.0.1:6969/announce"))
    yield "a page that is too long", (done.lines, done.status), ([], 1)
    ports = ["5.1.0.1:%d" % port for port in range(2, 12)]
    pages.answer = peers_page(compact(*ports))
    done = seek(program, "--no-dht", link=link_to("http://5.0.0.1:6969/announce"))
    yield "ports of an IP", done.lines, ports[:4]


def told_nodes(program, net):
    """60 nodes in an answer, of which 16 are asked; nodes that each tell more, next to the hash: 256 datagrams"""
    stand = net.datagrams(NODE, by_address({"5.2.0.1": node(nodes=b"".join(node_entry("5.4.0.%d:6881" % k) for k in range(60)))}))
    seek(program, "--dht", "5.2.0.1:6881")
    told = {to for to, _ in stand.asked()} - {"5.2.0.1"}
    yield "of 60 nodes", (len(told), told <= {"5.4.0.%d" % k for k in range(16)}), (16, True)

    def endless(to, sender, data):
        first = int(ipaddress.ip_address(to)) * 31 % 9973 * 16
        entries = b"".join(node_entry("5.6.%d.%d:6881" % divmod((first + k) % 65000, 256), near(first + k)) for k in range(16))
        return node(nodes=entries, ident=near(first + 16))(to, sender, data)
    stand.answer, stand.heard = endless, []
    done = seek(program, "--dht", "5.2.0.1:6881")
    yield "datagrams next to the hash", len(stand.asked()), 256
    yield "to one address", max([to for to, _ in stand.asked()].count(to) for to, _ in stand.asked()) <= 2, True
    yield "its peers", (done.lines, done.status), ([], 1)


def nearest(program, net):
    """the search in the DHT goes to the nodes that are nearest, and ends once eight of them have answered and there is a peer"""
    ring = {"5.4.0.%d" % k: node([compact("5.1.0.%d:9" % k)] if k < 8 else (), ident=near(k)) for k in range(16)}
    entries = b"".join(node_entry("5.4.0.%d:6881" % k, near(k)) for k in range(16))
    stand = net.datagrams(NODE, by_address({"5.2.0.1": node(nodes=entries), **ring}))
    done = seek(program, "--dht", "5.2.0.1:6881")
    yield "peers", sorted(done.lines), ["5.1.0.%d:9" % k for k in range(8)]
    asked = [to for to, _ in stand.asked()]
    yield "the first eight", set(asked[1:9]), {"5.4.0.%d" % k for k in range(8)}


def changed_bytes(program, net):
    """thousands of answers with changed bytes before the right one, which comes twice"""
    def noise(right):
        return [right[:k] + bytes([right[k] ^ (1 << bit)]) + right[k + 1:] for k in range(8) for bit in range(8) for _ in range(20)]
    net.datagrams(TRACKER, tracker(compact("5.1.0.1:51413"), before=noise, after=lambda right: [right]))
    done = seek(program, "--no-dht", link=link_to("udp://5.0.0.1:6969"))
    yield "peers", done.status in (0, 1) and done.lines in (["5.1.0.1:51413"], []), True

    def short(right):
        return [right[:k] for k in range(len(right))]
    net.datagrams(TRACKER + 1, tracker(compact("5.1.0.1:51413"), before=short, after=lambda right: [right]))
    done = seek(program, "--no-dht", link=link_to("udp://5.0.0.1:6970"))
    yield "peers after each prefix", done.lines in (["5.1.0.1:51413"], []), True


def dead_trackers(program, net):
    """20 trackers of which 19 are dead: the peers of the other come at once, and the search ends after some seconds"""
    told = many(3)
    stand = net.datagrams(TRACKER, by_address({"5.0.0.20": tracker(compact(*told))}))
    link = link_to(*("udp://5.0.0.%d:6969" % number for number in range(1, 21)))
    first, rest, took = first_line(program, "peers", link, "--no-dht")
    yield "the first peer", first, told[0]
    yield "at once", took < 1.5, True
    yield "all", rest.lines, told[1:]
    yield "its end", rest.took < 8, True
    yield "datagrams to a dead one", sum(to == "5.0.0.1" for to, _ in stand.asked()), 2
    done = seek(program, "--no-dht", link=link_to(*("udp://5.0.1.%d:6969" % number for number in range(1, 31))))
    yield "30 trackers, 20 of them asked", done.summary, summary(20, 0, 0)


def first_line(program, *words):
    """The first line of a run, what came after it, and when it came."""
    begin = time.monotonic()
    running = subprocess.Popen([program] + list(words), stdin=subprocess.DEVNULL, stdout=subprocess.PIPE, stderr=subprocess.PIPE, bufsize=0)
    line = running.stdout.readline()
    took = time.monotonic() - begin
    output, errors = running.communicate(timeout=90)
    done = subprocess.CompletedProcess(words, running.returncode, output, errors)
    return line.decode().strip(), Found(done, time.monotonic() - begin), took


def names(program, net):
    """names are looked up: of trackers, of nodes; a dead name holds nothing up that has an address"""
    net.datagrams(TRACKER, tracker(compact("5.1.0.1:51413")))
    net.pages(TRACKER, peers_page(compact("5.1.0.2:51413")))
    net.datagrams(NODE, by_address({"5.2.0.7": node([compact("5.1.0.3:51413")])}))
    done = seek(program, "--dht", "node.test:6881", link=link_to("udp://tracker.test:6969", "http://tracker.test:6969/a"))
    yield "peers", sorted(done.lines), many(3, "5.1.0.1")
    resolver = net.datagrams(53, lambda to, sender, data: [])
    first, rest, took = first_line(program, "peers", link_to(DEAD_NAME, "udp://5.0.0.1:6969"), "--no-dht")
    yield "the first peer", first, "5.1.0.1:51413"
    yield "at once", took < 1, True
    yield "its end", rest.took < 15, True
    done = seek(program, "--no-dht", link=link_to(*("udp://no%d.test:6969" % k for k in range(20))))
    yield "twenty dead names", (done.lines, done.status), ([], 1)
    yield "15 seconds and one timeout of the resolver, which is 1 second, and 3 for this machine", done.took < 19, True
    yield "no later look-up", 1 < len({data[12:] for _, data in resolver.asked()}) < 40, True


def routers(program, net):
    """without a node of the words the usual ones are asked; with --no-dht nobody, and with --no-trackers no tracker"""
    told = many(1)
    low = net.datagrams(6881, by_address({"5.3.0.1": node([compact(told[0])]), "5.3.0.2": node()}))
    high = net.datagrams(25401, by_address({"5.3.0.3": node()}))
    stand = net.datagrams(TRACKER, tracker(compact("5.1.0.9:9")))
    done = seek(program)
    yield "peers", (done.lines, done.status), (told, 0)
    yield "asked", ({to for to, _ in low.asked()}, {to for to, _ in high.asked()}), ({"5.3.0.1", "5.3.0.2"}, {"5.3.0.3"})
    before = len(low.asked())
    done = seek(program, "--no-dht")
    yield "nobody", (done.lines, done.status, done.summary), ([], 1, summary(0, 0, 0))
    yield "no node", len(low.asked()), before
    done = seek(program, "--no-trackers", link=link_to("udp://5.0.0.1:6969"))
    yield "without trackers", (done.lines, len(stand.asked())), (told, 0)
    before = len(low.asked())
    done = seek(program, "--no-trackers", "--no-dht", "--tracker", "udp://5.0.0.2:6969", link=link_to("udp://5.0.0.1:6969"))
    yield "only that of the words", (done.lines, {to for to, _ in stand.asked()}), (["5.1.0.9:9"], {"5.0.0.2"})


def unasked(program, net):
    """trackers by https, ws and wss are not asked, and a line says so; what is no URL is passed over in a link, and refused as a word"""
    net.datagrams(TRACKER, tracker(compact("5.1.0.1:51413")))
    done = seek(program, "--no-dht", link=link_to("https://5.0.0.1/announce", "wss://5.0.0.1/", "udp://5.0.0.1:6969"))
    yield "peers", (done.lines, done.status), (["5.1.0.1:51413"], 0)
    yield "note", done.errors.splitlines()[0], "bt_tool: trackers by https, ws and wss aren't asked"
    done = seek(program, "--no-dht", link=link_to("udp://5.0.0.1", "ftp://5.0.0.1/", "udp://5.0.0.1:6969"))
    yield "no URL in a link", (done.lines, done.status), (["5.1.0.1:51413"], 0)
    for url, at in (("ftp://5.0.0.1/", 0), ("udp://5.0.0.1", 13), ("udp://:80", 6), ("http://5.0.0.1:x/", 14)):
        done = seek(program, "--no-dht", "--tracker", url)
        yield url, (done.output, done.status), (b"", 2)
        yield url + " says where", "offset %d" % at in done.errors, True
    done = seek(program, "--dht", "5.2.0.1")
    yield "--dht without a port", (done.output, done.status), (b"", 2)


def bad_pages(program, net):
    """pages that don't count: a redirect, another status, chunks of HTTP/1.1, no answer, a byte a second, a failure, no dictionary"""
    right = b"d5:peers6:" + compact("5.1.0.1:51413") + b"e"

    def drip(link):
        for byte in page(right)(link):
            link.sendall(bytes([byte]))
            time.sleep(1)

    def mute(link):
        while link.recv(65536):
            pass
    answers = {
        "5.0.0.1": lambda link: b"HTTP/1.0 302 Found\r\nLocation: http://5.0.0.99:6969/\r\n\r\n" + right,
        "5.0.0.2": page(right, b"404 Not Found"),
        "5.0.0.3": lambda link: b"HTTP/1.1 200 OK\r\nTransfer-Encoding: chunked\r\n\r\n%x\r\n%s\r\n0\r\n\r\n" % (len(right), right),
        "5.0.0.4": mute, "5.0.0.5": drip,
        "5.0.0.6": page(b"d14:failure reason2:no5:peers6:" + compact("5.1.0.1:51413") + b"e"),
        "5.0.0.7": page(b"<html>"), "5.0.0.8": lambda link: b"", "5.0.0.9": lambda link: right}
    stand = net.pages(TRACKER, lambda link: answers.get(link.getsockname()[0], page(right))(link))
    done = seek(program, "--no-dht", link=link_to(*("http://%s:6969/" % host for host in answers)))
    yield "peers", (done.lines, done.status), ([], 1)
    yield "its end", 8 < done.took < 17, True
    yield "no redirect", "5.0.0.99" in {host for host, _ in stand.heard}, False
    stand.answer = page(right)
    done = seek(program, "--no-dht", link=link_to("http://5.0.0.1:6969"))
    yield "a right page", (done.lines, done.status), (["5.1.0.1:51413"], 0)
    done = seek(program, "--no-dht", link=link_to("http://5.0.0.1:6970/"))
    yield "nobody listens", (done.lines, done.status, done.took < 8), ([], 1, True)


def reader_goes(program, net):
    """who reads the peers is gone"""
    net.datagrams(TRACKER, by_address({"5.0.0.1": tracker(compact(*many(200)))}))
    reader, writer = os.pipe()
    os.close(reader)
    try:
        done = subprocess.run([program, "peers", link_to("udp://5.0.0.1:6969"), "--no-dht"], stdin=subprocess.DEVNULL, stdout=writer,
                              stderr=subprocess.PIPE, timeout=60)
    finally:
        os.close(writer)
    yield "status", (done.returncode, done.stderr), (141, b"")


def fetched(program, net):
    """fetch MAGNET asks the link's trackers and the DHT, and dials the peers that they tell, and those of the link at once"""
    seeds = net.seeds({"5.1.0.1": peers.honest, "5.1.0.5": peers.honest})
    net.datagrams(TRACKER, tracker(compact("5.1.0.9:51413", "5.1.0.1:51413")))
    net.datagrams(NODE, by_address({"5.2.0.1": node([compact("5.1.0.1:51413")])}))
    for words, link in ((["--no-dht"], link_to("udp://5.0.0.1:6969")), (["--dht", "5.2.0.1:6881"], LINK)):
        done = run(program, "fetch", *words, link)
        yield "metadata by %s" % words, (done.output == INFO, done.status), (True, 0)
        yield "its source", "5.1.0.1:51413 fetched" in done.errors.splitlines(), True
        yield "at once", done.took < 5, True
    done = run(program, "fetch", "--no-dht", link_to("udp://5.0.9.9:7999") + "&x.pe=5.1.0.5:51413")
    yield "a peer of the link", (done.output == INFO, done.took < 2), (True, True)
    seeds.heard.clear()
    done = run(program, "fetch", "--torrent", "--no-dht", link_to("udp://5.0.0.1:6969"))
    yield "a .torrent", done.output.endswith(b"4:info" + INFO + b"e"), True


def fetch_asks_nobody(program, net):
    """fetch MAGNET ADDRESS asks nobody, unless --tracker or --dht is given"""
    net.seeds({"5.1.0.1": peers.honest})
    stand = net.datagrams(TRACKER, tracker(compact("5.1.0.1:51413")))
    low = net.datagrams(6881, by_address({"5.3.0.1": node([compact("5.1.0.1:51413")]), "5.2.0.1": node([compact("5.1.0.1:51413")])}))
    done = run(program, "fetch", link_to("udp://5.0.0.1:6969"), "5.1.0.1:51413")
    yield "metadata", (done.output == INFO, done.status), (True, 0)
    done = run(program, "fetch", link_to("udp://5.0.0.1:6969"), "5.1.0.8:51413")
    yield "none", (done.output, done.status), (b"", 1)
    yield "nobody is asked", (stand.asked(), low.asked()), ([], [])
    done = run(program, "fetch", link_to("udp://5.0.0.1:6969"), "5.1.0.8:51413", "--tracker", "udp://5.0.0.2:6969", "--no-trackers")
    yield "with --tracker", (done.output == INFO, {to for to, _ in stand.asked()}), (True, {"5.0.0.2"})
    done = run(program, "fetch", LINK, "5.1.0.8:51413", "--dht", "5.2.0.1:6881")
    yield "with --dht", done.output == INFO, True


def never_dialled(program, net):
    """addresses that a stranger may not name are never dialled"""
    seeds = net.seeds({})
    told = ["127.0.0.1:51413", "10.1.0.1:51413", "0.0.0.0:51413", "5.0.0.1:0", "5.0.0.1:1", "[::ffff:10.1.0.2]:51413"]
    net.datagrams(TRACKER, tracker(compact(*told[:5])))
    done = run(program, "fetch", "--no-dht", link_to("udp://5.0.0.1:6969"))
    yield "fetch", (done.output, done.status), (b"", 1)
    yield "dialled", seeds.dialled(), set()
    net.pages(TRACKER, peers_page(compact(*told[:5]), compact(told[5], "[::1]:51413", "[fe80::1]:51413", "[ff02::1]:51413")))
    done = run(program, "fetch", "--no-dht", link_to("http://5.0.0.1:6969"))
    yield "fetch by a page", (done.output, done.status), (b"", 1)
    yield "dialled by a page", seeds.dialled(), set()


def four_ends(program, net):
    """of four peers one lies in a block, one in the size, one dies: the metadata comes, and who lied is named"""
    net.seeds({"5.1.0.1": peers.false_blocks, "5.1.0.2": peers.half_size, "5.1.0.3": peers.closing, "5.1.0.4": peers.paced})
    net.datagrams(TRACKER, tracker(compact(*many(4, "5.1.0.1"))))
    done = run(program, "fetch", "--no-dht", link_to("udp://5.0.0.1:6969"))
    yield "metadata", (done.output == INFO, done.status), (True, 0)
    yield "who lied", "5.1.0.1:51413 mismatch" in done.errors.splitlines(), True


def late_peer(program, net):
    """a tracker that tells its peers only after two seconds: fetch waits for it though it has nobody to dial"""
    net.seeds({"5.1.0.1": peers.honest})

    def late(to, sender, data):
        time.sleep(1)
        return tracker(compact("5.1.0.1:51413"))(to, sender, data)
    net.datagrams(TRACKER, late)
    done = run(program, "fetch", "--no-dht", link_to("udp://5.0.0.1:6969"))
    yield "metadata", (done.output == INFO, done.status), (True, 0)


def opentracker(program, net):
    """opentracker, by UDP and by HTTP, with five seeds"""
    told = many(5, "5.1.0.1")
    # (it takes the folder where it starts for its root, and serves only the torrents of a list)
    running = net.program([shutil.which("opentracker"), "-i", "5.0.0.1", "-p", str(TRACKER), "-P", str(TRACKER), "-w", net.file(HASH.hex() + "\n")])
    time.sleep(0.5)
    for address in told:
        announce_to(("5.0.0.1", TRACKER), address)
    for kind in ("udp", "http"):
        done = seek(program, "--no-dht", link=link_to("%s://5.0.0.1:6969/announce" % kind))
        yield kind, (sorted(done.lines), done.status), (told, 0)
        yield kind + " at once", done.took < 3, True
    yield "it runs", running.poll(), None


def announce_to(place, address):
    """Announces a seed to a tracker over UDP."""
    host, port = address.split(":")
    with socket.socket(socket.AF_INET, socket.SOCK_DGRAM) as link:
        link.bind((host, 0))
        link.settimeout(5)
        link.sendto(struct.pack(">QII", 0x41727101980, 0, 1), place)
        connection = link.recv(100)[8:16]
        ident = b"-XX0001-%012d" % int(port)
        link.sendto(connection + struct.pack(">II", 1, 2) + HASH + ident + struct.pack(">QQQIIIiH", 9, 0, 9, 2, 0, 0, 0, int(port)), place)
        link.recv(2048)


PEERS_CASES = [udp, http, dht, six, liars, deep, takeable, private, crowd, told_nodes, nearest, changed_bytes, dead_trackers, names, routers,
               unasked, bad_pages, reader_goes]
FETCH_CASES = [fetched, fetch_asks_nobody, never_dialled, four_ends, late_peer]


class Net:
    """The stand-ins of a case, which end with it."""

    def __init__(self):
        self.stands, self.programs, self.files = [], [], []

    def datagrams(self, *words):
        self.stands.append(Datagrams(*words))
        return self.stands[-1]

    def pages(self, *words):
        self.stands.append(Pages(*words))
        return self.stands[-1]

    def seeds(self, talks):
        self.stands.append(Seeds(talks.get))
        return self.stands[-1]

    def file(self, words):
        """A file with these words, which all can read."""
        with tempfile.NamedTemporaryFile("w", delete=False) as file:
            file.write(words)
        os.chmod(file.name, 0o644)
        self.files.append(file.name)
        return file.name

    def program(self, words):
        self.programs.append(subprocess.Popen(words, cwd="/", stdin=subprocess.DEVNULL, stdout=subprocess.DEVNULL, stderr=subprocess.DEVNULL))
        return self.programs[-1]

    def close(self):
        for stand in self.stands:
            stand.close()
        for running in self.programs:
            running.kill()
            running.wait()
        for name in self.files:
            os.unlink(name)


def set_up():
    """Makes the network of the namespace, and the names that it knows."""
    for words in ("link set lo up", "addr add 5.0.0.1/8 dev lo", "addr add 10.0.0.1/8 dev lo", "-6 addr add 2a00::1/128 dev lo",
                  "-6 route add local 2a00::/16 dev lo"):
        subprocess.run(["ip"] + words.split(), check=True, capture_output=True)
    hosts = "127.0.0.1 localhost\n" + "".join("%s %s\n" % (host, name) for name, host in NAMES.items())
    hosts += "".join("%s %s\n" % (host, name) for name, (host, _) in ROUTERS.items())
    for path, words in (("/etc/hosts", hosts), ("/etc/resolv.conf", "nameserver 5.9.9.9\noptions timeout:1 attempts:1\n")):
        with tempfile.NamedTemporaryFile("w", delete=False) as file:
            file.write(words)
        os.chmod(file.name, 0o644)
        subprocess.run(["mount", "--bind", file.name, os.path.realpath(path)], check=True, capture_output=True)
        os.unlink(file.name)


def namespace():
    """The words that start a program in a namespace; None if the system allows none."""
    for words in (["unshare", "-nmp"], ["unshare", "-Urnmp"]):
        words = words + ["--fork", "--kill-child", "--mount-proc"]
        with contextlib.suppress(OSError):
            done = subprocess.run(words + ["ip", "link", "set", "lo", "up"], stdin=subprocess.DEVNULL, capture_output=True)
            if done.returncode == 0:
                return words
    return None


def inside(program, wanted):
    """Runs the cases, and prints what is wrong."""
    try:
        set_up()
    except (OSError, subprocess.CalledProcessError) as error:
        print("magnets: skipped: the system allows no network of its own: %s" % error)
        return 0
    cases, skipped = PEERS_CASES + FETCH_CASES, []
    if shutil.which("opentracker") and os.environ[INSIDE] == "root":
        cases = cases + [opentracker]
    else:
        skipped.append("opentracker")
    count, wrong = 0, 0
    for case in cases:
        if wanted and case.__name__ not in wanted:
            continue
        net = Net()
        try:
            for what, got, expected in case(program, net):
                count += 1
                if got != expected:
                    wrong += 1
                    print("magnets: %s: %s: got %.600r, expected %.600r" % (case.__name__, what, got, expected), flush=True)
        except (OSError, IndexError, subprocess.SubprocessError) as error:
            wrong += 1
            print("magnets: %s: %r" % (case.__name__, error), flush=True)
        finally:
            net.close()
    told = "".join("; skipped: %s, which isn't here" % name for name in skipped)
    print("magnets: %s %d checks%s" % ("failed: %d of" % wrong if wrong else "ok:", count, told))
    return 1 if wrong else 0


def main():
    program = os.path.abspath(sys.argv[1] if len(sys.argv) > 1 else os.path.join(ROOT, "bt_tool"))
    if INSIDE in os.environ:
        return inside(program, sys.argv[2:])
    words = namespace()
    if words is None:
        print("magnets: skipped: the system allows no namespace (unshare, ip)")
        return 0
    kind = "root" if "-nmp" in words else "user"
    return subprocess.run(words + [sys.executable, os.path.abspath(__file__), program] + sys.argv[2:], env={**os.environ, INSIDE: kind}).returncode


if __name__ == "__main__":
    sys.exit(main())
