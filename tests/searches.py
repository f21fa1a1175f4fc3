#!/usr/bin/env python3
"""Compares the search for peers with a model, on random logs: the same questions, the same peers, in the same order.

usage: tests/searches.py [PROGRAM] [--logs N] [--damaged N] [--seed N]

PROGRAM is the built program `bt_seek_play`, or else that of crates/bt_seek_play/out. N logs are played (300), and N answers that were
damaged (3,000). The model is written by the BEPs and docs/FETCH.md: it keeps lists where the program has a table, and reads bencoding by
itself. A log has trackers over UDP and HTTP and nodes of the DHT, whose answers are right, of another sender, of another id, damaged,
twice, late, or missing.
"""
import functools
import ipaddress
import os
import random
import struct
import subprocess
import sys

ROOT = os.path.dirname(os.path.dirname(os.path.abspath(__file__)))
INFO_HASH, PEER_ID, NODE_ID, KEY = b"mnopqrstuvwxyz123456", b"-TZ0001-abcdefghijkl", b"abcdefghij0123456789", b"keys"
CONNECT, ANNOUNCE, STOP, NODES = "connect", "announce", "stop", "nodes"
LOCAL = [ipaddress.ip_network(net) for net in ("10.0.0.0/8", "100.64.0.0/10", "169.254.0.0/16", "172.16.0.0/12", "192.168.0.0/16", "fc00::/7", "fe80::/10")]


# ---- bencoding (BEP 3)

class Bad(Exception):
    """Bytes that are no bencoding."""


def whole_number(digits, signed):
    """The number of canonical digits."""
    text = digits[1:] if signed and digits[:1] == b"-" else digits
    if not text.isdigit() or (text[:1] == b"0" and text != b"0") or digits == b"-0":
        raise Bad
    return int(digits)


def value_at(data, at, depth):
    """The value at an offset, and the offset after it."""
    kind = data[at:at + 1]
    if kind == b"i":
        end = data.find(b"e", at)
        number = whole_number(data[at + 1:end], True) if end > at else None
        if number is None or not -2 ** 63 <= number < 2 ** 63:
            raise Bad
        return number, end + 1
    if kind in (b"l", b"d"):
        if depth == 32:
            raise Bad
        items, at = [], at + 1
        while data[at:at + 1] != b"e":
            item, at = value_at(data, at, depth + 1)
            items.append(item)
            if kind == b"d" and len(items) % 2 and not isinstance(item, bytes):
                raise Bad
        if kind == b"l":
            return items, at + 1
        if len(items) % 2:
            raise Bad
        pairs = {}
        for key, item in zip(items[::2], items[1::2]):
            pairs.setdefault(key, item)
        return pairs, at + 1
    colon = data.find(b":", at)
    if colon < 0:
        raise Bad
    size = whole_number(data[at:colon], False)
    if size > 1048576 or colon + 1 + size > len(data):
        raise Bad
    return data[colon + 1:colon + 1 + size], colon + 1 + size


def dictionary(data, is_all):
    """The dictionary that bytes begin with, or that all of them are; None if there is none."""
    try:
        found, end = value_at(data, 0, 0)
    except Bad:
        return None
    return found if isinstance(found, dict) and (end == len(data) or not is_all) else None


# ---- addresses

def addresses(data, size):
    """The addresses that bytes begin with, of 6 or 18 bytes each."""
    return [address_of(data[k:k + size]) for k in range(0, len(data) - size + 1, size)]


def address_of(data):
    host = ipaddress.ip_address(data[:-2])
    return host, int.from_bytes(data[-2:], "big")


def shown(address):
    return ("[%s]:%d" if address[0].version == 6 else "%s:%d") % address


def packed(address):
    return address[0].packed + address[1].to_bytes(2, "big")


def is_local(host):
    return any(host in net for net in LOCAL if net.version == host.version)


@functools.lru_cache(maxsize=None)
def may_be_named(address, takes_local):
    """Whether a stranger may name this address. Only addresses that the logs draw from are judged."""
    host, port = address
    if port < 2 or host.is_loopback or host.is_multicast or host.is_unspecified:
        return False
    if host.version == 4 and (host.packed[0] == 0 or host.packed[0] >= 224):
        return False
    return takes_local if is_local(host) else True


# ---- the model

class Model:
    """A search: what it sends in a turn, given what came before it."""

    def __init__(self, takes_local):
        self.takes_local, self.begun, self.time, self.drawn, self.out = takes_local, None, 0, 0, []
        self.open, self.due, self.pages, self.asked_pages, self.page_count = [], [], [], 0, 0
        self.nodes, self.sent, self.peers, self.announced = [], [], [], []

    def add_tracker(self, address):
        self.due.append((address, CONNECT, b"", 0, None))

    def add_node(self, address, ident=None):
        if all(node["at"] != address for node in self.nodes):
            self.nodes.append({"at": address, "id": ident, "asked": False, "answered": False})

    # -- questions

    def datagram(self, kind, ident, connection):
        if kind == CONNECT:
            return struct.pack(">QI", 0x41727101980, 0) + ident
        if kind == NODES:
            return (b"d1:ad2:id20:" + NODE_ID + b"9:info_hash20:" + INFO_HASH + b"e1:q9:get_peers2:roi1e1:t4:" + ident + b"1:y1:qe")
        event, wanted = (2, 50) if kind == ANNOUNCE else (3, 0)
        return (connection + struct.pack(">I", 1) + ident + INFO_HASH + PEER_ID + struct.pack(">QQQII", 0, 1, 0, event, 0) + KEY
                + struct.pack(">IH", wanted, 1))

    def page_question(self, event, wanted):
        def escaped(data):
            return "".join("%%%02X" % byte for byte in data)
        return ("GET /announce?info_hash=%s&peer_id=%s&port=1&uploaded=0&downloaded=0&left=1&compact=1&numwant=%d&event=%s HTTP/1.0\r\n"
                "Host: tracker.test:8080\r\n\r\n" % (escaped(INFO_HASH), escaped(PEER_ID), wanted, event)).encode()

    def is_open(self, to, ident):
        return any(at == to and known == ident for at, known, _, _ in self.open)

    def send(self, to, kind, connection, again):
        if again is not None and not self.is_open(to, again):
            return
        if len(self.sent) >= 256 or self.sent.count(to) >= (2 if kind == NODES else 5):
            return
        self.drawn += 1
        ident = self.drawn.to_bytes(4, "big")
        self.out.append("sent %s %s" % (shown(to), self.datagram(kind, ident, connection).hex()))
        self.open.append((to, ident, kind, self.time))
        self.sent.append(to)
        if again is None and kind != STOP:
            if kind == ANNOUNCE:
                self.announced.append((to, connection))
            self.due.append((to, kind, connection, self.time + 1000, ident))

    def distance(self, ident):
        return -1 if ident is None else int.from_bytes(ident, "big") ^ int.from_bytes(INFO_HASH, "big")

    def next_node(self):
        left = [node for node in self.nodes if not node["asked"]]
        if not left:
            return None
        best = min(left, key=lambda node: self.distance(node["id"]))
        nearer = sum(node["answered"] and self.distance(node["id"]) < self.distance(best["id"]) for node in self.nodes)
        return None if self.peers and nearer >= 8 else best

    def ask(self):
        while self.asked_pages < self.page_count:
            self.out.append("asked %d %s" % (self.asked_pages, self.page_question("started", 50).hex()))
            self.pages.append((self.asked_pages, self.time))
            self.asked_pages += 1
        waiting, self.due = self.due, []
        for item in waiting:
            if item[3] <= self.time:
                self.send(item[0], item[1], item[2], item[4])
            else:
                self.due.append(item)
        for _ in range(8):
            if sum(kind == NODES for _, _, kind, _ in self.open) >= 8:
                break
            node = self.next_node()
            if node is None:
                break
            node["asked"] = True
            self.send(node["at"], NODES, b"", None)

    # -- answers

    def add_peers(self, told):
        for address in told:
            if (may_be_named(address, self.takes_local) and address not in self.peers and len(self.peers) < 200
                    and sum(host == address[0] for host, _ in self.peers) < 4):
                self.peers.append(address)

    def counts(self, source, ident, kinds):
        """Whether a question of these kinds is open to the sender. All that are open to it are closed then."""
        if not any(at == source and known == ident and kind in kinds for at, known, kind, _ in self.open):
            return False
        self.open = [item for item in self.open if item[0] != source]
        return True

    def hear(self, source, data):
        action = int.from_bytes(data[:4], "big") if len(data) >= 8 else None
        if action == 0 and len(data) >= 16:
            if self.counts(source, data[4:8], (CONNECT,)):
                self.due.append((source, ANNOUNCE, data[8:16], self.time, None))
        elif action == 1 and len(data) >= 20:
            if self.counts(source, data[4:8], (ANNOUNCE,)):
                self.add_peers(addresses(data[20:], 6 if source[0].version == 4 else 18))
        elif action == 3:
            self.counts(source, data[4:8], (CONNECT, ANNOUNCE, STOP))
        else:
            self.hear_node(source, dictionary(data, True))

    def hear_node(self, source, message):
        if message is None or not isinstance(message.get(b"t"), bytes) or len(message[b"t"]) != 4:
            return
        told, failed = message.get(b"r"), message.get(b"e")
        if message.get(b"y") == b"r" and isinstance(told, dict):
            ident = told.get(b"id")
            if isinstance(ident, bytes) and len(ident) == 20 and self.counts(source, message[b"t"], (NODES,)):
                self.follow(source, ident, told)
        elif message.get(b"y") == b"e" and isinstance(failed, list) and len(failed) > 1:
            if isinstance(failed[0], int) and isinstance(failed[1], bytes):
                self.counts(source, message[b"t"], (NODES,))

    def follow(self, source, ident, told):
        values = told.get(b"values")
        values = [value for value in values if isinstance(value, bytes) and len(value) in (6, 18)] if isinstance(values, list) else []
        self.add_peers([address_of(value) for value in values])
        for node in self.nodes:
            if node["at"] == source:
                node["id"], node["answered"] = ident, True
        found = []
        for key, size in ((b"nodes", 26), (b"nodes6", 38)):
            infos = told.get(key)
            if isinstance(infos, bytes) and len(infos) % size == 0:
                found += [(infos[k:k + 20], address_of(infos[k + 20:k + size])) for k in range(0, len(infos), size)]
        for known, address in found[:16]:
            if may_be_named(address, self.takes_local):
                self.add_node(address, known)

    def hear_page(self, number, answer):
        if number not in [page for page, _ in self.pages]:
            return
        self.pages = [item for item in self.pages if item[0] != number]
        head, _, body = answer.partition(b"\r\n\r\n")
        if not head.startswith(b"HTTP/1.0 200 OK"):
            return
        told = dictionary(body, False)
        if told is not None and not isinstance(told.get(b"failure reason"), bytes):
            for key, size in ((b"peers", 6), (b"peers6", 18)):
                if isinstance(told.get(key), bytes):
                    self.add_peers(addresses(told[key], size))

    # -- turns

    def is_ended(self):
        return len(self.peers) >= 200 or self.time - self.begun >= 15000

    def waits(self):
        return any(again is None or self.is_open(to, again) for to, _, _, _, again in self.due)

    def turn(self, time, mail):
        self.time, self.out = time, []
        self.begun = time if self.begun is None else self.begun
        self.open = [item for item in self.open if time - item[3] < 3000]
        self.pages = [item for item in self.pages if time - item[1] < 10000]
        for kind, place, data in mail:
            if kind == "datagram":
                self.hear(place, data)
            elif kind == "answer":
                self.hear_page(place, data)
            else:
                self.hear_page(place, b"")
        if not self.is_ended():
            self.ask()
        goes_on = self.open or self.pages or self.waits() or self.asked_pages < self.page_count or self.next_node() is not None
        self.out.append("going" if goes_on and not self.is_ended() else "over")
        return self.out

    def end(self):
        self.out, told, self.announced = [], self.announced, []
        for to, connection in told:
            self.send(to, STOP, connection, None)
        for page in range(self.asked_pages):
            self.out.append("stopped %d %s" % (page, self.page_question("stopped", 0).hex()))
        return self.out + ["peer %s" % shown(peer) for peer in self.peers]


# ---- random logs

PUBLIC = [ipaddress.ip_address("8.8.%d.%d" % (k % 3, k // 3 + 1)) for k in range(90)]
PRIVATE = [ipaddress.ip_address(net % k) for net in ("10.0.0.%d", "192.168.1.%d", "172.16.0.%d") for k in range(1, 9)]
SIX = [ipaddress.ip_address("2a00::%x" % k) for k in range(1, 40)]
REFUSED = [ipaddress.ip_address(host) for host in ("127.0.0.1", "0.1.2.3", "224.0.0.1", "255.255.255.255", "::1", "ff02::1")]
PORTS = (0, 1, 2, 3, 4, 5, 6, 6881, 51413, 65535)


def drawn_address(draw, port=None):
    """An address: most often a public one of few, sometimes a private one, IPv6, or one that nobody may name."""
    kind = draw.random()
    hosts = PUBLIC if kind < 0.7 else PRIVATE if kind < 0.8 else SIX if kind < 0.95 else REFUSED
    return draw.choice(hosts), draw.choice(PORTS) if port is None else port


def of_family(draw, version):
    """An address of a family."""
    hosts = [host for host in draw.choice((PUBLIC, PRIVATE, REFUSED) if version == 4 else (SIX, REFUSED)) if host.version == version]
    return draw.choice(hosts), draw.choice(PORTS)


def text(value):
    return b"%d:%s" % (len(value), value)


def node_answer(draw, ident):
    """An answer of a node, with nodes and peers."""
    def name():
        return INFO_HASH[:draw.choice((0, 5, 19))].ljust(20, bytes([draw.randrange(256)]))
    told = b"2:id" + text(name())
    if draw.random() < 0.8:
        told += b"5:nodes" + text(b"".join(name() + packed(of_family(draw, 4)) for _ in range(draw.choice((0, 1, 3, 8, 15, 20)))))
    if draw.random() < 0.3:
        told += b"6:nodes6" + text(b"".join(name() + packed(of_family(draw, 6)) for _ in range(draw.choice((1, 2, 8)))))
    if draw.random() < 0.5:
        told += b"6:valuesl" + b"".join(text(packed(drawn_address(draw))) for _ in range(draw.randrange(6))) + b"e"
    if draw.random() < 0.05:
        return b"d1:eli201e5:wronge1:t4:" + ident + b"1:y1:ee"
    return b"d1:rd" + told + b"e1:t4:" + ident + b"1:y1:re"


def right_answer(draw, to, question):
    """A right answer to a datagram."""
    if question[:1] == b"d":
        return node_answer(draw, question[-11:-7])
    if len(question) == 16:
        return bytes(4) + question[12:16] + bytes(draw.randrange(256) for _ in range(8))
    if draw.random() < 0.1:
        return struct.pack(">I", 3) + question[12:16] + b"no such torrent"
    told = [drawn_address(draw) for _ in range(draw.choice((0, 1, 5, 30, 300)))]
    told = b"".join(packed(address) for address in told if address[0].version == to[0].version)
    return struct.pack(">I4sIII", 1, question[12:16], 1800, 1, 2) + told + bytes(draw.randrange(3))


def damaged(draw, data):
    """Bytes with a change: some other byte, cut off, one more, or a piece twice."""
    data, kind = bytearray(data), draw.randrange(5)
    if kind == 0 and data:
        data[draw.randrange(len(data))] ^= 1 << draw.randrange(8)
    elif kind == 1:
        del data[draw.randrange(len(data) + 1):]
    elif kind == 2:
        data.insert(draw.randrange(len(data) + 1), draw.choice(b"0123456789ielde:-"))
    elif kind == 3 and data:
        at = draw.randrange(len(data))
        data[at:at] = data[at:at + draw.randrange(12)]
    else:
        data += bytes([draw.randrange(256)])
    return bytes(data)


def mail_for(draw, model, harm):
    """What comes before the next turn: answers to what was sent in the last one, and others."""
    mail = []
    for line in model.out:
        words = line.split(" ")
        if words[0] == "asked" and draw.random() < 0.9:
            body = b"d5:peers" + text(b"".join(packed(drawn_address(draw)) for _ in range(draw.randrange(6)))) + b"e"
            answer = draw.choice((b"HTTP/1.0 200 OK\r\n\r\n", b"HTTP/1.0 200 OK\r\nA: b\r\n\r\n", b"HTTP/1.0 404 Not Found\r\n\r\n")) + body
            mail.append(("answer", int(words[1]), answer) if draw.random() < 0.9 else ("failed", int(words[1]), b""))
        if words[0] != "sent" or draw.random() < 0.2:
            continue
        host, port = words[1].rsplit(":", 1)
        to = ipaddress.ip_address(host.strip("[]")), int(port)
        answer = right_answer(draw, to, bytes.fromhex(words[2]))
        mail += [("datagram", to, damaged(draw, answer)) for _ in range(harm)]
        kind = draw.random()
        if kind < 0.1:
            mail.append(("datagram", drawn_address(draw), answer))
        elif kind < 0.2:
            mail.append(("datagram", (to[0], to[1] ^ 1), answer))
        mail += [("datagram", to, answer)] * draw.choice((0, 1, 1, 1, 1, 2))
    if draw.random() < 0.2:
        mail.append(("datagram", drawn_address(draw), node_answer(draw, bytes([0, 0, 0, draw.randrange(20)]))))
    draw.shuffle(mail)
    return mail[:250]


def log_of(seed, harm):
    """A random log as lines, and what is expected after each."""
    draw = random.Random(seed)
    takes_local = draw.random() < 0.3
    model, lines = Model(takes_local), [("begin local" if takes_local else "begin", [])]
    for _ in range(draw.randrange(4)):
        address = drawn_address(draw, 80)
        model.add_tracker(address)
        lines.append(("tracker " + shown(address), []))
    for _ in range(draw.choice((0, 1, 1, 3, 12))):
        address = drawn_address(draw, 6881)
        model.add_node(address)
        lines.append(("node " + shown(address), []))
    for _ in range(draw.randrange(3)):
        model.page_count += 1
        lines.append(("page", []))
    now, late = draw.randrange(5000), []
    for _ in range(60):
        mail = mail_for(draw, model, harm)
        mail, late = late + [item for item in mail if draw.random() < 0.9], [item for item in mail if draw.random() < 0.1]
        lines += [(("%s %s %s" % (kind, shown(place) if kind == "datagram" else place, data.hex())).rstrip(), []) for kind, place, data in mail]
        now += draw.choice((1, 20, 300, 999, 1000, 1001, 2999))
        expected = model.turn(now, mail)
        lines.append(("turn %d" % now, list(expected)))
        if expected[-1] == "over":
            break
    return lines + [("end", model.end()), ("end", ["peer %s" % shown(peer) for peer in model.peers])]


def play(program, logs):
    """Plays logs in one run, and returns what is wrong."""
    lines = [line for log in logs for line, _ in log]
    wanted = [line for log in logs for _, expected in log for line in expected]
    done = subprocess.run([program], input="".join(line + "\n" for line in lines), capture_output=True, text=True, timeout=600)
    got = [line for line in done.stdout.splitlines() if line]
    if done.returncode != 0:
        return "status %d: %s" % (done.returncode, done.stderr[:300])
    if got == wanted:
        return None
    at = next((k for k, (one, other) in enumerate(zip(got, wanted)) if one != other), min(len(got), len(wanted)))
    return "line %d: got %.300r, expected %.300r" % (at, got[at:at + 1], wanted[at:at + 1])


def option(words, name, otherwise):
    if name not in words:
        return otherwise
    at = words.index(name)
    number = int(words[at + 1])
    del words[at:at + 2]
    return number


def main(words):
    logs, answers, seed = option(words, "--logs", 300), option(words, "--damaged", 3000), option(words, "--seed", 1)
    program = os.path.abspath(words[0]) if words else os.path.join(ROOT, "crates/bt_seek_play/out/bt_seek_play")
    wrong, played, harmed = 0, 0, 0
    while played < logs or harmed < answers:
        harm = 0 if played < logs else 3
        log = log_of((seed << 32) + played, harm)
        harmed += harm and sum(line.startswith("datagram") for line, _ in log)
        played += 1
        said = play(program, [log])
        if said:
            wrong += 1
            print("searches: log %d of seed %d: %s" % (played - 1, seed, said))
    print("searches: %s %d logs, with %d answers of which most were damaged" % ("failed: %d of" % wrong if wrong else "ok:", played, harmed))
    return 1 if wrong else 0


if __name__ == "__main__":
    sys.exit(main(sys.argv[1:]))
