"""The suite as a seed, honest or with one fault: blocks for a client that fetches, metadata for one that has only the info hash."""
import struct
import time

from . import wire
from .torrent import encode

__all__ = ["encode", "serve", "give"]


def piece(index, begin, block):
    return wire.message(7, struct.pack(">II", index, begin) + block)


def blocks(link, how, index, begin, length):
    """What answers a request, and whether requests are answered on."""
    block = link.torrent.block(index, begin, length) if link.torrent.data is not None else bytes(length)
    good, reject = piece(index, begin, block), wire.line(link.torrent, "reject %d %d %d" % (index, begin, length))
    again = {"good": good, "reject": reject, "garbage": piece(index, begin, b"\xee" * len(block)), "hold": b""}
    once = {"short": piece(index, begin, block[:-1]), "long": piece(index, begin, block + b"x"), "empty": piece(index, begin, b""),
            "shift": piece(index, begin + 1, block), "index": piece(link.torrent.pieces, begin, block),
            "begin": piece(index, 0xffffc000, block), "twice": good + good, "choke": wire.message(0) + good,
            "reject-and-piece": reject + good, "bytewise": good}
    return (again[how], True) if how in again else (once[how], False)


def serve(link, how, seconds):
    """Answers block requests for some seconds, or one if the fault is of one answer. Returns how many were answered."""
    limit, count = time.monotonic() + seconds, 0
    while not link.end:
        while link.heard.requests and (link.dry or time.monotonic() < limit):
            answer, more = blocks(link, how, *link.heard.requests.popleft())
            count += 1
            if how == "bytewise":
                for at in range(64):
                    link.send(answer[at:at + 1])
                    link.sleep(0.001)
                answer = answer[64:]
            link.send(answer)
            if not more:
                return count
        if time.monotonic() >= limit:
            break
        link.until(lambda: link.heard.requests, min(0.2, limit - time.monotonic()))
    return count


def metadata(link, how, number):
    """What answers a metadata request."""
    size, block = len(link.torrent.info), link.torrent.metadata(number)
    data = {"good": (number, size, block), "garbage": (number, size, b"\xee" * len(block)), "short": (number, size, block[:-1]),
            "long": (number, size, block + b"x"), "empty": (number, size, b""), "total": (number, size - 1, block),
            "total-2^31-1": (number, 2**31 - 1, block), "total-negative": (number, -1, block), "number": (1000000, size, block),
            "number-negative": (-1, size, block), "number-2^31": (2**31, size, block), "number-2^62": (2**62, size, block)}
    if how == "reject":
        body = encode({b"msg_type": 2, b"piece": number})
    else:
        piece_, total, rest = data[how]
        body = encode({b"msg_type": 1, b"piece": piece_, b"total_size": total}) + rest
    return wire.message(20, bytes([link.heard.um or 1]) + body)


def give(link, how, seconds):
    """Answers metadata requests for some seconds. Returns how many came."""
    limit, count = time.monotonic() + seconds, 0
    while not link.end:
        while link.heard.metadata_requests and (link.dry or time.monotonic() < limit):
            link.send(metadata(link, how, link.heard.metadata_requests.popleft()))
            count += 1
        if time.monotonic() >= limit:
            break
        link.until(lambda: link.heard.metadata_requests, min(0.2, limit - time.monotonic()))
    return count
