"""The loop that a user writes by hand in Python: it frames and decodes, and gives no verdict."""
import struct

U32, U32_2, U32_3 = (struct.Struct(shape).unpack_from for shape in (">I", ">II", ">III"))


class Message:
    """One small class for all messages."""

    __slots__ = ("start", "id", "index", "begin", "length", "payload")

    def __init__(self, start, id, index=None, begin=None, length=None, payload=None):
        self.start = start
        self.id = id
        self.index = index
        self.begin = begin
        self.length = length
        self.payload = payload


def read(data):
    yield Message(0, 257, payload=data[:68])
    view, at, n = memoryview(data), 68, len(data)
    while at + 4 <= n:
        size, = U32(data, at)
        end = at + 4 + size
        if end > n:
            return
        if size == 0:
            yield Message(at, 256)
        else:
            id = data[at + 4]
            if id == 4 or id == 13 or id == 17:
                index, = U32(data, at + 5)
                yield Message(at, id, index)
            elif id == 7:
                index, begin = U32_2(data, at + 5)
                yield Message(at, id, index, begin, None, view[at + 13:end])
            elif id == 6 or id == 8 or id == 16:
                index, begin, length = U32_3(data, at + 5)
                yield Message(at, id, index, begin, length)
            elif id == 20:
                yield Message(at, id, data[at + 5], None, None, view[at + 6:end])
            else:
                yield Message(at, id, None, None, None, view[at + 5:end])
        at = end


NAMES = {4: "have", 6: "request", 7: "piece", 8: "cancel", 16: "reject", 256: "keep-alive", 257: "handshake"}
HAVE = struct.Struct(">IBI").pack
