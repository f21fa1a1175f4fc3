"""The shared library, its structs, and how values go in and come out."""
from __future__ import annotations

import ctypes as C
import operator
import os
import struct
from typing import Any, Dict, List, Optional, Tuple, Union

ABI = 2
MORE, ITEM, REFUSED, END, UNWRITTEN = range(5)

# What has bytes: bytes, bytearray, or a memoryview of bytes.
Bytes = Union[bytes, bytearray, memoryview]


class Own(C.Structure):
    _fields_ = [("reserved", C.c_uint64), ("limit", C.c_uint32), ("pieces", C.c_uint32), ("has_pieces", C.c_uint8),
                ("has_info_hash", C.c_uint8), ("metadata_id", C.c_uint8), ("donthave_id", C.c_uint8), ("strict", C.c_uint8),
                ("info_hash", C.c_uint8 * 20)]


class Reader(C.Structure):
    _fields_ = [("own", Own), ("opened", C.c_uint8), ("fast", C.c_uint8), ("ext", C.c_uint8), ("past", C.c_uint8),
                ("start", C.c_uint64)]


class Extended(C.Structure):
    _fields_ = [("total_size", C.c_uint64), ("metadata_size", C.c_uint64), ("dict", C.c_uint64), ("piece", C.c_uint32),
                ("kind", C.c_uint8), ("ut_metadata", C.c_uint8), ("has_metadata_size", C.c_uint8),
                ("has_ut_metadata", C.c_uint8)]


class Item(C.Structure):
    _fields_ = [("start", C.c_uint64), ("size", C.c_uint64), ("body", C.c_uint64), ("reserved", C.c_uint64),
                ("index", C.c_uint32), ("begin", C.c_uint32), ("length", C.c_uint32), ("port", C.c_uint16),
                ("id", C.c_uint16), ("extended_id", C.c_uint8), ("reason", C.c_uint8), ("extended", Extended)]


# The fields of Item that items keep, in one tuple, which is quicker than to ask for each: start, size, index, id. The others are in the
# message's own bytes, except those of Extended, which EACH_EXTENDED has.
ITEM_FIELDS = struct.Struct("<2Q16xI10xH40x")
EXTENDED_FIELDS, EACH_EXTENDED = struct.Struct("<3QI4B"), struct.Struct("<56x32s")
assert ITEM_FIELDS.size == EACH_EXTENDED.size == C.sizeof(Item) and Item.extended.offset == 56 and EXTENDED_FIELDS.size == C.sizeof(Extended)


class Batch(C.Structure):
    _fields_ = [("count", C.c_uint64), ("used", C.c_uint64)]


class Verdict(C.Structure):
    _fields_ = [("message", C.c_uint64), ("at", C.c_uint64), ("reason", C.c_uint8)]


class Handshake(C.Structure):
    _fields_ = [("reserved", C.c_uint64), ("info_hash", C.c_uint8 * 20), ("peer_id", C.c_uint8 * 20)]


class End(C.Structure):
    _fields_ = [("state", C.c_void_p), ("held", C.c_uint8)]


class Config(C.Structure):
    _fields_ = [("own", Own), ("most", C.c_uint64), ("peer_id", C.c_uint8 * 20), ("announce", C.c_uint8), ("window", C.c_uint8),
                ("role", C.c_uint8)]


class Event(C.Structure):
    _fields_ = [("size", C.c_uint64), ("kind", C.c_uint32), ("piece", C.c_uint32), ("id", C.c_uint8), ("has_id", C.c_uint8),
                ("has_size", C.c_uint8), ("begins", C.c_uint8), ("peer_id", C.c_uint8 * 20)]


class Heard(C.Structure):
    _fields_ = [("used", C.c_uint64), ("item", Item), ("event", Event), ("verdict", Verdict)]


class Progress(C.Structure):
    _fields_ = [("size", C.c_uint64), ("blocks", C.c_uint64), ("held", C.c_uint64)]


def _place() -> str:
    """Where the library is: BT_LIBRARY if it is set, else beside this file, else in the repository."""
    given = os.environ.get("BT_LIBRARY")
    if given:
        if not os.path.isfile(given):
            raise ImportError("BT_LIBRARY names no file: %s" % given)
        return given
    here = os.path.dirname(os.path.abspath(__file__))
    root = os.path.join(here, "..", "..", "..")
    for folder in (here, os.path.join(root, "dist", "x86_64-linux"), os.path.join(root, "crates", "bt_c", "out")):
        if os.path.isfile(os.path.join(folder, "libbt.so")):
            return os.path.join(folder, "libbt.so")
    raise ImportError("there is no libbt.so; BT_LIBRARY may name its place")


def _calls() -> Dict[str, Tuple[Any, List[Any]]]:
    """The result and the parameters of each call of bt.h."""
    at, n, to, status = C.c_void_p, C.c_size_t, C.POINTER, C.c_uint32
    out = [at, n, to(Item)]
    return {
        "bt_reader_init": (None, [to(Reader), to(Own)]),
        "bt_reader_finish": (status, [to(Reader), at, n, to(Item)]),
        "bt_reader_batch": (status, [to(Reader), at, n, to(Item), n, to(Batch)]),
        "bt_check_dictionary": (status, [at, n, to(C.c_uint64)]),
        "bt_check": (status, [to(Own), at, n, to(Verdict)]),
        "bt_write_handshake": (n, [to(Handshake), at, n]),
        "bt_writer_init": (None, [to(Reader), to(Own), C.c_uint64]),
        "bt_write": (status, [to(Reader), to(Item), at, n, *out]),
        "bt_write_metadata": (status, [to(Reader), C.c_uint8, C.c_uint32, C.c_uint64, at, n, *out]),
        "bt_write_extended_handshake": (status, [to(Reader), C.c_uint8, C.c_uint8, C.c_uint64, *out]),
        "bt_end_new": (status, [to(End), to(Config), at, n]),
        "bt_end_free": (None, [to(End)]),
        "bt_end_reset": (status, [to(End)]),
        "bt_end_next": (status, [to(End), at, n, to(Heard), at, n]),
        "bt_end_waiting": (n, [to(End)]),
        "bt_end_outgoing": (n, [to(End), at, n]),
        "bt_end_sent": (None, [to(End), n]),
        "bt_end_metadata": (n, [to(End), at, n]),
        "bt_end_progress": (status, [to(End), to(Progress)]),
        "bt_end_is_hopeless": (status, [to(End)]),
        "bt_end_mismatches": (C.c_uint64, [to(End)]),
        "bt_end_begin": (status, [to(End), C.c_uint64]),
        "bt_end_set_window": (None, [to(End), C.c_uint8]),
        "bt_end_say": (status, [to(End), to(Item), at, n]),
        "bt_reason_name": (n, [C.c_uint32, at, n]),
        "bt_item_name": (n, [to(Item), at, n]),
    }


# The calls that a library with this ABI may lack, since they came later.
_LATER = ("bt_check_dictionary",)


def _load() -> Any:
    place = _place()
    try:
        library = C.CDLL(place)
        if library.bt_abi() != ABI:
            raise ImportError("%s has other structs: BT_ABI %d, not %d" % (place, library.bt_abi(), ABI))
        for name, (result, parameters) in _calls().items():
            call = getattr(library, name, None) if name in _LATER else getattr(library, name)
            if call is None:
                continue
            call.restype, call.argtypes = result, parameters
    except (OSError, AttributeError) as error:
        raise ImportError("%s isn't the library: %s" % (place, error)) from error
    return library


bt = _load()
# Two calls for arguments that are already of C, which are taken as they are: much quicker than to convert seven.
_raw = C.CDLL(bt._name)
write, end_next = _raw.bt_write, _raw.bt_end_next
write.restype = end_next.restype = C.c_uint32


def name_of(call: Any, of: Any) -> str:
    """The name that a call writes of a reason or an item."""
    text = C.create_string_buffer(24)
    call(of, text, 24)
    return text.value.decode()


def number(value: int, bits: int, what: str) -> int:
    """Returns the number if it is one of so many bits. Raises ValueError or TypeError if it isn't."""
    try:
        value = operator.index(value)
    except TypeError:
        raise TypeError("%s is %s, not an integer" % (what, type(value).__name__)) from None
    if not 0 <= value < 1 << bits:
        raise ValueError("%s is %d, not 0 to %d" % (what, value, (1 << bits) - 1))
    return value


def seconds(value: float, what: str) -> float:
    """Returns the number if it is above 0 and at most 1e9. Raises ValueError or TypeError if it isn't."""
    try:
        found = float(value) if not isinstance(value, (str, bytes, bytearray)) else None
    except TypeError:
        found = None
    if found is None:
        raise TypeError("%s is %s, not a number of seconds" % (what, type(value).__name__))
    if not 0 < found <= 1e9:
        raise ValueError("%s is %r, not above 0 and at most 1e9 seconds" % (what, value))
    return found


def positive(value: int, what: str) -> int:
    """Returns the number if it is one of 31 bits, and not 0."""
    if number(value, 31, what) == 0:
        raise ValueError("%s is 0" % what)
    return value


def content(data: Bytes, what: str = "data", size: Optional[int] = None) -> bytes:
    """Returns the bytes, if they are as many as wanted. Raises ValueError or TypeError if not."""
    try:
        view = memoryview(data)
    except TypeError:
        raise TypeError("%s is %s, not bytes" % (what, type(data).__name__)) from None
    if view.itemsize != 1:
        raise TypeError("%s has elements of %d bytes each" % (what, view.itemsize))
    found = data if isinstance(data, bytes) else bytes(view)
    if size is not None and len(found) != size:
        raise ValueError("%s has %d bytes, not %d" % (what, len(found), size))
    return found


def array(data: bytes) -> Any:
    """The bytes as an array of C."""
    return (C.c_uint8 * len(data))(*data)


def address(data: Bytes, at: int = 0) -> Optional[int]:
    """Where the bytes from `at` on lie. It holds as long as they are neither dropped nor resized."""
    if at >= len(data):
        return None
    if isinstance(data, bytes):
        base = C.cast(C.c_char_p(data), C.c_void_p).value
        assert base is not None
        return base + at
    return C.addressof(C.c_char.from_buffer(data, at))
