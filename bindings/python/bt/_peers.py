"""What fetches from one peer and from several have in common."""
from __future__ import annotations

from typing import List, Optional, Tuple, Union

from . import _library as lib

# The name or the IP address of a host, and a port; or both in one text with a colon between.
Address = Union[str, Tuple[str, int]]
CHUNK = 65536
# The greatest size of metadata.
MOST = 67_108_864
# Clients of this kind answer one request at a time: a second one makes them stop.
ONE_AT_A_TIME = b"-lt"
CLOSED = "the peer closed the connection"
HOPELESS = "the peer has no metadata, or rejected a block of it"
IN_TIME = "the peer didn't give the metadata in time"
OTHER = "the peer sent other metadata"


class FetchError(OSError):
    """Raised if a peer doesn't give the metadata; the message says why.

    `failures` is empty; or, if there were several peers, a pair for each connection that ended: the peer, and the exception.
    """

    failures: List[Tuple[Address, Exception]]

    def __init__(self, *words: object) -> None:
        super().__init__(*words)
        self.failures = []


def see_size(size: Optional[int], most: int) -> None:
    """Raises FetchError if the peer announces a size that isn't 1 to `most`."""
    if size is not None and not 0 < size <= most:
        raise FetchError("the peer announced metadata of %d bytes, not of 1 to %d" % (size, most))


def split(address: Address) -> Tuple[str, int]:
    """Returns the host and the port. Raises ValueError or TypeError."""
    if not isinstance(address, str):
        if not isinstance(address, (tuple, list)):
            raise TypeError("address is %s, not 'HOST:PORT' or (HOST, PORT)" % type(address).__name__)
        if len(address) != 2:
            raise ValueError("address is %r, not 'HOST:PORT' or (HOST, PORT)" % (address,))
        host, number = address
        if not isinstance(host, str):
            raise TypeError("host is %s, not str" % type(host).__name__)
        return host, lib.number(number, 16, "port")
    host, _, port = address.rpartition(":")
    if not host or not port.isdecimal():
        raise ValueError("address is %r, not 'HOST:PORT'" % address)
    return host.strip("[]"), lib.number(int(port), 16, "port")
