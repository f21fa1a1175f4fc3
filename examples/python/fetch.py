#!/usr/bin/env python3
"""Fetches the metadata of a torrent from a peer. usage: fetch.py INFO-HASH HOST:PORT >METADATA"""
import os
import socket
import sys

sys.path.insert(0, os.path.join(os.path.dirname(os.path.abspath(__file__)), "../../bindings/python"))
import bt


def fetch(sock, info_hash):
    """What bt.fetch does, with a line for each event."""
    with bt.End(bt.Own(info_hash=info_hash), fetch=True) as end:
        while end.metadata is None and not end.is_hopeless and end.mismatches == 0:
            sock.sendall(end.take())
            data = sock.recv(65536)
            if not data:
                return None
            for heard in end.receive(data):
                print(heard.event.name, heard.item.name, end.progress, file=sys.stderr)
        return end.metadata


host, _, port = sys.argv[2].rpartition(":")
with socket.create_connection((host, int(port)), 30) as sock:
    metadata = fetch(sock, bytes.fromhex(sys.argv[1]))
if metadata is None:
    sys.exit("fetch: the peer doesn't give the metadata")
sys.stdout.buffer.write(metadata)
