#!/usr/bin/env python3
"""Answers a peer: a handshake, an extended handshake, a request for the metadata's first block. usage: write.py <STREAM >ANSWER"""
import os
import sys

sys.path.insert(0, os.path.join(os.path.dirname(os.path.abspath(__file__)), "../../bindings/python"))
import bt

OWN = bt.Own()
PEER_ID = b"-XX0001-writewritewr"


def answers(items):
    """What is sent after each item of the peer, each message judged as that peer judges it."""
    for item in items:
        if item.id == bt.HANDSHAKE:
            yield bt.handshake(item.info_hash, PEER_ID, OWN.reserved)
            writer = bt.Writer(OWN, item.reserved)
            if item.reserved & bt.EXTENSIONS:
                yield writer.extended_handshake(OWN.metadata_id)
        elif item.kind == bt.EXT_HANDSHAKE:
            writer.hear(item)
            if item.ut_metadata:
                yield writer.metadata_request(0)


try:
    for answer in answers(bt.stream(sys.stdin.buffer, OWN)):
        sys.stdout.buffer.write(answer)
        sys.stdout.buffer.flush()
except bt.Refused as refused:
    sys.exit("write: %s" % refused)
