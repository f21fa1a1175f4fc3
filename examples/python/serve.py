#!/usr/bin/env python3
"""Serves metadata to peers. usage: serve.py FILE [PORT]

FILE is an info dictionary. The first line says its info hash and where it is served; then comes one for each connection's end.
"""
import hashlib
import os
import socket
import sys
import threading

sys.path.insert(0, os.path.join(os.path.dirname(os.path.abspath(__file__)), "../../bindings/python"))
import bt

SECONDS = 30  # without a byte


def talk(sock, end):
    """Serves one peer until it closes the connection, and returns how many blocks it asked for."""
    served = 0
    while True:
        data = sock.recv(65536)
        if not data:
            return served
        reply = b""
        while data or reply:
            served += sum(heard.event == bt.Event.SERVED for heard in end.receive(data))
            # (an end handles no more while 1 MiB waits, so it is asked again)
            reply, data = end.take(), b""
            sock.sendall(reply)


def serve(sock, address, own, metadata):
    # (an end stays on the thread that made it)
    with sock, bt.End(own, serve=metadata) as end:
        sock.settimeout(SECONDS)
        try:
            how = "%d blocks" % talk(sock, end)
        except (bt.Refused, OSError) as why:
            how = str(why)
    print("%s:%d %s" % (address[0], address[1], how), flush=True)


def main():
    with open(sys.argv[1], "rb") as file:
        metadata = file.read()
    own = bt.Own(info_hash=hashlib.sha1(metadata).digest())
    with socket.create_server(("127.0.0.1", int(sys.argv[2]) if len(sys.argv) > 2 else 0)) as listener:
        print("%s %s:%d" % (own.info_hash.hex(), *listener.getsockname()), flush=True)
        while True:
            threading.Thread(target=serve, args=(*listener.accept(), own, metadata), daemon=True).start()


main()
