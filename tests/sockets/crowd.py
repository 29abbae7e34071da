#!/usr/bin/env python3
"""Many clients at once, each with bytes of its own.

crowd.py KIND WHERE COUNT [STEP]      KIND is tcp4, tcp6, unix or udp4, WHERE a path, PORT, or @PID of who listens there

STEP is `echo=BYTES` (20000), which sends so many bytes, half-closes, and expects just these back; `late=BYTES`, the
same a second after all have connected; `leave`, which
connects and closes; `reset`, which connects and resets; `read`, which says what comes, one line a client, sorted; with
udp4 also `rounds=NUMBER`, so many times a datagram with a line of its own, which is to come back in capitals before the
next one.
It prints how many did so, and why the first other one didn't.
"""
import hashlib
import os
import selectors
import socket
import struct
import sys
import time

from stand import new_socket, port_now, waited_for
from talk import LIMIT, kept

HOSTS = {"tcp4": "127.0.0.1", "tcp6": "::1", "udp4": "127.0.0.1"}


def bytes_of(number, count):
    return hashlib.shake_128(b"%d of a crowd" % number).digest(count)


class Client:
    """One client, whose calls don't wait."""

    def __init__(self, kind, where, number, count):
        self.sent = bytes_of(number, count) if count else b""
        self.left = self.sent
        self.got = b""
        self.datagrams = kind.startswith("udp")
        self.sock = kept(new_socket(kind))
        self.sock.settimeout(LIMIT)
        self.sock.connect(where)
        self.sock.setblocking(False)

    def give(self):
        if self.left:
            count = self.sock.send(self.left[:65536])
            self.left = self.left[count:]
        if not self.left and not self.datagrams:
            self.sock.shutdown(socket.SHUT_WR)

    def take(self):
        """Whether there is more to come."""
        piece = self.sock.recv(65536)
        self.got += piece
        return bool(piece) and not (self.datagrams and len(self.got) >= len(self.sent))


def crowd(kind, where, count, size, pause=0):
    """The clients after all their talks; what went wrong with one is its `wrong`."""
    clients = []
    ready = selectors.DefaultSelector()
    for number in range(count):
        client = Client(kind, where, number, size)
        client.wrong = None
        clients.append(client)
        wants = selectors.EVENT_READ | (selectors.EVENT_WRITE if size else 0)
        ready.register(client.sock, wants, client)
    time.sleep(pause)
    while ready.get_map():
        events = ready.select(LIMIT)
        if not events:
            for key in list(ready.get_map().values()):
                key.data.wrong = f"waits after {len(key.data.got)} bytes"
            break
        for key, mask in events:
            client = key.data
            try:
                if mask & selectors.EVENT_WRITE:
                    client.give()
                    if not client.left:
                        ready.modify(client.sock, selectors.EVENT_READ, client)
                if mask & selectors.EVENT_READ and not client.take():
                    ready.unregister(client.sock)
            except OSError as error:
                client.wrong = str(error)
                ready.unregister(client.sock)
    for client in clients:
        client.sock.close()
    return clients


def rounds(kind, where, count, number):
    """The clients after so many rounds, in each of which all of them send at once; what went wrong is its `wrong`."""
    clients = [Client(kind, where, client, 0) for client in range(count)]
    ready = selectors.DefaultSelector()
    for client in clients:
        client.wrong = None
        ready.register(client.sock, selectors.EVENT_READ, client)
    for turn in range(number):
        for place, client in enumerate(clients):
            client.sent = b"client %d, round %d\n" % (place, turn)
            client.got = b""
            client.sock.send(client.sent)
        left = count
        while left > 0:
            events = ready.select(LIMIT)
            if not events:
                break
            for key, _ in events:
                key.data.got += key.data.sock.recv(65536)
                left -= 1
        for client in clients:
            if client.wrong is None and client.got != client.sent.upper():
                client.wrong = f"got {client.got!r} for {client.sent!r}"
    for client in clients:
        client.sock.send(b"")
        client.sent = client.got = b""
        client.sock.close()
    return clients


def visit(kind, where, count, resets):
    for _ in range(count):
        sock = new_socket(kind)
        sock.settimeout(LIMIT)
        sock.connect(where)
        if resets:
            sock.setsockopt(socket.SOL_SOCKET, socket.SO_LINGER, struct.pack("ii", 1, 0))
        sock.close()


def main(kind, where, count, step="echo=20000"):
    if where.startswith("@"):
        where = waited_for(port_now, kind, int(where[1:]))
    place = where if kind == "unix" else (HOSTS[kind], int(where))
    name, _, value = step.partition("=")
    if name in ("leave", "reset"):
        visit(kind, place, int(count), name == "reset")
        print(f"{count} came")
        return
    if name == "rounds":
        clients = rounds(kind, place, int(count), int(value))
    else:
        clients = crowd(kind, place, int(count), int(value or 0), 1 if name == "late" else 0)
    if name == "read":
        for text in sorted(client.got for client in clients):
            os.write(1, text)
        return
    for number, client in enumerate(clients):
        if client.wrong is None and client.got != client.sent:
            client.wrong = f"got {len(client.got)} bytes of {len(client.sent)}"
        if client.wrong:
            print(f"client {number}: {client.wrong}")
            return
    print(f"{len(clients)} had their own")


main(*sys.argv[1:])
