#!/usr/bin/env python3
"""A resolver that answers as it is told, and clients behind a relay whose server's name it is asked for.

names.py serve ADDRESS FOLDER         answers on port 53 until it is ended, and makes FOLDER/serving once it does
names.py held PORT COUNT MORE FOLDER  COUNT clients talk while the lookups of MORE others aren't answered

`never..` isn't answered, `late..` a second late, and any other name not as long as FOLDER/dead is there. Each has the
address 127.0.0.1. `held` prints one line: how many went on meanwhile, and how many others were served in the end.
"""
import os
import socket
import struct
import sys
import threading
import time

# The longest that an answer of a session may take while a lookup isn't answered, in seconds.
PROMPT = 1.0


def question(packet):
    """The name that is asked for, the type of the answer, and where the question ends."""
    at, labels = 12, []
    while packet[at]:
        labels.append(packet[at + 1 : at + 1 + packet[at]].decode())
        at += 1 + packet[at]
    return ".".join(labels), struct.unpack_from(">H", packet, at + 1)[0], at + 5


def answer(packet, kind, end):
    """The address 127.0.0.1 where an IPv4 address is asked for (RFC 1035, 4.1), and else none."""
    found = b"\xc0\x0c" + struct.pack(">HHIH", 1, 1, 0, 4) + bytes([127, 0, 0, 1]) if kind == 1 else b""
    return packet[:2] + struct.pack(">HHHHH", 0x8180, 1, 1 if found else 0, 0, 0) + packet[12:end] + found


def serve(address, folder):
    sock = socket.socket(socket.AF_INET, socket.SOCK_DGRAM)
    sock.bind((address, 53))
    open(os.path.join(folder, "serving"), "w").close()
    while True:
        packet, peer = sock.recvfrom(512)
        name, kind, end = question(packet)
        if name.startswith("never") or os.path.exists(os.path.join(folder, "dead")):
            continue
        said = (answer(packet, kind, end), peer)
        threading.Timer(1.0 if name.startswith("late") else 0.0, sock.sendto, said).start()


def client(port):
    return socket.create_connection(("127.0.0.1", port), timeout=20)


def talk(sock):
    """How long an echo takes, in seconds."""
    begun = time.monotonic()
    sock.sendall(b"line\n")
    heard(sock)
    return time.monotonic() - begun


def heard(sock):
    got = b""
    while got != b"line\n":
        piece = sock.recv(64)
        if not piece:
            raise OSError("an end")
        got += piece


def held(port, count, more, folder):
    dead = os.path.join(folder, "dead")
    clients = [client(port) for _ in range(count)]
    for sock in clients:
        talk(sock)
    open(dead, "w").close()
    others = [client(port) for _ in range(more)]
    for sock in others:
        sock.sendall(b"line\n")
    slowest, end = 0.0, time.monotonic() + 2.0
    while time.monotonic() < end:
        slowest = max([slowest] + [talk(sock) for sock in clients])
    os.remove(dead)
    for sock in others:
        heard(sock)
    if slowest > PROMPT:
        print(f"an answer took {slowest:.1f} seconds")
    else:
        print(f"{count} went on, {more} were served")


if sys.argv[1] == "serve":
    serve(sys.argv[2], sys.argv[3])
else:
    held(int(sys.argv[2]), int(sys.argv[3]), int(sys.argv[4]), sys.argv[5])
