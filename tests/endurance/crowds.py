"""Clients of a command with `fork`, all at once, and the server that may stand behind it."""
import socket
import threading
import time

from partners import PATIENCE, Appetite, Caller, Gift, stands


class Words:
    """An address that has no partner of its own."""

    calm = True

    def __init__(self, text):
        self.text = text

    def address(self):
        return self.text


class Visitor:
    """A client that sends one datagram, perhaps an empty one behind it, and takes one."""

    def __init__(self, room, place, data, ends):
        self.room, self.place, self.sent, self.got, self.ends = room, place, data, b"", ends
        self.wrong, self.saw_end, self.ending = [], False, "end"

    def begin(self):
        self.runs = threading.Thread(target=self.visit, daemon=True)
        self.runs.start()

    def visit(self):
        last = time.monotonic() + PATIENCE
        while not stands(self.room.pid, self.place[1]):
            if self.room.rest(0.005) or time.monotonic() > last:
                return
        with socket.socket(socket.AF_INET, socket.SOCK_DGRAM) as sock:
            sock.settimeout(0.1)
            sock.connect(self.place)
            try:
                sock.send(self.sent)
                if self.ends:
                    sock.send(b"")
            except OSError:
                return
            while not self.saw_end:
                # Once the run is over what was sent before has come.
                over = self.room.over.is_set()
                try:
                    self.got = sock.recv(70000)
                    self.saw_end = True
                except socket.timeout:
                    if over:
                        return
                except OSError:
                    return

    def finish(self):
        self.runs.join(3)


class Crowd:
    def __init__(self, room, family, place, answer):
        self.room, self.family, self.place, self.answer = room, family, place, answer
        self.clients = []
        self.door = None
        self.threads = []

    def client(self, data, ending):
        if self.family in "uv":
            self.clients.append(Visitor(self.room, self.place, data, self.family == "v"))
            return
        one = Caller(self.room, True, True, Gift([(data, 0)], ending), Appetite(), "client", self.family, self.place)
        one.ending = ending
        self.clients.append(one)

    def serve(self, port):
        """A server that gives back what it takes stands at the port."""
        self.door = socket.socket()
        self.door.setsockopt(socket.SOL_SOCKET, socket.SO_REUSEADDR, 1)
        self.door.bind(("127.0.0.1", port))
        self.door.listen(64)
        self.door.settimeout(0.1)
        return port

    def begin(self):
        if self.door:
            self.thread(self.accept)
        for one in self.clients:
            one.begin()

    def thread(self, work, *words):
        one = threading.Thread(target=work, args=words, daemon=True)
        self.threads.append(one)
        one.start()

    def accept(self):
        while not self.room.over.is_set():
            try:
                sock, _ = self.door.accept()
            except socket.timeout:
                continue
            self.thread(echo, sock)

    def finish(self):
        for one in self.clients:
            one.finish()
        for one in self.threads:
            one.join(3)
        if self.door:
            self.door.close()


def echo(sock):
    sock.settimeout(PATIENCE)
    try:
        while True:
            data = sock.recv(65536)
            if not data:
                break
            sock.sendall(data)
        sock.shutdown(socket.SHUT_WR)
    except OSError:
        pass
    sock.close()
