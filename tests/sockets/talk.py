"""What a peer does: the steps that it takes on its socket, one after the other. Seldom used modules are imported
where they are used, since a peer is started for nearly each case."""
import os
import socket
import sys
import time
import zlib

# How many times longer all may take.
PATIENCE = int(os.environ.get("PATIENCE", 1))
LIMIT = 60 * PATIENCE


def say(text):
    os.write(1, text if isinstance(text, bytes) else f"{text}\n".encode())


def pattern(count):
    """So many bytes in pieces. Each length has its own, and each piece begins with its number."""
    import hashlib

    base = hashlib.shake_128(b"%d" % count).digest(65521)
    number = 0
    while count > 0:
        piece = (number.to_bytes(8, "big") + base[8:])[:count]
        yield piece
        count -= len(piece)
        number += 1


def sum_of(pieces):
    value = 0
    for piece in pieces:
        value = zlib.crc32(piece, value)
    return f"{value:08x}"


def sized(text):
    """The bytes that a length stands for: of N its pattern, of xN so many times the letter."""
    if text.startswith("x"):
        return b"x" * int(text[1:])
    return b"".join(pattern(int(text)))


def unescaped(text):
    return text.encode().decode("unicode_escape").encode("latin-1")


class Kept:
    """A socket of which all that is sent and got is kept, for the audit of runs."""

    def __init__(self, sock, folder):
        self.sock = sock
        os.makedirs(folder)
        with open(f"{folder}/case", "w") as out:
            out.write(os.environ["AUDITED_CASE"])
        self.sent = open(f"{folder}/sent", "wb", buffering=0)
        self.got = open(f"{folder}/got", "wb", buffering=0)

    def __getattr__(self, name):
        return getattr(self.sock, name)

    def send(self, data):
        count = self.sock.send(data)
        self.sent.write(data[:count])
        return count

    def sendall(self, data):
        self.sent.write(data)
        self.sock.sendall(data)

    def sendto(self, data, partner):
        self.sent.write(data)
        return self.sock.sendto(data, partner)

    def recv(self, count):
        data = self.sock.recv(count)
        self.got.write(data)
        return data

    def recvfrom(self, count):
        data, sender = self.sock.recvfrom(count)
        self.got.write(data)
        return data, sender


def kept(sock):
    folder = os.environ.get("AUDITS")
    if not folder:
        return sock
    return Kept(sock, f"{folder}/peers/peer-{os.getpid()}-{time.monotonic_ns()}")


class Talk:
    """The steps that streams and datagrams have."""

    def __init__(self, sock):
        self.sock = kept(sock)

    def sleep(self, seconds):
        time.sleep(float(seconds))

    def wait(self, name):
        while not os.path.exists(name):
            time.sleep(0.005)

    def say(self, text):
        say(text)

    def make(self, name):
        with open(name, "w") as out:
            out.write("made\n")

    def me(self):
        say(" ".join(map(str, self.sock.getsockname()[:2])))

    def close(self):
        self.sock.close()

    def descriptors(self):
        say(len(os.listdir("/proc/self/fd")))


class Stream(Talk):
    def send(self, text):
        self.sock.sendall(unescaped(text))

    def fill(self, count):
        for piece in pattern(int(count)):
            self.sock.sendall(piece)

    def drip(self, count):
        """Sends so many bytes, a tenth of a second apart."""
        for _ in range(int(count)):
            self.sock.sendall(b".")
            time.sleep(0.1)

    def pieces(self):
        while True:
            piece = self.sock.recv(65536)
            if not piece:
                return
            yield piece

    def read(self, count=None):
        """Says so many bytes, or all up to the end."""
        if count is None:
            for piece in self.pieces():
                say(piece)
            return
        left = int(count)
        while left > 0:
            piece = self.sock.recv(left)
            if not piece:
                sys.exit(f"the end came {left} bytes early")
            say(piece)
            left -= len(piece)

    def sum(self):
        """Reads to the end with some pauses, and says how many bytes came and their checksum."""
        value = count = paused = 0
        for piece in self.pieces():
            value = zlib.crc32(piece, value)
            count += len(piece)
            if count // (16 << 20) > paused:
                paused = count // (16 << 20)
                time.sleep(0.05)
        say(f"{count} {value:08x}")

    def both(self, count):
        """Sends so many bytes and the end, while it reads with pauses."""
        import threading

        def give():
            self.fill(count)
            self.shut()

        giver = threading.Thread(target=give, daemon=True)
        giver.start()
        self.sum()
        giver.join()

    def trips(self, count):
        """Sends 64 bytes and awaits the same ones, so many times."""
        for number in range(int(count)):
            sent = b"%064d" % number
            self.sock.sendall(sent)
            got = b""
            while len(got) < 64:
                piece = self.sock.recv(64 - len(got))
                if not piece:
                    sys.exit(f"the end came in trip {number}")
                got += piece
            if got != sent:
                sys.exit(f"trip {number} brought {got}")

    def echo(self):
        for piece in self.pieces():
            self.sock.sendall(piece)

    def quiet(self, seconds):
        """Says whether nothing, bytes or the end came in this time."""
        self.sock.settimeout(float(seconds))
        try:
            say("bytes" if self.sock.recv(65536) else "end")
        except socket.timeout:
            say("quiet")
        self.sock.settimeout(LIMIT)

    def gone(self):
        """Says that the other side closed without a byte, in whichever way."""
        try:
            say("bytes" if self.sock.recv(65536) else "gone")
        except ConnectionResetError:
            say("gone")

    def shut(self):
        self.sock.shutdown(socket.SHUT_WR)

    def reset(self):
        """Closes so that a reset is sent."""
        on_and_no_time = (1).to_bytes(4, sys.byteorder) + bytes(4)
        self.sock.setsockopt(socket.SOL_SOCKET, socket.SO_LINGER, on_and_no_time)
        self.sock.close()


class Datagrams(Talk):
    """Its partner is the one that it is connected to, else the sender of the last datagram."""

    partner = None

    def give(self, data):
        if self.partner is None:
            self.sock.send(data)
        else:
            self.sock.sendto(data, self.partner)

    def get(self):
        data, sender = self.sock.recvfrom(65536)
        if self.partner is not None:
            self.partner = sender
        return data

    def send(self, text):
        self.give(unescaped(text))

    def sizes(self, text):
        """Sends datagrams of these lengths, some time apart."""
        for size in text.split(","):
            self.give(sized(size))
            time.sleep(0.03)

    def burst(self, count):
        for number in range(int(count)):
            self.give(b"%d," % number)

    def unwanted(self, count):
        """Sends so many datagrams to one who may refuse them."""
        for number in range(int(count)):
            try:
                self.give(b"%d," % number)
            except ConnectionRefusedError:
                pass

    def take(self, count):
        """Says the lengths of so many datagrams, and the checksum of their bytes."""
        taken = [self.get() for _ in range(int(count))]
        say(" ".join([str(len(data)) for data in taken] + [sum_of(taken)]))

    def gather(self, count):
        """Takes datagrams until so many bytes came, and says their checksum."""
        taken = []
        while sum(map(len, taken)) < int(count):
            taken.append(self.get())
        say(f"{sum(map(len, taken))} {sum_of(taken)}")

    def echo(self):
        """Sends each datagram back, up to an empty one."""
        while True:
            data = self.get()
            self.give(data)
            if not data:
                return

    def read(self, count):
        """Says the bytes of so many datagrams, each in < >."""
        for _ in range(int(count)):
            say(b"<" + self.get() + b">")

    def quiet(self, seconds):
        """Says whether nothing or a datagram came in this time."""
        self.sock.settimeout(float(seconds))
        try:
            say(f"{len(self.get())} bytes")
        except (socket.timeout, ConnectionRefusedError):
            say("quiet")
        self.sock.settimeout(LIMIT)

    def whom(self):
        say(" ".join(map(str, self.partner[:2])))
