"""What stands at the far end of an address: it gives bytes, takes what comes, and keeps both for the judgement."""
import errno
import os
import select
import socket
import struct
import sys
import threading
import time

sys.path.insert(0, os.path.join(os.path.dirname(os.path.dirname(os.path.abspath(__file__))), "sockets"))
from stand import inodes_of

PATIENCE = 10
GRACE = 3


class Gift:
    """What a partner gives: pieces with pauses behind them, and how it ends: end, stay, leave or reset."""

    def __init__(self, pieces, ending="end"):
        self.pieces = pieces
        self.ending = ending

    def bytes(self):
        return b"".join(data for data, _ in self.pieces)


class Appetite:
    """How a partner takes: so many bytes at once, a pause between, and after so many it leaves (None: never)."""

    def __init__(self, size=65536, pause=0, most=None):
        self.size = size
        self.pause = pause
        self.most = most


class Room:
    """What the partners of one run share: its folder, its ports, and the process once it has begun."""

    def __init__(self, folder, ports, dice):
        self.folder = folder
        self.ports = ports
        self.dice = dice
        self.taken = []
        self.over = threading.Event()
        self.pid = None
        self.names = 0

    def port(self, datagrams=False):
        port = self.ports.take(self.dice, datagrams)
        self.taken.append(port)
        return port

    def name(self, stem):
        self.names += 1
        return f"{stem}{self.names}"

    def path(self, name):
        return os.path.join(self.folder, name)

    def leave(self):
        for port in self.taken:
            self.ports.give_back(port)

    def rest(self, seconds):
        """Whether the run is over before so many seconds have gone."""
        return self.over.wait(seconds) if seconds else self.over.is_set()


class Ports:
    """Ports above those that the system gives out, each to one run at a time."""

    def __init__(self):
        self.lock = threading.Lock()
        self.held = set()

    def take(self, dice, datagrams):
        while True:
            port = dice.randrange(61000, 65500)
            with self.lock:
                if port not in self.held and is_free(port):
                    self.held.add(port)
                    return port

    def give_back(self, port):
        with self.lock:
            self.held.discard(port)


def is_free(port):
    """Whether no socket has the port, and none had it lately. A bind would tell less: each program that another thread
    begins at that moment holds the socket until it is executed."""
    ending = f":{port:04X}"
    for table in ("tcp", "tcp6", "udp", "udp6"):
        try:
            with open(f"/proc/net/{table}", encoding="ascii") as lines:
                if any(line.split()[1].endswith(ending) for line in lines):
                    return False
        except FileNotFoundError:
            pass  # a system without IPv6
    return True


# --- streams


class Stream:
    """Both ways of a socket or of descriptors. No call waits longer than a tenth of a second."""

    def __init__(self, sock=None, reads=None, writes=None):
        self.sock = sock
        self.reads = sock.fileno() if sock else reads
        self.writes = sock.fileno() if sock else writes
        for number in (self.reads, self.writes):
            if number is not None:
                os.set_blocking(number, False)
        self.lock = threading.Lock()

    def send(self, data):
        """How many bytes were taken, 0 where none are yet."""
        self.await_(False)
        with self.lock:
            try:
                return os.write(self.open_one(self.writes), data)
            except BlockingIOError:
                return 0

    def recv(self, count):
        """Some bytes, none at the end, or None where nothing came yet."""
        self.await_(True)
        with self.lock:
            try:
                return os.read(self.open_one(self.reads), count)
            except BlockingIOError:
                return None

    def await_(self, reading):
        """Waits a moment. Another thread may close meanwhile, so the call that follows looks again, under the lock."""
        number = self.open_one(self.reads if reading else self.writes)
        select.select([number] if reading else [], [] if reading else [number], [], 0.1)

    @staticmethod
    def open_one(number):
        if number is None:
            raise OSError(errno.EBADF, "closed")
        return number

    def end(self):
        with self.lock:
            if self.sock:
                self.sock.shutdown(socket.SHUT_WR)
            elif self.writes is not None:
                os.close(self.writes)
                self.writes = None

    def stop_reading(self):
        with self.lock:
            if not self.sock and self.reads is not None:
                os.close(self.reads)
                self.reads = None
        if self.sock:
            self.close()

    def reset(self):
        if self.sock and self.sock.family != socket.AF_UNIX:
            self.sock.setsockopt(socket.SOL_SOCKET, socket.SO_LINGER, struct.pack("ii", 1, 0))
        self.close()

    def close(self):
        with self.lock:
            numbers = {self.reads, self.writes} - {None}
            self.reads = self.writes = None
            if self.sock:
                self.sock.close()
                self.sock = None
                return
            for number in numbers:
                os.close(number)


class Partner:
    """The base of all: `reads` and `writes` say what the program does with it, `sent` what it gave and `got` what came.
    `datagrams` are kept piece by piece. It is `calm` where it fails at nothing and leaves too early nowhere."""

    kind = "?"
    datagrams = False
    # Whether what it gives is made of what it takes.
    answers = False
    # Whether its entry goes out with the run.
    goes = False

    def __init__(self, room, reads, writes, gift=None, appetite=None):
        self.room = room
        self.reads, self.writes = reads, writes
        self.gift = gift or Gift([])
        self.appetite = appetite or Appetite()
        self.sent, self.got = b"", b""
        self.sent_pieces, self.got_pieces = [], []
        self.saw_end = False
        # Whether what it gave met a reset. The system tells that once, so what it takes may seem to end then.
        self.was_reset = False
        self.wrong = []
        self.threads = []
        self.options = []
        self.calm = self.gift.ending == "end" and self.appetite.most is None
        self.stays = ()
        self.model = {}

    def address(self):
        return ",".join([self.text, *self.options])

    def begin(self):
        """Called once the program has begun."""

    def thread(self, work):
        def guarded():
            try:
                work()
            except OSError:
                pass
            except Exception as error:
                self.wrong.append(f"the partner at {self.address()} failed: {error!r}")

        thread = threading.Thread(target=guarded, daemon=True)
        self.threads.append(thread)
        thread.start()

    def talk(self, stream):
        """Gives and takes over the stream, each in a thread of its own, up to both ends."""
        self.stream = stream
        if self.reads:
            self.thread(lambda: self.give(stream))
        if self.writes or stream.sock:
            self.thread(lambda: self.take(stream))

    def give(self, stream):
        for data, pause in self.gift.pieces:
            while data:
                try:
                    count = stream.send(data[:65536])
                except OSError:
                    self.was_reset = True
                    raise
                self.sent += data[:count]
                data = data[count:]
                if count == 0 and self.room.over.is_set():
                    return
            if pause and self.room.rest(pause):
                break
        if self.gift.ending == "end":
            stream.end()
        elif self.gift.ending == "leave":
            stream.close()
        elif self.gift.ending == "reset":
            stream.reset()

    def take(self, stream):
        last = None
        while True:
            data = stream.recv(self.appetite.size)
            if data is None:
                if self.room.over.is_set():
                    last = last or time.monotonic() + GRACE
                    if time.monotonic() > last:
                        return
                continue
            if not data:
                self.saw_end = True
                return
            self.got += data
            if self.appetite.most is not None and len(self.got) >= self.appetite.most:
                stream.stop_reading()
                return
            if self.appetite.pause:
                self.room.rest(self.appetite.pause)

    def finish(self):
        """Called once the program has ended."""
        last = time.monotonic() + GRACE + 3
        for thread in self.threads:
            thread.join(max(0.0, last - time.monotonic()))
            if thread.is_alive():
                self.wrong.append(f"the partner at {self.address()} doesn't end")
        stream = getattr(self, "stream", None)
        if stream:
            stream.close()
        self.close()

    def close(self):
        pass


# --- standard streams


class Standard(Partner):
    """Standard input, standard output, or both; each a pipe, a file, a device or closed."""

    def __init__(self, room, reads, writes, gift, appetite, text, given="pipe", taken="pipe"):
        super().__init__(room, reads, writes, gift, appetite)
        self.kind, self.text = "STDIO", text
        self.given, self.taken = given, taken
        self.calm = self.calm and given in ("pipe", "file", "null") and taken in ("pipe", "file")
        self.ours = [None, None]
        self.theirs = [None, None]
        if reads:
            self.open_input()
        if writes:
            self.open_output()

    def open_input(self):
        if self.given == "pipe":
            self.theirs[0], self.ours[1] = os.pipe()
        elif self.given == "null":
            self.gift = Gift([])
            self.theirs[0] = os.open("/dev/null", os.O_RDONLY)
        elif self.given == "file":
            name = self.room.name("input")
            with open(self.room.path(name), "wb") as out:
                out.write(self.gift.bytes())
            self.stays += (name,)
            self.theirs[0] = os.open(self.room.path(name), os.O_RDONLY)

    def open_output(self):
        if self.taken == "pipe":
            self.ours[0], self.theirs[1] = os.pipe()
        elif self.taken == "full":
            self.theirs[1] = os.open("/dev/full", os.O_WRONLY)
        elif self.taken == "file":
            self.output = self.room.name("output")
            self.stays += (self.output,)
            self.theirs[1] = os.open(self.room.path(self.output), os.O_WRONLY | os.O_CREAT)

    def begin(self):
        for number in self.theirs:
            if number is not None:
                os.close(number)
        self.theirs = [None, None]
        if self.given != "pipe":
            self.sent = self.gift.bytes()
        stream = Stream(reads=self.ours[0], writes=self.ours[1])
        self.stream = stream
        if self.ours[1] is not None:
            self.thread(lambda: self.give(stream))
        if self.ours[0] is not None:
            self.thread(lambda: self.take(stream))

    def close(self):
        if self.writes and self.taken == "file":
            with open(self.room.path(self.output), "rb") as found:
                self.got = found.read()
            self.saw_end = True


# --- sockets


FAMILIES = {"4": (socket.AF_INET, "127.0.0.1"), "6": (socket.AF_INET6, "::1")}


class Caller(Partner):
    """Calls at the program's listener, from a chosen host, after callers that aren't let in."""

    def __init__(self, room, reads, writes, gift, appetite, text, family, place, host=None, strangers=0):
        super().__init__(room, reads, writes, gift, appetite)
        self.kind = text.partition(":")[0]
        self.text, self.family, self.place = text, family, place
        self.host, self.strangers = host, strangers

    def begin(self):
        self.thread(self.call)

    def call(self):
        for _ in range(self.strangers):
            sock = self.connected("127.0.0.1")
            if sock is None:
                return
            sock.settimeout(PATIENCE)
            try:
                if sock.recv(1):
                    self.wrong.append("a stranger got a byte")
            except OSError:
                pass
            sock.close()
        sock = self.connected(self.host)
        if sock is not None:
            self.talk(Stream(sock))

    def connected(self, host):
        """A socket that is connected, or None where the program ended before."""
        last = time.monotonic() + PATIENCE
        while time.monotonic() < last and not self.room.over.is_set():
            how = socket.AF_UNIX if self.family == "x" else FAMILIES[self.family][0]
            sock = socket.socket(how, socket.SOCK_STREAM)
            try:
                if host and self.family == "4":
                    sock.bind((host, 0))
                sock.connect(self.place)
                return sock
            except OSError:
                sock.close()
                self.room.rest(0.02)
        return None


class Server(Partner):
    """Listens where the program connects. It may begin late, never listen, or talk as a proxy before."""

    def __init__(self, room, reads, writes, gift, appetite, text, family, place, late=0, absent=False, reply=None):
        super().__init__(room, reads, writes, gift, appetite)
        self.kind = text.partition(":")[0]
        self.text, self.late, self.reply = text, late, reply
        self.asked = None
        self.calm = self.calm and not absent
        self.door = None
        if family == "x":
            self.stays += (os.path.basename(place),)
        if absent:
            return
        self.family, self.place = family, place
        if not late:
            self.listen()

    def listen(self):
        how = socket.AF_UNIX if self.family == "x" else FAMILIES[self.family][0]
        self.door = socket.socket(how, socket.SOCK_STREAM)
        if self.family != "x":
            self.door.setsockopt(socket.SOL_SOCKET, socket.SO_REUSEADDR, 1)
        self.door.bind(self.place)
        self.door.listen(8)
        self.door.settimeout(0.05)

    def begin(self):
        if self.door or self.late:
            self.thread(self.serve)

    def serve(self):
        if self.late:
            self.room.rest(self.late)
            self.listen()
        while not self.room.over.is_set():
            try:
                sock, _ = self.door.accept()
            except socket.timeout:
                continue
            if self.reply is None or self.greet(sock):
                self.talk(Stream(sock))
                return

    def greet(self, sock):
        """As a proxy: reads the request, and sends the pieces of the reply. Whether the talk goes on."""
        sock.settimeout(PATIENCE)
        try:
            self.asked = b""
            while not self.reply.is_whole(self.asked):
                data = sock.recv(4096)
                if not data:
                    break
                self.asked += data
            for data, pause in self.reply.pieces:
                sock.sendall(data)
                self.room.rest(pause)
        except OSError:
            pass
        if self.reply.granted:
            return True
        if self.reply.hangs:
            self.room.rest(PATIENCE)
        sock.close()
        return False

    def close(self):
        if self.door:
            self.door.close()


class Reply:
    """What a proxy answers, in pieces, and whether that grants the connection."""

    def __init__(self, request, pieces, granted, hangs=False):
        self.request, self.pieces, self.granted, self.hangs = request, pieces, granted, hangs

    def is_whole(self, asked):
        return len(asked) >= len(self.request)


class Datagrams(Partner):
    """A UDP socket. Where the program listens it sends first; else it may answer who has sent to it."""

    datagrams = True

    def __init__(self, room, reads, writes, gift, appetite, text, port, theirs=None, null_end=False):
        super().__init__(room, reads, writes, gift, appetite)
        self.kind = text.partition(":")[0]
        self.text, self.null_end, self.theirs = text, null_end, theirs
        self.calm = False
        self.sock = socket.socket(socket.AF_INET, socket.SOCK_DGRAM)
        self.sock.setsockopt(socket.SOL_SOCKET, socket.SO_RCVBUF, 4 << 20)
        self.sock.settimeout(0.1)
        self.sock.bind(("127.0.0.1", port or 0))
        self.partner = None

    def begin(self):
        self.thread(self.take_pieces)
        # Who listens waits for a datagram, also where it only writes.
        if self.reads or self.theirs:
            self.thread(self.give_pieces)

    def give_pieces(self):
        last = time.monotonic() + PATIENCE
        if self.theirs:
            while not stands(self.room.pid, self.theirs):
                if self.room.rest(0.005) or time.monotonic() > last:
                    return
            self.partner = ("127.0.0.1", self.theirs)
        while self.partner is None:
            if self.room.rest(0.005) or time.monotonic() > last:
                return
        for data, pause in self.gift.pieces:
            if data and not self.put(data):
                return
            self.room.rest(max(pause, 0.004))
        if self.null_end:
            self.put(b"")

    def put(self, data):
        """Whether the datagram went out. A refusal tells of an earlier one."""
        for _ in range(3):
            try:
                self.sock.sendto(data, self.partner)
                self.sent_pieces.append(data)
                return True
            except ConnectionRefusedError:
                continue
        return False

    def take_pieces(self):
        last = None
        while True:
            try:
                data, sender = self.sock.recvfrom(70000)
            except socket.timeout:
                if self.room.over.is_set():
                    return
                continue
            except ConnectionRefusedError:
                continue
            self.partner = self.partner or sender
            self.got_pieces.append(data)

    def close(self):
        self.sock.close()


def stands(pid, port):
    """Whether the process has a UDP socket at the port."""
    try:
        own = inodes_of(pid)
    except OSError:
        return False
    for table in ("/proc/net/udp", "/proc/net/udp6"):
        with open(table) as rows:
            for row in list(rows)[1:]:
                parts = row.split()
                if parts[9] in own and int(parts[1].rpartition(":")[2], 16) == port:
                    return True
    return False


# --- files, pipes and programs


class File(Partner):
    """A file that is read, or one that is written; `old` is what it has before."""

    def __init__(self, room, reads, writes, gift, text, name, old=None, keeps=0, absent=False):
        super().__init__(room, reads, writes, gift)
        self.kind, self.text, self.name, self.keeps = text.partition(":")[0], text, name, keeps
        self.old = old if old is not None else b""
        self.calm = not absent
        self.stays += (name,)
        if absent:
            return
        if reads:
            self.old = self.sent = self.gift.bytes()
        if reads or old is not None:
            with open(room.path(name), "wb") as out:
                out.write(self.old)

    def close(self):
        if self.writes and os.path.exists(self.room.path(self.name)):
            with open(self.room.path(self.name), "rb") as found:
                held = found.read()
            kept = self.old[: self.keeps]
            if not held.startswith(kept):
                self.wrong.append(f"{self.name} has lost what stood there")
            self.got = held[len(kept) :]
            self.saw_end = True


class NamedPipe(Partner):
    """A named pipe that the program reads or writes."""

    def __init__(self, room, reads, writes, gift, appetite, text, name):
        super().__init__(room, reads, writes, gift, appetite)
        self.kind, self.text, self.name, self.goes = "PIPE:", text, name, True
        self.stays += (name,)
        os.mkfifo(room.path(name))
        self.ours = os.open(room.path(name), os.O_RDONLY | os.O_NONBLOCK) if writes else None

    def begin(self):
        self.thread(self.pass_on)

    def pass_on(self):
        if self.writes:
            self.drain()
            return
        while not self.room.over.is_set():
            try:
                number = os.open(self.room.path(self.name), os.O_WRONLY | os.O_NONBLOCK)
            except OSError:
                self.room.rest(0.01)
                continue
            self.talk(Stream(writes=number))
            return

    def drain(self):
        """An end is none before the program is over, since it may not have opened the pipe yet."""
        while True:
            over = self.room.over.is_set()
            try:
                data = os.read(self.ours, self.appetite.size)
            except BlockingIOError:
                data = b""
            self.got += data
            if not data and over:
                self.saw_end = True
                return
            if not data:
                self.room.rest(0.01)

    def close(self):
        if self.ours is not None:
            os.close(self.ours)


class Echo(Partner):
    """A pipe without a name: what is written comes back."""

    answers = True

    def __init__(self, room, text="PIPE"):
        super().__init__(room, True, True)
        self.kind = self.text = text

    @staticmethod
    def answer(data):
        return data


class Child(Partner):
    """A program. `answer` says what it prints of what it is given, None where that isn't known."""

    def __init__(self, room, reads, writes, text, answer=None, steady=True, file=None):
        super().__init__(room, reads, writes)
        self.kind, self.text = text.partition(":")[0], text
        self.answer = answer
        self.answers = reads and writes
        self.calm = steady
        self.file = file
        self.stays += (file,) if file else ()

    def close(self):
        if not self.file:
            return
        last = time.monotonic() + GRACE
        while time.monotonic() < last:
            if os.path.exists(self.room.path(self.file + ".done")):
                break
            time.sleep(0.01)
        self.stays += (self.file + ".done",)
        if os.path.exists(self.room.path(self.file)):
            with open(self.room.path(self.file), "rb") as found:
                self.got = found.read()
            self.saw_end = os.path.exists(self.room.path(self.file + ".done"))

