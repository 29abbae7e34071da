"""One connection over the loopback. Behind a proxy stands the far end itself."""
import os
import re
import select
import socket
import subprocess
import tempfile
import threading
import time

from measures import HERE, SERVERS, Failed, awaited, ended, forwarder, free_port, median, started

BLOCK = 8192
PATIENCE = 20
zeros = memoryview(bytes(1 << 20))
BEHIND = {
    "SOCKS4A": "SOCKS4A:{}:far.example:80,socksport={},socksuser=me",
    "PROXY": "PROXY:{}:far.example:80,proxyport={}",
}
GRANTS = {
    "SOCKS4A": (b"far.example\0", b"\0\x5a" + bytes(6)),
    "PROXY": (b"\r\n\r\n", b"HTTP/1.0 200 OK\r\n\r\n"),
}


def grant(sock, last, reply):
    """Reads a request up to its last bytes, and grants it."""
    request = b""
    while not request.endswith(last):
        got = sock.recv(4096)
        if not got:
            raise Failed("a request to a proxy is cut short")
        request += got
    sock.sendall(reply)


def reach(family, place, relay):
    """A connection to a relay that is about to listen."""
    last = time.monotonic() + 10
    while True:
        sock = socket.socket(family)
        try:
            sock.connect(place)
            sock.settimeout(PATIENCE)
            return sock
        except (ConnectionRefusedError, FileNotFoundError):
            sock.close()
            if time.monotonic() > last or relay.poll() is not None:
                raise Failed(f"nobody listens at {place}") from None
            time.sleep(0.005)


def command_of(bench, name, kind, near, far):
    if kind == "tcp":
        return forwarder(bench, name, near[1], far[1])
    if name == "bare loop":
        return [bench.programs[name], "unix", near, far]
    if kind == "unix":
        return [bench.programs[name], "-t10", f"UNIX-LISTEN:{near}", f"UNIX-CONNECT:{far}"]
    return [bench.programs[name], "-t10", f"TCP4-LISTEN:{near[1]}", BEHIND[kind].format(HERE, far[1])]


class Ends:
    """A relay with a connection at each end."""

    def __init__(self, bench, name, kind, before=()):
        self.folder = tempfile.TemporaryDirectory()
        self.serves = name in SERVERS
        if kind == "unix":
            family, far, near = socket.AF_UNIX, f"{self.folder.name}/far", f"{self.folder.name}/near"
        else:
            family, far, near = socket.AF_INET, (HERE, 0), (HERE, free_port())
        with socket.socket(family) as server:
            server.bind(far)
            server.listen(1)
            server.settimeout(10)
            place = far if kind == "unix" else server.getsockname()
            self.relay = started([*before, *command_of(bench, name, kind, near, place)])
            try:
                self.near = reach(family, near, self.relay)
                self.far = server.accept()[0]
            except OSError as problem:
                ended(self.relay)
                raise Failed(f"no connection comes through: {problem}") from problem
        self.far.settimeout(PATIENCE)
        if kind in GRANTS:
            grant(self.far, *GRANTS[kind])

    def end(self):
        self.near.close()
        self.far.close()
        if self.serves:
            time.sleep(0.05)
        seconds = ended(self.relay) if self.serves else awaited(self.relay)
        self.folder.cleanup()
        return seconds


def give(sock, count):
    try:
        while count > 0:
            sock.sendall(zeros[:count])
            count -= len(zeros)
        sock.shutdown(socket.SHUT_WR)
    except OSError:
        pass  # what is missing is seen at the other end


def take(sock, count, missing):
    into = bytearray(1 << 20)
    try:
        while count > 0 and (got := sock.recv_into(into)):
            count -= got
    except OSError:
        pass
    missing.append(count)


def flow(bench, name, kind, ways, count, before=()):
    """MB/s, and processor seconds of a GiB, by the ways: right, left or both."""
    ends, missing = Ends(bench, name, kind, before), []
    right = [(give, ends.near, count), (take, ends.far, count, missing)]
    left = [(give, ends.far, count), (take, ends.near, count, missing)]
    works = {"right": right, "left": left, "both": right + left}[ways]
    threads = [threading.Thread(target=work, args=words) for work, *words in works]
    begun = time.perf_counter()
    for thread in threads:
        thread.start()
    for thread in threads:
        thread.join()
    seconds = time.perf_counter() - begun
    if any(missing):
        ended(ends.relay)
        raise Failed(f"{sum(missing):,} bytes are missing")
    spent = ends.end()
    passed = count * len(works) // 2
    # What other processes of ncat take isn't told, so that its own tells nothing.
    return passed / seconds / 1e6, None if name == "ncat" else spent * (1 << 30) / passed


def flows(bench, title, kind, ways, names):
    count = bench.size(256 << 20)
    columns = [(title, "MB/s", False), ("its processor time", "s/GiB", True)]
    return bench.figures(columns, names, lambda name: flow(bench, name, kind, ways, count))


def echo(sock):
    while data := sock.recv(4096):
        sock.sendall(data)


def trips(bench, name, kind):
    """The median of 64 bytes there and back, in microseconds."""
    ends = Ends(bench, name, kind)
    child = os.fork()
    if child == 0:
        ends.near.close()
        try:
            echo(ends.far)
        finally:
            os._exit(0)
    ends.far.close()
    times = []
    for _ in range(bench.size(8000)):
        before = time.perf_counter_ns()
        ends.near.sendall(bytes(64))
        left = 64
        while left > 0:
            got = ends.near.recv(left)
            if not got:
                raise Failed("an answer is missing")
            left -= len(got)
        times.append(time.perf_counter_ns() - before)
    ends.end()
    os.waitpid(child, 0)
    return (median(times) / 1000,)


def send_paced(sock, count, pace):
    """Sends the datagrams at the pace, and catches up where it was late."""
    begun, sent = time.perf_counter(), 0
    while sent < count:
        due = min(count, int((time.perf_counter() - begun) * pace))
        while sent < due:
            sock.send(zeros[:1024])
            sent += 1
        time.sleep(0.0005)


def knock(source, sink):
    """Sends until the first datagram comes through, and lets the others come."""
    last = time.monotonic() + 10
    while time.monotonic() < last:
        try:
            source.send(b"x")
        except ConnectionRefusedError:
            pass
        if select.select([sink], [], [], 0.05)[0]:
            while select.select([sink], [], [], 0.2)[0]:
                sink.recv(2048)
            return
    raise Failed("no datagram comes through")


def lost(bench, name, count, pace):
    """How many datagrams of 1024 bytes are lost at the pace."""
    with socket.socket(socket.AF_INET, socket.SOCK_DGRAM) as sink, socket.socket(socket.AF_INET, socket.SOCK_DGRAM) as source:
        sink.setsockopt(socket.SOL_SOCKET, socket.SO_RCVBUF, 4 << 20)
        sink.bind((HERE, 0))
        port = free_port(socket.SOCK_DGRAM)
        relay = started([bench.programs[name], "-u", f"UDP4-LISTEN:{port}", f"UDP4:{HERE}:{sink.getsockname()[1]}"])
        try:
            source.connect((HERE, port))
            knock(source, sink)
            sender = threading.Thread(target=send_paced, args=(source, count, pace))
            sender.start()
            came = 0
            while select.select([sink], [], [], 1)[0]:
                sink.recv(2048)
                came += 1
            sender.join()
        finally:
            ended(relay)
    return (count - came,)


def calls(bench, name, kind):
    """System calls for a block of 8192 bytes to the right."""
    count = 32 << 20
    with tempfile.NamedTemporaryFile("r") as table:
        flow(bench, name, kind, "right", count, ["strace", "-c", "-f", "-o", table.name])
        total = re.search(r"^100\.00\s+\S+\s+\S+\s+(\d+)", table.read(), re.M)
    if not total:
        raise Failed("strace counted nothing")
    return (int(total.group(1)) * BLOCK / count,)


def can_trace():
    try:
        return subprocess.run(["strace", "-c", "-o", os.devnull, "true"], stderr=subprocess.DEVNULL, check=False).returncode == 0
    except FileNotFoundError:
        return False


def figures(bench):
    forwarders, streams, both = bench.chosen("socat", "bare loop", *SERVERS), bench.chosen("socat", "bare loop"), bench.chosen("socat")
    yield from flows(bench, "TCP to the right", "tcp", "right", forwarders)
    yield from flows(bench, "TCP to the left", "tcp", "left", forwarders)
    yield from flows(bench, "TCP both ways", "tcp", "both", forwarders)
    yield from flows(bench, "Unix to the right", "unix", "right", streams)
    yield from flows(bench, "Unix both ways", "unix", "both", streams)
    yield from flows(bench, "TCP through SOCKS4A", "SOCKS4A", "right", both)
    yield from flows(bench, "TCP through PROXY", "PROXY", "right", both)
    yield from bench.figures([("TCP, 64 bytes there and back", "µs", True)], forwarders, lambda name: trips(bench, name, "tcp"))
    yield from bench.figures([("Unix, 64 bytes there and back", "µs", True)], streams, lambda name: trips(bench, name, "unix"))
    count = bench.size(20000)
    columns = [(f"UDP, lost of {count:,} datagrams at 20,000 a second", "", True)]
    yield from bench.figures(columns, both, lambda name: lost(bench, name, count, 20000))
    if not can_trace():
        return bench.note("strace can't be used, so system calls aren't counted")
    for kind, title in (("tcp", "TCP"), ("unix", "Unix")):
        columns = [(f"{title}, system calls for a block of 8 KiB", "", True)]
        yield from bench.figures(columns, streams, lambda name, kind=kind: calls(bench, name, kind), 1)
    return None
