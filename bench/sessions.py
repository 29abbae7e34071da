"""Idle sessions of `TCP4-LISTEN,fork`."""
import os
import resource
import selectors
import socket
import time

from measures import HERE, Failed, Figure, ended, free_port, median, started

MANY = 10000
FEW = 10
SECONDS = 30


def echo(server):
    """Gives back what comes, over any number of connections."""
    ready = selectors.DefaultSelector()
    ready.register(server, selectors.EVENT_READ)
    while True:
        for key, _ in ready.select():
            if key.fileobj is server:
                sock, _ = server.accept()
                sock.setsockopt(socket.IPPROTO_TCP, socket.TCP_NODELAY, 1)
                ready.register(sock, selectors.EVENT_READ)
                continue
            data = key.fileobj.recv(4096)
            if data:
                key.fileobj.sendall(data)
            else:
                ready.unregister(key.fileobj)
                key.fileobj.close()


def served():
    """An echo server in a process of its own, and its port."""
    server = socket.create_server((HERE, 0), backlog=1024)
    child = os.fork()
    if child == 0:
        try:
            echo(server)
        finally:
            os._exit(0)
    port = server.getsockname()[1]
    server.close()
    return child, port


def trip(sock):
    sock.sendall(b"x")
    if sock.recv(1) != b"x":
        raise Failed("no byte came back")


def called(port):
    """A session that has begun: a byte went there and back."""
    sock = socket.create_connection((HERE, port), 20)
    sock.setsockopt(socket.IPPROTO_TCP, socket.TCP_NODELAY, 1)
    trip(sock)
    return sock


def first_called(port):
    last = time.monotonic() + 10
    while True:
        try:
            return called(port)
        except ConnectionRefusedError:
            if time.monotonic() > last:
                raise Failed("the relay doesn't listen") from None
            time.sleep(0.01)


def group(leader):
    """The processes of the group."""
    for name in os.listdir("/proc"):
        try:
            if name.isdigit() and os.getpgid(int(name)) == leader:
                yield int(name)
        except ProcessLookupError:
            pass


def private(leader):
    """KiB of private memory of the relay and its children."""
    total = 0
    for pid in group(leader):
        try:
            with open(f"/proc/{pid}/smaps_rollup", encoding="ascii") as rows:
                total += sum(int(row.split()[1]) for row in rows if row.startswith("Private_"))
        except (FileNotFoundError, ProcessLookupError):
            pass
    return total


def median_trip(sock, until, most):
    """The median in microseconds, of as many trips as the time allows."""
    times = []
    while not times or len(times) < most and time.monotonic() < until:
        before = time.perf_counter_ns()
        trip(sock)
        times.append(time.perf_counter_ns() - before)
    return median(times) / 1000


def beside(bench, name, behind, many):
    """A trip beside few and beside many, the private memory of each of these, and how many there were."""
    until = time.monotonic() + SECONDS
    port = free_port()
    relay = started([bench.programs[name], "-t10", f"TCP4-LISTEN:{port},fork", behind])
    idle = []
    try:
        active = first_called(port)
        idle += [called(port) for _ in range(FEW)]
        few = median_trip(active, until, bench.size(3000))
        before = private(relay.pid)
        while len(idle) < many and time.monotonic() < until - 5:
            idle.append(called(port))
        each = (private(relay.pid) - before) / (len(idle) - FEW)
        return few, median_trip(active, until, bench.size(3000)), each, len(idle)
    finally:
        ended(relay)
        for sock in idle:
            sock.close()


def figures(bench):
    most = resource.getrlimit(resource.RLIMIT_NOFILE)[1]
    resource.setrlimit(resource.RLIMIT_NOFILE, (most, most))
    child, port = served()
    try:
        for title, behind, many in (("TCP", f"TCP4:{HERE}:{port}", (most - 100) // 2), ("`PIPE`", "PIPE", most - 100)):
            many = min(bench.size(MANY), many)
            found = bench.in_turn(["ours"], lambda name, b=behind, m=many: beside(bench, name, b, m))["ours"]
            count = min(row[3] for row in found)
            for at, name in enumerate((f"beside {FEW} idle sessions", f"beside {count:,}")):
                yield Figure(f"{title} behind: a byte {name}", "µs", {"ours": [row[at] for row in found]}, True)
            yield Figure(f"{title} behind: memory of an idle session", "KiB", {"ours": [row[2] for row in found]}, True)
        found = bench.in_turn(bench.chosen("socat"), lambda name: beside(bench, name, "PIPE", bench.size(500)), 1)
        yield Figure("memory of an idle session, of 500", "KiB", {who: [row[2] for row in rows] for who, rows in found.items()}, True)
    finally:
        os.kill(child, 9)
        os.waitpid(child, 0)
