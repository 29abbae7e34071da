#!/usr/bin/env python3
"""The one socket of a door of datagrams, beside standard input and beside senders that are silent. One line a case: its
name, a tab, and what went wrong, if anything did.

door.py PROGRAM [SILENT]      SILENT is how many silent senders stand beside the one that talks (2000)
"""
import contextlib
import os
import resource
import select
import socket
import subprocess
import sys
import time

from talk import LIMIT

HERE = "127.0.0.1"
FEW = 10
# How many senders send their first datagram at once: so few that the system drops none.
AT_ONCE = 50
# How many datagrams make a round, and how many rounds are taken of each relay.
ROUND, ROUNDS = 30, 11
# How many times more a datagram may cost beside many silent senders than beside few.
MOST = 2


def is_bound(port):
    """Whether a socket of datagrams has the port (proc_net(5))."""
    with open("/proc/net/udp") as table:
        return any(line.split()[1].endswith(f":{port:04X}") for line in table.readlines()[1:])


def free_port():
    with socket.socket(socket.AF_INET, socket.SOCK_DGRAM) as sock:
        sock.bind((HERE, 0))
        return sock.getsockname()[1]


@contextlib.contextmanager
def relay(program, options, *words):
    """A relay behind a door of datagrams, and the door's port; its standard input and output are pipes."""
    port = free_port()
    words = [program, "-t10", f"UDP4-LISTEN:{port},{options}", *words]
    process = subprocess.Popen(words, stdin=subprocess.PIPE, stdout=subprocess.PIPE)
    try:
        end = time.monotonic() + LIMIT
        while not is_bound(port):
            if time.monotonic() > end:
                raise OSError("nobody listens")
            time.sleep(0.02)
        yield process, port
    finally:
        process.kill()
        process.communicate()


def sender(port):
    sock = socket.socket(socket.AF_INET, socket.SOCK_DGRAM)
    sock.settimeout(LIMIT)
    sock.connect((HERE, port))
    return sock


def taken(process, count):
    """So many bytes of its output."""
    got = b""
    while len(got) < count:
        if not select.select([process.stdout], [], [], LIMIT)[0]:
            raise OSError(f"{count - len(got)} bytes don't come out")
        got += os.read(process.stdout.fileno(), count - len(got))
    return got


def reads_of(process):
    """How many calls it has made that read a file or a pipe, sockets left out (proc(5), io). None where it isn't told."""
    try:
        with open(f"/proc/{process.pid}/io") as counts:
            return next(int(line.split()[1]) for line in counts if line.startswith("syscr:"))
    except OSError:
        return None


def beside_input(program):
    """Both pass: what standard input gives, and datagrams. A datagram has no byte of standard input asked for."""
    with relay(program, "fork,null-eof", "STDIO") as (process, port), sender(port) as one:
        one.send(b"begin")
        if taken(process, 5) != b"begin":
            return "another first datagram came out"
        before = reads_of(process)
        for number in range(300):
            sent = b"datagram %d\n" % number
            one.send(sent)
            if taken(process, len(sent)) != sent:
                return f"datagram {number} came out as another"
        after = reads_of(process)
        if before is not None and after - before > 30:
            return f"300 datagrams had it read {after - before} times"
        for number in range(100):
            sent, given = b"datagram %d\n" % number, b"line %d\n" % number
            one.send(sent)
            process.stdin.write(given)
            process.stdin.flush()
            if taken(process, len(sent)) != sent or one.recv(4096) != given:
                return f"another datagram {number} or line {number} passed"
    return ""


def silenced(port, count):
    """So many senders, each of which has sent one datagram and got it back."""
    senders = [sender(port) for _ in range(count)]
    for first in range(0, count, AT_ONCE):
        some = list(enumerate(senders))[first : first + AT_ONCE]
        for number, sock in some:
            sock.send(b"%d" % number)
        for number, sock in some:
            if sock.recv(64) != b"%d" % number:
                raise OSError(f"sender {number} got another's datagram")
    return senders


def worked(process):
    """The processor time of its loop so far in seconds (proc(5), schedstat), or the time of day where it isn't told."""
    try:
        with open(f"/proc/{process.pid}/schedstat") as stat:
            return int(stat.read().split()[0]) / 1e9
    except OSError:
        return time.monotonic()


def cost_of_round(process, one):
    """What a datagram there and back costs, in seconds."""
    before = worked(process)
    for number in range(ROUND):
        one.send(b"%d" % number)
        one.recv(64)
    return (worked(process) - before) / ROUND


def middle(costs):
    return sorted(costs)[len(costs) // 2]


def costs(relays):
    """What a datagram costs at each of these relays, in the middle of rounds in turn."""
    rounds = [[cost_of_round(*one) for one in relays] for _ in range(ROUNDS)]
    return [middle(column) for column in zip(*rounds)]


def beside_silent(program, silent):
    """A datagram beside many silent senders costs about what it costs beside few."""
    with contextlib.ExitStack() as stack:
        relays = []
        for count in (FEW, silent):
            process, port = stack.enter_context(relay(program, "fork", "PIPE"))
            for sock in silenced(port, count):
                stack.enter_context(sock)
            # Both loops run on one processor, so that a slower one isn't told from a dearer datagram.
            os.sched_setaffinity(process.pid, {max(os.sched_getaffinity(0))})
            relays.append((process, stack.enter_context(sender(port))))
        for _ in range(2):
            few, many = costs(relays)
            if many <= MOST * few:
                return ""
    return f"a datagram costs {many * 1e6:.0f} us beside {silent} silent senders, and {few * 1e6:.0f} beside {FEW}"


def main(program, silent="2000"):
    _, most = resource.getrlimit(resource.RLIMIT_NOFILE)
    silent = min(int(silent), most - 100)
    resource.setrlimit(resource.RLIMIT_NOFILE, (min(most, silent + 100), most))
    cases = [
        ("datagrams at a shared socket beside a standard input that is watched", beside_input, ()),
        (f"a datagram costs as much beside {silent} silent senders as beside {FEW}", beside_silent, (silent,)),
    ]
    for name, case, more in cases:
        try:
            problem = case(program, *more)
        except OSError as error:
            problem = str(error) or type(error).__name__
        print(f"{name}\t{problem}", flush=True)


main(*sys.argv[1:])
