"""Peers of one socket of `UDP4-LISTEN,fork PIPE`; times are of the processor."""
import os
import resource
import select
import socket
import time

from measures import HERE, LIMIT, Failed, Figure, ended, free_port, started

AT_ONCE = 64
ROUNDS = 10
TALKS = 2000
FEW = 10
# How much more a datagram may take beside many silent peers than beside few.
MOST = 1.3


def peer(port):
    sock = socket.socket(socket.AF_INET, socket.SOCK_DGRAM)
    sock.connect((HERE, port))
    sock.setblocking(False)
    return sock


def talk(peers, number, poll, of_descriptor):
    """One datagram of each peer there and back: how many didn't come, and how many were another's."""
    left, waiting, foreign = list(range(len(peers))), {}, 0
    last = time.monotonic() + LIMIT
    while (left or waiting) and time.monotonic() < last:
        while left and len(waiting) < AT_ONCE:
            one = left.pop()
            waiting[one] = b"datagram %d of peer %d" % (number, one)
            peers[one].send(waiting[one])
        for descriptor, _ in poll.poll(0.5):
            one = of_descriptor[descriptor]
            foreign += peers[one].recv(4096) != waiting.pop(one, None)
    return len(left) + len(waiting), foreign


def is_bound(port):
    """Whether a socket of datagrams has the port (proc_net(5))."""
    with open("/proc/net/udp", encoding="ascii") as rows:
        return any(line.split()[1].endswith(f":{port:04X}") for line in rows.readlines()[1:])


def listening(bench):
    """The relay of the echo pipe, and its port."""
    port = free_port(socket.SOCK_DGRAM)
    relay = started([bench.programs["ours"], f"UDP4-LISTEN:{port},fork", "PIPE"])
    last = time.monotonic() + 10
    while not is_bound(port):
        if time.monotonic() > last:
            ended(relay)
            raise Failed("the relay doesn't listen")
        time.sleep(0.05)
    return relay, port


def polled(peers):
    """A poll of all of them, and the number of each by its descriptor."""
    poll = select.epoll()
    for sock in peers:
        poll.register(sock.fileno(), select.EPOLLIN)
    return poll, {sock.fileno(): number for number, sock in enumerate(peers)}


def all_at_once(bench, count):
    """Of all datagrams, how many were lost and how many another's."""
    relay, port = listening(bench)
    peers = [peer(port) for _ in range(count)]
    poll, of_descriptor = polled(peers)
    told = [talk(peers, number, poll, of_descriptor) for number in range(ROUNDS)]
    ended(relay)
    for sock in peers:
        sock.close()
    return tuple(sum(column) for column in zip(*told))


def worked(pid):
    """The microseconds of a processor that the loop of the relay took (proc(5), schedstat)."""
    with open(f"/proc/{pid}/schedstat", encoding="ascii") as stat:
        return int(stat.read().split()[0]) / 1e3


def beside(bench, silent):
    """What a datagram there and back takes of the relay's processor beside so many silent peers, in microseconds."""
    relay, port = listening(bench)
    peers = [peer(port) for _ in range(silent)]
    talk(peers, 0, *polled(peers))
    one = peer(port)
    one.settimeout(LIMIT)
    before = worked(relay.pid)
    for number in range(TALKS):
        one.send(b"datagram %d" % number)
        one.recv(4096)
    used = (worked(relay.pid) - before) / TALKS
    ended(relay)
    for sock in [*peers, one]:
        sock.close()
    return used


def figures(bench):
    _, most = resource.getrlimit(resource.RLIMIT_NOFILE)
    resource.setrlimit(resource.RLIMIT_NOFILE, (most, most))
    count, silent = bench.size(1000), bench.size(4000)
    columns = [(f"lost of {count * ROUNDS:,} datagrams of {count:,} peers", "", True), ("given to another peer", "", True)]
    yield from bench.figures(columns, ["ours"], lambda name: all_at_once(bench, count))
    found = bench.in_turn(["ours"], lambda name: (beside(bench, FEW), beside(bench, silent)))["ours"]
    few, many = ([row[at] for row in found] for at in (0, 1))
    yield Figure(f"a datagram beside {FEW} silent peers", "µs", {"ours": few}, True)
    yield Figure(f"a datagram beside {silent:,}", "µs", {"ours": many}, True)
    if min(many) > MOST * min(few):
        raise Failed(f"a datagram beside {silent} silent peers takes {min(many) / min(few):.2f} times as much as beside {FEW}")
