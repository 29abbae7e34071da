"""Runs a relay of standard input to standard output whose streams were set not to wait (O_NONBLOCK) by its parent: sockets,
named pipes and terminals as standard input, output and error; and terminals that hang up. One line a case: its name, a tab,
and what went wrong, if anything did. socat(1) loses what a standard error that doesn't wait takes late, and a terminal that
hangs up is a fault there.
Usage: nonblocking.py PROGRAM SCRATCH [own]     without `own`, of another socat, these cases are left out"""

import fcntl
import os
import pty
import re
import socket
import struct
import subprocess
import sys
import termios
import threading
import time
import tty

PROGRAM, SCRATCH = sys.argv[1:3]
OWN = sys.argv[3:] == ["own"]
LIMIT = 60
MANY = b"0123456789abcdef" * 25_000


def end_of_waiting(fd):
    """Sets the open file not to wait."""
    fcntl.fcntl(fd, fcntl.F_SETFL, fcntl.fcntl(fd, fcntl.F_GETFL) | os.O_NONBLOCK)
    return fd


def waits(fd):
    return not fcntl.fcntl(fd, fcntl.F_GETFL) & os.O_NONBLOCK


def sockets():
    """The test's end of a pair of sockets, and the program's."""
    ours, theirs = socket.socketpair()
    return ours.detach(), theirs.detach()


def named_pipe(name, program_reads):
    path = os.path.join(SCRATCH, name)
    os.mkfifo(path)
    reading = os.open(path, os.O_RDONLY | os.O_NONBLOCK)
    writing = os.open(path, os.O_WRONLY)
    ours, theirs = (writing, reading) if program_reads else (reading, writing)
    os.set_blocking(ours, True)
    return ours, theirs


def terminal():
    master, slave = pty.openpty()
    tty.setraw(slave)
    return master, slave


def pair(kind, name, program_reads):
    """The test's end, and the program's, which is set not to wait."""
    if kind == "socket":
        ours, theirs = sockets()
    elif kind == "named pipe":
        ours, theirs = named_pipe(name, program_reads)
    else:
        ours, theirs = terminal()
    return ours, end_of_waiting(theirs)


def taken(fd):
    """All that comes up to the end, which a terminal tells by an error."""
    got = b""
    while True:
        try:
            piece = os.read(fd, 65536)
        except OSError:
            return got
        if not piece:
            return got
        got += piece


def start(words, stdin, stdout, stderr):
    return subprocess.Popen([PROGRAM, *words], stdin=stdin, stdout=stdout, stderr=stderr)


def ended(process, problem):
    """The status has to be 0."""
    try:
        status = process.wait(LIMIT)
    except subprocess.TimeoutExpired:
        process.kill()
        process.wait()
        return problem or "it didn't end"
    if problem or status == 0:
        return problem
    return f"status {status}"


def as_input(kind):
    ours, theirs = pair(kind, f"in {kind}", True)
    process = start(["-u", "STDIN", "STDOUT"], theirs, subprocess.PIPE, subprocess.DEVNULL)
    got = b""
    for piece in (b"some ", b"bytes"):
        time.sleep(0.2)
        os.write(ours, piece)
        while len(got) < len(piece) and (more := os.read(process.stdout.fileno(), 100)):
            got += more
        if got != piece:
            break
        got = b""
    problem = "" if not got else f"other bytes came out: {got[:40]!r}"
    if process.poll() is not None:
        problem = "it ended before its input did"
    if waits(theirs):
        problem = "the descriptor waits now"
    os.close(ours)
    problem = ended(process, problem)
    os.close(theirs)
    return problem


def waiting_in(fd):
    """How many bytes wait there to be read."""
    return struct.unpack("i", fcntl.ioctl(fd, termios.FIONREAD, b"\0" * 4))[0]


def sleeps(process):
    """Whether each of its threads sleeps, and none only waits for a processor (proc(5))."""
    try:
        tasks = os.listdir(f"/proc/{process.pid}/task")
        states = [open(f"/proc/{process.pid}/task/{task}/stat").read() for task in tasks]
    except OSError:
        return False
    return all(state.rpartition(") ")[2].startswith("S") for state in states)


def wait_until_stuck(process, feeder, fd):
    """Waits until the program has ended, or sleeps and takes no more: what it writes to is full, and nobody reads."""
    looks, until = 0, time.monotonic() + LIMIT
    while looks < 5 and process.poll() is None and time.monotonic() < until:
        time.sleep(0.05)
        fed = not feeder.is_alive() or waiting_in(process.stdin.fileno()) > 0
        looks = looks + 1 if fed and waiting_in(fd) > 0 and sleeps(process) else 0


def written(process, ours, theirs, whole):
    """The program writes much to `theirs`, which is read late and has to come whole."""
    problem = "the descriptor waits now" if waits(theirs) else ""
    os.close(theirs)

    def feed():
        try:
            process.stdin.write(MANY)
            process.stdin.close()
        except OSError:
            pass

    feeder = threading.Thread(target=feed)
    feeder.start()
    wait_until_stuck(process, feeder, ours)
    got = taken(ours)
    feeder.join()
    if not problem and not whole(got):
        problem = f"{len(got)} bytes came, and not those that were sent"
    os.close(ours)
    return ended(process, problem)


def as_output(kind):
    ours, theirs = pair(kind, f"out {kind}", False)
    process = start(["-u", "STDIN", "STDOUT"], subprocess.PIPE, theirs, subprocess.DEVNULL)
    return written(process, ours, theirs, lambda got: got == MANY)


def as_errors(kind):
    ours, theirs = pair(kind, f"errors {kind}", False) if kind != "pipe" else plain_pipe()
    process = start(["-v", "-u", "STDIN", "STDOUT"], subprocess.PIPE, subprocess.DEVNULL, theirs)
    return written(process, ours, theirs, lambda got: dumped(got) == MANY)


def plain_pipe():
    reading, writing = os.pipe()
    return reading, end_of_waiting(writing)


# The head of a dump; that of socat(1) has the time, too.
HEAD = re.compile(rb"> (?:\S+ \S+ +)?length=\d+ from=\d+ to=\d+\n")


def dumped(text):
    """What dumps as text show of bytes without line ends: what stands between the heads."""
    return b"".join(part.rstrip(b"\n") for part in HEAD.split(text))


def hung_up():
    """The other end of a terminal closes: a read then fails with EIO, which is the end."""
    master, slave = terminal()
    os.write(slave, b"some bytes")
    process = start(["-u", "STDIN", "STDOUT"], master, subprocess.PIPE, subprocess.PIPE)
    os.close(slave)
    os.close(master)
    got, said = process.communicate(timeout=LIMIT)
    if got != b"some bytes" or said:
        return f"{got[:40]!r} came out, and it said {said[:60]!r}"
    return ended(process, "")


def main():
    both, own = [], []
    for kind in ("socket", "named pipe", "terminal"):
        both.append((f"a {kind} as the input, set not to wait", as_input, kind))
        both.append((f"a {kind} as the output, set not to wait", as_output, kind))
        own.append((f"a {kind} for dumps, set not to wait", as_errors, kind))
    own.append(("a full pipe for dumps, set not to wait", as_errors, "pipe"))
    own.append(("a terminal that hangs up is the end", hung_up))
    for name, case, *kind in both + own:
        left_out = not OWN and (name, case, *kind) in own
        print(f"{name}\t{'left out' if left_out else case(*kind)}", flush=True)


main()
