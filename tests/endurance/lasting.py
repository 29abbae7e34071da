"""Relays with `fork` that last as long as the whole trial: what they hold after each round is what they held before."""
import os
import socket
import subprocess
import time

# Rounds after which a relay has had what it takes.
WARM = 3
# How much more memory it may have taken at the end, in KiB, or an eighth of what it took then: a program that is
# compiled with checks takes a little more in each round.
MORE = 512
UNCHECKED = "quarantine_size_mb=0:thread_local_quarantine_size_kb=0"
CLIENTS = 12


class Relay:
    def __init__(self, program, folder, words, connect):
        self.connect, self.words = connect, words
        environment = {"PATH": os.environ["PATH"], "ASAN_OPTIONS": UNCHECKED}
        self.process = subprocess.Popen([program, "-t5", *words], cwd=folder, stdin=subprocess.DEVNULL,
                                        stdout=subprocess.DEVNULL, stderr=subprocess.DEVNULL, env=environment)
        self.warm = None

    def holds(self):
        """How many descriptors and threads it has."""
        return [len(os.listdir(f"/proc/{self.process.pid}/{what}")) for what in ("fd", "task")]

    def memory(self):
        """The most that it has had, in KiB; 0 where it has just ended."""
        with open(f"/proc/{self.process.pid}/status") as rows:
            return next((int(row.split()[1]) for row in rows if row.startswith("VmHWM:")), 0)

    def called(self):
        last = time.monotonic() + 10
        while True:
            try:
                return self.connect()
            except OSError:
                if time.monotonic() > last:
                    raise
                time.sleep(0.02)


class Lasting:
    def __init__(self, program, folder, ports):
        one, two = socket.socket(), os.path.join(folder, "lasting")
        one.bind(("127.0.0.1", 0))
        one.listen(1)
        self.dead = one
        port = free_port()
        other = free_port()
        self.relays = [
            Relay(program, folder, [f"TCP4-LISTEN:{port},fork", "EXEC:cat"], lambda: tcp(port)),
            Relay(program, folder, [f"TCP4-LISTEN:{other},fork,max-children=4", "PIPE"], lambda: tcp(other)),
            Relay(program, folder, ["UNIX-LISTEN:lasting,fork", f"TCP4:127.0.0.1:{other}"], lambda: unix(two)),
        ]
        self.rounds, self.passed, self.wrong, self.said = 0, 0, [], ""
        self.first = None

    def round(self):
        self.rounds += 1
        for relay in self.relays:
            before = relay.holds() if self.rounds > 1 else None
            problem = self.clients(relay)
            if before and not problem:
                problem = self.settled(relay, before)
            if problem:
                self.wrong.append(f"round {self.rounds} of {' '.join(relay.words)}: {problem}")
            else:
                self.passed += 1
        if self.rounds == WARM:
            self.first = [relay.memory() for relay in self.relays]

    def clients(self, relay):
        """Some clients at once; one leaves, one resets, and the others get what they send."""
        socks = []
        for number in range(CLIENTS):
            sock = relay.called()
            sock.settimeout(10)
            socks.append(sock)
            if number == 3:
                sock.close()
        problem = ""
        for number, sock in enumerate(socks):
            if number == 3:
                continue
            text = b"%d of many " % number * 100
            try:
                sock.sendall(text)
                sock.shutdown(socket.SHUT_WR)
                got = b""
                while True:
                    data = sock.recv(65536)
                    if not data:
                        break
                    got += data
                if got != text:
                    problem = f"client {number} got {len(got)} bytes of {len(text)}"
            except OSError as error:
                problem = f"client {number}: {error}"
            sock.close()
        return problem

    def settled(self, relay, before):
        """Whether it comes to hold no more than before."""
        last = time.monotonic() + 8
        while relay.holds() != before and any(a > b for a, b in zip(relay.holds(), before)):
            if time.monotonic() > last:
                return f"it held {before} descriptors and threads, and now {relay.holds()}"
            time.sleep(0.05)
        return ""

    def finish(self):
        """Ends them, and tells what was wrong."""
        now = [relay.memory() if relay.process.poll() is None else None for relay in self.relays]
        for relay, then, memory in zip(self.relays, self.first or now, now):
            name = " ".join(relay.words)
            if memory is None:
                self.wrong.append(f"{name} ended with status {relay.process.poll()}")
            elif memory > then + max(MORE, then // 8):
                self.wrong.append(f"{name} had taken {then} KiB after {WARM} rounds, and {memory} after {self.rounds}")
            relay.process.kill()
            relay.process.wait()
        self.said = f"lasting relays: {self.rounds} rounds, most memory {self.first} and then {now} KiB"
        self.dead.close()
        return self.wrong


def free_port():
    with socket.socket() as sock:
        sock.bind(("127.0.0.1", 0))
        return sock.getsockname()[1]


def tcp(port):
    return socket.create_connection(("127.0.0.1", port), 5)


def unix(path):
    sock = socket.socket(socket.AF_UNIX)
    sock.connect(path)
    return sock
