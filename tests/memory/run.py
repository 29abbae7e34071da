#!/usr/bin/env python3
"""Refused memory, as tests/memory.sh says.

run.py LIBRARY PROGRAM AUDITOR [WORKED FOLDER]      WORKED is the program run_trials, FOLDER has rows over a scripted world
"""
import os
import socket
import subprocess
import sys
import tempfile
import threading

LIMIT = 20
# Behind the last request that a run made so many further numbers are tried, since threads don't always make the same.
FURTHER = 5
NO_MEMORY = b"socat: out of memory\n"
NOT_OPENED = b"socat: open failed on the "


class Ended:
    """What a run ended with, and how many requests it made."""

    def __init__(self, status, output, errors, requests):
        self.status, self.output, self.errors, self.requests = status, output, errors, requests


def begun(library, number, words, stdin, folder, rest=False):
    """A process whose request with this number is refused, and with `rest` each behind it."""
    count, journal = os.path.join(folder, "count"), os.path.join(folder, "journal")
    if os.path.exists(journal):
        os.remove(journal)
    with open(count, "wb") as out:
        out.write(bytes(8))
    environment = {"PATH": os.environ["PATH"], "LD_PRELOAD": library, "REFUSE": str(number), "REFUSE_COUNT": count}
    if rest:
        environment["REFUSE_REST"] = "yes"
    return subprocess.Popen(words, stdin=stdin, stdout=subprocess.PIPE, stderr=subprocess.PIPE, cwd=folder,
                            env=environment)


def ended(process, given, folder):
    try:
        output, errors = process.communicate(given, timeout=LIMIT)
    except subprocess.TimeoutExpired:
        process.kill()
        output, errors = process.communicate()
    with open(os.path.join(folder, "count"), "rb") as found:
        requests = int.from_bytes(found.read(8), sys.byteorder)
    return Ended(process.returncode, output, errors, requests)


class Row:
    """One row: its words, what it is given, and what comes of it where no memory is refused."""

    def __init__(self, name, words, given, output, errors=b"", rest=False):
        self.name, self.words, self.given, self.output, self.errors = name, words, given, output, errors
        self.rest = rest

    def run(self, library, number, program, flags, folder):
        process = begun(library, number, [program, *flags, *self.words], subprocess.PIPE, folder, self.rest)
        return ended(process, self.given, folder)

    def is_whole(self, end):
        return (end.status, end.output, end.errors) == (0, self.output, self.errors)

    def is_front(self, end):
        """Whether it ended for want of memory, having passed no wrong byte."""
        notes = end.errors.removesuffix(NO_MEMORY)
        return (end.status == 2 and end.errors.endswith(NO_MEMORY)
                and self.output.startswith(end.output) and self.errors.startswith(notes))


class Peers(Row):
    """Three TCP peers of a command with `fork`, two at a time; the server resets the connection of the second."""

    def __init__(self):
        super().__init__("three peers", None, b"", b"")

    def run(self, library, number, program, flags, folder):
        server = socket.create_server(("127.0.0.1", 0))
        server.settimeout(LIMIT)
        with socket.socket() as free:
            free.bind(("127.0.0.1", 0))
            port = free.getsockname()[1]
        self.words = [f"TCP4-LISTEN:{port},reuseaddr,fork,max-children=2,stop-after=3",
                      f"TCP4:127.0.0.1:{server.getsockname()[1]}"]
        over = threading.Event()
        self.answers = [None] * 3
        threading.Thread(target=self.serve, args=(server,), daemon=True).start()
        process = begun(library, number, [program, *flags, *self.words], subprocess.DEVNULL, folder)
        clients = [threading.Thread(target=self.call, args=(port, which, over), daemon=True) for which in range(3)]
        for client in clients:
            client.start()
        end = ended(process, None, folder)
        over.set()
        for client in clients:
            client.join(LIMIT)
        server.close()
        return end

    def serve(self, server):
        while True:
            try:
                sock, _ = server.accept()
            except OSError:
                return
            threading.Thread(target=self.answer, args=(sock,), daemon=True).start()

    def answer(self, sock):
        sock.settimeout(LIMIT)
        try:
            asked = sock.recv(2)
            if asked != b"q1":
                sock.sendall(asked.replace(b"q", b"r"))
            sock.close()
        except OSError:
            sock.close()

    def call(self, port, which, over):
        while not over.is_set():
            try:
                sock = socket.create_connection(("127.0.0.1", port), 1)
            except OSError:
                over.wait(0.005)
                continue
            sock.settimeout(LIMIT)
            try:
                sock.sendall(b"q%d" % which)
                sock.shutdown(socket.SHUT_WR)
                self.answers[which] = sock.recv(10)
            except OSError:
                pass
            sock.close()
            return

    def is_whole(self, end):
        return end.status == 0 and not end.errors and self.answers == [b"r0", b"", b"r2"]

    def is_front(self, end):
        rights = (None, b"", b"r0"), (None, b""), (None, b"", b"r2")
        fits = all(answer in right for answer, right in zip(self.answers, rights))
        return end.status == 2 and end.errors == NO_MEMORY and fits


class Worked:
    """One row of run_trials, which is printed as fitting, or as one that ended for want of memory with all closed."""

    errors = b""

    def __init__(self, program, folder, name):
        self.program, self.name = program, name
        self.folder = tempfile.mkdtemp(dir=folder)

    def run(self, library, number, *_):
        process = begun(library, number, [self.program, "scripted/one.rows"], subprocess.PIPE, self.folder)
        return ended(process, b"", self.folder)

    def take(self, rows):
        """Finds the row in the files, and keeps it alone."""
        for file in sorted(os.listdir(rows)):
            with open(os.path.join(rows, file)) as lines:
                for text in lines.read().split("\n\n"):
                    text = "\n".join(line for line in text.splitlines() if not line.startswith("#"))
                    if text.startswith(f"row {self.name}\n"):
                        os.mkdir(os.path.join(self.folder, "scripted"))
                        with open(os.path.join(self.folder, "scripted", "one.rows"), "w") as out:
                            out.write(text + "\n")
                        return
        sys.exit(f"there is no row {self.name}")

    def is_whole(self, end):
        return end.status == 0 and f"{self.name} ok\n".encode() in end.output

    def is_front(self, end):
        """The row's own check says of the journal that it is legal and holds nothing, else it names the row's head."""
        if end.status != 1:
            return False
        own = not end.output and b"OutOfMemory" in end.errors
        told = b"have memory" in end.output and f"want row {self.name},".encode() not in end.output
        return own or told


def audited(auditor, folder, words):
    """'' where the journal is one of a run that closed all, 'none' where there is none, else what the auditor says."""
    name = os.path.join(folder, "journal")
    if not os.path.exists(name) or not os.path.getsize(name):
        return "none"
    said = subprocess.run([auditor, name, *words], capture_output=True, timeout=LIMIT).stdout.decode().strip()
    return "" if said.startswith("yes: ") and said.endswith(", 0 held") else said


class Tally:
    passed = failed = 0


WHOLE, UNSAVED = "as ever", "as ever but for the journal"
THREADLESS, WANTING, OTHERWISE = "had no thread for a stream", "ended for want of memory", "were otherwise"
HOW = (WHOLE, UNSAVED, THREADLESS, WANTING, OTHERWISE)


def how_it_ended(row, end, journal):
    """What is said of a run that ended so. `journal` is what the auditor says of its journal, None where it has none."""
    if row.is_whole(end):
        return WHOLE if journal in (None, "") else OTHERWISE
    # A stream whose thread can't be started isn't opened. Standard error then loses what its descriptor doesn't take at once.
    if end.status == 1 and not end.output and end.errors.startswith(NOT_OPENED) and journal in (None, ""):
        return THREADLESS
    if row.errors and row.is_whole(Ended(end.status, end.output, row.errors, 0)) and not end.errors and not journal:
        return THREADLESS
    if end.status == 2 and journal == "none":
        if row.is_whole(Ended(0, end.output, end.errors.removesuffix(NO_MEMORY), 0)) and end.errors.endswith(NO_MEMORY):
            return UNSAVED
    return WANTING if row.is_front(end) and journal in (None, "", "none") else OTHERWISE


def each_refused(library, row, program, flags, auditor, folder):
    """Runs the row with each request refused in turn, and says how many runs ended how."""
    title = row.name + (", with a journal" if flags else "")
    counts = dict.fromkeys(HOW, 0)
    last, number = row.run(library, 0, program, flags, folder).requests, 0
    if last == 0:
        sys.exit(f"{title}: the program doesn't ask the C library for memory")
    while number < last + FURTHER:
        number += 1
        end = row.run(library, number, program, flags, folder)
        last = max(last, end.requests)
        journal = audited(auditor, folder, row.words) if flags else None
        how = how_it_ended(row, end, journal)
        counts[how] += 1
        if how == OTHERWISE:
            said = f"status {end.status}, output {end.output[:60]}, errors {end.errors[:200]}, journal {journal}"
            print(f"FAILED  {title}, request {number} refused: {said}", flush=True)
    bad = counts[OTHERWISE]
    Tally.failed += bad
    Tally.passed += number - bad
    said = ", ".join(f"{count} {how}" for how, count in counts.items() if count)
    print(f"{'FAILED' if bad else 'ok    '}  {title}: {number} runs, {said}", flush=True)


def main(library, program, auditor, worked=None, rows=None):
    many = os.urandom(100000)
    real = [
        Row("one way", ["-u", "STDIN", "STDOUT"], b"abc", b"abc"),
        Row("a dump", ["-v", "-u", "STDIN", "STDOUT"], b"a\n", b"a\n", b"> length=2 from=0 to=1\na\n"),
        Row("100,000 bytes over both rings", ["-u", "STDIN", "STDOUT"], many, many),
        Row("one way, and all behind it", ["-u", "STDIN", "STDOUT"], b"abc", b"abc", rest=True),
        Row("a dump, and all behind it", ["-v", "-u", "STDIN", "STDOUT"], b"a\n", b"a\n", b"> length=2 from=0 to=1\na\n", True),
        Peers(),
    ]
    with tempfile.TemporaryDirectory() as folder:
        for row in real:
            for flags in ([], ["--journal=journal"]):
                each_refused(library, row, program, flags, auditor, folder)
        for name in ("three_bytes", "three_sessions", "a_dump") if worked else ():
            row = Worked(worked, folder, name)
            row.take(rows)
            each_refused(library, row, None, [], auditor, folder)
    print(f"{Tally.passed} passed, {Tally.failed} failed")
    sys.exit(1 if Tally.failed else 0)


main(*sys.argv[1:])
