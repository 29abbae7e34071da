"""Verdicts on journals."""
import os
import socket
import subprocess
import time

from measures import HERE, LIMIT, TOP, Failed, awaited, free_port, started


def one_session(bench, count):
    """The journal of so many bytes from a file to /dev/null."""
    words = ["-u", f"OPEN:{bench.file('zeros')}", "CREATE:/dev/null"]
    with open(bench.file("zeros"), "wb") as out:
        out.write(bytes(count))
    subprocess.run([bench.programs["ours"], f"--journal={bench.file('journal')}", *words], timeout=LIMIT, check=True)
    return words


def many_sessions(bench, count):
    """The journal of so many peers, each with an answer of the echo pipe."""
    port = free_port()
    words = [f"TCP4-LISTEN:{port},fork,stop-after={count}", "PIPE"]
    relay = started([bench.programs["ours"], f"--journal={bench.file('journal')}", *words])
    last = time.monotonic() + 10
    done = 0
    while done < count:
        try:
            with socket.create_connection((HERE, port), LIMIT) as sock:
                sock.sendall(b"asked")
                sock.recv(16)
                done += 1
        except ConnectionRefusedError:
            if time.monotonic() > last:
                raise Failed("the relay doesn't listen") from None
            time.sleep(0.01)
    awaited(relay)
    return words


def judged(bench, auditor, words):
    """Seconds of the auditor's verdict, which is yes."""
    before = time.perf_counter()
    said = subprocess.run([auditor, bench.file("journal"), *words], capture_output=True, text=True, timeout=LIMIT, check=False)
    seconds = time.perf_counter() - before
    if not said.stdout.startswith("yes: "):
        raise Failed(f"the auditor says {said.stdout.strip() or said.returncode}")
    return (seconds,)


def figures(bench):
    auditor = os.path.join(os.path.dirname(bench.programs["ours"]), "socat-audit")
    if not os.path.exists(auditor):
        auditor = os.path.join(TOP, "bin", "socat-audit")
    if not os.path.exists(auditor):
        return bench.note("there is no auditor beside the program")
    for make, count, what in ((one_session, bench.size(4000000), "bytes of one session"), (many_sessions, bench.size(500), "sessions")):
        words = make(bench, count)
        with open(bench.file("journal"), "rb") as text:
            lines = sum(1 for _ in text)
        mib = os.path.getsize(bench.file("journal")) / 2**20
        title = f"{count:,} {what}: {lines:,} acts, {mib:.1f} MiB"
        yield from bench.figures([(title, "s", True)], ["ours"], lambda name, w=words: judged(bench, auditor, w))
    return None
