"""From pipe to pipe, the dump to /dev/null."""
import os
import subprocess
import time

from measures import Failed, Figure

PART = 16
LINE = b"a line of some forty bytes, and its end\n"


def most_memory(pid):
    """The most that the process has had so far, in KiB, or 0 if it has just ended."""
    try:
        with open(f"/proc/{pid}/status", encoding="ascii") as rows:
            return next((int(row.split()[1]) for row in rows if row.startswith("VmHWM:")), 0)
    except OSError:
        return 0


def run(bench, name, flags, file, mebibytes):
    """MB/s, and the most memory in KiB, of a run over so many mebibytes, of which a file has PART."""
    count = max(mebibytes // PART, 1)
    before = time.perf_counter()
    source = subprocess.Popen(["cat", *[file] * count], stdout=subprocess.PIPE)
    relay = subprocess.Popen([bench.programs[name], *flags, "-u", "STDIN", "STDOUT"], stdin=source.stdout,
                             stdout=subprocess.PIPE, stderr=subprocess.DEVNULL)
    source.stdout.close()
    sink = subprocess.Popen(["wc", "-c"], stdin=relay.stdout, stdout=subprocess.PIPE)
    relay.stdout.close()
    memory = 0
    while relay.poll() is None:
        memory = max(memory, most_memory(relay.pid))
        time.sleep(0.01)
    passed = int(sink.communicate()[0])
    seconds = time.perf_counter() - before
    source.wait()
    if relay.returncode != 0 or passed != count * PART << 20:
        raise Failed(f"{name} {flags}: status {relay.returncode}, {passed} bytes came out")
    return passed / seconds / 1e6, memory


def figures(bench):
    files = {"text": (LINE * ((PART << 20) // len(LINE) + 1))[: PART << 20], "random bytes": os.urandom(PART << 20)}
    memory = {}
    for flag in ("-v", "-x"):
        for kind, data in files.items():
            with open(bench.file("dumped"), "wb") as out:
                out.write(data)
            # socat is some fifty times slower, and gets less.
            found = bench.in_turn(
                bench.chosen("socat"),
                lambda name, f=flag: run(bench, name, [f], bench.file("dumped"), bench.size(512 if name == "ours" else 16)),
            )
            for who, rows in found.items():
                memory.setdefault(who, []).append(max(row[1] for row in rows))
            yield Figure(f"`{flag}`, {kind}", "MB/s", {who: [row[0] for row in rows] for who, rows in found.items()})
    yield Figure("the most memory of a run", "KiB", {who: [max(values)] for who, values in memory.items()}, True)
