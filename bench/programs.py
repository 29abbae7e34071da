"""Programs behind `EXEC`, and files."""
import os
import subprocess
import time

from measures import Failed

MIB = 1 << 20
ROWS = (
    ("from a program to a file", ("-u", "EXEC:cat zeros", "CREATE:copy")),
    ("from a file to a program", ("-u", "OPEN:zeros", "EXEC:wc -c")),
    ("from a file through `cat` to another", ("OPEN:zeros,rdonly!!CREATE:copy", "EXEC:cat")),
)


def seconds(bench, name, words, times=1):
    before = time.perf_counter()
    for _ in range(times):
        relay = subprocess.run([bench.programs[name], *words], cwd=bench.scratch.name, stdin=subprocess.DEVNULL,
                               stdout=subprocess.DEVNULL, stderr=subprocess.DEVNULL, timeout=120, check=False)
        if relay.returncode != 0:
            raise Failed(f"{name} {' '.join(words)}: status {relay.returncode}")
    return time.perf_counter() - before


def figures(bench):
    count = bench.size(512) * MIB
    with open(bench.file("zeros"), "wb") as out:
        for _ in range(count // MIB):
            out.write(bytes(MIB))
    names = bench.chosen("socat")
    for title, words in ROWS:
        yield from bench.figures(
            [(title, "MB/s", False)], names, lambda name, words=words: (count / seconds(bench, name, words) / 1e6,)
        )
    os.unlink(bench.file("zeros"))
    times = bench.size(64)
    yield from bench.figures(
        [("one program that does nothing", "ms", True)],
        names,
        lambda name: (seconds(bench, name, ("-u", "EXEC:true", "CREATE:copy"), times) / times * 1000,),
    )
