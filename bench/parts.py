"""Parts by themselves."""
import os
import re
import subprocess

from measures import LIMIT, TOP, Failed, Figure

CRATE = "part_trials"
# The words that each part is asked with.
PARTS = {"flow": ("measure", "flow", "200000"), "timers": ("measure", "timers", "300000")}
LINE = re.compile(r"^(.*?): ([\d.]+)(?: (MB/s|ns))?\b")
# What a flow is compared with: a queue without its rules, and a copy of each block.
PEERS = {"ring": "ring alone", "memcpy": "memcpy"}
# Where `make bench` and `make check` leave the program.
PLACES = (os.path.join(TOP, "bin", CRATE), os.path.join(TOP, "crates", CRATE, "out", CRATE))


def built(bench):
    for program in PLACES:
        if os.access(program, os.X_OK):
            return program
    return bench.note(f"{CRATE} isn't built: `tools/build.py {CRATE}` makes it")


def lines_of(program, words):
    """The figures that a program prints, by their names; not the ratios, which have no unit."""
    said = subprocess.run([program, *words], capture_output=True, text=True, timeout=LIMIT, check=False)
    found = {line[1]: float(line[2]) for line in map(LINE.match, said.stdout.split("\n")) if line and line[3]}
    if said.returncode != 0 or not found:
        raise Failed(f"{program} {' '.join(words)}: status {said.returncode}")
    return found


def rounds_of(bench, program, part):
    """The values of each figure, one a round."""
    *words, count = PARTS[part]
    rounds = [lines_of(program, [*words, str(bench.size(int(count)))]) for _ in range(bench.rounds)]
    return {name: [found[name] for found in rounds] for name in rounds[0]}


def figures(bench):
    program = built(bench)
    if not program:
        return
    flows = rounds_of(bench, program, "flow")
    peers = {title: flows.pop(name) for name, title in PEERS.items()}
    for name, values in flows.items():
        yield Figure(name, "MB/s", {"ours": values, **peers}, workload="A flow of blocks of 8 KiB")
    for name, values in rounds_of(bench, program, "timers").items():
        yield Figure(f"beside {name}", "ns", {"ours": values}, True, "Timers, a set and a due")
