"""Processor time of address words of 65,536 bytes."""
import resource
import subprocess

from measures import Figure

LONGEST = 65536
SHAPES = (
    ("letters", "", "a"),
    ("open brackets", "", "("),
    ("brackets of each kind", "", "([{}])"),
    ("escapes", "", "\\a"),
    ("quotes", "", "''"),
    ("commas", "", "a,b,"),
    ("colons", "", "a:b:"),
    ("duals", "", "a!!"),
    ("equals signs", "", "a,b="),
    ("options", "STDIN", ",cr"),
)


def cost(program, word, times):
    """Milliseconds of processor time of a run with the word as the first address."""
    before = resource.getrusage(resource.RUSAGE_CHILDREN)
    for _ in range(times):
        subprocess.run([program, word, "-"], stdin=subprocess.DEVNULL, capture_output=True, check=False)
    after = resource.getrusage(resource.RUSAGE_CHILDREN)
    return (after.ru_utime + after.ru_stime - before.ru_utime - before.ru_stime) * 1000 / times


def figures(bench):
    program, times = bench.programs["ours"], bench.size(64)
    for name, front, piece in SHAPES:
        half, full = (front + piece * ((length - len(front)) // len(piece)) for length in (LONGEST // 2, LONGEST))
        found = [(cost(program, "", times), cost(program, half, times), cost(program, full, times)) for _ in range(bench.rounds)]
        yield Figure(name, "ms", {"ours": [row[2] - row[0] for row in found]}, True)
        yield Figure("half as long", "ms", {"ours": [row[1] - row[0] for row in found]}, True)
