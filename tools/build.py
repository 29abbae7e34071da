#!/usr/bin/env python3
"""Proves programs with the crates that they stand on, and leaves them in bin/.

Usage: tools/build.py socat|socat-audit|socat-explain|socat-journal ..     (or the crate of another program)

`rt ci` does the work, on a copy that holds these crates alone: no program that isn't asked for, and no must-fail edit.
It uses all processors, and the machine keeps what it proved: an interrupted build goes on where it stopped, and
`make check` doesn't prove the same again. `37 of 58 crates, 12 minutes` says how far it has come.
"""
import os
import re
import shutil
import subprocess
import sys
import tempfile
import threading
import time

TOP = os.path.dirname(os.path.dirname(os.path.realpath(__file__)))
CRATES = {"socat": "socat_main", "socat-audit": "audit_main", "socat-explain": "explain_main", "socat-journal": "journal_main"}
LEFT_OUT = shutil.ignore_patterns("out", "must-fail")
# The longest time without a line, in seconds.
SILENCE = 25
ENDED = re.compile(r"rt: (\w+) (?:proved|is kept)\b")
FAILED = re.compile(r"rt: \w+ NOT PROVED\b")


def listed():
    """The lines of crates.txt by the crate's name, and the crates that each names."""
    lines, below = {}, {}
    with open(f"{TOP}/crates.txt", encoding="utf-8") as file:
        for line in file:
            head, colon, names = line.partition("#")[0].partition(":")
            if colon:
                name = head.split()[0]
                lines[name], below[name] = line, names.split()
    return lines, below


def needed(names, below):
    """The crates that these stand on, and these."""
    found, left = set(), list(names)
    while left:
        name = left.pop()
        if name in below and name not in found:
            found.add(name)
            left += below[name]
    return found


def copy_crates(names, lines, room):
    """Copies the crates, so that nothing else is proved with them."""
    shutil.copy(f"{TOP}/HANDLES", room)
    with open(f"{room}/crates.txt", "w", encoding="utf-8") as file:
        file.writelines(line for name, line in lines.items() if name in names)
    for name in names:
        shutil.copytree(f"{TOP}/crates/{name}", f"{room}/crates/{name}", ignore=LEFT_OUT)


class Progress:
    """How far the build has come, told at least every half minute."""

    def __init__(self, count):
        self.count = count
        self.began = self.told = time.monotonic()
        self.proved = set()
        self.is_over = threading.Event()
        self.printing = threading.Lock()
        threading.Thread(target=self.keep_telling, daemon=True).start()

    def heard(self, line):
        ended = ENDED.match(line)
        if FAILED.match(line):
            print(line, end="", flush=True)
        elif ended and ended[1] not in self.proved:
            self.proved.add(ended[1])
            self.tell_after(0 if len(self.proved) == self.count else 5)

    def keep_telling(self):
        while not self.is_over.wait(1):
            self.tell_after(SILENCE)

    def tell_after(self, silence):
        with self.printing:
            if time.monotonic() - self.told >= silence:
                self.tell()

    def tell(self):
        self.told = time.monotonic()
        minutes = int(self.told - self.began) // 60
        rest = ", and the programs are being tried" if len(self.proved) == self.count and not self.is_over.is_set() else ""
        print(f"{len(self.proved)} of {self.count} crates, {minutes} minute{'s' * (minutes != 1)}{rest}", flush=True)

    def finish(self):
        self.is_over.set()
        with self.printing:
            self.tell()


def prove(room, count):
    """Runs `rt ci` on the copy. Returns its status, and what it said."""
    said, progress = [], Progress(count)
    how = {"stdin": subprocess.DEVNULL, "stdout": subprocess.PIPE, "stderr": subprocess.STDOUT, "text": True}
    with subprocess.Popen(["rt", "ci"], cwd=room, errors="replace", **how) as run:
        for line in run.stdout:
            said.append(line)
            progress.heard(line)
    progress.finish()
    return run.returncode, said


def install(program, made):
    """Puts the program into bin/, where one that runs is replaced whole."""
    os.makedirs(f"{TOP}/bin", exist_ok=True)
    shutil.copy(made, f"{TOP}/bin/{program}.new")
    os.replace(f"{TOP}/bin/{program}.new", f"{TOP}/bin/{program}")


def crate_of(program):
    return CRATES.get(program, program)


def main(programs):
    if not programs or any(not os.path.exists(f"{TOP}/crates/{crate_of(name)}/src/main.rt") for name in programs):
        print(__doc__, file=sys.stderr)
        return 2
    if not shutil.which("rt"):
        print("rt, the toolchain's command, isn't on the PATH", file=sys.stderr)
        return 2
    lines, below = listed()
    names = needed([crate_of(name) for name in programs], below)
    print(f"Proving {len(names)} crates for {', '.join(programs)}. From nothing this takes half an hour or more.", flush=True)
    with tempfile.TemporaryDirectory(prefix="socat-build-") as room:
        copy_crates(names, lines, room)
        status, said = prove(room, len(names))
        if status:
            sys.stdout.writelines(said)
            print(f"rt ci failed with status {status}")
            return status
        for program in programs:
            crate = crate_of(program)
            install(program, f"{room}/crates/{crate}/out/{crate}")
            print(f"bin/{program} is proved and built.")
    return 0


if __name__ == "__main__":
    try:
        sys.exit(main(sys.argv[1:]))
    except KeyboardInterrupt:
        print("Interrupted. What was proved is kept: the next run goes on from there.")
        sys.exit(130)
