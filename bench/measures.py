"""What the measures of this folder share: the program and its peers, relays and their processor time, rounds in turn, and
tables of what was found. 1 MB is 1,000,000 bytes."""
import os
import re
import shutil
import signal
import socket
import subprocess
import sys
import tempfile
import threading
import time

FOLDER = os.path.dirname(os.path.abspath(__file__))
TOP = os.path.dirname(FOLDER)
HERE = "127.0.0.1"
LIMIT = 120
# Peers that the system may have. `cat` is one where two standard streams are joined.
INSTALLED = ("socat", "pen", "haproxy", "ncat", "cat")
# These serve until they are ended.
SERVERS = ("pen", "haproxy", "ncat")
HAPROXY = """global
  nbthread 1
  maxconn 5000
defaults
  mode tcp
  timeout connect 10s
  timeout client 60s
  timeout server 60s
listen relay
  bind {here}:{port}
  server far {here}:{back}
"""


class Failed(Exception):
    """What was measured didn't do its work."""


class Figure:
    """What was found of each program, one value a round. It stands in the table of its workload, where a part has several."""

    def __init__(self, name, unit, values, less_is_better=False, workload=""):
        self.name = name
        self.unit = unit
        self.values = values
        self.less_is_better = less_is_better
        self.workload = workload


class Bench:
    """One run of measures: the programs by their names, how many rounds, and which part of the bytes."""

    def __init__(self, program, rounds, small=False):
        self.rounds = rounds
        self.small = small
        self.notes = []
        self.scratch = tempfile.TemporaryDirectory()
        self.programs = {"ours": os.path.realpath(program)}
        for name in INSTALLED:
            path = installed(name)
            if path:
                self.programs[name] = path
            else:
                self.note(f"{name} isn't installed")
        self.load = self.compiled("load")
        self.flood = self.compiled("flood")
        bare = self.compiled("bare")
        if bare:
            self.programs["bare loop"] = bare
        else:
            self.note("there is no C compiler, so no bare loop, and nothing that many clients do")

    def note(self, text):
        """Tells what is left out and why, without the folders of this machine."""
        text = re.sub(r"(?<![\w.~-])/(?:[^\s'\"/]+/)+", "", text)
        if text not in self.notes:
            self.notes.append(text)
            print(f"skipped: {text}", file=sys.stderr, flush=True)

    def compiled(self, name):
        """The program of NAME.c, where there is a compiler that takes it."""
        compiler = shutil.which("cc") or shutil.which("gcc") or shutil.which("clang")
        if not compiler:
            return None
        program = os.path.join(self.scratch.name, name)
        made = subprocess.run([compiler, "-O2", "-o", program, os.path.join(FOLDER, f"{name}.c")], check=False)
        if made.returncode != 0:
            return self.note(f"{compiler} doesn't compile bench/{name}.c")
        return program

    def chosen(self, *names):
        """Those of the programs that are there, ours first."""
        return [name for name in ("ours", *names) if name in self.programs]

    def size(self, count):
        """How many bytes, or things to do, where the whole run has so many."""
        return max(count // 16, 1) if self.small else count

    def file(self, name):
        return os.path.join(self.scratch.name, name)

    def in_turn(self, names, measure, rounds=None, title=""):
        """The values that a measure finds of each program, a tuple a round. A peer that fails is left out."""
        found = {name: [] for name in names}
        for _ in range(rounds or self.rounds):
            for name in list(found):
                try:
                    found[name].append(measure(name))
                except (Failed, OSError, subprocess.SubprocessError) as problem:
                    if name == "ours":
                        raise
                    del found[name]
                    self.note(f"{name}{title and ' at ' + title}: {problem}")
        return found

    def figures(self, columns, names, measure, rounds=None):
        """A figure for each column (name, unit, whether less is better) of the tuples that a measure finds."""
        found = self.in_turn(names, measure, rounds, columns[0][0])
        for at, (name, unit, less_is_better) in enumerate(columns):
            yield Figure(name, unit, {who: [row[at] for row in rows] for who, rows in found.items()}, less_is_better)


# --- peers


def installed(name):
    """The path of a peer, or None. Another copy of the program that is measured is no peer."""
    for folder in os.environ.get("PATH", "").split(":") + ["/usr/sbin", "/usr/local/sbin"]:
        path = shutil.which(name, path=folder) if folder else None
        if path and "socat relay, profile" not in said(path, name):
            return path
    return None


def said(path, name):
    """What a peer prints of itself."""
    flag = {"ncat": "--version", "cat": "--version", "haproxy": "-v", "pen": "-h"}.get(name, "-V")
    try:
        run = subprocess.run([path, flag], stdin=subprocess.DEVNULL, capture_output=True, text=True, timeout=10, check=False)
    except (OSError, subprocess.TimeoutExpired):
        return ""
    return run.stdout + run.stderr


def version(bench, name):
    """The version that a peer tells, as a number."""
    found = re.search(r"\d+\.\d[\w.]*", said(bench.programs[name], name))
    return found.group() if found else ""


# --- relays


def forwarder(bench, name, port, back, many=False):
    """The command of a relay from one port of the loopback to another, for one peer or for many."""
    program = bench.programs[name]
    if name == "bare loop":
        return [program, "many" if many else "tcp", str(port), str(back)]
    if name == "pen":
        return [program, "-f", "-r", "-x", "1000", "-c", "1000", f"{HERE}:{port}", f"{HERE}:{back}"]
    if name == "haproxy":
        with open(bench.file("haproxy.conf"), "w", encoding="ascii") as out:
            out.write(HAPROXY.format(here=HERE, port=port, back=back))
        return [program, "-db", "-f", bench.file("haproxy.conf")]
    if name == "ncat":
        return [program, "-k", "-m", "1000", "-l", HERE, str(port), "--sh-exec", f"{program} {HERE} {back}"]
    return [program, "-t10", f"TCP4-LISTEN:{port},reuseaddr{',fork' if many else ''}", f"TCP4:{HERE}:{back}"]


def started(command):
    """A relay in a group of its own."""
    return subprocess.Popen(command, stdin=subprocess.DEVNULL, stdout=subprocess.DEVNULL, stderr=subprocess.DEVNULL,
                            start_new_session=True)


def listening(command, port):
    """A relay that listens at the port of the loopback."""
    relay = started(command)
    last = time.monotonic() + 10
    while time.monotonic() < last and relay.poll() is None:
        try:
            socket.create_connection((HERE, port)).close()
            time.sleep(0.1)
            return relay
        except ConnectionRefusedError:
            time.sleep(0.02)
    ended(relay)
    raise Failed(f"nothing listens at the port of {command[0]}")


def ended(relay):
    """Ends the relay and its children. The processor time of those that it awaited, in seconds."""
    if relay.returncode is None:
        relay.send_signal(signal.SIGSTOP)
        try:
            os.killpg(relay.pid, signal.SIGKILL)
        except ProcessLookupError:
            pass
    return awaited(relay, any_status=True)


def awaited(relay, any_status=False):
    """Waits for its end: the processor time that it took, in seconds."""
    if relay.returncode is not None:
        raise Failed(f"{relay.args[0]} ended early, with {relay.returncode}")
    limit = threading.Timer(LIMIT, os.killpg, (relay.pid, signal.SIGKILL))
    limit.start()
    _, status, usage = os.wait4(relay.pid, 0)
    limit.cancel()
    relay.returncode = os.waitstatus_to_exitcode(status)
    if relay.returncode != 0 and not any_status:
        raise Failed(f"{relay.args[0]} ended with {relay.returncode}")
    return usage.ru_utime + usage.ru_stime


def free_port(how=socket.SOCK_STREAM):
    """A port of the loopback that nobody has."""
    with socket.socket(socket.AF_INET, how) as sock:
        sock.bind((HERE, 0))
        return sock.getsockname()[1]


class Server:
    """A run of load.c or flood.c that prints its port, and ends with its standard input."""

    def __init__(self, *words):
        self.process = subprocess.Popen(words, stdin=subprocess.PIPE, stdout=subprocess.PIPE)
        self.port = int(self.process.stdout.readline())

    def end(self):
        self.process.stdin.close()
        self.process.wait()


# --- tables


def median(values):
    """The middle value, the lower one of two."""
    return sorted(values)[(len(values) - 1) // 2]


def shown(value):
    if value is None:
        return "-"
    return f"{value:,.0f}" if value >= 100 else f"{value:.1f}" if value >= 10 else f"{value:.2f}" if value else "0"


def spread(values):
    return f" ({shown(min(values))}-{shown(max(values))})" if len(values) > 1 else ""


def cell(figure, name):
    """The median of a program with its spread; of a peer with the ratio of ours to it, a round at a time."""
    values = figure.values.get(name)
    if not values or None in values:
        return "-"
    if name == "ours":
        return shown(median(values)) + spread(values)
    found = [a / b for a, b in zip(figure.values["ours"], values) if a is not None and b]
    return shown(median(values)) + (f" ×{median(found):.2f}" + spread(found) if found else "")


def table(figures):
    """The lines of a table, a row a figure, a column a program."""
    names = []
    for figure in figures:
        names += [name for name in figure.values if name not in names]
    yield "| | " + " | ".join(names) + " |"
    yield "|---|" + "---|" * len(names)
    for figure in figures:
        unit = f", {figure.unit}" if figure.unit else ""
        mark = " ↓" if figure.less_is_better else ""
        yield f"| {figure.name}{unit}{mark} | " + " | ".join(cell(figure, name) for name in names) + " |"


def machine():
    """What the figures are of: processor, number of processors, system."""
    with open("/proc/cpuinfo", encoding="utf-8") as rows:
        text = rows.read()
    model = re.search(r"^model name\s*:\s*(.*)$", text, re.M)
    clock = re.search(r"^cpu MHz\s*:\s*(\d+)", text, re.M)
    name = " ".join(model.group(1).split()) if model else os.uname().machine
    at = f" at {clock.group(1)} MHz" if clock else ""
    virtual = ", a virtual machine" if re.search(r"^flags\s*:.*\bhypervisor\b", text, re.M) else ""
    return f"{name}{at}, {os.cpu_count()} processors, Linux {os.uname().release.split('-')[0]}{virtual}"
