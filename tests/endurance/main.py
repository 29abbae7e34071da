#!/usr/bin/env python3
"""Random commands against the built program, as tests/endurance.sh says."""
import argparse
import concurrent.futures
import errno
import os
import random
import shutil
import signal
import subprocess
import sys
import tempfile
import threading
import time

from checks import Checks
from lasting import Lasting
from partners import Ports, Room, Standard
from plans import some_plan

# Seconds for a run, PATIENCE times as many on a slow machine or of a program that is compiled with checks.
LIMIT = 20 * int(os.environ.get("PATIENCE", 1))


class Run:
    """One run of a plan, from its start to what is left of it."""

    def __init__(self, program, plan, room, mark):
        self.program, self.plan, self.room, self.mark = program, plan, room, mark
        self.limit = LIMIT
        self.status, self.most_memory, self.children, self.stopped = None, 0, [], False
        self.journal = self.errors = b""
        self.closed = ""

    def signal_name(self):
        return signal.Signals(-self.status).name

    def streams(self):
        """The standard streams: a partner's, a closed one, or one that has and takes nothing."""
        given = taken = None
        self.closed = "2" if self.plan.silent else ""
        for it in self.plan.partners():
            if not isinstance(it, Standard):
                continue
            if it.reads:
                given, self.closed = it.theirs[0], self.closed + ("0" if it.given == "closed" else "")
            if it.writes:
                taken, self.closed = it.theirs[1], self.closed + ("1" if it.taken == "closed" else "")
        return given, taken

    def begin(self):
        given, taken = self.streams()
        self.nothing = self.room.path("nothing")
        words = [self.program, "--journal=journal", *self.plan.words()]
        closing = "".join(" <&-" if stream == "0" else f" {stream}>&-" for stream in self.closed)
        if closing:
            words = ["/bin/sh", "-c", 'exec "$0" "$@"' + closing, *words]
        environment = {"PATH": os.environ["PATH"], "ENDURANCE": self.mark, "TMPDIR": self.room.folder}
        with open(self.room.path("errors"), "wb") as errors, open(self.nothing, "wb") as nothing:
            self.process = subprocess.Popen(
                words, stdin=subprocess.DEVNULL if given is None else given,
                stdout=nothing if taken is None else taken, stderr=errors, cwd=self.room.folder, env=environment)
        self.room.pid = self.process.pid

    def wait(self):
        """Waits for its end, sends the signals of the plan meanwhile, and looks at its memory."""
        begun = time.monotonic()
        moment, due = 0.0, []
        for pause, name in self.plan.signals:
            moment += pause
            due.append((begun + moment, name))
        while time.monotonic() < begun + self.limit:
            if due and time.monotonic() >= due[0][0]:
                self.stopped = self.stopped or due[0][1] in ("TERM", "INT", "KILL", "HUP", "USR1")
                self.process.send_signal(getattr(signal, "SIG" + due.pop(0)[1]))
            try:
                self.status = self.process.wait(0.005 if due else 0.02)
                return
            except subprocess.TimeoutExpired:
                self.most_memory = max(self.most_memory, memory_of(self.process.pid))
        self.process.kill()
        self.process.wait()

    def end(self):
        self.room.over.set()
        for it in self.plan.partners():
            it.finish()
        if self.plan.crowd:
            self.plan.crowd.finish()
        self.children = left_of(self.mark)
        for name in ("journal", "errors"):
            try:
                with open(self.room.path(name), "rb") as found:
                    setattr(self, name, found.read())
            except OSError:
                pass
        if os.path.getsize(self.nothing):
            self.plan.partners()[0].wrong.append("bytes came to a standard output that no address names")


def memory_of(pid):
    """The most memory that the process has had, in KiB, or 0 where it has gone."""
    try:
        with open(f"/proc/{pid}/status") as rows:
            for row in rows:
                if row.startswith("VmHWM:"):
                    return int(row.split()[1])
    except OSError:
        pass
    return 0


def left_of(mark):
    """The processes with this mark that are still there after three seconds; these are ended."""
    last = time.monotonic() + 3
    while True:
        found = marked(mark)
        if not found:
            return []
        if time.monotonic() > last:
            break
        time.sleep(0.05)
    said = []
    for pid in found:
        try:
            with open(f"/proc/{pid}/cmdline", "rb") as words:
                said.append(words.read().replace(b"\0", b" ").decode("latin-1").strip())
            os.kill(pid, signal.SIGKILL)
        except OSError:
            pass
    return said


def marked(mark):
    wanted = f"ENDURANCE={mark}".encode()
    found = []
    for name in os.listdir("/proc"):
        if not name.isdigit():
            continue
        try:
            with open(f"/proc/{name}/environ", "rb") as values:
                if wanted in values.read().split(b"\0"):
                    found.append(int(name))
        except OSError:
            continue
    return found


class Endurance:
    def __init__(self, options, folder):
        self.options, self.folder = options, folder
        self.ports = Ports()
        self.lock = threading.Lock()
        self.passed = self.failed = 0
        self.kinds, self.statuses, self.most = {}, {}, 0

    def planned(self, number):
        """The plan of this number in a room of its own; once more where somebody else has taken a port meanwhile."""
        for last in (False, False, True):
            dice = random.Random(f"{self.options.seed}:{number}")
            room = Room(tempfile.mkdtemp(dir=self.folder), self.ports, dice)
            try:
                return dice, room, some_plan(dice, room, self.options.crowds)
            except OSError as error:
                room.leave()
                if last or error.errno != errno.EADDRINUSE:
                    raise

    def one(self, number):
        seed = self.options.seed
        dice, room, plan = self.planned(number)
        run, wrong = None, []
        try:
            run = Run(self.options.program, plan, room, f"{seed}-{number}-{os.getpid()}")
            run.begin()
            for it in plan.partners():
                it.begin()
            if plan.crowd:
                plan.crowd.begin()
            run.wait()
            run.end()
            checks = Checks(plan, run)
            checks.all(self.options.auditor, dice.randrange(4) == 0)
            wrong = checks.wrong
        except Exception as error:
            wrong = [f"the script failed: {error!r}"]
            if self.options.only is not None:
                raise
        self.note(number, plan, run, wrong)
        room.leave()
        if self.options.keep:
            print(f"kept {room.folder}")
        else:
            shutil.rmtree(room.folder, ignore_errors=True)

    def note(self, number, plan, run, wrong):
        words = " ".join(plan.words())
        with self.lock:
            if wrong:
                self.failed += 1
                signs = f" with the signals {plan.signals}" if plan.signals else ""
                print(f"FAILED  seed {self.options.seed} run {number}: {words}{signs}")
                for text in wrong[:5]:
                    print(f"        {text}")
                sys.stdout.flush()
            else:
                self.passed += 1
                if self.options.show:
                    print(f"ok      run {number}: {words}: {run.status}", flush=True)
            if run:
                kinds = [it.kind for it in plan.partners()]
                if plan.crowd:
                    left, right = (half.inward.text.partition(":")[0] for half in (plan.left, plan.right))
                    kinds = [left + ",fork", right]
                for kind in kinds:
                    kind = "GOPEN" if "/" in kind else kind.upper()
                    self.kinds[kind] = self.kinds.get(kind, 0) + 1
                self.statuses[run.status] = self.statuses.get(run.status, 0) + 1
                self.most = max(self.most, run.most_memory)

    def all(self):
        """Runs until the time is over, some at once; every so often the lasting relays are looked at."""
        until = time.monotonic() + self.options.seconds
        lasting = Lasting(self.options.program, self.folder, self.ports)
        held = len(os.listdir("/proc/self/fd"))
        number = self.options.first
        try:
            with concurrent.futures.ThreadPoolExecutor(self.options.jobs) as pool:
                while time.monotonic() < until:
                    last = number + 20 * self.options.jobs
                    list(pool.map(self.one, range(number, last)))
                    number = last
                    lasting.round()
        finally:
            wrong = lasting.finish()
        now = len(os.listdir("/proc/self/fd"))
        if now > held:
            print(f"note: this script held {held} descriptors, and now {now}")
        for text in wrong:
            print(f"FAILED  {text}")
        self.failed += len(wrong)
        self.passed += lasting.passed
        print(f"runs: {number - self.options.first}, the most memory of one {self.most} KiB")
        print("statuses: " + ", ".join(f"{key} {value}" for key, value in sorted(self.statuses.items(), key=str)))
        print("kinds: " + ", ".join(f"{key} {value}" for key, value in sorted(self.kinds.items())))
        print(lasting.said)


def main():
    asked = argparse.ArgumentParser()
    asked.add_argument("program")
    asked.add_argument("auditor")
    asked.add_argument("--seconds", type=float, default=600)
    asked.add_argument("--seed", type=int, default=None)
    asked.add_argument("--first", type=int, default=0)
    asked.add_argument("--only", type=int, default=None)
    asked.add_argument("--jobs", type=int, default=3)
    asked.add_argument("--crowds", action="store_true")
    asked.add_argument("--show", action="store_true")
    asked.add_argument("--keep", action="store_true")
    options = asked.parse_args()
    options.program, options.auditor = os.path.abspath(options.program), os.path.abspath(options.auditor)
    if options.seed is None:
        options.seed = random.SystemRandom().randrange(10**9)
    print(f"seed {options.seed}", flush=True)
    signal.signal(signal.SIGTERM, lambda *_: sys.exit("ended by a signal"))
    if signal.getsignal(signal.SIGHUP) == signal.SIG_IGN:
        # as under nohup: the relays would ignore it too, but not what is caught here
        signal.signal(signal.SIGHUP, lambda *_: None)
    folder = tempfile.mkdtemp(prefix="endurance-")
    try:
        it = Endurance(options, folder)
        if options.only is not None:
            options.show = True
            it.one(options.only)
        else:
            it.all()
        print(f"{it.passed} passed, {it.failed} failed")
        sys.exit(1 if it.failed else 0)
    finally:
        if not options.keep:
            shutil.rmtree(folder, ignore_errors=True)


main()
