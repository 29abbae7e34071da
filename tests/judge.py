#!/usr/bin/env python3
"""Judges the journals of runs: the auditor finds each in order, with nothing held; the bytes that it names are those
that passed; and three changes of it are found. One line for each that isn't so, and last
'judged N right, M wrong, K changes, L too long'.

judge.py AUDITOR FOLDER

The folder has one folder a run: its words, its journal and its case, and where they are known its status, its input, its
output and the folder `files` as it stood then. `peers` has what peers of a case sent and got.
"""
import concurrent.futures
import os
import subprocess
import sys

# The auditor refuses longer journals.
MOST_BYTES = 16 << 20

# Seconds for the auditor, PATIENCE times as many on a slow machine.
LIMIT = 60 * int(os.environ.get("PATIENCE", 1))


def content(*path):
    """What the regular file holds, or None. A named pipe isn't opened."""
    name = os.path.join(*path)
    if not os.path.isfile(name):
        return None
    with open(name, "rb") as found:
        return found.read()


# --- what the words say


def addresses_of(words):
    """The two address words, and whether only the first or the second is written."""
    ways, at = "", 0
    while at < len(words):
        word = words[at]
        if not word.startswith(b"-") or word == b"-" or word[1:2] in (b",", b"!"):
            break
        if word in (b"-b", b"-t", b"-T"):
            at += 1
        if word in (b"-u", b"-U"):
            ways = word[1:].decode()
        at += 1
    return words[at : at + 2], ways


def half_of(place):
    """The half of a place such as 0LB- or 17RB-."""
    return place.lstrip("0123456789")[1]


def single_of(words, place):
    """The address that a place such as 0LB- or 17RB- stands for: its kind, its file where it has one, and its text."""
    addresses, _ = addresses_of(words)
    side = place.lstrip("0123456789")[0]
    text = addresses["LR".index(side)]
    halves = text.split(b"!!")
    if len(halves) == 2:
        text = halves["IO".index(half_of(place))]
    head = text.split(b",")[0]
    kind, _, name = head.partition(b":")
    if b"/" in kind:
        return "GOPEN", head, text
    return {"-": "STDIO"}.get(kind.decode(), kind.decode().upper()), name, text


# --- what the journal says


class Told:
    """What a journal tells of each place: the bytes that were read and written, and whether its end was read."""

    def __init__(self, lines):
        self.read, self.wrote, self.ends, self.order = {}, {}, set(), []
        for line in lines:
            act, *fields = line.split(" ")
            if act in ("read", "wrote"):
                data = bytes.fromhex(fields[1][1:])
                table = self.read if act == "read" else self.wrote
                table[fields[0]] = table.get(fields[0], b"") + data
                if act == "wrote":
                    self.order.append((fields[0], data))
            elif act == "end":
                self.ends.add(fields[0])
        self.places = sorted(set(self.read) | set(self.wrote))


class Run:
    def __init__(self, folder):
        self.folder = folder
        self.words = content(folder, "words").split(b"\0")[:-1]
        self.case = (content(folder, "case") or b"").decode()
        self.status = int(content(folder, "status") or -1)
        self.text = content(folder, "journal")
        self.lines = self.text.decode("latin-1").splitlines() if self.text else []
        self.wrong = []
        self.changes = 0
        self.too_long = len(self.text or b"") > MOST_BYTES
        self.told = Told([]) if self.too_long else Told(self.lines)

    def kinds(self):
        return {place: single_of(self.words, place) for place in self.told.places}

    def __str__(self):
        return f"{self.case or '-'}: {b' '.join(self.words).decode('latin-1')}"


STANDARD_INPUT = ("STDIO", "STDIN")
STANDARD_OUTPUT = ("STDIO", "STDOUT")
SOCKETS = ("TCP", "UDP", "UNIX")


def check_standard(run, kinds):
    given, came = content(run.folder, "input"), content(run.folder, "output")
    for place, (kind, _, text) in kinds.items():
        if kind in STANDARD_INPUT and given is not None and place in run.told.read:
            read = run.told.read[place]
            if not given.startswith(read):
                run.wrong.append(f"it read what standard input didn't give: {read[:40]}")
            if place in run.told.ends and b"ignoreeof" not in text and read != given:
                run.wrong.append("it read the end before it read all of standard input")
    wrote = b"".join(data for place, data in run.told.order if kinds[place][0] in STANDARD_OUTPUT)
    by_child = any(kind in ("EXEC", "SYSTEM") for kind, _, _ in all_kinds(run))
    if came is None or by_child and not wrote:
        return
    if not wrote.startswith(came) or (run.status == 0 and wrote != came):
        run.wrong.append(f"standard output got {came[:40]}, and the journal says {wrote[:40]}")


def all_kinds(run):
    addresses, _ = addresses_of(run.words)
    return [single_of([a], "0L" + part + "-") for a in addresses for part in "IO"]


def in_order(held, pieces):
    """Whether the pieces stand there one behind the other; another writer's bytes may stand between."""
    at = 0
    for piece in pieces:
        at = held.find(piece, at)
        if at < 0:
            return False
        at += len(piece)
    return True


def check_files(run, kinds):
    for place, (kind, name, text) in kinds.items():
        if kind not in ("CREATE", "OPEN", "GOPEN"):
            continue
        held = content(run.folder, os.fsdecode(name))
        if held is None:
            continue
        wrote, read = run.told.wrote.get(place, b""), run.told.read.get(place, b"")
        if run.status == 0 and kind == "CREATE" and held != wrote:
            run.wrong.append(f"the file has {held[:40]}, and the journal says {wrote[:40]}")
        if run.status == 0 and not in_order(held, [data for whose, data in run.told.order if whose == place]):
            run.wrong.append(f"the file hasn't what the journal says: {wrote[:40]}")
        if half_of(place) == "I" and not held.startswith(read):
            run.wrong.append(f"it read {read[:40]}, and the file has {held[:40]}")


def check_echoes(run, kinds):
    for place, (kind, name, _) in kinds.items():
        if kind == "PIPE" and not name or name == b"cat":
            read, wrote = run.told.read.get(place, b""), run.told.wrote.get(place, b"")
            if half_of(place) == "B" and not wrote.startswith(read):
                run.wrong.append(f"{place} gave {read[:40]}, and took {wrote[:40]}")


def check_sockets(run, kinds, ends):
    """Some other end sent what was read and got of what was written, but for what a reset lost."""
    for place, (kind, _, _) in kinds.items():
        if not kind.startswith(SOCKETS):
            continue
        read, wrote = run.told.read.get(place, b""), run.told.wrote.get(place, b"")
        if not any(sent.startswith(read) and wrote.startswith(got) for whose, sent, got in ends if whose is not run):
            run.wrong.append(f"no peer sent {read[:40]} and got {wrote[:40]}")


# --- changes that must be found


def changes_of(lines):
    """Of a journal three others: a byte of a write is changed, a write is left out before its shut, and a shut comes
    before its last write."""
    writes = [at for at, line in enumerate(lines) if line.startswith("wrote ")]
    if writes:
        at = writes[len(writes) // 2]
        changed = lines[at][:-1] + ("0" if lines[at][-1] != "0" else "1")
        yield "a changed byte", lines[:at] + [changed] + lines[at + 1 :]
    for shut, line in enumerate(lines):
        act, *fields = line.split(" ")
        if act != "shut":
            continue
        own = [at for at in writes if at < shut and lines[at].split(" ")[1] == fields[0]]
        if own:
            at = own[-1]
            yield "a write left out", lines[:at] + lines[at + 1 :]
            yield "a shut before its last write", lines[:at] + [line] + lines[at:shut] + lines[shut + 1 :]


def said_of(auditor, name, words):
    try:
        done = subprocess.run([auditor, name, *words], capture_output=True, timeout=LIMIT)
    except subprocess.TimeoutExpired:
        return f"nothing in {LIMIT} seconds"
    return done.stdout.decode().strip()


def audit(auditor, run):
    said = said_of(auditor, os.path.join(run.folder, "journal"), run.words)
    if not (said.startswith("yes: ") and said.endswith(", 0 held")):
        if not (said == "no: words" and not run.text):
            run.wrong.append(f"the auditor says {said!r}")
        return
    for what, lines in changes_of(run.lines):
        name = os.path.join(run.folder, "changed")
        with open(name, "w", encoding="latin-1") as out:
            out.write("".join(line + "\n" for line in lines))
        said = said_of(auditor, name, run.words)
        run.changes += 1
        if not said.startswith("no: act "):
            run.wrong.append(f"of {what} the auditor says {said!r}")


def main(auditor, folder):
    names = sorted(name for name in os.listdir(folder) if name.isdigit())
    folders = [os.path.join(folder, name) for name in names]
    runs = [Run(where) for where in folders if os.path.exists(os.path.join(where, "journal"))]
    ends = {}
    for name in os.listdir(os.path.join(folder, "peers")):
        where = os.path.join(folder, "peers", name)
        sent, got = content(where, "sent"), content(where, "got")
        ends.setdefault((content(where, "case") or b"").decode(), []).append((None, sent or b"", got or b""))
    for run in runs:
        for place, (kind, _, _) in run.kinds().items():
            if kind.startswith(SOCKETS) or kind == "GOPEN":
                other = (run, run.told.wrote.get(place, b""), run.told.read.get(place, b""))
                ends.setdefault(run.case, []).append(other)
    for run in runs:
        if run.lines and not run.too_long:
            kinds = run.kinds()
            check_standard(run, kinds)
            check_files(run, kinds)
            check_echoes(run, kinds)
            check_sockets(run, kinds, ends.get(run.case, []))
    judged = [run for run in runs if not run.too_long]
    with concurrent.futures.ThreadPoolExecutor(int(os.environ.get("JOBS", "2"))) as pool:
        list(pool.map(lambda run: audit(auditor, run), judged))
    for run in runs:
        for problem in run.wrong:
            print(f"FAILED  {run}: {problem}")
    wrong = sum(bool(run.wrong) for run in judged)
    changes = sum(run.changes for run in runs)
    print(f"judged {len(judged) - wrong} right, {wrong} wrong, {changes} changes, {len(runs) - len(judged)} too long")


if __name__ == "__main__":
    main(*sys.argv[1:])
