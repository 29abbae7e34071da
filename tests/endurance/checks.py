"""What has to be so after a run: its bytes, its status, its journal, and what is left of it."""
import os
import sys

sys.path.insert(0, os.path.dirname(os.path.dirname(os.path.abspath(__file__))))
from judge import changes_of, said_of

FAULTS = ("readfault", "writefault", "shutfault")
GIVEN_UP = ("openfail", "listenfail", "acceptfail")
LATE = b"socat: write failed on standard output\n"
LONGEST_FOR_CHANGES = 200000
# So much memory a run may take, in KiB: its bytes are at most 300,000 each way, and a journal keeps them some times.
MOST_MEMORY = 128 << 10


def due(data, inward, outward):
    """What has to be written for these bytes: the first of them, before the escape byte, with their lines converted."""
    data = data[: inward.get("most", len(data))]
    if "escape" in inward:
        data = data.split(bytes([inward["escape"]]))[0]
    if inward.get("lines") == "cr":
        data = data.replace(b"\r", b"\n")
    if inward.get("lines") == "crnl":
        data = data.replace(b"\r", b"")
    if outward.get("lines") == "cr":
        data = data.replace(b"\n", b"\r")
    if outward.get("lines") == "crnl":
        data = data.replace(b"\n", b"\r\n")
    return data


class Journal:
    def __init__(self, text):
        self.lines = text.decode("latin-1").splitlines()
        self.read, self.wrote, self.notes = {}, {}, b""
        self.ends, self.shuts, self.faults = set(), set(), []
        self.ends_behind_faults = set()
        self.openings, self.tries = {}, {}
        for line in self.lines:
            act, *fields = line.split(" ")
            if act in ("read", "wrote"):
                table = self.read if act == "read" else self.wrote
                table.setdefault(fields[0], []).append(bytes.fromhex(fields[1][1:]))
            elif act == "note":
                self.notes += bytes.fromhex(fields[0][1:])
            elif act == "end":
                self.ends.add(fields[0])
                if ("writefault", fields[0]) in self.faults:
                    self.ends_behind_faults.add(fields[0])
            elif act == "shut":
                self.shuts.add(fields[0])
            elif act in FAULTS:
                self.faults.append((act, fields[0]))
            if act in GIVEN_UP or act in ("opened", "listening", "later", "accepted"):
                self.openings[fields[0]] = act
            if act in ("openfail", "listenfail"):
                self.tries[fields[0]] = self.tries.get(fields[0], 0) + 1

    def all_read(self, place):
        return b"".join(self.read.get(place, []))

    def all_wrote(self, place):
        return b"".join(self.wrote.get(place, []))

    def sessions(self):
        """The numbers of the sessions at whose left something was read or written."""
        places = set(self.read) | set(self.wrote)
        return sorted({int(place[:-3]) for place in places if place[-3] == "L"})

    def lines_of_failure(self):
        """The lines that a failed run may say."""
        said = {f"socat: {'read' if act == 'readfault' else 'write'} failed on the {side(place)}"
                for act, place in self.faults}
        for place, act in self.openings.items():
            if act == "openfail":
                said.add(f"socat: open failed on the {side(place)} after {self.tries[place]} attempts")
            elif act == "listenfail":
                said.add(f"socat: listen failed after {self.tries[place]} attempts")
            elif act == "acceptfail":
                said.add("socat: accept failed")
        return said


def side(place):
    return "left" if place[-3] == "L" else "right"


def is_subsequence(pieces, of):
    rest = iter(of)
    return all(any(piece == one for one in rest) for piece in pieces)


def are_read_of(pieces, datagrams):
    """Whether the pieces are some of the datagrams in their order, each cut where it is longer than was asked for."""
    at, left = 0, b""
    for piece in pieces:
        if left and left.startswith(piece):
            left = left[len(piece) :]
            continue
        while at < len(datagrams) and not datagrams[at].startswith(piece):
            at += 1
        if at == len(datagrams):
            return False
        left = datagrams[at][len(piece) :]
        at += 1
    return True


def short(data):
    return f"{len(data)} bytes {data[:30]!r}"


class Checks:
    """The checks of one run; `wrong` has what isn't so."""

    def __init__(self, plan, run):
        self.plan, self.run, self.wrong = plan, run, []
        self.journal = Journal(run.journal)

    def say(self, text):
        self.wrong.append(text)

    def all(self, auditor, with_changes):
        self.leftovers()
        if self.run.status is None:
            self.say(f"it didn't end in {self.run.limit} seconds")
            return
        for it in self.plan.partners():
            self.wrong += it.wrong
        if self.run.status < 0:
            if not any(f"SIG{name}" == self.run.signal_name() for _, name in self.plan.signals):
                self.say(f"it ended by {self.run.signal_name()}")
            return
        self.audit(auditor, with_changes)
        self.outcome()
        if self.plan.crowd:
            self.crowd()
            return
        if self.plan.ways in ("both", "right"):
            self.direction(self.plan.left, "L", self.plan.right, "R")
        if self.plan.ways in ("both", "left"):
            self.direction(self.plan.right, "R", self.plan.left, "L")

    def places(self):
        """Each partner with the place that a journal names."""
        if self.plan.crowd:
            return
        for side, letter in ((self.plan.left, "L"), (self.plan.right, "R")):
            for partner, way in ((side.inward, "I"), (side.outward, "O")):
                if partner:
                    yield partner, side.place(0, letter, way)

    # --- the journal

    def audit(self, auditor, with_changes):
        name = self.run.room.path("journal")
        if not os.path.isfile(name):
            self.say("there is no journal")
            return
        words = self.plan.words()
        said = said_of(auditor, name, words)
        if not (said.startswith("yes: ") and said.endswith(", 0 held")):
            self.say(f"the auditor says {said!r}")
            return
        if not with_changes or len(self.run.journal) > LONGEST_FOR_CHANGES:
            return
        for what, lines in changes_of(self.journal.lines):
            changed = self.run.room.path("changed")
            with open(changed, "w", encoding="latin-1") as out:
                out.write("".join(line + "\n" for line in lines))
            said = said_of(auditor, changed, words)
            os.remove(changed)
            if not said.startswith("no: act "):
                self.say(f"of {what} the auditor says {said!r}")

    def outcome(self):
        journal, status = self.journal, self.run.status
        failed = bool(journal.faults) or any(act in GIVEN_UP for act in journal.openings.values())
        wanted = (0, 1) if self.plan.crowd and failed else (int(failed),)
        # What is written to standard output is written by a thread, which may fail once the relay is over.
        told = self.run.errors.endswith(LATE) or "2" in self.run.closed
        if told and status == 1 and not failed and not self.plan.calm:
            if any(it.kind == "STDIO" and it.writes and not it.calm for it in self.plan.partners()):
                return
        if status not in wanted:
            self.say(f"status {status}, where the journal tells of {wanted[0]}")
        if self.plan.calm and status:
            self.say(f"status {status}, where nothing fails")
        if "2" in self.run.closed:
            return
        text = self.run.errors
        if self.plan.noisy or self.plan.crowd and not journal.notes:
            return
        if not text.startswith(journal.notes):
            self.say(f"standard error has {short(text)}, and the notes are {short(journal.notes)}")
            return
        line = text[len(journal.notes) :].decode("latin-1")
        if status == 0 and line or status and line.rstrip("\n") not in journal.lines_of_failure():
            self.say(f"it says {line!r}")

    # --- bytes

    def direction(self, source, source_letter, sink, sink_letter):
        inward, outward = source.inward, sink.outward
        place, other = source.place(0, source_letter, "I"), sink.place(0, sink_letter, "O")
        read, wrote = self.journal.all_read(place), self.journal.all_wrote(other)
        self.given(inward, place, read)
        self.taken(outward, other, wrote)
        owed = due(read, inward.model, outward.model)
        if not owed.startswith(wrote):
            self.say(f"{other} got {short(wrote)}, and due is {short(owed)}")
        if other in self.journal.shuts and wrote != owed:
            self.say(f"{other} was shut after {short(wrote)}, and due is {short(owed)}")
        if self.plan.calm and not self.run.stopped:
            self.whole(source, sink, wrote)

    def given(self, partner, place, read):
        """What was read is what the partner gave."""
        if partner.datagrams:
            pieces = self.journal.read.get(place, [])
            if not are_read_of(pieces, partner.sent_pieces):
                self.say(f"{place} read datagrams that weren't sent")
            return
        sent = partner.answer(self.journal.all_wrote(place)) if partner.answers and partner.answer else partner.sent
        if partner.answers and not partner.answer:
            return
        if not sent.startswith(read):
            self.say(f"{place} read {short(read)} of {short(sent)}")
        if place in self.journal.ends and read != sent and not partner.answers and not partner.model.get("most"):
            if not self.was_reset(place):
                self.say(f"{place} told the end after {short(read)} of {short(sent)}")

    def was_reset(self, place):
        """Whether the end may be that of a connection that the peer has reset. The system tells a reset once: where a
        write meets it first, the reads behind it are told an end, though what the peer had sent is lost. Reading goes on
        behind a write that failed with -s alone."""
        return self.plan.has("-s") and place in self.journal.ends_behind_faults

    def taken(self, partner, place, wrote):
        """What came to the partner is what was written."""
        if partner.datagrams:
            pieces = self.journal.wrote.get(place, [])
            got = [piece for piece in partner.got_pieces if piece]
            if not is_subsequence(got, pieces):
                self.say(f"{place} wrote other datagrams than came")
            return
        if partner.kind in ("EXEC", "SYSTEM") and not getattr(partner, "file", None) or partner.answers:
            return
        if self.journal.openings.get(place) not in ("opened", "accepted"):
            return
        if not wrote.startswith(partner.got):
            self.say(f"{place} wrote {short(wrote)}, and {short(partner.got)} came")
        # Who closes with bytes that weren't read, as when the closing time is over, resets; what wasn't sent yet is lost.
        if partner.saw_end and partner.got != wrote and not partner.was_reset:
            self.say(f"{place} wrote {short(wrote)}, and only {short(partner.got)} came before the end")
        if self.plan.calm and not partner.saw_end and not partner.sent[len(self.journal.all_read(place)) :]:
            self.say(f"at {place} no end came")

    def whole(self, source, sink, wrote):
        """Nothing failed: all that was given came through."""
        inward = source.inward
        if inward.answers:
            back = self.source_of(sink.inward)
            given = inward.answer(due(back, sink.inward.model, source.outward.model))
        else:
            given = self.source_of(inward)
        wanted = due(given, inward.model, sink.outward.model)
        if wrote != wanted:
            self.say(f"{short(wrote)} came through of {short(wanted)}")

    def source_of(self, partner):
        return partner.sent if partner.kind in ("EXEC", "SYSTEM") else partner.gift.bytes()

    # --- many clients

    def crowd(self):
        crowd, part = self.plan.crowd, "B"
        left = list(crowd.clients)
        for number in self.journal.sessions():
            place = f"{number}L{part}-"
            read, wrote = self.journal.all_read(place), self.journal.all_wrote(place)
            if not crowd.answer(read).startswith(wrote):
                self.say(f"{place} got {short(wrote)} for {short(read)}")
            found = [one for one in left if one.sent.startswith(read) and wrote.startswith(one.got)]
            if not found:
                self.say(f"no client sent {short(read)} and got of {short(wrote)}")
                continue
            left.remove(max(found, key=lambda one: len(one.got)))
        for one in crowd.clients:
            self.wrong += one.wrong
            if self.plan.calm and not self.run.stopped and (one.got != crowd.answer(one.sent) or not one.saw_end):
                self.say(f"a client got {short(one.got)} for {short(one.sent)}")

    # --- what is left

    def leftovers(self):
        if self.run.most_memory > MOST_MEMORY:
            self.say(f"it took {self.run.most_memory} KiB of memory")
        stays = {"journal", "errors", "nothing"}
        for it in self.plan.partners():
            stays.update(it.stays)
        found = set(os.listdir(self.run.room.folder))
        new = found - stays - {"changed"}
        if new and (self.run.status or 0) >= 0:
            self.say(f"it left {sorted(new)}")
        if self.run.children:
            self.say(f"it left the processes {self.run.children}")
        for it, place in self.places():
            if it.goes and (self.run.status or 0) >= 0 and it.name in found and f"opened {place}" in self.journal.lines:
                self.say(f"{it.name} is still there")
