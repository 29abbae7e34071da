#!/usr/bin/env python3
"""Looks at what the reader of journals shows, by other means.

journal.py totals READER DATA      on each legal journal of a file of tests/data: the table has a row for each session that
                                   began, with the bytes that the lines have and the last closing, and the bytes of each
                                   direction of each session are those of the lines
journal.py picture FILE SESSIONS   whether the picture is one element `svg` of lines and texts, with a label for each session

It prints what is wrong, a line each, and 'N passed, M failed' at the end.
"""
import collections
import re
import subprocess
import sys
import tempfile
import xml.etree.ElementTree

FROM = {"right": "L", "left": "R"}
TO = {"right": "R", "left": "L"}


def journals(path):
    """The words and the lines of each legal journal of the file."""
    words, legal = [], False
    with open(path, encoding="utf-8") as rows:
        for row in rows:
            key, _, rest = row.rstrip("\n").partition(" ")
            if key == "words":
                words = rest.split()
            elif key == "verdict":
                legal = rest.startswith("yes: ")
            elif key == "lines":
                lines = [next(rows).rstrip("\n") for _ in range(int(rest.split()[0]))]
                if legal:
                    yield words, lines


def streams(lines):
    """The bytes that were read and written, by session and side, and the last reason of a closing, by session."""
    read, written, closed = collections.defaultdict(bytes), collections.defaultdict(bytes), {}
    for line in lines:
        verb, *fields = line.split(" ")
        place = re.fullmatch(r"(\d+)([LR])[BIO]([-d])", fields[0])
        if not place:
            continue
        where = int(place[1]), place[2]
        if verb == "read":
            read[where] += bytes.fromhex(fields[1][1:])
        elif verb == "wrote":
            written[where] += bytes.fromhex(fields[1][1:])
        elif verb == "closed" and fields[1] != "refused" and not (fields[1] == "served" and place[3] == "d"):
            closed[where[0]] = fields[1]
    return read, written, closed


def shown(reader, name, words, *view):
    return subprocess.run([reader, *view, name, *words], capture_output=True, timeout=60, check=True).stdout


def wrong_in(reader, name, words, lines):
    """What is wrong with the table and the bytes of a journal, or nothing."""
    read, written, closed = streams(lines)
    table = shown(reader, name, words).decode("ascii").splitlines()
    rows = [re.split(r" +", row.strip()) for row in table[1:-1]]
    for number, row in enumerate(rows):
        if int(row[0]) != number:
            return f"row {number} is of session {row[0]}"
        if (row[-1] == "-") != (number not in closed):
            return f"session {number} is closed by {row[-1]}, not {closed.get(number)}"
        # Without a blank in a cell, the counts begin at the sixth.
        for way, first in (("right", 5), ("left", 8)):
            if row[first] == "-":
                continue
            want = read[number, FROM[way]], written[number, TO[way]]
            if (int(row[first]), int(row[first + 1])) != (len(want[0]), len(want[1])):
                return f"session {number}, {way}: {row[first:first + 2]}, not {len(want[0])} and {len(want[1])}"
            got = shown(reader, name, words, "--read", "--bytes", str(number), way), shown(reader, name, words, "--bytes", str(number), way)
            if got != want:
                return f"session {number}, {way}: other bytes"
    begun = 1 + max([session for session, _ in (*read, *written)], default=-1)
    return f"{len(rows)} rows of {begun} sessions" if len(rows) < begun else None


def totals(reader, data):
    for number, (words, lines) in enumerate(journals(data), 1):
        with tempfile.NamedTemporaryFile("w", encoding="ascii") as file:
            file.write("".join(line + "\n" for line in lines))
            file.flush()
            wrong = wrong_in(reader, file.name, words, lines)
        yield wrong and f"legal journal {number} of {data}: {wrong}"


def picture(name, sessions):
    root = xml.etree.ElementTree.parse(name).getroot()
    kinds = {element.tag.rpartition("}")[2] for element in root}
    # At the left edge stands a label for each session, and below them what the lines stand for.
    labels = [text.text.split()[0] for text in root if text.tag.endswith("}text") and text.get("x") == "4"][:-1]
    yield None if root.tag == "{http://www.w3.org/2000/svg}svg" else f"it is {root.tag}"
    yield None if kinds == {"line", "text"} and not any(list(element) for element in root) else f"it is made of {kinds}"
    yield None if labels == [str(number) for number in range(int(sessions))] else f"the labels are {labels[:5]}"


def main(what, *words):
    passed = failed = 0
    for wrong in {"totals": totals, "picture": picture}[what](*words):
        passed, failed = passed + (not wrong), failed + bool(wrong)
        if wrong:
            print(f"FAILED  {wrong}")
    print(f"{passed} passed, {failed} failed")
    return failed > 0


if __name__ == "__main__":
    sys.exit(main(*sys.argv[1:]))
