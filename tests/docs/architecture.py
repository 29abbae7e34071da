"""Compares docs/ARCHITECTURE.md with crates.txt: each crate stands in one row, and its last column has what the crate
stands on directly. A row in bold names a group. The files that the page names have to be there."""

import re
import sys

from sources import CRATES, TOP, Report, cells, dependencies, quoted

PAGE = "docs/ARCHITECTURE.md"
HEAD = ["Crate", "What it does", "Stands on"]


def below(crate, stands_on, known):
    """All that a crate stands on, at any depth."""
    if crate not in known:
        direct = [name for name in stands_on.get(crate, []) if name in stands_on]
        known[crate] = set(direct).union(*(below(name, stands_on, known) for name in direct))
    return known[crate]


def direct(crate, stands_on, known):
    """What a crate stands on, without the kit's crates and without what stands below another one of them."""
    mine = [name for name in stands_on[crate] if name in stands_on]
    return {
        name for name in mine if not any(name in below(other, stands_on, known) for other in mine if other != name)
    }


def look_at_crates(report, lines):
    stands_on, known, seen, inside = dependencies(), {}, [], False
    for number, line in enumerate(lines, 1):
        row = cells(line)
        if not line.startswith("|"):
            inside = False
        elif row == HEAD:
            inside = True
        elif inside and row and not row[0].startswith("**"):
            crate, _, told = row
            seen.append(crate)
            if crate not in stands_on:
                report.note(f"{PAGE}:{number}: crates.txt has no {crate}")
                continue
            have = set() if told == "nothing" else set(told.split(", "))
            want = direct(crate, stands_on, known)
            right = ", ".join(name for name in stands_on[crate] if name in want) or "nothing"
            report.note("" if have == want else f"{PAGE}:{number}: {crate} stands on {right}")
    for crate in stands_on:
        times = seen.count(crate)
        report.note("" if times == 1 else f"{PAGE}: {crate} stands in {times} rows, want 1")
        report.note("" if (CRATES / crate).is_dir() else f"crates.txt: there is no crates/{crate}")


def look_at_files(report, lines):
    listed = set(dependencies())
    for number, line in enumerate(lines, 1):
        where = f"{PAGE}:{number}"
        for name in re.findall(r"\b(?:tests|docs|crates|man|completion)/[\w./-]*\w", line):
            report.note("" if (TOP / name).exists() else f"{where}: no {name}")
        row = cells(line)
        if len(row) != 2:
            continue
        named = [word for word in re.findall(r"\w+", row[1]) if word in listed]
        files = re.findall(r"specs/\w+\.antt", row[1])
        files += ["src/" + name for name in quoted(row[1]) if name.endswith(".rt")]
        for file in files:
            there = any((CRATES / crate / file).exists() for crate in named)
            report.note("" if there else f"{where}: no {file} in {', '.join(named) or 'a crate that is named'}")


def main():
    report = Report()
    lines = (TOP / PAGE).read_text().split("\n")
    look_at_crates(report, lines)
    look_at_files(report, lines)
    return report.end()


sys.exit(main())
