"""Finds each clause, function and definition that docs/PROOFS.md and README.md name, in the crate named beside it."""

import re
import sys

from sources import TOP, Report, cells, crates, definitions, functions, prose, quoted, sources, types

DOCUMENTS = ["README.md", "docs/PROOFS.md"]
HEAD = ["Crate", "Function", "Clauses"]
ONLY = "its only one"

every = {crate: functions(crate) for crate in crates()}
defined = {crate: {d.name for d in definitions(crate)} for crate in crates()}
everywhere = set().union(*defined.values())


def mentions(owner, word):
    return re.search(rf"\b{word}\b", owner) is not None


def matching(crate, wanted):
    """The functions that a name stands for: `name`, `Type::name`, or `Trait for Type`, which is every one of it."""
    found = []
    for function in every[crate]:
        if " for " in wanted:
            trait, kind = wanted.split(" for ")
            head, _, behind = function.owner.partition(" for ")
            if mentions(head, trait) and mentions(behind, kind):
                found.append(function)
        elif "::" in wanted:
            kind, name = wanted.split("::")
            behind = function.owner.split(" for ")[-1]
            if function.name == name and mentions(behind, kind):
                found.append(function)
        elif function.name == wanted:
            found.append(function)
    return found


def promises(function, name):
    """Whether the contract has a clause of this name, or an ensures that uses the definition."""
    if name in function.clauses:
        return True
    return name in everywhere and any(
        re.search(rf"(?<![\w.]){name}(?!\w)", line) or re.search(rf"\.{name} ", line)
        for line in function.lines
        if re.match(r"\s*ensures\b", line)
    )


def has_one_unnamed(function):
    return not function.clauses and sum(1 for line in function.lines if re.match(r"\s*ensures \{", line)) == 1


def look_at_row(report, where, row):
    crate, wanted, clauses = row[1].strip("`"), quoted(row[2]), quoted(row[3])
    if crate not in every:
        return report.note(f"{where}: no crate {crate}")
    found = {name: matching(crate, name) for name in wanted}
    if row[3] == ONLY:
        for name, functions_of_it in found.items():
            alone = any(has_one_unnamed(f) for f in functions_of_it)
            report.note("" if alone else f"{where}: {crate}, {name} has not just one clause without a name")
        return None
    if not wanted or not clauses:
        return report.note(f"{where}: a claim without a function or a clause")
    for name, functions_of_it in found.items():
        if not functions_of_it:
            report.note(f"{where}: no function {name} in {crate}")
        elif not any(promises(f, clause) for f in functions_of_it for clause in clauses):
            report.note(f"{where}: {crate}, {name} has none of {', '.join(clauses)}")
        else:
            report.note()
    for clause in clauses:
        kept = any(promises(f, clause) for functions_of_it in found.values() for f in functions_of_it)
        report.note("" if kept else f"{where}: no clause {clause} of {', '.join(wanted)} in {crate}")
    return None


def known_words():
    """What a name in running text may be: a crate, a file of the repository, a function, a type or a clause of it."""
    known = set(every) | everywhere
    for crate, listed in every.items():
        known |= types(crate)
        known |= {path.stem for path in sources(crate)}
        for function in listed:
            known.add(function.name)
            known.update(function.clauses)
    return known


def look_at_prose(report, where, text, known):
    for name in quoted(text):
        if re.match(r"^(?!/|bin/)[\w./-]+/[\w./*-]+$", name):
            there = bool(list(TOP.glob(name)))
            report.note("" if there else f"{where}: no file {name}")
        elif re.match(r"^[A-Za-z_]+::[A-Za-z_]+$", name) or re.match(r"^[a-z]+(_[a-z]+)+$", name):
            report.note("" if set(name.split("::")) <= known else f"{where}: nothing is named {name}")


def main():
    report = Report()
    known = known_words()
    for document in DOCUMENTS:
        claims = False
        rows = 0
        for number, line in prose(document):
            where = f"{document}:{number}"
            row = cells(line)
            if not line.startswith("|"):
                claims = False
            if row[-3:] == HEAD:
                claims = True
                continue
            if claims and row:
                rows += 1
                look_at_row(report, where, row)
            else:
                look_at_prose(report, where, line, known)
        report.note("" if rows else f"{document} has no table of claims")
    return report.end()


sys.exit(main())
