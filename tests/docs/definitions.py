"""Makes the list of all definitions from the comments in front of them, and finds each that has none. The names that
docs/DEFINITIONS.md uses have to be definitions, laws or types."""

import re
import sys

from sources import TOP, Report, crates, definitions, functions, prose, quoted, types


# A name of the page that has to be one of a definition: with a capital in front, or of several words.
DEFINED = re.compile(r"^(?:[A-Z][a-z]\w*|[a-z]+(?:_[a-z]+)+)$")


def listed(crate):
    """The definitions of a crate, file by file."""
    by_file = {}
    for definition in definitions(crate):
        by_file.setdefault(definition.file, []).append(definition)
    return by_file


def print_list(wanted):
    for crate in crates():
        files = listed(crate)
        if not files or (wanted and crate not in wanted):
            continue
        print(f"## {crate}\n")
        for file, found in files.items():
            print(f"### {file}\n")
            for definition in found:
                print(f"- `{definition.name}`: {definition.comment}")
            print()


def check():
    report = Report()
    names = set()
    for crate in crates():
        for definition in definitions(crate):
            names.add(definition.name)
            where = f"crates/{crate}/specs/{definition.file}:{definition.line}"
            report.note("" if definition.comment else f"{where}: {definition.name} has no comment")
        names |= {function.name for function in functions(crate)} | types(crate) | {crate}
    for number, line in prose("docs/DEFINITIONS.md"):
        for name in quoted(line):
            if DEFINED.match(name):
                report.note("" if name in names or name in cases else f"docs/DEFINITIONS.md:{number}: nothing is named {name}")
    return report.end()


def cases_of():
    """The cases of the model's kinds of values, as the code and the definitions spell them."""
    found = set()
    for path in (TOP / "crates/relay_model").glob("s*/*"):
        for line in path.read_text().split("\n"):
            case = re.match(r"^ {2,4}(?:pub )?([A-Z][A-Za-z0-9]*)\b", line)
            if case:
                found.add(case.group(1))
    return found


cases = cases_of()
if sys.argv[1:2] == ["list"]:
    print_list(sys.argv[2:])
else:
    sys.exit(check())
