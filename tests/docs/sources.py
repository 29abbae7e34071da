"""Reads what the document scripts compare: contracts of the .rt files, definitions of the .antt files, tables of the
documents. It reads no proof and judges none."""

import re
from pathlib import Path

TOP = Path(__file__).resolve().parents[2]
CRATES = TOP / "crates"

FUNCTION = re.compile(r"^( *)(?:pub(?:\([a-z]+\))? )?(?:const |ghost )*fn ([a-z_0-9]+)")
BLOCK = re.compile(r"^(?:pub )?(?:unsafe )?(impl|trait)\b(.*)")
CLAUSE = re.compile(r"^\s*ensures\*? +([a-z_0-9]+) *\{")
DEFINITION = re.compile(r"^ *(?:(?:abbrev|unfoldable|foldable) pub|pub (record|data|syntax)) ([^\s:]+)")


class Function:
    """A function: the impl or trait that it stands in, its name, and the text and clauses of its contract."""

    def __init__(self, owner, name):
        self.owner = owner
        self.name = name
        self.lines = []
        self.clauses = []


class Definition:
    """A definition of a crate's specs: its file, line, name and kind, and the comment right in front of it."""

    def __init__(self, file, line, name, kind, comment):
        self.file = file
        self.line = line
        self.name = name
        self.kind = kind
        self.comment = comment


def crates():
    return sorted(path.name for path in CRATES.iterdir() if (path / "src").is_dir())


def sources(crate):
    return sorted((CRATES / crate / "src").rglob("*.rt"))


def goes_on(line):
    """Whether this line begins a clause whose brace is still open."""
    return line.lstrip().startswith(("ensures", "requires")) and line.count("{") > line.count("}")


def functions(crate):
    """Every function of the crate, with the clauses that stand between its name and the next function."""
    found = []
    for path in sources(crate):
        owner, current, is_open = "", None, False
        for line in path.read_text().split("\n"):
            block = BLOCK.match(line)
            if block or is_open:
                # the head of a block goes on to its brace
                owner, current = f"{owner} {line.strip()}" if is_open else block.group(2), None
                is_open = "{" not in line and ";" not in line
                continue
            start = FUNCTION.match(line)
            if start:
                current = Function(owner if start.group(1) else "", start.group(2))
                found.append(current)
            if current is None:
                continue
            if current.lines and goes_on(current.lines[-1]):
                current.lines[-1] += " " + line.strip()
                continue
            current.lines.append(line)
            clause = CLAUSE.match(line)
            if clause:
                current.clauses.append(clause.group(1))
    return found


def types(crate):
    """The names of the crate's structs, enums, traits, modules and constants."""
    shape = re.compile(r"^(?:pub(?:\([a-z]+\))? )?(?:struct|enum|trait|mod|type|const) ([A-Za-z_0-9]+)")
    return {
        found.group(1)
        for path in sources(crate)
        for line in path.read_text().split("\n")
        if (found := shape.match(line))
    }


def comment_above(lines, at):
    """The comment that ends right above a line, as one text."""
    text = []
    while at > 0 and lines[at - 1].lstrip().startswith("--") and not lines[at - 1].startswith("-- ----"):
        at -= 1
        text.insert(0, lines[at].strip().lstrip("- "))
    return " ".join(text)


def definitions(crate):
    """Every public definition of the crate's specs."""
    found = []
    for path in sorted((CRATES / crate / "specs").glob("*.antt")):
        lines = path.read_text().split("\n")
        for at, line in enumerate(lines):
            start = DEFINITION.match(line)
            if start:
                kind = start.group(1) or "value"
                found.append(Definition(path.name, at + 1, start.group(2), kind, comment_above(lines, at)))
    return found


def quoted(text):
    """The names between single backticks of a text."""
    return re.findall(r"`([^`]+)`", text)


def prose(path):
    """The lines of a document with their numbers, without what stands in code blocks."""
    fenced = False
    for number, line in enumerate((TOP / path).read_text().split("\n"), 1):
        if line.startswith("```"):
            fenced = not fenced
        elif not fenced and not line.startswith("    "):
            yield number, line


def cells(line):
    """The cells of a row of a table, or none."""
    if not line.startswith("|") or set(line) <= set("|- :"):
        return []
    return [cell.strip() for cell in line.strip().strip("|").split("|")]


def dependencies():
    """The lines of crates.txt: what each crate stands on."""
    found = {}
    for line in (TOP / "crates.txt").read_text().split("\n"):
        line = line.split("#")[0].strip()
        if line:
            head, below = line.split(":")
            found[head.split()[0]] = below.split()
    return found


class Report:
    """Counts what was looked at, and prints what is wrong."""

    def __init__(self):
        self.passed = 0
        self.failed = 0

    def note(self, problem=""):
        if problem:
            self.failed += 1
            print(f"FAILED  {problem}")
        else:
            self.passed += 1

    def end(self):
        print(f"{self.passed} passed, {self.failed} failed")
        return 1 if self.failed else 0
