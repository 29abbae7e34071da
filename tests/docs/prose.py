"""Counts words: no sentence of README.md, docs/ and the manual pages may have more than 40, no cell of a table more than
45; the pages of docs/ may have 9,000 together, and README.md 900.

The rules of the count:
- A word is what stands between spaces and has a letter or a digit. Blocks of code and the lines that rule a table have none.
- The size of a page is that of its prose. Names of code, which stand in backticks or have an underscore, aren't counted
  there, nor are numbers in a table and rows of figures, whose cells but for the first have no letter. In a sentence and in
  a cell all of them count.
- A sentence ends at a full stop, a question mark or an exclamation mark with a space, or nothing, behind it. A colon or a
  semicolon ends none. A heading, an item of a list, a cell and a paragraph each end one too.
- In a manual page a request for fonts is text, and any other ends the paragraph."""

import re
import sys

from sources import TOP, Report, cells

SENTENCE, CELL = 40, 45
PAGES, README = 9000, 900
FONTS = re.compile(r"^\.(?:[BI]|SM|[BIR][BIR]) ")
ENDS = re.compile(r"(?<=[.?!])[)\"*]*(?: +|$)")


def words(text):
    return [word for word in text.split() if re.search(r"[^\W_]", word)]


def sentences(text):
    """The sentences of a paragraph. A mark inside of backticks ends none."""
    whole = re.sub(r"`[^`]*`", lambda name: re.sub(r"[.?!]", "-", name.group()), text)
    return [sentence for sentence in ENDS.split(whole) if words(sentence)]


def markdown(lines):
    """The paragraphs of a page and the cells of its tables: the number of the line, the text, and what it is."""
    fenced, begun, text = False, 0, []
    for number, line in enumerate([*lines, ""], 1):
        fence = line.lstrip().startswith("```")
        row = line.startswith("|")
        item = re.match(r"^\s*(?:[-*]|\d+\.) ", line)
        code = line.startswith("    ") and not text
        if text and (fence or row or item or not line.strip() or line.startswith("#")):
            yield begun, " ".join(text), "text"
            text = []
        fenced ^= fence
        if row:
            of = cells(line)
            kind = "figures" if len(of) > 1 and not re.search(r"[^\W\d_]", "".join(of[1:])) else "cell"
            yield from ((number, cell, kind) for cell in of)
        elif line.startswith("#") and not fenced:
            yield number, line.lstrip("# "), "text"
        elif line.strip() and not (fenced or fence or code):
            begun = begun if text else number
            text.append(line[item.end() :] if item else line.strip())


def manual(lines):
    """The same of a manual page."""
    begun, text, block, tag = 0, [], False, False
    for number, line in enumerate([*lines, ".end"], 1):
        request = line.startswith((".", "'")) and not FONTS.match(line)
        if request and text:
            yield begun, " ".join(text), "text"
            text = []
        block = block and not line.startswith((".fi", ".EE")) or line.startswith((".nf", ".EX"))
        if not request and not block:
            begun = begun if text else number
            text.append(re.sub(r"\\f[A-Z]|\\[&c]|\"", "", FONTS.sub("", line)))
        if tag and text:
            yield begun, " ".join(text), "text"
            text = []
        tag = line.startswith((".TP", ".TQ")) or tag and request


def too_long(pieces):
    """The number of the line and what is wrong there."""
    for number, text, kind in pieces:
        if kind != "text" and len(words(text)) > CELL:
            yield number, f"a cell of {len(words(text))} words: {text[:60]}"
        for sentence in sentences(text):
            if len(words(sentence)) > SENTENCE:
                yield number, f"a sentence of {len(words(sentence))} words: {sentence[:60]}"


def size(pieces):
    """How many words of prose a page has."""
    return sum(
        "_" not in word and (kind == "text" or re.search(r"[^\W\d]", word) is not None)
        for _, text, kind in pieces
        if kind != "figures"
        for word in words(re.sub(r"`[^`]*`", "", text))
    )


def check_itself(report):
    """The count finds what is too long by one word, in a paragraph, an item, a cell and a manual page, and nothing else."""
    most, more = "word " * (SENTENCE - 1), "word " * SENTENCE
    cell, wide = "word " * 20 + ". " + "word " * 25, "word " * 20 + ". " + "word " * 26
    fine = [f"{most}end. {most}end.", f"- {most}end.", f"- {most}end", "```", more + "end", "```", "",
            f"    {more} end.", f"| {cell} | 1.5 |"]
    wrong = [f"Well. {more}end.", "", f"- {more}end.", "", f"1. {more}`a.b` end", "", f"{more}: end", f"| 1 | {wide} |"]
    page = [".SH NAME", most + "end.", ".TP", ".B a tag", most + "end", ".EX", more + "end", ".EE"]
    report.note("" if not list(too_long(markdown(fine))) else "prose.py: finds what isn't too long")
    report.note("" if len(list(too_long(markdown(wrong)))) == 5 else "prose.py: doesn't find what is too long")
    report.note("" if not list(too_long(manual(page))) else "prose.py: finds what isn't too long in a manual page")
    longer = [".SH NAME", ".B word", most + "end."]
    report.note("" if len(list(too_long(manual(longer)))) == 1 else "prose.py: doesn't find it in a manual page")
    report.note("" if size(list(markdown(["one `two` th_ree 4", "| five | six 7 |", "| 8 | 9 |", "| ten | 11 |"]))) == 4 else "prose.py: counts otherwise")


def main(*flags):
    report = Report()
    check_itself(report)
    total = 0
    pages = [TOP / "README.md", *sorted((TOP / "docs").glob("*.md")), *sorted((TOP / "man").glob("*.1"))]
    for path in pages:
        pieces = list((manual if path.suffix == ".1" else markdown)(path.read_text().split("\n")))
        name = path.relative_to(TOP)
        for number, wrong in too_long(pieces):
            report.note(f"{name}:{number}: {wrong}")
        report.note()
        if "--words" in flags:
            print(f"{size(pieces):6} {name}")
        if path.name == "README.md":
            report.note("" if size(pieces) <= README else f"{name}: {size(pieces)} words, want at most {README}")
        elif path.suffix == ".md":
            total += size(pieces)
    report.note("" if total <= PAGES else f"docs/: {total} words together, want at most {PAGES}")
    if "--words" in flags:
        print(f"{total:6} docs/ together")
    return report.end()


sys.exit(main(*sys.argv[1:]))
