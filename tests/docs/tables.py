"""Compares the manual pages and the bash completion with the program's own tables: flags, kinds, options, refusals and
the lines of a journal. Whatever stands in one and not in the other is an error. docs/COMING_FROM_SOCAT.md has to name
each flag, kind and option in its tables."""

import re
import subprocess
import sys

from sources import CRATES, TOP, Report, cells

GROUPS = "RELAY FILE NAMED SOCKET TCP BIND RETRY LISTEN RANGE CHILD SOCKS PROXY"
USES = {
    "Any": "any",
    "AllButWriting": "any but writing",
    "AllButReading": "any but reading",
    "OnlyReading": "reading alone",
    "OnlyWriting": "writing alone",
}

report = Report()


def compare(what, have, want):
    """Two sets of names are the same."""
    missing, further = set(want) - set(have), set(have) - set(want)
    report.note(f"{what}: missing {', '.join(sorted(missing))}" if missing else "")
    report.note(f"{what}: nothing is named {', '.join(sorted(further))}" if further else "")


def same(what, have, want):
    report.note("" if have == want else f"{what}: says {have}, want {want}")


# --- the program's tables


def text_of(path):
    return (CRATES / path).read_text()


def table_of(text, name):
    """What stands between the brackets of a constant."""
    return re.search(rf"const {name}: .*? = [^\[{{]*[\[{{]\n(.*?)^[\]}}];", text, re.S | re.M).group(1)


def byte_texts(text):
    return re.findall(r'b"([^"]*)"', text)


def code_flags():
    text = text_of("cmd_words/src/flags.rt")
    plain = byte_texts(table_of(text, "FLAGS"))
    measured = re.findall(r"\[b'-', b'(.)', value @ \.\.\]", text)
    journal = re.search(r'const FLAG: &\[u8\] = b"(.*)"', text_of("socat_top/src/written.rt")).group(1)
    return plain + ["-" + letter for letter in measured] + [journal.rstrip("=")]


def code_kinds():
    """The keywords, uses and groups of each kind."""
    rows = re.findall(
        r"^ *\[((?:b\"[^\"]*\" ?)+)\] .*, (\w+), \[([\w ]+)\];$",
        table_of(text_of("addr_kinds/src/table.rt"), "KINDS"),
        re.M,
    )
    return [(byte_texts(keywords), uses, [g.upper() for g in groups.split()]) for keywords, uses, groups in rows]


def code_forms(text):
    """The named forms of numbers, as their ranges."""
    found = {}
    for name, least, greatest in re.findall(
        r"const (\w+): Form = Form::Number \{\s*least: (\w+),\s*greatest: (\w+),", text
    ):
        top = int(greatest.replace("_", ""), 0)
        shown = {2**64 - 1: "2^64 - 1", 2**32 - 1: "2^32 - 1"}.get(top, str(top))
        found[name] = f"from {least} to {shown}"
    return found


def code_options():
    """The name, group and form of each option, and the range of its number."""
    text = text_of("option_table/src/table.rt")
    forms = code_forms(text)
    rows = re.findall(r'b"([^"]*)": \w+, (\w+), \w+, (?:Form::)?(\w+);', table_of(text, "OPTIONS"))
    return [
        (name, group.upper(), "number" if form in forms else form.lower(), forms.get(form, ""))
        for name, group, form in rows
    ]


def code_left_out(crate):
    return byte_texts(table_of(text_of(f"{crate}/src/table.rt"), "LEFT_OUT"))


def code_refusals():
    """The number and the text of each refusal."""
    text = text_of("exit_status/specs/Lines.antt")
    codes = dict(re.findall(r'^refusal_code (?:\()?refusal\.(\w+)[^=]*= codes "(\d+)"', text, re.M))
    lines = {}
    for name, value in re.findall(
        r"^refusal_text (?:\()?refusal\.(\w+)[^=]*=\s+(codes .*?)(?=^refusal_text|^$)", text, re.M | re.S
    ):
        parts = re.findall(r'codes "([^"]*)"|decimal (\w+)', value)
        lines[name] = "".join(literal if literal else "n" for literal, _ in parts)
    return {f"E{number} {lines[name]}" for name, number in codes.items()}


def code_views():
    return {name.decode() for name in re.findall(rb'b"(--[a-z]+)"', (CRATES / "journal_report/src/views.rt").read_bytes())}


def code_unshown():
    return {line.strip() for line in re.findall(r'codes "(no: [a-z ]+)"', text_of("journal_report/specs/Runs.antt"))}


def code_journal_words():
    text = text_of("journal_text/specs/Lines.antt")
    return {
        word for word in re.findall(r'codes "([a-z]+)"', text) if re.search(rf'\bwords_of .*codes "{word}"', text)
    }


# --- the manual pages


def plain(text):
    """A line of a manual page without its escapes and fonts."""
    text = re.sub(r"\\f[A-Z]", "", text)
    return text.replace("\\-", "-").replace("\\&", "").replace("\\~", " ").replace("\\e", "\\")


def sections(page):
    """The lines of each section of a page, by its title."""
    found, title = {}, ""
    for line in (TOP / "man" / page).read_text().split("\n"):
        if line.startswith(".SH "):
            title = line[4:].strip('"')
        found.setdefault(title, []).append(line)
    return found


def tag_words(line):
    """The words of a tag: the arguments of a macro for fonts, as they are set side by side."""
    words = re.findall(r'"([^"]*)"|(\S+)', line)
    return [a or b for a, b in words]


def bold_of(line):
    """What a line sets in bold."""
    line = re.sub(r"\\fI.*?\\fP", "", line)
    words = [plain(word) for word in tag_words(line)[1:]]
    if line.startswith((".BR ", ".BI ")):
        return words[0::2]
    if line.startswith(".B "):
        return [" ".join(words)]
    return []


def entries(lines):
    """The entries of a section: the lines of the tag, the lines of the text, and the subsection."""
    found, under, fresh = [], "", False
    for line in lines:
        if line.startswith((".SS ", ".SH ")):
            under, fresh = plain(line[4:]), False
            found.append(None)
        elif line == ".TP":
            found.append(([], [], under))
            fresh = True
        elif found and found[-1]:
            tags, text, _ = found[-1]
            if fresh or line == ".TQ":
                if line == ".TQ":
                    fresh = True
                    continue
                tags.append(line)
                fresh = False
            else:
                text.append(line)
    return [entry for entry in found if entry]


def prose(lines):
    return " ".join(plain(re.sub(r"^\.[A-Z]+ ", "", line)) for line in lines)


def check_flags(page):
    have = []
    for tags, _, _ in entries(page["FLAGS"]):
        for tag in tags:
            have += [word.strip().rstrip("=") for word in bold_of(tag)]
    compare("socat.1, flags", have, code_flags())
    usage = re.search(r'codes "options: (.*?)"', text_of("exit_status/specs/Lines.antt")).group(1)
    for word in usage.split():
        flag = word.split("<")[0]
        report.note("" if flag in have else f"socat.1: the usage names {flag}")


def check_kinds(page):
    keyword = re.compile(r"^[A-Z][A-Z0-9]*(-[A-Z]+)*$")
    listed = {}
    for tags, text, _ in entries(page["ADDRESS KINDS"]):
        names = [part.split(":")[0] for tag in tags for part in bold_of(tag)]
        called = re.split(r"Also called", "\n".join(text))
        if len(called) > 1:
            for line in called[1].split("Uses:")[0].split("\n"):
                names += bold_of(line)
        said = prose(text)
        uses = re.search(r"Uses: ([a-z ]+)\.", said)
        groups = re.search(r"Groups: ([A-Z, ]+)\.", said)
        for name in names:
            if keyword.match(name):
                listed[name] = (uses and uses.group(1), groups and groups.group(1).split(", "))
    kinds = code_kinds()
    compare("socat.1, kinds", listed, [word for keywords, _, _ in kinds for word in keywords])
    for keywords, uses, groups in kinds:
        for word in keywords:
            if word in listed:
                same(f"socat.1, the uses of {word}", listed[word][0], USES[uses])
                same(f"socat.1, the groups of {word}", sorted(listed[word][1] or []), sorted(groups))


def check_options(page):
    listed = {}
    for tags, text, under in entries(page["ADDRESS OPTIONS"]):
        for tag in tags:
            words = [plain(word) for word in tag_words(tag)[1:]]
            value = words[1] if words[0].endswith("=") else "bool"
            listed[words[0].rstrip("=")] = (under.split(":")[0], value, prose(text))
    options = code_options()
    compare("socat.1, options", listed, [name for name, _, _, _ in options])
    for name, group, form, limits in options:
        if name in listed:
            same(f"socat.1, the group of {name}", listed[name][0], group)
            same(f"socat.1, the value of {name}", listed[name][1], form)
            report.note("" if limits in listed[name][2] else f"socat.1: {name} doesn't say {limits}")


def check_left_out(page):
    text = "\n".join(page["LEFT OUT"]).split(".P\n")
    for part, crate in ((1, "addr_kinds"), (3, "option_table")):
        lines = [line for line in text[part].split("\n") if line and not line.startswith(".")]
        have = re.split(r",\s*|\s+", plain(" ".join(lines).strip(", ")))
        compare(f"socat.1, left out of {crate}", have, code_left_out(crate))


def check_refusals(page):
    have = [plain(line) for line in page["DIAGNOSTICS"] if re.match(r"^E\d\d ", line)]
    compare("socat.1, refusals", have, code_refusals())


def check_manual():
    page = sections("socat.1")
    check_flags(page)
    check_kinds(page)
    check_options(page)
    check_left_out(page)
    check_refusals(page)
    audit = sections("socat-audit.1")
    lines = [line.split()[0] for line in audit["JOURNALS"] if re.match(r"^[a-z]+ \\fI", line)]
    compare("socat-audit.1, lines of a journal", lines, code_journal_words())
    check_reader(sections("socat-journal.1"))


def check_reader(page):
    views = re.findall(r"--[a-z]+", plain("\n".join(page["VIEWS"])))
    compare("socat-journal.1, views", views, code_views() | {"--journal"} & set(views))
    status = plain(" ".join(page["EXIT STATUS"]))
    compare("socat-journal.1, lines", re.findall(r"no: (?:too long|[a-z]+)", status), code_unshown())


# --- the completion


def check_completion():
    script = (
        f'. "{TOP}/completion/socat"; printf "flags %s\\n" "${{_socat_flags[*]}}"; printf "views %s\\n" "${{_socat_views[*]}}"; '
        'for k in "${!_socat_groups[@]}"; do printf "kind %s %s\\n" "$k" "${_socat_groups[$k]}"; done; '
        'for g in "${!_socat_options[@]}"; do printf "group %s %s\\n" "$g" "${_socat_options[$g]}"; done'
    )
    told = subprocess.run(["bash", "-c", script], capture_output=True, text=True, check=False)
    same("completion, errors", told.stderr, "")
    rows = [line.split() for line in told.stdout.split("\n") if line]
    compare("completion, flags", [w.rstrip("=") for r in rows if r[0] == "flags" for w in r[1:]], code_flags())
    compare("completion, views", [word for row in rows if row[0] == "views" for word in row[1:]], code_views())
    kinds = {r[1]: r[2:] for r in rows if r[0] == "kind"}
    wanted = {word: groups for keywords, _, groups in code_kinds() for word in keywords}
    compare("completion, kinds", kinds, wanted)
    for word, groups in wanted.items():
        same(f"completion, the groups of {word}", sorted(kinds.get(word, [])), sorted(groups))
    groups = {r[1]: r[2:] for r in rows if r[0] == "group"}
    for group in GROUPS.split():
        want = {name + ("" if form == "bool" else "=") for name, g, form, _ in code_options() if g == group}
        compare(f"completion, options of {group}", groups.get(group, []), want)


# --- what those who know another socat are told


def check_comparison():
    named = {}
    for part in (TOP / "docs/COMING_FROM_SOCAT.md").read_text().split("\n## "):
        title = part.split("\n")[0]
        first = [line.split("|")[1] for line in part.split("\n") if line.startswith("|")]
        named[title] = [word for cell in first for word in re.findall(r"`([^`]+)`", cell)]
    missing = set(code_flags()) - {word.rstrip("=") for word in named["Flags"]}
    report.note(f"COMING_FROM_SOCAT, flags: missing {', '.join(sorted(missing))}" if missing else "")
    told = set(named["Kinds"])
    for keywords, _, _ in code_kinds():
        report.note("" if told & set(keywords) else f"COMING_FROM_SOCAT, kinds: missing {keywords[0]}")
    compare("COMING_FROM_SOCAT, options", named["Options"], [name for name, _, _, _ in code_options()])


# --- the addresses that the README shows


def check_readme():
    """The table names each kind, by any of its keywords, and nothing else."""
    part = (TOP / "README.md").read_text().split("\n## What it takes\n")[1].split("\n## ")[0]
    rows = [cells(line) for line in part.split("\n")]
    told = {word for row in rows if len(row) == 2 for word in re.findall(r"`([^`]+)`", row[1])}
    family = re.compile(r"^(TCP|UDP)[46]")
    kinds = [{family.sub(r"\1", word) for word in keywords} for keywords, _, _ in code_kinds()]
    for keywords in kinds:
        report.note("" if told & keywords else f"README.md, addresses: missing {sorted(keywords)[0]}")
    further = told - set().union(*kinds)
    report.note(f"README.md, addresses: nothing is named {', '.join(sorted(further))}" if further else "")


check_manual()
check_completion()
check_comparison()
check_readme()
sys.exit(report.end())
