#!/usr/bin/env python3
"""Holds the definitions to the lines of the Rust: every line of `solve` past its copies, of `interpolate`, of the
coefficients, of the difference `jac`, of lu.rs and linear.rs and of `bounds` is cited by one definition, or is in the
table of docs/DIFFERENCES.md with a reason; none is missing, none is there twice.

    tests/repository/lines.py check [FOLDER]   complain where that isn't so
    tests/repository/lines.py list [FOLDER]    the table: lines of the Rust, the definition or the reason, its file
    tests/repository/lines.py self-test        try the script on small texts and on edits of the repository's own

FOLDER holds the Rust's text; tests/support/rust_text.py says where it is looked for otherwise. Without it only
the numbers are compared.

Exit status: 0 all is so; 1 something is not; 2 wrong use; 4 the numbers are right, and nothing was compared with the
Rust.

A citation stands in square brackets in a comment, and the definition below it is what those lines became:

    [radau.rs:393-403]         these lines; a comment has one such range
    [again radau.rs:408-418]   there the Rust has the same text once more (comments and spaces aside, which is checked)
    [alike radau.rs:485-496]   there it does the same in other words, so that a reader has to compare

A comment inside of a definition cites for the row, the equation or the field below it. Of two nested definitions the
inner one has its own lines, the outer one the rest. Lines named in parentheses are hints for a reader and are not
counted. In the table of left-behind lines a reason that begins with one of KINDS below is held to the text."""

import collections
import re
import sys

import pathlib
sys.path[:0] = [str(each) for each in pathlib.Path(__file__).resolve().parents[1].iterdir() if each.is_dir()]
import command
import rust_text

ROOT = rust_text.ROOT
TABLE = "docs/DIFFERENCES.md"
HEADING = "## Lines of the Rust that no definition stands for"
# the Rust's file below src/, and the first line and the last of each part of it that is held
SPANS = {
    "radau.rs": ("methods/radau.rs", [(134, 846)]),
    "ivp.rs": ("ivp.rs", [(67, 107)]),
    "lu.rs": ("matrix/lu.rs", [(1, 306)]),
    "linear.rs": ("matrix/linear.rs", [(1, 215)]),
    "dense.rs": ("dense.rs", [(71, 79), (132, 140)]),
}

CITED = re.compile(r"\[(?:(again|alike) )?([\w/]+\.rs):(\d+)(?:-(\d+))?\]")
LIKE_CITED = re.compile(r"\[[^\]]*\.rs\b[^\]]*\]?")
DECLARED = re.compile(r"\s*(?:unfoldable |abbrev )?pub (?:record |data )?(\S+)")
ROW = re.compile(r"\| *(\w+\.rs): *([-\d, ]+?) *\| *(.*?) *\|\s*$")
KINDS = {
    "blank": re.compile(r"\s*$"),
    "comment": re.compile(r"\s*//"),
    "brace": re.compile(r"\s*}(?: else {)?$"),
    "second name of a setting": re.compile(r"\s*let \w+ = self\.\w+;$"),
    "declared without a value": re.compile(r"\s*let (?:mut )?\w+(?:: \w+)?;$"),
    "names of other files": re.compile(r"use [\w:{}, ]+;$"),
}

# `kind` is "", "again", "alike" or "left"; `what` is a definition's name, or a reason; `origin` is
# the range that is repeated
Range = collections.namedtuple("Range", "rust first last kind what where origin")


def lines_of(first, last):
    return str(first) if first == last else f"{first}-{last}"


def named(r):
    return f"{r.rust}:{lines_of(r.first, r.last)}"


# ---- what is cited


def comments(text):
    """Each block of comment lines: its first line's number, its text, the line below it, and the name declared
    there or last before."""
    name, block = None, []
    for number, line in enumerate([*text.split("\n"), ""], 1):
        if line.lstrip().startswith("--"):
            block.append(line.strip())
            continue
        declared = DECLARED.match(line)
        name = declared[1] if declared else name
        if block:
            yield number - len(block), "\n".join(block), line, name
        block = []


def cited(specs):
    """The ranges that comments cite, and complaints about citations that can't be taken."""
    ranges, faults = [], []
    for file, text in specs.items():
        for number, comment, below, name in comments(text):
            where = f"{file}:{number}"
            found = list(CITED.finditer(comment))
            for wrong in LIKE_CITED.findall(comment):
                if not CITED.fullmatch(wrong):
                    faults.append(f"{where}: {wrong} can't be read")
            if not found:
                continue
            if not below.strip() or name is None:
                faults.append(f"{where}: a citation stands above no definition")
            made = [Range(m[2], int(m[3]), int(m[4] or m[3]), m[1] or "", name, where, None) for m in found]
            own = [r for r in made if not r.kind]
            if len(own) != 1:
                faults.append(f"{where}: {name} has {len(own)} ranges of its own in one comment, not one")
                continue
            ranges += [r if not r.kind else r._replace(origin=own[0]) for r in made]
    return ranges, faults


def left_behind(document):
    """The ranges of the table, and complaints."""
    if HEADING not in document:
        return [], [f"{TABLE}: there is no heading '{HEADING}'"]
    ranges, faults = [], []
    for line in document.split(HEADING, 1)[1].split("\n## ", 1)[0].split("\n"):
        if not line.startswith("|") or line.startswith("|---") or line.startswith("| lines |"):
            continue
        row = ROW.match(line)
        if not row or not row[3]:
            faults.append(f"{TABLE}: the row {line} can't be read")
            continue
        for part in row[2].split(","):
            ends = re.fullmatch(r"(\d+)(?:-(\d+))?", part.strip())
            if not ends:
                faults.append(f"{TABLE}: {part.strip()!r} is no range")
                continue
            ranges.append(Range(row[1], int(ends[1]), int(ends[2] or ends[1]), "left", row[3], TABLE, None))
    return ranges, faults


# ---- whether it fits


def runs(numbers):
    """Numbers in order, as ranges."""
    found = []
    for k in numbers:
        if found and found[-1][1] == k - 1:
            found[-1][1] = k
        else:
            found.append([k, k])
    return [lines_of(*ends) for ends in found]


def spans_of(rust, parts):
    return f"{rust} " + " and ".join(lines_of(*part) for part in parts)


def partition(ranges, spans):
    for r in ranges:
        if r.rust not in spans:
            yield f"{r.where}: {named(r)}: {r.rust} is not among {', '.join(spans)}"
        elif not any(low <= r.first <= r.last <= high for low, high in spans[r.rust][1]):
            yield f"{r.where}: {named(r)} is no range within {spans_of(r.rust, spans[r.rust][1])}"
    for rust, (_, parts) in spans.items():
        held = [k for low, high in parts for k in range(low, high + 1)]
        owners = {k: [r for r in ranges if r.rust == rust and r.first <= k <= r.last] for k in held}
        for ends in runs(k for k in owners if not owners[k]):
            yield f"{rust}:{ends} is cited nowhere"
        for ends in runs(k for k in owners if len(owners[k]) > 1):
            several = owners[int(ends.split("-")[0])]
            yield f"{rust}:{ends} is cited by " + " and ".join(f"{r.what} ({r.where})" for r in several)


def code(lines):
    """The text without comments and spaces."""
    return "".join(re.sub(r"//.*|\s", "", line) for line in lines)


def text_of(r, rust):
    return rust[r.rust][r.first - 1 : r.last]


def against_text(ranges, rust):
    for r in ranges:
        if r.rust not in rust:
            continue
        lines = text_of(r, rust)
        if not lines or len(lines) != r.last - r.first + 1:
            yield f"{r.where}: {named(r)}: the Rust's text has no such lines"
        elif r.kind == "left":
            for kind, form in KINDS.items():
                for k, line in enumerate(lines, r.first):
                    if r.what.startswith(kind) and not form.match(line):
                        yield f"{r.where}: {r.rust}:{k} is said to be '{kind}', and is not: {line.strip()}"
        else:
            if not code(lines).strip("{}"):
                yield f"{r.where}: {named(r)} holds no code"
            if not lines[0].strip() or not lines[-1].strip():
                yield f"{r.where}: {named(r)} begins or ends with a blank line"
            if r.kind:
                same = code(lines) == code(text_of(r.origin, rust))
                if r.kind == "again" and not same:
                    yield f"{r.where}: {named(r)} is not the text of {named(r.origin)}: 'alike', if it does the same"
                if r.kind == "alike" and same:
                    yield f"{r.where}: {named(r)} is the text of {named(r.origin)}: 'again'"


def read(specs, document, rust, spans):
    """All ranges, and all complaints; `rust` is None where the Rust's text isn't at hand."""
    ranges, faults = cited(specs)
    rows, more = left_behind(document)
    ranges += rows
    return ranges, [*faults, *more, *partition(ranges, spans), *(against_text(ranges, rust) if rust else ())]


# ---- the repository


def repository(given):
    specs = {str(p.relative_to(ROOT)): p.read_text() for p in sorted(ROOT.glob("crates/*/specs/**/*.antt"))}
    document = (ROOT / TABLE).read_text() if (ROOT / TABLE).is_file() else ""
    folder = rust_text.find(given)
    rust = folder and {name: (folder / "src" / path).read_text().split("\n") for name, (path, _) in SPANS.items()}
    return specs, document, rust, SPANS


def check(given):
    world = repository(given)
    ranges, faults = read(*world)
    if faults:
        print("\n".join(faults))
        return 1
    count = collections.Counter(r.kind for r in ranges)
    names = {(r.where.split(":")[0], r.what) for r in ranges if r.kind != "left"}
    spans = ", ".join(spans_of(rust, parts) for rust, (_, parts) in SPANS.items())
    print(
        f"{spans}: each line once, by {count['']} citations of {len(names)} definitions, {count['again']} repeated "
        f"texts, "
        f"{count['alike']} alike, {count['left']} ranges left behind"
    )
    rust_text.compared(world[2], compiled=False)
    return 0


def show(given):
    ranges, faults = read(*repository(given))
    for r in sorted(ranges, key=lambda r: (list(SPANS).index(r.rust) if r.rust in SPANS else len(SPANS), r.first)):
        what = (f"({r.what.split(';')[0]})" if r.kind == "left" else f"{r.what} ({r.kind} {lines_of(*r.origin[1:3])})"
                if r.kind else r.what)
        print(f"{named(r):18} {what:40} {r.where}")
    print("\n".join(faults), end="\n" if faults else "")
    return 1 if faults else 0


# ---- the script itself


RUST = {"a.rs": ["", "// sum", "s = 0;", "for i {", "    s += i;", "}", "", "// sum", "s = 0;", "t = s;", "let u;"]}
SMALL = {"a.rs": ("a.rs", [(1, 11)])}
PARTED = {"a.rs": ("a.rs", [(2, 6), (8, 11)])}
GOOD = """-- a head (a.rs:1-11)
use Nothing

-- the sum [a.rs:2-4] [alike a.rs:8-9]
unfoldable pub sum : Nat
-- a turn [a.rs:5-6]
sum = turn

-- [a.rs:10]
abbrev pub total : Nat
total = sum
"""
ROWS = (f"# Head\n\n{HEADING}\n\n| lines | why |\n|---|---|\n| a.rs: 1, 7 | blank |\n| a.rs: 11 | declared without a "
        f"value |\n\n## Next\n\n| a.rs: 1 | no row |\n")
TRIALS = [
    ("all is well", GOOD, ROWS, None),
    ("a gap", GOOD.replace("[a.rs:5-6]", "[a.rs:5]"), ROWS, "a.rs:6 is cited nowhere"),
    ("an overlap", GOOD.replace("[a.rs:5-6]", "[a.rs:4-6]"), ROWS, "a.rs:4 is cited by sum"),
    ("an overlap with the table", GOOD, ROWS.replace("1, 7", "1-2, 7"), "a.rs:2 is cited by sum"),
    ("a row that is gone", GOOD, ROWS.replace("1, 7", "1"), "a.rs:7 is cited nowhere"),
    ("a table that is gone", GOOD, "# Head\n", "there is no heading"),
    ("definitions that are gone", "", ROWS, "a.rs:2-6 is cited nowhere"),
    ("another file", GOOD.replace("[a.rs:10]", "[b.rs:10]"), ROWS, "b.rs is not among a.rs"),
    ("past the end", GOOD.replace("[a.rs:10]", "[a.rs:10-12]"), ROWS, "is no range within a.rs 1-11"),
    ("ends exchanged", GOOD.replace("[a.rs:5-6]", "[a.rs:6-5]"), ROWS, "is no range within"),
    ("two in one comment", GOOD.replace("[a.rs:10]", "[a.rs:10] [a.rs:11]"),
     ROWS.replace("| a.rs: 11 | declared without a value |\n", ""), "2 ranges of its own"),
    ("a repetition alone", GOOD.replace("[a.rs:10]", "[again a.rs:10]"), ROWS, "0 ranges of its own"),
    ("above no definition", GOOD.replace("abbrev pub total", "\nabbrev pub total"), ROWS, "stands above no definition"),
    ("misspelt", GOOD.replace("[a.rs:10]", "[a.rs:10, 11]"), ROWS, "can't be read"),
    ("a row misspelt", GOOD, ROWS.replace("1, 7", "1; 7"), "can't be read"),
    ("no code", GOOD.replace("[a.rs:5-6]", "[a.rs:5] x\nx = 1\n-- [a.rs:6]"), ROWS, "a.rs:6 holds no code"),
    ("a blank end", GOOD.replace("[a.rs:5-6]", "[a.rs:5-7]"), ROWS.replace("1, 7", "1"),
     "begins or ends with a blank line"),
    ("not the same text", GOOD.replace("alike", "again"), ROWS, "is not the text of a.rs:2-4"),
    ("the same text", GOOD.replace("2-4", "2-3").replace("5-6", "4-6"), ROWS, "is the text of a.rs:2-3"),
    ("not blank", GOOD.replace("[a.rs:5-6]", "[a.rs:5]"), ROWS.replace("1, 7", "1, 6-7"),
     "is said to be 'blank', and is not"),
]


# the same texts where only two parts of the file are held
PARTS = [
    ("two parts", GOOD, ROWS.replace("| a.rs: 1, 7 | blank |\n", ""), None),
    ("a line between the parts", GOOD, ROWS.replace("1, 7", "7"), "a.rs:7 is no range within a.rs 2-6 and 8-11"),
    ("a gap in the second part", GOOD.replace("[a.rs:10]", ""), ROWS.replace("1, 7", "8"), "a.rs:10 is cited nowhere"),
]


def self_test():
    failed = 0
    trials = [(SMALL, *trial) for trial in TRIALS] + [(PARTED, *trial) for trial in PARTS]
    for spans, name, spec, document, expected in trials:
        faults = read({"Spec.antt": spec}, document, RUST, spans)[1]
        right = not faults if expected is None else any(expected in fault for fault in faults)
        failed += not right
        print(f"{'right' if right else 'WRONG'}: {name}: {'; '.join(faults) or 'no complaint'}")
    specs, document, rust, spans = repository(None)
    edits = missed = 0
    for file, text in specs.items():
        for m in CITED.finditer(text):
            if m[2] not in spans:
                continue
            longer = f"[{m[1] + ' ' if m[1] else ''}{m[2]}:{m[3]}-{int(m[4] or m[3]) + 1}]"
            for new in ("", longer):
                edited = specs | {file: text[: m.start()] + new + text[m.end() :]}
                edits += 1
                missed += not read(edited, document, None, spans)[1]
    for file in [file for file, text in specs.items() if any(m[2] in spans for m in CITED.finditer(text))]:
        edits += 1
        missed += not read({k: v for k, v in specs.items() if k != file}, document, None, spans)[1]
    print(f"{'right' if not missed else 'WRONG'}: {edits} edits of the repository (a citation gone, one line longer, a "
          f"file gone), {missed} without a complaint")
    return 1 if failed or missed else 0


MODES = {"check": check, "list": show, "self-test": lambda _: self_test()}
name, given = command.act(__doc__, sys.argv[1:], MODES)
sys.exit(MODES[name](given))
