#!/usr/bin/env python3
"""Holds the documents to the repository.

    tests/repository/documents.py

Exit status: 0 all is so; 1 something is not, and all of it is told; 2 wrong use.

In every document a name with its file, written `name` (crates/../File), must be declared there; every file or folder of
ours that a document names or links to must exist. docs/AUDIT.md has short names: its last section lists the file of
each, where it must be declared, and a name that looks like a theorem or a definition must stand in that list. A run of
`tools/decay` that a document shows must be the stored answer of that sheet. How many answers the replay programs
compare, as their stored output has it, must stand in docs/ARCHITECTURE.md and docs/AUDIT.md. Nothing that is committed
may name a folder of one machine."""

import pathlib
import re
import subprocess
import sys

sys.path[:0] = [str(each) for each in pathlib.Path(__file__).resolve().parents[1].iterdir() if each.is_dir()]
import command
import replay_sheet

ROOT = pathlib.Path(__file__).resolve().parents[2]
DOCUMENTS = sorted([*ROOT.glob("*.md"), *(file for file in [*ROOT.glob("*/*.md"), *ROOT.glob("compare/*/*.md")]
                                          if file.parent.name != "target"), ROOT / "NOTICE"])
CITED = re.compile(r"`([^`\s]+)`\s+\((crates/[^)\s]+)\)")
AUDIT = ROOT / "docs/AUDIT.md"
WHERE = "## Where the names stand\n"
LISTED = re.compile(r"^- (crates/\S+): ((?:`[^`\s]+`,?\s+)*`[^`\s]+`)", re.M)
# Theorems and records of definitions are told by their form: `some-thing`, `some_of`, `some_at`, `some_rows`; a theorem
# may also be `some_thing`, and is then told by the files of proofs.
FORMED = re.compile(r"`([a-z]\w*(?:-[\w-]+|_of|_at|_rows))`")
SNAKE = re.compile(r"`([a-z]\w*_\w+)`")
PROVED = re.compile(r"^pub ([a-z]\w*_\w+) :", re.M)
FOLDERS = "|".join(re.escape(file.name) for file in ROOT.iterdir() if file.is_dir()
                   and file.name not in (".git", "target"))
NAMED = re.compile(rf"`((?:{FOLDERS})/[^`\s*]*)`")
LINKED = re.compile(r"\]\((?!https?:)([^)#\s]+)\)")
DECAY = r"tools/decay (--unproved )?(\S+)(?: \| tools/sheet.py answer (\S+))?"
SHOWN = re.compile(rf"^    \$ {DECAY}\n((?:    .*\n)+)", re.M)
MACHINE = re.compile(r"(?<![\w./])/(?:work|opt|root|home|tmp)/")


def declares(text, name):
    """A definition, theorem or field of antt, or a function, type or constant of Rattle, is
    declared under this name."""
    word = re.escape(name)
    before = r"(?:abbrev |unfoldable )?(?:pub )?(?:extern \"C\" )?(?:record |data |fn |enum |struct |const )?"
    return re.search(rf"^\s*{before}{word}(?=[\s:(<])", text, re.M)


def about_names(text):
    """What the text names and is not there."""
    for name, file in CITED.findall(text):
        if not (ROOT / file).is_file():
            yield f"there is no {file}"
        elif not declares((ROOT / file).read_text(), name):
            yield f"{file} declares no {name}"
    for path in NAMED.findall(text):
        if path != "docs/src" and "NAME" not in path and not (ROOT / path).exists():
            yield f"there is no {path}"


def about_audit(text):
    """What the list of names lacks, or has in the wrong file."""
    told, where = text.split(WHERE)
    listed = {}
    for file, names in LISTED.findall(where):
        for name in re.findall(r"`([^`\s]+)`", names):
            listed.setdefault(name, []).append(file)
            if not (ROOT / file).is_file() or not declares((ROOT / file).read_text(), name):
                yield f"{file} declares no {name}"
            if f"`{name}`" not in told:
                yield f"it lists {name}, which it doesn't cite"
    proved = {name for file in ROOT.glob("crates/*/proofs/*.antt") for name in PROVED.findall(file.read_text())}
    formed = set(FORMED.findall(told)) | proved & set(SNAKE.findall(told))
    yield from (f"it cites {name}, and lists no file of it" for name in formed - listed.keys())


def printed_of(unproved, path, model, stored):
    """What a command that is shown prints, by the stored answer of its sheet."""
    answer = ("unproved\n" if unproved else "") + stored.get((ROOT / path).with_suffix(".sheet").read_bytes(), "")
    if not model:
        return answer
    _, names = replay_sheet.sheet.model_and_names((ROOT / model).read_bytes())
    return "".join(line + "\n" for line in replay_sheet.sheet.answer_in_words(answer, names)[0])


def about(document, stored):
    """What is wrong in a document; `stored` has what `decay` prints of each stored sheet."""
    text = document.read_text()
    yield from about_names(text)
    if document == AUDIT:
        yield from about_audit(text)
    for path in LINKED.findall(text):
        if not (document.parent / path).exists():
            yield f"it links to {path}, which is not there"
    for unproved, path, model, printed in SHOWN.findall(text):
        if printed_of(unproved, path, model, stored) != printed.replace("    ", ""):
            yield f"{path} has another answer than is shown"


def compared(program, kinds=""):
    """How many answers of the kinds that begin so a replay program compares, by its stored output."""
    lines = (ROOT / "crates" / program / "stdout").read_text().splitlines()
    return sum(int(line.split()[-4]) for line in lines if line.endswith(" differ")
               and line.startswith(tuple(kinds.split(","))))


def figures():
    """The numbers that a document must have, each with where it is from."""
    readme = [(name, "") for name in ("replay_scalar", "replay_matrix", "replay_opening", "replay_admission",
                                      "replay_sheet", "replay_limit")]
    readme += [("replay_run", "runs"), ("replay_sheet", "status"), ("replay_sheet", "refused")]
    promises = [("replay_scalar", kinds)
                for kinds in ("abs", "max,min", "clamp", "signum", "sqrt", "root", "inverse_root,two,four,quarter",
                              "power", "coefficient")]
    promises += [("replay_matrix", kinds)
                 for kinds in ("lu_decomp ", "lu_decomp_complex", "lin_solve ", "interpolate", "bounds", "refusals")]
    promises += [("replay_opening", "accepted"), ("replay_run", "derivative,Jacobian,report,ended"), *readme[2:]]
    for document, wanted in (("docs/ARCHITECTURE.md", readme), ("docs/AUDIT.md", promises)):
        yield from ((document, f"{compared(*of):,}", " ".join(of).strip()) for of in wanted)


def about_figures():
    """The numbers that a document lacks."""
    for document, number, of in figures():
        if not re.search(rf"(?<![\d,]){number}(?![\d,]*\d)", (ROOT / document).read_text()):
            yield f"{document}: it doesn't say {number}, which is the number of {of}"


def complaints():
    stored = dict(replay_sheet.records_of(replay_sheet.STORED.read_bytes()))
    for document in DOCUMENTS:
        yield from (f"{document.relative_to(ROOT)}: {wrong}" for wrong in about(document, stored))
    yield from about_figures()
    listed = subprocess.run(["git", "ls-files", "-z"], cwd=ROOT, capture_output=True, check=True).stdout.decode()
    for name in filter(None, listed.split("\0")):
        file = ROOT / name
        itself = file == pathlib.Path(__file__).resolve()
        if file.is_file() and not itself and MACHINE.search(file.read_text(errors="replace")):
            yield f"{name}: names a folder of one machine"


command.nothing(__doc__, sys.argv[1:])
found = list(complaints())
print("\n".join(found) if found
      else f"{len(DOCUMENTS)} documents name only what is here, and show runs and their numbers as they are stored")
sys.exit(1 if found else 0)
