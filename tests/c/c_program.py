#!/usr/bin/env python3
"""The crates that offer functions to C (tests/support/exported.py names them) as programs in C see them: their header,
their archive, and runs through both.

    tests/c/c_program.py check [FOLDER]  hold the header to the sources, and run the programs in C: on the archive,
                                       where they are proved and were not edited since; else on their very sources,
                                       the contracts taken out, compiled by rustc
    tests/c/c_program.py run [FOLDER]    the same on the archive; what is not proved yet is proved first

FOLDER holds the Rust's text; tests/support/rust_text.py says where it is looked for otherwise. What is missing (rt,
rustc, a compiler of C or C++, nm, the Rust's text) is said plainly, and what needs it is passed over. What the sources
alone were compiled into is called UNPROVED.

Exit status: 0 nothing differs; 1 something differs, or the archive lacks the kit's mark of a proved crate; 2 wrong
use; 4 nothing was compared: no program in C could be built, or the runs with a Jacobian of the host's own had no Rust
beside them.

The header: each function that they mark `extern "C"` must be declared with the types that Rattle gives its
parameters, and no other function; each place in the table of coefficients must have the name that stands there. The
archive must define the same functions and no others.

The programs:
  - tests/c/c_calls.c calls each function with a few values whose answers document 01 gives;
  - tests/c/c_replay.c replays the stored runs of the Rust's own `solve` (crates/replay_run/stdin), every request and
    all 22 parts compared, hosts that make the Jacobian, masses, marks and modified points among them;
  - tests/c/c_csv.c makes the table of crates/replay_csv/stdin, which is to be the stored one; then records of a
    million drawn patterns, whose numbers strtod reads back and %a prints alike;
  - tests/c/c_sheets.c hands every sheet of crates/replay_sheet/stdin over, those that are refused too, prints what is
    printed of it, and has it read into arrays and written out of them;
  - tests/c/c_program.c is a host of its own: it runs every sheet of crates/replay_sheet/stdin, with the answers
    stored there, and once more with a Jacobian of the host's own, with the answers that the Rust gives then.
The last three run on include/elchepur_host.h, which has what every host writes again, and whose example must print
what it says there:
  - tests/c/c_hosted.c replays the stored runs of the Rust once more, through its callbacks, a shelf beside each;
  - tests/c/c_endings.c brings about every way in which a run can end."""

import re
import shutil
import subprocess
import sys

import pathlib
sys.path[:0] = [str(each) for each in pathlib.Path(__file__).resolve().parents[1].iterdir() if each.is_dir()]
import command
import exported
import marks
import port
import rust_text
import replay_sheet

ROOT = rust_text.ROOT
HEADER = ROOT / "include" / "elchepur.h"
HOST_HEADER = ROOT / "include" / "elchepur_host.h"
TARGET = ROOT / "target" / "c"
ARCHIVE = TARGET / "libelchepur.a"
PROGRAMS = ("c_calls", "c_replay", "c_program", "c_sheets", "c_csv", "c_hosted", "c_endings")
# No product and sum may become one operation: the Rust's host has two.
FLAGS = ["-std=c99", "-O2", "-ffp-contract=off", "-Wall", "-Wextra", "-pedantic", "-Werror"]


def insist(fact, words):
    """Stop where something that is to hold does not."""
    if not fact:
        sys.exit(f"c_program: {words}")


def said(words, **more):
    done = subprocess.run([str(word) for word in words], capture_output=True, text=True, cwd=ROOT, **more)
    insist(done.returncode == 0, f"{words[0]} failed:\n{done.stdout[-2000:]}{done.stderr[-2000:]}")
    return done.stdout


# --- The header beside the sources ---------------------------------------------------------------

C_TYPES = {"f64": "double", "u64": "uint64_t", "usize": "size_t", "u8": "uint8_t"}


def in_c(name, kind):
    """How C declares a parameter of Rattle: a slice is a pointer and a count."""
    lent, is_slice, item, count = exported.parameter_of(kind)
    insist(item in C_TYPES, f"for the type {kind} C has none")
    c_type = ("const " if lent == "&" else "") + C_TYPES[item]
    if not lent:
        return [f"{c_type} {name}"]
    if count:
        return [f"{c_type} {name}[{count}]"]
    return [f"{c_type} *{name}"] + ([f"size_t {name}_count"] if is_slice else [])


def functions():
    """Each function with its crate, its file, its parameters as pairs, and its result."""
    return {name: (crate, *rest) for crate in exported.CRATES for name, rest in exported.exported(crate).items()}


def wanted_declarations():
    """What the sources ask for: for each exported function its declaration in C."""
    return {
        name: f"{C_TYPES[result] if result else 'void'} "
        f"{name}({', '.join(word for pair in pairs for word in in_c(*pair))})"
        for name, (_, _, pairs, result) in functions().items()
    }


def header_text():
    """The header without comments, lengths and places as numbers."""
    text = re.sub(r"/\*.*?\*/", "", HEADER.read_text(), flags=re.DOTALL)
    numbers = dict(re.findall(r"(ELCHEPUR_\w+) = (\d+)", text))
    return text, numbers


def declarations():
    text, numbers = header_text()
    found = {}
    for result, name, parameters in re.findall(r"^(\w+) (elchepur_\w+)\(([^()]*)\);", text, re.MULTILINE):
        words = re.sub(r"\[(ELCHEPUR_\w+)\]", lambda length: f"[{numbers[length.group(1)]}]",
                       " ".join(parameters.split()))
        found[name] = f"{result} {name}({words})"
    return found


def check_state():
    """The header has the places of a state as crates/radau_core/src/places.rt has them, words first."""
    table, numbers = exported.places(), header_text()[1]
    sizes = [int(numbers[f"ELCHEPUR_STATE_{name}"]) for name in ("WORDS", "DOUBLES")]
    insist(sizes == [table.pop("WORDS"), table.pop("DOUBLES")], "the header has other lengths of a state")
    kinds = ["WORD"] * sizes[0] + ["DOUBLE"] * sizes[1]
    wanted = [(f"ELCHEPUR_{kind}_{name}", place) for kind, (name, place) in zip(kinds, table.items())]
    found = [(name, int(place)) for name, place in numbers.items() if re.match("ELCHEPUR_(WORD|DOUBLE)_", name)]
    insist(wanted == found and len(table) == len(kinds), "the header names the places of a state otherwise")


def check_header():
    wanted, declared = wanted_declarations(), declarations()
    for name in sorted({*wanted, *declared}):
        insist(name in declared, f"{name} is exported, and the header has it not")
        insist(name in wanted, f"{name} stands in the header, and is not exported")
        insist(wanted[name] == declared[name],
               f"the sources ask for\n  {wanted[name]}\nand the header has\n  {declared[name]}")
    table = (ROOT / "crates" / "scalar" / "src" / "coefficients.rt").read_text()
    entries = re.search(r"const TABLE: \[f64; \d+\] = \[(.*?)\];", table, re.DOTALL).group(1).split(",")
    names = {f"ELCHEPUR_COEFFICIENT_{name.strip()}": str(place) for place, name in enumerate(entries) if name.strip()}
    places = {name: place for name, place in header_text()[1].items() if name.startswith("ELCHEPUR_COEFFICIENT_")}
    insist(names == places, "the header names the table of coefficients otherwise")
    check_state()
    print(f"the header declares the {len(declared)} functions of the crates {', '.join(exported.CRATES)}, and "
          f"{len(places)} coefficients by their places")


# --- The archive ---------------------------------------------------------------------------------


def leans_on(name):
    """The crates that it names in crates.txt."""
    line = re.search(rf"^{name}(?: staticlib)?:(.*)$", (ROOT / "crates.txt").read_text(), re.MULTILINE)
    return line.group(1).split() if line else []


def below():
    """All crates that those lean on that offer functions to C."""
    found, left = set(), [lower for name in exported.CRATES for lower in leans_on(name)]
    while left:
        name = left.pop()
        if name not in found:
            found.add(name)
            left += leans_on(name)
    return found


def is_later(made, name):
    """Whether what was made of a crate is there, and the crate was not edited since."""
    files = [file for part in ("src", "specs", "proofs") for file in (ROOT / "crates" / name / part).rglob("*")
             if file.is_file()]
    return made.is_file() and all(file.stat().st_mtime <= made.stat().st_mtime for file in files)


def is_made():
    """Whether the archive was made of the proved crates as they stand: tools/archive makes it of no others."""
    return all(is_later(ARCHIVE, name) for name in [*exported.CRATES, *below()])


def is_proved():
    """Whether rt has built each crate, which it does of a proved one alone, of what stands there."""
    own = {name: ROOT / "crates" / name / "out" / f"lib{name}.a" for name in exported.CRATES}
    return is_made() or all(is_later(made, lower) for name, made in own.items() for lower in [name, *below()])


def check_archive():
    """The archive is of proved crates, and defines the header's functions and no others."""
    marks.insist(ARCHIVE)
    print(f"the archive is proved, in the logic {marks.logics(ARCHIVE)[0][:16]}")
    if not has("nm", "the names in the archive are NOT compared with the header"):
        return
    defined = {line.split()[-1] for line in said(["nm", "-g", "--defined-only", ARCHIVE]).splitlines() if " T " in line}
    declared = set(declarations())
    insist(defined == declared,
           f"in the archive alone: {sorted(defined - declared)}; in the header alone: {sorted(declared - defined)}")
    print(f"the archive defines these {len(defined)} functions and no others")


def proved_archive():
    if not is_made():
        said([ROOT / "tools" / "archive", ARCHIVE])
    check_archive()
    return [ARCHIVE]


# --- The sources, compiled by rustc --------------------------------------------------------------


def shim(name, crate, file, pairs, result):
    """A function as rustc can offer it to C: rustc itself passes a slice otherwise than Rattle."""
    words, values = [], []
    for parameter, kind in pairs:
        lent, is_slice, item, _ = exported.parameter_of(kind)
        pointer, make = ("*mut", "from_raw_parts_mut") if lent == "&mut " else ("*const", "from_raw_parts")
        words.append(f"{parameter}: {pointer} {item}, {parameter}_count: usize" if is_slice else f"{parameter}: {kind}")
        values.append(f"std::slice::{make}({parameter}, {parameter}_count)" if is_slice else parameter)
    answer = f" -> {result}" if result else ""
    return (f"#[no_mangle]\npub unsafe extern \"C\" fn {name}({', '.join(words)}){answer} "
            f"{{ {crate}::{file}::{name}({', '.join(values)}) }}\n")


def sources_compiled():
    """A library of the sources, overflow and bounds checked, and what else a program around it links."""
    libraries, _ = port.build()
    TARGET.mkdir(parents=True, exist_ok=True)
    shims, made = TARGET / "shims.rs", TARGET / "libsources.a"
    shims.write_text("".join(shim(name, *rest) for name, rest in functions().items()))
    said(["rustc", "--edition", "2021", "-O", "-C", "debug-assertions=on", "--crate-type", "staticlib", shims, "-o",
          made, *port.linked(libraries, exported.CRATES)])
    return [made, "-lpthread", "-ldl", "-lm"]


# --- The programs --------------------------------------------------------------------------------


def has(program, what):
    """Whether a program is there; said where it is not."""
    if not shutil.which(program):
        print(f"there is no {program}, so {what}")
    return bool(shutil.which(program))


def build_program(name, library):
    TARGET.mkdir(parents=True, exist_ok=True)
    said(["cc", *FLAGS, "-I", HEADER.parent, ROOT / "tests" / "c" / f"{name}.c", *library, "-o", TARGET / name])


def build(library):
    for name in PROGRAMS:
        build_program(name, library)
    example("cc", library)
    if has("c++", "the headers are NOT tried in C++"):
        said(["c++", "-x", "c++", "-Wall", "-Wextra", "-pedantic", "-Werror", "-fsyntax-only", HEADER])
        example("c++", library)


def example(compiler, library):
    """Build and run the example of the header for hosts: it prints what stands there."""
    text = HOST_HEADER.read_text().split("*/")[0]
    code = "\n".join(line.removeprefix(" *     ") for line in text.splitlines() if line.startswith(" *     "))
    insist("int main(void)" in code, "the header for hosts has no example")
    source = TARGET / f"example.{'c' if compiler == 'cc' else 'cpp'}"
    source.write_text(code + "\n")
    flags = ["-Wall", "-Wextra", "-pedantic", "-Werror", *(["-std=c99"] if compiler == "cc" else [])]
    said([compiler, *flags, "-I", HEADER.parent, source, *library, "-o", TARGET / "example"])
    printed = said([TARGET / "example"])
    shown = re.findall(r"`([\d.]+: [\d.]+)`", text)
    insist(shown and printed.splitlines() == shown,
           f"the example of the header for hosts says {shown} and prints\n{printed}")


def first_other(wanted, got):
    for number, (left, right) in enumerate(zip(wanted.splitlines() + [""], got.splitlines() + [""]), 1):
        if left != right:
            return f"line {number} is to be\n  {left}\nand is\n  {right}"
    return "one has more lines"


def run_sheets(sheets, wanted, way):
    got = said([TARGET / "c_program", way], input="".join(data.decode() for data in sheets))
    insist(got == wanted, f"the sheets, {way}: {first_other(wanted, got)}")


def run_table():
    """The stored table, and a million drawn numbers beside this machine's C library."""
    stored = ROOT / "crates" / "replay_csv"
    done = subprocess.run([TARGET / "c_csv"], stdin=(stored / "stdin").open(), capture_output=True)
    insist(done.returncode == 0, f"c_csv failed:\n{done.stderr.decode()}")
    insist(done.stdout == (stored / "stdout").read_bytes(), "c_csv makes another table")
    print(done.stderr.decode(), end="")


def run_programs(folder):
    print(said([TARGET / "c_calls"]), end="")
    print(said([TARGET / "c_replay"], stdin=(ROOT / "crates" / "replay_run" / "stdin").open()), end="")
    print(said([TARGET / "c_hosted"], stdin=(ROOT / "crates" / "replay_run" / "stdin").open()), end="")
    print(said([TARGET / "c_endings"]), end="")
    run_table()
    records = replay_sheet.records_of(replay_sheet.STORED.read_bytes())
    got = said([TARGET / "c_sheets"], stdin=replay_sheet.STORED.open("rb"))
    wanted = "".join(answer for _, answer in records)
    insist(got == wanted, f"the sheets, handed over: {first_other(wanted, got)}")
    print(f"{len(records)} sheets, handed over as they are, have the stored answers")
    formed = [(data, answer) for data, answer in records if not answer.startswith(("refused 20", "refused 21"))]
    run_sheets([data for data, _ in formed], "".join(answer for _, answer in formed), "differences")
    print(f"the {len(formed)} of them that are well formed have them through a host in C too")
    rust_text.compared(folder)
    sheets = [data for data, answer in formed if not answer.startswith("refused")]
    answers, _ = replay_sheet.answers_of_rust(folder, sheets, host=True)
    run_sheets(sheets, "".join(answer for _, answer in answers), "host")
    print(f"the {len(sheets)} that run have the Rust's answers with a Jacobian of the host's own")


def library(way):
    """What the programs are linked with, or None, said plainly."""
    if not has("cc", "no program in C is run"):
        return None
    if way == "run" or is_proved():
        return proved_archive() if has("rt", "the archive is NOT built") else None
    print("UNPROVED: a crate that C calls is not proved here, or was edited since; the programs run on the sources,")
    print("compiled by rustc. `tests/c/c_program.py run` proves them")
    return sources_compiled() if has("rustc", "they are NOT run") else None


def main(words):
    name, folder = command.act(__doc__, words, ("check", "run"))
    folder = rust_text.find(folder)
    check_header()
    linked = library(name)
    if not linked:
        command.nothing_compared("no program in C is run")
    build(linked)
    run_programs(folder)


if __name__ == "__main__":
    main(sys.argv[1:])
