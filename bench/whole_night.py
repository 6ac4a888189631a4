"""A whole night, from files to rows, by the program `night` and by the Rust's own `solve` driven the same way: the same
list, threads and rows (bench/night/program.rs). For bench/run.

Each program is run as a process of its own, the two in turn, with one thread and with two. That the rows of ours are
those of the Rust with document 01's powers is tried first."""

import os
import pathlib
import shutil
import subprocess
import sys
import textwrap
import time

import measure
import rust_solve
import shelf
import tables
from draw import Draw

TARGET = measure.ROOT / "target" / "bench" / "night"
MODULES = ("dates", "folder", "list", "pipeline", "row")
SEED = 38
SHEETS = 4_000
JOBS = (1, 2)
TURNS = 9
MILLION = 1_000_000


def whole_archive(given):
    """Our archive of all that the crate in rust/ calls: that which is given, else it is made."""
    made = pathlib.Path(given or TARGET / "libelchepur.a").resolve()
    if not given:
        measure.ran([measure.ROOT / "tools" / "archive", made])
    return made


def built(folder, archive):
    """Our program and the Rust's."""
    given = whole_archive(archive)
    room = {**os.environ, "ELCHEPUR_ARCHIVE": str(given), "CARGO_TARGET_DIR": str(TARGET / "cargo")}
    measure.ran(["cargo", "build", "--release", "--bin", "night", "--manifest-path", measure.ROOT / "rust/Cargo.toml"],
                env=room)
    home = measure.ROOT / "rust" / "src" / "bin" / "night"
    extra = "\n".join(f'#[path = "{home / name}.rs"]\nmod {name};' for name in MODULES)
    root = rust_solve.make_untraced(folder, TARGET, measure.HERE / "night" / "program.rs", extra, "program::run();")
    return {"ours": TARGET / "cargo" / "release" / "night", "rust": rust_solve.compiled(root, "rust_night")}


def put():
    """The list of the drawn sheets, all of which the Rust takes."""
    draw, home = Draw(SEED), TARGET / "sheets"
    shutil.rmtree(home, ignore_errors=True)
    home.mkdir(parents=True)
    for place in range(SHEETS):
        (home / f"{place:06}.sheet").write_bytes(shelf.sheet.sheet_of(shelf.drawn(draw, rules=1)))
    made = TARGET / "shelf.list"
    made.write_text("".join(f"sheets/{place:06}.sheet\n" for place in range(SHEETS)))
    return made


def words_of(programs, name, jobs, made, powers="libm"):
    if name == "ours":
        return [programs[name], "--jobs", str(jobs), made]
    return [programs[name], powers, str(jobs), made]


def rows_of(words):
    done = subprocess.run(words, capture_output=True, text=True)
    return [line.split("\t") for line in done.stdout.splitlines() if "\t" in line]


def agree(programs, made):
    """Each row of ours is the Rust's with document 01's powers, but for the words of those without a forecast."""
    ours, rust = (rows_of(words_of(programs, name, 1, made, "ours")) for name in ("ours", "rust"))
    for mine, theirs in zip(ours, rust, strict=True):
        told = mine[4].startswith("no forecast: ")
        if (mine[:4] if told else mine) != (theirs[:4] if told else theirs):
            sys.exit(f"a row differs:\n{mine}\n{theirs}")
    return len(ours), sum(row[4].startswith("no forecast: ") for row in ours)


def timed(words):
    """Seconds by the clock, and of the processors, of a process."""
    with open(os.devnull, "wb") as nothing:
        start = time.monotonic()
        begun = subprocess.Popen(words, stdout=nothing, stderr=nothing)
        _, _, used = os.wait4(begun.pid, 0)
    return time.monotonic() - start, used.ru_utime + used.ru_stime


def measured(programs, made):
    """Of each number of threads and each program the least time by the clock, and the median of the processors'."""
    found = {}
    for _ in range(TURNS):
        for jobs in JOBS:
            for name in programs:
                found.setdefault((jobs, name), []).append(timed(words_of(programs, name, jobs, made)))
    return {key: (min(clock for clock, _ in times), sorted(used for _, used in times)[TURNS // 2])
            for key, times in found.items()}


HEAD = ["threads", "sheets a second", "the Rust", "share of its time", "µs of a processor", "the Rust", "share"]


def line_of(found, jobs):
    (ours, ours_used), (rust, rust_used) = (found[jobs, name] for name in ("ours", "rust"))
    used = [seconds / SHEETS * 1e6 for seconds in (ours_used, rust_used)]
    return [str(jobs), f"{SHEETS / ours:,.0f}", f"{SHEETS / rust:,.0f}", f"{ours / rust:.2f}", f"{used[0]:.1f}",
            f"{used[1]:.1f}", f"{used[0] / used[1]:.2f}"]


def text_of(found, rows, without):
    a_million = found[1, "ours"][1] / SHEETS * MILLION
    words = (f"Made on {tables.machine()}. {rows:,} sheets, {without:,} of which have no forecast; each row of ours "
             f"was the Rust's with document 01's powers. By the clock the least of {TURNS} turns is told, of the "
             f"processors' time the median. A million such cylinders take {a_million:,.0f} s of one processor.")
    return textwrap.fill(words, tables.WIDE) + "\n\n" + tables.table(HEAD, [line_of(found, jobs) for jobs in JOBS])


def main(folder, archive, printed):
    TARGET.mkdir(parents=True, exist_ok=True)
    programs, made = built(folder, archive), put()
    rows, without = agree(programs, made)
    text = text_of(measured(programs, made), rows, without)
    if printed:
        print(text)
        return
    readme = pathlib.Path(measure.HERE / "README.md")
    readme.write_text(tables.put(readme.read_text(), text, "night"))
