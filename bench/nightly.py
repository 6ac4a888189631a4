"""The nightly job: many sheets, each read, run to its end and printed, beside the Rust's `solve` of the same models.
For bench/run.

Ours is `elchepur_forecast` of the archive that tools/archive makes of the proved crate export_forecast: a sheet's bytes
in, what `decay` prints out. The Rust is handed models that are read already, and prints nothing. That ours prints of
every sheet what the Rust's `solve` comes to with document 01's powers is tried first (bench/nightly/program.rs)."""

import concurrent.futures
import os

import measure
import replay_sheet
import rust_solve
import tables
from draw import Draw
from sheet import sheet_of

TARGET = measure.ROOT / "target" / "bench" / "nightly"
SPECIES = range(1, 9)
REACTIONS = (2, 8, 32)
SHEETS = 200
# Of a row's sheets so many are counted, since callgrind takes its time.
COUNTED = 50
MOST_STEPS = 1_000
SEED = 24
CONTESTANTS = ("ours", "rust")
# Ours as a share of the Rust's time, over all sheets.
GOAL = 0.55


def built(folder, archive):
    """The program, around the Rust's text and our archive."""
    root = rust_solve.make_untraced(folder, TARGET, measure.HERE / "nightly" / "program.rs", "", "program::run();")
    return rust_solve.compiled(root, "nightly", ["-C", f"link-arg={measure.archive(archive, 'export_forecast')}"])


def stored(name, sheets):
    """A file of sheets, each behind the number of its bytes."""
    path = TARGET / f"{name}.sheets"
    path.write_bytes(b"".join(b"%d\n" % len(sheet) + sheet for sheet in sheets))
    return path


def drawn():
    """The rows: of each number of species and of reactions a file of sheets, and one of the first of them."""
    draw, rows = Draw(SEED), []
    for n in SPECIES:
        for count in REACTIONS:
            models = [replay_sheet.drawn_model(draw, n, count, MOST_STEPS) for _ in range(SHEETS)]
            sheets, name = [sheet_of(model) for model in models], f"{n}_{count}"
            rows.append({"n": n, "reactions": count, "file": stored(name, sheets),
                         "first": stored(f"{name}_first", sheets[:COUNTED])})
    return rows


def instructions(program, row, contestant):
    """Those of a sheet: what a process that makes one pass over the first takes, less one that makes none."""
    none, one = (measure.instructions([program, "turns", row["first"], contestant, turns]) for turns in (0, 1))
    return (one - none) / COUNTED


def counted(program, rows):
    """Adds to each row what doesn't depend on the time of day."""
    for row in rows:
        row["ended"] = [int(word) for word in measure.said([program, "agree", row["file"]]).split()]
    asked = [(row, contestant) for row in rows for contestant in CONTESTANTS]
    with concurrent.futures.ThreadPoolExecutor(os.cpu_count()) as pool:
        for (row, contestant), found in zip(asked, pool.map(lambda pair: instructions(program, *pair), asked)):
            row.setdefault("instructions", {})[contestant] = found


def timed(program, row):
    lines = measure.said([program, "times", row["file"]]).splitlines()
    row["ns"] = {words[0]: [float(word) for word in words[1:]] for words in map(str.split, lines)}


def main(folder, archive, printed):
    program = built(folder, archive)
    rows = drawn()
    counted(program, rows)
    for row in rows:
        timed(program, row)
    text = tables.of_nights(rows, SHEETS, GOAL)
    if printed:
        print(text)
        return
    readme = measure.HERE / "README.md"
    readme.write_text(tables.put(readme.read_text(), text, "nightly"))
