"""Whole runs of the contestants on the same models: counts, instructions, times, memory. For bench/run.

All are in one program, bench/whole/program.rs: ours in the archive that tools/archive makes of the proved crate export;
the Rust's `solve` from its own text by rustc -O, with its own powers and with ours (tests/support/rust_solve.py,
untraced); the published Fortran, where it is given, by gfortran (tests/support/fortran.py). Instructions come first and
take every processor, since they don't depend on what else runs; then the times, one by one."""

import concurrent.futures
import os
import re

import fortran
import interface
import measure
import plot
import rust_solve
import tables

TARGET = measure.ROOT / "target" / "bench"
EVERY_WAY = [(jacobian, dense) for jacobian in ("host", "differences") for dense in ("none", "dense")]
# Beside the chains, which leave most of a decomposition out, the same with full Jacobians; of
# these the plain way alone.
FULL = "mixed"


def built(folder, archive, published):
    """The program, around the Rust's text, our archive and the Fortran, if it is given."""
    TARGET.mkdir(parents=True, exist_ok=True)
    # A function of Rust's that only passes a call on is to cost nothing.
    text = interface.archive_text().replace("\npub fn ", "\n#[inline]\npub fn ")
    (TARGET / "interface.rs").write_text(text)
    root = rust_solve.make_untraced(folder, TARGET, measure.HERE / "whole" / "program.rs", "mod interface;",
                                    "program::run();")
    words = ["-C", f"link-arg={measure.archive(archive)}"]
    if published:
        words += fortran.linked(fortran.objects(fortran.texts_of(published), TARGET / "fortran"))
    return rust_solve.compiled(root, "whole", words)


def rows_of(program):
    """What is run: each model with its n, each way."""
    models = [line.split() for line in measure.said([program, "list"]).splitlines()]
    ways = [(name, int(n), EVERY_WAY[:1] if name.startswith(FULL) else EVERY_WAY) for name, n in models]
    return [{"model": name, "n": n, "way": way} for name, n, several in ways for way in several]


def by_contestant(program, command, row):
    """What a command says of each contestant."""
    lines = measure.said([program, command, row["model"], *row["way"]]).splitlines()
    return {words[0]: [float(word) for word in words[1:]] for words in map(str.split, lines)}


def instructions(program, row, contestant):
    """Those of one run: what two take less what one takes."""
    one, two = (measure.instructions([program, "turns", row["model"], *row["way"], contestant, turns])
                for turns in (1, 2))
    return two - one


def resident(program, row, contestant, turns):
    """The most that a process of so many runs held, in kB: the median of five."""
    words = [program, "turns", row["model"], *row["way"], contestant, turns]
    return sorted(int(measure.said(words)) for _ in range(5))[2]


def heap_and_stack(program, row, contestant):
    """The most that a process of one run asked for, in bytes, by massif."""
    out = TARGET / f"massif_{contestant}"
    words = [program, "turns", row["model"], *row["way"], contestant, 1]
    measure.ran(["valgrind", "--tool=massif", "--stacks=yes", f"--massif-out-file={out}", *words])
    found = re.findall(r"mem_heap_B=(\d+)\nmem_heap_extra_B=(\d+)\nmem_stacks_B=(\d+)", out.read_text())
    return max(sum(map(int, parts)) for parts in found)


def needed(program, row):
    """What a run of ours needs: decompositions, rounds, attempts, acceptances, derivatives, each
    with its operations."""
    return [list(map(int, line.split()))
            for line in measure.said([program, "flops", row["model"], *row["way"]]).splitlines()]


def counted(program, rows):
    """Adds to each row what doesn't depend on the time of day."""
    for row in rows:
        row["ends"] = by_contestant(program, "ends", row)
        row["needed"] = needed(program, row)
    asked = [(row, contestant) for row in rows for contestant in row["ends"]]
    with concurrent.futures.ThreadPoolExecutor(os.cpu_count()) as pool:
        for (row, contestant), found in zip(asked, pool.map(lambda pair: instructions(program, *pair), asked)):
            row.setdefault("instructions", {})[contestant] = found


def remembered(program, rows):
    """Of the plain way of each model, the memory of each contestant."""
    for row in rows:
        if row["way"] == EVERY_WAY[0]:
            idle = resident(program, row, "ours", 0)
            row["memory"] = {name: (resident(program, row, name, 1) - idle, heap_and_stack(program, row, name))
                             for name in row["ends"]}


def main(folder, archive, published, printed):
    program = built(folder, archive, published)
    rows = rows_of(program)
    counted(program, rows)
    remembered(program, rows)
    for row in rows:
        row["ns"] = by_contestant(program, "times", row)
    text = tables.all_of(rows)
    if printed:
        print(text)
        return
    readme = measure.HERE / "README.md"
    readme.write_text(tables.put(readme.read_text(), text, "whole"))
    (measure.HERE / "whole.svg").write_text(plot.drawn(rows))
