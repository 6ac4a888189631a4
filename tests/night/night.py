#!/usr/bin/env python3
"""The program `night` on many cylinders: one process, many, and machines that an engine drives.

    tests/night/night.py check     some hundred cylinders: one process, and four shards of which one is killed half-way
    tests/night/night.py whole     10,000 cylinders: one process, GNU parallel with four jobs of which one is killed
                                   half-way and done again, and with two machines of which one is lost, and a Slurm
                                   array of which one task is put into the queue again half-way, by the commands of
                                   docs/NIGHT.md; and a night of 140,000 lines
    tests/night/night.py page      the page of a night in headless Chromium, its text compared; the screenshot is
                                   target/night/page.png

All ways give the same rows and totals, byte for byte: rows merged by their place are those of one process, and so are
the totals of merged rows. The totals of shards, joined by `joined`, are the same for all engines, and those of one
process but for the place of the largest ode, which counts the lines of the shards one after the other. `whole` and
`page` install what they need from Debian's packages, and `whole` needs root for its cluster (tests/night/cluster).

The program is built over the archive, where that is proved and was not edited since, else over its very sources,
compiled by rustc: see tests/rust/rust_api.py.

Exit status: 0 all is so; 1 something is not; 2 wrong use; 4 nothing was compared: cargo or rt is not there."""

import os
import pathlib
import pty
import re
import subprocess
import sys

sys.path[:0] = [str(each) for each in pathlib.Path(__file__).resolve().parents[1].iterdir() if each.is_dir()]
import browser
import c_program
import command
import engines
import rust_api
import shards
import shelf
from shards import TARGET, fresh, insist, ran

ROOT = shelf.ROOT
FEW, MANY, LINES = 400, 10_000, 140_000
# Totals have no more lines.
MOST_LINES = 65_535
# What a night may take besides, in kilobytes, whatever its length.
SPARE = 4_096


def built(profile):
    """The program, and whether its solver is proved."""
    linked = rust_api.archive("check") if c_program.has("cargo", "the program night is NOT tried") else None
    if not linked:
        command.nothing_compared("the program night is not tried")
    rust_api.cargo(["build", "--bin", "night", *(["--release"] if profile == "release" else [])], linked)
    return ROOT / "target" / "cargo" / profile / "night", linked == c_program.ARCHIVE


# --- One process ---------------------------------------------------------------------------------


def alone(program, made, jobs=1):
    """Rows and totals of one process."""
    rows = made.parent / f"rows.alone.{jobs}"
    totals = ran([program, "--jobs", jobs, "--rows", rows, made])
    return rows.read_bytes(), totals


def check_alone(program, made, count):
    rows, totals = alone(program, made)
    found = rows.count(b"\n")
    insist(found == count, f"{count} cylinders have {found} rows")
    summed = shards.summed(rows)
    insist(shards.bare(totals) == summed, f"the rows sum to\n{summed.decode()}not\n{totals.decode()}")
    insist(alone(program, made, 3) == (rows, totals), "three threads make other rows")
    without = rows.count(b"\tno forecast: ")
    kinds = {row.split(b"\t")[2].split()[0] for row in rows.splitlines()}
    insist(count // 20 < without < count // 2 and kinds == {b"status", b"refused", b"unreadable", b"not"},
           f"the shelf is not mixed: {without} without a forecast, {kinds}")
    print(f"{count} cylinders, {without} without a forecast, by one process; the totals are the rows' sums")
    return rows, totals


# --- A terminal ----------------------------------------------------------------------------------


def told_on_terminal(words):
    """What a process says on standard error, where that is a terminal."""
    ours, theirs = pty.openpty()
    begun = subprocess.Popen(words, stdin=subprocess.DEVNULL, stdout=subprocess.DEVNULL, stderr=theirs)
    os.close(theirs)
    told = b""
    try:
        while piece := os.read(ours, 65_536):
            told += piece
    except OSError:  # the other end is closed
        pass
    os.close(ours)
    begun.wait()
    return told


def check_terminal(program, made):
    """How far the work is stands on a terminal, and in no log."""
    rows = fresh("terminal") / "rows"
    words = [str(program), "--rows", str(rows), str(made)]
    told = told_on_terminal(words)
    right = re.search(rb"\[#+-*\] \d+ of 400, \d+ a second, \d+:\d\d:\d\d left", told)
    insist(right and told.endswith(b" without\r\n"), f"on a terminal it says {told[-500:]}")
    rows.unlink()
    done = subprocess.run(words, stdin=subprocess.DEVNULL, capture_output=True)
    insist(re.fullmatch(rb"night: 400 cylinders, \d+ with a forecast, \d+ without\n", done.stderr),
           f"into a log it says {done.stderr}")
    print("a bar with rate and time left stands on a terminal alone")


# --- A long night --------------------------------------------------------------------------------


def memory(program, folder, count):
    """The most that a night had resident, in kilobytes, and its totals. Its list is a pipe that stays open until all
    rows are there, so that the system can be asked before the night ends."""
    rows, totals, pipe = (folder / f"{name}.{count}" for name in ("rows", "totals", "list"))
    os.mkfifo(pipe)
    with totals.open("wb") as out:
        words = [program, "--jobs", "2", "--rows", rows, pipe]
        begun = subprocess.Popen(words, stdin=subprocess.DEVNULL, stdout=out, stderr=subprocess.DEVNULL)
    with pipe.open("wb") as lines:
        lines.write(b"a.sheet\n" * count)
        lines.flush()
        shards.wait_for(rows, count, lambda: begun.poll() is not None)
        about = pathlib.Path(f"/proc/{begun.pid}/status").read_text()
    insist(begun.wait() == 0, f"a night of one good sheet ends with {begun.returncode}")
    return int(re.search(r"VmHWM:\s+(\d+) kB", about).group(1)), shards.bare(totals.read_bytes()).decode()


def check_long(program):
    """A night of more lines than totals have: totals by parts, and memory that does not grow."""
    folder = fresh("long")
    (folder / "a.sheet").write_bytes(shelf.quick())
    (few, _), (many, totals) = (memory(program, folder, count) for count in (1_000, LINES))
    parts = re.findall(r"^lines (\d+)$", totals, re.MULTILINE)
    wanted = [MOST_LINES] * (LINES // MOST_LINES) + [LINES % MOST_LINES]
    insist(list(map(int, parts)) == wanted, f"{LINES} lines have totals of {parts}")
    insist(many - few < SPARE, f"{LINES} lines take {many - few} kilobytes more than 1,000")
    print(f"{LINES} lines have {len(parts)} totals, and take {many} kilobytes, {many - few} more than 1,000 lines")


# --- The ways ------------------------------------------------------------------------------------


def check():
    program, _ = built("debug")
    made = shelf.put(fresh("few"), FEW)
    wanted = check_alone(program, made, FEW)
    shards.check(program, made, wanted, FEW)
    check_terminal(program, made)


def whole():
    ran([ROOT / "tests" / "needs", "parallel", "rsync", "munge", "slurmctld", "slurmd"], statuses=(0,))
    program, is_proved = built("release")
    made = shelf.put(fresh("many"), MANY)
    wanted = check_alone(program, made, MANY)
    folders = [engines.check_parallel(program, made, wanted, MANY), engines.check_lost(program, made, wanted, MANY),
               engines.check_slurm(program, made, wanted, MANY)]
    engines.check_joined(is_proved, folders, wanted[1])
    check_long(program)


def page():
    ran([ROOT / "tests" / "needs", "chromium"], statuses=(0,))
    program, is_proved = built("release")
    browser.check(program, is_proved, shelf.put(fresh("page"), FEW), TARGET)


def main(words):
    name, _ = command.act(__doc__, words, ("check", "whole", "page"), more=0)
    {"check": check, "whole": whole, "page": page}[name]()


if __name__ == "__main__":
    main(sys.argv[1:])
