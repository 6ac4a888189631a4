"""Shards of a night, one of which is killed half-way and done again, and their sum by the command of docs/NIGHT.md. For
tests/night/night.py.

So that the shard is half-way when it is killed, however fast the machine is, the next sheet is a pipe that nobody
writes to: the shard waits there, and goes on by itself no further."""

import os
import re
import shutil
import signal
import subprocess
import sys
import textwrap
import time

import shelf

TARGET = shelf.ROOT / "target" / "night"
SHARDS = 4
KILLED = 3


def insist(fact, words):
    if not fact:
        sys.exit(f"night: {words}")


def fresh(name):
    folder = TARGET / name
    shutil.rmtree(folder, ignore_errors=True)
    folder.mkdir(parents=True)
    return folder


def ran(words, statuses=(0, 1), **more):
    """What a command prints; it may say that a cylinder has no forecast."""
    words = [str(word) for word in words]
    done = subprocess.run(words, stdin=subprocess.DEVNULL, capture_output=True, **more)
    insist(done.returncode in statuses, f"{words} ends with {done.returncode}: {done.stderr.decode()[-2000:]}")
    return done.stdout


# --- Rows and totals -----------------------------------------------------------------------------


def last_place(rows):
    """The place in the last whole row of a file; 0 where there is none."""
    if not rows.is_file():
        return 0
    with rows.open("rb") as file:
        file.seek(max(0, file.seek(0, os.SEEK_END) - 8_192))
        whole = file.read().rpartition(b"\n")[0]
    return int(whole.rpartition(b"\n")[2].split(b"\t")[0] or 0)


def wait_for(rows, place, is_over):
    """Waits until the row of this place is there, which is to come before the end of whoever makes the rows."""
    while last_place(rows) < place:
        insist(not is_over() or last_place(rows) >= place, f"{rows} ends before the row {place}")
        time.sleep(0.005)


def summed(rows):
    """The totals of rows that are few enough, by this script's own sums."""
    told = [row.split(b"\t")[2].decode() for row in rows.splitlines()]
    counts = [[int(word) for word in line.split()[1::2]] for line in told if line.startswith("status ")]
    odes = [count[4] for count in counts]
    largest = max(odes, default=0)
    told = [f"lines {len(counts)}"]
    told += [f"status {status} {sum(count[0] == status for count in counts)}" for status in (0, 1, 2, 3, 5, 7)]
    names = ("accepted", "rejected", "total", "ode", "jac", "lu")
    told += [f"{name} {sum(count[place] for count in counts)}" for place, name in enumerate(names, 1)]
    told += [f"largest {largest} line {odes.index(largest) + 1 if odes else 0}"]
    return "".join(line + "\n" for line in told).encode()


def bare(totals):
    """Totals without the word that an unproved solver says first."""
    return totals.removeprefix(b"unproved\n")


# --- A shard that stops half-way -----------------------------------------------------------------


class Held:
    """The sheet half-way through the shard that is to be killed, as a pipe until it is let go."""

    def __init__(self, made, count):
        whole = range(KILLED, count + 1, SHARDS)
        place = whole[len(whole) // 2]
        self.before = whole[len(whole) // 2 - 1]
        (self.sheet,) = (made.parent / "sheets").glob(f"{place - 1:06}.*")
        self.kept = made.parent / "kept"
        self.sheet.rename(self.kept)
        os.mkfifo(self.sheet)

    def let_go(self):
        """Whoever waits at the pipe stays there: the sheet under its name is another file."""
        self.kept.replace(self.sheet)

    def tear(self, rows):
        """What was killed left whole rows, up to the one before the pipe; the last is then torn, as where power is
        lost."""
        left = rows.read_bytes()
        insist(left.endswith(b"\n") and last_place(rows) == self.before, f"a shard that was killed left {left[-100:]}")
        rows.write_bytes(left[:-10])


# --- The page's commands -------------------------------------------------------------------------


def shown(begin):
    """The command of docs/NIGHT.md that begins so."""
    text = (shelf.ROOT / "docs" / "NIGHT.md").read_text()
    found = [block for block in re.findall(r"(?:^    .*\n)+", text, re.MULTILINE) if block.startswith(f"    {begin} ")]
    insist(len(found) == 1, f"docs/NIGHT.md has {len(found)} commands that begin with {begin}")
    return textwrap.dedent(found[0])


def home(name, program, made):
    """A folder as the page has it: the program and the shelf in it."""
    folder = fresh(name)
    shutil.copy(program, folder / "night")
    (folder / "shelf").symlink_to(made.parent)
    return folder


def unlinked(folder):
    """Takes the links to a shelf away: `rt ci` refuses a link anywhere in the checkout."""
    for link in list(folder.rglob("shelf")):
        if link.is_symlink():
            link.unlink()


def check_merged(folder, wanted):
    """Merged rows are those of one process, and so are their totals, for which nothing is done again."""
    rows, totals = wanted
    insist(len(list(folder.glob("rows.[0-9]*"))) == SHARDS, f"{folder} has not the rows of {SHARDS} shards")
    ran(["bash", "-c", shown("LC_ALL=C sort")], statuses=(1,), cwd=folder)
    insist((folder / "rows.tsv").read_bytes() == rows, f"{folder}: the shards' rows are other than one process's")
    insist((folder / "totals.txt").read_bytes() == totals, f"{folder}: the shards' totals are other than one process's")
    insist((folder / "night.html").is_file(), f"{folder} has no page")


def words_of(number):
    return ["./night", "--shard", f"{number}/{SHARDS}", "--resume", "--rows", f"rows.{number}", "shelf/shelf.list"]


def check(program, made, wanted, count):
    folder, held, nowhere = home("processes", program, made), Held(made, count), subprocess.DEVNULL
    rows = folder / f"rows.{KILLED}"
    begun = subprocess.Popen(words_of(KILLED), stdin=nowhere, stdout=nowhere, stderr=nowhere, cwd=folder)
    wait_for(rows, held.before, lambda: begun.poll() is not None)
    begun.kill()
    insist(begun.wait() == -signal.SIGKILL, f"a shard that was killed ends with {begun.returncode}")
    held.let_go()
    held.tear(rows)
    for number in range(1, SHARDS + 1):
        ran(words_of(number), cwd=folder)
    check_merged(folder, wanted)
    unlinked(folder)
    print(f"{SHARDS} shards, one killed half-way and done again, have its rows and totals")
