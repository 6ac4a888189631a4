#!/usr/bin/env python3
"""Whole runs of the Rust's own `solve`, stored for crates/replay_run.

    tests/replays/replay_run.py write [FOLDER]  write crates/replay_run/stdin and stdout
    tests/replays/replay_run.py check [FOLDER]  make both anew and compare them with what is stored

FOLDER holds the Rust's text; tests/support/rust_text.py says where it is looked for otherwise. Without the text, or
without rustc, `check` holds stdout against the stored stdin alone.

Exit status: 0 nothing differs; 1 a line differs, and the first is shown; 2 wrong use; 4 nothing was compared with the
Rust.

tests/replays/runs.py makes the runs and tells how they are had. Stored are those of up to MOST_AMOUNTS amounts and
MOST_WORDS words, and of the longer ones, the shortest first, each that takes a branch of the Rust or has an order that
none before it has; in all every branch that is counted is taken.

A word is 16 hex digits, and doubles are bit patterns; a NaN is always 7ff8000000000000. Words stand in blocks, each
followed by LF if it is a fourth one of its block, else by a space. A run is a block for its opening and one for each
request:
  - the opening: n, x0, xend, the choices, max_steps, newton_maxiter, the eight floats and the two tolerances of
    crates/replay's settings, nind1, nind2, nind3; how many requests follow; then the amounts, a Full mass and two
    lists of tolerances, if given;
  - a request: its head, the hash of all 22 parts as they stand when it is made (tests/replays/runs.rs), its floats,
    then what the host replies: the entries that it fills in, or the new x and y, or the mark; at the end of a run the
    result in their place.
A head has four digits: the kind (1 derivative, 2 Jacobian, 3 report, 4 end), the place of a derivative, whether a
report offers coefficients or the status of an end, and the reply (1 filled, 2 continue, 3 interrupt, 4 modified, 5
mark)."""

import sys

import pathlib
sys.path[:0] = [str(each) for each in pathlib.Path(__file__).resolve().parents[1].iterdir() if each.is_dir()]
import command
import runs
import rust_crate
import rust_text
from replay_opening import compare, insist

STDIN = rust_text.ROOT / "crates" / "replay_run" / "stdin"
STDOUT = rust_text.ROOT / "crates" / "replay_run" / "stdout"

MOST_AMOUNTS = 4
MOST_WORDS = 700
MOST_RUNS = 1000

# The words of an opening before the amounts; the last of them tells how many requests follow.
OPENING = 20

# The rows of the summary: the requests by their heads without the reply, then the replies by
# their numbers, then the runs.
REPORTS = {0x300: "report", 0x301: "report with coefficients"}
REQUESTS = {0x100 + 0x10 * place: f"derivative {name}" for place, name in enumerate(runs.PLACES) if name}
REQUESTS |= {0x200: "Jacobian"} | REPORTS | {0x400 + status: f"ended, status {status}" for status in (0, 1, 2, 3, 5)}
REPLIES = {1: "reply filled", 2: "reply continue", 3: "reply interrupt", 4: "reply modified", 5: "reply mark"}
RUNS = "runs"


def blocks_of(run, words):
    """The blocks of a run, whose requests are these words."""
    n = len(run.y)
    requests = []
    while words:
        count = 2 + sum(runs.lengths_behind(n, words[0]))
        requests.append(words[:count])
        words = words[count:]
    opening = run.opening(len(requests))
    return [opening, *requests]


def block_text(words):
    return "".join(f"{word:016x}" + ("\n" if place % 4 == 3 else " ") for place, word in enumerate(words))


def chosen(program):
    """The blocks of each run that is stored."""
    found = [run for run in runs.every_run() if len(run.y) <= MOST_AMOUNTS]
    answers, _ = runs.answers_of(program, found)
    made = [blocks_of(run, words) for run, words in zip(found, answers)]
    length = [sum(map(len, blocks)) for blocks in made]
    stored = [place for place in range(len(found)) if length[place] <= MOST_WORDS]
    taken = set(runs.answers_of(program, [found[place] for place in stored])[1]) | {len(found[place].y)
        for place in stored}
    for place in sorted(set(range(len(found))) - set(stored), key=length.__getitem__):
        adds = {len(found[place].y), *runs.answers_of(program, [found[place]])[1]} - taken
        if adds:
            stored.append(place)
            taken |= adds
    runs.try_branches({name: 1 for name in taken if isinstance(name, str)})
    insist(len(stored) <= MOST_RUNS, f"{len(stored)} runs are more than the program reads")
    return [made[place] for place in sorted(stored)]


def heads_of(text):
    """The heads of all requests, run by run, read from the stored text."""
    words = [int(word, 16) for word in text.split()]
    found, at = [], 0
    while at < len(words):
        n, choices, count = words[at], words[at + 3], words[at + OPENING - 1]
        given = dict(zip(runs.CHOICES, (choices >> bit & 1 for bit in range(len(runs.CHOICES)))))
        at += OPENING + n + n * n * given["full"] + 2 * n * given["lists"]
        heads = []
        for _ in range(count):
            insist(at < len(words), "the stored runs end within a run")
            heads.append(words[at])
            at += 2 + sum(runs.lengths_behind(n, words[at]))
        found.append(heads)
    insist(at == len(words), "the stored runs end within a request")
    return found


def summary(text):
    """What the program writes where every request is met and every reply is taken."""
    counts = dict.fromkeys([*REQUESTS.values(), *REPLIES.values(), RUNS], 0)
    for heads in heads_of(text):
        counts[RUNS] += 1
        for head in heads:
            counts[REQUESTS[head >> 4]] += 1
            if head & 15:
                counts[REPLIES[head & 15]] += 1
    return "".join(f"{row}: {count} agree 0 differ\n" for row, count in counts.items()) + "malformed 0\n"


def main(words):
    name, folder = command.act(__doc__, words, ("write", "check"))
    folder = rust_text.find(folder)
    if folder and rust_crate.compiler():
        stored = chosen(runs.build(folder))
        text = "".join(block_text(block) for blocks in stored for block in blocks)
        if name == "write":
            STDIN.write_text(text)
            STDOUT.write_text(summary(text))
        compare(STDIN, text)
    else:
        insist(name == "check", "without the Rust's text and rustc nothing can be written")
    text = STDIN.read_text()
    compare(STDOUT, summary(text))
    heads = heads_of(text)
    print(f"{len(heads)} runs of {sum(map(len, heads))} requests are as stored")
    rust_text.compared(folder)


if __name__ == "__main__":
    main(sys.argv[1:])
