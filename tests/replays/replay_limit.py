#!/usr/bin/env python3
"""Pairs of sheets that differ in max_steps alone, with the answers that `decay` is to print of both: the same bytes,
unless the first run ended with 2.

    tests/replays/replay_limit.py write [FOLDER]    write crates/replay_limit/stdin and stdout
    tests/replays/replay_limit.py check [FOLDER]    make all answers anew and compare them with what is stored

FOLDER holds the Rust's text; tests/support/rust_text.py says where it is looked for otherwise. Without the
text, or without rustc, `write` refuses, and `check` passes over the Rust's answers, with the sheets that they
belong to compared all the same.

Exit status: 0 nothing differs; 1 an answer differs, and the first is shown; 2 wrong use; 4 nothing was compared with
the Rust.

A pair of the file is a line of sixteen hexadecimal digits, then a sheet, its answer, the same sheet with a larger limit
and the answer to that. The line has the bytes of the four in four digits each, and LF. The file is one pair after the
other and ends with the last.

The sheets are those of tests/replays/replay_sheet.py that run, some of each status; the answers are the Rust's, made as
that script says, for the larger limits too: nothing here takes an answer over from the smaller limit. That the Rust's
own answers are such as request [11] asks is seen to here, and that ours are by the program."""

import sys

import pathlib
sys.path[:0] = [str(each) for each in pathlib.Path(__file__).resolve().parents[1].iterdir() if each.is_dir()]
import command
import replay_sheet
import rust_crate
import rust_text
from replay_sheet import insist, sheet, sheet_of

STORED = rust_text.ROOT / "crates" / "replay_limit" / "stdin"
SUMMARY = rust_text.ROOT / "crates" / "replay_limit" / "stdout"

# What is asked of the file.
LEAST_PAIRS, MOST_BYTES = 60, 300_000
STATUSES = ("0", "2", "3", "5")

# So many sheets are taken of each status, evenly from all that there are; of a status that few have, all.
MOST_SHEETS = 24
MOST_LIMIT = 1_000_000


def status_of(answer):
    """The status that an answer tells."""
    return answer.split()[1]


def counts_of(answer):
    """The six counts that it tells, in the order of the line."""
    return [int(word) for word in answer.splitlines()[0].split()[3::2]]


def larger(limit, status):
    """Limits above this one: the next, and one that is far. A run that ended with 2 may go on long, so for it the
    far one is not the largest that is permitted."""
    far = 3 * limit if status == "2" else MOST_LIMIT
    return [each for each in sorted({limit + 1, far}) if limit < each <= MOST_LIMIT]


def taken(found):
    """At most MOST_SHEETS of a list, evenly."""
    count = min(len(found), MOST_SHEETS)
    return [found[place * len(found) // count] for place in range(count)]


def pairs_of(answers):
    """The pairs of sheets: of each status some, with each larger limit."""
    found = []
    for status in STATUSES:
        of_status = [data for data, answer in answers.items() if status_of(answer) == status]
        insist(of_status, f"no sheet ends with {status}")
        for data in taken(of_status):
            read = sheet.model_of(data)
            for limit in larger(read.max_steps, status):
                found.append((data, sheet_of(read.copy(max_steps=limit))))
    return found


def first_answers():
    """Every stored sheet that runs, with the Rust's answer, which tests/replays/replay_sheet.py holds to the Rust."""
    held = dict(replay_sheet.records_of(replay_sheet.STORED.read_bytes()))
    return {data: held[data] for data in replay_sheet.sheets_that_run()}


def try_pair(data, answer, raised, raised_answer):
    """What request [11] says of a pair, of the Rust's answers."""
    first, second = sheet.model_of(data), sheet.model_of(raised)
    insist(first.max_steps < second.max_steps and sheet_of(second.copy(max_steps=first.max_steps)) == data,
           f"no pair: {data} and {raised}")
    if status_of(answer) == "2":
        insist(all(a <= b for a, b in zip(counts_of(answer), counts_of(raised_answer))),
               f"a count is smaller under the larger limit: {data}, {raised_answer}")
    else:
        insist(answer == raised_answer, f"the Rust's forecast is moved: {data}, {raised_answer}")


def record(texts):
    insist(all(len(text) < 4096 for text in texts), "a sheet or an answer is too long")
    return "".join(f"{len(text):04x}" for text in texts).encode() + b"\n" + b"".join(texts)


def records_of(stored):
    """The four texts of each pair of the file's bytes."""
    found, at = [], 0
    while at < len(stored):
        head, start = stored[at : at + 17], at + 17
        insist(len(head) == 17 and head[16:] == b"\n", f"no pair begins at byte {at}")
        texts = []
        for place in range(0, 16, 4):
            end = start + int(head[place : place + 4], 16)
            texts.append(stored[start:end])
            start = end
        insist(start <= len(stored), "the last pair is broken off")
        found.append(tuple(texts))
        at = start
    return found


def made(folder, stored=()):
    """All pairs with their answers. Where the Rust can't be asked those of the larger limits are taken as they are
    stored."""
    answers = first_answers()
    pairs = pairs_of(answers)
    if folder and rust_crate.compiler():
        ends, _ = replay_sheet.answers_of_rust(folder, [raised for _, raised in pairs])
        raised_answers = [answer for _, answer in ends]
    else:
        held = {raised: answer.decode() for _, _, raised, answer in stored}
        insist(all(raised in held for _, raised in pairs), "a sheet with a larger limit is not stored")
        raised_answers = [held[raised] for _, raised in pairs]
    for (data, raised), raised_answer in zip(pairs, raised_answers):
        try_pair(data, answers[data], raised, raised_answer)
    return [(data, answers[data].encode(), raised, raised_answer.encode())
            for (data, raised), raised_answer in zip(pairs, raised_answers)]


# The rows of what crates/replay_limit prints.
ROWS = ["status 0, the same", "status 3, the same", "status 5, the same", "status 2, then 2", "status 2, then another"]


def row_of(answer, raised_answer):
    if status_of(answer) != "2":
        return f"status {status_of(answer)}, the same"
    return "status 2, then 2" if status_of(raised_answer) == "2" else "status 2, then another"


def tally(pairs):
    counts = dict.fromkeys(ROWS, 0)
    for _, answer, _, raised_answer in pairs:
        counts[row_of(answer.decode(), raised_answer.decode())] += 1
    insist(len(pairs) >= LEAST_PAIRS and all(counts.values()), f"too few pairs: {counts}")
    return counts


def summary(pairs):
    """What the program prints where every pair agrees."""
    rows = [f"{row}: {count} agree 0 differ\n" for row, count in tally(pairs).items()]
    return "".join(rows) + "malformed 0\n"


def told(pairs):
    return "; ".join(f"{count} {row}" for row, count in tally(pairs).items())


def write(folder):
    insist(folder and rust_crate.compiler(), "without the Rust's text and rustc nothing is written")
    pairs = made(folder)
    data = b"".join(map(record, pairs))
    insist(len(data) <= MOST_BYTES, f"{len(data)} bytes are more than are to be stored")
    STORED.write_bytes(data)
    SUMMARY.write_text(summary(pairs))
    print(f"{len(pairs)} pairs, {len(data)} bytes, written to {STORED.name}: {told(pairs)}")


def check(folder):
    insist(STORED.is_file(), f"there is no {STORED}")
    stored = records_of(STORED.read_bytes())
    pairs = made(folder, stored)
    for place, (old, new) in enumerate(zip(stored, pairs), 1):
        insist(old == new, f"pair {place}\n  stored {old}\n  made   {new}")
    insist(len(stored) == len(pairs), f"{len(stored)} pairs are stored, and {len(pairs)} are made")
    insist(SUMMARY.read_text() == summary(pairs), f"{SUMMARY} is not what the program is to print")
    print(f"{len(pairs)} pairs have the answers that are stored: {told(pairs)}")
    rust_text.compared(folder)


def main(words):
    acts = {"write": write, "check": check}
    name, folder = command.act(__doc__, words, acts)
    acts[name](rust_text.find(folder))


if __name__ == "__main__":
    main(sys.argv[1:])
