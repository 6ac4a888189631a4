#!/usr/bin/env python3
"""Totals one after another, and what `joined` is to print of them (02, [13]).

    tests/replays/replay_joined.py write             write crates/joined/stdin and stdout
    tests/replays/replay_joined.py check [PROGRAM]   make both anew and compare them with what is stored; with a
                                                     program, as crates/joined/out/joined, run it on every text too

Exit status: 0 nothing differs; 1 something differs, and the first is shown; 2 wrong use.

How the answers are made. Nothing here is a translation of the port: a text is split at its LFs, each line is matched by
the regular expression of its place among the fourteen, and totals are whole numbers of Python. What is stored are the
totals of nights, and the answer is also that of `replay_totals.py` to all their lines in one. The texts have each line
wrong in several ways, missing and without its LF, each test of 28 failed by the first, the second and both, and 65,535
lines and more in all. The program is handed each text at once, and the shorter ones also in pieces of 1 to 64 bytes."""

import pathlib
import random
import re
import sys

sys.path[:0] = [str(each) for each in pathlib.Path(__file__).resolve().parents[1].iterdir() if each.is_dir()]
import command
import replay_totals
from replay_totals import MOST_COUNT, MOST_LINES, NAMES, STATUSES

ROOT = pathlib.Path(__file__).resolve().parents[2]
STDIN = ROOT / "crates" / "joined" / "stdin"
STDOUT = ROOT / "crates" / "joined" / "stdout"

RUNS = [f"status {status}" for status in STATUSES]
HEADS = ["lines", *RUNS, *NAMES]
NUMBER = "(0|[1-9][0-9]{0,15})"
FORMS = [re.compile(f"{head} {NUMBER}".encode()) for head in HEADS]
FORMS += [re.compile(f"largest {NUMBER} line {NUMBER}".encode())]
FIELDS = [*HEADS, "largest", "place"]
NONE = dict.fromkeys(FIELDS, 0)


def wrong_line(lines, rest):
    """The number of the first wrong or missing line of a text, from 1; or None."""
    for number, line in enumerate(lines, 1):
        if not FORMS[(number - 1) % 14].fullmatch(line):
            return number
    return len(lines) + 1 if rest or len(lines) % 14 else None


def totals_in(lines):
    """The totals of a text that is right."""
    for start in range(0, len(lines), 14):
        matches = [form.fullmatch(line) for form, line in zip(FORMS, lines[start:start + 14])]
        numbers = [int(number) for match in matches for number in match.groups()]
        yield dict(zip(FIELDS, numbers))


def unfit(t):
    """02's list of what 28 refuses."""
    return (
        t["lines"] > MOST_LINES
        or sum(t[name] for name in RUNS) != t["lines"]
        or any(t[name] > MOST_COUNT * t["lines"] for name in NAMES)
        or t["largest"] > t["ode"]
        or t["place"] > t["lines"]
        or (t["place"] == 0 and t["lines"] > 0)
    )


def both(a, b):
    """The totals of a's lines and then b's."""
    sums = {name: a[name] + b[name] for name in HEADS}
    odes = [(a["largest"], a["place"])] if a["lines"] else []
    odes += [(b["largest"], a["lines"] + b["place"])] if b["lines"] else []
    largest, place = max(odes, key=lambda pair: (pair[0], -pair[1]), default=(0, 0))
    return {**sums, "largest": largest, "place": place}


def said(t):
    return "".join(f"{name} {t[name]}\n" for name in HEADS) + f"largest {t['largest']} line {t['place']}\n"


def answer_to(text):
    """What is to be printed of a text."""
    *lines, rest = text.split(b"\n")
    wrong = wrong_line(lines, rest)
    if wrong:
        return b"refused 20 %d\n" % wrong
    all_ = NONE
    for totals in totals_in(lines):
        if unfit(all_) or unfit(totals):
            return b"refused 28\n"
        if all_["lines"] + totals["lines"] > MOST_LINES:
            return b"refused 26\n"
        all_ = both(all_, totals)
    return said(all_).encode()


def night(random_, lines, most=10**6):
    """Status lines as `decay` prints them."""
    return b"".join(replay_totals.line_of(replay_totals.drawn(random_, most)) for _ in range(lines))


def drawn(random_, lines, most=10**6):
    """The totals of so many lines, as a text."""
    return replay_totals.answer_to(night(random_, lines, most))


def numbers_of(text):
    return next(totals_in(text.split(b"\n")[:-1]))


def spoilt(t):
    """Totals with each test of 28 failed, and just not."""
    lines = t["lines"]
    yield {**t, "lines": lines + 1}
    yield {**t, "status 3": t["status 3"] + 1}
    yield {**t, "status 7": 10**16 - 1}
    yield {**t, "lines": MOST_LINES + 1, "status 0": t["status 0"] + MOST_LINES + 1 - lines}
    yield {**t, "lines": MOST_LINES, "status 0": t["status 0"] + MOST_LINES - lines}
    for name in NAMES:
        yield {**t, name: MOST_COUNT * lines + 1}
        yield {**t, name: MOST_COUNT * lines}
    for largest in (t["ode"], t["ode"] + 1, 10**16 - 1):
        yield {**t, "largest": largest}
    for place in (0, 1, lines, lines + 1, 10**16 - 1):
        yield {**t, "place": place}
    for name in FIELDS:
        yield {**NONE, name: 1}
    yield NONE


def broken(line):
    """A line in ways that are wrong, LF and all."""
    head, number = line.rsplit(b" ", 1)
    for other in (b"", b"00", b"0" + number, b"-1", b"+1", b"1 ", b" 1", b"1a", b"#", b"1e3", b"12345678901234567"):
        yield head + b" " + other + b"\n"
    yield from (head + number + b"\n", head + b"  " + number + b"\n", head.upper() + b" " + number + b"\n")
    yield from (line + b"\r\n", b" " + line + b"\n", b"\n", line + b"\n" + line + b"\n", line[1:] + b"\n", b"#\n")
    yield from (line[:-1] + b"#\n", line + b"\x00\n", b"", line)


def texts():
    """Every text by a name."""
    random_ = random.Random(13)
    fine = [drawn(random_, count) for count in (0, 1, 5, 40)]
    none, one, some, many = fine
    yield "nothing", b""
    yield "of no lines", none
    yield "all", none + one + none + some + many + none
    yield "all, the other way", none + many + some + none + one + none
    yield "equal odes", some + some + one + some
    for k, line in enumerate(some.split(b"\n")[:-1]):
        before, after = (b"\n".join(part) for part in (some.split(b"\n")[:k], some.split(b"\n")[k + 1:]))
        for m, wrong in enumerate(broken(line)):
            yield f"line {k + 1} broken, {m}", fine[m % 3] + before + (b"\n" if k else b"") + wrong + after
        yield f"ended before line {k + 1}", one + before + (b"\n" if k else b"")
        yield f"ended within line {k + 1}", before + (b"\n" if k else b"") + line
    yield "another program's", replay_totals.line_of([0, 8, 0, 8, 33, 8, 24])
    yield "refused", one + b"refused 26\n"
    for k, other in enumerate(spoilt(numbers_of(some))):
        text = said(other).encode()
        yield from ((f"spoilt {k}, {m}", each) for m, each in enumerate((text, one + text, text + one, text + text)))
        yield f"spoilt {k}, then wrong", text + one[:-1]
    half = said({**NONE, "lines": 32768, "status 1": 32768, "place": 7}).encode()
    yield "65,535 lines", half + said({**NONE, "lines": 32767, "status 5": 32767, "place": 9}).encode() + none
    yield "65,536 lines", half + half
    yield "65,536 lines, then unfit", half + half + said({**NONE, "lines": 1}).encode()
    yield "65,536 lines, then wrong", half + half + b"lines"
    yield "the largest counts", drawn(random_, 65_000, MOST_COUNT) + drawn(random_, 535, MOST_COUNT)
    yield "sixteen digits", said({**NONE, "ode": 10**16 - 1}).encode()


def tried(program):
    runs = 0
    for name, text in texts():
        wanted = answer_to(text)
        for piece in (1, 7, 64, max(1, len(text))):
            runs += 1
            got = replay_totals.ran(program, text, piece)
            if got != wanted:
                print(f"{name}, in pieces of {piece}: {got[:200]!r}, where {wanted[:200]!r} is right")
                sys.exit(1)
    print(f"{runs} runs of {program}: nothing differs")


def stored():
    """The totals of thirty nights, and of all their lines."""
    random_ = random.Random(28)
    nights = [night(random_, random_.randint(0, 60), MOST_COUNT) for _ in range(30)]
    text = b"".join(replay_totals.answer_to(lines) for lines in nights)
    answer = answer_to(text)
    if answer != replay_totals.answer_to(b"".join(nights)):
        print("totals that are joined are not those of the lines")
        sys.exit(1)
    return text, answer


def main():
    act, program = command.act(__doc__, sys.argv[1:], ("write", "check"))
    text, answer = stored()
    if act == "write":
        STDIN.write_bytes(text)
        STDOUT.write_bytes(answer)
        return
    if STDIN.read_bytes() != text or STDOUT.read_bytes() != answer:
        print("crates/joined/stdin or stdout is not what is made here")
        sys.exit(1)
    print("crates/joined: stdin and stdout are what is made here")
    if program:
        tried(program)


if __name__ == "__main__":
    main()
