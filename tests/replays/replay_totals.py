#!/usr/bin/env python3
"""Status lines, and what `totals` is to print of them (02, [12]).

    tests/replays/replay_totals.py write             write crates/totals/stdin and stdout
    tests/replays/replay_totals.py check [PROGRAM]   make both anew and compare them with what is stored; with a
                                                     program, as crates/totals/out/totals, run it on every text too

Exit status: 0 nothing differs; 1 something differs, and the first is shown; 2 wrong use.

How the answers are made. Nothing here is a translation of the port: a line is matched by one regular expression, its
numbers are whole numbers of Python, and the totals are sums over the list of lines. The texts are of 0, 1, 65,535 and
65,536 lines, and one line among right ones with each rule broken in each field. The program is handed each text at
once, and the shorter ones also in pieces of 1 to 64 bytes."""

import pathlib
import random
import re
import subprocess
import sys

sys.path[:0] = [str(each) for each in pathlib.Path(__file__).resolve().parents[1].iterdir() if each.is_dir()]
import command

ROOT = pathlib.Path(__file__).resolve().parents[2]
STDIN = ROOT / "crates" / "totals" / "stdin"
STDOUT = ROOT / "crates" / "totals" / "stdout"

NAMES = ("accepted", "rejected", "total", "ode", "jac", "lu")
STATUSES = (0, 1, 2, 3, 5, 7)
MOST_LINES, MOST_COUNT = 65_535, 10_000_000_000
NUMBER = rb"(0|[1-9][0-9]*)"
LINE = re.compile(rb"status ([0-9])" + b"".join(b" " + name.encode() + b" " + NUMBER for name in NAMES) + rb"\n")


def entry_of(line):
    """The seven numbers of a line with its LF, or None."""
    match = LINE.fullmatch(line)
    if not match:
        return None
    numbers = [int(each) for each in match.groups()]
    right = numbers[0] in STATUSES and max(numbers[1:]) <= MOST_COUNT
    return numbers if right else None


def answer_to(text):
    """What is to be printed of a text."""
    entries, ended = [], text.count(b"\n")
    for number, line in enumerate(text.split(b"\n"), 1):
        whole = number <= ended
        if not whole and not line:
            break
        if number > MOST_LINES:
            return b"refused 26\n"
        entry = entry_of(line + b"\n") if whole else None
        if entry is None:
            return b"refused 20 %d\n" % number
        entries.append(entry)
    odes = [entry[4] for entry in entries]
    largest = max(odes, default=0)
    place = odes.index(largest) + 1 if odes else 0
    said = [f"lines {len(entries)}"]
    said += [f"status {status} {sum(entry[0] == status for entry in entries)}" for status in STATUSES]
    said += [f"{name} {sum(entry[1 + k] for entry in entries)}" for k, name in enumerate(NAMES)]
    said += [f"largest {largest} line {place}"]
    return ("\n".join(said) + "\n").encode()


def line_of(numbers):
    words = [f"status {numbers[0]}"] + [f"{name} {count}" for name, count in zip(NAMES, numbers[1:])]
    return (" ".join(words) + "\n").encode()


def drawn(random_, most=10**6):
    return [random_.choice(STATUSES)] + [random_.randint(0, most) for _ in NAMES]


def broken(random_):
    """One line with each rule broken in each field."""
    right = drawn(random_)
    line = line_of(right)
    for k in range(1, 7):
        wrong = ("00", "", "-1", "+1", "1 ", " 1", "1a", "#", f"0{right[k]}")
        for count in (MOST_COUNT + 1, 10**11, 10**16, 10**17, 2**64) + wrong:
            yield line_of(right[:k] + [count] + right[k + 1:])
    for status in (4, 6, 8, 9, 10, 57, "00", "01", "", "-0", "x"):
        yield line_of([status] + right[1:])
    for name in NAMES:
        yield line.replace(name.encode(), name.upper().encode())
        yield line.replace(b" " + name.encode(), b"")
    yield from (line[:-1] + end for end in (b" \n", b"\r\n", b"\x00\n", line))
    yield from (b"\n", b" " + line, line[1:], b"refused 20 7\n", b"unreadable\n")
    yield from (name + b" 3ff0000000000000\n" for name in (b"x", b"y", b"h"))


def texts():
    """Every text by a name."""
    random_ = random.Random(12)
    yield "none", b""
    yield "one", line_of([0, 8, 0, 8, 33, 8, 24])
    yield "zeros", line_of([7] + [0] * 6) * 3
    yield "largest counts", line_of([5] + [MOST_COUNT] * 6) * 7
    equal = [0, 1, 2, 3, 40, 5, 6]
    yield "equal odes", line_of(drawn(random_, 39)) + line_of(equal) + line_of(equal)
    for k, line in enumerate(broken(random_)):
        before = b"".join(line_of(drawn(random_)) for _ in range(k % 3))
        yield f"broken {k}", before + line + line_of(drawn(random_))
    yield "without LF", line_of(equal) + line_of(equal)[:-1]
    yield "begun", line_of(equal) + b"s"
    many = b"".join(line_of(drawn(random_, MOST_COUNT)) for _ in range(MOST_LINES))
    yield "65,535 lines", many
    yield "65,535 lines of the largest counts", line_of([0] + [MOST_COUNT] * 6) * MOST_LINES
    yield "65,536 lines", many + line_of(equal)
    yield "an empty line beyond", many + b"\n"
    yield "a byte beyond", many + b"x"
    yield "wrong, then beyond", line_of([4] + equal[1:]) + many


def ran(program, text, piece):
    """What a program prints of a text that it is handed in pieces."""
    with subprocess.Popen([program], stdin=subprocess.PIPE, stdout=subprocess.PIPE) as running:
        for start in range(0, len(text), piece):
            running.stdin.write(text[start:start + piece])
            running.stdin.flush()
        running.stdin.close()
        return running.stdout.read()


def tried(program):
    runs = 0
    for name, text in texts():
        pieces = (1, 7, 64, max(1, len(text))) if len(text) < 2000 else (4095, len(text))
        wanted = answer_to(text)
        for piece in pieces:
            runs += 1
            got = ran(program, text, piece)
            if got != wanted:
                print(f"{name}, in pieces of {piece}: {got[:200]!r}, where {wanted[:200]!r} is right")
                sys.exit(1)
    print(f"{runs} runs of {program}: nothing differs")


def stored():
    random_ = random.Random(26)
    text = b"".join(line_of(drawn(random_, MOST_COUNT)) for _ in range(1000))
    return text, answer_to(text)


def main():
    act, program = command.act(__doc__, sys.argv[1:], ("write", "check"))
    text, answer = stored()
    if act == "write":
        STDIN.write_bytes(text)
        STDOUT.write_bytes(answer)
        return
    if STDIN.read_bytes() != text or STDOUT.read_bytes() != answer:
        print("crates/totals/stdin or stdout is not what is made here")
        sys.exit(1)
    print("crates/totals: stdin and stdout are what is made here")
    if program:
        tried(program)


if __name__ == "__main__":
    main()
