#!/usr/bin/env python3
"""Points for the table that crates/replay_csv makes, and that table, made by Python's own float.hex.

    tests/replays/replay_csv.py write     write crates/replay_csv/stdin and stdout
    tests/replays/replay_csv.py check     make both anew and compare them with what is stored, and read that table back

Exit status: 0 nothing differs; 1 a line differs, and the first is shown; 2 wrong use.

A line of stdin has four words of 16 hexadecimal digits, a space between and LF at the end: the bits of x and of three
amounts. The table has the header x,y1,y2,y3 and a record a point, each with CRLF. Python writes all thirteen digits of
a fraction (`0x1.8000000000000p+1`), zero as `0x0.0p+0`, and a subnormal with exponent -1022; document 02 drops the
zeros at the end, and a bare point. What is stored is read back by Python's csv, and each field by float.fromhex, to
the bits that it was made of."""

import csv
import io
import math
import struct
import sys

import pathlib
sys.path[:0] = [str(each) for each in pathlib.Path(__file__).resolve().parents[1].iterdir() if each.is_dir()]
import command
import rust_text
from draw import INFINITY, SIGN, SPECIALS, UNIT, Draw, pattern_of

CRATE = rust_text.ROOT / "crates" / "replay_csv"
WORDS = 4
DRAWN = 1900


def double_of(bits):
    return struct.unpack("<d", struct.pack("<Q", bits))[0]


def text_of(value):
    """Python's text of a double, in the form of document 02."""
    if math.isnan(value):
        return "nan"
    if math.isinf(value):
        return "inf" if value > 0 else "-inf"
    head, exponent = value.hex().split("p")
    if "." in head:
        head = head.rstrip("0").removesuffix(".")
    return f"{head}p{exponent}"


def drawn(draw):
    """A pattern of each class in turn: any bits, any fraction with few bits, a subnormal, a binade's ends, a NaN."""
    kind = draw.between(0, 5)
    exponent = draw.between(0, 2047) * UNIT
    if kind == 0:
        return draw.bits()
    if kind == 1:
        return draw.sign() | exponent | draw.between(0, 15) << 4 * draw.between(0, 12)
    if kind == 2:
        return draw.sign() | draw.bits() % UNIT >> draw.between(0, 51)
    if kind == 3:
        return draw.sign() | exponent | draw.choice((0, 1, UNIT - 1, UNIT // 2))
    if kind == 4:
        return draw.sign() | (1013 + draw.between(0, 20)) * UNIT | draw.bits() % UNIT
    return draw.sign() | INFINITY | draw.bits() % UNIT


def patterns():
    """The special numbers, the ends of each class, one of each width of a fraction and of each exponent, and others."""
    yield from SPECIALS
    for sign in (0, SIGN):
        yield from (sign | bits for bits in (UNIT - 1, UNIT, UNIT + 1, INFINITY - 1, INFINITY, INFINITY + 1, SIGN - 1))
        yield from (sign | 1023 * UNIT | 1 << bit for bit in range(52))
        yield from (sign | 1 << bit for bit in range(52))
    yield from (exponent * UNIT for exponent in range(2047))
    draw = Draw(9)
    yield from (drawn(draw) for _ in range(WORDS * DRAWN))


def points():
    found = list(patterns())
    found += [0] * (-len(found) % WORDS)
    return [found[at:at + WORDS] for at in range(0, len(found), WORDS)]


def made():
    """Both files."""
    lines = points()
    words = "".join(" ".join(f"{word:016x}" for word in line) + "\n" for line in lines)
    table = "x,y1,y2,y3\r\n" + "".join(",".join(text_of(double_of(word)) for word in line) + "\r\n" for line in lines)
    return {"stdin": words.encode(), "stdout": table.encode()}


def write():
    for name, data in made().items():
        (CRATE / name).write_bytes(data)


def read_back():
    """The stored table by a reader of CSV and a reader of numbers that are not ours."""
    header, *rows = csv.reader(io.StringIO((CRATE / "stdout").read_bytes().decode(), newline=""), strict=True)
    lines = points()
    if header != ["x", "y1", "y2", "y3"] or len(rows) != len(lines):
        sys.exit("replay_csv: the table has another header, or another number of records")
    for row, line in zip(rows, lines):
        if [pattern_of(float.fromhex(field)) for field in row] != [pattern_of(double_of(word)) for word in line]:
            sys.exit(f"replay_csv: {row} is not read back to {[f'{word:016x}' for word in line]}")
    print(f"{len(rows)} records are read back to the bits of their {WORDS * len(rows)} numbers")


def check():
    for name, data in made().items():
        stored = (CRATE / name).read_bytes()
        for number, (left, right) in enumerate(zip(data.split(b"\n"), stored.split(b"\n")), 1):
            if left != right:
                sys.exit(f"replay_csv: line {number} of {name} is to be\n  {left!r}\nand is\n  {right!r}")
        if data != stored:
            sys.exit(f"replay_csv: {name} has another number of lines")
    read_back()


def main(words):
    name, *rest = command.act(__doc__, words, ("write", "check"))
    (write if name == "write" else check)()


if __name__ == "__main__":
    main(sys.argv[1:])
