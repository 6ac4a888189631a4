#!/usr/bin/env python3
"""Sheets with the answers that `decay` is to print: runs as the Rust's own `solve` ends them, and refusals.

    tests/replays/replay_sheet.py write [FOLDER]    write crates/replay_sheet/stdin and stdout
    tests/replays/replay_sheet.py check [FOLDER]    make all answers anew and compare them with what is stored
    tests/replays/replay_sheet.py advance [FOLDER]  compare the same runs call by call with the advance of crates/radau

FOLDER holds the Rust's text; tests/support/rust_text.py says where it is looked for otherwise. Without the
text, or without rustc, `write` refuses, and `check` passes over the Rust's answers, with the sheets that they
belong to compared all the same.

Exit status: 0 nothing differs; 1 an answer differs, and the first is shown; 2 wrong use; 4 nothing was compared with
the Rust.

A record of the file is a line of ten bytes, then the sheet, then the answer. The line has the bytes of the sheet in
four decimal digits, a space, the bytes of the answer in four, and LF. The file is one record after the other and ends
with the last. An answer is what `decay` prints, LF after each line.

How the answers are made. Those of runs are the Rust's: its text is compiled as tests/replays/runs.py does it, with
powers directed to document 01's routine and, for rule 1, the book rule's changes; the derivative is 01's sentence,
written in tests/replays/runs.rs, and the first of each run is held against the same sentence written here; the settings
are the Rust's defaults, the mass is Identity, the tolerances are scalars, the Jacobian is by differences.

Those of refusals come from `refusal` below, an independent reader: it was written from document 01 ('Sheet and
program', 'Numbers that refuse') and the readings of it that follow, and makes no use of tools/sheet.py; on every
sheet here the two are held against each other. Lines are judged in order and the first wrong one is told. Where
the input ends with the last LF before the sheet is complete, the number is that of the lines plus 1, and 1 for no
bytes at all. Bytes behind the last LF are a line without LF, wrong under its own number whatever they hold; so is
a further line, an empty one too. 21 goes before 20, and 20 before opening's list, of which 3, 4 and 9 alone can
come. Where a case is typed with its answer, that answer was worked out by hand from the reason beside it, and the
reader has to give it too."""

import math
import struct
import subprocess
import sys

import pathlib
sys.path[:0] = [str(each) for each in pathlib.Path(__file__).resolve().parents[1].iterdir() if each.is_dir()]
import command
import runs
import rust_crate
import rust_text
from draw import INFINITY, LARGEST, NAN, SIGN, SMALLEST, SMALLEST_NORMAL, Draw, pattern_of

sys.path.append(str(rust_text.ROOT / "tools"))
import sheet  # noqa: E402
from sheet import Model, sheet_of  # noqa: E402

STORED = rust_text.ROOT / "crates" / "replay_sheet" / "stdin"
SUMMARY = rust_text.ROOT / "crates" / "replay_sheet" / "stdout"
# What the program `rewritten` is run on, which is also what it is to print.
REWRITTEN = [rust_text.ROOT / "crates" / "rewritten" / name for name in ("stdin", "stdout")]
PROGRAM = rust_text.ROOT / "tests" / "replays" / "replay_sheet.rs"
CYLINDERS = rust_text.ROOT / "cylinders"

# What is asked of the file.
LEAST_RUNS, LEAST_REFUSALS = 200, 150
MOST_REQUESTS, MOST_BYTES = 100_000, 1_000_000


def insist(fact, words):
    """Stop where something that this script leans on does not hold."""
    if not fact:
        sys.exit(f"replay_sheet: {words}")


def number_of(bits):
    return struct.unpack("<d", struct.pack("<Q", bits))[0]


# --- Document 01's refusals ----------------------------------------------------------------------


def is_float(line):
    return len(line) == 16 and all(byte in b"0123456789abcdef" for byte in line)


def is_decimal(line):
    return 1 <= len(line) <= 10 and all(byte in b"0123456789" for byte in line) and (line == b"0"
        or line[0] != ord("0"))


def counts(low, high):
    return lambda line: is_decimal(line) and low <= int(line) <= high


def is_reaction_of(species):
    def test(line):
        rate, *places = line.split(b" ")
        return is_float(rate) and len(places) == 4 and all(counts(0, species)(place) for place in places)

    return test


def tests_of_lines():
    """The test of each line in turn. What is sent back is the line that passed."""
    yield lambda line: line == b"6"
    for _ in "x0", "xend", "rtol", "atol":
        yield is_float
    yield is_decimal
    yield counts(0, 1)
    species = int((yield counts(1, 32)))
    for _ in range(species):
        yield is_float
    reactions = int((yield counts(0, 64)))
    for _ in range(reactions):
        yield is_reaction_of(species)
    while True:
        yield None


def lines_of(data):
    """What stands before each LF, and what is left behind the last."""
    lines, start = [], 0
    for place, byte in enumerate(data):
        if byte == ord("\n"):
            lines.append(data[start:place])
            start = place + 1
    return lines, data[start:]


def wrong_line(data):
    """The number of the first wrong line, from 1, or None."""
    lines, left = lines_of(data)
    tests = tests_of_lines()
    test = next(tests)
    for number, line in enumerate(lines, 1):
        if test is None or not test(line):
            return number
        test = tests.send(line)
    return len(lines) + 1 if left or test else None


def refusal_at_opening(lines):
    """Opening's list, of which 3, 4 and 9 alone can come."""
    x0, xend, rtol, atol = (number_of(int(line, 16)) for line in lines[1:5])
    amounts = [number_of(int(line, 16)) for line in lines[8 : 8 + int(lines[7])]]
    if not all(map(math.isfinite, [x0, xend, rtol, atol, *amounts])):
        return "refused 3\n"
    if not 1 <= int(lines[5]) <= 1_000_000:
        return "refused 4\n"
    return "refused 9\n" if rtol <= 0 or atol < 0 else None


def refusal(data):
    """What `decay` prints where it refuses, else None."""
    if len(data) > 4096:
        return "refused 21\n"
    number = wrong_line(data)
    return f"refused 20 {number}\n" if number else refusal_at_opening(lines_of(data)[0])


def try_tool(data):
    """tools/sheet.py takes what `refusal` takes, refuses the rest with the same number and line, and
    gives the sheet back."""
    answer = refusal(data) or ""
    malformed = answer if answer[:10] in ("refused 20", "refused 21") else ""
    try:
        model = sheet.model_of(data)
    except sheet.Refused as refused:
        line = f" {refused.line}" if refused.line else ""
        insist(malformed == f"refused {refused.number}{line}\n",
               f"tools/sheet.py refuses {data} with {refused.told()}, the reader with {malformed}")
        return
    insist(not malformed, f"tools/sheet.py takes {data}, the reader gives {malformed}")
    insist(sheet_of(model) == data, f"tools/sheet.py makes another sheet of {data}")


# --- Sheets that run -----------------------------------------------------------------------------

EXAMPLE = b"""6
0000000000000000
3ff0000000000000
3f50000000000000
3eb0000000000000
100000
0
1
3ff0000000000000
0
"""
EXAMPLE_MODEL = sheet.model_of(EXAMPLE)

# Runs whose figures document 01 tells: the first three of tests/replays/runs.py, which has the figures; the fourth
# has a mass, and no sheet.
FIGURED = (EXAMPLE_MODEL, EXAMPLE_MODEL.copy(max_steps=1), EXAMPLE_MODEL.copy(x0=EXAMPLE_MODEL.xend))
EXAMPLE_ANSWER = "status 0 accepted 8 rejected 0 total 8 ode 33 jac 8 lu 24\nx 3ff0000000000000\ny 3ff0000000000000\n"
# 02, [7]: the first step, and the last, which is aimed at the end.
EXAMPLE_ANSWER += "h 3eb0c6f7a0b5ed8d 3fe669bbf0dc768e\n"

# Document 01's P11 has these amounts and this reaction; its derivative is 0, -3.
P11 = EXAMPLE_MODEL.copy(amounts=[pattern_of(2.0), pattern_of(3.0)], reactions=[(pattern_of(0.5), 1, 2, 1, 0)])
P11_DERIVATIVE = [pattern_of(0.0), pattern_of(-3.0)]

# The cylinders, with the status that each ends with.
ENDS = {"nitric_oxide": 0, "robertson": 0, "closed_chain": 0, "broken_off": 2, "small_amounts": 0, "scaled_amounts": 0}


def model(amounts, reactions, xend=1.0, x0=0.0, rtol=1e-4, atol=1e-7, max_steps=40, rule=0):
    """A model whose floats are given as floats."""
    ends = [pattern_of(x) for x in (x0, xend, rtol, atol)]
    rates = [(pattern_of(rate), *places) for rate, *places in reactions]
    return Model(*ends, max_steps, rule, [pattern_of(amount) for amount in amounts], rates)


def both_rules(models):
    return [made.copy(rule=rule) for made in models for rule in (0, 1)]


def cylinder(name):
    return sheet.model_of((CYLINDERS / f"{name}.sheet").read_bytes())


def told_models():
    """Document 01's runs, and the cylinders; the broken-off one also with the step that it lacks."""
    found = [*FIGURED, *(cylinder(name) for name in ENDS)]
    return found + [cylinder("broken_off").copy(max_steps=29), EXAMPLE_MODEL.copy(rule=1), P11]


def chain(n, rate, closed=False):
    """Each species turns into the next; the last into the first, or into nothing."""
    return [(rate, i, 0, i + 1 if i < n else int(closed), 0) for i in range(1, n + 1)]


def models_by_size():
    """1 to 32 species, 0 to 64 reactions."""
    found, draw = [], Draw(1)
    for n in range(1, 33):
        amounts = [1.0] + [0.0] * (n - 1)
        steps = 40 if n < 6 else 10 if n < 16 else 4
        found.append(model(amounts, chain(n, 2.0, closed=n % 2 == 0), max_steps=steps, rule=n // 2 % 2))
    for count in range(65):
        n = draw.between(1, 32) if count % 16 == 0 else draw.between(1, 5)
        found.append(drawn_model(draw, n, count, max_steps=3 if n > 8 else 12).copy(rule=count % 2))
    for n, count in ((32, 64), (32, 0), (1, 64)):
        found.append(drawn_model(draw, n, count, max_steps=2))
    return found + [LARGEST_SHEET]


# As long as a sheet that runs can be; the rates are so small that it ends soon.
LARGEST_SHEET = model([1.0] * 32, [(1e-9, 32, 31, 30, 10 + i % 20) for i in range(64)], max_steps=1_000_000)


def power_of_ten(exponent):
    """Read from its digits, since not every machine's pow has the same bits."""
    return float(f"1e{exponent}")


def drawn_model(draw, n, count, max_steps):
    """Amounts of modest size, rates over many orders of magnitude, any species at any place."""
    amounts = [abs(draw.unit()) for _ in range(n)]
    reactions = [(abs(draw.unit()) * power_of_ten(draw.between(-4, 6)), *(draw.between(0, n) for _ in range(4)))
                 for _ in range(count)]
    rtol = power_of_ten(-draw.between(2, 9))
    return model(amounts, reactions, xend=power_of_ten(draw.between(-6, 1)), rtol=rtol, atol=rtol * 1e-3,
                 max_steps=max_steps)


ROBERTSON = [(0.04, 1, 0, 2, 0), (3e7, 2, 2, 2, 3), (1e4, 2, 3, 1, 3)]
# Autocatalysis, with what feeds it and what takes it away.
OSCILLATION = [(1.0, 0, 0, 1, 0), (5.0, 1, 2, 2, 2), (0.8, 2, 0, 0, 0)]
# The amount grows as its own square: to infinity before long.
BLAST = [(-1.0, 1, 1, 0, 0)]


def models_of_stiffness():
    found = []
    for xend in (1e-3, 40.0, 1e6):
        found.append(model([1.0, 0.0, 0.0], ROBERTSON, xend=xend, max_steps=100_000))
    found.append(model([1.0, 0.0, 0.0], ROBERTSON, xend=0.4, rtol=1e-8, atol=1e-12, max_steps=60))
    for rate in (1e2, 1e5, 1e9):
        found.append(model([1.0, 0.0], [(rate, 1, 0, 2, 0), (1.0, 2, 0, 1, 0)], max_steps=60))
        found.append(model([1.0, 1.0], [(rate, 1, 2, 0, 0), (1.0, 0, 0, 1, 2)], max_steps=60))
    found.append(model([0.1, 1.0], OSCILLATION, xend=20.0, max_steps=100))
    found.append(model([1.0], [(1e12, 1, 1, 1, 0)], max_steps=60))
    return both_rules(found)


def models_of_ends():
    """Backward, equal ends, zeros of both signs, short spans, ends far apart."""
    found = []
    for rate in (1.0, -3.0, 200.0):
        found.append(model([1.0, 0.5], [(rate, 1, 0, 2, 0)], x0=1.0, xend=-1.0))
    found.append(model([0.9, 1e-5, 0.1], ROBERTSON, x0=1e-6, xend=0.0))
    found.append(model([1.0], BLAST, x0=0.0, xend=-5.0))
    decay = model([1.0], [(1.0, 1, 0, 0, 0)])
    for point in (0.0, -0.0, 1.0, -5.0, 730.0, 1e300, 5e-324):
        found.append(decay.copy(x0=pattern_of(point), xend=pattern_of(point)))
    found.append(decay.copy(x0=pattern_of(0.0), xend=pattern_of(-0.0)))
    found.append(decay.copy(x0=pattern_of(-0.0), xend=pattern_of(0.0)))
    for span in (9e-7, 1e-7, 1e-12, 1e-100, 1e-300, 5e-324):
        found.append(decay.copy(xend=pattern_of(span)))
        found.append(decay.copy(xend=pattern_of(-span), rule=1))
        found.append(model([1.0, 2.0], [(1e7, 1, 2, 1, 0)], xend=span))
    for above in (1, 2, 3, 100):
        found.append(decay.copy(x0=pattern_of(1.0), xend=pattern_of(1.0) + above))
    found.append(decay.copy(x0=pattern_of(-1e308), xend=pattern_of(1e308)))
    found.append(decay.copy(x0=LARGEST, xend=SIGN | LARGEST, reactions=[]))
    found.append(decay.copy(x0=pattern_of(1e15), xend=pattern_of(1e15) + 3))
    return found


def models_of_rates():
    """Rates that are NaN of any payload, infinite, subnormal, zeros; amounts of zero times them."""
    found = []
    patterns = [NAN, NAN + 1, 0x7FF0000000000001, SIGN | NAN, 0xFFFFFFFFFFFFFFFF, INFINITY, SIGN | INFINITY]
    patterns += [SMALLEST, SIGN | SMALLEST, SMALLEST_NORMAL, LARGEST, SIGN | LARGEST, 0, SIGN]
    for place, bits in enumerate(patterns):
        one = model([1.0], [(1.0, 1, 0, 0, 0)], max_steps=12, rule=place % 2).copy(reactions=[(bits, 1, 0, 0, 0)])
        found.append(one)
        found.append(one.copy(amounts=[0, pattern_of(2.0)], reactions=[(bits, 1, 2, 2, 2)], max_steps=6))
        found.append(one.copy(amounts=[pattern_of(0.5)] * 3,
                              reactions=[(bits, 0, 0, 0, 2), (pattern_of(1.0), 2, 0, 3, 0)], max_steps=6))
    return found


def models_of_overflow():
    found = []
    for amount in (1e150, 1e200, 1e300, 1.7e308):
        found.append(model([amount], [(1.0, 1, 0, 0, 0)], max_steps=12))
        found.append(model([amount, 1.0], [(1.0, 1, 1, 2, 0)], max_steps=12))
        found.append(model([-amount, amount], [(1.0, 1, 2, 2, 2)], max_steps=8, rule=1))
    found.append(model([1.0], BLAST, xend=2.0, max_steps=60))
    found.append(model([1.0], BLAST, xend=2.0, max_steps=60, rule=1))
    found.append(model([1.0], [(-1000.0, 1, 0, 0, 0)], xend=1.0, max_steps=60))
    found.append(model([1e300], [(-1.0, 1, 0, 0, 0)], xend=30.0, max_steps=60))
    found.append(model([1.0, 1.0], [(1e308, 0, 0, 1, 0), (1e308, 0, 0, 1, 1)], xend=10.0, max_steps=12))
    found.append(model([5e-324], [(5e-324, 1, 1, 1, 1)], max_steps=12))
    # Success, with an amount that is infinite.
    found.append(model([1.7e308], [(1e300, 0, 0, 1, 0)], xend=1e7))
    found.append(model([-1.7e308, 0.0], [(-1e300, 0, 0, 1, 0)], xend=1e7, rule=1))
    return found


def models_of_limits():
    """Limits of steps, and tolerances, that are tight or wide."""
    found = []
    base = model([1.0, 0.0, 0.0], ROBERTSON, xend=10.0)
    for steps in (1, 2, 3, 5, 8, 13, 20):
        found.append(base.copy(max_steps=steps))
        found.append(base.copy(max_steps=steps, rule=1))
    for steps in (999_999, 1_000_000):
        found.append(EXAMPLE_MODEL.copy(max_steps=steps))
    for steps in range(7, 10):
        found.append(EXAMPLE_MODEL.copy(max_steps=steps))
    soft = model([1.0, 0.5], [(3.0, 1, 0, 2, 0), (1.0, 2, 2, 1, 0)], max_steps=12)
    for rtol, atol in ((1e-12, 1e-15), (1e-15, 0.0), (1e-3, -0.0), (1e-300, 1e-300), (5e-324, 1.0), (1.0, 1.0),
                       (1e3, 1e3), (1e300, 0.0)):
        found.append(soft.copy(rtol=pattern_of(rtol), atol=pattern_of(atol)))
        found.append(soft.copy(rtol=pattern_of(rtol), atol=pattern_of(atol), rule=1))
    for atol in (1e300, 1.7e308):
        found.append(soft.copy(atol=pattern_of(atol)))
    found.append(soft.copy(amounts=[0, 0], atol=0))
    found.append(soft.copy(amounts=[SIGN, 0], atol=0, rule=1))
    return found


def models_of_shapes():
    """A reaction with each place taken or empty; reactions that undo themselves; one species at all places."""
    found = []
    for shape in range(16):
        places = [place if shape >> bit & 1 else 0 for bit, place in enumerate((1, 2, 3, 1))]
        found.append(model([1.0, 0.5, 0.25], [(2.0, *places)], max_steps=12, rule=shape % 2))
    for places in ((1, 1, 1, 1), (1, 2, 2, 1), (1, 0, 1, 0), (0, 1, 0, 1), (1, 1, 0, 0), (0, 0, 1, 1), (1, 0, 1, 1)):
        found.append(model([0.75, -1.5], [(3.0, *places)], max_steps=12))
    # The same reaction many times, and one after the other that nearly cancel: the order of the sums shows.
    found.append(model([1.0, 0.1], [(0.1, 1, 0, 2, 0)] * 10, max_steps=12))
    found.append(model([1.0, 1e-3], [(1e8, 1, 0, 2, 0), (1e8, 2, 0, 1, 0), (1e-8, 1, 0, 0, 0)], max_steps=30))
    found.append(model([1.0, 0.0, 0.0], [(1e16, 0, 0, 1, 0), (1.0, 0, 0, 1, 0), (-1e16, 0, 0, 1, 0)], max_steps=12))
    return found


def models_drawn():
    """Anything at all: amounts and rates of any finite pattern, or of modest size and either sign."""
    found, draw = [], Draw(3)
    for turn in range(40):
        n = draw.between(1, 4)
        made = drawn_model(draw, n, draw.between(1, 6), max_steps=12)
        if turn % 4 == 0:
            made.amounts = [draw.finite() for _ in range(n)]
        if turn % 4 == 1:
            made.reactions = [(draw.bits(), *places) for _, *places in made.reactions]
        if turn % 4 == 2:
            made.reactions = [(rate ^ draw.sign(), *places) for rate, *places in made.reactions]
            made.amounts = [amount ^ draw.sign() for amount in made.amounts]
        found.append(made.copy(rule=turn // 4 % 2))
    return found


def models_of_verdicts():
    """Runs in which an attempt goes astray in a way that few do; found by drawing models and
    counting the Rust's branches."""
    growth = [(5.5, 1, 0, 0, 0), (-74498.0, 0, 1, 0, 0)]
    found = [
        model([2.5e297, 1.1e-71, -4.3e-174], [(0.007, 3, 3, 2, 3), (50.0, 0, 1, 0, 2)], xend=1e-8, rtol=1e-8,
              atol=1e-2, max_steps=20),
        model([-0.82, 0.676], [(63.4, 2, 1, 0, 0), (0.0068, 2, 1, 2, 2)], xend=0.01, rtol=1e-6, atol=1e-8,
              max_steps=20),
        model([0.16], growth, xend=0.01, rtol=0.1, atol=100.0, max_steps=20),
        model([0.973], [(-3.13e45, 1, 1, 1, 0), (-8.8e-202, 0, 0, 0, 1)], xend=1e-8, rtol=1e-6, atol=1.0, max_steps=6),
        model([0.345, 0.579], [(160.0, 1, 0, 0, 2), (40143.0, 1, 1, 2, 2)], xend=1e-4, rtol=100.0, atol=1e-5,
              max_steps=20),
        model([1.0, 1e-3], [(-1e4, 1, 2, 1, 0), (1e2, 1, 1, 2, 0)], xend=1.0, rtol=1e-2, atol=1e-3),
    ]
    return both_rules(found)


MAKERS = (
    told_models,
    models_by_size,
    models_of_stiffness,
    models_of_ends,
    models_of_rates,
    models_of_overflow,
    models_of_limits,
    models_of_shapes,
    models_of_verdicts,
    models_drawn,
)


def sheets_that_run():
    """Each model once."""
    found = []
    for make in MAKERS:
        for made in make():
            data = sheet_of(made)
            insist(refusal(data) is None, f"{make.__name__} makes a sheet that is refused: {data}")
            if data not in found:
                found.append(data)
    return found


# --- What the Rust answers -----------------------------------------------------------------------


def run_of(data):
    """The run of a sheet, as tests/replays/runs.py has runs."""
    read = sheet.model_of(data)
    x0, xend, rtol, atol = map(number_of, (read.x0, read.xend, read.rtol, read.atol))
    numbers = [value for rate, *places in read.reactions for value in (number_of(rate), *map(float, places))]
    changes = {"x0": x0, "xend": xend, "rtol": rtol, "atol": atol, "max_steps": read.max_steps, "book": read.rule == 1}
    return runs.Run("reactions", map(number_of, read.amounts), *numbers, **changes)


def derivative(read):
    """Document 01's sentence at a model's amounts, as patterns."""
    y = list(map(number_of, read.amounts))
    found = [0.0] * len(y)
    for rate, *places in read.reactions:
        v = number_of(rate)
        for reactant in filter(None, places[:2]):
            v *= y[reactant - 1]
        for reactant in filter(None, places[:2]):
            found[reactant - 1] -= v
        for product in filter(None, places[2:]):
            found[product - 1] += v
    return list(map(pattern_of, found))


def answers_of_rust(folder, sheets, **changes):
    """For each sheet how many requests its run makes and what is printed; and the names of the branches that were
    taken. The runs may be changed."""
    program = runs.build(folder, PROGRAM)
    asked = "".join(run_of(data).copy(**changes).line(number) + "\n" for number, data in enumerate(sheets, 1))
    done = subprocess.run([program], input=asked, capture_output=True, text=True)
    insist(done.returncode == 0, f"the Rust's program stopped:\n{done.stderr}")
    lines = done.stdout.splitlines()
    parts = [line.split(" | ") for line in lines[: len(sheets)]]
    for data, (_, first, *_) in zip(sheets, parts):
        wanted = derivative(sheet.model_of(data))
        insist([int(word, 16) for word in first.split()] == wanted,
               f"the run's first derivative is another than document 01's: {data}")
    answers = [(int(requests), "".join(part + "\n" for part in printed)) for requests, _, *printed in parts]
    return answers, [line.split(" ", 1)[1] for line in lines[len(sheets) :]]


def figures_of(answer):
    """Status and six counts."""
    return tuple(int(word) for word in answer.split("\n")[0].split(" ")[1::2])


def try_figures(answers):
    """What document 01 tells of its runs, and the cylinders' ends; `answers` has the sheets' answers."""
    insist(answers[EXAMPLE] == EXAMPLE_ANSWER, f"document 01's example prints {answers[EXAMPLE]}")
    insist(derivative(P11) == P11_DERIVATIVE, f"document 01's P11 has the derivative {derivative(P11)}")
    for made, (run, figures) in zip(FIGURED, runs.FIGURES):
        insist(run_of(sheet_of(made)).opening(0) == run.opening(0),
               "a run of document 01 is opened otherwise in tests/replays/runs.py")
        gave = figures_of(answers[sheet_of(made)])
        same = all(wanted is None or wanted == number for wanted, number in zip(figures, gave))
        insist(same, f"a run of document 01 has the figures {gave}, and is to have {figures}")
    for name, status in ENDS.items():
        gave = figures_of(answers[sheet_of(cylinder(name))])[0]
        insist(gave == status, f"the cylinder {name} ends with status {gave}, and is to end with {status}")
    status, *_ = figures_of(answers[sheet_of(cylinder("broken_off").copy(max_steps=29))])
    insist(status == 0, "with a 29th step the broken-off run does not reach its end")
    ruined, scaled = (number_of(int(answers[sheet_of(cylinder(name))].split()[17], 16))
                      for name in ("small_amounts", "scaled_amounts"))
    insist(ruined < -65_000 and abs(scaled - 0.02083) < 0.0005,
           f"docs/DIFFERENCES.md tells of other ends than {ruined} and {scaled}")


# Branches of the Rust that the sheets are to take, in the words of tests/replays/runs.py.
WANTED = [
    "forward", "backward", "step too small", "attempt over the limit", "real matrix singular",
    "complex matrix singular",
    "rejected", "rejected before the first acceptance", "rejected again", "refined and accepted",
    "refined and rejected", "aimed and rejected",
    "kept matrices, accepted", "kept matrices, rejected", "Jacobian kept", "step kept",
    "slow verdict", "slow and accepted", "slow and refined", "slow when aimed", "book: slow verdict ends the attempt",
    "rate too large", "rate too large, the sixth", "theta is NaN", "norm is NaN", "norm is infinite", "error is NaN",
    "Identity times infinity",
]  # fmt: skip


# --- Sheets that are refused ---------------------------------------------------------------------

SMALL = model([1.0, 0.5, 0.0], [(2.0, 1, 2, 3, 0), (0.25, 3, 0, 1, 1)])
BASES = (EXAMPLE, sheet_of(SMALL))

# Where which line stands in SMALL's sheet: its number from 1.
X0, XEND, RTOL, ATOL, STEPS, RULE, SPECIES, AMOUNT, REACTIONS, REACTION = 2, 3, 4, 5, 6, 7, 8, 9, 12, 13
LAST = 14


def with_line(data, number, line):
    """The sheet with another line in the place of one; None takes the line out."""
    lines = data.split(b"\n")
    lines[number - 1 : number] = [] if line is None else [line]
    return b"\n".join(lines)


def small(number, line):
    return with_line(BASES[1], number, line)


def padded(length):
    """01's example with a further line, of so many bytes in all."""
    return EXAMPLE + b"0" * (length - len(EXAMPLE) - 1) + b"\n"


def largest(number, line):
    return with_line(sheet_of(LARGEST_SHEET), number, line)


ONE = b"3ff0000000000000"

# Typed: the sheet, the answer, and why.
TYPED = [
    (b"", "20 1", "empty: line 1 is missing"),
    (b"\n", "20 1", "line 1 is empty, and not 6"),
    (b"6", "20 1", "line 1 has no LF"),
    (b"6\n", "20 2", "line 2 is missing"),
    (b"6\n\n", "20 2", "line 2 is empty"),
    (b"7\n", "20 1", "the settings' count is 6"),
    (b"5\n", "20 1", "the settings' count is 6"),
    (b"06\n", "20 1", "a leading zero"),
    (b" 6\n", "20 1", "a blank"),
    (b"6 \n", "20 1", "a blank"),
    (b"6\r\n", "20 1", "CR is no digit"),
    (b"\xef\xbb\xbf6\n", "20 1", "a mark of the byte order is no digit"),
    (b"\x006\n", "20 1", "NUL is no digit"),
    (b"hello\n", "20 1", "no sheet at all"),
    (b"\n" * 4096, "20 1", "4,096 bytes are read, and line 1 is empty"),
    (b"\n" * 4097, "21", "4,097 bytes, before all else"),
    (b"6" * 4096, "20 1", "4,096 bytes and no LF"),
    (b"6" * 4097, "21", "4,097 bytes and no LF"),
    (b"\x00" * 5000, "21", "5,000 bytes"),
    (padded(4096), "20 11", "4,096 bytes: a further line"),
    (padded(4097), "21", "a sheet that is right and a further line of 4,097 bytes in all"),
    (b"x\n" + b"0" * 4095, "21", "4,097 bytes: 21 goes before a wrong first line"),
    (EXAMPLE + b"\n" * (4096 - len(EXAMPLE)), "20 11", "4,096 bytes: further lines, the first of them is told"),
    (EXAMPLE + b"\n" * (4097 - len(EXAMPLE)), "21", "the same with one more"),
    (EXAMPLE[:-1], "20 10", "the last line has no LF"),
    (EXAMPLE[:-2], "20 10", "the reactions' count is missing"),
    (EXAMPLE + b"\n", "20 11", "a further line, though empty"),
    (EXAMPLE + b"0", "20 11", "bytes behind the last LF"),
    (EXAMPLE + b" ", "20 11", "a blank behind the last LF"),
    (EXAMPLE + b"\x00", "20 11", "NUL behind the last LF"),
    (EXAMPLE + b"\r", "20 11", "CR behind the last LF"),
    (EXAMPLE + EXAMPLE, "20 11", "two sheets"),
    (EXAMPLE.replace(b"\n", b"\r\n"), "20 1", "CR before each LF"),
    (EXAMPLE.replace(b"\n", b"\r"), "20 1", "CR in the place of LF: one line without LF"),
    (EXAMPLE.replace(b"\n", b" "), "20 1", "all on one line without LF"),
    (EXAMPLE.upper(), "20 3", "uppercase; line 2 has no letters"),
    (small(X0, b"0"), "20 2", "a float of one digit"),
    (small(X0, b"000000000000000"), "20 2", "15 digits"),
    (small(X0, b"00000000000000000"), "20 2", "17 digits"),
    (small(XEND, b"3FF0000000000000"), "20 3", "uppercase"),
    (small(XEND, b"3fg0000000000000"), "20 3", "g is no hex digit"),
    (small(XEND, b"1.0"), "20 3", "a decimal float"),
    (small(RTOL, b"0x3f50000000000000"), "20 4", "0x before the digits"),
    (small(RTOL, b" 3f5000000000000"), "20 4", "a blank and 15 digits"),
    (small(ATOL, b"-3eb000000000000"), "20 5", "a sign and 15 digits"),
    (small(ATOL, b"3eb00000\x00000000"), "20 5", "NUL among the digits"),
    (small(STEPS, b""), "20 6", "no digit"),
    (small(STEPS, b"0100"), "20 6", "a leading zero"),
    (small(STEPS, b"00"), "20 6", "a leading zero, of zero"),
    (small(STEPS, b"10000000000"), "20 6", "eleven digits"),
    (small(STEPS, b"00000000001"), "20 6", "eleven digits with leading zeros"),
    (small(STEPS, b"99999999999"), "20 6", "eleven digits"),
    (small(STEPS, b"18446744073709551617"), "20 6", "twenty digits, 1 modulo 2^64"),
    (small(STEPS, b"+100"), "20 6", "a sign"),
    (small(STEPS, b"-1"), "20 6", "a sign"),
    (small(STEPS, b"1e5"), "20 6", "an exponent"),
    (small(STEPS, b"100.0"), "20 6", "a point"),
    (small(STEPS, b"1_000"), "20 6", "an underline"),
    (small(STEPS, b"1,000"), "20 6", "a comma"),
    (small(STEPS, "١٠".encode()), "20 6", "digits of another script"),
    (small(STEPS, b"9999999999"), "4", "ten digits are read; opening refuses"),
    (small(STEPS, b"4294967297"), "4", "2^32 + 1"),
    (small(STEPS, b"1000001"), "4", "one above the most"),
    (small(STEPS, b"0"), "4", "no steps"),
    (small(RULE, b"2"), "20 7", "an unknown rule"),
    (small(RULE, b"00"), "20 7", "a leading zero"),
    (small(RULE, b"01"), "20 7", "a leading zero"),
    (small(RULE, b"rust"), "20 7", "no number"),
    (small(SPECIES, b"0"), "20 8", "no species: 20 at the count, never 1"),
    (small(SPECIES, b"33"), "20 8", "33 species: 20 at the count, never 1"),
    (small(SPECIES, b"03"), "20 8", "a leading zero"),
    (small(SPECIES, b"4294967299"), "20 8", "2^32 + 3"),
    (small(SPECIES, b"10000000003"), "20 8", "eleven digits"),
    (small(SPECIES, b"2"), "20 11", "two species, so the third amount stands where the reactions' count should"),
    (small(SPECIES, b"4"), "20 12", "four species, so the reactions' count stands where an amount should"),
    (small(AMOUNT, b"1"), "20 9", "a decimal in the place of a float"),
    (small(AMOUNT + 1, ONE + b" "), "20 10", "a blank behind the digits"),
    (small(AMOUNT + 2, ONE.upper()), "20 11", "uppercase in the last amount"),
    (small(REACTIONS, b"65"), "20 12", "65 reactions"),
    (small(REACTIONS, b"02"), "20 12", "a leading zero"),
    (small(REACTIONS, b""), "20 12", "no count"),
    (small(REACTIONS, b"1"), "20 14", "one reaction, so the second is a further line"),
    (small(REACTIONS, b"3"), "20 15", "three reactions, so one is missing"),
    (small(REACTIONS, b"0"), "20 13", "no reaction, so the first is a further line"),
    (small(REACTION, ONE + b" 1 2 3"), "20 13", "four fields"),
    (small(REACTION, ONE + b" 1 2 3 0 0"), "20 13", "six fields"),
    (small(REACTION, ONE + b" 1 2 3 0 "), "20 13", "a blank behind the last field"),
    (small(REACTION, b" " + ONE + b" 1 2 3 0"), "20 13", "a blank before the first field"),
    (small(REACTION, ONE + b"  1 2 3 0"), "20 13", "two spaces"),
    (small(REACTION, ONE + b"\t1 2 3 0"), "20 13", "a tab"),
    (small(REACTION, ONE + b" 1 2 3\t0"), "20 13", "a tab"),
    (small(REACTION, ONE + b" 1 2 3 "), "20 13", "an empty field"),
    (small(REACTION, ONE + b" 01 2 3 0"), "20 13", "a leading zero"),
    (small(REACTION, ONE + b" 1 2 3 00"), "20 13", "a leading zero, of zero"),
    (small(REACTION, ONE + b" 4 2 3 0"), "20 13", "a first reactant that is unknown"),
    (small(REACTION, ONE + b" 1 4 3 0"), "20 13", "a second reactant that is unknown"),
    (small(REACTION, ONE + b" 1 2 4 0"), "20 13", "a first product that is unknown"),
    (small(REACTION, ONE + b" 1 2 3 4"), "20 13", "a second product that is unknown"),
    (small(REACTION, ONE + b" 1 2 3 33"), "20 13", "a species above all that there can be"),
    (small(REACTION, ONE + b" 1 2 3 4294967296"), "20 13", "2^32"),
    (small(REACTION, ONE + b" 1 2 3 00000000000"), "20 13", "eleven digits"),
    (small(REACTION, ONE + b" 1 2 3 -1"), "20 13", "a sign"),
    (small(REACTION, b"1 1 2 3 0"), "20 13", "a rate of one digit"),
    (small(REACTION, b"1 2 3 0 " + ONE), "20 13", "the rate behind"),
    (small(REACTION, ONE), "20 13", "a rate alone"),
    (small(REACTION, b"    "), "20 13", "five empty fields"),
    (small(REACTION, None), "20 14", "a reaction is missing"),
    (small(LAST, None), "20 14", "the last reaction is missing"),
    (small(LAST, ONE + b" 3 0 1 1\r"), "20 14", "CR in the last line"),
    (largest(40, ONE.upper()), "20 40", "the last of 32 amounts"),
    (largest(41, b"65"), "20 41", "65 reactions"),
    (largest(41, b"63"), "20 105", "63 reactions, so the 64th is a further line"),
    (largest(105, ONE + b" 32 33 0 0"), "20 105", "an unknown species in the last of 64 reactions"),
    (largest(105, None), "20 105", "the last of 64 reactions is missing"),
    (sheet_of(LARGEST_SHEET)[:-1], "20 105", "the last of 64 reactions has no LF"),
    (sheet_of(LARGEST_SHEET) + b"\n", "20 106", "a line behind the last of 64 reactions"),
    (largest(STEPS, b"9999999999"), "4", "the longest sheet that is well formed, 2,489 bytes"),
    (with_line(small(REACTION, ONE + b" 9 0 0 0"), RULE, b"2"), "20 7", "two wrong lines: the first is told"),
    (with_line(small(XEND, ONE.upper()), STEPS, b"0"), "20 3", "malformed goes before opening's list"),
    (with_line(small(LAST, ONE + b" 3 0 1 4"), STEPS, b"0"), "20 14",
     "malformed in the last line goes before opening's list"),
]  # fmt: skip


def at_opening():
    """What opening refuses: floats that are not finite, limits, tolerances; of several the one that goes first."""
    found, strange = [], (NAN, INFINITY, SIGN | INFINITY, 0x7FF0000000000001, 0xFFFFFFFFFFFFFFFF)
    for bits in strange:
        for name in ("x0", "xend", "rtol", "atol"):
            found.append((SMALL.copy(**{name: bits}), "3"))
        for place in range(3):
            amounts = list(SMALL.amounts)
            amounts[place] = bits
            found.append((SMALL.copy(amounts=amounts), "3"))
    for bits in (0, SIGN, SIGN | SMALLEST, pattern_of(-1e-3), SIGN | LARGEST):
        found.append((SMALL.copy(rtol=bits), "9"))
    for bits in (SIGN | SMALLEST, pattern_of(-1e-6), SIGN | LARGEST):
        found.append((SMALL.copy(atol=bits), "9"))
    for steps in (0, 1_000_001, 10**10 - 1):
        found.append((SMALL.copy(max_steps=steps), "4"))
        found.append((SMALL.copy(max_steps=steps, rtol=0), "4"))
        found.append((SMALL.copy(max_steps=steps, rtol=0, amounts=[0, 0, NAN]), "3"))
    # A rate may have any bits, so beside one that is none the others go first all the same.
    found.append((SMALL.copy(reactions=[(NAN, 1, 0, 0, 0)], max_steps=0), "4"))
    found.append((SMALL.copy(reactions=[(INFINITY, 1, 0, 0, 0)], rtol=SIGN), "9"))
    return [(sheet_of(made), number, "opening's list") for made, number in found]


# What is done to any line: it, changed.
WRECKS = {
    "is taken out": lambda line: None,
    "is empty": lambda line: b"",
    "stands twice": lambda line: line + b"\n" + line,
    "has an empty line before it": lambda line: b"\n" + line,
    "begins with a blank": lambda line: b" " + line,
    "ends with a blank": lambda line: line + b" ",
    "ends with CR": lambda line: line + b"\r",
    "begins with NUL": lambda line: b"\x00" + line,
    "begins with a zero": lambda line: b"0" + line,
    "begins with a sign": lambda line: b"-" + line,
    "ends with a digit more": lambda line: line + b"0",
    "lacks its last byte": lambda line: line[:-1],
    "has a byte above 127": lambda line: line[:-1] + b"\xb2",
    "has a letter": lambda line: line[:-1] + b"F",
}


def wrecked():
    """Each line of two sheets wrecked in each way, and the sheets broken off behind, within and before
    the end of each line."""
    found = []
    for data in BASES:
        lines = data[:-1].split(b"\n")
        for number, line in enumerate(lines, 1):
            found += [(with_line(data, number, wreck(line)), f"line {number} {name}") for name, wreck in WRECKS.items()]
            behind = sum(len(earlier) + 1 for earlier in lines[:number])
            found += [(data[: behind - cut], f"broken off {cut} bytes before the end of line {number}")
                      for cut in (0, 1, 2)]
    return [(data, reason) for data, reason in found if refusal(data)]


def sheets_refused():
    """Each with its answer, once. The typed ones first, with the answers as typed."""
    insist(len(largest(STEPS, b"9999999999")) == 2489, "the longest sheet has not 2,489 bytes")
    found = {}
    for data, typed, reason in TYPED + at_opening():
        answer = f"refused {typed}\n"
        insist(refusal(data) == answer, f"{reason}: the reader gives {refusal(data)}, typed is {answer}")
        found[data] = answer
    for data, _ in wrecked():
        found.setdefault(data, refusal(data))
    return found


# --- The file ------------------------------------------------------------------------------------


def record(data, answer):
    insist(len(data) < 10_000 and len(answer) < 10_000, "a sheet or an answer is too long for a record")
    return f"{len(data):04} {len(answer):04}\n".encode() + data + answer.encode()


def records_of(stored):
    """The sheets and answers of the file's bytes."""
    found, at = [], 0
    while at < len(stored):
        head = stored[at : at + 10]
        insist(len(head) == 10 and head[4:5] == b" " and head[9:] == b"\n", f"no record begins at byte {at}")
        start, middle = at + 10, at + 10 + int(head[:4])
        at = middle + int(head[5:9])
        insist(at <= len(stored), "the last record is broken off")
        found.append((stored[start:middle], stored[middle:at].decode()))
    return found


def try_answers(answers):
    """What is asked of all records together; `answers` has them, the sheets as keys."""
    kinds = tally(answers)
    ran = sum(count for kind, count in kinds.items() if kind.startswith("status"))
    insist(ran >= LEAST_RUNS and len(answers) - ran >= LEAST_REFUSALS, f"too few sheets: {kinds}")
    for data, answer in answers.items():
        try_tool(data)
        insist((refusal(data) or answer) == answer, f"the reader refuses what runs: {data}")


def tally(answers):
    """How many there are of each status and each number of a refusal."""
    kinds = [" ".join(answer.split()[:2]) for answer in answers.values()]
    return {kind: kinds.count(kind) for kind in sorted(set(kinds))}


def made(folder):
    """All sheets with their answers, those that run first."""
    sheets = sheets_that_run()
    ends, taken = answers_of_rust(folder, sheets)
    requests = sum(count for count, _ in ends)
    insist(requests <= MOST_REQUESTS, f"{requests} requests are more than {MOST_REQUESTS}")
    missing = [name for name in WANTED if name not in taken]
    insist(not missing, f"no run takes these branches: {missing}")
    answers = dict(zip(sheets, (answer for _, answer in ends)))
    try_figures(answers)
    print(f"{len(sheets)} runs make {requests} requests, the longest {max(count for count, _ in ends)}, and take "
          f"{len(taken)} of the Rust's branches")
    return answers | sheets_refused()


def made_from_stored(stored):
    """The same where the Rust can't be asked: the answers of runs, and only those, are taken as they are stored."""
    sheets = sheets_that_run()
    held = dict(stored)
    insist(all(data in held for data in sheets), "a sheet that runs is not stored")
    answers = {data: held[data] for data in sheets}
    try_figures(answers)
    return answers | sheets_refused()


def told(answers):
    return ", ".join(f"{count} {kind}" for kind, count in tally(answers).items())


# The rows of what crates/replay_sheet prints.
ROWS = ["status 0", "status 2", "status 3", "status 5", "refused 3", "refused 4", "refused 9", "refused 20",
        "refused 21"]


def summary(answers):
    """What the program prints where every answer is met."""
    counts = dict.fromkeys(ROWS, 0)
    for answer in answers.values():
        counts[" ".join(answer.split()[:2])] += 1
    return "".join(f"{row}: {count} agree 0 differ\n" for row, count in counts.items()) + "malformed 0\n"


def write(folder):
    insist(folder and rust_crate.compiler(), "without the Rust's text and rustc nothing is written")
    answers = made(folder)
    try_answers(answers)
    data = b"".join(record(*pair) for pair in answers.items())
    insist(len(data) <= MOST_BYTES, f"{len(data)} bytes are more than are to be stored")
    STORED.write_bytes(data)
    SUMMARY.write_text(summary(answers))
    for file in REWRITTEN:
        file.write_bytes((CYLINDERS / "nitric_oxide.sheet").read_bytes())
    print(f"{len(answers)} sheets, {len(data)} bytes, written to {STORED.name}: {told(answers)}")


def check(folder):
    insist(STORED.is_file(), f"there is no {STORED}")
    stored = records_of(STORED.read_bytes())
    if folder and rust_crate.compiler():
        answers = made(folder)
    else:
        answers = made_from_stored(stored)
    try_answers(answers)
    for place, (old, new) in enumerate(zip(stored, answers.items()), 1):
        insist(old == new, f"record {place}\n  stored {old}\n  made   {new}")
    insist(len(stored) == len(answers), f"{len(stored)} sheets are stored, and {len(answers)} are made")
    insist(SUMMARY.read_text() == summary(answers), f"{SUMMARY} is not what the program is to print")
    for file in REWRITTEN:
        insist(file.read_bytes() == (CYLINDERS / "nitric_oxide.sheet").read_bytes(), f"{file} is not the cylinder's")
    print(f"{len(answers)} sheets have the answers that are stored: {told(answers)}")
    rust_text.compared(folder)


def advance(folder):
    rust_text.compared(folder)
    said, _ = runs.replayed(folder, [run_of(data) for data in sheets_that_run()])
    insist(said.endswith(" 0 differ"), said)
    print(said)


def main(words):
    acts = {"write": write, "check": check, "advance": advance}
    name, folder = command.act(__doc__, words, acts)
    acts[name](rust_text.find(folder))


if __name__ == "__main__":
    main(sys.argv[1:])
