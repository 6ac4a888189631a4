#!/usr/bin/env python3
"""Openings of runs, with answers made outside of the port.

    tests/replays/replay_opening.py write [FOLDER]   write crates/replay_opening/stdin and stdout
    tests/replays/replay_opening.py check [FOLDER]   make both anew and compare them with what is stored

Both hold the answers against the Rust's own lines where these and rustc are there. FOLDER holds the Rust's text;
tests/support/rust_text.py says where it is looked for otherwise.

Exit status: 0 nothing differs; 1 a line differs, and the first is shown; 2 wrong use; 4 nothing was compared with the
Rust.

How the answers are made. Nothing here is a translation of the port. Which row refuses is worked out from the words of
document 01's table (`ROWS` below), on whole numbers and Python's floats. What an accepted opening answers follows
radau.rs 177-264: Python's floats are doubles and each operation rounds once; the exponent 2/3 is the third root
squared, by the exact functions of tests/replays/replay_scalar.py. Then a Rust program is made, below target/, around
the Rust's lines 131-264 as they stand, with the power directed to a third root of ours, and is run on every case that
the Rust can judge: its refusals and its numbers must be those made here.

A case is a block of lines, each of four words of 16 hex digits with a space between, 68 bytes with LF. Doubles are bit
patterns; a NaN is always 7ff8000000000000.

    1   n, x0, xend, choices: a bit for each of CHOICES below, from the lowest
    2   max_steps, newton_maxiter, uround, safety_factor
    3   scale_min, scale_max, max_step, min_step
    4   newton_tol, first_step, the scalar rtol and atol
    5   nind1, nind2, nind3, outcome: four numbers of four digits: the row that refuses, or 0; for rows 3, 9 and 12
        which float failed, by its number of FLOATS below; its place in a list; 0
    6-7 the lengths of the 22 parts in the order of PARTS below, four digits each; then, of line 7, the part and the
        place of one entry that stands outside of its part's rule (ffff, ffff: none), and its pattern
    8-10 what the parts hold before the call: for y, mass, rtol, atol, each of the other parts of floats, and each of
        pivots, the pattern of the first entry and how much it rises from entry to entry, modulo 2^64
and, where the opening is accepted,
    11  h, hmax, hmin, posneg
    12  newton_tol, the converted rtol and atol (0 where they are lists), ode
    13  nind1, nind2, nind3, 0
    then, for lists, the converted entries in pairs of rtol and atol, two pairs to a line, zeros after the last.
What was absent is written as 0. A refused opening leaves the memory as it was. An accepted one leaves y, and mass if
it is Full; lists become what the pairs say; all else becomes +0."""

import copy
import math
import pathlib
import shutil
import subprocess
import sys

sys.path[:0] = [str(each) for each in pathlib.Path(__file__).resolve().parents[1].iterdir() if each.is_dir()]
import command
import rust_text
from draw import INFINITY, LARGEST, NAN, ONE, SIGN, SMALLEST, SMALLEST_NORMAL, UNIT, Draw, pattern_of
from replay_scalar import larger, number, smaller, two_thirds

ROOT = rust_text.ROOT
STDIN = ROOT / "crates" / "replay_opening" / "stdin"
STDOUT = ROOT / "crates" / "replay_opening" / "stdout"
TARGET = ROOT / "target" / "rust"

# The parts in the order in which `open` takes them, each with its length for n amounts.
PARTS = {
    "y": lambda n: n,
    "f0": lambda n: n,
    "scal": lambda n: n,
    "cont": lambda n: 4 * n,
    "z1": lambda n: n,
    "z2": lambda n: n,
    "z3": lambda n: n,
    "f1": lambda n: n,
    "f2": lambda n: n,
    "f3": lambda n: n,
    "rtol": lambda n: n,
    "atol": lambda n: n,
    "mass": lambda n: n * n,
    "jac": lambda n: n * n,
    "e1": lambda n: n * n,
    "e2r": lambda n: n * n,
    "e2i": lambda n: n * n,
    "ip1": lambda n: n,
    "ip2": lambda n: n,
    "y_perturbed": lambda n: n,
    "f_perturbed": lambda n: n,
    "f_origin": lambda n: n,
}
NAMES = list(PARTS)

# The rules of the contents, in the order of lines 8 to 10.
RULES = ("y", "mass", "rtol", "atol", "others", "pivots")

# The settings that may be absent, and the switches, in the order of their bits.
OPTIONS = ("max_step", "min_step", "newton_tol", "first_step", "nind1", "nind2", "nind3")
SWITCHES = ("predictive", "dense_output", "full", "host", "book", "lists")
CHOICES = OPTIONS + SWITCHES

# The floats of row 3 in its order, with the numbers that a case tells.
FLOATS = (
    "x0 xend y mass rtol atol uround safety_factor scale_min scale_max max_step min_step newton_tol first_step"
).split()
FLOATS = {name: place + 1 for place, name in enumerate(FLOATS)}

# The program reads no more cases than this, and has this much room for a part; the stored file is to
# stay below this many bytes.
MOST_CASES = 20_000
ROOM = {"cont": 133, "mass": 1090, "jac": 1090, "e1": 1090, "e2r": 1090, "e2i": 1090}
MOST_BYTES = 900_000


def insist(fact, words):
    """Stop where something that the script leans on does not hold."""
    if not fact:
        sys.exit(f"{pathlib.Path(sys.argv[0]).stem}: {words}")


# --- An opening ------------------------------------------------------------------------------


class Opening:
    """What is handed to `open`. Floats are Python's; a setting that is None is absent."""

    def __init__(self, n=2):
        self.n = n
        self.x0, self.xend = 0.0, 1.0
        self.rtol, self.atol = 1e-3, 1e-6
        self.max_steps, self.newton_maxiter = 100_000, 7
        self.uround, self.safety_factor = 2.3e-16, 0.9
        self.scale_min, self.scale_max = 0.2, 8.0
        self.max_step = self.min_step = self.newton_tol = self.first_step = None
        self.nind1 = self.nind2 = self.nind3 = None
        self.predictive = self.dense_output = True
        self.full = self.host = self.book = self.lists = False
        self.fit(n)
        # Odd numbers in what is not given, pivots too; a working part's patterns run on from its first entry.
        self.contents = {
            "y": (ONE, 0x0001_2345_6789_ABCD),
            "mass": (ONE, 0x0000_0FED_CBA9_8765),
            "rtol": (pattern_of(1e-3), -0x0011_1111_1111_1111),
            "atol": (pattern_of(1e-6), -0x0012_3456_7654_3210),
            "others": (pattern_of(-7.5), 0x0003_1415_9265_3589),
            "pivots": (5, 3),
        }
        self.exception = None  # a part's name, a place and a pattern

    def fit(self, n):
        self.lengths = {name: length(n) if n <= 33 else 2 for name, length in PARTS.items()}

    def copy(self, **changes):
        """The same opening with other fields. A dict for `lengths` or `contents` changes only the
        entries that it has."""
        made = copy.deepcopy(self)
        for name, value in changes.items():
            insist(name in vars(self), f"an opening has no {name}")
            if isinstance(value, dict):
                getattr(made, name).update(value)
            else:
                setattr(made, name, value)
        return made

    def patterns(self, part):
        """The patterns that a part holds before the call."""
        first, step = self.contents[part]
        found = [(first + place * step) % 2**64 for place in range(self.lengths[part])]
        if self.exception and self.exception[0] == part and self.exception[1] < len(found):
            found[self.exception[1]] = self.exception[2]
        return found

    def floats(self, part):
        return [number(pattern) for pattern in self.patterns(part)]

    def rtols(self):
        return self.floats("rtol") if self.lists else [self.rtol]

    def atols(self):
        return self.floats("atol") if self.lists else [self.atol]

    def masses(self):
        return self.floats("mass") if self.full else []

    def ceiling(self):
        return abs(self.xend - self.x0) if self.max_step is None else self.max_step

    def floor(self):
        return 0.0 if self.min_step is None else self.min_step


# --- Document 01's table ---------------------------------------------------------------------
# Each test answers None, or what failed: the number of a float, and a place.

NOTHING_TOLD = (0, 0)


def holds(fact):
    return NOTHING_TOLD if fact else None


def first(name, values, bad):
    """The first of the values that is bad."""
    for place, value in enumerate(values):
        if bad(value):
            return FLOATS[name], place
    return None


def row_2(o):
    return holds(any(o.lengths[name] != length(o.n) for name, length in PARTS.items()))


def row_3(o):
    """Ends, amounts, mass entries, tolerances, settings; what is absent is not given."""
    given = [("x0", [o.x0]), ("xend", [o.xend]), ("y", o.floats("y")), ("mass", o.masses())]
    given += [("rtol", o.rtols()), ("atol", o.atols())]
    for name in list(FLOATS)[6:]:
        value = getattr(o, name)
        given.append((name, [] if value is None else [value]))
    for name, values in given:
        told = first(name, values, lambda value: not math.isfinite(value))
        if told:
            return told
    return None


def row_9(o):
    return first("rtol", o.rtols(), lambda v: v <= 0) or first("atol", o.atols(), lambda v: v < 0)


def row_10(o):
    others = (o.nind2 or 0) + (o.nind3 or 0)
    return holds(others > o.n if o.nind1 is None else o.nind1 + others != o.n)


def row_12(o):
    if o.max_step is not None and o.max_step < 0:
        return FLOATS["max_step"], 0
    return (FLOATS["min_step"], 0) if o.floor() > o.ceiling() else None


ROWS = {
    1: lambda o: holds(not 1 <= o.n <= 32),
    2: row_2,
    3: row_3,
    4: lambda o: holds(not 1 <= o.max_steps <= 1_000_000),
    5: lambda o: holds(o.uround <= 1e-35 or o.uround >= 1),
    6: lambda o: holds(o.safety_factor <= 1e-4 or o.safety_factor >= 1),
    7: lambda o: holds(o.scale_min <= 0 or not o.scale_min < o.scale_max),
    8: lambda o: holds(not 1 <= o.newton_maxiter <= 16),
    9: row_9,
    10: row_10,
    11: lambda o: holds(o.first_step is not None and o.first_step == 0),
    12: row_12,
}


def rows_of(o):
    """All rows that hold, in order, each with what it tells."""
    return {row: told for row, test in ROWS.items() if (told := test(o))}


# --- What an accepted opening answers --------------------------------------------------------


def turned(rtol, atol):
    quotient = atol / rtol
    rtol = 0.1 * number(two_thirds(pattern_of(rtol)))
    return rtol, rtol * quotient


def converted(o):
    """The pairs of tolerances after their turns: one pair of scalars, or one for each entry."""
    if o.lists:
        return [turned(*pair) for pair in zip(o.rtols(), o.atols())]
    pair = o.rtol, o.atol
    for _ in range(1 if o.book else o.n):
        pair = turned(*pair)
    return [pair]


def newton_tolerance(o, first_rtol):
    if o.newton_tol is not None:
        return o.newton_tol
    low = smaller(pattern_of(0.03), pattern_of(math.sqrt(first_rtol)))
    return number(larger(pattern_of(10.0 * o.uround / first_rtol), low))


def first_h(o, posneg):
    h = (1.0e-6 if o.first_step is None else abs(o.first_step)) * posneg
    low, high = -o.ceiling(), o.ceiling()
    return low if h < low else high if h > high else h


def partition(o):
    others = [o.nind2 or 0, o.nind3 or 0]
    return [o.n - sum(others) if o.nind1 is None else o.nind1] + others


class Answer:
    """What an accepted opening answers, as words."""

    def __init__(self, o):
        posneg = math.copysign(1.0, o.xend - o.x0)
        pairs = converted(o)
        scalars = (0.0, 0.0) if o.lists else pairs[0]
        h, newton = first_h(o, posneg), newton_tolerance(o, pairs[0][0])
        self.floats = [pattern_of(x) for x in (h, o.ceiling(), o.floor(), posneg, newton, *scalars)]
        self.partition = partition(o)
        self.pairs = [pattern_of(x) for pair in pairs for x in pair] if o.lists else []

    def words(self):
        found = self.floats + [1] + self.partition + [0] + self.pairs
        return found + [0] * (-len(found) % 4)


# --- The text of a case ----------------------------------------------------------------------


def packed(numbers):
    """Four numbers of four digits to a word."""
    numbers = list(numbers)
    numbers += [0] * (-len(numbers) % 4)
    insist(all(0 <= k <= 0xFFFF for k in numbers), f"{numbers} do not fit")
    text = "".join(f"{k:04x}" for k in numbers)
    return [int(text[place : place + 16], 16) for place in range(0, len(text), 16)]


def float_word(value):
    return 0 if value is None else pattern_of(value)


def head_words(o, further=()):
    """The words of n, the ends and the settings. Further switches have the bits behind those of CHOICES."""
    choices = [getattr(o, name) is not None for name in OPTIONS] + [getattr(o, name) for name in (*SWITCHES, *further)]
    words = [o.n, pattern_of(o.x0), pattern_of(o.xend), sum(1 << bit for bit, on in enumerate(choices) if on)]
    words += [o.max_steps, o.newton_maxiter, pattern_of(o.uround), pattern_of(o.safety_factor)]
    words += [pattern_of(o.scale_min), pattern_of(o.scale_max), float_word(o.max_step), float_word(o.min_step)]
    words += [float_word(o.newton_tol), float_word(o.first_step), pattern_of(o.rtol), pattern_of(o.atol)]
    return words + [o.nind1 or 0, o.nind2 or 0, o.nind3 or 0]


def words_of(o):
    rows = rows_of(o)
    row = min(rows, default=0)
    part, place, pattern = o.exception or (None, 0xFFFF, 0)
    words = head_words(o) + packed((row, *rows.get(row, NOTHING_TOLD)))
    insist(all(o.lengths[name] <= ROOM.get(name, 34) for name in NAMES),
           "a part is longer than the program has room for")
    words += packed(o.lengths[name] for name in NAMES)
    words += packed((NAMES.index(part) if part else 0xFFFF, place)) + [pattern]
    words += [word % 2**64 for rule in RULES for word in o.contents[rule]]
    return words + (Answer(o).words() if row == 0 else [])


def text_of(words):
    """Four words to a line."""
    insist(all(0 <= word < 2**64 for word in words), "a word does not fit")
    lines = [words[place : place + 4] for place in range(0, len(words), 4)]
    return "".join(" ".join(f"{word:016x}" for word in line) + "\n" for line in lines)


# --- The cases -------------------------------------------------------------------------------

TINY = number(SMALLEST)
HUGE = number(LARGEST)
INF = number(INFINITY)
WRONG = (math.nan, INF, -INF)
MOST_WHOLE = 2**64 - 1

# A way or two to break each row and no other, from an opening that is accepted. The fields are apart for each two rows,
# so that breakers can be put together.
BREAKERS = {
    1: [{"n": 0}, {"n": 33}],
    2: [{"lengths": {"f0": 1}}, {"lengths": {"e2i": 5}}],
    3: [{"xend": math.nan}, {"newton_tol": INF}],
    4: [{"max_steps": 0}, {"max_steps": 1_000_001}],
    5: [{"uround": 0.0}, {"uround": 1.0}],
    6: [{"safety_factor": 1e-4}, {"safety_factor": 1.0}],
    7: [{"scale_min": -0.0}, {"scale_max": 0.2}],
    8: [{"newton_maxiter": 0}, {"newton_maxiter": 17}],
    9: [{"rtol": 0.0}, {"atol": -TINY}],
    10: [{"nind1": 40}, {"nind2": 20, "nind3": 14}],
    11: [{"first_step": 0.0}, {"first_step": -0.0}],
    12: [{"max_step": -1.0}, {"max_step": 0.5, "min_step": 0.75}],
}


def broken(base, *breakers):
    """The opening with all these breakers. Where n is broken, the parts have the lengths that fit the new n."""
    made = base
    for breaker in breakers:
        made = made.copy(**breaker)
        if "n" in breaker:
            made.fit(made.n)
    return made


def cases_of_rows():
    """Each row alone, each two rows, and all rows from each on."""
    base = Opening()
    found = []
    for row, ways in BREAKERS.items():
        for way in ways:
            made = broken(base, way)
            insist(set(rows_of(made)) == {row}, f"row {row} is not broken alone by {way}: {rows_of(made)}")
            found.append(made)
    for early in BREAKERS:
        for late in range(early + 1, 13):
            for first_way, second_way in zip(BREAKERS[early], BREAKERS[late]):
                made = broken(base, first_way, second_way)
                insist(set(rows_of(made)) == {early, late}, f"not rows {early} and {late}: {rows_of(made)}")
                found.append(made)
    for way in (0, 1):
        for row in BREAKERS:
            made = broken(base, *(BREAKERS[late][way] for late in range(row, 13)))
            insist(set(rows_of(made)) == set(range(row, 13)), f"not all rows from {row} on")
            found.append(made)
    return found


def cases_of_n():
    """The order's ends, and orders far out, whose squares don't fit a word."""
    found = []
    for n in (0, 1, 2, 31, 32, 33):
        found += [Opening(n), Opening(n).copy(full=True, lists=True)]
    for n in (34, 2**32, 2**63, MOST_WHOLE):
        found.append(Opening(n))
    # n out of range over parts of another order, and in range over parts of a wrong one.
    for n, fitting in ((0, 1), (33, 32), (1, 2), (2, 1), (32, 31), (31, 32), (1, 0), (32, 33)):
        made = Opening(fitting)
        made.n = n
        found.append(made)
    return found


def cases_of_lengths():
    """Each part one too short and one too long, for small and large n and in either mode; and all parts but one."""
    found = []
    for name, length in PARTS.items():
        for n in (1, 2):
            for change in (-1, 1):
                made = Opening(n).copy(lengths={name: length(n) + change})
                found.append(made.copy(full=True, lists=True, host=True) if n == 2 else made)
        found.append(Opening(32).copy(lengths={name: length(32) + 1}))
        # The length that another kind of part has.
        found.append(Opening(2).copy(lengths={name: 4 if length(2) == 2 else 2 if length(2) == 4 else 8}))
    return found


def cases_of_floats():
    """Each float that can be given, not finite; the first one is told where several are."""
    found = []
    singles = [name for name in FLOATS if name not in ("y", "mass")]
    for name in singles:
        found += [Opening().copy(**{name: value}) for value in WRONG]
    for value in (NAN, INFINITY, SIGN | INFINITY):
        for n, places in ((1, (0,)), (2, (0, 1)), (32, (0, 17, 31))):
            for place in places:
                found.append(Opening(n).copy(exception=("y", place, value)))
                for part in ("rtol", "atol"):
                    found.append(Opening(n).copy(exception=(part, place, value), lists=True))
        for n, places in ((1, (0,)), (2, (0, 1, 2, 3)), (32, (0, 31, 32, 1023))):
            for place in places:
                found.append(Opening(n).copy(exception=("mass", place, value), full=True))
    # Each two in the order of the table, the later one first in the text of the opening.
    names = list(FLOATS)
    for early, late in zip(names, names[1:]):
        found.append(with_nan(with_nan(Opening().copy(lists=True, full=True), late), early))
    every = Opening().copy(lists=True, full=True)
    for name in reversed(names):
        every = with_nan(every, name)
        found.append(every)
    # Finite, and so large that what follows from it is not.
    found.append(Opening().copy(x0=HUGE, xend=-HUGE))
    found.append(Opening().copy(x0=-HUGE, xend=HUGE))
    found.append(Opening(1).copy(rtol=TINY, atol=HUGE))
    found.append(Opening(2).copy(rtol=HUGE, atol=HUGE))
    found.append(Opening(2).copy(uround=number(ONE - 1), rtol=TINY))
    return found


def with_nan(o, name):
    """The opening with a NaN for a float, at the first place of a list."""
    if name in ("y", "mass") or (o.lists and name in ("rtol", "atol")):
        return o.copy(contents={name: (NAN, 0)})
    return o.copy(**{name: math.nan})


def cases_of_ranges():
    """Rows 4 to 8 about their ends."""
    found = []
    for steps in (0, 1, 2, 999_999, 1_000_000, 1_000_001, 2**32, 2**63, MOST_WHOLE):
        found.append(Opening(1).copy(max_steps=steps))
    for rounds in (0, 1, 2, 15, 16, 17, 2**32, MOST_WHOLE):
        found.append(Opening(1).copy(newton_maxiter=rounds))
    specials = [ONE - 1, ONE, ONE + 1, 0, SIGN, SMALLEST, SIGN | SMALLEST, LARGEST, SIGN | LARGEST, SIGN | ONE]
    for name, low in (("uround", 1e-35), ("safety_factor", 1e-4)):
        end = pattern_of(low)
        for pattern in [end - 1, end, end + 1] + specials:
            found.append(Opening(1).copy(**{name: number(pattern)}))
    scales = (-0.0, 0.0, TINY, -TINY, 0.2, number(pattern_of(0.2) + 1), HUGE)
    for low in scales:
        for high in scales:
            found.append(Opening(1).copy(scale_min=low, scale_max=high))
    return found


def cases_of_tolerances():
    """Row 9 about its ends, for scalars and lists."""
    found = []
    rtols = (0.0, -0.0, TINY, -TINY, -1.0, 1.0, number(SMALLEST_NORMAL), HUGE, -HUGE)
    atols = (0.0, -0.0, TINY, -TINY, -1.0, 1.0, HUGE, -HUGE)
    for rtol in rtols:
        found.append(Opening(1).copy(rtol=rtol))
        found.append(Opening(2).copy(rtol=rtol, book=True))
    for atol in atols:
        found.append(Opening(1).copy(atol=atol))
        found.append(Opening(2).copy(atol=atol, rtol=1e-3))
    for n, places in ((1, (0,)), (2, (0, 1)), (5, (0, 4)), (32, (31,))):
        for place in places:
            for value in rtols[:6]:
                found.append(Opening(n).copy(exception=("rtol", place, pattern_of(value)), lists=True))
            for value in atols[:6]:
                found.append(Opening(n).copy(exception=("atol", place, pattern_of(value)), lists=True))
    # Both lists fail: rtol is told; more than one entry fails: the first is told.
    bad = {"rtol": (pattern_of(0.0), 0), "atol": (pattern_of(-1.0), 0)}
    found.append(Opening(2).copy(contents=bad, lists=True))
    found.append(Opening(2).copy(contents={"atol": bad["atol"]}, exception=("rtol", 1, SIGN), lists=True))
    found.append(Opening(2).copy(contents=bad, exception=("rtol", 0, ONE), lists=True))
    found.append(Opening(2).copy(rtol=-1.0, atol=-1.0))
    return found


def cases_of_partitions():
    """Row 10: given and absent counts about n, and sums about 2^64."""
    found = []
    for nind1 in (None, 0, 1, 2):
        for nind2 in (None, 0, 1, 3):
            for nind3 in (None, 0, 1, 2):
                found.append(Opening(2).copy(nind1=nind1, nind2=nind2, nind3=nind3))
    half = 2**63
    wide = [(2, half, half), (half, half, 2), (half, 2, half), (None, half, half), (None, half, half + 2)]
    wide += [(MOST_WHOLE, 3, 0), (MOST_WHOLE, MOST_WHOLE, 4), (3, MOST_WHOLE, 0), (1, 1, MOST_WHOLE)]
    wide += [(None, MOST_WHOLE, 3), (None, 3, MOST_WHOLE), (None, MOST_WHOLE, None), (None, None, MOST_WHOLE)]
    wide += [(MOST_WHOLE, None, None), (half, None, None), (2, MOST_WHOLE, 1), (2, 1, MOST_WHOLE), (0, MOST_WHOLE, 3)]
    wide += [(None, MOST_WHOLE, MOST_WHOLE), (MOST_WHOLE, MOST_WHOLE, MOST_WHOLE), (2**32, 2**32, 2**32)]
    found += [Opening(2).copy(nind1=one, nind2=two, nind3=three) for one, two, three in wide]
    for counts in ((32, None, None), (30, 1, 1), (None, 32, None), (None, 0, 32), (None, 16, 17), (10, 11, 12),
                   (0, 0, 32)):
        found.append(Opening(32).copy(**dict(zip(("nind1", "nind2", "nind3"), counts))))
    return found


def cases_of_steps():
    """Rows 11 and 12, and the first step."""
    found = []
    ends = ((0.0, 1.0), (1.0, 0.0), (0.0, 0.0), (-0.0, 0.0), (0.0, -0.0), (3.0, 3.0), (-1.0, 2.5), (HUGE, -HUGE))
    ends += ((1.0, number(ONE + 1)), (0.0, -TINY), (5.0, 5.0 - 1e-7))
    for x0, xend in ends:
        base = Opening(1).copy(x0=x0, xend=xend)
        found.append(base)
        for step in (0.25, -0.25, TINY, HUGE):
            found.append(base.copy(first_step=step))
        for step in (0.0, -0.0, 1e-7):
            found.append(base.copy(max_step=step))
        distance = base.ceiling()
        for step in (distance, number(min(pattern_of(distance) + 1, LARGEST)), -0.0, -1.0, TINY):
            if math.isfinite(step):
                found.append(base.copy(min_step=step))
    for step in (0.0, -0.0, TINY, -TINY, 1e-6, -1e-6, 1.0, number(ONE + 1), -2.0, HUGE, -HUGE):
        found.append(Opening(1).copy(first_step=step))
        found.append(Opening(1).copy(first_step=step, x0=2.0, xend=-2.0, max_step=0.5))
        found.append(Opening(1).copy(max_step=step))
        found.append(Opening(1).copy(min_step=step))
    for most, least in ((0.5, 0.5), (0.5, number(pattern_of(0.5) + 1)), (0.0, 0.0), (-0.0, 0.0), (0.0, -0.0),
                        (0.0, TINY)):
        found.append(Opening(1).copy(max_step=most, min_step=least))
    for most, least in ((-1.0, 5.0), (-1.0, -2.0), (-TINY, None), (5.0, 2.0), (1.0, -1.0), (HUGE, HUGE)):
        found.append(Opening(1).copy(max_step=most, min_step=least))
    return found


def cases_of_memory():
    """What is not given may hold anything, and becomes +0; what is given stays."""
    found = []
    fillings = ((NAN, 0), (INFINITY, 0), (SIGN | INFINITY, 0), (SIGN, 0), (0, 0), (INFINITY - 3, 1), (2**64 - 5, 3))
    for filling in fillings:
        for n in (1, 2, 5):
            contents = {"others": filling, "pivots": (MOST_WHOLE, 1)}
            found.append(Opening(n).copy(contents=contents, host=n == 2))
            # The mass under Identity and the lists under scalars are not given.
            contents |= {"mass": filling, "rtol": filling, "atol": filling}
            found.append(Opening(n).copy(contents=contents))
    for n in (1, 2, 5, 32):
        for full in (False, True):
            for lists in (False, True):
                found.append(Opening(n).copy(full=full, lists=lists, book=n == 5, host=full))
    # A Full mass of zeros, of zeros with a sign, and of subnormals; amounts at the ends.
    for first_entry in (0, SIGN, SMALLEST, LARGEST - 3):
        found.append(Opening(2).copy(full=True, contents={"mass": (first_entry, 1 if first_entry else 0)}))
        found.append(Opening(2).copy(contents={"y": (first_entry, 0)}))
    return found


def cases_of_conversions():
    """Scalars under both rules, lists, and the Newton tolerance."""
    found = []
    draw = Draw(7)
    for n in (1, 2, 5, 32):
        for book in (False, True):
            for rtol, atol in ((1e-3, 1e-6), (1e-6, 0.0), (1e-12, 1e-300), (1.0, 1.0), (TINY, TINY), (HUGE, 1e-3),
                               (1e-3, HUGE)):
                found.append(Opening(n).copy(rtol=rtol, atol=atol, book=book))
    for place in range(24):
        made = Opening((1, 2, 5)[place % 3]).copy(rtol=number(draw.within(40)), atol=number(draw.within(60)))
        found.append(made.copy(book=place % 2 == 1, predictive=place % 5 == 0, dense_output=place % 7 != 0))
    for place in range(16):
        contents = {"rtol": (draw.within(30), draw.bits() % UNIT), "atol": (draw.within(60), draw.bits() % UNIT)}
        found.append(Opening((1, 2, 5, 3)[place % 4]).copy(contents=contents, lists=True, book=place % 2 == 1))
    for newton_tol in (0.0, -0.0, -1.0, TINY, HUGE, 0.03):
        found.append(Opening(1).copy(newton_tol=newton_tol))
    for uround in (number(pattern_of(1e-35) + 1), 2.3e-16, 0.003, number(ONE - 1)):
        for rtol in (TINY, 1e-9, 2.7e-5, 1e6):
            found.append(Opening(1).copy(uround=uround, rtol=rtol))
    return found


def every_case():
    makers = (cases_of_rows, cases_of_n, cases_of_lengths, cases_of_floats, cases_of_ranges, cases_of_tolerances)
    makers += (cases_of_partitions, cases_of_steps, cases_of_memory, cases_of_conversions)
    found = {}
    for make in makers:
        for o in make():
            found.setdefault(text_of(words_of(o)), o)
    return found


def summary(cases):
    """What the program writes where every answer is met."""
    counts = {row: 0 for row in [0, *ROWS]}
    for o in cases.values():
        counts[min(rows_of(o), default=0)] += 1
    told = [f"{f'refused {row}' if row else 'accepted'}: {count} agree 0 differ\n" for row, count in counts.items()]
    return "".join(told) + "malformed 0\n"


# --- The Rust's own lines --------------------------------------------------------------------

# Which lines of radau.rs are taken: from the copy of x0 and y0 to the first step's clamp.
RUST_LINES = (131, 264)

# Ours around theirs. The exponent of `powf` is always two thirds there, and is directed to 01's power: the
# third root by halving, squared. A case is read as words and answered as words; the row of a refusal is
# told from the Rust's error.
RUST_PROGRAM = """// Made by tests/replays/replay_opening.py. Not to be stored.
#![allow(dead_code, unused_variables, unused_mut, unused_assignments)]
use std::io::Read;
use std::ops::{{Index, IndexMut}};
type Float = f64;
#[path = "{source}/error.rs"]
mod error;
use error::{{ConfigError, Error}};
trait Power {{
    fn two_thirds(self, exponent: Float) -> Float;
}}
impl Power for Float {{
    fn two_thirds(self, exponent: Float) -> Float {{
        assert!(exponent == 2.0 / 3.0 && self > 0.0 && self.is_finite());
        let (mut low, mut high) = (0u64, f64::INFINITY.to_bits());
        while high - low > 1 {{
            let middle = low + (high - low) / 2;
            let root = f64::from_bits(middle);
            if root * root * root <= self {{ low = middle }} else {{ high = middle }}
        }}
        let root = f64::from_bits(low);
        root * root
    }}
}}
{tolerance}
struct Settings {{
    max_steps: usize,
    uround: Float,
    safety_factor: Float,
    scale_min: Float,
    scale_max: Float,
    max_step: Option<Float>,
    min_step: Option<Float>,
    newton_maxiter: usize,
    newton_tol: Option<Float>,
    predictive: bool,
    nind1: Option<usize>,
    nind2: Option<usize>,
    nind3: Option<usize>,
    first_step: Option<Float>,
}}
struct Opened {{
    floats: [Float; 5],
    partition: [usize; 3],
    rtol: Tolerance,
    atol: Tolerance,
}}
impl Settings {{
    fn open(&self, x0: Float, y0: &[Float], xend: Float, rtol: Tolerance, atol: Tolerance) -> Result<Opened, Error> {{
{lines}
        Ok(Opened {{
            floats: [h, hmax, hmin, posneg, newton_tol],
            partition: [nind1, nind2, nind3],
            rtol,
            atol,
        }})
    }}
}}
fn row(error: Error) -> u64 {{
    match error {{
        Error::Config(ConfigError::MustBePositive {{ parameter: "max_steps", .. }}) => 4,
        Error::Config(ConfigError::OutOfRange {{ parameter: "uround", .. }}) => 5,
        Error::Config(ConfigError::OutOfRange {{ parameter: "safety_factor", .. }}) => 6,
        Error::Config(ConfigError::InvalidScaleFactors {{ .. }}) => 7,
        Error::Config(ConfigError::MustBePositive {{ parameter: "newton_maxiter", .. }}) => 8,
        Error::Config(ConfigError::InvalidDAEPartition {{ .. }}) => 10,
        Error::Config(ConfigError::InvalidStepSize {{ .. }}) => 11,
        _ => 99,
    }}
}}
fn main() {{
    let mut text = String::new();
    std::io::stdin().read_to_string(&mut text).unwrap();
    for line in text.lines() {{
        let words: Vec<u64> = line.split(' ').map(|word| u64::from_str_radix(word, 16).unwrap()).collect();
        println!("{{}}", answer(&words));
    }}
}}
fn answer(words: &[u64]) -> String {{
    let float = |place: usize| f64::from_bits(words[place]);
    let option = |bit: u32, place: usize| (words[3] >> bit & 1 == 1).then(|| words[place]);
    let number = |bit: u32, place: usize| option(bit, place).map(f64::from_bits);
    let whole = |bit: u32, place: usize| option(bit, place).map(|word| word as usize);
    let settings = Settings {{
        max_steps: words[4] as usize,
        uround: float(6),
        safety_factor: float(7),
        scale_min: float(8),
        scale_max: float(9),
        max_step: number(0, 10),
        min_step: number(1, 11),
        newton_maxiter: words[5] as usize,
        newton_tol: number(2, 12),
        predictive: true,
        nind1: whole(4, 16),
        nind2: whole(5, 17),
        nind3: whole(6, 18),
        first_step: number(3, 13),
    }};
    let n = words[0] as usize;
    let lists = words[19..].iter().map(|word| f64::from_bits(*word)).collect::<Vec<Float>>();
    let (rtol, atol) = if lists.is_empty() {{
        (Tolerance::Scalar(float(14)), Tolerance::Scalar(float(15)))
    }} else {{
        (Tolerance::Vector(lists[..n].to_vec()), Tolerance::Vector(lists[n..].to_vec()))
    }};
    let count = if lists.is_empty() {{ 1 }} else {{ n }};
    let found = match settings.open(float(1), &vec![0.0; n], float(2), rtol, atol) {{
        Err(error) => vec![row(error)],
        Ok(opened) => {{
            let mut found = vec![0];
            found.extend(opened.floats.iter().map(|x| x.to_bits()));
            found.extend(opened.partition.iter().map(|k| *k as u64));
            for i in 0..count {{
                found.extend([opened.rtol[i].to_bits(), opened.atol[i].to_bits()]);
            }}
            found
        }}
    }};
    found.iter().map(|word| format!("{{word:016x}}")).collect::<Vec<String>>().join(" ")
}}
"""

# The rows that the Rust has too, in its order; the upper ends of 4 and 8 are ours.
RUST_ROWS = (4, 5, 6, 7, 8, 10, 11)


def tolerance_text(folder):
    """The Rust's type of tolerances with its two ways to be indexed."""
    text = (folder / "src" / "methods" / "mod.rs").read_text()
    starts = ("pub enum Tolerance {", "impl Index<usize> for Tolerance {", "impl IndexMut<usize> for Tolerance {")
    for start in starts:
        insist(f"\n{start}" in text, f"mod.rs has no `{start}`")
    return "".join(start + text.split(start)[1].split("\n}\n")[0] + "\n}\n" for start in starts)


def build_rust(folder, compiler):
    lines = (folder / "src" / "methods" / "radau.rs").read_text().splitlines()[RUST_LINES[0] - 1 : RUST_LINES[1]]
    taken = "\n".join(lines).replace(".powf(expm)", ".two_thirds(expm)")
    insist("powf" not in taken and ".two_thirds(" in taken, "radau.rs has another power than expected")
    TARGET.mkdir(parents=True, exist_ok=True)
    file, program = TARGET / "opening_lines.rs", TARGET / "opening_lines"
    source = (folder / "src").resolve()
    file.write_text(RUST_PROGRAM.format(source=source, tolerance=tolerance_text(folder), lines=taken))
    done = subprocess.run([compiler, "--edition", "2021", "-O", str(file), "-o", str(program)], capture_output=True,
                          text=True)
    insist(done.returncode == 0, f"rustc does not take the Rust's lines:\n{done.stderr}")
    return program


def rust_row(o):
    """The row by which the Rust refuses, or 0; None where it can't judge the opening as 01 does: an n, lengths, ends or
    tolerances that 01 refuses, a scalar that the book rule converts once and the Rust more often, sums of counts that
    wrap, and a clamp between ends that are crossed or NaN."""
    rows = rows_of(o)
    sums = sum(count or 0 for count in (o.nind1, o.nind2, o.nind3))
    finite = all(math.isfinite(x) for x in [o.x0, o.xend, *o.rtols(), *o.atols()])
    converted_once = o.book and not o.lists and o.n > 1
    if {1, 2, 9} & set(rows) or converted_once or sums >= 2**64 or not finite or not o.ceiling() >= 0:
        return None
    above = {4: o.max_steps > 0, 8: o.newton_maxiter > 0}
    return min((row for row in RUST_ROWS if row in rows and not above.get(row)), default=0)


def rust_words(o):
    lists = [pattern_of(x) for x in o.rtols() + o.atols()] if o.lists else []
    return words_of(o)[:19] + lists


def wanted_of_rust(o, row):
    if row:
        return [row]
    answer = Answer(o)
    return [0] + answer.floats[:5] + answer.partition + (answer.pairs or answer.floats[5:])


def compare_rust(cases, folder):
    """Holds the answers against the Rust's own lines, where that can be done."""
    compiler = shutil.which("rustc")
    if not (folder and compiler):
        return
    judged = [(o, row) for o in cases.values() if (row := rust_row(o)) is not None]
    text = "".join(" ".join(f"{word:016x}" for word in rust_words(o)) + "\n" for o, _ in judged)
    done = subprocess.run([str(build_rust(folder, compiler))], input=text, capture_output=True, text=True)
    insist(done.returncode == 0, f"the program around the Rust's lines broke off:\n{done.stderr}")
    answers = done.stdout.splitlines()
    insist(len(answers) == len(judged), "the program around the Rust's lines answered another number of cases")
    for (o, row), line in zip(judged, answers):
        wanted = " ".join(f"{word:016x}" for word in wanted_of_rust(o, row))
        insist(line == wanted, f"the Rust answers otherwise\n  opening {vars(o)}\n  rust {line}\n  here {wanted}")
    accepted = sum(not rows_of(o) for o in cases.values())
    both = sum(not rows_of(o) for o, _ in judged)
    print(f"{len(judged)} cases are as the Rust's own lines have them, among them {both} of the {accepted} accepted "
          f"ones")


# --- Writing and checking --------------------------------------------------------------------


def write(cases):
    text = "".join(cases)
    insist(len(text) < MOST_BYTES, f"{len(text)} bytes are more than are to be stored")
    STDIN.write_text(text)
    STDOUT.write_text(summary(cases))
    print(f"{len(cases)} cases written to {STDIN}")


def compare(file, made):
    """Stop at the first line of a stored file that is not as made."""
    insist(file.is_file(), f"there is no {file}")
    stored, made = file.read_text().split("\n"), made.split("\n")
    for place in range(max(len(stored), len(made))):
        old = stored[place] if place < len(stored) else "(no line)"
        new = made[place] if place < len(made) else "(no line)"
        insist(old == new, f"{file.name} line {place + 1}\n  stored {old}\n  made   {new}")


def check(cases):
    compare(STDIN, "".join(cases))
    compare(STDOUT, summary(cases))
    print(f"{len(cases)} cases are as stored")


def main(words):
    name, folder = command.act(__doc__, words, ("write", "check"))
    cases = every_case()
    insist(len(cases) <= MOST_CASES, f"{len(cases)} cases are more than the program reads")
    folder = rust_text.find(folder)
    compare_rust(cases, folder)
    (write if name == "write" else check)(cases)
    rust_text.compared(folder)


if __name__ == "__main__":
    main(sys.argv[1:])
