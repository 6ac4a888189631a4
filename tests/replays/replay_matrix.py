#!/usr/bin/env python3
"""Stored answers of the Rust's own matrix and dense-output routines, for crates/replay_matrix to replay.

    tests/replays/replay_matrix.py write [FOLDER]   write crates/replay_matrix/stdin and stdout
    tests/replays/replay_matrix.py check [FOLDER]   make both anew and compare them with what is stored

FOLDER holds the Rust's text; tests/support/rust_text.py says where it is looked for otherwise. The answers are those of
the Rust's own files, compiled around a program of ours (tests/support/rust_crate.py, tests/replays/replay_matrix.rs),
unchanged but that lu.rs tells the column at which it stops (tests/support/rust_stops.py). Without the text, or without
rustc, `write` refuses, and `check` passes over the Rust's answers and compares all the rest.

Exit status: 0 nothing differs; 1 a line differs, and the first is shown; 2 wrong use; 4 nothing was compared with the
Rust.

The cases of refusals are no answers of the Rust's: what the numbers 1, 16, 18 and 19 stand for is taken from
document 01, and a refusal writes nothing. They come last, and have a row of their own in the summary. In a
few of them, decompositions with number 16, the Rust was asked after all: it gives an error of its own there
and leaves all as it was.

A case is a head and lines of values. A head has 44 bytes: a letter, a space, two digits for the answer that is wanted
(document 01's number, 00 where the routine does its work), a space, g or h, a space, n in 16 digits, and five fields of
a space and three digits, how many entries the five parts of the memory have that the routine is lent; then LF. A value
is a line of 16 digits. All digits are hexadecimal; a double is its bit pattern, and a NaN always 7ff8000000000000.

The parts are the matrix, its imaginary parts, the right side, its imaginary parts, the pivots. After the head come the
values before the call: matrix, imaginary parts and pivots with g (given), and not with h (held: they are what the case
before left); then the two parts of the right side. If the answer is 00 or 11 (17, singular) there follow the values
after the call: for a decomposition, with 17 first the column at which elimination stopped, from 0, then matrix,
imaginary parts and pivots; else the two parts of the right side.

    d lu_decomp           D lu_decomp_complex        the pivots start as 90, 91, .., so that one not written shows
    s lin_solve           S lin_solve_complex
    i interpolate         the matrix is cont, its imaginary parts are xi, xold, h, the right side is yi; n is 0
    b bounds              the imaginary parts are xold, h, the right side is left, right; n is 0
"""

import subprocess
import sys

import pathlib
sys.path[:0] = [str(each) for each in pathlib.Path(__file__).resolve().parents[1].iterdir() if each.is_dir()]
import command
import rust_crate
import rust_text
from draw import INFINITY, NAN, ONE, SIGN, SPECIALS, ZERO, Draw, pattern_of

ROOT = rust_text.ROOT
ANSWERS = ROOT / "crates" / "replay_matrix" / "stdin"
SUMMARY = ROOT / "crates" / "replay_matrix" / "stdout"
PROGRAM = ROOT / "tests" / "replays" / "replay_matrix.rs"

# Each letter with the routine's name, in the order of the program's summary.
ROUTINES = {
    "d": "lu_decomp",
    "D": "lu_decomp_complex",
    "s": "lin_solve",
    "S": "lin_solve_complex",
    "i": "interpolate",
    "b": "bounds",
}

# The program's bounds: the entries of each part of its memory, the cases that it reads, and the
# bytes that are to be stored.
ROOM = 1089
MOST_CASES = 20_000
MOST_BYTES = 4_400_000

# Document 01's numbers.
WORKS, ORDER, LENGTH, SINGULAR, PIVOT, TARGET = 0, 1, 16, 17, 18, 19

SMALL_ORDERS = range(1, 9)
LARGEST_ORDER = 32


def insist(fact, words):
    """Stop where something that this script leans on does not hold."""
    if not fact:
        sys.exit(f"replay_matrix: {words}")


# --- Cases -----------------------------------------------------------------------------------


class Case:
    """A call: its routine, the order, and what the memory holds before it. `refusal` is the number that document 01
    gives, or None where the Rust is asked. A held case has the lengths of `held`, the case before it."""

    def __init__(self, letter, n, ar=(), ai=(), ip=(), br=(), bi=(), held=None, refusal=None, stage=None):
        self.letter, self.n, self.held, self.refusal, self.stage = letter, n, held, refusal, stage
        self.factors = [list(ar), list(ai), list(ip)]
        self.side = [list(br), list(bi)]
        lengths = held.lengths if held else [len(part) for part in self.factors]
        self.lengths = lengths
        insist(all(count <= ROOM for count in lengths), "a case needs more room than the program has")

    def head(self, wanted):
        matrix, imaginary, pivots = self.lengths
        counts = (matrix, imaginary, len(self.side[0]), len(self.side[1]), pivots)
        fields = " ".join(f"{count:03x}" for count in counts)
        return f"{self.letter} {wanted:02x} {'h' if self.held else 'g'} {self.n:016x} {fields}"

    def before(self):
        """The lines of values before the call."""
        parts = self.side if self.held else self.factors + self.side
        return [f"{value:016x}" for part in parts for value in part]

    def count_after(self, wanted):
        """How many lines of values come after the call."""
        if wanted not in (WORKS, SINGULAR):
            return 0
        if self.letter not in "dD":
            return len(self.side[0]) + len(self.side[1])
        return sum(self.lengths) + (wanted == SINGULAR)


class Refused(Case):
    """A held case's lengths may be set freely: the memory is there, whatever it holds."""

    def __init__(self, letter, n, refusal, lengths=None, **parts):
        super().__init__(letter, n, refusal=refusal, **parts)
        if lengths:
            self.lengths, self.held = lengths, True


def start_pivots(n):
    return [90 + k for k in range(n)]


def decomposition(n, ar, ai=None, stage=None):
    if ai is None:
        return Case("d", n, ar=ar, ip=start_pivots(n), stage=stage)
    return Case("D", n, ar=ar, ai=ai, ip=start_pivots(n), stage=stage)


def solve_after(case, br, bi=()):
    """A solve with what the decomposition before it left."""
    return Case("s" if case.letter == "d" else "S", case.n, br=br, bi=bi, held=case)


def side_of(case, draw, entry):
    """A right side for a solve after `case`."""
    br = [entry(draw) for _ in range(case.n)]
    bi = [entry(draw) for _ in range(case.n)] if case.letter == "D" else []
    return solve_after(case, br, bi)


# --- Entries ---------------------------------------------------------------------------------


def well_scaled(draw):
    return pattern_of(draw.unit())


def small(draw):
    """Small whole numbers, with zeros of both signs."""
    return pattern_of(draw.choice((0.0, -0.0, 0.0, -0.0, 1.0, -1.0, 2.0, -2.0, 3.0)))


def wild(draw):
    """A special value, or else any finite double."""
    return draw.choice(SPECIALS + [draw.finite(), draw.finite(), well_scaled(draw), well_scaled(draw)])


def any_finite(draw):
    return draw.finite()


def subnormal(draw):
    return draw.subnormal()


def rows_scaled(n, draw):
    """Rows by 1e200, 1e-200, 1 and the like, and one row of subnormals."""
    found = []
    scales = draw.shuffled([1e200, 1e-200, 1.0, 1e-300, 1e150, 1e-5] * n)[:n]
    tiny = draw.between(0, n - 1)
    for row in range(n):
        for _ in range(n):
            found.append(draw.subnormal() if row == tiny and n > 2 else pattern_of(draw.unit() * scales[row]))
    return found


def filled(entry, count, draw):
    return [entry(draw) for _ in range(count)]


def complex_mixed(entry, n, draw):
    """Parts of a complex matrix whose entries are real only, imaginary only, both or neither,
    with zeros of both signs."""
    ar, ai = [], []
    for _ in range(n * n):
        sort = draw.between(0, 5)
        ar.append(draw.sign() if sort in (0, 1) else entry(draw))
        ai.append(draw.sign() if sort in (0, 2) else entry(draw))
    return ar, ai


# --- Singular at a chosen stage ----------------------------------------------------------------


def singular(n, stage, draw, is_complex):
    """A matrix whose elimination is exact and meets a column of zeros at `stage`: rows, in any order, of L U, where L
    has ones on the diagonal and quarters below it, and U small whole numbers, a zero at the stage and, else, a
    diagonal by which division is exact. The multipliers are at most a half in size, so each pivot is the largest of
    its column, and the only such."""
    quarters = (0.0, 0.25, -0.25, 0.5, -0.5)
    if is_complex:
        below = [complex(x, y) for x in quarters for y in quarters if abs(x) + abs(y) <= 0.25]
        diagonal = [1, -1, 2, -2, 4, 1j, -2j, 1 + 1j, 2 - 2j]
        above = [0, 1, -2, 3j, -1j, 1 + 2j, -3 + 1j]
    else:
        below, diagonal, above = quarters, (1, -1, 2, -2, 4, -4), (0, 1, -1, 2, -2, 3, -3)
    lower = [[draw.choice(below) if k < i else float(k == i) for k in range(n)] for i in range(n)]
    upper = [[draw.choice(above) if i < k else 0.0 for k in range(n)] for i in range(n)]
    for k in range(n):
        upper[k][k] = 0.0 if k == stage else draw.choice(diagonal)
    entries = []
    for i in draw.shuffled(range(n)):
        entries += [sum((lower[i][t] * upper[t][k] for t in range(n)), 0.0) for k in range(n)]
    if not is_complex:
        return [pattern_of(x) for x in entries], None
    return [pattern_of(complex(x).real) for x in entries], [pattern_of(complex(x).imag) for x in entries]


# --- The cases that the Rust answers -------------------------------------------------------------


def with_side(case, draw, entry=well_scaled):
    return [case, side_of(case, draw, entry)]


def decompositions(draw):
    """Decompositions, most with solves that go by what they leave."""
    found = []
    for n in SMALL_ORDERS:
        nn = n * n
        # The larger orders take most of the room, so they have the fewest cases.
        for _ in range(3 if n < 6 else 1):
            found += with_side(decomposition(n, filled(well_scaled, nn, draw)), draw)
            found += with_side(decomposition(n, filled(well_scaled, nn, draw), filled(well_scaled, nn, draw)), draw)
        for _ in range(2 if n < 5 else 1):
            found += with_side(decomposition(n, rows_scaled(n, draw)), draw, any_finite)
            found += with_side(decomposition(n, rows_scaled(n, draw), rows_scaled(n, draw)), draw, any_finite)
        for entry, right in ((subnormal, subnormal), (any_finite, wild)) if n < 6 else ():
            found += with_side(decomposition(n, filled(entry, nn, draw)), draw, right)
            found += with_side(decomposition(n, filled(entry, nn, draw), filled(entry, nn, draw)), draw, right)
        # Zeros of both signs: multipliers that are zero are passed over, and equal sizes go to the first row. Any of
        # these may be singular, so no solve goes by what they leave.
        for _ in range(4 if n < 6 else 1):
            found.append(decomposition(n, filled(small, nn, draw)))
            found.append(decomposition(n, *complex_mixed(small, n, draw)))
        for _ in range(2 if n < 6 else 1):
            found.append(decomposition(n, *complex_mixed(well_scaled, n, draw)))
        for _ in range(2 if n < 5 else 0):
            found.append(decomposition(n, filled(wild, nn, draw)))
            found.append(decomposition(n, filled(wild, nn, draw), filled(wild, nn, draw)))
    return found


def singulars(draw):
    """A column of zeros at each stage, for the real and the complex routine. Only the last stage leaves
    pivots to solve with."""
    found = []
    for n in (*SMALL_ORDERS, LARGEST_ORDER):
        for stage in range(n):
            for is_complex in (False, True):
                case = decomposition(n, *singular(n, stage, draw, is_complex), stage=stage)
                found.append(case)
                if stage == n - 1:
                    found.append(side_of(case, draw, well_scaled))
    # All zeros, of either sign, in one part or in both.
    for n in (1, 2, 3):
        for sign in (0, SIGN):
            found.append(decomposition(n, [sign] * (n * n), stage=0))
            found.append(decomposition(n, [sign] * (n * n), [sign ^ SIGN] * (n * n), stage=0))
    return found


def exchanges(draw):
    """Row exchanges at every stage: the largest entry of each column lies in the last row, or in the next one."""
    found = []
    for n in (2, 3, 4, 8):
        for largest in (lambda k: n - 1, lambda k: k + 1):
            order = list(range(n))
            for k in reversed(range(n - 1)):
                m = largest(k)
                order[k], order[m] = order[m], order[k]
            # Upper triangular with a heavy diagonal, its rows then moved so that these exchanges bring them back.
            rows = [[draw.sign() for _ in range(i)] + [pattern_of(draw.unit() + 64.0)] for i in range(n)]
            rows = [row + [well_scaled(draw) for _ in range(n - len(row))] for row in rows]
            entries = [entry for i in order for entry in rows[i]]
            found += with_side(decomposition(n, entries), draw)
            found += with_side(decomposition(n, filled(well_scaled, n * n, draw), entries), draw)
    return found


def placed(draw):
    """NaN and the infinities in every position of small matrices; so also where the multiplier is
    zero and is passed over."""
    found = []
    for n in (1, 2, 3):
        nn = n * n
        for place in range(nn):
            for special in (NAN, INFINITY, SIGN | INFINITY):
                for entry in (well_scaled, small):
                    real = filled(entry, nn, draw)
                    real[place] = special
                    found.append(decomposition(n, real))
                for part in (0, 1):
                    parts = [filled(well_scaled, nn, draw), filled(well_scaled, nn, draw)]
                    if draw.between(0, 2) == 0:
                        parts = list(complex_mixed(small, n, draw))
                    parts[part][place] = special
                    found.append(decomposition(n, *parts))
    return found


def skipped(draw):
    """Multipliers that are zero in part or in whole, beside multiplier columns of infinities, NaN and zeros of either
    sign: what would be added to is -0, so that a zero added where none is to be shows."""
    found = []
    hot = (INFINITY, SIGN | INFINITY, NAN, pattern_of(0.5), ZERO, SIGN)
    pivot = pattern_of(8.0)
    for n in (2, 3, 4):
        for first in hot:
            for zero in (ZERO, SIGN):
                # Row 0 has the pivot and then zeros, column 0 the hot entry.
                real = [SIGN] * (n * n)
                real[0] = pivot
                for k in range(1, n):
                    real[k] = zero if k % 2 else well_scaled(draw)
                    real[k * n] = first if k == 1 else pattern_of(-0.25)
                found.append(decomposition(n, real))
                ai = [SIGN] * (n * n)
                for k in range(1, n):
                    ai[k] = draw.choice((zero, well_scaled(draw)))
                    ai[k * n] = draw.choice((zero, pattern_of(0.125), first))
                found.append(decomposition(n, real, ai))
    return found


def large(draw):
    """The largest order."""
    n, nn = LARGEST_ORDER, LARGEST_ORDER**2
    found = with_side(decomposition(n, filled(well_scaled, nn, draw)), draw)
    found.append(solve_after(found[-2], filled(wild, n, draw)))
    found += with_side(decomposition(n, filled(well_scaled, nn, draw), filled(well_scaled, nn, draw)), draw)
    found.append(solve_after(found[-2], filled(wild, n, draw), filled(well_scaled, n, draw)))
    return found


def factors(n, entry, draw):
    """A made-up matrix of factors and pivots, each of the first n - 1 anywhere below n; the last
    one is not looked at."""
    pivots = [draw.between(0, n - 1) for _ in range(n - 1)] + [draw.choice((0, n, 90, (1 << 64) - 1))]
    return filled(entry, n * n, draw), pivots


def solves(draw):
    """Solves with factors that no decomposition left."""
    found = []
    for n in SMALL_ORDERS:
        sorts = ((well_scaled, well_scaled), (small, small))
        if n < 6:
            sorts += ((well_scaled, small), (any_finite, any_finite), (subnormal, any_finite))
            sorts += ((wild, well_scaled), (well_scaled, wild))
        for entry, right in sorts:
            a, ip = factors(n, entry, draw)
            found.append(Case("s", n, ar=a, ip=ip, br=filled(right, n, draw)))
            ar, ip = factors(n, entry, draw)
            ai = filled(entry, n * n, draw)
            found.append(Case("S", n, ar=ar, ai=ai, ip=ip, br=filled(right, n, draw), bi=filled(right, n, draw)))
    # NaN, the infinities and zeros of both signs in every position.
    for n in (1, 2, 3):
        for special in (NAN, INFINITY, SIGN | INFINITY, ZERO, SIGN) if n < 3 else (NAN, SIGN | INFINITY, SIGN):
            for place in range(n * n):
                a, ip = factors(n, well_scaled, draw)
                a[place] = special
                found.append(Case("s", n, ar=a, ip=ip, br=filled(well_scaled, n, draw)))
                parts = [filled(well_scaled, n * n, draw), filled(well_scaled, n * n, draw)]
                parts[draw.between(0, 1)][place] = special
                sides = filled(well_scaled, n, draw), filled(well_scaled, n, draw)
                found.append(Case("S", n, ar=parts[0], ai=parts[1], ip=ip, br=sides[0], bi=sides[1]))
            for place in range(n):
                a, ip = factors(n, well_scaled, draw)
                side = filled(well_scaled, n, draw)
                side[place] = special
                found.append(Case("s", n, ar=a, ip=ip, br=side))
                sides = [filled(well_scaled, n, draw), filled(well_scaled, n, draw)]
                sides[draw.between(0, 1)][place] = special
                ai = filled(well_scaled, n * n, draw)
                found.append(Case("S", n, ar=a, ai=ai, ip=ip, br=sides[0], bi=sides[1]))
    return found


def zero_sides(draw):
    """Right sides of zeros of both signs, beside factors with an infinity off the diagonal: no solve passes over a
    zero, so a NaN comes of it, and of two zeros a sum whose sign tells how it was made."""
    found = []
    n = 3
    for place in (1, 2, 3, 5, 6, 7):
        for hot in (INFINITY, SIGN | ONE):
            parts = []
            for _ in range(2):
                part = [pattern_of(draw.choice((1.0, -2.0))) if k % (n + 1) == 0 else draw.sign() for k in range(n * n)]
                part[place] = hot
                parts.append(part)
            pivots = [draw.between(0, n - 1) for _ in range(n - 1)] + [90]
            sides = [[draw.sign() for _ in range(n)] for _ in range(2)]
            found.append(Case("s", n, ar=parts[0], ip=pivots, br=sides[0]))
            found.append(Case("S", n, ar=parts[0], ai=parts[1], ip=pivots, br=sides[0], bi=sides[1]))
    return found


def interpolations(draw):
    found = []

    def one(cont, target, xi, xold, h):
        found.append(Case("i", 0, ar=cont, ai=[pattern_of(x) for x in (xi, xold, h)],
                          br=filled(any_finite, target, draw)))

    for n in (0, 1, 2, 3, 8, 32):
        # As long as need be, and longer; coefficients that four doesn't divide; steps forward and back;
        # points on and off the step.
        for more, rest, h in ((0, 0, 0.5), (1, 0, -0.25), (0, 3, 1e-3), (5, 2, -3.0), (2, 1, 1e300)):
            for at in (0.0, 1.0, 0.3, -2.0) if n < 8 else (0.3,) if n < 32 or rest else ():
                xold = draw.unit()
                one(filled(well_scaled, 4 * n + rest, draw), n + more, xold + at * h, xold, h)
    for h in (0.0, -0.0, float("nan"), float("inf"), float("-inf"), 5e-324, -5e-324):
        for xi in (0.5, 1.0, -0.0, float("nan")):
            one(filled(well_scaled, 8, draw), 3, xi, 0.5, h)
    for _ in range(20):
        n = draw.between(1, 3)
        one(filled(wild, 4 * n, draw), n, draw.unit(), draw.unit(), draw.unit())
        ends = filled(wild, 3, draw)
        found.append(Case("i", 0, ar=filled(well_scaled, 4 * n, draw), ai=ends, br=filled(small, n, draw)))
    return found


def bounds(draw):
    pairs = [(xold, h) for xold in SPECIALS for h in SPECIALS]
    pairs += [(well_scaled(draw), well_scaled(draw)) for _ in range(20)]
    pairs += [(draw.finite(), draw.finite()) for _ in range(20)]
    return [Case("b", 0, ai=pair, br=(ZERO, ZERO)) for pair in pairs]


def refusals_of_rust(draw):
    """Decompositions of a wrong length that the Rust can be called with, and answers with an error of its own."""
    found = []
    for n in (2, 3):
        a, i = filled(well_scaled, n * n, draw), filled(well_scaled, n * n, draw)
        for pivots in (0, n - 1, n + 1):
            found.append(Case("d", n, ar=a, ip=start_pivots(pivots)))
            found.append(Case("D", n, ar=a, ai=i, ip=start_pivots(pivots)))
        for change in (-n, n):
            other = filled(well_scaled, n * n + change, draw)
            found.append(Case("d", n, ar=other, ip=start_pivots(n)))
            found.append(Case("D", n, ar=other, ai=i, ip=start_pivots(n)))
            found.append(Case("D", n, ar=a, ai=other, ip=start_pivots(n)))
    return found


def cases_of_rust():
    found = decompositions(Draw(1)) + singulars(Draw(2)) + exchanges(Draw(3)) + placed(Draw(4)) + skipped(Draw(5))
    found += large(Draw(6)) + solves(Draw(7)) + zero_sides(Draw(14)) + interpolations(Draw(8)) + bounds(Draw(9))
    return found + refusals_of_rust(Draw(10))


# --- The cases of document 01 --------------------------------------------------------------------


def refused_orders():
    """1: n not 1..32. The memory is held from the case before. Nothing else is looked at, right or wrong."""
    found = []
    most = 1 << 64
    for letter in "dDsS":
        for n, rows in ((0, 0), (33, 33), (33, 32), (33, 0), (34, 1), (1 << 32, 0), (most - 1, 1), (most // 2, 2),
                        (1 << 16, 3)):
            square = rows * rows
            side = [ONE] * rows if letter in "sS" else []
            imaginary = square if letter in "DS" else 0
            bi = side if letter == "S" else []
            found.append(Refused(letter, n, ORDER, lengths=[square, imaginary, rows], br=side, bi=bi))
    return found


def refused_lengths(draw):
    """16: a length not n*n or n."""
    found = []
    for n in (1, 2, 3):
        nn = n * n
        for letter in "dDsS":
            # The parts in the order of Case, and how long each is to be.
            right = {"d": [nn, 0, n, 0, 0], "D": [nn, nn, n, 0, 0], "s": [nn, 0, n, n, 0],
                     "S": [nn, nn, n, n, n]}[letter]
            for part, count in enumerate(right):
                for wrong in sorted({0, count - 1, count + 1, 2 * count}) if count else ():
                    counts = list(right)
                    counts[part] = wrong
                    ar, ai, ip, br, bi = [filled(well_scaled, count, draw) for count in counts]
                    # Pivots that would be refused too, for half of the solves: lengths come first.
                    ip = [(n if k % 2 else 0) if letter in "sS" else 90 + k for k in range(len(ip))]
                    found.append(Refused(letter, n, LENGTH, ar=ar, ai=ai, ip=ip, br=br, bi=bi))
    # At order 32 the matrix is held from the case before.
    for letter in "dDsS":
        imaginary = 1024 if letter in "DS" else 0
        side = [ONE] * 32 if letter in "sS" else []
        bi = side if letter == "S" else []
        for lengths in ([1023, imaginary, 32], [1025, imaginary, 32], [1024, imaginary, 31], [1024, imaginary, 33]):
            found.append(Refused(letter, 32, LENGTH, lengths=lengths, br=side, bi=bi))
    return found


def refused_pivots(draw):
    """18: solving, one of the first n - 1 pivots is n or more."""
    found = []
    for n in (2, 3, 4):
        for stage in range(n - 1):
            for stray in (n, n + 1, 90, 1 << 32, (1 << 64) - 1):
                a, ip = factors(n, well_scaled, draw)
                ip[stage] = stray
                found.append(Refused("s", n, PIVOT, ar=a, ip=ip, br=filled(well_scaled, n, draw)))
                ai, sides = filled(well_scaled, n * n, draw), (filled(well_scaled, n, draw),
                                                               filled(well_scaled, n, draw))
                found.append(Refused("S", n, PIVOT, ar=a, ai=ai, ip=ip, br=sides[0], bi=sides[1]))
    return found


def refused_targets(draw):
    """19: interpolating, a target shorter than a quarter of the coefficients, rounded down."""
    found = []
    for n in (1, 2, 3, 8):
        for rest in (0, 3):
            for short in sorted({0, n - 1}):
                ends = [pattern_of(x) for x in (0.5, 0.0, 1.0)]
                cont, target = filled(well_scaled, 4 * n + rest, draw), filled(well_scaled, short, draw)
                found.append(Refused("i", 0, TARGET, ar=cont, ai=ends, br=target))
    return found


def cases_of_document():
    return refused_orders() + refused_lengths(Draw(11)) + refused_pivots(Draw(12)) + refused_targets(Draw(13))


# --- The Rust's answers --------------------------------------------------------------------------


def answers_of_rust(folder, cases):
    """For each case the number that the Rust answers, and the lines of values after the call."""
    program = rust_crate.build(folder, PROGRAM)
    asked = "".join(line + "\n" for case in cases for line in [case.head(WORKS)] + case.before())
    done = subprocess.run([program], input=asked, capture_output=True, text=True)
    insist(done.returncode == 0, f"the Rust's program stopped:\n{done.stderr}")
    lines = iter(done.stdout.splitlines())
    found = []
    for case in cases:
        wanted = int(next(lines), 16)
        found.append((wanted, [next(lines) for _ in range(case.count_after(wanted))]))
    insist(next(lines, None) is None, "the Rust's program wrote more than was asked")
    return found


def try_stages(cases, answers):
    """A case made to be singular at a stage is so, and the pivots after that stage are not written."""
    for case, (wanted, after) in zip(cases, answers):
        if case.stage is not None:
            insist(wanted == SINGULAR, f"an n of {case.n} is not singular at stage {case.stage}")
            insist(int(after[0], 16) == case.stage, f"an n of {case.n} does not tell the stage {case.stage}")
            pivots = [int(line, 16) for line in after[-case.n :]]
            written = 0 if case.n == 1 else min(case.stage + 1, case.n - 1)
            told = [k for k in range(case.n) if pivots[k] != 90 + k]
            insist(told == list(range(written)), f"an n of {case.n} is singular at another stage than {case.stage}")


# --- The file ------------------------------------------------------------------------------------


def lines_of(case, wanted, after):
    return [case.head(wanted)] + case.before() + after


def row_of(case, wanted):
    return ROUTINES[case.letter] if wanted in (WORKS, SINGULAR) else "refusals"


def summary(rows):
    """What the program writes where every answer is met."""
    names = list(ROUTINES.values()) + ["refusals"]
    return [f"{name} {rows.count(name)} agree 0 differ" for name in names] + ["malformed 0"]


def text_of(lines):
    return "".join(text + "\n" for text in lines)


def stored_lines(file):
    insist(file.is_file(), f"there is no {file}")
    text = file.read_text()
    insist(text.endswith("\n"), f"{file} does not end with a line's end")
    return text[:-1].split("\n")


def made(folder):
    """The lines of the file and the rows of its cases."""
    cases = cases_of_rust()
    answers = answers_of_rust(folder, cases)
    try_stages(cases, answers)
    refused = cases_of_document()
    cases, answers = cases + refused, answers + [(case.refusal, []) for case in refused]
    insist(len(cases) <= MOST_CASES, f"{len(cases)} cases are more than the program reads")
    lines = [line for case, answer in zip(cases, answers) for line in lines_of(case, *answer)]
    return lines, [row_of(case, wanted) for case, (wanted, _) in zip(cases, answers)]


def made_from_stored(stored):
    """The same where the Rust can't be asked: its answers, and only those, are taken as they are stored."""
    lines, rows = [], []
    for case in cases_of_rust():
        head = stored[len(lines)] if len(lines) < len(stored) else ""
        wanted = next((number for number in (SINGULAR, LENGTH) if head.startswith(f"{case.letter} {number:02x}")),
                      WORKS)
        start = len(lines) + 1 + len(case.before())
        lines += lines_of(case, wanted, stored[start : start + case.count_after(wanted)])
        rows.append(row_of(case, wanted))
    for case in cases_of_document():
        lines += lines_of(case, case.refusal, [])
        rows.append(row_of(case, case.refusal))
    return lines, rows


def write(folder):
    insist(folder and rust_crate.compiler(), "without the Rust's text and rustc nothing is written")
    lines, rows = made(folder)
    text = text_of(lines)
    insist(len(text) <= MOST_BYTES, f"{len(text)} bytes are more than are to be stored")
    ANSWERS.write_text(text)
    SUMMARY.write_text(text_of(summary(rows)))
    print(f"{len(rows)} cases, {len(text)} bytes, written to {ANSWERS}")


def compare(name, stored, wanted):
    """Stop at the first line of `stored` that is not that of `wanted`."""
    for place in range(max(len(stored), len(wanted))):
        old = stored[place] if place < len(stored) else "(no line)"
        new = wanted[place] if place < len(wanted) else "(no line)"
        insist(old == new, f"{name} line {place + 1}\n  stored {old}\n  made   {new}")


def check(folder):
    stored = stored_lines(ANSWERS)
    if folder and rust_crate.compiler():
        lines, rows = made(folder)
    else:
        lines, rows = made_from_stored(stored)
    compare("stdin", stored, lines)
    compare("stdout", stored_lines(SUMMARY), summary(rows))
    print(f"{len(rows)} cases are as stored")
    rust_text.compared(folder)


def main(words):
    name, folder = command.act(__doc__, words, ("write", "check"))
    (write if name == "write" else check)(rust_text.find(folder))


if __name__ == "__main__":
    main(sys.argv[1:])
