#!/usr/bin/env python3
"""Test vectors for the scalar routines, with answers made outside of the port.

    tests/replays/replay_scalar.py write [FOLDER]   write crates/replay_scalar/stdin and stdout
    tests/replays/replay_scalar.py check [FOLDER]   make both anew and compare them with what is stored

FOLDER holds the Rust's text; tests/support/rust_text.py says where it is looked for otherwise. Without it `write`
refuses, and `check` compares all but the 27 lines of coefficients.

Exit status: 0 nothing differs; 1 a line differs, and the first is shown; 2 wrong use; 4 the coefficients were not
compared.

A line has 73 bytes: a letter, a space, two hex digits, then four fields of a space and 16 hex
digits, then LF. The two digits are an order, an exponent or an index, else 00. The fields are
three operands (zeros where unused) and the answer. All are bit patterns of doubles; a NaN is
always 7ff8000000000000.

How each answer is made. Nothing here is a translation of the port: doubles are patterns, and
all rounding is done once, in `rounded`, on exact whole numbers (and is first held against the
processor's own products and quotients).

    s sqrt          the processor's square root (math.sqrt), held against math.isqrt on the exact
                    value, whose root of 53 digits is rounded half to even
    r root          01's text as it stands: halve between the patterns of +0 and infinity, middle
                    rounded down, keeping below each number whose m-fold product, from the left and
                    each product rounded, does not exceed v; the lower end is the answer
    i inverse_root  1 divided by that root, rounded
    p power         products from 1, each rounded
    t two_thirds    the third root, and its second power
    f four_fifths   the fifth root, and its fourth power
    q quarter       the fourth root
    a abs           the pattern without its sign
    x max, n min    a NaN argument yields the other; of two that are level the first
    c clamp         the low end if below it, else the high end if above it, else x
    g signum        1 with the sign of x, zeros too; NaN for NaN
    k coefficient   the decimals of the Rust's text, converted by Python's float()
"""

import functools
import math
import re
import struct
import sys

import pathlib
sys.path[:0] = [str(each) for each in pathlib.Path(__file__).resolve().parents[1].iterdir() if each.is_dir()]
import command
import rust_text
from draw import INFINITY, LARGEST, NAN, ONE, SIGN, SMALLEST, SMALLEST_NORMAL, SPECIALS, UNIT, ZERO, Draw, pattern_of

ROOT = rust_text.ROOT
VECTORS = ROOT / "crates" / "replay_scalar" / "stdin"
SUMMARY = ROOT / "crates" / "replay_scalar" / "stdout"

# Each letter with the routine's name, in the order of the file and of the program's summary.
ROUTINES = {
    "s": "sqrt",
    "r": "root",
    "i": "inverse_root",
    "p": "power",
    "t": "two_thirds",
    "f": "four_fifths",
    "q": "quarter",
    "a": "abs",
    "x": "max",
    "n": "min",
    "c": "clamp",
    "g": "signum",
    "k": "coefficient",
}

# The coefficients in the order of radau.rs 816-846.
COEFFICIENTS = (
    "C1 C2 C1M1 C2M1 C1MC2 DD1 DD2 DD3 U1 ALPH BETA T00 T01 T02 T10 T11 T12 T20 "
    "TI00 TI01 TI02 TI10 TI11 TI12 TI20 TI21 TI22"
).split()

# The program reads no more lines than this.
MOST_LINES = 20_000

LOWEST = -1074  # the smallest double is 2**LOWEST


def insist(fact, words):
    """Stop where something that this script leans on does not hold."""
    if not fact:
        sys.exit(f"replay_scalar: {words}")


# --- Doubles as patterns -------------------------------------------------------------------


def magnitude(pattern):
    return pattern & ~SIGN


def is_nan(pattern):
    return magnitude(pattern) > INFINITY


def is_negative(pattern):
    """Below zero: neither -0 nor NaN."""
    return pattern > SIGN and not is_nan(pattern)


def number(pattern):
    return struct.unpack("<d", struct.pack("<Q", pattern))[0]


def parts(pattern):
    """The whole numbers m, e of a finite double without its sign: it is m * 2**e."""
    field, digits = divmod(pattern, UNIT)
    return (digits, LOWEST) if field == 0 else (UNIT + digits, LOWEST + field - 1)


def rounded(numerator, denominator, exponent):
    """The double nearest to numerator / denominator * 2**exponent, all whole and the first two
    above zero: ties to even, subnormals in steps of 2**-1074, infinity past the largest."""
    # Count in steps of 2**place, so that 53 digits are whole or the step is the smallest double.
    place = max(numerator.bit_length() - denominator.bit_length() - 53, LOWEST - exponent)
    while True:
        below = denominator << max(place, 0)
        whole, rest = divmod(numerator << max(-place, 0), below)
        if whole < 2 * UNIT:
            break
        place += 1
    if 2 * rest > below or (2 * rest == below and whole % 2 == 1):
        whole += 1
    return min(whole + (place + exponent - LOWEST) * UNIT, INFINITY)


def product(a, b):
    """a times b, rounded once."""
    if is_nan(a) or is_nan(b):
        return NAN
    sign = (a ^ b) & SIGN
    a, b = magnitude(a), magnitude(b)
    if INFINITY in (a, b):
        return NAN if ZERO in (a, b) else sign | INFINITY
    if ZERO in (a, b):
        return sign
    (m, e), (n, f) = parts(a), parts(b)
    return sign | rounded(m * n, 1, e + f)


def inverse(a):
    """1 divided by a, rounded once."""
    if is_nan(a):
        return NAN
    sign, a = a & SIGN, magnitude(a)
    if a == INFINITY:
        return sign
    if a == ZERO:
        return sign | INFINITY
    m, e = parts(a)
    return sign | rounded(1, m, -e)


# --- The answers -----------------------------------------------------------------------------


def sqrt_by_integers(v):
    """The square root of a finite double above zero, on whole numbers."""
    m, e = parts(v)
    # Widen m to 107 or 108 digits with an even exponent: its root has 54, the last one the half.
    widen = 108 - m.bit_length()
    widen -= (e - widen) % 2
    square = m << widen
    root = math.isqrt(square)
    whole, half = divmod(root, 2)
    if half and (root * root < square or whole % 2 == 1):
        whole += 1
    return whole + ((e - widen) // 2 + 1 - LOWEST) * UNIT


def sqrt(v):
    if is_nan(v) or is_negative(v):
        return NAN
    answer = pattern_of(math.sqrt(number(v)))
    if 0 < v < INFINITY:
        insist(answer == sqrt_by_integers(v), f"the two square roots of {v:016x} differ")
    return answer


def product_of(order, x):
    """The product of `order` factors x, from the left."""
    answer = x
    for _ in range(order - 1):
        answer = product(answer, x)
    return answer


@functools.lru_cache(maxsize=None)
def root(order, v):
    if not 1 <= order <= 17 or is_nan(v) or is_negative(v):
        return NAN
    if magnitude(v) == ZERO:
        return ZERO
    if v == INFINITY:
        return INFINITY
    low, high = ZERO, INFINITY
    while high - low > 1:
        middle = (low + high) // 2
        # Patterns of doubles from +0 up are ordered as the doubles are.
        if product_of(order, middle) <= v:
            low = middle
        else:
            high = middle
    return low


def inverse_root(order, v):
    return inverse(root(order, v))


def power(exponent, x):
    answer = ONE
    for _ in range(exponent):
        answer = product(answer, x)
    return answer


def two_thirds(v):
    return power(2, root(3, v))


def four_fifths(v):
    return power(4, root(5, v))


def quarter(v):
    return root(4, v)


def absolute(x):
    return magnitude(x)


def larger(a, b):
    if is_nan(a) or is_nan(b):
        return b if is_nan(a) else a
    return b if number(b) > number(a) else a


def smaller(a, b):
    if is_nan(a) or is_nan(b):
        return b if is_nan(a) else a
    return b if number(b) < number(a) else a


def clamp(x, low, high):
    if number(x) < number(low):
        return low
    return high if number(x) > number(high) else x


def signum(x):
    return NAN if is_nan(x) else (x & SIGN) | ONE


# --- The Rust's text -------------------------------------------------------------------------


def coefficients(folder):
    """The patterns of the constants that the Rust's text names, in its order."""
    file = folder / "src" / "methods" / "radau.rs"
    found = re.findall(r"^const (\w+): Float = ([-+0-9_.eE]+);$", file.read_text(), re.MULTILINE)
    insist([name for name, _ in found] == COEFFICIENTS, f"{file} has other constants than expected")
    return [pattern_of(float(text.replace("_", ""))) for _, text in found]


# --- The arguments ---------------------------------------------------------------------------


class Arguments(Draw):
    """Positive doubles and whole numbers, drawn."""

    def digits(self, length):
        """A whole number of exactly that many binary digits."""
        return self.between(1 << (length - 1), (1 << length) - 1)

    def normal(self):
        return self.between(SMALLEST_NORMAL, LARGEST)

    def subnormal(self):
        return self.digits(self.between(1, 52))


def around(pattern):
    """A double with the next one below and above it."""
    return [pattern - 1, pattern, pattern + 1]


def square_arguments(draw):
    found = list(SPECIALS) + [SIGN | draw.normal(), SIGN | draw.subnormal(), pattern_of(2.0)]
    for v in (SMALLEST_NORMAL, ONE, pattern_of(4.0)):
        found += around(v)
    for field in range(1, 2047):
        found.append(field * UNIT + draw.between(0, UNIT - 1))
        found.append(square_in(field, draw) + draw.between(-1, 1))
    for length in range(1, 53):
        found += [1 << (length - 1), (1 << length) - 1, draw.digits(length)]
    for _ in range(300):
        found += around(square_in(draw.between(1, 2046), draw))
    return found + near_halves(draw)


def square_in(field, draw):
    """An exact square among the doubles with that exponent field."""
    exponent = field - 1023
    turn = math.isqrt(1 << 51)  # up to it a square has 51 digits, and above it 52
    k = draw.between(1 << 25, turn) if exponent % 2 == 0 else draw.between(turn + 1, (1 << 26) - 1)
    v = rounded(k * k, 1, exponent - 50 - exponent % 2)
    insist(v // UNIT == field, f"a square out of its binade, {v:016x}")
    return v


def near_halves(draw):
    """Doubles whose root lies as near as can be to halfway between two doubles: with q of 53
    digits, numbers q * q + q + c for a small c, where the half's own square is q * q + q + 1/4.
    Such q are found digit by digit from below, since q * q + q + c has to end in 52 or 53 zeros."""
    found = []
    for c in range(-120, 122, 2):
        for q in (0, 1):
            for place in range(1, 53):
                q += ((q * q + q + c) >> place) % 2 << place
            whole = q % UNIT + UNIT
            for zeros in (52, 53):
                m, rest = divmod(whole * whole + whole + c, 1 << zeros)
                if rest == 0 and UNIT <= m < 2 * UNIT:
                    found.append(rounded(m, 1, zeros + 2 * draw.between(-560, 430)))
    return found


def root_arguments(order, draw):
    found = list(SPECIALS) + around(ONE) + [SMALLEST_NORMAL - 1, SIGN | draw.normal()]
    # Exact powers k ** order, as they are and times 2 ** (order * j), with their neighbours.
    most = 2
    while (most + 1) ** order < 2 * UNIT and most < 1000:
        most += 1
    for k in (2, 3, most, draw.between(2, most)):
        found += around(rounded(k**order, 1, 0))
    for _ in range(3):
        k = draw.between(2, most)
        room = 1023 - (k**order).bit_length()
        found += around(rounded(k**order, 1, order * draw.between(-(1074 // order), room // order)))
    # Doubles at which the test of the halving turns.
    for _ in range(2):
        found += around(product_of(order, draw.within(1000 // order)))
    found += [draw.normal() for _ in range(14)]
    return found + [draw.subnormal() for _ in range(6)]


def powers(draw):
    """Pairs of an exponent and a base."""
    found = [(exponent, draw.between(ONE - UNIT // 64, ONE + UNIT // 64)) for exponent in range(256)]
    found += [(exponent, draw.within(1)) for exponent in range(2, 18) for _ in range(4)]
    found += [(exponent, x) for exponent in (0, 1, 2, 3, 255) for x in SPECIALS]
    for _ in range(20):
        found.append((draw.between(2, 255), SIGN | draw.within(3)))
        found.append((draw.between(2, 8), draw.within(1000)))
        found.append((draw.between(1, 3), draw.subnormal()))
    # Down into the subnormals, and up to just below infinity.
    for _ in range(10):
        exponent = draw.between(2, 12)
        found.append((exponent, ONE - (1050 // exponent) * UNIT + draw.between(0, UNIT // 2)))
        found.append((exponent, root(exponent, draw.between(LARGEST - UNIT, LARGEST))))
    return found


def triples(draw):
    found = [(x, SIGN | ONE, ONE) for x in SPECIALS]
    return found + [tuple(draw.choice(SPECIALS) for _ in range(3)) for _ in range(150)]


# --- The lines -------------------------------------------------------------------------------


def line(letter, digits, operands, answer):
    fields = list(operands) + [0] * (3 - len(operands)) + [answer]
    return f"{letter} {digits:02x} " + " ".join(f"{field:016x}" for field in fields)


def lines_of_roots(draw):
    orders = [(order, v) for order in range(1, 18) for v in root_arguments(order, draw)]
    orders += [(order, v) for order in (0, 18, 255) for v in SPECIALS]
    made = [line("r", order, [v], root(order, v)) for order, v in orders]
    made += [line("i", order, [v], inverse_root(order, v)) for order, v in orders]
    return made


def lines_of_fractions(draw):
    made = []
    for letter, order, answer in (("t", 3, two_thirds), ("f", 5, four_fifths), ("q", 4, quarter)):
        found = root_arguments(order, draw) + [draw.within(60) for _ in range(40)]
        made += [line(letter, 0, [v], answer(v)) for v in found]
    return made


def lines_of_small(draw):
    singles = SPECIALS + [draw.bits() % SIGN % INFINITY | sign for sign in (0, SIGN) for _ in range(6)]
    pairs = [(a, b) for a in SPECIALS for b in SPECIALS]
    made = [line("a", 0, [x], absolute(x)) for x in singles]
    made += [line("x", 0, pair, larger(*pair)) for pair in pairs]
    made += [line("n", 0, pair, smaller(*pair)) for pair in pairs]
    made += [line("c", 0, triple, clamp(*triple)) for triple in triples(draw)]
    return made + [line("g", 0, [x], signum(x)) for x in singles]


def lines_outside():
    """All lines but the coefficients', each once."""
    made = [line("s", 0, [v], sqrt(v)) for v in square_arguments(Arguments(1))]
    made += lines_of_roots(Arguments(2))
    powered = [line("p", exponent, [x], power(exponent, x)) for exponent, x in powers(Arguments(3))]
    made += powered + lines_of_fractions(Arguments(4)) + lines_of_small(Arguments(5))
    return list(dict.fromkeys(made))


def lines_of_coefficients(patterns):
    return [line("k", index, [], pattern) for index, pattern in enumerate(patterns)]


def summary(lines):
    """What the program writes where every answer is met."""
    counts = dict.fromkeys(ROUTINES, 0)
    for text in lines:
        counts[text[0]] += 1
    told = [f"{ROUTINES[letter]} {count} agree 0 differ" for letter, count in counts.items()]
    return told + ["malformed 0"]


# --- What this script leans on ---------------------------------------------------------------


def try_rounding():
    """Hold `rounded` against the processor's products and quotients."""
    draw = Arguments(6)
    for _ in range(4000):
        any_two = draw.bits(), draw.bits()
        low = draw.within(30) - 520 * UNIT, draw.within(30) - 520 * UNIT  # about the subnormals
        tiny = draw.subnormal(), draw.within(60)
        high = draw.within(5) + 512 * UNIT, draw.within(5) + 511 * UNIT  # about the largest
        ties = rounded(draw.digits(27), 1, draw.between(-600, 400)), rounded(draw.digits(27), 1, -500)
        for a, b in (any_two, low, tiny, high, ties):
            a, b = (NAN if is_nan(x) else x for x in (a, b))
            insist(product(a, b) == pattern_of(number(a) * number(b)), f"product of {a:016x} {b:016x}")
            if magnitude(a) != ZERO:
                insist(inverse(a) == pattern_of(1.0 / number(a)), f"inverse of {a:016x}")


def try_examples():
    """01's examples P1 to P5."""
    insist(sqrt(pattern_of(2.0)) == 0x3FF6A09E667F3BCD, "P1")
    insist(sqrt(SIGN | ZERO) == SIGN | ZERO, "P2")
    insist(sqrt(SMALLEST) == ONE - 537 * UNIT, "P3")
    insist(root(3, pattern_of(8.0)) == pattern_of(2.0), "P4")
    insist(root(4, ONE) == ONE, "P5")


# --- Writing and checking --------------------------------------------------------------------


def text_of(lines):
    return "".join(text + "\n" for text in lines)


def stored_text(file):
    insist(file.is_file(), f"there is no {file}")
    return file.read_text()


def write(folder):
    insist(folder, "without the Rust's text nothing is written")
    lines = lines_outside() + lines_of_coefficients(coefficients(folder))
    insist(len(lines) <= MOST_LINES, f"{len(lines)} lines are more than the program reads")
    VECTORS.write_text(text_of(lines))
    SUMMARY.write_text(text_of(summary(lines)))
    print(f"{len(lines)} vectors written to {VECTORS}")


def compare(name, stored, made):
    """Stop at the first line of `stored` that is not that of `made`."""
    for place in range(max(len(stored), len(made))):
        old = stored[place] if place < len(stored) else "(no line)"
        new = made[place] if place < len(made) else "(no line)"
        insist(old == new, f"{name} line {place + 1}\n  stored {old}\n  made   {new}")


def check(folder):
    lines = lines_outside()
    stored = stored_text(VECTORS).split("\n")
    insist(stored.pop() == "", f"{VECTORS} does not end with a line's end")
    if folder:
        lines += lines_of_coefficients(coefficients(folder))
    else:
        # The answers of the coefficients are taken as they are stored, and only those.
        rest = stored[len(lines) :]
        answers = [int(text[-16:], 16) for text in rest if re.fullmatch("k .*[0-9a-f]{16}", text)]
        lines += lines_of_coefficients((answers + [0] * len(COEFFICIENTS))[: len(COEFFICIENTS)])
    compare("stdin", stored, lines)
    compare("stdout", stored_text(SUMMARY).splitlines(), summary(lines))
    print(f"{len(lines)} vectors are as stored")
    rust_text.compared(folder, compiled=False)


def main(words):
    name, folder = command.act(__doc__, words, ("write", "check"))
    try_rounding()
    try_examples()
    (write if name == "write" else check)(rust_text.find(folder))


if __name__ == "__main__":
    main(sys.argv[1:])
