#!/usr/bin/env python3
"""Whole runs of the Rust's own `solve`, call by call, beside the advance of crates/radau.

    tests/replays/runs.py check [FOLDER]     run both and compare every request
    tests/replays/runs.py branches [FOLDER]  print how often each branch of the Rust is taken, and each of the advance

FOLDER holds the Rust's text; tests/support/rust_text.py says where it is looked for otherwise.

Exit status: 0 nothing differs; 1 a run differs, and it is shown where; 2 wrong use; 4 nothing was compared: the
Rust's text or rustc is not there.

How a run is had. A crate is made below target/rust/runs around the Rust's own files: tests/support/rust_solve.py
says what of them is changed. Each power goes to document 01's power routine (tests/support/powers.rs has the
halving written plainly).

How it is compared. The Rattle sources, their contracts taken out, are compiled by rustc (tests/support/port.py), and
tests/replays/runs_replay.rs opens each run and hands every reply of the Rust's host to the advance: at each request
the request, its place and all 22 parts of memory must be the Rust's, and at the end the result. Beside each right
reply it tries one of another kind, a state that is unfit, and past the end any reply: 15, 13 and 14, with the run and
the memory as they were."""

import subprocess
import sys

import pathlib
sys.path[:0] = [str(each) for each in pathlib.Path(__file__).resolve().parents[1].iterdir() if each.is_dir()]
import command
import port
import rust_solve
import rust_text
from draw import pattern_of
from replay_scalar import number, two_thirds

ROOT = rust_text.ROOT
TARGET = ROOT / "target" / "rust" / "runs"
PROGRAM = ROOT / "tests" / "replays" / "runs.rs"
REPLAY = ROOT / "tests" / "replays" / "runs_replay.rs"

# The settings that may be absent, and the switches, in the order of their bits.
CHOICES = ("max_step min_step newton_tol first_step nind1 nind2 nind3 "
           "predictive dense_output full host book lists").split()


def insist(fact, words):
    """Stop where something that this script leans on does not hold."""
    if not fact:
        sys.exit(f"runs: {words}")


def build(folder, other=None):
    """Compiles tests/replays/runs.rs around the Rust's files; with another file of ours beside it, that file's `go`
    is the main function."""
    if not other:
        return rust_solve.compiled(rust_solve.make_crate(folder, TARGET, PROGRAM, "", "program::run();"), "runs")
    extra = f'#[path = "{other.resolve()}"]\nmod other;'
    return rust_solve.compiled(rust_solve.make_crate(folder, TARGET, PROGRAM, extra, "other::go();"), other.stem)


# --- The runs ------------------------------------------------------------------------------------

# The Rust's constants (radau.rs), by which E1 and E2 are made.
U1, ALPH, BETA = 3.637_834_252_744_496, 2.681_082_873_627_752_3, 3.050_430_199_247_410_5

INF = float("inf")
NOT_A_NUMBER = float("nan")


class Run:
    """An opening, and what its host does. A setting that is None is absent; a mass of None is
    Identity, else n n entries."""

    def __init__(self, model, y, *numbers, **changes):
        self.model, self.y, self.numbers = model, list(y), numbers
        self.x0, self.xend = 0.0, 1.0
        self.rtol, self.atol = 1e-3, 1e-6
        self.max_steps, self.newton_maxiter = 100_000, 7
        self.uround, self.safety_factor = 2.3e-16, 0.9
        self.scale_min, self.scale_max = 0.2, 8.0
        self.max_step = self.min_step = self.newton_tol = self.first_step = None
        self.nind1 = self.nind2 = self.nind3 = None
        self.predictive = self.dense_output = True
        self.host = self.book = False
        self.mass = None
        self.factor = 1.0  # of the Jacobian that the host makes
        self.reports = []  # replies to the reports in their order, continue after the last
        self.spoiled = []  # derivatives written otherwise: from which, how many, the value of the first entry
        for name, value in changes.items():
            insist(name in vars(self), f"a run has no {name}")
            setattr(self, name, value)

    def copy(self, **changes):
        made = Run(self.model, self.y, *self.numbers)
        vars(made).update(vars(self))
        for name, value in changes.items():
            insist(name in vars(self), f"a run has no {name}")
            setattr(made, name, value)
        return made

    def chosen(self, name):
        if name in ("predictive", "dense_output", "host", "book"):
            return getattr(self, name)
        if name == "full":
            return self.mass is not None
        if name == "lists":
            return isinstance(self.rtol, list)
        return getattr(self, name) is not None

    def opening(self, number):
        """The words of the opening, and of what is given."""
        floats = [0.0 if value is None else value
                  for value in (self.max_step, self.min_step, self.newton_tol, self.first_step)]
        lists = self.rtol + self.atol if self.chosen("lists") else []
        floats += [0.0, 0.0] if lists else [self.rtol, self.atol]
        words = [len(self.y), pattern_of(self.x0), pattern_of(self.xend)]
        words.append(sum(self.chosen(name) << bit for bit, name in enumerate(CHOICES)))
        words += [self.max_steps, self.newton_maxiter]
        words += [pattern_of(x) for x in (self.uround, self.safety_factor, self.scale_min, self.scale_max)]
        words += [pattern_of(x) for x in floats]
        words += [count or 0 for count in (self.nind1, self.nind2, self.nind3)]
        given = self.y + (self.mass or []) + lists
        return words + [number] + [pattern_of(x) for x in given]

    def line(self, number):
        """What the program of tests/replays/runs.rs reads."""
        told = [f"{reply[0]}{','.join(f'{pattern_of(x):016x}' for x in reply[1:])}" for reply in self.reports]
        spoiled = [f"{start:x} {count:x} {pattern_of(value):016x}" for start, count, value in self.spoiled]
        sections = [hexadecimal(self.opening(number)), [self.model] + hexadecimal(map(pattern_of, self.numbers))]
        sections += [hexadecimal([pattern_of(self.factor)]), told, spoiled]
        return " | ".join(" ".join(section) for section in sections)


def hexadecimal(words):
    return [f"{word:016x}" for word in words]


# The replies to a report.
CONTINUE, INTERRUPT = ("c",), ("i",)


def modified(rise, factor):
    return ("m", rise, factor)


def moved(x):
    return ("t", x)


def mark(x):
    return ("x", x)


def identity(n):
    return [1.0 if row == column else 0.0 for row in range(n) for column in range(n)]


def diagonal(*entries):
    n = len(entries)
    return [entries[row] if row == column else 0.0 for row in range(n) for column in range(n)]


SHEET = Run("zero", [1.0], rtol=2.0**-10, atol=2.0**-20)

# Runs whose figures document 01 tells: status, accepted, rejected, total, ode, jac, lu; None where it tells nothing.
FIGURES = [
    (SHEET, (0, 8, 0, 8, 33, 8, 24)),
    (SHEET.copy(max_steps=1), (2, 1, None, 2, 5, 2, 5)),
    (SHEET.copy(x0=1.0), (3, None, None, 1, 1, 1, 2)),
    (SHEET.copy(mass=[0.0]), (5, None, None, 0, 1, 6, 6)),
]


def runs_of_reports():
    """Each reply to each report; marks that come due or not; dense output off."""
    found = []
    base = Run("forced", [1.0], 50.0, max_steps=12)
    for dense in (True, False):
        for told in (CONTINUE, INTERRUPT, modified(0.125, 2.0), mark(0.0), mark(0.01), mark(NOT_A_NUMBER)):
            found.append(base.copy(reports=[told], dense_output=dense))
            found.append(base.copy(reports=[CONTINUE, CONTINUE, told], dense_output=dense, host=True))
        marks = [mark(-1.0), mark(1e-3), CONTINUE, mark(5.0), modified(0.0, 1.0), mark(0.2), INTERRUPT]
        found.append(base.copy(reports=marks, dense_output=dense))
    # The point is moved past the end, to the end, far off, to no number.
    for x in (1.0, 2.0, -0.0, -3.0, 1e300, INF, -INF, NOT_A_NUMBER):
        found.append(base.copy(reports=[moved(x)], max_steps=3))
        found.append(base.copy(reports=[CONTINUE, moved(x)], max_steps=3))
    # Modified at the report of an aimed attempt.
    for factor in (1.0, 3.0):
        found.append(SHEET.copy(reports=[CONTINUE] * 8 + [modified(0.5, factor)]))
    found.append(SHEET.copy(reports=[CONTINUE] * 8 + [INTERRUPT]))
    found.append(SHEET.copy(reports=[CONTINUE] * 8 + [mark(2.0)]))
    return found


def runs_of_systems():
    """Systems that are solved to their end, or nearly so."""
    found = []
    for book in (False, True):
        found.append(Run("vdp", [2.0, -0.66], 1e3, xend=0.9, book=book, max_steps=30 if book else 100_000))
        found.append(Run("vdp", [2.0, -0.66], 1e6, xend=1.0, book=book, host=True, max_steps=30))
        found.append(Run("robertson", [1.0, 0.0, 0.0], 0.0, xend=40.0, rtol=[1e-4] * 3, atol=[1e-8, 1e-12, 1e-8],
                         book=book))
        found.append(Run("robertson", [1.0, 0.0, 0.0], 1.0, xend=4.0, mass=diagonal(1.0, 1.0, 0.0), rtol=1e-5,
                         atol=1e-9, book=book))
        found.append(Run("forced", [1.0, 0.5, 0.0, -1.0], 7.0, book=book, rtol=1e-6, atol=1e-9))
        found.append(Run("linear", [1.0, 0.0], 0.0, 1.0, -1.0, 0.0, xend=6.0, book=book, rtol=1e-7, atol=1e-10))
        found.append(Run("linear", [1.0, 0.0], -1.0, 40.0, -40.0, -1.0, xend=-0.5, book=book, host=True))
        found.append(Run("cubic", [2.0, -1.0, 0.0], 30.0, x0=1.0, xend=-1.0, book=book, max_steps=25))
        found.append(Run("chain", [1.0, 0.0, 2.0, 0.0, -1.0, 3.0, 0.5, 0.25], 40.0, xend=0.5, book=book, max_steps=12))
    amounts = [((7 * i) % 11) / 4.0 - 1.0 for i in range(32)]
    found.append(Run("chain", amounts, 300.0, max_steps=3))
    found.append(Run("chain", amounts, 300.0, max_steps=2, host=True, mass=identity(32), rtol=[1e-4] * 32,
                     atol=[1e-7] * 32))
    return found


def runs_of_settings():
    found = []
    base = Run("forced", [1.0, -0.5], 20.0)
    found.append(base.copy(max_step=0.05, max_steps=30))
    found.append(base.copy(min_step=0.02, rtol=1e-9, atol=1e-12, max_steps=30))
    found.append(base.copy(max_step=0.25, min_step=0.25, max_steps=30))
    found.append(base.copy(max_step=0.0))
    found.append(base.copy(max_step=-0.0))
    found.append(base.copy(first_step=0.5, max_steps=20))
    found.append(base.copy(first_step=-1e-3, max_steps=20))
    found.append(base.copy(first_step=1e3, max_steps=20))
    found.append(base.copy(first_step=1e3, x0=1.0, xend=0.0, max_steps=20))
    for newton_tol in (0.0, -1.0, 1e-14, 1e-3, 1e9):
        found.append(base.copy(newton_tol=newton_tol, max_steps=10))
    for predictive in (True, False):
        found.append(base.copy(predictive=predictive, rtol=1e-7, atol=1e-9, max_steps=40))
        found.append(Run("vdp", [2.0, 0.0], 30.0, xend=3.0, predictive=predictive, max_steps=30, scale_min=0.5,
                         scale_max=1.5))
    for rounds in (1, 2, 3, 16):
        found.append(base.copy(newton_maxiter=rounds, max_steps=12))
        found.append(Run("cubic", [2.0], 5.0, newton_maxiter=rounds, max_steps=12, first_step=0.1))
    found.append(base.copy(uround=1e-3, max_steps=12))
    found.append(base.copy(uround=0.5, max_steps=12))
    found.append(base.copy(safety_factor=0.3, scale_min=0.01, scale_max=100.0, max_steps=15))
    # Ends that are zeros of both signs, equal ends, ends far apart.
    found.append(SHEET.copy(x0=0.0, xend=-0.0))
    found.append(SHEET.copy(x0=-0.0, xend=0.0))
    found.append(SHEET.copy(x0=1.0, xend=1.0, host=True))
    found.append(SHEET.copy(x0=-1e308, xend=1e308, max_steps=4))
    found.append(SHEET.copy(x0=1e308, xend=-1e308, first_step=1e300, max_steps=12))
    found.append(Run("linear", [1.0], -1e-300, x0=-1.7e308, xend=1.7e308, first_step=1e308, max_steps=8))
    found.append(Run("linear", [1.0, 2.0], -1e-300, 0.0, 1e-301, -1e-305, x0=-1.7e308, xend=1.7e308, first_step=1e308,
                     max_steps=8, host=True))
    # A step of zero is refused as too small, but not where the point is no number.
    for ceiling in (0.0, -0.0):
        found.append(base.copy(max_step=ceiling, reports=[moved(NOT_A_NUMBER)], max_steps=3))
    # Tolerances: lists of one sort and of many, an atol of zero.
    found.append(base.copy(rtol=[1e-3, 1e-3], atol=[1e-6, 1e-6], max_steps=12))
    found.append(base.copy(rtol=[1e-6, 1e-2], atol=[0.0, 1.0], max_steps=12))
    found.append(Run("zero", [0.0, 1.0], atol=0.0, max_steps=5))
    found.append(base.copy(rtol=1e-12, atol=1e-300, max_steps=12))
    found.append(base.copy(rtol=1e3, atol=1e3, max_steps=12))
    return found + [run.copy(book=True) for run in found[::3]]


def runs_of_masses():
    """Full and Identity masses, partitions of index 2 and 3, matrices that are singular."""
    found = []
    for n in (1, 2, 3):
        amounts = [1.0, -2.0, 0.5][:n]
        found.append(Run("forced", amounts, 10.0, mass=identity(n), max_steps=12))
        found.append(Run("forced", amounts, 10.0, max_steps=12))
        # Zero masses: of no reaction, and of one that makes an algebraic system.
        found.append(Run("zero", amounts, mass=[0.0] * (n * n)))
        found.append(Run("zero", amounts, mass=[-0.0] * (n * n), host=True))
        found.append(Run("forced", amounts, 10.0, mass=[0.0] * (n * n), max_steps=6))
    found.append(Run("forced", [1.0, 2.0], 10.0, mass=[2.0, 1.0, -1.0, 0.5], max_steps=20))
    found.append(Run("forced", [1.0, 2.0], 10.0, mass=[1.0, 1.0, 1.0, 1.0], max_steps=20, host=True))
    found.append(Run("linear", [1.0, 2.0], 1.0, 2.0, 2.0, 4.0, mass=[1.0, 2.0, 2.0, 4.0], max_steps=20))
    for book in (False, True):
        two = Run("index2", [0.0, 0.0], mass=diagonal(1.0, 0.0), nind1=1, nind2=1, rtol=1e-4, atol=1e-6, book=book)
        found.append(two)
        found.append(two.copy(nind1=None, host=True))
        three = Run("index3", [0.0, 0.0, 0.0], mass=diagonal(1.0, 1.0, 0.0), nind1=1, nind2=1, nind3=1, rtol=1e-4,
                    atol=1e-6, book=book)
        found.append(three.copy(max_steps=60))
        found.append(three.copy(nind1=None, nind2=None, nind3=2, max_steps=30, dense_output=False))
        found.append(Run("forced", [1.0, 2.0, 3.0], 4.0, nind2=2, nind3=1, max_steps=20, book=book))
        found.append(Run("forced", [1.0, 2.0, 3.0], 4.0, nind1=0, nind2=1, nind3=2, max_steps=20, book=book, rtol=1e-7))
    # A mass so small that only the real matrix is not singular.
    found.append(Run("zero", [1.0], mass=[5e-324], xend=100.0, first_step=6.5, max_steps=6))
    found.append(Run("zero", [1.0], mass=[5e-324], xend=100.0, first_step=6.5, max_steps=6, host=True))
    # A Jacobian whose complex matrix is singular at each step's length.
    for scale in (1.0, 2.0, 2.0**10):
        found.append(Run("rotation", [1.0, 0.5], scale, first_step=1.0 / scale, host=True, xend=4.0))
    # Increments that are finite, with a defect that is not: the zeros of an Identity times
    # infinity, and a NaN for an error.
    for mass in (None, identity(2)):
        for amounts in ([1e304, 2.0], [1.4e304, -1.0], [-1.9e304, 0.0]):
            found.append(Run("linear", amounts, 36.298, 0.0, 0.0, -1.0, mass=mass, newton_tol=1e300, first_step=0.1,
                             max_steps=3))
    # A round that changes nothing where nothing is tolerated: 0 divided by 0.
    found.append(Run("linear", [1.0], -1.0, mass=[0.0], newton_tol=0.0, spoiled=[(6, 3, 0.0)], max_steps=4))
    # Derivatives that are not finite.
    for value in (1e308, INF, -INF, NOT_A_NUMBER):
        for mass in (None, identity(2), diagonal(1.0, 0.0)):
            found.append(Run("constant", [1.0, 2.0], value, 1.0, mass=mass, max_steps=6))
            found.append(Run("constant", [1e300, 2.0], 1.0, value, mass=mass, max_steps=6, host=True, first_step=0.5))
    return found


def runs_of_newton():
    """Jacobians that are wrong by a factor, so that the iteration is slow, or diverges, or needs all its rounds."""
    found = []
    for book in (False, True):
        for factor in (0.0, 0.3, 0.7, 1.3, 2.0, 5.0):
            for rate in (3.0, 40.0, 1e4):
                base = Run("forced", [1.0], rate, host=True, factor=factor, max_steps=12, book=book)
                found.append(base.copy(first_step=0.03))
                found.append(base.copy(y=[1.5], first_step=0.3, newton_maxiter=4, predictive=False))
            found.append(Run("cubic", [1.5], 30.0, host=True, factor=factor, max_steps=12, book=book, first_step=0.02))
            found.append(Run("vdp", [2.0, -0.6], 100.0, host=True, factor=factor, max_steps=12, book=book,
                             first_step=0.01))
        for rounds in (1, 2, 3, 10, 16):
            found.append(Run("forced", [2.0], 60.0, host=True, factor=0.5, newton_maxiter=rounds, max_steps=12,
                             book=book, first_step=0.02))
            found.append(Run("steep", [1.0], 1e3, 1.0, newton_maxiter=rounds, max_steps=12, book=book, first_step=0.1))
        for power in range(0, 7):
            found.append(Run("steep", [1.0, 0.5], 10.0**power, 0.9, max_steps=10, book=book, host=True,
                             first_step=0.01))
        found.append(Run("square", [1.0], 1.0, xend=2.0, book=book, max_steps=20))
        found.append(Run("square", [1.0, 2.0], -3.0, xend=-2.0, book=book, max_steps=20, first_step=0.2))
    return found


def runs_of_limits():
    """Numbers that stand just at a limit."""
    found = []
    # The new step is the old one, or longer by just the factor 1.2.
    for first_step, max_step in ((0.01, 0.01), (0.01, 0.012), (0.02, 0.024), (0.0625, 0.075)):
        found.append(Run("cubic", [1.0], 1.0, first_step=first_step, max_step=max_step, rtol=1e-2, atol=1e-2,
                         max_steps=6))
    # 0 = -y, so that the error is f0, and what the host says is the round's change: an error of 1, and a rate of 0.99.
    algebraic = Run("linear", [1.0], -1.0, mass=[0.0], rtol=1e-3, atol=1e-6, max_steps=4)
    rtol = 0.1 * number(two_thirds(pattern_of(1e-3)))
    scale = rtol * (1e-6 / 1e-3) + rtol
    found.append(algebraic.copy(spoiled=[(0, 1, scale), (3, 3, 0.0), (6, 1, scale)], newton_tol=1e9))
    for change in (1.0, 1.625, 7.0):
        found.append(algebraic.copy(spoiled=[(3, 3, change), (6, 3, change * 0.99)], newton_tol=1e-9))
    # Nothing changes where nothing is tolerated.
    found.append(Run("zero", [1.0], newton_tol=0.0, max_steps=4))
    return found


def runs_of_singulars():
    """A matrix that is singular at the first step alone, attempts that are accepted, and then six that fail in the
    Newton iteration: the latest singular decomposition is old. Amounts of 0 make the host's Jacobian exact; from some
    derivative on it says 1, which with that Jacobian diverges."""
    found = []
    steps = 64.0
    real, alpha, beta = (number * steps for number in (U1, ALPH, BETA))
    for book in (False, True):
        base = Run("linear", [0.0], real, first_step=1.0 / steps, xend=80.0, host=True, spoiled=[(13, 99, 1.0)],
                   max_steps=20, book=book)
        found.append(base)
        found.append(base.copy(y=[0.0, 0.0], numbers=(alpha, -beta, beta, alpha)))
        # E1 at the first step, E2 at its half: the latest is E2's.
        found.append(base.copy(y=[0.0, 0.0, 0.0], numbers=(
            real, 0.0, 0.0, 0.0, 2.0 * alpha, -2.0 * beta, 0.0, 2.0 * beta, 2.0 * alpha)))
    return found


def runs_of_noise():
    """Replies of any sort: NaN and infinities at each place in turn, patterns drawn at random, parts that
    are left as they were."""
    found = []
    base = Run("forced", [1.0, 2.0], 10.0, max_steps=5)
    for value in (NOT_A_NUMBER, INF, -0.0, -1e200):
        for call in range(0, 22, 1 if value != value else 4):
            found.append(base.copy(spoiled=[(call, 1, value)]))
    found.append(base.copy(spoiled=[(0, 99, NOT_A_NUMBER)]))
    found.append(base.copy(spoiled=[(12, 99, INF)], host=True))
    for seed in range(9):
        found.append(Run("noise", [1.0, -1.0], seed * 1000.0, max_steps=6, book=seed % 2 == 1, host=seed % 3 == 0))
        size = 10.0 ** (seed - 4)
        found.append(Run("mild_noise", [1.0], seed * 1000.0, size, max_steps=8, book=seed % 2 == 1, first_step=0.01))
        found.append(Run("mild_noise", [1.0, 2.0, 3.0], seed * 999.0, size, max_steps=6, book=seed % 2 == 0,
                         mass=identity(3)))
    found.append(Run("silent", [1.0, 2.0], max_steps=5))
    found.append(Run("silent", [1.0], max_steps=5, dense_output=False))
    return found


def runs_of_jacobians():
    """The book rule's question after a failed attempt (02, [1]): a Jacobian of another point, or one of this, for each
    kind of failure. Two rounds to the first acceptance leave a small rate behind, and with it the Jacobian."""
    found = []
    # A matrix is singular at one step's length: at the first, or at the second, which is eight times as long. Between
    # them the point stays, is put where it stands, or is moved.
    real = Run("linear", [1.0], 4.0, xend=4.0, rtol=1e6, atol=1e6, newton_tol=1e-12, host=True, book=True, max_steps=5)
    both = Run("rotation", [1.0, 0.5], 1.0, xend=4.0, rtol=1e6, atol=1e6, newton_tol=1e-12, host=True, book=True,
               max_steps=5)
    for run, step in ((real, U1 / 4.0), (both, 1.0)):
        found.append(run.copy(first_step=step))
        for told in (CONTINUE, modified(0.0, 1.0), modified(0.25, 2.0)):
            found.append(run.copy(first_step=step / 8.0, reports=[CONTINUE, told]))
    # The host moves the amounts, so that the Jacobian in hand is wrong, or the step too long.
    cubic = Run("cubic", [1.0], 1.0, first_step=0.01, newton_tol=1e-6, book=True, max_steps=6)
    for host in (True, False):
        for factor in (1.0, 2.0, 4.0, 10.0):
            found.append(cubic.copy(host=host, reports=[CONTINUE, modified(0.0, factor)]))
            found.append(cubic.copy(host=host, reports=[CONTINUE] * 2 + [modified(0.5, factor)], newton_tol=None))
    # A linear system's Jacobian stays right; the step is too long for the amounts that the host writes.
    fall = Run("linear", [1e-3], -4.0, xend=4.0, first_step=0.1, rtol=1e-3, atol=1e-3, newton_tol=1e-12, host=True,
               book=True, max_steps=6)
    return found + [fall.copy(reports=[CONTINUE, modified(0.0, 1e6)])]


# Each notices a slip in the Rust's text that no other stored run notices (tests/repository/slips.py). They were found
# by drawing openings and hosts, and by moving one number to where the Rust goes another way.
NOTICING = [
    Run(
        "constant", [1.4075782613523384, 2.0, 1.0], 1.0, 1.0, 22.908461556444617, rtol=1.1550442095597626e-05,
        atol=3.276276525514382e-10, max_steps=8, scale_min=0.001, scale_max=1000000.0, first_step=0.125, nind2=1,
        nind3=0, predictive=False, mass=[0.0, 0.0, 0.0, 0.0, 0.0, 0.0, 0.0, 0.0, 0.0],
        spoiled=[(13, 1, 1.0), (40, 1, -0.0), (17, 2, NOT_A_NUMBER)],
    ),
    Run(
        "constant", [0.5], 1.669246383097098e-164, rtol=2.3546159771763715e-05, atol=0.00019869365820076733,
        max_steps=2, max_step=0.1, newton_tol=0.0, first_step=1.5, nind2=0, nind3=0, host=True,
        spoiled=[(1, 3, 1000.0)],
    ),
    Run(
        "constant", [0.0], 9.803146248550826e-165, rtol=0.9548044277593682, atol=0.0006206315996743471,
        max_steps=6, newton_tol=5e-324, first_step=0.25, dense_output=False, host=True, factor=2.0,
        spoiled=[(8, 20, 1000000.0), (44, 20, NOT_A_NUMBER), (24, 3, NOT_A_NUMBER)],
    ),
    Run(
        "cubic", [-1.1645090084494054], 0.3798850454428301, xend=-1.0, rtol=1.4315745518030636e-06,
        atol=0.7154355372731651, max_steps=2, newton_maxiter=2, first_step=1.0, host=True, factor=1.1,
    ),
    Run(
        "cubic", [1.0], 1.0, rtol=0.01, atol=0.01, max_steps=3, max_step=0.015917831017502406,
        first_step=0.013264859181252007,
    ),
    Run(
        "cubic", [1.0], 1.0, rtol=0.01, atol=0.01, max_steps=8, newton_maxiter=4, max_step=0.05290976671130266,
        first_step=0.04582259444687793, spoiled=[(11, 3, -1000000.0)],
    ),
    Run(
        "forced", [1.0], 1.0, xend=0.2525014858483433, rtol=0.01, atol=0.01, max_steps=8, newton_maxiter=2,
        first_step=0.23884702362929622, nind2=1, spoiled=[(13, 1, 100.0)],
    ),
    Run(
        "forced", [2.0], 4.476349858280224, rtol=9.148542103033465e-08, atol=0.00010910613790111253, max_steps=4,
        min_step=0.1, newton_tol=0.04828878743730142, first_step=0.25, nind2=1, nind3=0, dense_output=False,
        host=True, mass=[0.0], factor=0.7,
    ),
    Run(
        "forced", [2.0], 0.5899878249795002, xend=-1.0, rtol=1.1526697189276518e-05, atol=8.73622301311689e-09,
        max_steps=8, newton_maxiter=1, uround=1.1904226052408615e-08, newton_tol=0.0, nind2=1, nind3=0,
        predictive=False, mass=[1.0],
        reports=[moved(0.2625118160762505), moved(0.47205487380902544), modified(0.01, 0.1)],
        spoiled=[(43, 1, 0.0)],
    ),
    Run(
        "forced", [1.0], 1.0, xend=0.4799601589629867, rtol=0.01, atol=0.01, max_steps=8, newton_maxiter=2,
        first_step=0.2947498890421514, nind2=1, spoiled=[(9, 3, 10.0)],
    ),
    Run(
        "index2", [0.0, 0.0], rtol=0.08078828502323455, atol=0.0919009085291476, max_steps=3,
        uround=1.9122932745992478e-13, scale_min=0.9, scale_max=1.1, newton_tol=0.0, first_step=0.5, nind1=1,
        nind2=1, dense_output=False, host=True, mass=[1.0, 0.0, 0.0, 0.0], spoiled=[(18, 1, 1000.0)],
    ),
    Run(
        "index3", [0.0, 0.0, 0.0], rtol=[1.8096564940695488e-08, 0.010601189674159676, 0.02962817298474534],
        atol=[7.645299152081125e-09, 0.0001644319282903311, 7.789708800567361e-08], max_steps=10,
        newton_maxiter=4, max_step=0.3444159272609677, nind1=1, nind2=1, nind3=1, predictive=False,
        dense_output=False, host=True, mass=[1.0, 0.0, 0.0, 0.0, 1.0, 0.0, 0.0, 0.0, 0.0],
        spoiled=[(13, 3, 7.407463621981464), (12, 1, 1.0)],
    ),
    Run(
        "linear", [-1.0], -1000.0, xend=-1.0, rtol=0.0012068884931805558, max_steps=6, newton_maxiter=3,
        newton_tol=1000000000.0, first_step=0.21430735301496107, nind2=1, nind3=0, host=True, mass=[1.0],
        factor=0.9, reports=[modified(0.01, 0.1), INTERRUPT], spoiled=[(15, 20, NOT_A_NUMBER)],
    ),
    Run(
        "linear", [0.0, 0.0], 0.3, 1.0, 0.2, -0.5, xend=-4.0, max_steps=2, first_step=0.19880831673162935,
        host=True, mass=[1.0, 1.0, 0.0, 1.0], factor=1.8578062109858262,
    ),
    Run(
        "linear", [0.5], -11.422511183570158, xend=1.0513749873197713, rtol=0.0005933715090356143,
        atol=3.312558277998567e-08, max_steps=8, newton_maxiter=6, scale_min=0.9, scale_max=1.1,
        first_step=1.5996301470976177e-06, host=True, factor=0.3,
        reports=[modified(0.0, 1.0), moved(0.6839312220843649), moved(0.7611414386007059), INTERRUPT],
    ),
    Run(
        "linear", [1.0], -1.0, max_steps=4, newton_tol=1000000000.0, mass=[0.0],
        spoiled=[(0, 1, 0.001001), (3, 3, 0.0), (6, 1, 0.001001)],
    ),
    Run(
        "linear", [1.0], -1.0, max_steps=4, scale_max=1000000.0, newton_tol=1000000000.0, mass=[0.0],
        spoiled=[(0, 1, 0.0010009999999999997), (3, 3, 0.0), (6, 1, 0.0)],
    ),
    Run(
        "linear", [1.0], -1.0, max_steps=4, newton_tol=1.0, mass=[0.0],
        spoiled=[(3, 3, 7.0), (6, 3, 0.006999999999999998)],
    ),
    Run(
        "linear", [1.0], -1.0, max_steps=3, newton_maxiter=3, max_step=0.275, newton_tol=-0.0, first_step=0.25,
        mass=[0.0],
        spoiled=[(0, 1, 0.0), (3, 3, 1.0), (6, 3, 0.0), (9, 1, 0.0), (10, 3, 1.0), (13, 3, 0.9), (16, 3, 0.8),
                 (19, 99, 0.0)],
    ),
    Run("linear", [1.0], -1.0, max_steps=4, newton_tol=1.0, mass=[0.0], spoiled=[(3, 3, 1.0), (6, 3, 0.001)]),
    Run(
        "linear", [1.0], -1.0, max_steps=4, newton_tol=1.0, mass=[0.0],
        spoiled=[(3, 3, 1.0), (6, 3, 0.9899999999999999)],
    ),
    Run(
        "mild_noise", [0.5, 0.0], 92980.0, 0.07913114091920069, xend=10.0, rtol=3.1939134828201555e-05,
        atol=1.7075543221503465e-06, max_steps=4, scale_min=0.01, scale_max=100.0, min_step=0.1, nind2=1,
        nind3=1, predictive=False, host=True, mass=[5e-324, 0.0, 0.0, 1.0], factor=0.0,
        reports=[CONTINUE, modified(-0.1, 1.0)],
    ),
    Run(
        "noise", [0.0, -0.8873619519200093, -1.0], 81488.0, max_steps=1, safety_factor=0.8154623491047129,
        nind2=0, nind3=0, dense_output=False, reports=[moved(0.2851394914136285)],
    ),
    Run(
        "noise", [-1.0, 2.0], 51399.0, rtol=[8.72974667380172e-07, 7.4888150122716875e-06],
        atol=[1.2007787956680693e-06, 0.004497174907243097], max_steps=4, safety_factor=0.7581833874294666,
        newton_tol=1000000000.0, first_step=0.001683136059955876, nind2=1, nind3=0, mass=[1.0, 0.0, 0.0, 0.0],
        reports=[moved(0.9225176306975846), CONTINUE],
        spoiled=[(14, 20, 1000000.0), (20, 1, -1000000.0), (3, 6, -1000000.0)],
    ),
    Run(
        "robertson", [1.0, 0.0, 0.0], 0.0, max_steps=6, scale_min=0.01, scale_max=100.0,
        first_step=0.011537638822704423, nind2=0, nind3=1, predictive=False,
        reports=[CONTINUE, modified(0.0, 1.0), modified(-0.1, 1.0)],
    ),
    Run("rotation", [1.0, 0.5, 0.25], 2.0, xend=0.25, max_steps=4, first_step=0.5, nind2=2, host=True),
    Run(
        "square", [2.0], -3.5713052833388046, rtol=0.8860218580845964, atol=9.577762005205305e-06, max_steps=8,
        max_step=0.1, newton_tol=0.009393745408302604, first_step=0.5, nind2=1, nind3=0, predictive=False,
        mass=[5e-324], spoiled=[(31, 1, 5.536328354553163), (0, 2, -1.4893883670913546), (46, 6, -1000000.0)],
    ),
    Run(
        "zero", [1.0], xend=10.0, max_steps=4, scale_min=0.0001, scale_max=1000000.0, first_step=0.05, host=True,
        spoiled=[(6, 1, 30000000.0)],
    ),
    Run(
        "zero", [1.0, 1.0], xend=100.0, max_steps=3, first_step=6.5, nind2=1, host=True,
        mass=[5e-324, 0.0, 0.0, 5e-324],
    ),
    Run(
        "zero", [1.0], xend=10.0, max_steps=3, safety_factor=0.8, scale_min=1e-07, scale_max=1000000.0,
        first_step=0.3, spoiled=[(6, 1, 1e+20)],
    ),
    Run("zero", [1.0], x0=1.1, xend=2.1, max_steps=1, uround=0.0013, first_step=0.014300000000000002),
    Run(
        "zero", [1.0], xend=0.50005, max_steps=4, scale_min=0.0001, scale_max=1000000.0, max_step=0.5,
        first_step=0.5,
    ),
    Run("zero", [1.0], x0=0.1, max_steps=6, max_step=0.3, first_step=0.3, dense_output=False, reports=[mark(0.4)]),
    Run(
        "constant", [1.0], 4.542497366459236e-160, xend=0.5435928955848864, rtol=5.63949210703925e-07,
        atol=0.00012251034911709864, max_steps=6, newton_maxiter=5, uround=1e-06, scale_min=0.5, scale_max=1.3,
        newton_tol=5e-324, nind2=0, nind3=0, book=True, mass=[0.26164996219656955],
        reports=[modified(-0.1, 1.5), CONTINUE, mark(0.390575043260596)],
        spoiled=[(43, 1, 1000.0), (29, 2, 0.001)],
    ),
    Run(
        "constant", [0.0], 4.285740320851619e-165, x0=0.16861659587320244, xend=-1.0,
        rtol=1.4141700545474276e-08, atol=0.0004528687299554, max_steps=10, newton_maxiter=5, newton_tol=1e-162,
        first_step=0.5, predictive=False, dense_output=False, host=True, book=True, mass=[-0.07241778239631036],
        factor=0.99,
    ),
    Run(
        "cubic", [1.0], 1.0, rtol=0.01, atol=0.01, max_steps=3, max_step=0.03355915416734428,
        first_step=0.027965961806120238, book=True,
    ),
    Run(
        "cubic", [1.0], 1.0, rtol=0.01, atol=0.01, max_steps=3, max_step=0.035915460210848904,
        first_step=0.02992955017570742, book=True,
    ),
    Run(
        "cubic", [1.0], 1.0, rtol=0.01, atol=0.01, max_steps=8, newton_maxiter=10, max_step=0.03638847718613322,
        first_step=0.03503874560017588, nind2=1, book=True, spoiled=[(23, 6, 1000.0)],
    ),
    Run(
        "cubic", [2.0], 2.5631419403080273, xend=0.8960553773195885, rtol=0.0033650420446706447,
        atol=0.001595805404948062, max_steps=3, scale_min=0.001, scale_max=1000000.0, newton_tol=1e+300,
        first_step=0.5, predictive=False, host=True, book=True, factor=1.0398945950264282,
    ),
    Run(
        "cubic", [1.0, 2.0, 2.0], 5.466712910784259, max_steps=1, uround=4.1815770184919245e-15, max_step=0.3,
        first_step=0.5, book=True, mass=[5e-324, 0.0, 0.0, 0.0, 1.0, 0.0, 0.0, 0.0, 1.0],
    ),
    Run(
        "cubic", [1.0], 1.0, rtol=0.01, atol=0.01, max_steps=8, max_step=0.03842671998133458,
        first_step=0.03718058807454526, book=True, spoiled=[(10, 20, 1000.0)],
    ),
    Run(
        "cubic", [0.5], 1.5649200465216426, xend=1.0543678381211048, max_steps=5, first_step=0.125, nind2=0,
        nind3=1, book=True, spoiled=[(45, 3, INF), (32, 1, -1000000.0), (39, 20, 1.0)],
    ),
    Run("forced", [1.0], 50.0, max_steps=3, book=True, reports=[CONTINUE, moved(-INF)]),
    Run("forced", [1.0], 50.0, max_steps=12, book=True, reports=[INTERRUPT]),
    Run(
        "forced", [1.0], 1.0, xend=0.33060767683668996, rtol=0.01, atol=0.01, max_steps=8, newton_maxiter=2,
        first_step=0.2862481946125218, book=True, spoiled=[(10, 3, 1000.0)],
    ),
    Run(
        "forced", [0.0, 1.0], 7131.553700576165, xend=0.3, rtol=[1.1392122538764811e-07, 0.014668176451561302],
        atol=[3.0376431664640795e-08, 1.593554810861168e-07], max_steps=5, uround=0.0015932531070125585,
        first_step=0.3, nind2=2, nind3=0, predictive=False, host=True, book=True, mass=[1.0, 0.0, 0.0, 1.0],
        factor=2.0, reports=[CONTINUE, INTERRUPT, moved(0.40308974775613216), CONTINUE],
        spoiled=[(44, 2, 1e-160)],
    ),
    Run(
        "index3", [0.0, 0.0, 0.0], xend=0.3, rtol=4.008714383350679e-06, atol=0.08951491719121295, max_steps=4,
        scale_max=1000000.0, newton_tol=1000000000.0, first_step=0.125, nind1=1, nind2=1, nind3=1, book=True,
        mass=[1.0, 0.0, 0.0, 0.0, 1.0, 0.0, 0.0, 0.0, 0.0], spoiled=[(8, 6, 1.0)],
    ),
    Run(
        "linear", [1.0], -1.0, max_steps=3, newton_maxiter=3, max_step=0.275, newton_tol=-0.0, first_step=0.25,
        book=True, mass=[0.0],
        spoiled=[(0, 1, 0.0), (3, 3, 1.0), (6, 3, 0.0), (9, 1, 0.0), (10, 3, 1.0), (13, 3, 0.5), (16, 3, 0.25),
                 (19, 99, 0.0)],
    ),
    Run(
        "linear", [0.0, 0.0], 1.0, 2.6810828736277523, -0.5, 0.0, xend=4.0, max_steps=1, first_step=1.0,
        host=True, book=True, mass=[0.0, 1.0, 0.0, -0.0],
    ),
    Run(
        "linear", [0.0, 0.0], 1.0, 0.0, 0.0, 1.0, xend=-4.0, max_steps=2, first_step=0.5195307314203781,
        host=True, book=True, factor=0.7109248852514963,
    ),
    Run(
        "linear", [0.0], 1.0, xend=-4.0, max_steps=2, first_step=0.7681004245165232, host=True, book=True,
        factor=0.4808581193691462,
    ),
    Run(
        "linear", [1.0], -1.0, max_steps=4, scale_max=1000000.0, newton_tol=1000000000.0, book=True, mass=[0.0],
        spoiled=[(0, 1, 0.0010009999999999997), (3, 3, 0.0), (6, 1, 0.0)],
    ),
    Run(
        "linear", [0.0, 0.0], 1.0, 1.0, 1.0, 0.2, xend=-4.0, max_steps=2, first_step=0.7681004245165232,
        host=True, book=True, mass=[2.0, 1.0, 1.0, 1.0], factor=-3.4905368986292986,
    ),
    Run(
        "linear", [1.0], -1.0, max_steps=4, newton_tol=1000000000.0, book=True, mass=[0.0],
        spoiled=[(0, 1, 0.0020019999999999994), (3, 3, 0.0), (6, 1, 0.0010009999999999997)],
    ),
    Run(
        "linear", [1.0], -1.0, max_steps=4, newton_tol=1e-09, book=True, mass=[0.0],
        spoiled=[(3, 3, 1.625), (6, 3, 1.60875)],
    ),
    Run(
        "linear", [0.0, 0.0], 0.0, 1.0, 1.0, 0.0, xend=-4.0, max_steps=2, first_step=0.9723690905735037,
        host=True, book=True, mass=[1.0, -1.0, 0.5, 1.0], factor=-2.757268715777924,
    ),
    Run(
        "linear", [1.0], -1.0, max_steps=3, newton_maxiter=3, max_step=0.011, newton_tol=-0.0, first_step=0.01,
        book=True, mass=[0.0],
        spoiled=[(0, 1, 0.0), (3, 3, 1.0), (6, 3, 0.0), (9, 1, 0.0), (10, 3, 1.0), (13, 3, 2.0), (19, 99, 0.0)],
    ),
    Run(
        "linear", [1.0], -1.0, max_steps=4, newton_tol=1000000000.0, book=True, mass=[0.0],
        spoiled=[(0, 1, 0.001001), (3, 3, 0.0), (6, 1, 0.001001)],
    ),
    Run(
        "linear", [1.0], -1.0, max_steps=4, newton_tol=1.0, book=True, mass=[0.0],
        spoiled=[(3, 3, 1.1), (6, 3, 0.0011)],
    ),
    Run(
        "linear", [1.0], -1.0, max_steps=4, newton_tol=0.001, book=True, mass=[0.0],
        spoiled=[(3, 3, 1000.0), (6, 3, 989.9999999999999)],
    ),
    Run(
        "linear", [1.0], -1.0, max_steps=4, newton_tol=1.0, book=True, mass=[0.0],
        spoiled=[(3, 3, 1.0), (6, 3, 0.001)],
    ),
    Run(
        "linear", [1.0], -1.0, rtol=0.01, atol=0.01, max_steps=4, scale_min=0.5, scale_max=1.1, newton_tol=1e-30,
        first_step=0.2, nind2=1, book=True,
    ),
    Run(
        "mild_noise", [-1.0], 59834.0, 0.00021005020284019701, xend=1.9647680988292044,
        rtol=0.0008260707042900795, max_steps=5, safety_factor=0.366031387423871, first_step=1.9647680988292044,
        host=True, book=True, factor=0.7, spoiled=[(23, 3, 1.0)],
    ),
    Run(
        "robertson", [1.0, 0.0, 0.0], 0.0, xend=0.8046517250089231, max_steps=1, newton_maxiter=3,
        min_step=0.04023258625044616, first_step=0.00046150283236146635, book=True,
        spoiled=[(48, 20, 0.0), (41, 2, 0.001)],
    ),
    Run(
        "robertson", [1.0, 0.0, 0.0], 0.0, x0=-0.3998374414816559, rtol=9.29187982535405e-08,
        atol=0.012363140168495866, max_steps=8, newton_maxiter=4, predictive=False, host=True, book=True,
        spoiled=[(11, 6, 0.0), (22, 20, -1000000.0)],
    ),
    Run("rotation", [1.0, 0.5], 1.0, xend=4.0, max_steps=2, first_step=1.0, nind3=1, host=True, book=True),
    Run("linear", [1.0], 4.0, xend=4.0, max_steps=3, first_step=U1 / 4.0, nind2=1, host=True, book=True),
    Run("linear", [1.0], 4.0, xend=4.0, max_steps=3, first_step=U1 / 4.0, nind3=1, host=True, book=True),
    Run(
        "linear", [1.0], 4.0, x0=-U1 / 32.0, xend=U1 / 4.0, rtol=1e6, atol=1e6, max_steps=5, newton_tol=1e-12,
        first_step=U1 / 32.0, host=True, book=True,
    ),
    Run(
        "forced", [1.36, 1.1, -1.0], 37.8, rtol=0.01, atol=0.0001, max_steps=4, first_step=0.02, dense_output=False,
        host=True, book=True,
    ),
    Run("zero", [1.0], mass=[5e-324], xend=1e3, max_steps=6, first_step=104.0, book=True),
    Run("zero", [1.0], mass=[5e-324], xend=1e3, max_steps=6, first_step=208.0, book=True),
    Run("rotation", [1.0, 0.5, 0.25], 2.0, xend=0.25, max_steps=4, first_step=0.5, nind2=2, host=True, book=True),
    Run(
        "square", [0.1576809249524196, 2.0, 0.0], 0.347662114239502, xend=1.3618226647195644, max_steps=4,
        uround=9.497361824124589e-06, scale_max=1000000.0, first_step=2.0427339970793463, book=True,
    ),
    Run(
        "square", [0.5, 1.0, 2.0], 1.4620436886916854, xend=-1.0,
        rtol=[5.743556849231637e-07, 0.09948192483993137, 2.795550173763086e-07],
        atol=[0.0005610218619200959, 0.0006691076911300148, 2.079583768698044e-09], max_steps=8,
        dense_output=False, host=True, book=True, factor=0.7, spoiled=[(19, 6, 1.0)],
    ),
    Run(
        "steep", [1.0], 1.7210500498242076, 0.9, max_steps=3, newton_maxiter=4, uround=0.0057160625874959564,
        first_step=0.23387723108061895, host=True, book=True, factor=1.3,
    ),
    Run(
        "steep", [1.0], 9295.996176018818, 0.9391674593801538, xend=0.35000835532148755, max_steps=8,
        newton_maxiter=1, first_step=0.12116350127292703, nind2=1, host=True, book=True,
    ),
    Run(
        "steep", [0.0, 2.0], 14212.741862384022, 0.6765009340349658, x0=0.11560722646397692,
        xend=8.4664676249588, rtol=3.5105335835251784e-08, atol=0.0103202958990961, max_steps=3,
        newton_maxiter=2, first_step=0.25, nind2=1, nind3=0, host=True, book=True, mass=[5e-324, 0.0, 0.0, 1.0],
        reports=[CONTINUE, CONTINUE], spoiled=[(40, 2, 1000000.0)],
    ),
    Run(
        "vdp", [2.0, -0.6], 1.8582320899807747, xend=-1.0, max_steps=1, newton_tol=0.0,
        first_step=0.05756895207985482, nind2=0, nind3=0, dense_output=False, host=True, book=True,
        mass=[0.0, 0.0, 0.0, 0.0], factor=0.99,
    ),
    Run(
        "zero", [1.0, 1.0], xend=100.0, max_steps=3, first_step=7.0, nind2=1, host=True, book=True,
        mass=[5e-324, 0.0, 0.0, 5e-324],
    ),
    Run(
        "zero", [1.0], x0=-0.25, xend=0.3, max_steps=6, max_step=0.3, first_step=0.3, dense_output=False,
        book=True, reports=[mark(0.04999999999999999)],
    ),
    Run(
        "zero", [1.0], xend=10.0, max_steps=4, safety_factor=0.7, scale_min=0.0001, scale_max=1000000.0,
        first_step=0.3, host=True, book=True, spoiled=[(6, 1, 30000000.0)],
    ),
    Run(
        "zero", [1.0], max_steps=5, max_step=0.25, first_step=0.25, dense_output=False, book=True,
        reports=[CONTINUE, INTERRUPT],
    ),
    Run(
        "zero", [1.0], xend=10.0, max_steps=3, safety_factor=0.8, scale_min=1e-07, scale_max=1000000.0,
        first_step=0.3, book=True, spoiled=[(6, 1, 1e+21)],
    ),
    Run("zero", [1.0], x0=1.0, xend=2.0, max_steps=1, uround=0.003, first_step=0.030000000000000002, book=True),
    Run(
        "zero", [1.0], xend=0.300003, max_steps=4, scale_min=0.0001, scale_max=1000000.0, max_step=0.3,
        first_step=0.3, book=True,
    ),
    Run(
        "zero", [1.0], max_steps=5, max_step=0.25, first_step=0.25, dense_output=False, book=True,
        reports=[CONTINUE, mark(0.25)],
    ),
]


def every_run():
    found = [run for run, _ in FIGURES]
    for make in (runs_of_reports, runs_of_systems, runs_of_settings, runs_of_masses, runs_of_newton, runs_of_limits,
                 runs_of_singulars, runs_of_noise, runs_of_jacobians):
        found += make()
    return found + NOTICING


# --- What the Rust answers -----------------------------------------------------------------------


def answers_of(program, runs):
    """For each run the words of its requests, and how often each branch was taken."""
    asked = "".join(run.line(number + 1) + "\n" for number, run in enumerate(runs))
    done = subprocess.run([program], input=asked, capture_output=True, text=True)
    insist(done.returncode == 0, f"the Rust's program stopped:\n{done.stderr}")
    lines = done.stdout.splitlines()
    counts = dict(reversed(line.split(" ", 1)) for line in lines[len(runs):])
    return [[int(word, 16) for word in line.split()] for line in lines[: len(runs)]], counts


# The kinds of request, and how many words follow a head and its hash: the floats, and for each
# reply the words of n amounts.
KINDS = {1: "derivatives", 2: "Jacobians", 3: "reports", 4: "ends"}
PLACES = ("", "y to f0", "cont to z1", "cont to z2", "cont to z3", "cont to f1", "y to f_origin",
          "y_perturbed to f_perturbed")
FILLED, MODIFIED, MARK = 1, 4, 5
RESULT = "h x ode jac lu total accepted rejected kind column smallest largest".split()


def lengths_behind(n, head):
    """How many floats follow a head and its hash, and how many words of a reply or a result follow these."""
    kind, reply = head >> 12, head & 15
    insist(kind in KINDS, "a request has no kind")
    return {1: 1, 2: 1, 3: 2, 4: 0}[kind], {1: n, 2: n * n, 3: {MODIFIED: n + 1, MARK: 1}.get(reply, 0),
                                            4: len(RESULT)}[kind]


def requests_of(n, words):
    """The requests of a run: kind, place, flag, reply, and the words that follow the hash."""
    found, at = [], 0
    while at < len(words):
        end = at + 2 + sum(lengths_behind(n, words[at]))
        found.append((*(words[at] >> shift & 15 for shift in (12, 8, 4, 0)), words[at + 2 : end]))
        at = end
    insist(at == len(words) and found[-1][0] == 4, "the Rust's program wrote a run with no end")
    return found


def try_figures(answers):
    """The runs that document 01 tells of have its figures."""
    for (run, figures), words in zip(FIGURES, answers):
        kind, _, status, _, said = requests_of(len(run.y), words)[-1]
        result = dict(zip(RESULT, said))
        gave = (status, *(result[name] for name in "accepted rejected total ode jac lu".split()))
        same = all(wanted is None or wanted == number for wanted, number in zip(figures, gave))
        insist(same, f"a run of document 01 has the figures {gave}, and is to have {figures}")


def try_branches(counts):
    """Every branch that is counted was taken, but for those that no run can take."""
    missing = [name for name in rust_solve.names_counted() if name not in counts]
    insist(not missing, f"no run takes these branches: {missing}")
    unknown = [name for name in counts if name not in rust_solve.names_counted()]
    insist(not unknown, f"these branches were taken and are not known: {unknown}")


# Branches of the advance that no run takes, and why.
NEVER = {
    "advance: 12": "14 stands before it",
    "advance: Step::Matrices": "six passes settle the matrices",
    "passes: Ok(()), again": "only a matrix that is singular is asked for its column",
    "passes: Err(DecompositionError::Order)": "the order fits",
    "passes: Err(DecompositionError::Length)": "the lengths fit",
    "notes: if stride != stride: yes": "no h of these runs is a NaN; tests/c/c_replay.c forges one",
    "report: Reply::Filled": "15 stands before it",
    "stage: _, again": "no advance leads back to the first derivative",
}


def try_our_branches(counts):
    """Every branch of the advance was taken, but for those that can't be."""
    missing = [name for name, count in counts.items() if not count]
    insist(sorted(missing) == sorted(NEVER), f"no run takes these branches of the advance: {missing}")


def table(counts):
    return [f"{counts.get(name, '0'):>8} {name}" for name in rust_solve.names_counted()]


# --- Beside the advance ----------------------------------------------------------------------------


def replayed(folder, runs):
    """Runs the Rust and the advance side by side. Gives what the program tells, and how often each branch of
    the advance was taken."""
    libraries, names = port.build()
    root = rust_solve.make_crate(folder, TARGET, PROGRAM, f'#[path = "{REPLAY.resolve()}"]\nmod replay;',
                                 "replay::go();")
    made = rust_solve.compiled(root, "replay", port.linked(libraries, ("state", "opening", "radau_core", "radau")))
    asked = "".join(run.line(number + 1) + "\n" for number, run in enumerate(runs))
    done = subprocess.run([made], input=asked, capture_output=True, text=True)
    insist(done.returncode == 0, f"the comparison stopped:\n{done.stderr}")
    *told, counts = done.stdout.splitlines()
    return "\n".join(told), dict(zip(names, map(int, counts.split()), strict=True))


def check(folder):
    rust_text.compared(folder)
    runs = every_run()
    answers, counts = answers_of(build(folder), runs)
    try_figures(answers)
    try_branches(counts)
    told, ours = replayed(folder, runs)
    insist(told.endswith(" 0 differ"), told)
    try_our_branches(ours)
    print(f"{told}; of the Rust's branches {len(counts)} are counted, of the advance's {len(ours)}, and each is taken "
          f"but for {len(NEVER)} that can't be")


def branches(folder):
    rust_text.compared(folder)
    runs = every_run()
    counts, ours = answers_of(build(folder), runs)[1], replayed(folder, runs)[1]
    print("\n".join(table(counts)))
    print("\n".join(f"{count:>8} {name}" for name, count in ours.items()))
    try_branches(counts)
    try_our_branches(ours)


def main(words):
    acts = {"check": check, "branches": branches}
    name, folder = command.act(__doc__, words, acts)
    acts[name](rust_text.find(folder))


if __name__ == "__main__":
    main(sys.argv[1:])
