"""One run over the proved calls: its memory, its requests, its steps. Nothing here decides anything."""

import ctypes
import math
import operator
import warnings

from . import _numbers as numbers
from ._errors import Refused, ShortenedStep
from ._library import C_TYPES, library

# Of each place the part that has the amounts, and the part to fill.
PLACES = {
    number: tuple(name.removeprefix("PLACE_").lower().split("_to_"))
    for name, number in vars(numbers).items()
    if name.startswith("PLACE_") and "_TO_" in name
}


def whole(name, value):
    """A whole number as C takes it. ctypes would cut one that is too large, and another number would be judged."""
    number = operator.index(value)
    if not 0 <= number < 2**64:
        raise ValueError(f"{name} is {number}, which is not 0 to 2^64 - 1")
    return number


def insist(refused):
    if refused:
        raise Refused(refused)


class Opening:
    """What a run is opened with: the settings, which begin with the defaults, and what stands beside them."""

    def __init__(self, x0, xend, y0):
        self.x0, self.xend, self.y0 = float(x0), float(xend), [float(amount) for amount in y0]
        self.n = len(self.y0)
        self.numbers = (ctypes.c_uint64 * numbers.NUMBERS)()
        self.floats = (ctypes.c_double * numbers.FLOATS)()
        self.given = {"y": self.y0}
        self.lists, self.rtol, self.atol = 0, 0.0, 0.0
        library().default_settings(self.numbers, self.floats)


class Step:
    """A step of a run, from `xold` to `x`, to read amounts off. `h` is the step that its coefficients belong to."""

    def __init__(self, xold, x, h, y, coefficients):
        self.xold, self.x, self.h, self.y = xold, x, h, y
        self._coefficients = coefficients

    def passes(self, t):
        return self.xold < t <= self.x or self.xold > t >= self.x

    def leaves_out(self, t):
        """Whether t was passed and lies between the end of the coefficients and x, as after a shortened step."""
        low, high = self.bounds()
        return self.passes(t) and t != self.x and not low <= t <= high

    def bounds(self):
        """The ends of the held step, the left one first."""
        ends = (ctypes.c_double * 2)()
        library().bounds(self.xold, self.h, ends)
        return tuple(ends)

    def __call__(self, t):
        """The amounts at t: those reached if t is x, else those that the coefficients give, beyond the step too; but
        NaN, with a warning, where the step leaves t out."""
        if t == self.x:
            return list(self.y)
        if self.leaves_out(t):
            text = f"the step to {self.x!r} was shortened under the Rust rule, and has no amounts at {t!r}"
            warnings.warn(text, ShortenedStep, stacklevel=2)
            return [math.nan] * len(self.y)
        amounts = (ctypes.c_double * len(self.y))()
        count = len(self._coefficients)
        insist(library().interpolate(t, amounts, len(amounts), self._coefficients, count, self.xold, self.h))
        return list(amounts)


class Run:
    """An open run with its memory. `kind`, `place`, `flag` and `at` tell what it asks."""

    def __init__(self, opening):
        self._library = library()
        self.n = opening.n
        self._words = (ctypes.c_size_t * numbers.STATE_WORDS)()
        self._doubles = (ctypes.c_double * numbers.STATE_DOUBLES)()
        self._told = (ctypes.c_uint64 * numbers.TOLD)()
        self.at = (ctypes.c_double * numbers.AT)()
        # More amounts than a run can have are refused, whatever is lent.
        held = min(self.n, numbers.MOST)
        lengths = {name: linear * held + square * held * held for name, _, linear, square in numbers.PARTS}
        lengths |= {name: len(values) for name, values in opening.given.items()}
        self.parts = {name: (C_TYPES[item] * lengths[name])() for name, item, _, _ in numbers.PARTS}
        self._lent = [word for part in self.parts.values() for word in (part, len(part))]
        for name, values in opening.given.items():
            self.parts[name][:] = values
        beginning = (opening.numbers, opening.floats, self.n, opening.x0, opening.xend)
        tolerances = (opening.lists, opening.rtol, opening.atol)
        state = (self._words, self._doubles)
        insist(self._library.open(*beginning, *tolerances, *state, self._told, self.at, *self._lent))

    def advance(self, reply, value=0.0):
        insist(self._library.advance(self._words, self._doubles, reply, value, self._told, self.at, *self._lent))

    @property
    def kind(self):
        return self._told[numbers.TOLD_KIND]

    @property
    def flag(self):
        return self._told[numbers.TOLD_FLAG]

    @property
    def place(self):
        """Of a derivative: the part that has the amounts, and the part to fill."""
        return PLACES[self._told[numbers.TOLD_PLACE]]

    def amounts(self, name="y"):
        return self.parts[name][: self.n]

    def fill(self, name, values):
        self.parts[name][:] = values

    def step(self):
        """The step that a report tells of, or None where it offers no coefficients."""
        return self.held() if self.flag else None

    def held(self):
        """The step that is held at a report after the first, its coefficients offered or not."""
        held, coefficients = self._library.held_step(self._words, self._doubles), self.parts["cont"]
        return Step(self.at[0], self.at[1], held, self.amounts(), type(coefficients)(*coefficients))

    def result(self):
        """How it ended: status and counts, and the doubles, each by its name in the header."""
        counts = (ctypes.c_uint64 * numbers.RESULT_NUMBERS)()
        floats = (ctypes.c_double * numbers.RESULT_FLOATS)()
        insist(self._library.result(self._words, self._doubles, counts, floats))
        return counts, floats
