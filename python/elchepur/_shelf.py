"""Up to 48 recent steps of a run, kept for questions about past points."""

import ctypes

from . import _numbers as numbers
from ._run import insist
from ._library import library


class Shelf:
    """A shelf of recent steps. Handed to `solve` it keeps each step that the run accepts, and is emptied at the first
    report and where the report answers Modified."""

    def __init__(self):
        self._state = (ctypes.c_size_t * numbers.SHELF)()
        self._ends = (ctypes.c_double * numbers.SHELF_ENDS)()
        self._coefficients = (ctypes.c_double * 0)()
        self.empty()

    def __len__(self):
        return self._state[0]

    def empty(self):
        """Forgets all steps."""
        library().empty_shelf(self._state)

    def put(self, step):
        """Keeps a step; where 48 are kept the oldest gives up its room."""
        cont = step._coefficients
        if not len(self):
            self._coefficients = (ctypes.c_double * (numbers.SHELF_STEPS * len(cont)))()
        insist(library().put_on_shelf(self._state, cont, len(cont), step.xold, step.h, self._coefficients,
                                      len(self._coefficients), self._ends, len(self._ends)))

    def at(self, t):
        """The amounts at t, from the newest kept step whose bounds hold t, ends included; None where none does."""
        amounts = (ctypes.c_double * (len(self._coefficients) // (4 * numbers.SHELF_STEPS)))()
        number = library().ask_shelf(self._state, t, amounts, len(amounts), self._coefficients,
                                     len(self._coefficients), self._ends, len(self._ends))
        if number == numbers.REFUSED_POINT:
            return None
        insist(number)
        return list(amounts)
