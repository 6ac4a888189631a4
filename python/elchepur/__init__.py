"""The stiff solver RADAU (Radau IIA, order 5), proved in Rattle: the library behind include/elchepur.h, for Python.

`solve` runs a problem of one's own, whose last steps a `Shelf` keeps, `forecast` a model sheet, which `Sheet` reads and
writes; `totals` adds up the status lines of many. A result is a run that succeeded: every other end raises, unless one
asks with `check=False` to be told by the result. README.md beside this folder says how to get the library."""

from ._errors import BrokenOff, Error, NoLibrary, Refused, ShortenedStep, Unproved
from ._library import load
from ._nights import Night, Totals, totals
from ._run import Step
from ._sheets import Forecast, Sheet, bits_of, double_of, forecast
from ._shelf import Shelf
from ._solving import INTERRUPT, Mark, Modified, Result, Solution, solve
from ._tables import Table, csv_header, csv_record

__all__ = [
    "INTERRUPT",
    "BrokenOff",
    "Error",
    "Forecast",
    "Mark",
    "Modified",
    "Night",
    "NoLibrary",
    "Refused",
    "Result",
    "Sheet",
    "Shelf",
    "ShortenedStep",
    "Solution",
    "Step",
    "Table",
    "Totals",
    "Unproved",
    "bits_of",
    "csv_header",
    "csv_record",
    "double_of",
    "forecast",
    "load",
    "solve",
    "totals",
]
