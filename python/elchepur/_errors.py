"""How a call can fail, and in which words."""

from . import _numbers as numbers

# Of a sheet alone, in words that a line can stand behind.
OF_SHEETS = {20: "what was read is wrong in its line", 21: "the sheet is too long"}

ENDINGS = {
    "SUCCESS": "an attempt aimed at the end point was accepted",
    "USER_INTERRUPT": "a report interrupted the run",
    "NEED_LARGER_NMAX": "max_steps is used up",
    "STEP_SIZE_TOO_SMALL": "the step became too small",
    "SINGULAR_MATRIX": "six times a matrix was singular or Newton's iteration did not converge",
}
STATUSES = {
    number: name.removeprefix("STATUS_") for name, number in vars(numbers).items() if name.startswith("STATUS_")
}


class Error(Exception):
    """What this module raises of its own."""


class NoLibrary(Error):
    """There is no library, or it is not one of this header."""


class Unproved(Error):
    """The library does not carry the mark that the kit puts on proved code."""


class Refused(Error):
    """The solver refused. `number` is document 01's; `line` is the first wrong line of a sheet that is none."""

    def __init__(self, number, line=None):
        self.number, self.line = number, line
        super().__init__(refusal_words(number, line))


class BrokenOff(Error):
    """The run did not come to its end. `result` has how far it came."""

    def __init__(self, result):
        self.result = result
        super().__init__(result.message)


class ShortenedStep(UserWarning):
    """A point lies in a step that the Rust rule had shortened, past what its coefficients reach. There it has NaN."""


def refusal_words(number, line=None):
    words = OF_SHEETS.get(number) or numbers.REFUSALS.get(number) or "a number of document 01"
    return f"refused ({number}): {words}" + (f" {line}" if line is not None else "")


def ending_words(status, x, xend, accepted, rejected):
    name = STATUSES.get(status, "unknown")
    words = ENDINGS.get(name, name)
    if status == numbers.STATUS_SUCCESS:
        return words
    way = f"broken off at x = {x!r}" + (f", on the way to {xend!r}" if xend is not None else "")
    return f"{way}: {words} (status {status}), {accepted} steps accepted, {rejected} rejected"


def singular_words(singular, column):
    """A column belongs to a species, which is counted from 1."""
    if singular is None:
        return ""
    if column is None:
        return "; no matrix was singular"
    return f"; species {column + 1}: the {singular} matrix had no pivot in column {column}"
