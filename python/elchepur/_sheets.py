"""What the program `decay` makes of a model sheet; and a sheet's model, read and written."""

import ctypes
import dataclasses
import os
import struct

from . import _numbers as numbers
from ._errors import BrokenOff, Error, Refused, ending_words, refusal_words
from ._library import library

# What `decay` calls the counts, and what they are called here.
COUNTS = {"accepted": "accepted", "rejected": "rejected", "total": "total", "ode": "nfev", "jac": "njev", "lu": "nlu"}


@dataclasses.dataclass(frozen=True)
class Forecast:
    """What became of a sheet. Of one that was refused, all that a run would have is None."""

    printed: bytes  # as `decay` prints it
    success: bool
    message: str
    status: int | None = None
    refused: int | None = None  # document 01's number
    line: int | None = None  # the first wrong line of a sheet that is none
    x: float | None = None  # the point reached
    y: tuple | None = None  # the amounts there
    accepted: int | None = None
    rejected: int | None = None
    total: int | None = None
    nfev: int | None = None  # derivatives, without those that Jacobians took
    njev: int | None = None
    nlu: int | None = None
    smallest: float | None = None  # |h| over the accepted steps; both are 0.0 where there is none
    largest: float | None = None


def double_of(word):
    """The double of 64 bits, given as a number or as 16 hex digits."""
    bits = bytes.fromhex(word) if isinstance(word, str) else word.to_bytes(8, "big")
    return struct.unpack(">d", bits)[0]


def read(printed):
    """What was printed, as a forecast. Lines that this module doesn't know stay in `printed`."""
    lines = [line.split() for line in printed.decode("ascii").splitlines()]
    if lines[0][0] == "refused":
        number, *line = map(int, lines[0][1:])
        line = line[0] if line else None
        return Forecast(printed, False, refusal_words(number, line), refused=number, line=line)
    words = {name: rest for name, *rest in lines[1:]}
    told = dict(zip(lines[0][::2], map(int, lines[0][1::2])))
    status, x = told["status"], double_of(words["x"][0])
    counts = {name: told[word] for word, name in COUNTS.items()}
    message = ending_words(status, x, None, counts["accepted"], counts["rejected"])
    amounts = tuple(map(double_of, words["y"]))
    counts |= dict(zip(("smallest", "largest"), map(double_of, words["h"])))
    return Forecast(printed, status == numbers.STATUS_SUCCESS, message, status, x=x, y=amounts, **counts)


def bytes_of(sheet):
    if isinstance(sheet, str):
        return sheet.encode()
    if isinstance(sheet, os.PathLike):
        with open(sheet, "rb") as file:
            return file.read()
    return bytes(memoryview(sheet))


def forecast(sheet, check=True):
    """Run a model sheet to its end. A sheet is bytes, or a str that is its text; a file is named by a pathlib.Path.

    Raises Refused where the sheet or its settings are refused, and BrokenOff where its run did not succeed; with
    `check=False` the Forecast says so instead."""
    given = bytes_of(sheet)
    room = (ctypes.c_uint8 * numbers.PRINTED)()
    data = (ctypes.c_uint8 * max(1, len(given))).from_buffer_copy(given or b"\0")
    count = library().forecast(data, len(given), room)
    if count > numbers.PRINTED:
        raise Error(f"the library says that it printed {count} bytes")
    found = read(bytes(room[:count]))
    if check and found.refused is not None:
        raise Refused(found.refused, found.line)
    if check and not found.success:
        raise BrokenOff(found)
    return found


@dataclasses.dataclass(frozen=True)
class Sheet:
    """The model of a sheet. Floats stand here by their 64 bits, so that a NaN keeps its payload; `bits_of` and
    `double_of` go from one to the other. A reaction is its rate and four species, two reactants and two products,
    counted from 1, 0 for none."""

    x0: int
    xend: int
    rtol: int
    atol: int
    max_steps: int
    rule: int
    amounts: tuple
    reactions: tuple

    @classmethod
    def read(cls, sheet):
        """The model of a sheet, which is given as for `forecast`. Raises Refused with 21, or with 20 and the line."""
        given = bytes_of(sheet)
        data = (ctypes.c_uint8 * max(1, len(given))).from_buffer_copy(given or b"\0")
        settings, counts, amounts, rates, species = arrays()
        line = ctypes.c_size_t()
        number = library().read_sheet(data, len(given), settings, counts, amounts, rates, species, ctypes.byref(line))
        if number:
            raise Refused(number, line.value if number == numbers.REFUSED_SHEET_LINE else None)
        reactions = ((rates[k], *species[4 * k : 4 * k + 4]) for k in range(counts[1]))
        return cls(*settings, tuple(amounts[: counts[0]]), tuple(reactions))

    def write(self):
        """The bytes of the sheet. Raises Refused with 23 where no sheet reads to this model."""
        words = (self.x0, self.xend, self.rtol, self.atol, self.max_steps, self.rule)
        listed = [*self.amounts, *(rate for rate, *_ in self.reactions)]
        places = [place for _, *four in self.reactions for place in four]
        short = len(self.amounts) <= numbers.SHEET_AMOUNTS and len(self.reactions) <= numbers.SHEET_RATES
        fit = all(0 <= word < 2**64 for word in [*words, *listed, *places])
        if not (short and fit and all(len(reaction) == 5 for reaction in self.reactions)):
            raise Refused(numbers.REFUSED_MODEL)
        settings, counts, amounts, rates, species = arrays()
        settings[:], counts[:] = words, (len(self.amounts), len(self.reactions))
        amounts[: len(self.amounts)] = self.amounts
        rates[: len(self.reactions)] = listed[len(self.amounts) :]
        species[: len(places)] = places
        room, length = (ctypes.c_uint8 * numbers.SHEET_MOST)(), ctypes.c_size_t()
        number = library().write_sheet(
            settings, counts, amounts, rates, species, room, len(room), ctypes.byref(length)
        )
        if number:
            raise Refused(number)
        return bytes(room[: length.value])


def arrays():
    """Memory for a model, as the header has it."""
    return (
        (ctypes.c_uint64 * numbers.SHEET_SETTINGS)(),
        (ctypes.c_size_t * numbers.SHEET_COUNTS)(),
        (ctypes.c_uint64 * numbers.SHEET_AMOUNTS)(),
        (ctypes.c_uint64 * numbers.SHEET_RATES)(),
        (ctypes.c_size_t * numbers.SHEET_SPECIES)(),
    )


def bits_of(value):
    """The 64 bits of a double."""
    return struct.unpack(">Q", struct.pack(">d", value))[0]
