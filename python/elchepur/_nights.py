"""The totals of a night: status lines as `decay` prints them, taken in pieces of any size."""

import ctypes
import dataclasses

from . import _numbers as numbers
from ._errors import Error, Refused
from ._library import library
from ._sheets import bytes_of

STATUSES = (0, 1, 2, 3, 5, 7)


@dataclasses.dataclass(frozen=True)
class Totals:
    """What lines come to: how many there are, how many have each status, the sums of the six counts, the largest ode
    and the number of its first line, from 1; of no lines both are 0."""

    lines: int
    runs: dict
    accepted: int
    rejected: int
    total: int
    ode: int
    jac: int
    lu: int
    largest: int
    place: int

    def join(self, following):
        """The Totals of the lines of both, the other's behind these. Raises Refused with 28 where a side is none that
        lines can have, then with 26 for more than 65,535 lines."""
        joined = (ctypes.c_uint64 * numbers.TOTALS)()
        number = library().totals_join(words_of(self), words_of(following), joined)
        if number:
            raise Refused(number)
        return totals_from(joined)


def words_of(found):
    """Totals as the header has them; what no word holds is no total."""
    runs = [found.runs.get(status, 0) for status in STATUSES]
    six = (found.accepted, found.rejected, found.total, found.ode, found.jac, found.lu)
    words = [found.lines, *runs, *six, found.largest, found.place]
    if not all(0 <= word < 2**64 for word in words) or set(found.runs) - set(STATUSES):
        raise Refused(numbers.REFUSED_TOTALS)
    return (ctypes.c_uint64 * numbers.TOTALS)(*words)


def totals_from(words):
    runs = words[numbers.TOTALS_STATUS0 : numbers.TOTALS_ACCEPTED]
    return Totals(words[0], dict(zip(STATUSES, runs)), *words[numbers.TOTALS_ACCEPTED :])


class Night:
    """Status lines that are fed in pieces, which may end anywhere in a line. `totals()` may be asked at any time; it is
    what the pieces so far come to, were they all."""

    def __init__(self, lines=b""):
        self._words = (ctypes.c_uint64 * numbers.NIGHT)()
        library().totals_start(self._words)
        self.feed(lines)

    def feed(self, piece):
        """Take a piece: bytes, or a str that is its text; a file is named by a pathlib.Path."""
        given = bytes_of(piece)
        data = (ctypes.c_uint8 * max(1, len(given))).from_buffer_copy(given or b"\0")
        library().totals_fed(self._words, data, len(given))

    def totals(self):
        """The Totals. Raises Refused with 20 and the first wrong line, or with 26 for a line beyond 65,535."""
        found, line = (ctypes.c_uint64 * numbers.TOTALS)(), ctypes.c_uint64()
        number = library().totals_told(self._words, found, ctypes.byref(line))
        if number:
            raise Refused(number, line.value if number == numbers.REFUSED_SHEET_LINE else None)
        return totals_from(found)

    def printed(self):
        """The bytes that the program `totals` prints, a refusal too."""
        room = (ctypes.c_uint8 * numbers.TOTALS_PRINTED)()
        count = library().totals_printed(self._words, room)
        if count > numbers.TOTALS_PRINTED:
            raise Error(f"the library says that it printed {count} bytes")
        return bytes(room[:count])


def totals(lines):
    """The Totals of a whole list of status lines, which is given as for `Night.feed`."""
    return Night(lines).totals()
