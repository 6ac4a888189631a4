"""Points as CSV by RFC 4180: a header, and a record a point, each with CRLF and without quotes.

Numbers are in C's hexadecimal form, which has all of a double's bits: float.fromhex reads them back."""

import ctypes

from . import _numbers as numbers
from ._errors import Refused
from ._library import library


def line(call, *words):
    """The bytes of one line; Refused where there are not 1 to 32 amounts."""
    room, count = (ctypes.c_uint8 * numbers.CSV_MOST)(), ctypes.c_size_t()
    refused = call(*words, room, len(room), ctypes.byref(count))
    if refused:
        raise Refused(refused)
    return bytes(room[: count.value])


def csv_header(n):
    """The header of a table with n amounts, `x,y1,..,yn`, as bytes."""
    return line(library().csv_header, n)


def csv_record(x, y):
    """The record of a point, as bytes."""
    amounts = [float(amount) for amount in y]
    return line(library().csv_record, float(x), (ctypes.c_double * max(1, len(amounts)))(*amounts), len(amounts))


class Table:
    """A report for `solve`: writes each point that a run reaches, the first too, to a file that takes bytes."""

    def __init__(self, file):
        self.file = file
        self.begun = False

    def __call__(self, xold, x, y, step):
        if not self.begun:
            self.file.write(csv_header(len(y)))
            self.begun = True
        self.file.write(csv_record(x, y))
