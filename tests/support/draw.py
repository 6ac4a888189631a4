"""Doubles as bit patterns, and numbers that are drawn the same on every machine and Python."""

import math
import struct

SIGN = 1 << 63
UNIT = 1 << 52  # from one binade to the next
ZERO = 0
SMALLEST = 1
SMALLEST_NORMAL = UNIT
ONE = 0x3FF0000000000000
LARGEST = 0x7FEFFFFFFFFFFFFF
INFINITY = 0x7FF0000000000000
NAN = 0x7FF8000000000000

SPECIALS = [
    NAN,
    ZERO,
    SIGN | ZERO,
    INFINITY,
    SIGN | INFINITY,
    SMALLEST,
    SIGN | SMALLEST,
    SMALLEST_NORMAL,
    ONE,
    SIGN | ONE,
    LARGEST,
    SIGN | LARGEST,
]


def pattern_of(value):
    return NAN if math.isnan(value) else struct.unpack("<Q", struct.pack("<d", value))[0]


class Draw:
    """Numbers drawn by SplitMix64."""

    def __init__(self, seed):
        self.state = seed

    def bits(self):
        mask = (1 << 64) - 1
        self.state = (self.state + 0x9E3779B97F4A7C15) & mask
        z = self.state
        z = ((z ^ (z >> 30)) * 0xBF58476D1CE4E5B9) & mask
        z = ((z ^ (z >> 27)) * 0x94D049BB133111EB) & mask
        return z ^ (z >> 31)

    def between(self, low, high):
        """A whole number from low to high, both among them."""
        return low + self.bits() % (high - low + 1)

    def choice(self, items):
        return items[self.between(0, len(items) - 1)]

    def sign(self):
        return self.choice((0, SIGN))

    def unit(self):
        """A double above -1 and below 1, with 52 digits behind the point."""
        return (self.between(1, (1 << 53) - 1) - (1 << 52)) / (1 << 52)

    def within(self, power_of_two):
        """A double from 2**-power_of_two up to 2**power_of_two."""
        return self.between(ONE - power_of_two * UNIT, ONE + power_of_two * UNIT)

    def finite(self):
        """Any finite double."""
        return self.sign() | self.between(ZERO, LARGEST)

    def subnormal(self):
        return self.sign() | self.between(SMALLEST, SMALLEST_NORMAL - 1)

    def shuffled(self, items):
        left, found = list(items), []
        while left:
            found.append(left.pop(self.between(0, len(left) - 1)))
        return found
