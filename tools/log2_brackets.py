#!/usr/bin/env python3
"""Logarithms to the base 2 in grains, with 80 decimal digits, for the table of crates/log_bracket/src/tests.rt.

Run `python3 tools/log2_brackets.py`. It needs Python 3 alone. Each line has a, b, and the whole numbers just below and
just above 38,400,000,000,000 * log2(a / b), which are one number where a / b is a power of two.
"""
from decimal import Decimal, getcontext
from fractions import Fraction
import math

OCTAVE = 38_400_000_000_000
TOP = 2**63 - 1

PAIRS = [
    (1, 1), (8, 1), (1, 8), (3 * 2**60, 3), (5, 5 * 2**60), (2**62, 1), (1, 2**62), (TOP, TOP),
    (3, 2), (2, 3), (5, 4), (81, 80), (80, 81), (7, 4), (11, 8), (9, 8), (10, 9), (16, 15), (45, 32), (531441, 524288), (32805, 32768),
    (440_000_000_000, 261_625_565_301), (1_000_000_007, 3),
    (TOP, 1), (1, TOP), (TOP, TOP - 1), (TOP - 1, TOP), (2**62 + 1, 2**62), (2**62 - 1, 2**62), (2**62, 2**62 + 1), (TOP, 2**62),
]


def exact(a, b):
    """The j for which a / b is 2 ** j, or None."""
    ratio = Fraction(a, b)
    for whole, sign in ((ratio, 1), (1 / ratio, -1)):
        if whole.denominator == 1 and whole.numerator & (whole.numerator - 1) == 0:
            return sign * (whole.numerator.bit_length() - 1)
    return None


def main():
    getcontext().prec = 80
    for a, b in PAIRS:
        octaves = exact(a, b)
        if octaves is not None:
            low = high = octaves * OCTAVE
        else:
            value = OCTAVE * (Decimal(a) / Decimal(b)).ln() / Decimal(2).ln()
            low = math.floor(value)
            high = low + 1
        print(f"({a}, {b}, {low}, {high}),")


main()
