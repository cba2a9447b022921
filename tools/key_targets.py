#!/usr/bin/env python3
"""The targets of the keys of a scale, computed with big numbers, as rows of the tables in crates/key_pitch/src/tests.

Run `python3 tools/key_targets.py SCALE [MAPPING] [--grains] [--keys KEY ..]`, where SCALE and MAPPING are Scala files.
Without a mapping, key 69 is the scale's first note, at 440 Hz. It needs Python 3 alone. With `--grains` a row is a key, its
pitch in grains, rounded down and up, and the greatest width of its bracket. Else it has these parts:

- the key;
- its value for a tuning message, the nearest whole number of steps of 1/16384 semitone, the higher one of two; `None`
  where that isn't from 0 to 2097150, the greatest value that a device can be told of (7F 7F 7F means no change);
- the nearest key, the higher one of two, and the nearest whole numbers of steps of a bend from there, at a sensitivity of
  1, 2, 12 and 96 semitones; `None` where that key isn't from 0 to 127;
- the pitch in cents to six decimals, as a comment. Key 0 of equal temperament at 440 Hz is 0.

A pitch is kept exactly: whole semitones and cents as a fraction, and the product of all ratios. Where that product is a
whole number of octaves the pitch is a fraction, and so are all comparisons. Else it is computed to 100 digits. The program
takes the lower end of a bracket, which may lie below the pitch by 18,000 grains for each ratio (a grain is 1/3200000000000
semitone): where a target isn't the same at that lower end and at the pitch, the row says so, and can't serve as a test.
"""
import argparse
from decimal import Decimal, getcontext
from fractions import Fraction
import math

GREATEST = 2_097_150
RANGES = (1, 2, 12, 96)
GRAINS = 3_200_000_000_000


class Pitch:
    """Semitones as a fraction, and a ratio, which is the product of so many."""

    def __init__(self, semitones=Fraction(0), ratio=Fraction(1), ratios=0):
        self.semitones, self.ratio, self.ratios = semitones, ratio, ratios

    def plus(self, other):
        return Pitch(self.semitones + other.semitones, self.ratio * other.ratio, self.ratios + other.ratios)

    def times(self, number):
        return Pitch(self.semitones * number, self.ratio ** number, self.ratios * abs(number))

    def minus(self, other):
        return self.plus(other.times(-1))

    def whole(self):
        """The pitch in semitones: a fraction where the ratio is a whole number of octaves, else to 100 digits."""
        octaves = self.ratio.numerator.bit_length() - self.ratio.denominator.bit_length()
        if self.ratio == Fraction(2) ** octaves:
            return self.semitones + 12 * octaves, True
        logarithm = (Decimal(self.ratio.numerator).ln() - Decimal(self.ratio.denominator).ln()) / Decimal(2).ln()
        return self.semitones + 12 * Fraction(logarithm), False


def step(word):
    """A line of a scale: cents where it has a point, else a ratio or a whole number."""
    if "." in word:
        return Pitch(semitones=Fraction(word) / 100)
    return Pitch(ratio=Fraction(word), ratios=1)


def lines_of(text):
    return [line for line in text.splitlines() if not line.startswith("!")]


def read_scale(text):
    lines = lines_of(text)
    size = int(lines[1].split()[0])
    return [step(line.split()[0]) for line in lines[2:2 + size]]


class Mapping:
    def __init__(self, text):
        words = [line.split()[0] for line in lines_of(text) if line.split()]
        size, self.first, self.last, self.middle, self.reference = (int(word) for word in words[:5])
        self.hertz, self.octave = Fraction(words[5]), int(words[6])
        entries = [None if word in "xX" else int(word) for word in words[7:7 + size]]
        self.entries = entries + [None] * (size - len(entries))


def degree(scale, number):
    """A step of the scale, repeated by its last one in both directions."""
    periods, place = divmod(number, len(scale))
    return scale[-1].times(periods).plus(scale[place - 1] if place else Pitch())


def above_middle(scale, mapping, key):
    if not mapping.entries:
        return degree(scale, key - mapping.middle)
    turns, place = divmod(key - mapping.middle, len(mapping.entries))
    if mapping.entries[place] is None:
        return None
    return degree(scale, mapping.octave).times(turns).plus(degree(scale, mapping.entries[place]))


def pitch(scale, mapping, key):
    """The pitch of a key; none where the mapping leaves it out."""
    if not mapping.first <= key <= mapping.last:
        return Pitch(semitones=Fraction(key))
    above = above_middle(scale, mapping, key)
    if above is None:
        return None
    reference = Pitch(Fraction(69), mapping.hertz / 440, 1)
    return reference.plus(above).minus(above_middle(scale, mapping, mapping.reference))


def nearest(number):
    return math.floor(number + Fraction(1, 2))


def targets(semitones):
    """The value of a tuning message, and the key and steps of a bend."""
    value, key = nearest(semitones * 16384), nearest(semitones)
    steps = [nearest((semitones - key) * 8192 / bend) for bend in RANGES]
    return (value if 0 <= value <= GREATEST else None), ([key, *steps] if 0 <= key <= 127 else None)


def row(scale, mapping, key):
    found = pitch(scale, mapping, key)
    if found is None:
        return f"// key {key} is left out"
    semitones, exact = found.whole()
    lower = semitones if exact else semitones - Fraction(18_000 * found.ratios, GRAINS)
    value, bend = targets(semitones)
    told = "None" if value is None else f"Some({value})"
    bent = "None" if bend is None else f"Some(({', '.join(map(str, bend))}))"
    note = "" if targets(lower) == (value, bend) else " NOT DETERMINED"
    return f"({key}, {told}, {bent}), // {float(100 * semitones):.6f}{note}"


def grains_row(scale, mapping, key):
    found = pitch(scale, mapping, key)
    if found is None:
        return f"// key {key} is left out"
    semitones, exact = found.whole()
    width = 0 if exact else 18_000 * found.ratios
    return f"({key}, {math.floor(semitones * GRAINS)}, {math.ceil(semitones * GRAINS)}, {width}),"


def read(name):
    with open(name, encoding="latin-1") as file:
        return file.read()


def main():
    getcontext().prec = 100
    parser = argparse.ArgumentParser()
    parser.add_argument("scale")
    parser.add_argument("mapping", nargs="?")
    parser.add_argument("--grains", action="store_true")
    parser.add_argument("--keys", type=int, nargs="+", default=range(128))
    words = parser.parse_args()
    scale = read_scale(read(words.scale))
    mapping = Mapping(read(words.mapping) if words.mapping else "0\n0\n127\n69\n69\n440.0\n0\n")
    for key in words.keys:
        print((grains_row if words.grains else row)(scale, mapping, key))


if __name__ == "__main__":
    main()
