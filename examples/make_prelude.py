#!/usr/bin/env python3
"""Writes prelude.mid beside this script: Bach's prelude in C from the Well-Tempered Clavier, book 1 (BWV 846), of 1722.

In all bars but the last three a chord of five notes is broken in the same way, twice. Both hands are a harpsichord,
and there each note is held until it is struck again, so that one hears how the chord stands.
"""
from make_piece import key_of, opening, part, write

VELOCITY = 76
CHORDS = """
C4 E4 G4 C5 E5
C4 D4 A4 D5 F5
B3 D4 G4 D5 F5
C4 E4 G4 C5 E5
C4 E4 A4 E5 A5
C4 D4 F#4 A4 D5
B3 D4 G4 D5 G5
B3 C4 E4 G4 C5
A3 C4 E4 G4 C5
D3 A3 D4 F#4 C5
G3 B3 D4 G4 B4
G3 Bb3 E4 G4 C#5
F3 A3 D4 A4 D5
F3 Ab3 D4 F4 B4
E3 G3 C4 G4 C5
E3 F3 A3 C4 F4
D3 F3 A3 C4 F4
G2 D3 G3 B3 F4
C3 E3 G3 C4 E4
C3 G3 Bb3 C4 E4
F2 F3 A3 C4 E4
F#2 C3 A3 C4 Eb4
Ab2 F3 B3 C4 D4
G2 F3 G3 B3 D4
G2 E3 G3 C4 E4
G2 D3 G3 C4 F4
G2 D3 G3 B3 F4
G2 Eb3 A3 C4 F#4
G2 E3 G3 C4 G4
G2 D3 G3 C4 F4
G2 D3 G3 B3 F4
C2 C3 G3 Bb3 E4
"""
# the last bars before the end: the two low notes, and what the right hand plays above them
LAST_BARS = """
C2 C3 F3 A3 C4 F4 C4 A3 C4 A3 F3 A3 F3 D3 F3 D3
C2 B2 G3 B3 D4 F4 D4 B3 D4 B3 G3 B3 D3 F3 E3 D3
"""
END = "C2 C3 E4 G4 C5"


def note(beat, beats, name):
    return (beat, beats, key_of(name), VELOCITY)


def broken(start, beats, held, low, next_low, *names):
    """The notes of both hands: two low notes that are held throughout, and above them a note each sixteenth."""
    end = start + beats
    left = [note(start, beats, low), note(start + 0.25, beats - 0.25, next_low)]
    begins = [start + 0.5 + 0.25 * place for place in range(len(names))]
    return left, [note(begin, min(held, end - begin), name) for begin, name in zip(begins, names)]


def hands():
    left, right, start = [], [], 0
    for line in CHORDS.split("\n")[1:-1]:
        low, next_low, *upper = line.split()
        for half in (start, start + 2):
            lower_notes, upper_notes = broken(half, 2, 0.75, low, next_low, *upper, *upper)
            left, right = left + lower_notes, right + upper_notes
        start += 4
    for line in LAST_BARS.split("\n")[1:-1]:
        lower_notes, upper_notes = broken(start, 4, 0.25, *line.split())
        left, right = left + lower_notes, right + upper_notes
        start += 4
    names = END.split()
    return left + [note(start, 4, name) for name in names[:2]], right + [note(start, 4, name) for name in names[2:]]


def main():
    left, right = hands()
    write("prelude.mid", [
        opening("Prelude in C, BWV 846", 4, 66),
        part(0, "right hand", 6, 100, right),
        part(1, "left hand", 6, 100, left),
    ])


if __name__ == "__main__":
    main()
