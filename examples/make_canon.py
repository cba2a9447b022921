#!/usr/bin/env python3
"""Writes canon.mid beside this script: the beginning of Pachelbel's Canon in D, of about 1690.

A ground of eight notes in the bass is played seven times. Above it three voices play the same line, each two bars
behind the one before it. The plain chords of the ground are filled in. All of it is for reeds, which are steady, so
that one hears how the chords stand.
"""
from make_piece import key_of, opening, part, write

BAR, GROUND_BARS, TIMES = 4, 2, 7
# the harmonica of General MIDI
REEDS = 22
GROUND = "D3 A2 B2 F#2 G2 D2 G2 A2".split()
CHORDS = """
F#4 A4 D5
E4 A4 C#5
F#4 B4 D5
F#4 A4 C#5
D4 G4 B4
D4 F#4 A4
D4 G4 B4
E4 A4 C#5
""".strip().split("\n")
# two bars a line: a number sets how many beats the notes behind it last
LINE = """
1 F#5 E5 D5 C#5 B4 A4 B4 C#5
1 D5 C#5 B4 A4 G4 F#4 G4 E4
0.5 D4 F#4 A4 G4 F#4 D4 F#4 E4 D4 B3 D4 A4 G4 B4 A4 G4
0.5 F#4 D4 E4 C#5 D5 F#5 A5 A4 B4 G4 A4 F#4 D4 D5 0.75 D5 0.25 C#5
0.25 D5 C#5 D5 D4 C#4 A4 E4 F#4 D4 D5 C#5 B4 C#5 F#5 A5 B5 G5 F#5 E5 G5 F#5 E5 D5 C#5 B4 A4 G4 F#4 E4 G4 F#4 E4
0.25 D4 E4 F#4 G4 A4 E4 A4 G4 F#4 B4 A4 G4 A4 G4 F#4 E4 D4 B3 B4 C#5 D5 C#5 B4 A4 G4 F#4 E4 B4 A4 B4 A4 G4
"""
END = TIMES * GROUND_BARS * BAR


def line(enters, last):
    """The line from a bar on as far as the end, and its last note."""
    beat, beats, notes = enters * BAR, 0, []
    for word in LINE.split():
        if word[0].isdigit():
            beats = float(word)
        elif beat < END:
            notes.append((beat, beats, key_of(word), 80))
            beat += beats
    return [*notes, (END, BAR, key_of(last), 80)]


def ground():
    notes = [(beat, 1, key_of(GROUND[beat % 8]), 88) for beat in range(END)]
    return [*notes, (END, BAR, key_of("D2"), 88)]


def chords():
    return [
        (beat, BAR if beat == END else 1, key_of(name), 56)
        for beat in range(END + 1) for name in CHORDS[beat % 8].split()
    ]


def main():
    write("canon.mid", [
        opening("Canon in D", BAR, 56),
        part(0, "voice 1", REEDS, 92, line(2, "F#4")),
        part(1, "voice 2", REEDS, 88, line(4, "D4")),
        part(2, "voice 3", REEDS, 88, line(6, "D5")),
        part(3, "chords", REEDS, 84, chords()),
        part(4, "bass", REEDS, 100, ground()),
    ])


if __name__ == "__main__":
    main()
