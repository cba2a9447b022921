#!/usr/bin/env python3
"""Writes piece.mid beside this script: a short cadence in A for three parts, each with a track of its own."""
import os
import struct

DIVISION = 480
BEAT = DIVISION


def quantity(n):
    digits = [n & 0x7F]
    while n > 0x7F:
        n >>= 7
        digits.append(0x80 | (n & 0x7F))
    return bytes(reversed(digits))


def track(events):
    """The chunk of these (tick, bytes), in order of tick, with an end of track."""
    events = sorted(events, key=lambda e: e[0])
    events.append((max([0] + [t for t, _ in events]), b"\xff\x2f\x00"))
    content, last = b"", 0
    for tick, data in events:
        content += quantity(tick - last) + data
        last = tick
    return b"MTrk" + struct.pack(">I", len(content)) + content


def text(kind, words):
    data = words.encode("ascii")
    return bytes([0xFF, kind]) + quantity(len(data)) + data


def part(channel, name, program, volume, notes):
    """One part: its name, program and volume, then notes as (beat, beats, key, velocity)."""
    events = [
        (0, text(0x03, name)),
        (0, bytes([0xC0 | channel, program])),
        (0, bytes([0xB0 | channel, 7, volume])),
    ]
    for beat, beats, key, velocity in notes:
        start, end = int(beat * BEAT), int((beat + beats) * BEAT)
        events.append((end, bytes([0x80 | channel, key, 64])))
        events.append((start, bytes([0x90 | channel, key, velocity])))
    return track(events)


def opening(name, beats_a_bar, beats_a_minute):
    """The first track: the piece's name, its bar of quarters, and its tempo."""
    return track([
        (0, text(0x03, name)),
        (0, b"\xff\x58\x04" + bytes([beats_a_bar, 2, 24, 8])),
        (0, b"\xff\x51\x03" + (60_000_000 // beats_a_minute).to_bytes(3, "big")),
    ])


def write(name, tracks):
    """Writes a file of format 1 beside this script."""
    header = b"MThd" + struct.pack(">IHHH", 6, 1, len(tracks), DIVISION)
    path = os.path.join(os.path.dirname(os.path.abspath(__file__)), name)
    with open(path, "wb") as out:
        out.write(header + b"".join(tracks))


def key_of(name):
    """The key of a note by its name: C4 is middle C, key 60; # is a sharp, b a flat."""
    return 12 + 12 * int(name[-1]) + "C D EF G A B".index(name[0]) + name.count("#") - name.count("b")


def main():
    write("piece.mid", [
        opening("cadence in A", 4, 90),
        part(0, "upper", 73, 100, [
            (0, 1, 76, 80), (1, 1, 78, 76), (2, 1, 76, 76), (3, 1, 73, 72),
            (4, 1.5, 74, 80), (5.5, 0.5, 73, 70), (6, 1, 71, 76), (7, 1, 68, 72),
            (8, 4, 69, 84),
        ]),
        part(1, "middle", 71, 90, [
            (0, 2, 73, 70), (2, 2, 69, 70), (4, 2, 66, 70), (6, 2, 64, 70), (8, 4, 64, 70),
        ]),
        part(2, "lower", 70, 96, [
            (0, 2, 57, 76), (2, 2, 54, 76), (4, 2, 50, 76), (6, 2, 52, 80), (8, 4, 45, 84),
        ]),
    ])


if __name__ == "__main__":
    main()
