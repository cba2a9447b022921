#!/usr/bin/env python3
"""Makes the MIDI files that tools/speed.sh measures with, in a folder that it is given.

Each file has the same number of notes in 1, 16 or 1,000 tracks. In a "notes" file there is nothing else; in an "all" file
sustain pedals and pitch bends stand between the notes. Every second track writes running status and ends a note by
velocity 0, as sequencers do; the others write each status byte and note off. The same files come out each time.
"""

import random
import sys

NOTES = 300_000
NOTES_WITH_OTHERS = 200_000
TRACKS = (1, 16, 1000)


def quantity(number):
    """A number as a variable-length quantity, in its shortest spelling."""
    parts = [number & 0x7F]
    number >>= 7
    while number:
        parts.append(0x80 | (number & 0x7F))
        number >>= 7
    return bytes(reversed(parts))


def track(chance, number, notes, has_others):
    """The bytes of one track chunk."""
    channel = number % 16
    is_running = number % 2 == 1
    text = bytearray()
    status = None

    def put(delta, new_status, data):
        nonlocal status
        text.extend(quantity(delta))
        if not is_running or new_status != status:
            text.append(new_status)
        status = new_status
        text.extend(data)

    left = notes
    while left > 0:
        chord = min(left, chance.choice((1, 1, 1, 2, 3)))
        keys = chance.sample(range(36, 97), chord)
        if has_others and chance.random() < 0.3:
            put(0, 0xB0 | channel, (64, chance.choice((0, 127))))
        for key in keys:
            put(0, 0x90 | channel, (key, chance.randrange(1, 128)))
        if has_others:
            for _ in range(chance.choice((0, 1, 2))):
                put(chance.randrange(1, 20), 0xE0 | channel, (chance.randrange(128), chance.randrange(56, 72)))
        delta = chance.choice((30, 60, 60, 120, 240))
        for key in keys:
            if is_running:
                put(delta, 0x90 | channel, (key, 0))
            else:
                put(delta, 0x80 | channel, (key, 64))
            delta = 0
        left -= chord
    text.extend(b"\x00\xff\x2f\x00")
    return b"MTrk" + len(text).to_bytes(4, "big") + bytes(text)


def file(tracks, notes, has_others):
    """The bytes of a file with so many tracks."""
    chance = random.Random(tracks)
    chunks = [
        track(chance, number, notes // tracks + (number < notes % tracks), has_others)
        for number in range(tracks)
    ]
    header = b"MThd" + (6).to_bytes(4, "big") + b"".join(
        field.to_bytes(2, "big") for field in (0 if tracks == 1 else 1, tracks, 480)
    )
    return header + b"".join(chunks)


def main():
    folder = sys.argv[1]
    for tracks in TRACKS:
        for name, notes, has_others in (
            ("notes", NOTES, False),
            ("all", NOTES_WITH_OTHERS, True),
        ):
            with open(f"{folder}/{name}-{tracks}.mid", "wb") as out:
                out.write(file(tracks, notes, has_others))


if __name__ == "__main__":
    main()
