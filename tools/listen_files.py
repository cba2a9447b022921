"""The MIDI files that tools/listen plays: notes one after the other, each told its tuning by a route.

A list of parts is made first: messages that tune, as bytes, and notes. Those of a file that mtune wrote are taken out
of it; those of routes that mtune doesn't write yet are made here, with the values that mtune's definitions give.
"""
import collections
import math
import struct

from speed_files import quantity

DIVISION = 480
# ticks of a note, and before the next one, at 120 beats a minute
NOTE, REST = 960, 240
TICKS_A_SECOND = 960
DRUMS = 9
TUNING_CONTROLS = {6, 38, 96, 97, 98, 99, 100, 101}

# key: the note's own; source: the key whose pitch in the scale it has to have
Note = collections.namedtuple("Note", "channel key source")


# ---- reading

def read_quantity(text, at):
    number = 0
    while True:
        number = number << 7 | text[at] & 0x7F
        at += 1
        if text[at - 1] < 0x80:
            return number, at


def track_events(text):
    """Ticks and messages of a track that is without fault; a meta event is left out."""
    at, tick, running = 0, 0, None
    while at < len(text):
        delta, at = read_quantity(text, at)
        tick += delta
        status = text[at] if text[at] >= 0x80 else running
        at += text[at] >= 0x80
        if status in (0xF0, 0xF7, 0xFF):
            at += status == 0xFF
            length, at = read_quantity(text, at)
            if status == 0xF0:
                yield tick, bytes([status]) + text[at:at + length]
        else:
            running, length = status, 1 if status >> 4 in (0xC, 0xD) else 2
            yield tick, bytes([status]) + text[at:at + length]
        at += length


def events(text):
    """All messages of a file, in the order in which they are played."""
    at, merged = 8 + int.from_bytes(text[4:8], "big"), []
    while at < len(text):
        length = int.from_bytes(text[at + 4:at + 8], "big")
        if text[at:at + 4] == b"MTrk":
            merged += track_events(text[at + 8:at + 8 + length])
        at += 8 + length
    return [data for _, data in sorted(merged, key=lambda event: event[0])]


def parts_of(text):
    """What tunes in a file of mtune's, and each of its notes once for each channel; no drums."""
    found = {}
    for place, data in enumerate(events(text)):
        kind, channel = data[0] >> 4, data[0] & 15
        if kind == 9 and data[2] and channel != DRUMS:
            found.setdefault(Note(channel, data[1], data[1]), place)
        elif kind == 14 or data[0] == 0xF0 or kind == 11 and data[1] in TUNING_CONTROLS:
            found[place] = data
    return [part if isinstance(part, Note) else data for part, data in found.items()]


# ---- writing

def spelled(data):
    """A message as it stands in a file."""
    return data if data[0] != 0xF0 else b"\xf0" + quantity(len(data) - 1) + data[1:]


def file(timed):
    """A file of format 0 of these (tick, message), which are in order."""
    text, last = b"", 0
    for tick, data in timed:
        text += quantity(tick - last) + spelled(data)
        last = tick
    text += quantity(NOTE) + b"\xff\x2f\x00"
    return b"MThd" + struct.pack(">IHHH", 6, 0, 1, DIVISION) + b"MTrk" + struct.pack(">I", len(text)) + text


def one_by_one(parts):
    """A file in which the notes sound one after the other, and for each the second at which it begins."""
    timed, begins, tick = [], [], REST
    for part in parts:
        if not isinstance(part, Note):
            timed.append((tick, part))
            continue
        start = tick + REST
        tick = start + NOTE
        begins.append((part, start / TICKS_A_SECOND))
        timed.append((start, bytes([0x90 | part.channel, part.key, 100])))
        timed.append((tick, bytes([0x80 | part.channel, part.key, 64])))
    return file(timed), begins


# ---- the routes

def parameter(channel, number, *values):
    """Sets a registered parameter of a channel: its high byte, and its low byte where there is one."""
    status = bytes([0xB0 | channel])
    set_to = [status + bytes(it) for it in zip((6, 38), values)]
    return [status + bytes([101, 0]), status + bytes([100, number]), *set_to,
            status + bytes([101, 127]), status + bytes([100, 127])]


def nearest(number):
    return math.floor(number + 0.5)


def live(keys, cents_of):
    """Each key by a real-time change of tuning program 0, right before its note."""
    parts = parameter(0, 3, 0)
    for key in keys:
        value = nearest(cents_of(key) * 16384 / 100)
        told = bytes([key, value >> 14, value >> 7 & 127, value & 127])
        parts += [b"\xf0\x7f\x7f\x08\x02\x00\x01" + told + b"\xf7", Note(0, key, key)]
    return parts


def bent(channel, keys, cents_of, semitones):
    """Each note by a bend from the nearest key, at a range of so many semitones."""
    parts = []
    for source in keys:
        key = nearest(cents_of(source) / 100)
        value = 8192 + nearest((cents_of(source) - 100 * key) * 8192 / (100 * semitones))
        parts += [bytes([0xE0 | channel, value & 127, value >> 7]), Note(channel, key, source)]
    return parts


def bend(semitones):
    return lambda keys, cents_of: parameter(0, 0, semitones, 0) + bent(0, keys, cents_of, semitones)


def live_and_reset(reset, keys, cents_of):
    """All keys are told, then a reset comes, then the notes."""
    parts = live(keys, cents_of)
    return [part for part in parts if not isinstance(part, Note)] + [reset] + notes(parts)


def bend_and_reset(reset, keys, cents_of):
    """A range of 12 semitones is told, then a reset comes, then bends and notes."""
    return parameter(0, 0, 12, 0) + [reset] + bent(0, keys, cents_of, 12)


def zone(keys, cents_of):
    """A lower zone of one member, whose range is the zone's own: 48 semitones."""
    return parameter(0, 6, 1) + bent(1, keys, cents_of, 48)


def zone_with_range(keys, cents_of):
    """The same with a range of 24 semitones, which the member is told."""
    return parameter(0, 6, 1) + parameter(1, 0, 24, 0) + bent(1, keys, cents_of, 24)


def octave(keys, cents_of):
    """The twelve classes by the two-byte octave tuning, not in real time, in steps of 100/8192 cent."""
    values = {key % 12: 8192 + nearest((cents_of(key) - 100 * key) * 8192 / 100) for key in keys}
    told = b"".join(bytes([values[key] >> 7, values[key] & 127]) for key in range(12))
    return [b"\xf0\x7e\x7f\x08\x09\x03\x7f\x7f" + told + b"\xf7", *(Note(0, key, key) for key in keys)]


def plain(keys):
    """The same notes without any tuning."""
    return [Note(0, key, key) for key in keys]


def notes(parts):
    return [part for part in parts if isinstance(part, Note)]


RESETS = [
    ("General MIDI", bytes.fromhex("f0 7e 7f 09 01 f7")),
    ("General MIDI 2", bytes.fromhex("f0 7e 7f 09 03 f7")),
    ("Roland GS", bytes.fromhex("f0 41 10 42 12 40 00 7f 00 41 f7")),
    ("Yamaha XG", bytes.fromhex("f0 43 10 4c 00 00 7e 00 f7")),
]
