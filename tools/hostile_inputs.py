"""Makes the hostile inputs that tools/hostile.py runs the program on.

Each function of KINDS takes a source of chances, and gives a scale, a file, and the answer where it follows from how
they were made: `accepted`, a line of docs/faults.tsv, or the very line that is said.
"""

import pathlib

from speed_files import quantity

SCALE_LIMIT = 262_144
INPUT_LIMIT = 4_194_304
MOST_TRACKS = 1_024
ACCEPTED = "accepted"
TOO_LONG = "mtune: too long %s"

# what may stand behind options of the command
RANGES = ("1", "2", "12", "24", "48", "96")
TAILS = ("0", "1", "60", "480", "100000", "268435455")
CHANNELS = ("1", "1-16", "2-9", "10", "16", "1-3,5,9-12")
PROGRAMS = ("0", "1", "127")

EXAMPLES = pathlib.Path(__file__).resolve().parent.parent / "examples"
SCALES = [path.read_bytes() for path in sorted(EXAMPLES.glob("*.scl"))]
ONE_STEP = b"one step\n1\n100.0\n"
STATUSES = [0xFF] * 12 + [0xF0] * 6 + [0xF7] * 3 + list(range(0x90, 0xA0)) * 2 + list(range(0x80, 0xF0))
CONTROLLERS = [0, 1, 7, 10, 11, 32, 64, 66, 91, 120, 121, 123] * 8 + list(range(128))
TYPES = (0x00, 0x01, 0x03, 0x20, 0x21, 0x51, 0x54, 0x58, 0x59, 0x7F)
SIZES = (0, 1, 2, 3, 5, 5, 127, 128, 300)
DELTAS = (0, 0, 1, 60, 127, 128, 480, 20_000)
FAR = (0x3FFF, 0x4000, 0x1FFFFF, 0x200000, 0xFFFFFFE, 0xFFFFFFF, 0x10000000, 0x7FFFFFFFF)
MOST = 2**63 - 1
NUMBERS = "0 1 2 3 7 12 -1 -0 007 4096 1000000 1000001 4294967296".split()
NUMBERS += [str(MOST), str(MOST + 1), str(2**64), "1" + 40 * "0", "", "x", "+3", "1e9"]


def padded(number, size):
    """A quantity in so many bytes, or as many as it needs."""
    return quantity(number).rjust(size, b"\x80")


def chunk(name, content):
    return name + len(content).to_bytes(4, "big") + content


def header(form, tracks):
    return chunk(b"MThd", form.to_bytes(2, "big") + tracks.to_bytes(2, "big") + b"\x01\xe0")


def event(chance, spell):
    """A status byte, and what is behind it."""
    status = chance.choice(STATUSES)
    if status >= 0xF0:
        content = chance.randbytes(chance.choice(SIZES))
        kind = bytes([chance.choice(TYPES)]) if status == 0xFF else b""
        return status, kind + spell(len(content)) + content
    first = chance.choice(CONTROLLERS) if 0xB0 <= status < 0xC0 else chance.randrange(128)
    return status, bytes([first] if 0xC0 <= status < 0xE0 else [first, chance.randrange(128)])


def track(chance, spell=quantity, deltas=DELTAS, lost=0):
    """The content of a track. Status bytes that can't be left out are lost so often; a function spells each number."""
    text, running = bytearray(), None
    for _ in range(chance.choice((0, 1, 2, 5, 20))):
        status, data = event(chance, spell)
        text += spell(chance.choice(deltas))
        if chance.random() >= (0.5 if status == running else lost):
            text.append(status)
        text += data
        running = status if status < 0xF0 else None
    return bytes(text) + spell(0) + b"\xff\x2f" + spell(0)


def piece(chance, **how):
    """The chunks of a file, of which the last is a track."""
    tracks = chance.choice((1, 1, 1, 2, 3, 8))
    chunks = [header(1 if tracks > 1 else chance.randrange(2), tracks)]
    for _ in range(tracks):
        if chance.random() < 0.1:
            chunks.append(chunk(b"XFIH", chance.randbytes(chance.choice(SIZES))))
        chunks.append(chunk(b"MTrk", track(chance, **how)))
    return chunks


def mutated(chance, text):
    """Bytes of which some were changed, put in, taken out or doubled."""
    text = bytearray(text)
    for _ in range(chance.choice((1, 1, 2, 3, 8))):
        at, size = chance.randrange(len(text) + 1), chance.choice((1, 1, 2, 4, 16, 100))
        part, how = text[at : at + size], chance.randrange(5)
        odd = bytes(chance.choice(b"\0\x01\x2f\x7f\x80\xf0\xf7\xff0189-./! \t\r\n") for _ in range(size))
        if how == 0:
            text[at : at + 1] = bytes(byte ^ 1 << chance.randrange(8) for byte in part[:1])
        elif how == 1:
            text[at : at + size] = odd[: len(part)]
        elif how == 2:
            text[at:at] = chance.choice((odd, chance.randbytes(size)))
        elif how == 3:
            del text[at : at + size]
        else:
            text[at:at] = part * chance.choice((1, 1, 2, 50))
    return bytes(text)


def lie(chance, number):
    near = (0, 1, number - 1, number + 1, number + chance.randrange(20), 2 * number, chance.randrange(300))
    return max(0, chance.choice(near + FAR + (5, 6, 7, INPUT_LIMIT, 0x7FFFFFFF, 0x80000000, 0xFFFFFFFF)))


def file(chance):
    """Changed bytes: anywhere, or within the tracks, whose lengths are then right."""
    if chance.random() < 0.5:
        return chance.choice(SCALES), mutated(chance, b"".join(piece(chance))), None
    chunks = [chunk(it[:4], mutated(chance, it[8:])) if it[:4] == b"MTrk" else it for it in piece(chance)]
    return chance.choice(SCALES), b"".join(chunks), None


def scale(chance):
    return mutated(chance, chance.choice(SCALES)), b"".join(piece(chance)), None


def cut(chance):
    """A file cut anywhere, or a scale cut behind a line: a chunk or a line is missing."""
    text, chunks = chance.choice(SCALES), piece(chance)
    source = b"".join(chunks)
    if chance.random() < 0.5:
        lines = text.splitlines(keepends=True)
        lines = lines[: chance.randrange(len(lines))]
        needed = sum(not line.startswith(b"!") for line in lines)
        return b"".join(lines), source, f"mtune: scale line {len(lines) + 1} kind {(1, 2, 9)[min(needed, 2)]}"
    at, start = chance.randrange(len(source)), 0
    while at >= start + len(chunks[0]):
        start += len(chunks.pop(0))
    if at < 4:
        return text, source[:at], "mtune: input byte 0 kind 1"
    missing = start > 0 and at < start + 8
    return text, source[:at], f"mtune: input byte {start if missing else at} kind {6 if missing else 5}"


def length(chance):
    """Lengths of chunks and of events that lie."""
    often = chance.choice((0, 0, 0.02, 0.2))
    chunks = piece(chance, spell=lambda number: quantity(lie(chance, number) if chance.random() < often else number))
    for at, it in enumerate(chunks):
        if often == 0 and chance.random() < 0.3:
            chunks[at] = it[:4] + (lie(chance, len(it) - 8) & 0xFFFFFFFF).to_bytes(4, "big") + it[8:]
    return chance.choice(SCALES), b"".join(chunks), None


def running(chance):
    """Status bytes are left out at the front of tracks, and behind meta and sysex events and other status bytes."""
    return chance.choice(SCALES), b"".join(piece(chance, lost=chance.choice((0.03, 0.3, 1)))), None


def quantities(chance):
    """Quantities of one to six bytes, in long spellings too."""
    most, far = chance.choice((2, 3, 4, 4, 5, 6)), chance.choice(((), (), FAR))
    chunks = piece(chance, spell=lambda number: padded(number, chance.randint(1, most)), deltas=DELTAS + far)
    return chance.choice(SCALES), b"".join(chunks), None


def tracks(chance):
    """Up to 6,000 tracks, and headers that promise more, or fewer."""
    number = chance.choice((1, 2, 500, 1023, 1024, 1025, 2000, 5000, chance.randrange(1, 6000)))
    promised = chance.choice((number, number, number, number - 1, number + 1, 65535, 0))
    notes = [b"\0\x90\x45\x40\x60\x80\x45\0", b"\x83\x60\xb1\x07\x64", b"\0\xc5\x05\x01\x06", b""]
    contents = [chunk(b"MTrk", note + b"\0\xff\x2f\0") for note in notes]
    wanted = "mtune: input byte 10 kind 13" if promised > MOST_TRACKS else "mtune: input byte 10 kind 2"
    if 1 <= promised <= MOST_TRACKS:
        wanted = ACCEPTED if promised <= number else None
    source = header(1, promised) + b"".join(chance.choices(contents, k=number))
    return chance.choice(SCALES), source, wanted or f"mtune: input byte {len(source)} kind 6"


def pitch(chance, numbers):
    first, second = chance.choice(numbers), chance.choice(numbers)
    forms = (f"{first}/{second}", first, f"{first}.{second}", f"-{first}.{9 * second}", f".{second}", f"\t{first} / 2")
    return chance.choice(forms).encode()


def text(chance):
    """Scales of odd numbers and many terms, with endless comments, long lines, bytes FF, and other ends of lines."""
    numbers = chance.choice((["1", "2", "3", "5", "81", str(MOST)], ["3", "7"] * 50 + NUMBERS, NUMBERS))
    notes = chance.choice((1, 1, 2, 5, 7, 12, 12, 12, 53, 53, 500) if chance.random() < 0.97 else (4095, 4096, 4097))
    count = chance.choice(NUMBERS) if chance.random() < 0.1 else str(notes + chance.choice((0, 0, 0, 0, 0, 0, -1, 1)))
    lines = [chance.choice((b"", b"a scale", b" !", b"\xff")), count.encode()]
    lines += [pitch(chance, numbers) for _ in range(notes)]
    for _ in range(chance.choice((0, 0, 1, 3))):
        tail = chance.choice((b" \xff", b"\t!", b" /", b"\0", b"/", b" " + 70_000 * b"x"))
        lines[chance.randrange(len(lines))] += tail
    for _ in range(chance.choice((0, 0, 1, 3))):
        comments = [b"!" + chance.choice((b"", b" x", b"\xff" * 300))] * chance.choice((1, 1, 2, 500))
        at = chance.randrange(len(lines) + 1)
        lines[at:at] = comments if chance.random() < 0.9 else [b"!" * 60_000]
    end = chance.choice((b"\n", b"\n", b"\n", b"\r\n", b"\r\n", b"\r", b"\n\n"))
    text = end.join(lines) + chance.choice((b"", end))
    return text, b"".join(piece(chance)), TOO_LONG % "scale" if len(text) > SCALE_LIMIT else None


FILLED = [(b"", b"!", b"\n" + ONE_STEP), (ONE_STEP, b"\xff", b""), (b"", b"\xff", ONE_STEP), (b"d\n", b"0", b"1\n2/1")]
FILLED += [(b"d\n1\n", b" ", b"2/1"), (b"d\n1\n2/", b"0", b"1\n"), (b"d\n1\n1.", b"9", b"\n")]
SHORT = (b"\0\xff\x01\0", b"\0\xf0\x01\xf7", b"\x01\x90\x45\x40\0\x45\0", b"\0\xc0\x05", b"\0\xf7\0")


def limit(chance):
    """Contents that are empty, or have about as many bytes as they may have."""
    text, note = chance.choice(SCALES), chance.choice((b"", b"\0\x90\x45\x40"))
    size, which = chance.choice((-1, 0, 0, 1, 2, 1000)), chance.randrange(20)
    if which == 0:
        return chance.choice(((b"", b"", "mtune: scale line 1 kind 1"), (text, b"", "mtune: input byte 0 kind 1")))
    if which < 16:
        front, filler, back = chance.choice(FILLED) if chance.random() < 0.6 else (text, b"\n", b"")
        text = front + filler * (SCALE_LIMIT + size - len(front + back)) + back
        content, wanted = note, TOO_LONG % "scale" if size > 0 else ACCEPTED
        return text, header(0, 1) + chunk(b"MTrk", content + b"\0\xff\x2f\0"), wanted
    room = INPUT_LIMIT - 100
    content, before = note, b""
    if which == 16 and chance.random() < 0.1:
        events = chance.choice(SHORT)
        content += events * (room // len(events) - 3)
    elif which < 18:
        front = chance.choice((b"\0\xff\x01", b"\0\xf0"))
        content += front + quantity(room) + chance.choice((b"\xff", b"\0")) * room
    elif which == 18:
        before = chunk(b"XFIH", b"\xff" * room)
    source = header(0, 1) + before + chunk(b"MTrk", content + b"\0\xff\x2f\0")
    return text, source.ljust(INPUT_LIMIT + size, b"\0"), TOO_LONG % "input" if size > 0 else ACCEPTED


KINDS = {it.__name__: it for it in (file, cut, length, running, quantities, tracks, scale, text, limit)}
