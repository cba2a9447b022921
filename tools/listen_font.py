"""A sound font (SoundFont 2.01) of one steady sine on all keys, for tools/listen: key 69 is 440 Hz exactly."""
import math
import struct

# 100 samples a period at 44,000 a second
PERIOD, RATE, ROOT = 100, 44_000, 69
PERIODS, LOOPED_FROM = 300, 10
LEVEL = 12_000
# behind each sample the format wants 46 zeros
SILENCE = 46
SAMPLE_MODE, LOOP, SAMPLE, INSTRUMENT, MONO = 54, 1, 53, 41, 1


def chunk(kind, *parts):
    content = b"".join(parts)
    return kind + struct.pack("<I", len(content)) + content + b"\0" * (len(content) % 2)


def name(text):
    return text.encode("ascii").ljust(20, b"\0")


def font():
    samples = [round(LEVEL * math.sin(2 * math.pi * at / PERIOD)) for at in range(PERIOD * PERIODS)] + [0] * SILENCE
    end, loop = PERIOD * PERIODS, (PERIOD * LOOPED_FROM, PERIOD * (PERIODS - LOOPED_FROM))
    data = b"".join(struct.pack("<h", sample) for sample in samples)
    sample = name("sine") + struct.pack("<IIIIIBbHH", 0, end, *loop, RATE, ROOT, 0, 0, MONO)
    generators = struct.pack("<HHHH", SAMPLE_MODE, LOOP, SAMPLE, 0)
    # each list ends with an entry that says where the last one's parts end
    return chunk(
        b"RIFF", b"sfbk",
        chunk(b"LIST", b"INFO", chunk(b"ifil", struct.pack("<HH", 2, 1)), chunk(b"isng", b"EMU8000\0"),
              chunk(b"INAM", b"sine\0\0")),
        chunk(b"LIST", b"sdta", chunk(b"smpl", data)),
        chunk(b"LIST", b"pdta",
              chunk(b"phdr", name("sine") + struct.pack("<HHHIII", 0, 0, 0, 0, 0, 0),
                    name("EOP") + struct.pack("<HHHIII", 0, 0, 1, 0, 0, 0)),
              chunk(b"pbag", struct.pack("<HHHH", 0, 0, 1, 0)),
              chunk(b"pmod", bytes(10)),
              chunk(b"pgen", struct.pack("<HHHH", INSTRUMENT, 0, 0, 0)),
              chunk(b"inst", name("sine") + struct.pack("<H", 0), name("EOI") + struct.pack("<H", 1)),
              chunk(b"ibag", struct.pack("<HHHH", 0, 0, 2, 0)),
              chunk(b"imod", bytes(10)),
              chunk(b"igen", generators, bytes(4)),
              chunk(b"shdr", sample, name("EOS") + bytes(26))))
