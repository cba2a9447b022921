"""The pitch of a steady tone in a WAV file, by its phase. For tools/listen; it needs Python 3 alone."""
import array
import cmath
import math
import wave

WINDOW = 4096
# seconds between two looks at the phase: each look is exact enough for the next one to count whole turns
STEPS = (0.05, 0.4)


class Sound:
    """The left channel of a WAV file of 16 bits."""

    def __init__(self, name):
        with wave.open(name, "rb") as file:
            self.rate, channels = file.getframerate(), file.getnchannels()
            samples = array.array("h", file.readframes(file.getnframes()))
        self.samples = samples[::channels]

    def pitch(self, second):
        """Hertz of the strongest partial from `second` on, over half a second; None where nothing sounds there."""
        start = round(second * self.rate)
        part = self.samples[start:start + WINDOW]
        if len(part) < WINDOW or max(map(abs, part)) < 50:
            return None
        hertz = self.strongest(part)
        for step in STEPS:
            later = round(step * self.rate)
            turned = cmath.phase(self.partial(start + later, hertz) / self.partial(start, hertz))
            hertz += turned / (2 * math.pi) * self.rate / later
        return hertz

    def partial(self, start, hertz):
        """Strength and phase of a partial in the window at `start`, its phase as at the beginning of the file."""
        turn = -2j * math.pi * hertz / self.rate
        part = self.samples[start:start + WINDOW]
        return sum(sample * cmath.exp(turn * at) for at, sample in enumerate(windowed(part), start))

    def strongest(self, part):
        """Hertz of the strongest partial, to about a hertz: the top of a parabola through the three highest lines."""
        lines = [abs(line) for line in spectrum(windowed(part))[:WINDOW // 2]]
        top = max(range(2, WINDOW // 2 - 1), key=lines.__getitem__)
        before, here, after = (math.log(lines[at] + 1e-9) for at in (top - 1, top, top + 1))
        return (top + (before - after) / 2 / (before - 2 * here + after)) * self.rate / WINDOW


HANN = [0.5 - 0.5 * math.cos(2 * math.pi * at / WINDOW) for at in range(WINDOW)]


def windowed(part):
    return [sample * weight for sample, weight in zip(part, HANN)]


def spectrum(values):
    """The Fourier transform of a power of two of values."""
    if len(values) == 1:
        return values
    even, odd = spectrum(values[::2]), spectrum(values[1::2])
    half = len(even)
    turned = [cmath.exp(-1j * math.pi * at / half) * value for at, value in enumerate(odd)]
    return [a + b for a, b in zip(even, turned)] + [a - b for a, b in zip(even, turned)]


def cents(hertz, other):
    """How far the first is above the second."""
    return 1200 * math.log2(hertz / other)
