"""The receiver of midi_model, transcribed event by event: channels, zones, notes, and the messages that bring a channel to a state.

Events are tuples: ("says", message), ("reset",), or others, which change nothing. A message is ("on", channel, key, velocity), ("off", ..),
("key", channel, key, pressure), ("control", channel, number, value), ("program", channel, program), ("pressure", channel, value) or
("bend", channel, value). Channels are counted from 0. No source here tunes by tuning programs.
"""
import copy

KEYS = 128
DEFAULT_CONTROLS = [0] * 120
for number, value in [(7, 100), (8, 64), (10, 64), (11, 127), (91, 40)] + [(n, 64) for n in range(70, 80)]:
    DEFAULT_CONTROLS[number] = value
TUNING_PROGRAM, ZONE_SIZE = 3, 6


# ---- channels

class Channel:
    def __init__(self):
        self.controls, self.selection = list(DEFAULT_CONTROLS), (True, (127, 127), (127, 127))
        self.params, self.voice, self.bend, self.pressure = {}, (0, 0, 0), 8192, 0

    def copy(self):
        other = copy.copy(self)
        other.controls, other.params = list(self.controls), dict(self.params)
        return other

    def shown(self):
        return self.controls, sorted(self.params.items()), self.voice, self.bend, self.pressure


def default_value(rank):
    return (2, 0) if rank == 0 else (0, 64) if rank == 5 else (64, 0)


def value_of(params, rank):
    return params.get(rank, default_value(rank))


def put(params, rank, value):
    params.pop(rank, None)
    if value != default_value(rank):
        params[rank] = value


# the parameter that is selected, the tuning program and the size of a zone among them
def selected(channel):
    registered, rpn, nrpn = channel.selection
    high, low = rpn if registered else nrpn
    return None if (high, low) == (127, 127) else (0 if registered else 16384) + 128 * high + low


def control(channel, n, v):
    registered, rpn, nrpn = channel.selection
    if n in (6, 38):
        rank = selected(channel)
        if rank not in (None, TUNING_PROGRAM, ZONE_SIZE):
            high, low = value_of(channel.params, rank)
            put(channel.params, rank, (v, low) if n == 6 else (high, v))
    elif n in (98, 99):
        channel.selection = (False, rpn, (nrpn[0], v) if n == 98 else (v, nrpn[1]))
    elif n in (100, 101):
        channel.selection = (True, (rpn[0], v) if n == 100 else (v, rpn[1]), nrpn)
    elif n not in (96, 97) and n <= 119:
        channel.controls[n] = v
    elif n == 121:
        for number, value in ((1, 0), (11, 127), (64, 0), (65, 0), (66, 0), (67, 0)):
            channel.controls[number] = value
        channel.selection, channel.bend, channel.pressure = (True, (127, 127), (127, 127)), 8192, 0


def apply(channel, msg):
    if msg[0] == "control":
        control(channel, msg[2], msg[3])
    elif msg[0] == "program":
        channel.voice = (channel.controls[0], channel.controls[32], msg[2])
    elif msg[0] == "pressure":
        channel.pressure = msg[2]
    elif msg[0] == "bend":
        channel.bend = msg[2]


# ---- zones: how many members the lower and the upper one have

def master_of(zones, c):
    lower, upper = zones
    return 0 if 1 <= c <= lower else 15 if 15 - upper <= c < 15 else None


def governor(zones, c):
    master = master_of(zones, c)
    return c if master is None else master


def zones_with(zones, master, size):
    left = zones[1 if master == 0 else 0]
    left = left if size == 0 or size + left < 15 else 0
    return (size, left) if master == 0 else (left, size)


# ---- notes

class Note:
    def __init__(self, channel, key, onset, velocity, voice):
        self.channel, self.key, self.onset, self.velocity, self.voice = channel, key, onset, velocity, voice
        self.release, self.captured, self.pressure, self.ended = None, False, 0, None

    def sounds(self):
        return self.ended is None

    def is_down(self):
        return self.sounds() and self.release is None

    def end(self, tick):
        if self.sounds():
            self.ended = tick

    def let_go(self, tick, velocity):
        if self.is_down():
            self.release = (tick, velocity)


# ---- the music of one port

class Music:
    def __init__(self):
        self.channels, self.zones, self.notes = [Channel() for _ in range(16)], (0, 0), []

    def copy(self):
        other = copy.copy(self)
        other.channels, other.notes = [c.copy() for c in self.channels], [copy.copy(n) for n in self.notes]
        return other

    def state_of(self, note):
        return self.channels[governor(self.zones, note.channel)]

    def sostenuto(self, c, before, v):
        for note in self.notes:
            if governor(self.zones, note.channel) == c and note.sounds():
                if before >= 64 > v:
                    note.captured = False
                elif before < 64 <= v and note.is_down():
                    note.captured = True

    def turn(self, tick, c, n, v, before):
        here = [note for note in self.notes if note.channel == c]
        hearing = here + [note for note in self.notes if note.channel != c and governor(self.zones, note.channel) == c]
        if n == 66:
            self.sostenuto(c, before, v)
        elif n == 121:
            self.sostenuto(c, before, 0)
            for note in here:
                if note.sounds():
                    note.pressure = 0
        elif n == 120:
            for note in hearing:
                note.end(tick)
        elif n in (123, 124, 127):
            for note in hearing:
                note.let_go(tick, 64)

    def set_zone(self, master, size):
        self.zones = zones_with(self.zones, master, size)
        for c in range(16) if size > 0 else ():
            if c == master or governor(self.zones, c) == master:
                put(self.channels[c].params, 0, (2 if c == master else 48, 0))

    def message(self, tick, msg):
        kind, c = msg[0], msg[1]
        here = [note for note in self.notes if note.channel == c]
        before = self.channels[c].controls[66]
        voice = self.channels[governor(self.zones, c)].voice
        asks = kind == "control" and msg[2] == 6 and selected(self.channels[c]) == ZONE_SIZE and c in (0, 15)
        apply(self.channels[c], msg)
        if kind == "on" and msg[3] > 0:
            for note in here:
                if note.key == msg[2]:
                    note.end(tick)
            self.notes.append(Note(c, msg[2], tick, msg[3], voice))
        elif kind in ("on", "off"):
            for note in here:
                if note.key == msg[2]:
                    note.let_go(tick, 64 if kind == "on" else msg[3])
        elif kind == "key":
            for note in here:
                if note.key == msg[2] and note.sounds():
                    note.pressure = msg[3]
        elif kind == "control":
            self.turn(tick, c, msg[2], msg[3], before)
        if asks:
            self.set_zone(c, min(msg[3], 15))
        for note in self.notes:
            if note.release and not note.captured and self.state_of(note).controls[64] < 64:
                note.end(tick)

    def step(self, tick, what):
        if what[0] == "says":
            self.message(tick, what[1])
        elif what[0] == "reset":
            for note in self.notes:
                note.end(tick)
            self.channels, self.zones = [Channel() for _ in range(16)], (0, 0)

    def keys(self, c):
        keys = [0] * KEYS
        for note in self.notes:
            if note.channel == c and note.sounds():
                keys[note.key] = note.pressure
        return keys


# ---- bringing a channel from one state to another

def bring(c, now, keys, wanted, wanted_keys):
    out, at = [], now.copy()

    def send(msg):
        out.append(msg)
        apply(at, msg)

    if at.voice != wanted.voice:
        for n, v in ((0, wanted.voice[0]), (32, wanted.voice[1])):
            if at.controls[n] != v:
                send(("control", c, n, v))
        send(("program", c, wanted.voice[2]))
    for n in range(120):
        if at.controls[n] != wanted.controls[n]:
            send(("control", c, n, wanted.controls[n]))
    back = [r for r in sorted(now.params) if r not in wanted.params]
    there = [r for r in sorted(wanted.params) if value_of(now.params, r) != wanted.params[r]]
    for rank in back + there:
        registered, high, low = rank < 16384, rank % 16384 // 128, rank % 128
        send(("control", c, 101 if registered else 99, high))
        send(("control", c, 100 if registered else 98, low))
        old, new = value_of(now.params, rank), value_of(wanted.params, rank)
        for n, a, b in ((6, old[0], new[0]), (38, old[1], new[1])):
            if a != b:
                send(("control", c, n, b))
    if back + there:
        send(("control", c, 101, 127))
        send(("control", c, 100, 127))
    if at.pressure != wanted.pressure:
        send(("pressure", c, wanted.pressure))
    if at.bend != wanted.bend:
        send(("bend", c, wanted.bend))
    return out + [("key", c, k, wanted_keys[k]) for k in range(KEYS) if keys[k] != wanted_keys[k]]
