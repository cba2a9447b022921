"""Ports, rests, pairs, the choice of channels, and the outputs of the bend and MPE routes, transcribed from retune_model and channel_model.

An event is (tick, track, what), what being as in receiver_model. Position k is the moment after the first k events of the file.
"""
from receiver_model import KEYS, Channel, Music, bring, put, value_of

STEP = 390_625_000


# ---- targets, parts and pairs

class Options:
    def __init__(self, pitches, bend_range, tail, spoil):
        self.pitches, self.range, self.tail, self.spoil = pitches, bend_range, tail, spoil

    def target(self, key):
        lo = self.pitches[key]
        near = (lo + 1_600_000_000_000) // 3_200_000_000_000
        return near, (lo - near * 3_200_000_000_000 + STEP * self.range // 2) // (STEP * self.range)


def is_part(c):
    return c != 9


def is_drum(what):
    return what[0] == "says" and what[1][1] == 9


def bend_in_steps(bend_range, channel):
    high, low = value_of(channel.params, 0)
    return (2 * (channel.bend - 8192) * (100 * high + low) + 100 * bend_range) // (200 * bend_range)


def bend_value(steps):
    return max(0, min(16383, 8192 + steps))


def wanted(options, music, pair):
    part = music.channels[pair[0]].copy()
    r = bend_in_steps(options.range, part)
    put(part.params, 0, (options.range, 0))
    part.bend = bend_value(pair[1] + r)
    keys = [0] * KEYS
    for note in reversed(music.notes):
        if is_part(note.channel) and note.sounds() and (note.channel, options.target(note.key)[1]) == pair:
            keys[options.target(note.key)[0]] = note.pressure
    return part, keys


# ---- the events of a port, and what holds at each position of the file

# `part` says of which channels the notes are: of all retuned parts, or of one
class Port:
    def __init__(self, options, events, ports, z, part=is_part):
        self.options, self.events, self.ports, self.z, self.part = options, events, ports, z, part
        self.own = [k for k in range(1, len(events) + 1) if ports[k - 1] == z]
        self.ticks = [0] + [e[0] for e in events]
        self.music, now = [Music()], Music()
        for k, (tick, _, what) in enumerate(events, 1):
            if ports[k - 1] == z:
                now = now.copy()
                now.step(tick, what)
            self.music.append(now)
        self.past, past = [0], 0
        for k, (_, _, what) in enumerate(events, 1):
            if ports[k - 1] == z and what[0] == "reset" and options.spoil != "reset":
                past = len(self.notes(k))
            self.past.append(past)
        self.at = [self.pairs(self.holding(k)) for k in range(len(events) + 1)]
        self.held = [set()] + [self.pairs([n for n in self.holding(k) if self.lasts(n, self.ticks[k + 1])]) for k in range(len(events))]

    def notes(self, k):
        return [n for n in self.music[k].notes if self.part(n.channel)]

    def lasts(self, note, tick):
        return note.sounds() or tick < note.ended + self.options.tail

    def holding(self, k):
        return [n for n in self.notes(k)[self.past[k]:] if self.lasts(n, self.ticks[k])]

    def pair(self, note):
        return note.channel, self.options.target(note.key)[1]

    def pairs(self, notes):
        return {self.pair(n) for n in notes}

    def need(self):
        return max(len(ps) for ps in self.at)

    # whether drums are kept and the port has some
    def has_drums(self):
        return any(is_drum(self.events[k - 1][2]) for k in self.own)

    def since(self, p, k):
        while k > 0 and p in self.at[k - 1]:
            k -= 1
        return k

    # the last run on a place up to position k, since the last reset: its last position and its pair
    def last_on(self, row, c, k):
        for j in range(k, 0, -1):
            for p in self.at[j]:
                if row[self.since(p, j)] == c:
                    return j, p
            if j in self.own and self.events[j - 1][2][0] == "reset":
                return None
        return None

    def from_state(self, row, c, k):
        last = self.last_on(row, c, k)
        if last is None:
            return Channel(), [0] * KEYS
        j, p = last
        until = j + 1 if (j + 1 < len(self.held) and p in self.held[j + 1]) or self.options.spoil == "left" else j
        return wanted(self.options, self.music[min(until, len(self.music) - 1)], p)

    def free_since(self, row, c, k):
        while k > 0 and not any(row[self.since(p, k)] == c for p in self.at[k]):
            k -= 1
        return k + 1 if k > 0 else 0

    # how many messages bring a place to what a run needs that begins at position k + 1
    def setup_length(self, row, c, k, p):
        return len(bring(0, *self.from_state(row, c, k), *wanted(self.options, self.music[k + 1], p)))

    # on MPE: the bend that a place has, and one message where it differs
    def member_bend(self, row, c, k):
        last = self.last_on(row, c, k)
        return 8192 if last is None else bend_value(last[1][1])

    def member_setup(self, row, c, k, p):
        return 0 if self.member_bend(row, c, k) == bend_value(p[1]) else 1

    # each run's place: of the free ones the one that costs least, then the one that is free longest, then the first
    def places(self, cost):
        row, n = {}, self.need()
        for k in range(len(self.events)):
            for p in self.at[k + 1] - self.at[k]:
                taken = {row[self.since(q, k)] for q in self.at[k + 1] & self.at[k]}
                free = [c for c in range(n) if c not in taken]
                best = min(free, key=lambda c: (cost(self, row, c, k, p), self.free_since(row, c, k), c))
                row[k + 1] = 0 if self.options.spoil == "choice" else best
        return row


# ---- the output of the bend route

class BendOutput:
    def __init__(self, port):
        self.port, self.row = port, port.places(Port.setup_length)
        self.used = [c for c in range(16) if c != 9][:port.need()]
        self.music, self.written = [Music()], []

    def channel(self, k, p):
        return self.used[self.row[self.port.since(p, k)]]

    def causes(self, k, msg, out):
        port, options, before, after = self.port, self.port.options, self.port.music[k - 1], self.port.music[k]
        kind, c = msg[0], msg[1]
        if kind == "on" and msg[3] > 0:
            key, q = options.target(msg[2])
            d = self.channel(k, (c, q))
            ready = [] if (c, q) in port.at[k - 1] else bring(d, out.channels[d], out.keys(d), *wanted(options, after, (c, q)))
            return ready + [("on", d, key, msg[3])]
        if kind in ("on", "off"):
            for note in before.notes:
                if note.channel == c and note.key == msg[2] and note.is_down():
                    d = self.channel(k - 1, port.pair(note))
                    return [(kind, d, options.target(note.key)[0], msg[3])]
            return []
        held = port.held[k] if options.spoil != "held" else port.pairs([n for n in port.notes(k - 1) if n.sounds()])
        channels = sorted((self.channel(k - 1, p), p) for p in held if p[0] == c)
        if kind == "control" and msg[2] in (120, 123, 124, 127):
            return [("control", d, msg[2], msg[3]) for d, _ in channels]
        if kind == "control" and msg[2] in (96, 97, 122, 125, 126):
            return []
        return [m for d, p in channels for m in bring(d, out.channels[d], out.keys(d), *wanted(options, after, p))]

    def step(self, k, own):
        out = self.music[-1]
        if own:
            tick, track, what = self.port.events[k - 1]
            out = out.copy()
            block = [what]
            if what[0] == "says" and is_part(what[1][1]):
                block = [("says", m) for m in self.causes(k, what[1], out)]
            for w in block:
                out.step(tick, w)
                self.written.append((tick, track, w))
        self.music.append(out)

# ---- the output of the MPE route

class Zone:
    def __init__(self, port, upper):
        self.port, self.upper, self.need = port, upper, port.need()
        self.master = 15 if upper else 0
        self.members = [14 - i if upper else 1 + i for i in range(self.need)]
        self.row = port.places(Port.member_setup)

    def member(self, k, p):
        return self.members[self.row[self.port.since(p, k)]]


def registered(c, low, value):
    return [("control", c, n, v) for n, v in ((101, 0), (100, low), (6, value), (101, 127), (100, 127))]


class MpeOutput:
    # none where the port is refused: more than two parts have a note on, or a zone needs more members than it may have
    @staticmethod
    def of(port):
        said = [e[2][1] for k, e in enumerate(port.events, 1) if k in set(port.own) and e[2][0] == "says"]
        parts = sorted({m[1] for m in said if m[0] == "on" and m[3] > 0 and is_part(m[1])})
        if len(parts) > 2:
            return None
        ports = {c: Port(port.options, port.events, port.ports, port.z, lambda d, c=c: d == c) for c in parts}
        parts.sort(key=lambda c: (-ports[c].need(), c))
        zones = [Zone(ports[c], upper) for c, upper in zip(parts, (False, True))]
        drums = port.has_drums()
        allowed = [8, 5] if drums else [14 - zones[1].need, 14] if len(zones) > 1 else [15]
        return MpeOutput(port, dict(zip(parts, zones))) if all(z.need <= n for z, n in zip(zones, allowed)) else None

    def __init__(self, port, zones):
        self.port, self.zones, self.begun = port, zones, False
        self.music, self.written = [Music()], []

    def setup(self):
        bend_range, out = self.port.options.range, []
        for zone in sorted(self.zones.values(), key=lambda z: z.upper):
            out += registered(zone.master, 6, zone.need)
            for c in zone.members if bend_range != 48 else ():
                out += registered(c, 0, bend_range)
        return [("says", m) for m in out]

    def causes(self, k, msg, out):
        port, options, kind, c = self.port, self.port.options, msg[0], msg[1]
        zone = self.zones.get(c)
        if zone is None:
            return []
        if kind == "on" and msg[3] > 0:
            key, q = options.target(msg[2])
            d = zone.member(k, (c, q))
            bend = bend_value(q)
            ready = (c, q) in zone.port.at[k - 1] or out.channels[d].bend == bend or options.spoil == "bend"
            return ([] if ready else [("bend", d, bend)]) + [("on", d, key, msg[3])]
        if kind in ("on", "off"):
            for note in port.music[k - 1].notes:
                if note.channel == c and note.key == msg[2] and note.is_down():
                    d = zone.member(k - 1, zone.port.pair(note))
                    return [(kind, d, options.target(note.key)[0], msg[3])]
            return []
        return [(kind, zone.master) + msg[2:]]

    def step(self, k, own):
        out = self.music[-1]
        if own:
            tick, track, what = self.port.events[k - 1]
            out = out.copy()

            def write(block):
                for w in block:
                    out.step(tick, w)
                    self.written.append((tick, track, w))

            plays, resets = what[0] == "says", what[0] == "reset"
            write(self.setup() if plays and not self.begun else [])
            write([("says", m) for m in self.causes(k, what[1], out)] if plays and is_part(what[1][1]) else [what])
            write(self.setup() if resets and self.begun and self.port.options.spoil != "setup" else [])
            self.begun = self.begun or plays
        self.music.append(out)
