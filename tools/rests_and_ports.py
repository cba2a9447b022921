#!/usr/bin/env python3
"""Random sources with two ports, against the definitions of retune_model and channel_model, transcribed.

Run `python3 tools/rests_and_ports.py [--sources N] [--seed N] [--route bend|mpe] [--spoil RULE]`; it needs Python 3 alone. Each source has
two ports, resets, pedals, controllers, parameters, bends, pressures and kept drums. It is retuned with tails 0, 1 and 300, on the bend
route at a bend sensitivity of 12 and on MPE at 48 or 12: pairs, need, the choice of channels by the shortest setup, zones, and the outputs
are computed as the definitions in specs/ say (Ports, Rests, Runs, Choice, Rows, BendOutput, MpeOutput), the receiver as midi_model's. Then
source and output are played event by event, and at every position of the file, on every port, it must hold that

- the retuned notes are equally many, and the i-th of each agree in onset, velocity, voice, release and end, and where they sound also in
  what the pedals hold and in pressure; the output's is on the target key and on its run's channel;
- each is played within half a step of its bend and a thousandth of a cent of its source pitch, and on MPE with its part's controllers,
  pressure and parameters, the bend sensitivity aside;
- on bend, each channel of a pair that is there has the state that is wanted for it, the selection aside; each other used channel sounds
  nothing and is as its last run left it. On MPE each member has the bend of its pair, or of its last run;
- notes that hold on one channel have one pair; as many channels, and of each zone as many members, are used as are needed, the first of
  them; messages of drums are passed on, and no others go to channels that are neither used nor a zone's.

On MPE a port is left out where more than two of its parts have a note on, or a zone needs more members than it may have.

With `--spoil` one rule is changed, and the run is good only where some source then fails: `reset` lets notes rest through a reset, `choice`
gives each run the first place. On bend alone `left` takes the state after the event behind a run's last, and `held` brings only channels
whose notes sound; on MPE alone `setup` writes no zones behind a reset, and `bend` sends members no bends. The last lines say how many
sources passed on each route, or the first that failed.
"""
import argparse
import random

from output_models import STEP, BendOutput, MpeOutput, Options, Port, bend_in_steps, bend_value, is_drum, is_part, wanted
from receiver_model import KEYS, value_of

SPOILS = {"reset": ("bend", "mpe"), "choice": ("bend", "mpe"), "left": ("bend",), "held": ("bend",), "setup": ("mpe",), "bend": ("mpe",)}


# ---- what must hold on both routes

def fine_and_coarse(channel):
    high, low = value_of(channel.params, 1)
    return STEP * (128 * high + low - 8192) + 3_200_000_000_000 * (value_of(channel.params, 2)[0] - 64)


def bent(channel):
    high, low = value_of(channel.params, 0)
    return 3_906_250 * (100 * high + low) * (channel.bend - 8192)


def check_note(port, k, a, b):
    options = port.options
    assert b.key == options.target(a.key)[0], "key"
    assert (b.onset, b.velocity, b.voice, b.release, b.ended) == (a.onset, a.velocity, a.voice, a.release, a.ended), "note"
    if a.sounds():
        assert (b.captured, b.pressure) == (a.captured, a.pressure), "pedals and pressure"


def check_pitch(options, aim, played):
    assert abs(aim - played) <= STEP * options.range // 2 + 32_000_000, "pitch"


def check_valid(port, played, k):
    held = {}
    for i, note in enumerate(port.notes(k)):
        if i >= port.past[k] and port.lasts(note, port.ticks[k]):
            assert held.setdefault(played[i].channel, port.pair(note)) == port.pair(note), "valid"


def check_drums(port, output, channels):
    own = set(port.own)
    drums = [e for k, e in enumerate(port.events, 1) if k in own and is_drum(e[2])]
    if drums:
        assert [e for e in output.written if is_drum(e[2])] == drums, "drums"
    others = {e[2][1][1] for e in output.written if e[2][0] == "says" and not (drums and is_drum(e[2]))}
    assert others <= channels, "channels"


def play(port, output):
    own = set(port.own)
    for k in range(1, len(port.events) + 1):
        output.step(k, k in own)


# ---- on bend

def check_bent_note(port, output, k, a, b):
    options = port.options
    assert b.channel == output.channel(k, port.pair(a)), "channel"
    part, channel = port.music[k].channels[a.channel], output.music[k].channels[b.channel]
    aim = options.pitches[a.key] + fine_and_coarse(part) + bend_in_steps(options.range, part) * STEP * options.range
    check_pitch(options, aim, 3_200_000_000_000 * b.key + fine_and_coarse(channel) + bent(channel))


def check_bent_position(port, output, k):
    notes, played = port.notes(k), [n for n in output.music[k].notes if is_part(n.channel)]
    assert len(notes) == len(played), "as many notes"
    for a, b in zip(notes, played):
        check_note(port, k, a, b)
        if a.sounds():
            check_bent_note(port, output, k, a, b)
    out = output.music[k]
    place = {output.channel(k, p): p for p in port.at[k]}
    assert len(place) == len(port.at[k]), "one pair on a channel"
    for i, d in enumerate(output.used):
        state, keys = wanted(port.options, port.music[k], place[d]) if d in place else port.from_state(output.row, i, k)
        assert out.channels[d].shown() == state.shown(), "state of a channel"
        assert d in place or not any(n.channel == d and n.sounds() for n in out.notes), "silent channel"
        assert d not in place or out.keys(d) == keys, "key pressures"
    check_valid(port, played, k)


def check_bend(port):
    output = BendOutput(port)
    play(port, output)
    for k in range(len(port.events) + 1):
        check_bent_position(port, output, k)
    used = {n.channel for n in output.music[-1].notes if is_part(n.channel)}
    assert used == set(output.used), "the first channels, as many as are needed"
    check_drums(port, output, used)
    return True


# ---- on MPE

def check_zoned_note(port, output, k, a, b):
    options, source, out = port.options, port.music[k], output.music[k]
    zone = output.zones[a.channel]
    assert b.channel == zone.member(k, port.pair(a)), "member"
    part, master, member = source.channels[a.channel], out.state_of(b), out.channels[b.channel]
    assert master is out.channels[zone.master], "zone"
    others = [{r: v for r, v in c.params.items() if r != 0} for c in (part, master)]
    assert (part.controls, part.pressure, others[0]) == (master.controls, master.pressure, others[1]), "settings"
    aim = options.pitches[a.key] + fine_and_coarse(part) + bent(part)
    check_pitch(options, aim, 3_200_000_000_000 * b.key + fine_and_coarse(master) + bent(master) + bent(member))


def check_zone(zone, out, k):
    port = zone.port
    place = {zone.member(k, p): p for p in port.at[k]}
    assert len(place) == len(port.at[k]), "one pair on a member"
    for i, d in enumerate(zone.members):
        bend = bend_value(place[d][1]) if d in place else port.member_bend(zone.row, i, k)
        assert out.channels[d].bend == bend, "bend of a member"


def check_zoned_position(port, output, k, retuned):
    notes, played = port.notes(k), [n for n in output.music[k].notes if retuned(n.channel)]
    assert len(notes) == len(played), "as many notes"
    for a, b in zip(notes, played):
        check_note(port, k, a, b)
        if a.sounds():
            check_zoned_note(port, output, k, a, b)
    for zone in output.zones.values():
        check_zone(zone, output.music[k], k)
    check_valid(port, played, k)


def check_mpe(port):
    output = MpeOutput.of(port)
    if output is None:
        return False
    drums = port.has_drums()
    play(port, output)
    for k in range(len(port.events) + 1):
        check_zoned_position(port, output, k, lambda c: not (drums and c == 9))
    used = {n.channel for n in output.music[-1].notes if not (drums and n.channel == 9)}
    assert used == {d for zone in output.zones.values() for d in zone.members}, "the first members, as many as are needed"
    check_drums(port, output, used | {zone.master for zone in output.zones.values()})
    return True


# ---- random sources

# `notes` are the channels that have note ons, `others` those of all other messages; on MPE parts have no key pressure
def random_message(draw, route, notes, others):
    c, key = draw.choice(others), draw.choice([60, 61, 62, 64, 65, 67])
    pick = draw.randrange(100)
    if pick < 38:
        return ("on", draw.choice(notes), key, draw.randrange(1, 128))
    if pick < 60:
        return ("off", c, key, draw.randrange(128)) if draw.random() < 0.7 else ("on", c, key, 0)
    if pick < 72:
        return ("control", c, draw.choice([64, 64, 66]), draw.choice([0, 127]))
    if pick < 80:
        return ("control", c, draw.choice([0, 1, 7, 32, 121, 120, 123, 127, 122]), draw.randrange(128))
    if pick < 86:
        return ("bend", c, draw.randrange(16384))
    if pick < 90:
        return ("program", c, draw.randrange(4))
    return ("key", c, key, draw.randrange(128)) if pick >= 94 and (route == "bend" or c == 9) else ("pressure", c, draw.randrange(128))


def parameter(draw, others):
    c, low = draw.choice([c for c in others if c != 9]), draw.choice([0, 1, 2])
    value = draw.randrange(1, 5) if low == 0 else draw.randrange(128)
    return [("control", c, 101, 0), ("control", c, 100, low), ("control", c, 6, value)]


# on MPE mostly two parts have notes, sometimes one or three, and a third part has other messages; drums are there or not
def random_channels(draw, route):
    if route == "bend":
        return [0, 0, 1, 2, 9], [0, 0, 1, 2, 9]
    parts = draw.sample([0, 1, 2, 8, 14, 15], 3)
    drums = draw.choice([[], [9]])
    return parts[:draw.choice([1, 1, 2, 2, 2, 2, 2, 3])] + drums, parts[:1] + parts + drums


def random_source(draw, route):
    notes, others = random_channels(draw, route)
    events, tick = [(0, 0, ("port", 0)), (0, 1, ("port", 1))], 0
    for _ in range(draw.randrange(10, 45)):
        tick += draw.choice([0, 0, 1, 2, 100, 299, 300, 301])
        track = draw.randrange(2)
        what = draw.randrange(40)
        if what == 0:
            events.append((tick, track, ("reset",)))
        elif what == 1:
            events.append((tick, track, ("text",)))
        elif what < 5:
            events += [(tick, track, ("says", m)) for m in parameter(draw, others)]
        else:
            events.append((tick, track, ("says", random_message(draw, route, notes, others))))
    return sorted(events, key=lambda e: e[:2])


def random_pitches(draw):
    return [3_200_000_000_000 * k + draw.choice([0, 0, 1_234_567_890_123, -1_400_000_000_001, 700_000_000_000]) for k in range(KEYS)]


def run(route, words):
    draw, ports, left_out, rests = random.Random(words.seed), 0, 0, 0
    check = check_bend if route == "bend" else check_mpe
    for number in range(words.sources):
        events, pitches = random_source(draw, route), random_pitches(draw)
        bend_range = 12 if route == "bend" else draw.choice([48, 12])
        for tail in (0, 1, 300):
            options = Options(pitches, bend_range, tail, words.spoil)
            for z in (0, 1):
                port = Port(options, events, [e[1] for e in events], z)
                try:
                    took = check(port)
                except (AssertionError, KeyError, ValueError) as fault:
                    print(f"{route}: source {number} tail {tail} port {z}: {fault!r}")
                    return False
                ports, left_out = ports + took, left_out + (not took)
                rests += took and sum(any(not n.sounds() for n in port.holding(k)) for k in range(len(events) + 1))
    print(f"{route}: {words.sources} sources passed: {ports} ports, with notes that rest at {rests} positions; {left_out} ports were left out")
    return True


def main():
    parser = argparse.ArgumentParser(description=__doc__, formatter_class=argparse.RawDescriptionHelpFormatter)
    parser.add_argument("--sources", type=int, default=100)
    parser.add_argument("--seed", type=int, default=1)
    parser.add_argument("--route", choices=["bend", "mpe"])
    parser.add_argument("--spoil", choices=sorted(SPOILS))
    words = parser.parse_args()
    routes = [r for r in ("bend", "mpe") if words.route in (None, r) and r in SPOILS.get(words.spoil, ("bend", "mpe"))]
    passed = [run(route, words) for route in routes]
    return 1 if any(passed) and words.spoil or not all(passed) and not words.spoil else 0


if __name__ == "__main__":
    raise SystemExit(main())
