#!/usr/bin/env python3
"""Runs the program on hostile inputs, which are made from a seed, and checks what it does with each.

    tools/hostile.py [--kind KIND] [--seed SEED] [--first N] [--count N] [--seconds N] [--jobs N] [--program P]
                     [--keep FOLDER]

Each input has a folder of its own, below a temporary one that is removed at the end; TMPDIR=/dev/shm makes that fast.
The route and all other words of the command are drawn too. A run has to end without a signal, within a second of the
processor's time and ten seconds in all. Where it refuses, it has to say one line of docs/faults.tsv with the line's
status, and each file has to stay as it was. Where it accepts, it has to say the report, whose lines fit together, and
write one output. An output of dump or live has to be refused for the tuning in it (kind 7), and one of mpe for its zones
(kind 8); one of bend has to be accepted on dump with as many notes. An output without a retuned note has to be accepted as
it stands. Each may be too long. Where an input's answer follows from how it was made, it has to be that one. Input number N
of a kind and a seed is the same each time. Failures are printed with kind and number, the status is then 1, and --keep
names a folder for a copy of their inputs.
"""

import argparse
import collections
import multiprocessing
import os
import pathlib
import random
import re
import resource
import shutil
import signal
import sys
import tempfile
import time

from hostile_inputs import ACCEPTED, CHANNELS, INPUT_LIMIT, KINDS, ONE_STEP, PROGRAMS, RANGES, TAILS, TOO_LONG

TOP = pathlib.Path(__file__).resolve().parent.parent
TUNED = "mtune: input event * tick * track * kind 7"
ZONED = "mtune: input event * tick * track * kind 8"
UNFIT = "mtune: usage 3"
NUMBER = r"-?\d+\.\d{3}"
ERROR = rf"error {NUMBER} to {NUMBER}\n"
NOTE = rf"note \d+ part \d+(?: port \d+)? key \d+ channel \d+ tick \d+ to (?:\d+|none) velocity \d+ {ERROR}"
COUNTS = rf"(?P<audit>(?:{NOTE})*)notes (?P<notes>\d+)\nchannels (?P<channels>\d+)\n"
WHOLE = rf"(?:error none\n|{ERROR})"
AT = r"need \d+ tick \d+ position \d+\n(?:pair \d+ -?\d+\n)*"
TOLD = rf"(?:key \d+ to(?: [0-7][0-9A-F]){{3}} {ERROR})*{COUNTS}"
BENT = rf"(?:key \d+ to \d+ bend -?\d+ {ERROR})*{COUNTS}"
ZONES = rf"(?:(?:port \d+\n)?(?:zone (?:lower|upper) part \d+ {AT})+)*"
REPORTS = {
    "dump": re.compile(rf"route dump\n{TOLD}{WHOLE}"),
    "live": re.compile(rf"route live\n{TOLD}{WHOLE}"),
    "bend": re.compile(rf"route bend\n{BENT}(?:(?:port \d+\n)?{AT})*{WHOLE}"),
    "mpe": re.compile(rf"route mpe\n{BENT}{ZONES}{WHOLE}"),
}
AS_IT_STANDS = "accepted as it stands"
SECONDS_IN_ALL = 10
PART = 200
NOTHING = (0, 0, 0)


class Wrong(Exception):
    """What the program did and mustn't."""


def refusals():
    """The lines that may be said of the words and of what stands in files, each with how it is matched and its status."""
    rows = [row.split("\t") for row in (TOP / "docs" / "faults.tsv").read_text().splitlines()[1:]]
    lines = [(row[0], int(row[1])) for row in rows if row[0].startswith("mtune: ") and row[1] in ("1", "2")]
    # where many channels are wanted, the port may stand behind the number that there may be
    number = r"-?\d+(?: on port \d+)?"
    return [(line, re.compile(re.escape(line).replace(r"\*", number) + "\n"), status) for line, status in lines]


REFUSALS = refusals()


def stop(*_):
    raise Wrong("no end")


class Words:
    """Words of the command, but for the names: the route, whether each option goes with it, and whether notes are told."""

    def __init__(self, chance, is_fixed):
        self.route, self.is_fit, options = chance.choice(tuple(REPORTS)), True, []
        self.drums = [["--drums", chance.choice(("keep", "retune"))]] if chance.random() < 0.3 else []
        self.audit = [["--audit"]] if chance.random() < 0.3 else []
        bends, is_bend = self.route in ("bend", "mpe"), self.route == "bend"
        for name, values, fits in (
            ("--range", RANGES, bends),
            ("--tail", TAILS, is_bend),
            ("--channels", CHANNELS, is_bend and not is_fixed),
            ("--program", PROGRAMS, not bends),
        ):
            if chance.random() < (0.3 if fits else 0.01) and (fits or not is_fixed):
                options.append([name, chance.choice(values)])
                self.is_fit = self.is_fit and fits
        if not is_bend or chance.random() < 0.5:
            options.append(["--route", self.route])
        if is_fixed or chance.random() < 0.8:
            options.append(["--a440"])
        if not is_fixed and chance.random() < 0.02:
            options.append(["--sample", chance.choice(("1", "2", "100"))])
        self.options = [*options, *self.drums, *self.audit]
        chance.shuffle(self.options)
        self.is_joined = chance.random() < 0.2

    def line(self):
        """The words in their order; a value may stand behind an equals sign."""
        return ["=".join(it) for it in self.options] if self.is_joined else [word for it in self.options for word in it]


def fits_together(said, words):
    """What is wrong with a report of the route, or an empty text."""
    report = REPORTS[words.route].fullmatch(said)
    if not report:
        return "it is no report of the route"
    if report["audit"].count("note ") != (int(report["notes"]) if words.audit else 0):
        return "it tells other notes than there are"
    if words.route in ("bend", "mpe"):
        needs = sum(int(it) for it in re.findall(r"\bneed (\d+) ", said))
        if not needs == said.count("pair ") == int(report["channels"]):
            return "it has other channels than pairs"
    return ""


def run(given, line, folder):
    """What one run said, its status, and what it took: processor's seconds, seconds in all, and megabytes."""
    said = f"{folder}.said"
    streams = [(os.POSIX_SPAWN_OPEN, 1, said, os.O_WRONLY | os.O_CREAT | os.O_TRUNC, 0o600)]
    streams += [(os.POSIX_SPAWN_DUP2, 1, 2)]
    began = time.monotonic()
    process = os.posix_spawn(given.program, [given.program, *line], {}, file_actions=streams)
    signal.alarm(SECONDS_IN_ALL * given.seconds)
    try:
        _, status, used = os.wait4(process, 0)
    except Wrong:
        os.kill(process, signal.SIGKILL)
        os.waitpid(process, 0)
        raise
    finally:
        signal.alarm(0)
    took = (used.ru_utime + used.ru_stime, time.monotonic() - began, used.ru_maxrss / 1024)
    if took[0] > given.seconds:
        raise Wrong(f"{took[0]:.2f} seconds of the processor")
    return pathlib.Path(said).read_bytes().decode("latin-1"), os.waitstatus_to_exitcode(status), took


def answer_of(said, status, problem):
    """Which answer was given: the one line of the table that fits, or that a report was said that has no problem."""
    answers = [line for line, pattern, wanted in REFUSALS if status == wanted and pattern.fullmatch(said)]
    if status == 0 and not problem:
        answers = [ACCEPTED]
    if len(answers) != 1:
        raise Wrong(f"status {status}, and it said {said[:200]!r}; {problem}")
    return answers[0]


def most(one, other):
    return [max(pair) for pair in zip(one, other)]


def held_in(folder):
    return {name: (folder / name).read_bytes() for name in os.listdir(folder)}


def try_out(given, words, folder, output, case):
    """The answer to an input, and the most that a run took."""
    scale, source, wanted = case
    before = {"scale.scl": scale, "in.mid": source}
    if output == "old.mid":
        before[output] = b"what was there before\n"
    for name, content in before.items():
        (folder / name).write_bytes(content)
    names = ["--scale", f"{folder}/scale.scl", "--out", f"{folder}/{output}", f"{folder}/in.mid"]
    said, status, took = run(given, [*words.line(), *names], folder)
    answer = answer_of(said, status, status == 0 and fits_together(said, words))
    wanted = wanted if words.is_fit else UNFIT
    if wanted not in (None, answer, said.rstrip("\n")):
        raise Wrong(f"it said {said!r}, and {wanted!r} is wanted")
    after = held_in(folder)
    if answer != ACCEPTED:
        if after != before:
            raise Wrong("it refused, and files changed")
        return answer, took
    made = after.get(output, b"")
    if after != {**before, output: made} or not made.startswith(b"MThd"):
        raise Wrong("it accepted, and wrote no output or another file")
    again, more = try_again(given, words, folder, output, REPORTS[words.route].fullmatch(said)["notes"])
    if held_in(folder) != {**after, **({"again.mid": made} if again == AS_IT_STANDS else {})}:
        raise Wrong("over its output it gave another output, or changed files")
    return f"{ACCEPTED}; its output: {again}", most(took, more)


def try_again(given, words, folder, output, notes):
    """The answer to an output with so many notes, and the most that the run took. Nothing new is left of an output of bend."""
    is_bent = words.route == "bend" and notes != "0"
    scale = f"{folder}/equal.scl" if is_bent else f"{folder}/scale.scl"
    if is_bent:
        pathlib.Path(scale).write_bytes(ONE_STEP)
    route = "dump" if is_bent else words.route
    names = ["--scale", scale, "--route", route, "--out", f"{folder}/again.mid", f"{folder}/{output}"]
    said, status, took = run(given, [*(word for it in words.drums for word in it), "--a440", *names], folder)
    report = REPORTS[route].fullmatch(said)
    again = answer_of(said, status, "" if report else "it is no report of the route")
    wanted = {"dump": TUNED, "live": TUNED, "mpe": ZONED, "bend": ACCEPTED}[words.route] if notes != "0" else ACCEPTED
    if os.path.getsize(f"{folder}/{output}") > INPUT_LIMIT:
        wanted = TOO_LONG % "input"
    if again != wanted or (is_bent and again == ACCEPTED and report["notes"] != notes):
        raise Wrong(f"over its output it said {said!r}, and {wanted!r} is wanted")
    for name in ("equal.scl", "again.mid") if is_bent else ():
        pathlib.Path(folder, name).unlink(missing_ok=True)
    return (AS_IT_STANDS if again == ACCEPTED and not is_bent else again), took


def try_part(part):
    """The answers to some numbers of a kind, how often each; the most that a run took; and the failures."""
    given, kind, numbers = part
    signal.signal(signal.SIGALRM, stop)
    answers, took, failures = collections.Counter(), NOTHING, []
    for number in numbers:
        chance = random.Random(f"{kind} {given.seed} {number}")
        case, output = KINDS[kind](chance), chance.choice(("out.mid", "old.mid", "in.mid"))
        words = Words(chance, case[2] is not None)
        folder = pathlib.Path(given.room, f"{kind}-{number}")
        folder.mkdir()
        try:
            answer, more = try_out(given, words, folder, output, case)
            answers[answer] += 1
            took = most(took, more)
        except Wrong as wrong:
            failures.append(f"{kind} {number}, {' '.join(words.line())} --out {output}: {wrong}")
            if given.keep:
                kept = pathlib.Path(given.keep, f"{kind}-{number}")
                kept.mkdir(parents=True, exist_ok=True)
                (kept / "scale.scl").write_bytes(case[0])
                (kept / "in.mid").write_bytes(case[1])
        shutil.rmtree(folder)
        os.unlink(f"{folder}.said")
    return answers, took, failures


def main():
    words = argparse.ArgumentParser(description="Runs the program on hostile inputs.")
    words.add_argument("--kind", choices=KINDS, help="all kinds, where none is given")
    words.add_argument("--seed", type=int, default=1)
    words.add_argument("--first", type=int, default=0, help="the number of the first input")
    words.add_argument("--count", type=int, default=2000, help="how many inputs of each kind")
    words.add_argument("--seconds", type=int, default=1, help="how many seconds of the processor a run may take")
    words.add_argument("--jobs", type=int, default=os.cpu_count())
    words.add_argument("--program", default=str(TOP / "crates" / "mtune" / "out" / "mtune"))
    words.add_argument("--keep", help="a folder for the inputs that fail")
    given = words.parse_args()
    given.program = os.path.abspath(given.program)
    if not os.access(given.program, os.X_OK):
        sys.exit(f"hostile: there is no program {given.program}")
    resource.setrlimit(resource.RLIMIT_CORE, (0, 0))
    failed = 0
    with tempfile.TemporaryDirectory() as given.room, multiprocessing.Pool(given.jobs) as pool:
        for kind in [given.kind] if given.kind else KINDS:
            last = given.first + given.count
            parts = [(given, kind, range(at, min(at + PART, last))) for at in range(given.first, last, PART)]
            answers, took = collections.Counter(), NOTHING
            for some, more, failures in pool.imap_unordered(try_part, parts):
                answers += some
                took = most(took, more)
                failed += len(failures)
                for failure in failures:
                    print(f"hostile: {failure}", flush=True)
            print(f"{kind}: {given.count} inputs; a run took at most {took[0]:.3f} s of the processor,", end=" ")
            print(f"{took[1]:.3f} s in all, and {took[2]:.0f} MB")
            for answer, count in sorted(answers.items()):
                print(f"{count:9} {answer}", flush=True)
    print(f"hostile: {failed} failures, with seed {given.seed}")
    sys.exit(failed > 0)


if __name__ == "__main__":
    main()
