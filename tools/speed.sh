#!/bin/sh
# Measures mtune beside midicopy of abcmidi, a plain C program that reads and writes the same file.
#
#     tools/speed.sh [RUNS [SCALE]]
#
# It makes files of 300,000 notes alone and of 200,000 notes with pedals and bends, in 1, 16 and 1,000 tracks, runs both
# programs on each of them in turn, and prints the medians of their times and, where valgrind is there, how many
# instructions each takes: the program that was built here, else the one in dist/, in SCALE (examples/meantone.scl), from key 69 at
# 440 Hz. It wants python3; a peer that is missing, or that does not take a file, is shown as '-': so are bend and
# mpe where the parts of many tracks need too many channels.
set -eu

here=$(dirname "$(readlink -f "$0")")
runs=${1:-9}
scale=${2:-$here/../examples/meantone.scl}
folder=$(mktemp -d)
trap 'rm -rf "$folder"' EXIT

# Proves and builds the program where there is none of this tree; here it refuses to run without words.
"$here/../mtune" >/dev/null 2>&1 || true
program=$here/../crates/mtune/out/mtune
[ -x "$program" ] || program=$here/../dist/mtune-$(uname -m)-$(uname -s | tr '[:upper:]' '[:lower:]')
python3 "$here/speed_files.py" "$folder"
python3 - "$program" "$scale" "$folder" "$runs" <<'END'
import os
import shutil
import statistics
import subprocess
import sys
import time

program, scale, folder, runs = sys.argv[1], sys.argv[2], sys.argv[3], int(sys.argv[4])
out = f"{folder}/out.mid"
mtune = [program, "--scale", scale, "--a440", "--route"]


def commands(name):
    """What is run on a file, by a name."""
    peers = {f"mtune {route}": [*mtune, route, "--out", out, name] for route in ("dump", "live", "bend", "mpe")}
    return {**peers, "midicopy": ["midicopy", name, out]}


def run(words):
    """How many milliseconds a run takes; None where it fails or writes nothing."""
    if os.path.exists(out):
        os.remove(out)
    start = time.perf_counter()
    done = subprocess.run(words, stdout=subprocess.DEVNULL, stderr=subprocess.DEVNULL)
    passed = (time.perf_counter() - start) * 1000
    return passed if done.returncode == 0 and os.path.exists(out) and os.path.getsize(out) > 100 else None


def instructions(words):
    """How many million instructions a run takes; None without valgrind."""
    if not shutil.which("valgrind"):
        return None
    said = subprocess.run(
        ["valgrind", "--tool=callgrind", f"--callgrind-out-file={folder}/counts", *words],
        stdout=subprocess.DEVNULL,
        stderr=subprocess.PIPE,
        text=True,
    ).stderr
    counts = [line.split(":")[1] for line in said.splitlines() if "Collected" in line]
    return int(counts[0]) / 1e6 if counts else None


def shown(number, digits):
    return "-" if number is None else f"{number:.{digits}f}"


print(f"{'file':<16}{'program':<14}{'ms':>8}{'million':>10}")
for name in sorted(os.listdir(folder)):
    if not name.endswith(".mid") or name == "out.mid":
        continue
    peers = {peer: words for peer, words in commands(f"{folder}/{name}").items() if shutil.which(words[0])}
    times = {peer: [] for peer in peers}
    for _ in range(runs):
        for peer, words in peers.items():
            times[peer].append(run(words))
    for peer, words in peers.items():
        taken = [passed for passed in times[peer] if passed is not None]
        median = statistics.median(taken) if taken else None
        count = instructions(words) if taken else None
        print(f"{name[:-4]:<16}{peer:<14}{shown(median, 1):>8}{shown(count, 1):>10}")
END
