#!/usr/bin/env python3
"""How long `sccache dry CAP..` takes, beside a Rust program over the crate `lru` that prints the same (bench/dry).

Usage: bench/dry.py [USES [RUNS [PROGRAM]]]

USES (1,000,000 if left out) are drawn with a seed: their keys are of 40 bytes and drawn by Zipf's law, so that the nth key is used an nth
as often as the first; a fourth of the uses are puts, and a key always has the same size. The capacities are ten, each double the one
before, and the greatest holds all keys. The programs run in turn, RUNS times each (5 if left out), and the least time of each counts. It is
the processor's and the whole program's: starting, reading the lines, and a run for each capacity. What they print must be the same.

It prints the ratio, then how the time grows with the uses and with the capacities, and how fast lines alone are read. It needs Python, cargo
and Debian's package librust-lru-dev, and the program of these words (by default ./sccache at the top).
"""
import hashlib
import random
import resource
import subprocess
import sys
import tempfile
from itertools import accumulate
from pathlib import Path

TOP = Path(__file__).resolve().parent.parent


def drawn(uses):
    """Lines of so many uses, and the bytes that all their keys have together."""
    dice = random.Random(20261201)
    keys = max(1, uses // 10)
    names = [hashlib.sha1(str(key).encode()).hexdigest() for key in range(keys)]
    sizes = [dice.randrange(100, 100_000) for _ in range(keys)]
    weights = list(accumulate(1 / (rank + 1) for rank in range(keys)))
    lines, used = [], set()
    for key in dice.choices(range(keys), cum_weights=weights, k=uses):
        used.add(key)
        lines.append(f"put {names[key]} {sizes[key]}\n" if dice.random() < 0.25 else f"get {names[key]}\n")
    return "".join(lines).encode(), sum(sizes[key] for key in used)


def capacities_of(total):
    """Ten capacities, each double the one before; the last holds all."""
    return [max(1, total >> shift) for shift in range(9, -1, -1)]


def built(room):
    """The program over the crate `lru`."""
    words = ["cargo", "build", "--release", "--offline", "--quiet", "--target-dir", room]
    subprocess.run(words, cwd=TOP / "bench/dry", check=True)
    return Path(room) / "release/dry-baseline"


def processor():
    usage = resource.getrusage(resource.RUSAGE_CHILDREN)
    return usage.ru_utime + usage.ru_stime


def ran(words, text):
    """How long a program takes over a text, and what it prints."""
    begun = processor()
    done = subprocess.run([str(word) for word in words], input=text, stdout=subprocess.PIPE, check=False)
    if done.returncode != 0:
        sys.exit(f"{words[0]} ended with {done.returncode}")
    return processor() - begun, done.stdout


def least(programs, capacities, text, runs):
    """The least time of each program, run in turn, where all print the same."""
    times = [[] for _ in programs]
    for _ in range(runs):
        printed = set()
        for program, taken in zip(programs, times):
            seconds, out = ran([*program, *capacities], text)
            taken.append(seconds)
            printed.add(out)
        if len(printed) != 1:
            sys.exit("the programs don't print the same")
    return [min(taken) for taken in times]


def main():
    uses = int(sys.argv[1]) if len(sys.argv) > 1 else 1_000_000
    runs = int(sys.argv[2]) if len(sys.argv) > 2 else 5
    ours = [sys.argv[3] if len(sys.argv) > 3 else TOP / "sccache", "dry"]
    text, total = drawn(uses)
    capacities = capacities_of(total)
    with tempfile.TemporaryDirectory() as room:
        mine, theirs = least([ours, [built(room)]], capacities, text, runs)
    print(f"{uses:,} uses, ten capacities: {mine:.2f} s, lru {theirs:.2f} s, ratio {mine / theirs:.2f}")
    half = text[: text.index(b"\n", len(text) // 2) + 1]
    (of_half,) = least([ours], capacities, half, runs)
    (of_five,) = least([ours], capacities[::2], text, runs)
    (lines,) = least([ours], [], text, runs)
    print(f"half the uses: {of_half:.2f} s; five capacities: {of_five:.2f} s")
    print(f"lines alone, {len(text) / 1e6:.0f} MB: {lines:.2f} s, {len(text) / 1e6 / lines:.0f} MB/s")


if __name__ == "__main__":
    main()
