#!/usr/bin/env python3
"""How long `sccache generate N` takes, and how much memory, by N.

Usage: bench/generate.py [N ..]

The script of N is written here once more, line by line, and driven by too: where its report isn't that of `generate N` from the
first level on, the benchmark fails. A step is one event. The time is the processor's and the whole program's, the least of three runs; the
memory is the most that a run had.
"""
import os
import subprocess
import sys
from pathlib import Path

TOP = Path(__file__).resolve().parent.parent
NUMBERS = [100, 500, 2000]
KEYS = 50


class Draws:
    """Numbers that are drawn one after another from a first one."""

    def __init__(self, number):
        self.state = number

    def draw(self, below):
        self.state = (1103515245 * self.state + 12345) % 2**31
        return self.state // 65536 % below


def script(number):
    """The lines of the script of a number."""
    draws = Draws(number)
    yield from ["script 1", "conns 4", "tokens 2", "policy l0", "level disk 2000 rw", "level remote rw", "tool /cc 1 gcc"]
    yield from (f"run k{k:03} 0 {k:03} - obj={k:03}" for k in range(KEYS))
    for i in range(number):
        yield f"ask {i % 4} compile /cc / -- --key k{draws.draw(KEYS):03} --out obj=/o -- a.c"
    yield from (f"read {c} 1000000" for c in range(4))
    for _ in range(40 * number):
        step = draws.draw(5)
        yield f"serve {step}" if step < 4 else "back 0"
    for _ in range(2):
        yield from (f"serve {c} {20 * number}" for c in range(4))
    yield from ["back 0"] * (20 * number)


def run(words, text=b""):
    """What the program printed, the seconds that it took, and its greatest memory in bytes."""
    with subprocess.Popen([TOP / "sccache", *words], stdin=subprocess.PIPE, stdout=subprocess.PIPE) as program:
        program.stdin.write(text)
        program.stdin.close()
        printed = program.stdout.read()
        _, status, used = os.wait4(program.pid, 0)
        program.returncode = os.waitstatus_to_exitcode(status)
    if program.returncode != 0:
        sys.exit(f"sccache {' '.join(words)} ended with {program.returncode}")
    return printed, used.ru_utime + used.ru_stime, used.ru_maxrss * 1024


def from_first_level(report):
    """A report without what it tells of connections."""
    return report[report.index(b"\nlevel 0 ") + 1 :]


def main():
    numbers = [int(word) for word in sys.argv[1:]] or NUMBERS
    print("| N | steps | seconds | events a second | memory | the same script read and driven by |")
    print("|---|---|---|---|---|---|")
    for number in numbers:
        text = ("\n".join(script(number)) + "\n").encode()
        runs = [run(["generate", str(number)]) for _ in range(3)]
        driven = [run(["drive"], text) for _ in range(3)]
        printed = from_first_level(driven[0][0])
        if any(report != printed for report, _, _ in runs):
            sys.exit(f"generate {number} doesn't print what its script does")
        steps = 220 * number + 4
        taken = min(seconds for _, seconds, _ in runs)
        most = max(memory for _, _, memory in runs)
        reading = min(seconds for _, seconds, _ in driven)
        print(f"| {number:,} | {steps:,} | {taken:.2f} | {steps / taken:,.0f} | {most / 10**6:,.0f} MB | {reading:.2f} s |")


if __name__ == "__main__":
    main()
