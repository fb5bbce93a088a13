#!/usr/bin/env python3
"""Events per second of `sccache drive`, by connections and by steps.

Usage: bench/drive.py [most steps]

Each script has so many connections with ten compiles each (an eighth of them of keys that another asks too), reads
all their bytes, and then serves one connection after the other, a step at a time, until the steps are used up. A step
is one event. The time is that of the whole program: starting, reading the script, driving, and printing the report. Growth
is linear where the columns of a row are alike.
"""
import subprocess
import sys
import time
from pathlib import Path

TOP = Path(__file__).resolve().parent.parent
CONNECTIONS = [1, 32, 1024]
REQUESTS = 10
STEPS = [10**4, 10**5, 10**6, 10**7]


def head(connections):
    """The lines before the first step."""
    lines = ["script 1", f"conns {connections}", "tokens 64", "level remote rw", "tool /cc 1 gcc"]
    keys = range(max(1, connections * REQUESTS * 7 // 8))
    lines += [f"run key{k} 0 out{k} - obj=data{k}" for k in keys]
    for c in range(connections):
        for r in range(REQUESTS):
            k = (c * REQUESTS + r) % len(keys)
            lines.append(f"ask {c} compile /cc / -- --key key{k} --out obj=/o -- a.c")
    lines += [f"read {c} 1000000" for c in range(connections)]
    return lines


def turns(connections, steps):
    """Lines that serve each connection in turn, so many steps in all."""
    left = max(0, steps - connections)
    chunk = 10
    c = 0
    while left > 0:
        count = min(chunk if connections > 1 else left, left)
        yield f"serve {c} {count}"
        left -= count
        c = (c + 1) % connections


def seconds(lines):
    """How long the program takes over a script."""
    text = ("\n".join(lines) + "\n").encode()
    begun = time.monotonic()
    done = subprocess.run([TOP / "sccache", "drive"], input=text, stdout=subprocess.DEVNULL, check=False)
    if done.returncode != 0:
        sys.exit(f"sccache ended with {done.returncode}")
    return time.monotonic() - begun


def main():
    most = int(sys.argv[1]) if len(sys.argv) > 1 else STEPS[-1]
    counts = [n for n in STEPS if n <= most]
    print("| connections | " + " | ".join(f"{n:,} steps" for n in counts) + " |")
    print("|---|" + "---|" * len(counts))
    for connections in CONNECTIONS:
        first = head(connections)
        row = []
        for steps in counts:
            if steps < connections:
                row.append("-")
                continue
            taken = seconds(first + list(turns(connections, steps)))
            row.append(f"{steps / taken:,.0f}/s ({taken:.2f} s)")
        print(f"| {connections} | " + " | ".join(row) + " |")


if __name__ == "__main__":
    main()
