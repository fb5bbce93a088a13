#!/usr/bin/env python3
"""Hits and puts per second of `sccache drive` over levels that hold many entries.

Usage: bench/levels.py [entries [requests]]

Each script holds so many entries of 100 bytes at its last level, and then asks for (`get-raw`) or puts (`put-raw`) so many, each
under a key of its own, a request at a time, and makes each handed write right behind it. The puts find the disk level full, so
that each evicts one entry. The time is the whole program's, less that of the same script without its requests.
"""
import sys

from drive import seconds

SIZE = 100
DATA = "A" * SIZE
LEVELS = {
    "one disk level": ["policy single", "level disk {capacity} rw"],
    "disk, remote and disk level": ["policy l0", "level disk {capacity} rw", "level remote rw", "level disk {capacity} rw"],
}


def key(number):
    return f"k{number:07}"


def head(levels, entries):
    """The lines before the first request."""
    capacity = entries * SIZE
    last = len(levels) - 2
    lines = ["script 1", "conns 1"] + [line.format(capacity=capacity) for line in levels]
    lines += [f"hold {last} {key(n)} {DATA}" for n in range(entries)]
    return lines


def asked(request, levels, entries, requests):
    """The lines of so many requests."""
    count = len(levels) - 1
    # A lookup begins, asks each level and is answered. A put begins, takes three steps at the first level, ends and is answered.
    served = count + 2 if request == "get-raw" else 6
    # Of the handed writes, that to the disk level takes three steps, and that to the remote one one.
    written = 4 if count > 1 else 0
    step = max(1, entries // requests)
    lines = []
    for n in range(requests):
        name = key(n * step % entries) if request == "get-raw" else key(entries + n)
        data = "" if request == "get-raw" else f" {DATA}"
        lines += [f"ask 0 {request} {name}{data}", "read 0 1000", f"serve 0 {served}"] + ["back 0"] * written
    return lines


def rate(request, levels, entries, requests):
    """Requests a second."""
    lines = head(levels, entries)
    without = min(seconds(lines) for _ in range(3))
    with_all = min(seconds(lines + asked(request, levels, entries, requests)) for _ in range(3))
    return requests / max(with_all - without, 1e-9)


def main():
    entries = int(sys.argv[1]) if len(sys.argv) > 1 else 100_000
    requests = int(sys.argv[2]) if len(sys.argv) > 2 else 20_000
    print("| levels | entries | hits a second | puts a second |")
    print("|---|---|---|---|")
    for name, levels in LEVELS.items():
        for held in (entries // 100, entries):
            hits = rate("get-raw", levels, held, requests)
            puts = rate("put-raw", levels, held, requests)
            print(f"| {name} | {held:,} | {hits:,.0f} | {puts:,.0f} |")


if __name__ == "__main__":
    main()
