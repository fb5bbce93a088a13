#!/usr/bin/env python3
"""Handed writes per second of `sccache drive`, made from the middle of those that are left.

Usage: bench/backlog.py [writes]

Each script puts so many entries at a remote level that is written in the background, so that each put hands one write, and then
makes the writes, each time the one in the middle of those that are left. The time is the processor's, the whole program's less that
of the same script without its `back` lines.
"""
import resource
import sys

from drive import seconds


def puts(writes):
    """The lines that hand so many writes."""
    lines = ["script 1", "conns 1", "policy ignore", "level remote rw"]
    lines += [f"ask 0 put-raw k{n:07} AA" for n in range(writes)]
    # Each put begins, ends its write part and is answered.
    return lines + ["read 0 1000000000", f"serve 0 {3 * writes}"]


def backs(writes):
    """The lines that make them, the middle one of those that are left each time."""
    return [f"back {left // 2}" for left in range(writes, 0, -1)]


def processor_seconds(lines):
    """How long the program uses a processor over a script, the least of three runs."""
    def spent():
        usage = resource.getrusage(resource.RUSAGE_CHILDREN)
        return usage.ru_utime + usage.ru_stime

    def once():
        before = spent()
        seconds(lines)
        return spent() - before

    return min(once() for _ in range(3))


def rate(writes):
    """Handed writes a second."""
    lines = puts(writes)
    return writes / max(processor_seconds(lines + backs(writes)) - processor_seconds(lines), 1e-9)


def main():
    most = int(sys.argv[1]) if len(sys.argv) > 1 else 300_000
    print("| writes left at first | writes a second |")
    print("|---|---|")
    for writes in (most // 10, most // 3, most):
        print(f"| {writes:,} | {rate(writes):,.0f} |")


if __name__ == "__main__":
    main()
