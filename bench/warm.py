#!/usr/bin/env python3
"""How fast `sccache warm` copies entries from one level into another, by how many keys are listed and how many are held.

Usage: bench/warm.py [PROGRAM]     (./sccache at the top, if left out)

Entries of 20,000 bytes are copied from a disk level to a remote one and back, in memory, beside 1,000 and beside 100,000 keys that hold
small entries and aren't listed. A script has at most 67,108,864 bytes, so 2,800 entries are as many as fit. The time is the
processor's, the least of three runs, less that of the same script with one `key` line alone: what reading, making and dropping the levels
takes. Over folders of the host no command warms; that is the library's call.
"""
import resource
import subprocess
import sys
from pathlib import Path

TOP = Path(__file__).resolve().parent.parent
ENTRIES = 2_800
BYTES = 20_000
BESIDE = (1_000, 100_000)
RUNS = 3


def entry(data):
    """An entry with one object, as a token: each byte that doesn't stand for itself is an escape."""
    count = len(data).to_bytes(8, "little")
    spelled = b"SCE1\x01\x00\x03\x00obj\x00" + count + data
    return "".join(chr(byte) if 33 <= byte <= 126 and byte != 92 else f"\\x{byte:02x}" for byte in spelled)


def script(levels, beside, listed):
    """Levels, what the first holds, and the keys that are listed."""
    yield "script 1"
    yield from (f"level {level}" for level in levels)
    # All but what a spelling takes beside its data.
    data = entry(b"x" * (BYTES - 20))
    yield from (f"hold 0 key-{number:05} {data}" for number in range(ENTRIES))
    small = entry(b"x")
    yield from (f"hold 0 beside-{number:06} {small}" for number in range(beside))
    yield from (f"key key-{number:05}" for number in range(listed))


def processor():
    usage = resource.getrusage(resource.RUSAGE_CHILDREN)
    return usage.ru_utime + usage.ru_stime


def least(program, text):
    """The least time of all runs over a script, and how many entries each copied."""
    times, copied = [], 0
    for _ in range(RUNS):
        begun = processor()
        done = subprocess.run([str(program), "warm"], input=text, stdout=subprocess.PIPE, check=False)
        times.append(processor() - begun)
        if done.returncode != 0:
            sys.exit(f"{program} warm ended with {done.returncode}")
        copied = done.stdout.count(f" copied {BYTES}\n".encode())
    return min(times), copied


def main():
    program = sys.argv[1] if len(sys.argv) > 1 else TOP / "sccache"
    disk, remote = f"disk {2**40} rw", "remote rw"
    print("| from | to | keys held beside | entries a second | bytes a second | reading and making |")
    print("|---|---|---|---|---|---|")
    for levels in ((disk, remote), (remote, disk)):
        for beside in BESIDE:
            few = ("\n".join(script(levels, beside, 1)) + "\n").encode()
            all_keys = ("\n".join(script(levels, beside, ENTRIES)) + "\n").encode()
            rest, _ = least(program, few)
            taken, copied = least(program, all_keys)
            if copied != ENTRIES:
                sys.exit(f"{copied} of {ENTRIES} entries were copied")
            seconds = max(taken - rest, 0.001)
            rate = (ENTRIES - 1) / seconds
            print(f"| {levels[0].split()[0]} | {levels[1].split()[0]} | {beside:,} | {rate:,.0f} | {rate * BYTES / 1e6:,.0f} MB | {rest:.2f} s |")


if __name__ == "__main__":
    main()
