#!/usr/bin/env python3
"""Times warming a disk store over a folder of the host from another, beside `cp -r` and `rsync -a` of the same folder.

Usage: bench/sc_store_warm/run.py [ENTRIES [RUNS]]     (10,000 entries of 20,000 bytes and five runs, if left out)

It needs `rt`, Python and `cp`, and rsync where it is there. The program is built without a proof, in a repository of its own in $SCRATCH
(by default /tmp/sc_store_warm_bench), since what is timed is no crate of this repository. Each run makes a new folder; all of it is
cached. The times are wall times, interleaved, and the ratios those of the medians.
"""
import os
import shutil
import statistics
import subprocess
import sys
import time
from pathlib import Path

TOP = Path(__file__).resolve().parent.parent.parent
SCRATCH = Path(os.environ.get("SCRATCH", "/tmp/sc_store_warm_bench"))
BYTES = 20_000
BELOW = "sc_host_folders sc_store_warm"


def lines_of(names):
    """The lines of crates.txt of these crates and all below them, in order."""
    lines = {}
    for line in (TOP / "crates.txt").read_text(encoding="utf-8").splitlines():
        name, colon, rest = line.partition(":")
        if colon and not line.startswith("#"):
            lines[name] = (line, [word for word in rest.split() if "=" not in word])
    wanted, left = set(), list(names)
    while left:
        name = left.pop()
        if name in lines and name not in wanted:
            wanted.add(name)
            left += lines[name][1]
    return {name: line for name, (line, _) in lines.items() if name in wanted}


def build():
    """Builds the program in a repository of its own, by the tool that builds this one's without a proof."""
    below = lines_of(BELOW.split())
    for name in below:
        shutil.rmtree(SCRATCH / "crates" / name, ignore_errors=True)
        for part in ("src", "specs", "proofs"):
            if (TOP / "crates" / name / part).is_dir():
                shutil.copytree(TOP / "crates" / name / part, SCRATCH / "crates" / name / part)
    shutil.copytree(TOP / "tools", SCRATCH / "tools", dirs_exist_ok=True)
    # (the tool builds the crate of this name)
    main = SCRATCH / "crates" / "sc_main" / "src" / "main.rt"
    main.parent.mkdir(parents=True, exist_ok=True)
    shutil.copyfile(TOP / "bench" / "sc_store_warm" / "program.txt", main)
    uses = "sc_main: sc_entry sc_host sc_host_folders sc_store sc_store_warm anyhow"
    (SCRATCH / "crates.txt").write_text("\n".join([*below.values(), uses, ""]), encoding="utf-8")
    (SCRATCH / "HANDLES").write_bytes((TOP / "HANDLES").read_bytes())
    subprocess.run([SCRATCH / "tools" / "unproved", "-O1"], check=True)
    return SCRATCH / "crates" / "sc_main" / "out" / "unproved"


def fill(folder, entries):
    """Entries with one object each, where a disk store keeps them."""
    data = os.urandom(BYTES - 21)
    for number in range(entries):
        key = f"key-{number:06}"
        place = folder / key[0] / key[1]
        place.mkdir(parents=True, exist_ok=True)
        spelled = b"SCE1\x01\x00\x03\x00obj\x00" + len(data).to_bytes(8, "little") + data
        (place / key).write_bytes(spelled)


def timed(words, said=None):
    begun = time.perf_counter()
    out = subprocess.run(words, check=True, stdout=subprocess.PIPE).stdout.decode().strip()
    took = time.perf_counter() - begun
    if said is not None and out != said:
        sys.exit(f"bench/sc_store_warm/run.py: {words[0]} said {out!r} in place of {said}")
    return took


def main():
    entries = int(sys.argv[1]) if len(sys.argv) > 1 else 10_000
    runs = int(sys.argv[2]) if len(sys.argv) > 2 else 5
    program, room = build(), SCRATCH / "folders"
    shutil.rmtree(room, ignore_errors=True)
    source = room / "from"
    fill(source, entries)
    ways = {"warm": [program, source, None, str(entries)], "cp -r": ["cp", "-r", source, None]}
    if shutil.which("rsync"):
        ways["rsync -a"] = ["rsync", "-a", f"{source}/", None]
    times = {name: [] for name in ways}
    for run in range(runs):
        for name, words in ways.items():
            to = room / f"to-{run}-{name.split()[0]}"
            times[name].append(timed([to if word is None else word for word in words], str(entries) if name == "warm" else None))
            shutil.rmtree(to)
    medians = {name: statistics.median(each) for name, each in times.items()}
    for name, seconds in medians.items():
        print(f"{name}: {seconds:.2f} s, {entries / seconds:,.0f} entries a second, {entries * BYTES / seconds / 1e6:,.0f} MB a second")
    for name in list(ways)[1:]:
        print(f"warm / {name}: {medians['warm'] / medians[name]:.2f}")
    shutil.rmtree(room)


if __name__ == "__main__":
    main()
