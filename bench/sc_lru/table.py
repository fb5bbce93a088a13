"""Prints the table of a benchmark's runs: the least time of each cell over all runs, and the ratios of these."""
import collections
import pathlib
import sys


def read(folder):
    runs = collections.defaultdict(dict)
    for path in pathlib.Path(folder).iterdir():
        for line in path.read_text().splitlines():
            words = line.split()
            if len(words) != 5:
                continue
            what, name, kind, pairs, tenths = words
            runs[path.suffix][(what, name, kind, int(pairs))] = int(tenths) / 10
    return list(runs.values())


def main():
    runs = read(sys.argv[1])
    others = ["lru", "hashlink", "lru-cache", "kit-lru", "fold-map", "std-map"]
    peers = ["lru", "hashlink"]
    rows = sorted({(w, k, n) for run in runs for (w, _, k, n) in run}, key=lambda r: (r[0], r[2], r[1] != "u64"))
    print("| call | key | pairs | sc_lru | " + " | ".join(others) + " | " + " | ".join("/ " + o for o in others[:3]) + " | / faster of two |")
    print("|---|---|---|" + "---|" * (1 + len(others) + 4))
    for what, kind, pairs in rows:
        ours = min(run[(what, "sc_lru", kind, pairs)] for run in runs)
        theirs = [min(run[(what, other, kind, pairs)] for run in runs) for other in others]
        cells = [f"{time:.1f}" for time in [ours] + theirs]
        cells += [f"{ours / time:.2f}" for time in theirs[:3]]
        cells.append(f"{ours / min(theirs[: len(peers)]):.2f}")
        print(f"| {what} | {kind} | {pairs:,} | " + " | ".join(cells) + " |")


main()
