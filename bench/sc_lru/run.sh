#!/bin/sh
# Times sc_lru beside the Rust crates lru, hashlink and lru-cache, the kit's port of lru and a hand-made baseline, and prints a table.
# Needs `rt`, cargo and Debian's packages librust-lru-dev, librust-hashlink-dev and librust-lru-cache-dev, and no network.
# Usage: bench/sc_lru/run.sh [RUNS], at the top of the repository. The scratch repository is kept in $SCRATCH, to be used again.
# Each timed program runs behind the words of $TIMED_BY, as in TIMED_BY="nice -n -20 taskset -c 3".
set -eu
timed_by=${TIMED_BY:-}
runs=${1:-5}
top=$(pwd)
here=$top/bench/sc_lru
scratch=${SCRATCH:-${TMPDIR:-/tmp}/sc_lru_bench}

# A repository of its own, since a benchmark's source is no crate of this one.
mkdir -p "$scratch/crates/lru_bench/src" "$scratch/crates/kit_bench/src" "$scratch/runs"
rm -rf "$scratch/crates/sc_lru/src" "$scratch/crates/sc_lru/specs" "$scratch/crates/sc_lru/proofs"
mkdir -p "$scratch/crates/sc_lru"
cp -r "$top/crates/sc_lru/src" "$top/crates/sc_lru/specs" "$top/crates/sc_lru/proofs" "$scratch/crates/sc_lru/"
cp "$here/program.txt" "$scratch/crates/lru_bench/src/main.rt"
cp "$here/kit_program.txt" "$scratch/crates/kit_bench/src/main.rt"
cat >"$scratch/crates.txt" <<'END'
sc_lru: indexmap std_collections
lru_bench: sc_lru anyhow
kit_bench: lru anyhow
END
# Each program is proved before it is built, and runs once.
(cd "$scratch/crates/lru_bench" && rt run) >"$scratch/build.log" 2>&1
(cd "$scratch/crates/kit_bench" && rt run) >"$scratch/kit_build.log" 2>&1
(cd "$here/baseline" && CARGO_TARGET_DIR="$scratch/target" cargo build --release --offline --quiet)

rm -f "$scratch"/runs/*
i=0
while [ "$i" -lt "$runs" ]; do
    $timed_by "$scratch/crates/lru_bench/out/lru_bench" >"$scratch/runs/ours.$i"
    $timed_by "$scratch/crates/kit_bench/out/kit_bench" >"$scratch/runs/kit.$i"
    for peer in lru hashlink lru-cache fold-map std-map; do
        $timed_by "$scratch/target/release/lru-baseline" "$peer" >"$scratch/runs/$peer.$i"
    done
    i=$((i + 1))
done
python3 "$here/table.py" "$scratch/runs"
