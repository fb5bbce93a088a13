#!/bin/sh
# Times the opening of a disk store over a folder of the host beside a listing of it, measures the memory of its index, and kills a
# program that stores files at ten moments. Needs `rt`, a C compiler and Python, and no network.
# Usage: bench/sc_disk/run.sh [ENTRIES [RUNS]], at the top of the repository. The scratch repository is kept in $SCRATCH, to be used again.
set -eu
entries=${1:-100000}
runs=${2:-5}
top=$(pwd)
here=$top/bench/sc_disk
scratch=${SCRATCH:-${TMPDIR:-/tmp}/sc_disk_bench}

# A repository of its own, since a benchmark's source is no crate of this one.
mkdir -p "$scratch/crates/disk_bench/src"
for crate in sc_entry sc_lru sc_disk sc_command sc_host; do
    rm -rf "$scratch/crates/$crate/src" "$scratch/crates/$crate/specs" "$scratch/crates/$crate/proofs"
    mkdir -p "$scratch/crates/$crate"
    for part in src specs proofs; do
        if [ -d "$top/crates/$crate/$part" ]; then cp -r "$top/crates/$crate/$part" "$scratch/crates/$crate/"; fi
    done
done
cp "$here/program.txt" "$scratch/crates/disk_bench/src/main.rt"
cat >"$scratch/crates.txt" <<'END'
sc_entry:
sc_lru: indexmap std_collections
sc_disk: sc_entry sc_lru indexmap slab memchr
sc_command: sc_entry indexmap
sc_host: sc_entry sc_disk sc_command
disk_bench: sc_entry sc_disk sc_host anyhow
END
# The program is proved before it is built, and runs once.
(cd "$scratch/crates/disk_bench" && rt run) >"$scratch/build.log" 2>&1
cc -O2 -o "$scratch/list" "$here/list.c"
program=$scratch/crates/disk_bench/out/disk_bench

folder=$(mktemp -d "$scratch/files.XXXXXX")
memory() { grep VmRSS | tr -dc '0-9'; }
none=$("$program" "$folder" 1000000000000 | memory)
full=$("$program" "$folder" 1000000000000 0 "$entries" 1 | memory)
echo "index: $(((full - none) * 1024 / entries)) bytes an entry, with $entries entries ($none and $full kB)"
i=0
while [ "$i" -lt "$runs" ]; do
    "$scratch/list" "$folder"
    "$scratch/list" "$folder" paths
    "$program" "$folder" 1000000000000 | grep opened
    i=$((i + 1))
done
python3 "$here/kills.py" "$program"
# Last, since on some file systems this takes minutes.
rm -rf "$folder"
