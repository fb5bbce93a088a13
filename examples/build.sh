#!/bin/sh
# Builds an example three times, and says what a server saved: without the launcher, then through it with an empty store, then
# through it once more. Each object is compared with that of the first build.
#
# Usage: examples/build.sh make|cmake [PROGRAM]
#
# PROGRAM is the program to serve (by default this repository's, proved if it is there, else unproved). JOBS says how many jobs
# a build has (4), CC and CXX which compilers. All of it stands in a folder that goes afterwards.
set -u
top=$(cd "$(dirname "$0")/.." && pwd) || exit 1
kind=${1-}
program=${2-}
jobs=${JOBS:-4}
cc=${CC:-gcc}
cxx=${CXX:-g++}

fail() {
    echo "examples/build.sh: $*" >&2
    exit 1
}

case $kind in
make) command -v make >/dev/null || fail 'there is no make' ;;
cmake) command -v cmake >/dev/null || fail 'there is no cmake' ;;
*) fail 'usage: examples/build.sh make|cmake [PROGRAM]' ;;
esac
command -v "$cc" >/dev/null || fail "there is no compiler $cc"
if [ -z "$program" ]; then
    program=$top/crates/sc_main/out/sc_main
    "$top/tools/is-current" "$program" || program=$top/crates/sc_main/out/unproved
fi
[ -x "$program" ] || fail "there is no program $program: ./sccache --version makes it"

room=$(mktemp -d) || exit 1
server=''
clean_up() {
    [ -z "$server" ] || kill "$server" 2>/dev/null
    rm -rf "$room"
}
trap clean_up EXIT
trap 'exit 130' INT
trap 'exit 143' TERM

# The program and the launcher under the names that they are installed by, and the project.
mkdir "$room/bin" "$room/plain" "$room/cold" "$room/warm" || exit 1
mkdir -m 700 "$room/run" || exit 1
ln -s "$(cd "$(dirname "$program")" && pwd)/$(basename "$program")" "$room/bin/ragzomei"
ln -s "$top/tools/ragzomei-cc" "$room/bin/ragzomei-cc"
cp -R "$top/examples/$kind" "$room/project" || exit 1
PATH=$room/bin:$PATH
RAGZOMEI_ADDR=$room/run/sock
XDG_RUNTIME_DIR=$room/run
export PATH RAGZOMEI_ADDR XDG_RUNTIME_DIR

ragzomei serve "$RAGZOMEI_ADDR" "$room/store" 1000000000 "$jobs" >"$room/served" 2>&1 &
server=$!
tries=0
until [ -S "$RAGZOMEI_ADDR" ]; do
    kill -0 "$server" 2>/dev/null || fail "the server ended: $(cat "$room/served")"
    tries=$((tries + 1))
    [ "$tries" -lt 100 ] || fail 'the server did not begin to listen'
    sleep 0.1
done

# Builds the project, by the launcher where it is named.
build() {
    case $kind in
    make) make -s -C "$room/project" -j "$jobs" CC="${1:+$1 }$cc" all ;;
    cmake)
        cmake -S "$room/project" -B "$room/project/build" -DCMAKE_C_COMPILER="$cc" -DCMAKE_CXX_COMPILER="$cxx" \
            -DCMAKE_C_COMPILER_LAUNCHER="${1-}" -DCMAKE_CXX_COMPILER_LAUNCHER="${1-}" >/dev/null &&
            cmake --build "$room/project/build" -j "$jobs"
        ;;
    esac
}

check() {
    case $kind in
    make) make -s -C "$room/project" check ;;
    cmake) ctest --test-dir "$room/project/build" ;;
    esac
}

# A counter of the server's statistics.
counter() {
    ragzomei stats "$RAGZOMEI_ADDR" | sed -n "s/^$1  *\([0-9][0-9]*\) *$/\1/p"
}

now() {
    date +%s%N
}

# take NAME [LAUNCHER]: a build from nothing, its time, its objects into the folder of this name, and what the server counted.
take() {
    rm -rf "$room/project/build"
    ragzomei zero "$RAGZOMEI_ADDR" 2>/dev/null
    began=$(now)
    build "${2-}" >"$room/$1.out" 2>"$room/$1.err" || {
        cat "$room/$1.out" "$room/$1.err" >&2
        fail "the $1 build failed"
    }
    ended=$(now)
    hits=$(counter 'Cache hits')
    misses=$(counter 'Cache misses')
    check >"$room/check" 2>&1 || fail "the tests of the $1 build failed: $(cat "$room/check")"
    (cd "$room/project/build" && find . -name '*.o' -exec sh -c 'for f; do mkdir -p "$0/$(dirname "$f")" && cp "$f" "$0/$f"; done' \
        "$room/$1" {} +) || exit 1
    took=$(((ended - began) / 1000000))
    printf '%-6s %6d ms, %d hits, %d misses, %d warnings\n' "$1" "$took" "$hits" "$misses" \
        "$(cat "$room/$1.out" "$room/$1.err" | grep -c 'warning:')"
}

# Each object of the plain build is there again, byte by byte.
compare() {
    (cd "$room/plain" && find . -name '*.o') >"$room/objects"
    while IFS= read -r object; do
        cmp -s "$room/plain/$object" "$room/$1/$object" || fail "the $1 build made another $object"
    done <"$room/objects"
}

take plain
take cold ragzomei-cc
compare cold
take warm ragzomei-cc
compare warm
objects=$(($(wc -l <"$room/objects")))
echo "$objects objects, identical in all three builds"
if [ "$hits" -ne "$objects" ] || [ "$misses" -ne 0 ]; then
    fail "the warm build had $hits hits of $objects, and $misses misses"
fi
