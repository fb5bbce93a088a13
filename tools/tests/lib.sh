#!/bin/sh
# shellcheck disable=SC2034 # (the names that each test file uses)
# What the tests of tools/ragzomei-cc share. Each test file reads it, calls its checks, and ends by `finish`.
#
# By the environment: LAUNCHER, the launcher under test (by default tools/ragzomei-cc); LAUNCHER_SHELL, the shell that it is run
# by (by default what its first line names); FAIL_FAST, to end at the first check that doesn't hold; ONLY, a pattern of the
# checks to be made, by their words or the name of their part; LIMIT, the seconds that a call may take.

set -u
tests=$(cd "$(dirname "$0")" && pwd) || exit 1
top=${tests%/tools/tests}
launcher=${LAUNCHER:-$top/tools/ragzomei-cc}
failures=0
checks=0

# A folder for the whole test, with the launcher, a stand-in for the program and one for a compiler in its bin/. A build's
# folder is $room/work.
room=$(mktemp -d) || exit 1
trap 'chmod -R u+w "$room"; rm -rf "$room"' EXIT
trap 'exit 130' INT
trap 'exit 143' TERM
mkdir "$room/bin" "$room/run" "$room/work" "$room/store"
chmod 700 "$room/run"
cp "$tests/parts/ragzomei" "$tests/parts/cc" "$room/bin"
if [ -n "${LAUNCHER_SHELL-}" ]; then
    { echo "#!$LAUNCHER_SHELL" && sed 1d "$launcher"; } >"$room/bin/ragzomei-cc"
else
    cp "$launcher" "$room/bin/ragzomei-cc"
fi
chmod 755 "$room/bin"/*
cd "$room/work" || exit 1

# The environment of each call: nothing of the caller's but where programs are found. A port stands for a server, since a
# stand-in doesn't look.
tab='	'
newline='
'
no_utf8=$(printf 'a\351b')
call() {
    ${LIMIT:+timeout "$LIMIT"} env -i PATH="$room/bin:$PATH" HOME="$room" XDG_RUNTIME_DIR="$room/run" RAGZOMEI_ADDR=1 STAND_IN_ROOM="$room" "$@"
}

# Forgets what the stand-ins recorded.
forget() {
    rm -f "$room/asked" "$room/compiled" "$room/preprocessed" "$room/began"
}

good() {
    checks=$((checks + 1))
}

bad() {
    checks=$((checks + 1))
    failures=$((failures + 1))
    printf '%s: %s\n' "${0##*/}" "$*" | tr '\0\351' ' ?' >&2
    if [ -n "${FAIL_FAST-}" ]; then
        exit 1
    fi
}

# Whether checks are to be made, by their words or the name of their part.
wanted() {
    # shellcheck disable=SC2254 # (a pattern)
    case $1 in
    ${ONLY:-*}) return 0 ;;
    esac
    return 1
}

# Whether a recorded list of words is this one.
is_recorded() {
    recorded=$1
    shift
    printf '%s\0' "$@" >"$room/expected"
    cmp -s "$room/expected" "$room/$recorded"
}

# The key of the last request.
last_key() {
    tr '\0' '\n' <"$room/asked" 2>/dev/null | sed -n '/^--key$/{n;p;q;}'
}

# Whether a program is there; else says what is left out.
have() {
    if command -v "$1" >/dev/null; then
        return 0
    fi
    echo "${0##*/}: skipped without $1: $2"
    return 1
}

finish() {
    echo "${0##*/}: $checks checks, $failures failed${LAUNCHER_SHELL:+ (by $LAUNCHER_SHELL)}"
    [ "$failures" -eq 0 ]
    exit
}
