#!/bin/sh
# Installs the program, the launcher and what belongs to them, or takes away what an earlier call installed.
#
# Usage: tools/install.sh [--prefix DIR] [--uninstall]     (DIR is /usr/local by default; DESTDIR stands before it)
#
# Only the proved program is installed. Where a file is there that no earlier call installed, it is told, and nothing is installed.
set -u
top=$(cd "$(dirname "$0")/.." && pwd) || exit 1
prefix=/usr/local
uninstalls=''

fail() {
    echo "tools/install.sh: $*" >&2
    exit 1
}

while [ $# -gt 0 ]; do
    case $1 in
    --prefix)
        [ $# -gt 1 ] || fail 'no folder stands behind --prefix'
        prefix=$2
        shift
        ;;
    --prefix=*) prefix=${1#--prefix=} ;;
    --uninstall) uninstalls=1 ;;
    *) fail 'usage: tools/install.sh [--prefix DIR] [--uninstall]' ;;
    esac
    shift
done
case $prefix in
/*) ;;
*) fail "$prefix does not begin with /" ;;
esac
root=${DESTDIR-}$prefix
# The paths of what is installed, below the prefix, a line each.
list=share/ragzomei/installed

# Removes the listed files, and the folders that are empty then.
uninstall() {
    [ -f "$root/$list" ] || fail "nothing is installed in $root"
    while IFS= read -r file; do
        rm -f "$root/$file" || fail "$root/$file can't be removed"
    done <"$root/$list"
    rm -f "$root/$list"
    for folder in lib/ragzomei share/ragzomei; do
        rmdir "$root/$folder" 2>/dev/null
    done
    return 0
}

# Whether a file is to be written now. At first its place is only looked at, and noted.
place() {
    if [ -z "$writes" ]; then
        if [ -e "$root/$1" ] || [ -L "$root/$1" ]; then
            grep -qxF "$1" "$root/$list" 2>/dev/null || fail "$root/$1 is there, and not of an earlier install"
        fi
        echo "$1" >>"$noted"
        return 1
    fi
    mkdir -p "$(dirname "$root/$1")" || fail "there is no folder for $root/$1"
}

# put MODE SOURCE FILE: a whole file in one step, so that a running program stays whole.
put() {
    place "$3" || return 0
    { cp "$2" "$root/$3.new" && chmod "$1" "$root/$3.new" && mv -f "$root/$3.new" "$root/$3"; } || fail "$root/$3 can't be written"
}

put_all() {
    put 755 "$program" bin/ragzomei
    put 755 "$top/tools/ragzomei-cc" bin/ragzomei-cc
    put 755 "$top/tools/ragzomei-serve" bin/ragzomei-serve
    for name in cc c++ gcc g++ clang clang++; do
        ! place "lib/ragzomei/$name" || ln -sf ../../bin/ragzomei-cc "$root/lib/ragzomei/$name" ||
            fail "$root/lib/ragzomei/$name can't be made"
    done
    sed "s|^ExecStart=.*/ragzomei serve \(.*\) [0-9]*$|ExecStart=$prefix/bin/ragzomei serve \1 $(getconf _NPROCESSORS_ONLN || echo 4)|" \
        "$top/tools/ragzomei.service" >"$noted.service" || exit 1
    put 644 "$noted.service" lib/systemd/user/ragzomei.service
    put 644 "$top/tools/man/ragzomei.1" share/man/man1/ragzomei.1
    put 644 "$top/tools/man/ragzomei-cc.1" share/man/man1/ragzomei-cc.1
    put 644 "$top/tools/completion/ragzomei.bash" share/bash-completion/completions/ragzomei
    put 644 "$top/tools/completion/_ragzomei" share/zsh/site-functions/_ragzomei
}

install_all() {
    program=$top/crates/sc_main/out/sc_main
    "$top/tools/is-current" "$program" ||
        fail "the proved program isn't there, or is older than a source: .ci/run makes it, or cd crates/sc_main && rt run -- --version"
    noted=$(mktemp) || exit 1
    trap 'rm -f "$noted" "$noted.service"' EXIT
    writes=''
    put_all
    # (the list comes first, with what stands in it already: an install that fails can be made again, or taken away)
    cat "$root/$list" >>"$noted" 2>/dev/null
    { mkdir -p "$root/share/ragzomei" && sort -u "$noted" >"$root/$list.new" && mv -f "$root/$list.new" "$root/$list"; } ||
        fail "$root/$list can't be written"
    writes=1
    put_all
}

if [ -n "$uninstalls" ]; then
    uninstall
else
    install_all
fi
