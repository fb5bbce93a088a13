#!/bin/sh
# Times builds through the launcher beside gcc alone, and beside ccache and sccache where they are there.
#
# Usage: bench/users.sh ROUNDS [FILES [PROGRAM]]     (40 files; by default the proved program in crates/sc_main/out)
exec python3 "$(dirname "$0")/users.py" "$@"
