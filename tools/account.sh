#!/usr/bin/env bash
# tools/account.sh CRATE prints the compiler's account of the functions of a library and of the crates below it: what it kept when it built them.
set -eu
cd "$(dirname "$0")/.."
(cd "crates/$1" && rt lib >&2)
# The crates below one, and itself.
below() {
    local name
    echo "$1"
    for name in $(sed -nE "s/^$1( [a-z_=0-9]+)*:(.*)/\\2/p" crates.txt); do below "$name"; done
}
for name in $(below "$1" | sort -u); do
    # a crate of the kit has no account here
    account=crates/$name/out/rlib/$name.rlib/toolchain/mir.json
    if [ -d "crates/$name" ]; then cat "$account"; fi
    echo
done
