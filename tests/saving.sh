#!/usr/bin/env bash
# Saving holds no array of bytes of its own (spec 9.9): a test of the source of everything that it calls, names or is given (tests/saving/). A pass is one of:
# - an item that saving reaches, with nothing found in it, and nothing found at all;
# - an item that saving must reach;
# - a wrong copy of the source that is turned down, and a right one that is not;
# - the compiler's account of saving, with no array in it, and a wrong account that is turned down.
set -u
cd "$(dirname "$0")/.." || exit 2
out=target/saving
mkdir -p "$out"
stop() { echo "$1"; echo "0 passed, 1 failed"; exit 1; }

rustc -O --edition 2021 tests/saving/check.rs -o "$out/check" || stop "tests/saving/check.rs does not compile"
tools/account.sh saltdelta > "$out/account" 2> "$out/account.log" || { tail -n 5 "$out/account.log"; stop "the compiler gives no account of saltdelta"; }
"$out/check" . "$out/account"
