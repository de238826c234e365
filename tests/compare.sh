#!/usr/bin/env bash
# The comparison: `board` and the comparison program, byte for byte, on thousands of made inputs (tests/compare/).
# BOARD names another program to hold against the comparison program.
set -u
cd "$(dirname "$0")/.." || exit 2
board=${BOARD:-target/bin/board}
mkdir -p target/comparison
if ! rustc -O --edition 2021 tests/compare/compare.rs -o target/comparison/compare; then
    echo "0 passed, 1 failed"
    exit 1
fi
if [ ! -x "$board" ]; then
    echo "$board is missing: 'tools/board.sh' makes it"
    echo "0 passed, 1 failed"
    exit 1
fi
target/comparison/compare "$board" target/comparison
