#!/usr/bin/env bash
# Proves and builds the program `board`, and puts it at target/bin/board. With --built nothing is proved: it takes the program that `rt ci` built
# in this copy of the repository.
set -eu
cd "$(dirname "$0")/.."
built=crates/board/out/board
if [ "${1:-}" != --built ]; then
    # The kit builds a program when it is run: here on no input, and its answer is thrown away.
    (cd crates/board && rt run < /dev/null > /dev/null)
fi
if [ ! -x "$built" ]; then
    echo "$built is missing: 'rt ci' makes it, and so does tools/board.sh without --built"
    exit 1
fi
mkdir -p target/bin
cp "$built" target/bin/board
