#!/usr/bin/env bash
# The comparison program's own tests: edge values, the example of spec 10.11, refusals.
set -u
cd "$(dirname "$0")/.." || exit 2
mkdir -p target/comparison
if ! rustc -O --edition 2021 --test comparison/board.rs -o target/comparison/board-tests; then
    echo "0 passed, 1 failed"
    exit 1
fi
out=$(target/comparison/board-tests 2>&1)
status=$?
printf '%s\n' "$out" | grep -v '^test .* ok$'
passed=$(printf '%s\n' "$out" | sed -n 's/^test result: .* \([0-9][0-9]*\) passed; .*/\1/p')
failed=$(printf '%s\n' "$out" | sed -n 's/^test result: .* \([0-9][0-9]*\) failed; .*/\1/p')
if [ "$status" -ne 0 ] && [ "${failed:-0}" -eq 0 ]; then failed=1; fi
echo "${passed:-0} passed, ${failed:-1} failed"
[ "${failed:-1}" -eq 0 ]
