#!/usr/bin/env bash
# The examples: `board` on each examples/NAME.in writes examples/NAME.out. BOARD names another program to run.
set -u
cd "$(dirname "$0")/.." || exit 2
board=${BOARD:-target/bin/board}
if [ ! -x "$board" ]; then
    echo "$board is missing: 'tools/board.sh' makes it"
    echo "0 passed, 1 failed"
    exit 1
fi
passed=0
failed=0
for input in examples/*.in; do
    expected=${input%.in}.out
    if difference=$("$board" < "$input" | diff "$expected" - 2>&1); then
        passed=$((passed + 1))
    else
        failed=$((failed + 1))
        printf '%s:\n%s\n' "$input" "$difference" | head -n 8
    fi
done
# Every output belongs to an input, and the README has a line for each example.
for output in examples/*.out; do
    name=$(basename "$output" .out)
    if [ -e "examples/$name.in" ] && grep -q "^| \`$name\` |" examples/README.md; then
        passed=$((passed + 1))
    else
        failed=$((failed + 1))
        echo "$output: no input, or no line in examples/README.md"
    fi
done
echo "$passed passed, $failed failed"
[ "$failed" -eq 0 ]
