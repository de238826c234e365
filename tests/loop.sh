#!/usr/bin/env bash
# What no contract says of `board`'s loop over standard input and output (docs/PROOF.md, "What is only tested"): each read and each write, and each step
# of the loop that leads to one, has one place in the source, and nothing writes into the input buffer between a read and its answer but `to_front`, after
# it.
set -u
cd "$(dirname "$0")/.." || exit 2
passed=0
failed=0
main=crates/board/src/main.rt
loop='crates/console/src/lib.rt crates/blocks/src/lib.rt crates/handover/src/lib.rt'
states=crates/states/src/lib.rt
stdio=crates/stdio/src/lib.rt

# The code without its comments and contracts.
code() { grep -vE '^ *(//|ghost |requires|ensures)' "$@"; }

# expect COUNT TEXT FILE...: so many lines of these files have the text.
expect() {
    local count=$1 text=$2 found
    shift 2
    found=$(code -h "$@" | grep -cF -- "$text")
    if [ "$found" -eq "$count" ]; then
        passed=$((passed + 1))
    else
        failed=$((failed + 1))
        echo "board: '$text' stands in $found lines of $*, not in $count"
    fi
}

# All reads and writes stand in crate stdio: one read, and one write, in a loop.
expect 0 'libc::' $main $loop $stdio
expect 0 ' io::' $main $loop $stdio
expect 0 '.read' $main $loop
expect 0 '.write' $main $loop
expect 1 '.read' $stdio
expect 1 'from.read(' $stdio
expect 1 '.write' $stdio
expect 1 'to.write(' $stdio
expect 1 'put_all(to, text)' $stdio
expect 2 'put_all' $stdio
expect 0 '::read' $main $loop $stdio
expect 0 '::write' $main $loop $stdio
expect 0 'print' $main $loop $stdio
expect 0 '!(' $main
expect 2 'rt.' $main
expect 1 'rt.stdin()' $main
expect 1 'rt.stdout()' $main

# The loop goes to each of them from one place, and `main` runs it once.
expect 1 'read_to(from, buf' $loop
expect 1 'hand_over(to, &out' $loop
expect 1 ' say(' $loop
expect 1 'fn say<' $loop
expect 1 ' answer(' $loop
expect 1 'fn answer<' $loop
expect 1 'fn run<' $loop
expect 0 ' run(' $stdio $loop
expect 1 ' run(' $main
expect 1 '    run(&mut from, &mut to, start(), &mut buf, &mut out);' $main
expect 1 'Input::unread()' $loop
expect 1 'Handed::unsaid()' $loop
expect 1 'start()' $main $loop

# The input buffer is written by the read, and by `to_front` alone.
expect 1 'buf.copy_within(' $loop $states
expect 0 'buf[i] =' $loop $states
expect 0 'buf[have' $loop
expect 2 'to_front(buf' $loop $states
expect 0 'buf[' $main

echo "$passed passed, $failed failed"
[ "$failed" -eq 0 ]
