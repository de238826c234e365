#!/usr/bin/env bash
# The library: libsaltdelta.a is made, proofs checked, and called from C and from Rust. Both are held against the
# comparison program. Every other step is an explained one, on the same record. Further lent records are made for the
# rules and for the droop alone.
#
# A pass is a case. Cases from C and from Rust:
#   - a run of calls that all agree with the comparison program: a board's life, or up to some seven hundred calls;
#   - a way, of those below, that is reached a hundred times.
#
# Cases from C; Rust's calls are held to the same, in their runs:
#   - a sheet that is read as the specification says;
#   - a replay that is what its steps one by one are;
#   - an image that is what it was after it was carried over and back;
#   - a refused call that writes no byte of what is lent to it, padding included.
#
# The ways are those
#   - in which the recovery count moves;
#   - in which a droop event begins, goes on, ends and moves the watts, on either side;
#   - in which a lent record's side, held power and watts are read;
#   - in which a rule is named: each rule, each limit, each pair of powers that tie, without an event and in one;
#   - in which an edge of the frequency's regions is met, in service and tripped, with voltages of each region;
#   - in which a limit runs out far outside;
#   - in which a ramp at an end of its row or outside it is taken or refused;
#   - in which a buffer about the image's length is written or refused;
#   - in which a saving meets a place of a log and each byte of the image there;
#   - in which an image is carried over or refused;
#   - from Rust alone: after how many samples two ramp counts come apart, in which statuses they stay together, savings
#     after each step of a board's life, and which bytes of the image each field of the record has.
#
# Cases of their own:
#   - what the example programs carry.c and why.c make of an example, and what step.c and step.rs say;
#   - that include/saltdelta.rs has the constants of include/saltdelta.h;
#   - that there are enough calls in all.
set -u
cd "$(dirname "$0")/.." || exit 2
out=target/library
mkdir -p "$out"
stop() { echo "$1"; echo "0 passed, 1 failed"; exit 1; }

# rust PROGRAM SOURCE OPTION..., c PROGRAM SOURCE...: compile, or end here
rust() { rustc -O --edition 2021 "${@:2}" -o "$out/$1" || stop "$1: $2 does not compile"; }
c() {
    "${CC:-cc}" -std=c99 -O2 -Wall -Wextra -Iinclude "${@:2}" target/staticlib/libsaltdelta.a -o "$out/$1" ||
        stop "$1: its C does not compile"
}

tools/staticlib.sh > "$out/staticlib.log" 2>&1 ||
    { tail -n 5 "$out/staticlib.log"; stop "the library is not made"; }
rust comparison comparison/board.rs
rust check-rust tests/library/check.rs -L target/staticlib
rust step-rust examples/step.rs -L target/staticlib
c check-c tests/library/*.c
c carry examples/carry.c
c why examples/why.c
c step-c examples/step.c

passed=0
failed=0
# expect STATUS WHAT: a pass if the status is 0
expect() {
    if [ "$1" -eq 0 ]; then
        passed=$((passed + 1))
    else
        failed=$((failed + 1))
        echo "$2"
    fi
}
# add FILE NAME: the file's last line is 'N passed, M failed'
add() {
    local counts
    counts=$(tail -n 1 "$1" | sed -n 's/^\([0-9][0-9]*\) passed, \([0-9][0-9]*\) failed$/\1 \2/p')
    [ -n "$counts" ] || counts="0 1"
    sed '$d' "$1"
    echo "$2: ${counts% *} cases agree, ${counts#* } differ"
    passed=$((passed + ${counts% *}))
    failed=$((failed + ${counts#* }))
}

"$out/check-c" "$out/calls" "$out/answers" > "$out/c-own.log" || echo "check-c ends with $?"
add "$out/c-own.log" "C, sheets, refused calls, recoveries, droops, rules, ramps, edges of the frequency and images carried over"
"$out/comparison" calls < "$out/calls" > "$out/expected"
# a case is the calls from one `fresh` to the next
paste -d '\t' "$out/calls" "$out/expected" "$out/answers" | awk -F '\t' '
    function ends() { if (NR > 1) { if (other) failed++; else passed++ } other = 0 }
    $1 == "fresh" { ends() }
    $2 != $3 { other++; if (shown++ < 5) print "line " NR ": " $3 ", not " $2 }
    $3 != "ok" { made++ }
    END {
        NR++
        ends()
        print "calls: " made + 0 ", " shown + 0 " of them differ"
        print passed + 0 " passed, " failed + 0 " failed"
    }' > "$out/c-calls.log"
add "$out/c-calls.log" "C, calls"
"$out/check-rust" > "$out/rust.log" || echo "check-rust ends with $?"
add "$out/rust.log" "Rust, calls"

# carries STATUS SAID FROM WAY TO: examples/carry.c ends with that status and those words, and has made the bytes of TO
# from those of FROM
carries() {
    local said status
    said=$("$out/carry" "$4" < "$3" 2>&1 > "$out/carried")
    status=$?
    [ "$status" = "$1" ] && [ "$said" = "$2" ] && cmp -s "$out/carried" "$5"
    expect $? "examples/carry.c: $4 of $3: exit status $status, said '$said'"
}
carries 0 "" examples/old.image forward examples/new.image
carries 0 "" examples/new.image back examples/old.image
carries 1 "refused 11" examples/recovering.image back /dev/null
carries 1 "refused 11" examples/droop.image back /dev/null
carries 1 "refused 10" examples/old.image back /dev/null
carries 1 "refused 10" examples/new.image forward /dev/null
carries 1 "refused 10" examples/carry.c back /dev/null
carries 1 "refused 10" /dev/null forward /dev/null
carries 2 "carry forward | carry back" examples/old.image over /dev/null

# explains INPUT: examples/why.c says of each line the status and the watts, or the refusal, that `board` answers in the
# example's output
explains() {
    local report='(report \([a-z]*\) [01]* [0-9]* [0-9]* [0-9]* [0-9]* \([0-9]*\) -*[0-9]*)'
    "$out/why" < "$1" > "$out/whys"
    if [ -z "$(sed -n '13p' "$1")" ] || grep -q '^refused [0-9]* [0-9]*$' "$out/whys"; then
        sed -n 's/^(\(refused [0-9]* [0-9]*\))$/\1/p' "${1%.in}.out" | cmp -s - "$out/whys"
    else
        sed -n -e "s/^$report\$/\\1 \\2/p" -e 's/^(\(refused [0-9]*\) [0-9]*)$/\1/p' "${1%.in}.out" > "$out/answered"
        awk 'NR > 1 { if ($1 == "refused") print; else print $1, substr($0, 28, 5) + 0 }' "$out/whys" |
            cmp -s - "$out/answered"
    fi
}
for input in examples/*.in; do
    explains "$input"
    expect $? "examples/why.c: $input: other answers than board's"
done
for said in examples/*.why; do
    "$out/why" < "${said%.why}.in" | cmp -s - "$said"
    expect $? "examples/why.c: other words than $said"
done

# the smallest programs, from C and from Rust, on a good sheet and on a refused one
for program in step-c step-rust; do
    "$out/$program" < examples/listing.in > "$out/said" && cmp -s "$out/said" examples/step.said
    expect $? "$program: another exit status than 0, or other words than examples/step.said"
    said=$("$out/$program" < examples/refused-sheet-2.in)
    [ "$?,$said" = "1,sheet line 4: refused 2" ]
    expect $? "$program: a refused sheet: said '$said'"
done

# the constants of the header and of the Rust binding, as NAME NUMBER
sed -nE 's/^(#define|   ) SALTDELTA_([A-Z0-9_]+) (= )?([0-9]+).*/\2 \4/p' include/saltdelta.h > "$out/of-header"
sed -nE 's/^pub const ([A-Z0-9_]+): [a-z0-9]+ = ([0-9]+);$/\1 \2/p' include/saltdelta.rs > "$out/of-binding"
[ -s "$out/of-header" ] && differences=$(diff <(sort "$out/of-header") <(sort "$out/of-binding"))
expect $? "include/saltdelta.rs: other constants than include/saltdelta.h: ${differences:-}"

calls=$(sed -n 's/^calls: \([0-9]*\),.*/\1/p' "$out/c-calls.log" "$out/rust.log" | awk '{ n += $1 } END { print n + 0 }')
[ "$calls" -ge 1700000 ]
expect $? "too few calls"
echo "calls in all: $calls, at least 1700000 asked"
echo "$passed passed, $failed failed"
[ "$failed" -eq 0 ]
