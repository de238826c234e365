#!/usr/bin/env bash
# docs/TRACE.md against docs/SPECIFICATION.md, both ways: each clause has one row, in order, each row's clause is there, and each name in a row stands in
# the tree. And each clause or section that any file cites (`spec 4.3`) is one of the specification's.
set -u
cd "$(dirname "$0")/.." || exit 2
passed=0
failed=0
expect() {
    if [ "$1" -eq 0 ]; then
        passed=$((passed + 1))
    else
        failed=$((failed + 1))
        echo "$2"
    fi
}

# A name is defined in one of the files, of which there must be one: in antt at the head of a line, of code by its keyword, of C before its bracket, of a shell or a text as a word.
defined() {
    local name=${1//./\\.}
    shift
    [ $# -gt 0 ] || return 1
    case $1 in
    *.antt) grep -qsE "^ *((abbrev|unfoldable) )*(pub )?((record|data) )?$name( :| [({]|\$)" "$@" ;;
    *.rt | *.rs) grep -qsE "(fn|struct|enum|const|static) $name\\b" "$@" ;;
    *.c) grep -qsE "^[a-z][a-z0-9_ *]* \\**$name\\(" "$@" ;;
    esac
}

# Where the names of a row stand: see the head of docs/TRACE.md.
found() {
    local column=$1 name=$2
    case $column,$name in
    edit,*/*) [ -f "crates/${name%%/*}/must-fail/${name#*/}.edit" ] ;;
    *,*::*) defined "${name#*::}" $(find "crates/${name%%::*}/src" -name '*.rt') ;;
    *,*.rs:* | *,*.c:*) defined "${name#*:}" $(find tests/compare tests/library comparison -name "${name%%:*}") ;;
    *,*/*:*) defined "${name#*:}" $(find "crates/${name%%/*}" -path '*/out' -prune -o -name "$(basename "${name%%:*}").antt" -print) ;;
    *,*/*) [ -f "$name" ] || [ -f "crates/$name" ] ;;
    *) grep -qE "^(abbrev )?pub (record )?$name( \(e : Equipment\))? :" crates/demands/specs/Demands.antt crates/shams/specs/Caught.antt ;;
    esac
}

clauses=$(sed -nE 's/^\*\*([0-9]+\.[0-9]+)\*\*.*/\1/p' docs/SPECIFICATION.md)
rows=$(sed -nE 's/^\| ([0-9]+\.[0-9]+) \|.*/\1/p' docs/TRACE.md)
[ -n "$clauses" ] && [ "$clauses" = "$rows" ]
expect $? "docs/TRACE.md: its rows are not the clauses of docs/SPECIFICATION.md in their order: $(diff <(echo "$clauses") <(echo "$rows") | tr '\n' ' ')"
[ "$clauses" = "$(sort -V -u <<< "$clauses")" ]
expect $? "docs/SPECIFICATION.md: its clauses are not numbered in order"

columns=(definition theorem edit test)
while IFS= read -r line; do
    IFS='|' read -r _ clause _ c0 c1 c2 c3 end <<< "$line"
    [ -n "$c3" ] && [ -z "$end" ]
    expect $? "docs/TRACE.md,$clause: not six cells"
    cells=("$c0" "$c1" "$c2" "$c3")
    for i in 0 1 2 3; do
        for name in $(grep -oE '`[^`]*`' <<< "${cells[i]}" | tr -d '`'); do
            found "${columns[i]}" "$name"
            expect $? "docs/TRACE.md,$clause: no $name"
        done
    done
done < <(grep -E '^\| [0-9]+\.[0-9]+ \|' docs/TRACE.md)

# Citations: a clause or a section after the word, and those that follow it after a comma, 'to' or 'and'.
sections=$(sed -nE 's/^## ([0-9]+)\..*/\1/p' docs/SPECIFICATION.md)
for cited in $(grep -rhoiE --exclude-dir=out '\bspec [0-9]+(\.[0-9]+)?((, | to | and )[0-9]+\.[0-9]+)*' crates include tests comparison bench examples docs README.md crates.txt |
    grep -oE '[0-9]+(\.[0-9]+)?' | sort -V -u); do
    grep -qxF "$cited" <<< "$clauses
$sections"
    expect $? "cited and not in docs/SPECIFICATION.md: spec $cited"
done

echo "$passed passed, $failed failed"
[ "$failed" -eq 0 ]
