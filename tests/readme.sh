#!/usr/bin/env bash
# README.md and the guides against the tree: their paths, links and names are there; the statements, crates, operations, calls and refusals that they list
# are those of the sources, both ways; and the outputs that they show are real.
set -u
cd "$(dirname "$0")/.." || exit 2
passed=0
failed=0
expect() {
    if [ "$1" -eq 0 ]; then
        passed=$((passed + 1))
    else
        failed=$((failed + 1))
        echo "$2"
    fi
}
# same WHAT THESE THOSE: two lists of lines are equal.
same() {
    [ "$2" = "$3" ]
    expect $? "$1: $(diff <(echo "$2") <(echo "$3") | grep '^[<>]' | head -n 5 | tr '\n' ' ')"
}
papers="README.md docs/OPERATING.md docs/LIBRARY.md docs/PROOF.md docs/CONTRIBUTING.md docs/DECISIONS.md examples/README.md"

# ---- paths, links and names

# Paths from the root of the repository, or from crates/. Those in capitals stand for any.
for path in $(grep -ohE '[A-Za-z.]+(/[A-Za-z0-9_.-]+)+' $papers | sed 's/\.$//' | grep -vE '^target/|CRATE|NAME' | sort -u); do
    case $path in
    */specs* | */proofs* | */src* | */must-fail* | docs/* | examples/* | tests/* | bench/* | comparison/* | include/* | tools/* | .ci/*)
        [ -e "$path" ] || [ -e "crates/$path" ]
        expect $? "no file $path"
        ;;
    esac
done

# A heading's anchor, as it is made from its words.
anchors() { sed -nE 's/^#+ //p' "$1" | tr '[:upper:]' '[:lower:]' | sed -E "s/[^a-z0-9 _-]//g; s/ /-/g"; }
for paper in $papers; do
    for link in $(grep -oE '\]\([^)]+\)' "$paper" | sed -E 's/^\]\((.*)\)$/\1/' | sort -u); do
        file=${link%%#*}
        [ -n "$file" ] && file=$(dirname "$paper")/$file || file=$paper
        [ -f "$file" ]
        expect $? "$paper: no file for the link $link"
        if [[ $link == *#* ]]; then
            anchors "$file" | grep -qxF -- "${link#*#}"
            expect $? "$paper: no heading for the link $link"
        fi
    done
done

# Every name in code type that could be one of the sources' stands in them as a word.
words=$(mktemp)
cat $(git ls-files crates tests/*.sh include comparison bench .ci 'tests/*/*' 'examples/*.c' 'examples/*.in' 'examples/*.out') |
    grep -oE "[A-Za-z_][A-Za-z0-9_·'-]*" | sort -u > "$words"
{ ls crates; ls examples | sed 's/\..*//'; } >> "$words"
for name in $(grep -vhE '^    ' $papers | sed -E 's/```.*//' | grep -oE '`[^` ]+`' | tr -d '`' | grep -E '^[A-Za-z_]+[A-Za-z0-9_:·-]*$' |
    grep -vE '^[A-Z]+$|:$' | sort -u); do
    for word in ${name//::/ }; do
        grep -qxF -- "$word" "$words"
        expect $? "no such name in the sources: $name"
    done
done
rm -f "$words"

# ---- statements and crates

# A statement is a line of a table of four cells in docs/PROOF.md; each statement of the two pages has one.
pages="crates/demands/specs/Demands.antt crates/shams/specs/Caught.antt"
for statement in $(sed -nE 's/^(abbrev )?pub (record )?([A-Z][A-Za-z]*)( \(e : Equipment\))? :.*/\3/p' $pages); do
    grep -qE "^\|[^|]*\`$statement\`[^|]*\|[^|]*\|[^|]*\|[^|]*\|$" docs/PROOF.md
    expect $? "docs/PROOF.md: no line for the statement $statement"
done
for statement in $(grep -E '^\|([^|]*\|){4}$' docs/PROOF.md | cut -d '|' -f 2 | grep -oE '`[A-Z][A-Za-z]*`' | tr -d '`'); do
    grep -qE "pub (record )?$statement( \(e : Equipment\))? :" $pages
    expect $? "docs/PROOF.md: no statement $statement"
done

# The crates: a table in the order of crates.txt, and the picture.
crates=$(sed -nE 's/^([a-z_]+)( staticlib)?:.*/\1/p' crates.txt)
same "docs/CONTRIBUTING.md: its crates are not those of crates.txt in their order" "$crates" "$(sed -nE 's/^\|[^|`]*\| `([a-z_]+)` \|.*/\1/p' docs/CONTRIBUTING.md)"
picture=$(sed -n '/^## The crates/,$p' README.md | awk '/^```/ { on = !on; next } on { print substr($0, 17) }' | sed -E 's/ {4,}[a-z][a-z ,;]*$//' | grep -oE '[a-z_]+' | sort -u)
same "README.md: the crates in its picture are not those of crates.txt" "$(sort <<< "$crates")" "$picture"

# What must be believed names every file of definitions of `rules`, `causes` and `claims`, and no other.
believed=$(sed -n '/^## What must be believed/,/^## What is assumed/p' docs/PROOF.md)
for crate in rules causes claims; do
    files=$(cd "crates/$crate/specs" && ls ./*.antt | sed 's#^\./##' | grep -vx Lib.antt)
    named=$(awk -v head="in \`crates/$crate/specs/\`:$" '/^[A-Z]/ { on = $0 ~ head } on' <<< "$believed" | grep -oE '`[A-Z][A-Za-z]*\.antt`' | tr -d '`' | sort)
    same "docs/PROOF.md: what must be believed of $crate" "$files" "$named"
done

# ---- operations and calls

# The signature of a public function, up to the line of its body's brace.
signature() {
    cat crates/"$1"/src/*.rt | awk -v start="^pub (extern \"C\" )?fn $2\\\\(" '$0 ~ start { on = 1 } on { print } on && /^{/ { exit }'
}
operation() {
    local contract
    contract=$(signature "$1" "$2")
    [[ $contract == *ensures* && $contract != *requires* ]]
    expect $? "docs/PROOF.md: $1 has no public $2 with a contract and no requires"
}
operations=$(grep -E '^\| `' docs/PROOF.md | cut -d '|' -f 2 | grep -oE '[a-z_]+(::[a-z_]+)*\(' | tr -d '(' | sort)
for name in $operations; do
    case $name in
    saltdelta_*) operation saltdelta "$name" ;;
    *::*) operation "${name%%::*}" "${name##*::}" ;;
    esac
done
# Each function whose contract crates/demands/specs/CodeContracts.antt has is among them, by its path there.
contracts=$(sed -nE 's/^use Rattle\.([a-z]+)\.proofs\.([a-z_.]+)\.Statement as .*/\1::\2/p' crates/demands/specs/CodeContracts.antt | sed -E 's/\./::/g; s/^saltdelta:://' | sort)
same "docs/PROOF.md: its public operations are not those of CodeContracts.antt" "$contracts" "$operations"

# The exported functions are those of saltdelta, each with the contract of that of its name, which it only calls.
exported=$(grep -ohE 'extern "C" fn saltdelta_[a-z_]+' crates/saltdelta_c/src/lib.rt | awk '{ print $4 }' | sort)
same "saltdelta_c: its functions are not those of saltdelta" "$exported" "$(grep -ohE '^pub fn saltdelta_[a-z_]+' crates/saltdelta/src/lib.rt | awk '{ print $3 }' | sort)"
for name in $exported; do
    same "saltdelta_c: the contract of $name is not that in saltdelta" "$(signature saltdelta_c "$name" | sed 's/^pub extern "C" fn/pub fn/')" "$(signature saltdelta "$name")"
    [ "$(grep -cE "^    saltdelta::$name\([a-z, ]*\)$" crates/saltdelta_c/src/lib.rt)" -eq 1 ]
    expect $? "saltdelta_c: $name is not one call of that of its name"
done
# Their clauses take their words from the same definitions, and no body is longer than its call.
same "saltdelta_c: its clauses are not of the definitions that those of saltdelta are of" "$(grep '^ghost use' crates/saltdelta_c/src/lib.rt)" "$(grep '^ghost use' crates/saltdelta/src/lib.rt)"
same "saltdelta_c: a function does more than to call" "$(wc -l <<< "$exported")" "$(grep -cE '^    [^ ].*\)$|^    .*;$' <<< "$(sed -n '/^{/,/^}/p' crates/saltdelta_c/src/lib.rt)")"
same "include/saltdelta.h: its functions are not the exported ones" "$exported" "$(grep -oE '^[a-z0-9_]+ saltdelta_[a-z_]+\(' include/saltdelta.h | awk '{ print $2 }' | tr -d '(' | sort)"
same "include/saltdelta.rs: its functions are not the exported ones" "$exported" "$(grep -oE '^    fn saltdelta_[a-z_]+\(' include/saltdelta.rs | awk '{ print $2 }' | tr -d '(' | sort)"
same "docs/LIBRARY.md: its calls are not the exported functions" "$exported" "$(sed -nE 's/^\| `(saltdelta_[a-z_]+)` \|.*/\1/p' docs/LIBRARY.md | sort)"

# ---- values

# The refusals of docs/OPERATING.md are those of spec 11.1, and its sheet is the default sheet.
numbers() { sed -nE 's/^\| ([0-9]+) \|.*/\1/p'; }
same "docs/OPERATING.md: its refusals are not those of spec 11.1" "$(sed -n '/^\*\*11\.1\*\*/,/^\*\*11\.2\*\*/p' docs/SPECIFICATION.md | numbers)" \
    "$(sed -n '/^## Refusals/,/^## In a live/p' docs/OPERATING.md | numbers)"
same "docs/OPERATING.md: its sheet is not that of spec 3.3" "$(sed -n '/^\*\*3\.3\*\*/,/^\*\*3\.4\*\*/p' docs/SPECIFICATION.md | grep '^(')" \
    "$(sed -nE 's/^\| [0-9]+ \| `(\((trip|enter|var|watt) .*\))` \|.*/\1/p' docs/OPERATING.md)"

# The ranges beside it are those of spec 3.5, but for ov2's, which the guide has in words; the regions of a voltage those of spec 6.7.
ranges() { grep -vE '12000 \| 16 \||these two numbers only' | sed -E 's/ \([^)]*\)//g; s/^\|.*\| ([-0-9]+ to [-0-9]+)(;| \|) ([-0-9]+ to [-0-9]+) \|$/\1; \3/' | grep -E '^[-0-9]+ to [-0-9]+; [-0-9]+ to [-0-9]+$'; }
same "docs/OPERATING.md: its ranges are not those of spec 3.5" "$(sed -n '/^\*\*3\.5\*\*/,/^\*\*3\.6\*\*/p' docs/SPECIFICATION.md | ranges)" \
    "$(sed -n '/^## What goes in/,/^## What comes out/p' docs/OPERATING.md | ranges)"
same "docs/OPERATING.md: its regions of a voltage are not those of spec 6.7" \
    "$(sed -n '/^\*\*6\.7\*\*/,/^\*\*6\.8\*\*/p' docs/SPECIFICATION.md | sed -nE 's/^\| ([a-z0-9 ]*[0-9]) \| ([a-z]+) \|$/\1: \2/p')" \
    "$(sed -nE 's/^\| voltage ([a-z0-9 ]+) \| (`entering` or )?`([a-z]+)` \|.*/\1: \3/p' docs/OPERATING.md)"
# The bytes of an image in docs/LIBRARY.md are those of spec 9.1.
bytes() { sed -n '/^| bytes | hold |/,/^$/p' "$1"; }
same "docs/LIBRARY.md: its image is not that of spec 9.1" "$(bytes docs/SPECIFICATION.md)" "$(bytes docs/LIBRARY.md)"

# The reports of the storm are those that its output has, here at the sample that the guide names.
while IFS='|' read -r _ sample _ report _; do
    line=$(sed -n "${sample// /}p" examples/storm.out)
    shown=$(tr -d '`' <<< "$report" | sed -E 's/^ +| +$//g')
    [ "$line" = "(report $shown)" ]
    expect $? "docs/OPERATING.md: sample $sample of the storm: $shown, not $line"
done < <(sed -n '/^## A worked storm/,$p' docs/OPERATING.md | grep -E '^\| [0-9]+ \|')
while IFS= read -r line; do
    grep -qxF -- "$line" examples/storm.out
    expect $? "README.md: not in examples/storm.out: $line"
done < <(sed -nE 's/^    (\(report [^)]*\)).*/\1/p' README.md)
[ "$(grep -c '^    (report ' README.md)" -ge 6 ]
expect $? "README.md: fewer than six lines of output"

# README is short, and its program is the example.
[ "$(wc -l < README.md)" -le 120 ]
expect $? "README.md: more than 120 lines"
same "README.md: its program is not examples/step.c" "$(sed -n '/^#include/,$p' examples/step.c)" "$(sed -n '/^```c$/,/^```$/p' README.md | sed '1d;$d')"
# Decisions are numbered in order, each with its question.
numbered=$(sed -nE 's/^- \*\*(D[0-9]+\.[0-9]+) .*/\1/p' docs/DECISIONS.md)
same "docs/DECISIONS.md: its entries are not numbered in order" "$(sort -V -u <<< "$numbered")" "$numbered"
[ -z "$(tr '\n' ' ' < docs/DECISIONS.md | grep -oE -- '- \*\*D[0-9.]+ [^*]*[^?*]\*\*')" ]
expect $? "docs/DECISIONS.md: an entry without its question"
[ "$(wc -w < docs/DECISIONS.md)" -le 5000 ]
expect $? "docs/DECISIONS.md: more than 5,000 words"

echo "$passed passed, $failed failed"
[ "$failed" -eq 0 ]
