#!/usr/bin/env bash
# One name, one meaning: no two definitions in the specs/ of all crates have the same name. Fields and constructors are not looked at, nor are functions of the
# code, which share the name of the definition that they promise, or of a function for another width.
set -u
cd "$(dirname "$0")/.." || exit 2
names=$(grep -hoE '^((abbrev|unfoldable) )?pub ((record|data) )?[^ :({]+' crates/*/specs/*.antt | awk '$NF !~ /^(mod|use)$/ { print $NF }')
twice=$(sort <<< "$names" | uniq -d)
for name in $twice; do
    echo "defined more than once: $name"
    grep -lE "^((abbrev|unfoldable) )?pub ((record|data) )?$name( |\$)" crates/*/specs/*.antt
done
failed=$(wc -w <<< "$twice")
echo "$(($(wc -l <<< "$names") - failed)) passed, $failed failed"
[ "$failed" -eq 0 ]
