#!/usr/bin/env bash
# The first error of each must-fail edit is none of the known errors of shape, which a version gives that no longer fits the declared types, names or
# proofs. It is read from what `rt ci` said, in target/ci.log, or else from what `rt must-fail` says, which begins with what checks kept. LOG names another log.
set -u
cd "$(dirname "$0")/.." || exit 2
log=${LOG:-target/ci.log}
if [ ! -e "$log" ]; then
    log=target/must-fail.log
    mkdir -p target
    rt must-fail > "$log" 2>&1
fi
passed=0
failed=0
refused='refused, as it must be'
shapes='only by a limit|missing field|has no field|not in scope|can be named from here|no such|expected type `goal\.|only because a proof file names'

for edit in crates/*/must-fail/*.edit; do
    crate=${edit#crates/}
    said=$(grep -F "must-fail ${crate%%/*}/$(basename "$edit"): " "$log" | tail -n 1)
    if [[ $said == *"$refused"* ]] && ! grep -qE "$shapes" <<< "$said"; then
        passed=$((passed + 1))
    else
        failed=$((failed + 1))
        echo "$edit: ${said:-not in $log}" | cut -c 1-300
    fi
done
echo "$passed passed, $failed failed"
[ "$failed" -eq 0 ]
