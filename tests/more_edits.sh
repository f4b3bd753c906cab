#!/usr/bin/env bash
# Tries the must-fail edits that the gate leaves out, on a copy of the crates:
#
#     bash tests/more_edits.sh [NAME..]      those of these crates, else of all that have some
#
# They stand in tests/more_edits/NAME, in the form of crates/NAME/must-fail. The prover must refuse
# each; the last line says how many it did. An edit that no longer applies counts as a failure.
cd "$(dirname "$0")/.." || exit 1
if [ $# = 0 ]; then
    set -- $(ls tests/more_edits)
fi
copy=$(mktemp -d) || exit 1
trap 'rm -rf "$copy"' EXIT
cp -r crates crates.txt HANDLES "$copy"
rm -rf "$copy"/crates/*/must-fail
tried=()
for name in "$@"; do
    if [ ! -d "tests/more_edits/$name" ]; then
        echo "more edits: none of $name"
        continue
    fi
    cp -r "tests/more_edits/$name" "$copy/crates/$name/must-fail"
    tried+=("$name")
done
cd "$copy" || exit 1
git init -q .
for name in "${tried[@]}"; do
    (cd "crates/$name" && rt check >"$copy/check.log" 2>&1) || {
        echo "more edits: $name does not check"
        tail -5 "$copy/check.log"
        exit 1
    }
done
rt must-fail "${tried[@]}"
