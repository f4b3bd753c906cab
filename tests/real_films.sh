#!/usr/bin/env bash
# Runs the proved program on each film of a folder beside the repository (FILMS, where that is set)
# that has a file NAME.run, and compares all that it prints without a script with that file: the
# packets of the default tracks and their ends. The same has to come of the script `drain` with next
# to nothing read ahead, and of the films held in memory, with reads that give at most 1, 7 and 4096
# octets. Skipped, saying so, where the folder is missing.
cd "$(dirname "$0")/.." || exit 1
films=${FILMS:-../shared/films}
program=crates/mcplay/out/mcplay
short_reads=crates/short_reads/out/short_reads
if [ ! -d "$films" ]; then
    echo "real films: skipped, no folder $films"
    exit 0
fi
for needed in "$program" "$short_reads"; do
    if [ ! -x "$needed" ]; then
        echo "real films: no program $needed; run 'rt ci' first"
        exit 1
    fi
done
script=$(mktemp) || exit 1
trap 'rm -f "$script"' EXIT
echo drain >"$script"
passed=0
failed=0
# Compares what a command prints for a film with the lines that it owes.
check() {
    local name=$1 lines=$2
    shift 2
    if "$@" | cmp -s - "$lines"; then
        passed=$((passed + 1))
    else
        echo "real films: $name differs"
        failed=$((failed + 1))
    fi
}
for lines in "$films"/*.run; do
    film=${lines%.run}
    name=$(basename "$film")
    check "$name" "$lines" "$program" run "$film"
    check "$name with little read ahead" "$lines" "$program" run --forward=1 --readahead=0 "$film" "$script"
    for most in 1 7 4096; do
        check "$name with reads of $most" "$lines" "$short_reads" "$most" "$film"
    done
done
echo "films: $passed passed, $failed failed"
[ "$failed" -eq 0 ]
