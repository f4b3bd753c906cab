#!/bin/sh
# Prints a table of the turns and looks that the lock and the board give in a second.
# Build first: rt ci, or rt run in crates/turn_bench.
# Usage: bench/turns.sh [TURNS [LOOKS]]   turns of all threads together, and looks
set -e
here=$(cd "$(dirname "$0")/.." && pwd)
program=$here/crates/turn_bench/out/turn_bench
turns=${1:-1000000}
looks=${2:-1000000}
[ -x "$program" ] || { echo "no $program: build turn_bench first" >&2; exit 1; }
rate() {
    "$program" "$@" | sed 's/.*, \([0-9]*\) a second$/\1/'
}
printf '| Threads | Turns a second | With std'"'"'s Mutex |\n|---|---|---|\n'
for threads in 1 2 4; do
    each=$((turns / threads))
    printf '| %s | %s | %s |\n' "$threads" "$(rate turn "$threads" "$each")" "$(rate mutex "$threads" "$each")"
done
printf '\nLooks a second beside a running poster: %s\n' "$(rate look "$looks")"
printf '\nCalls of a demuxer behind the lock a second, of one caller and of two: %s and %s\n' \
    "$(rate demux 1 "$turns")" "$(rate demux 2 $((turns / 2)))"
