#!/bin/sh
# Times a list of films: each of its steps, and what is new to twenty properties that are watched. The
# least and the median of the rounds. Build first: rt ci, or rt run in crates/playlist_bench.
# Usage: RUNS=11 bench/playlist.sh [ENTRIES]
set -e
here=$(cd "$(dirname "$0")/.." && pwd)
program=$here/crates/playlist_bench/out/playlist_bench
entries=${1:-10000}
runs=${RUNS:-11}
[ -x "$program" ] || { echo "no $program: build playlist_bench first" >&2; exit 1; }
printf '| What, of %d entries | Nanoseconds each: least | median |\n|---|---|---|\n' "$entries"
for _ in $(seq "$runs"); do "$program" "$entries"; done |
    sed -n 's/^\(.*\): \([0-9]*\) in [0-9]* ns, \([0-9]*\) ns each$/\1|\3/p' | sort -t'|' -k1,1 -k2,2n |
    awk -F'|' '
        function tell() { if (n) printf "| %s | %d | %d |\n", name, each[1], each[int((n + 1) / 2)] }
        $1 != name { tell(); name = $1; n = 0 }
        { each[++n] = $2 }
        END { tell() }'
