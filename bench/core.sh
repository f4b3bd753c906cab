#!/bin/sh
# Times a player's core, and beside it one of the plainest kind: requests that are asked, worked and
# replied to, changes, views without news, requests behind a long journal. The least and the median
# of the rounds. A round does each a thousand times in so many cores.
# Build first: rt ci, or rt run in crates/core_bench.
# Usage: RUNS=11 bench/core.sh [CORES]
set -e
here=$(cd "$(dirname "$0")/.." && pwd)
program=$here/crates/core_bench/out/core_bench
cores=${1:-20}
runs=${RUNS:-11}
[ -x "$program" ] || { echo "no $program: build core_bench first" >&2; exit 1; }
# shellcheck source=bench/rates.sh
. "$here/bench/rates.sh"
for _ in $(seq "$runs"); do "$program" "$cores"; done | print_rates
