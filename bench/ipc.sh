#!/bin/sh
# Times lines of a JSON session: parsed, and read by serde_json alone; replies and events written; an
# input cut into lines. The least and the median of the rounds, in lines a second.
# Build first: rt ci, or rt run in crates/ipc_bench.
# Usage: RUNS=11 bench/ipc.sh [LINES]
set -e
here=$(cd "$(dirname "$0")/.." && pwd)
program=$here/crates/ipc_bench/out/ipc_bench
lines=${1:-600000}
runs=${RUNS:-11}
[ -x "$program" ] || { echo "no $program: build ipc_bench first" >&2; exit 1; }
# shellcheck source=bench/rates.sh
. "$here/bench/rates.sh"
for _ in $(seq "$runs"); do "$program" "$lines"; done | print_rates
