#!/bin/sh
# Times the cache: packets that are fed, seeks that it serves, and all of it pruned away; and the memory
# that a packet takes besides its payload.
# Build first: rt ci, or rt run in crates/cache_bench.
# Usage: bench/cache.sh [PACKETS [SEEKS]]
set -e
here=$(cd "$(dirname "$0")/.." && pwd)
program=$here/crates/cache_bench/out/cache_bench
packets=${1:-500000}
seeks=${2:-1000}
payload=256
[ -x "$program" ] || { echo "no $program: build cache_bench first" >&2; exit 1; }
printf '| What | How many | Microseconds each |\n|---|---|---|\n'
"$program" "$packets" "$seeks" | sed -n 's/^\(.*\): \([0-9]*\) in \([0-9]*\) ns, .*$/\1 \2 \3/p' |
    awk '{ name = $1; for (i = 2; i < NF - 1; i++) name = name " " $i
           printf "| %s | %s | %.3f |\n", name, $(NF - 1), $NF / ($(NF - 1) * 1000) }'
# the greatest resident memory in octets of a run with so many packets; the difference of two such runs
# leaves out what the script's own child took before it became the program
memory() {
    python3 - "$program" "$1" <<'PY'
import resource, subprocess, sys
subprocess.run([sys.argv[1], sys.argv[2], "0"], stdout=subprocess.DEVNULL, stdin=subprocess.DEVNULL)
print(resource.getrusage(resource.RUSAGE_CHILDREN).ru_maxrss * 1024)
PY
}
half=$((packets / 2))
few=$(memory "$half")
many=$(memory "$packets")
awk -v few="$few" -v many="$many" -v more=$((packets - half)) -v payload="$payload" \
    'BEGIN { printf "\nOctets a packet besides its payload of %d: %.0f\n", payload, (many - few) / more - payload }'
