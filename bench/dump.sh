#!/bin/sh
# Times the writing of a film that is held in memory: its second half chosen; all of it written into a
# sink that throws it away, and to /dev/null by calls of the system. The least and the median of the
# rounds. Build first: rt ci, or rt run in crates/dump_bench.
# Usage: RUNS=5 bench/dump.sh [PACKETS OCTETS]; without words films of large, middling and small packets.
set -e
here=$(cd "$(dirname "$0")/.." && pwd)
program=$here/crates/dump_bench/out/dump_bench
runs=${RUNS:-5}
[ -x "$program" ] || { echo "no $program: build dump_bench first" >&2; exit 1; }
# measure PACKETS OCTETS: a row of the table for each thing that is timed
measure() {
    for _ in $(seq "$runs"); do "$program" "$1" "$2"; done |
        sed -n 's/^\(.*\): \([0-9]*\) in \([0-9]*\) ns$/\1|\2|\3/p' | sort -t'|' -k1,1 -k3,3n |
        awk -F'|' -v packets="$1" -v octets="$2" '
            function tell() {
                if (!n) return
                m = took[int((n + 1) / 2)]
                size = name == "packets chosen" ? "" : sprintf("%.1f", film / took[1])
                printf "| %s | %d of %d | %.3f | %.3f | %.0f | %s |\n", name, packets, octets, took[1] / 1e6, m / 1e6, took[1] / packets, size
            }
            $1 != name { tell(); name = $1; n = 0 }
            $1 == "octets written" { film = $2 }
            { took[++n] = $3 }
            END { tell() }'
}
printf '| What | Packets, octets each | Milliseconds: least | median | Nanoseconds a packet | GB/s |\n|---|---|---|---|---|---|\n'
if [ $# = 2 ]; then
    measure "$1" "$2"
else
    measure 1000 262144
    measure 100000 2800
    measure 200000 256
fi
