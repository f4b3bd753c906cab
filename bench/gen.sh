#!/usr/bin/env bash
# Times `mcplay gen N` into a pipe that discards, beside `dd` and `cat` of the same octets from a file
# that lies in memory, each the least of some runs; then `mcplay gen --sum`. Usage: bench/gen.sh [N].
# Build first: rt ci, or rt run in crates/mcplay.
cd "$(dirname "$0")/.." || exit 1
program=crates/mcplay/out/mcplay
runs=${RUNS:-5}
pictures=${1:-200000}
[ -x "$program" ] || { echo "no $program: run 'rt ci' or './mcplay --version' first"; exit 1; }
film=$(mktemp -p /dev/shm) || exit 1
trap 'rm -f "$film"' EXIT
"$program" gen "$pictures" >"$film"
octets=$(stat -c %s "$film")

# least NAME OCTETS COMMAND..: the least seconds that a command takes whose output a pipe discards, and
# how many octets a second that is
least() {
    local name=$1 octets=$2
    shift 2
    python3 - "$runs" "$octets" "$name" "$@" <<'PYTHON'
import subprocess
import sys
import time

runs, octets, name, command = int(sys.argv[1]), int(sys.argv[2]), sys.argv[3], sys.argv[4:]
best = None
for _ in range(runs):
    sink = subprocess.Popen(["cat"], stdin=subprocess.PIPE, stdout=subprocess.DEVNULL)
    start = time.perf_counter()
    subprocess.run(command, stdout=sink.stdin, check=True)
    took = time.perf_counter() - start
    sink.stdin.close()
    sink.wait()
    best = took if best is None else min(best, took)
rate = f", {octets / best / 1e9:.2f} GB/s" if octets else ""
print(f"{name}: {best * 1000:.2f} ms{rate}")
PYTHON
}
echo "gen $pictures: $octets octets, least of $runs runs"
least "nothing but a start, mcplay --version" 0 "$program" --version
least "mcplay gen $pictures" "$octets" "$program" gen "$pictures"
least "dd bs=64k" "$octets" dd if="$film" bs=64k status=none
least "cat" "$octets" cat "$film"
least "mcplay gen --sum 20000" 0 "$program" gen --sum 20000
least "mcplay gen --sum $pictures" 0 "$program" gen --sum "$pictures"
