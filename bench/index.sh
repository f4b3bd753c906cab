#!/usr/bin/env bash
# Times look-ups of the index in a film on disk beside one pass over the heads of the film: seconds
# or microseconds, the octets that were asked for and those that the system read, and the system
# calls, counted by strace where it is at hand. Usage: bench/index.sh [FILM]; without a film it makes
# one of about 1 GB with ffmpeg in bench/films. Build first: rt ci, or rt run in crates/index_bench.
cd "$(dirname "$0")/.." || exit 1
program=crates/index_bench/out/index_bench
runs=${RUNS:-15}
looks=${LOOKS:-1000}
film=${1:-bench/films/about-1000MB.mkv}
[ -x "$program" ] || { echo "no $program: build index_bench first"; exit 1; }

# shellcheck source=bench/films.sh
. bench/films.sh
make_long_film "$film"

# the calls of the system, and the octets that its reads gave, at one task
count() {
    local calls=0 octets=0
    if command -v strace >/dev/null; then
        local log
        log=$(mktemp)
        strace -c -f -o "$log" "$program" "$1" "$film" >/dev/null
        calls=$(awk '$NF == "total" { print $4 }' "$log")
        strace -f -e trace=read -o "$log" "$program" "$1" "$film" >/dev/null
        octets=$(awk '$NF ~ /^[0-9]+$/ && $(NF - 1) == "=" { n += $NF } END { print n + 0 }' "$log")
        rm -f "$log"
    fi
    echo "$calls $octets"
}

# "DONE in NANOSECONDS ns, ASKED octets behind BEFORE": the run with the least time, since others may
# use the machine
least() {
    for _ in $(seq "$runs"); do "$program" "$1" "$film"; done | sort -n -k3 | head -n 1
}

# report NAME TASK BEFORE TIMES: what a task takes, one of so many, without what the task before takes
report() {
    local nanoseconds asked calls octets calls_before octets_before
    read -r _ _ nanoseconds _ asked _ < <(least "$2")
    read -r calls octets < <(count "$2")
    read -r calls_before octets_before < <(count "$3")
    awk -v name="$1" -v n="$nanoseconds" -v a="$asked" -v o="$octets" -v p="$octets_before" -v c="$calls" -v d="$calls_before" -v t="$4" \
        'BEGIN { printf "| %s | %.1f | %d | %d | %.1f |\n", name, n / 1000 / t, a / t, (o - p) / t, (c - d) / t }'
}

cat "$film" >/dev/null
echo "$film: $(stat -c %s "$film") octets, $(nproc) cores, least of $runs runs; $("$program" show "$film")"
echo '| Task | Microseconds | Octets asked for | Octets that the system read | System calls |'
echo '|---|---|---|---|---|'
report "one pass over all heads" pass open 1
report "a first look-up, behind the end" first open 1
report "each of $looks look-ups anywhere behind it" "$looks" first "$looks"
