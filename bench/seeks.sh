#!/usr/bin/env bash
# Times seeks of `mcplay run` at random in a film on disk: SEEKS of them with the whole film in the
# cache, each of which has to be served from there, and LEAST of them with the least limits, each with
# two jobs of the demuxer behind it, and the octets that the system read for one, counted by strace
# where it is at hand. The same seeks come in each call. Usage: bench/seeks.sh [FILM]; without a film
# it makes one of about 1 GB with ffmpeg in bench/films. Build first: rt ci.
cd "$(dirname "$0")/.." || exit 1
program=crates/mcplay/out/mcplay
runs=${RUNS:-3}
seeks=${SEEKS:-10000}
least=${LEAST:-2000}
film=${1:-bench/films/about-1000MB.mkv}
everything=(--forward=1073741824 --back=1073741824)
nothing=(--forward=1 --back=0 --readahead=0)
[ -x "$program" ] || { echo "no $program: run 'rt ci' or './mcplay --version' first"; exit 1; }

# shellcheck source=bench/films.sh
. bench/films.sh
make_long_film "$film"

scripts=$(mktemp -d) || exit 1
trap 'rm -rf "$scripts"' EXIT

# so many seeks to times between 0 and the last one, each with a line behind it where one is given
at_random() {
    awk -v n="$1" -v last="$2" -v behind="$3" 'BEGIN {
        x = 20261201
        for (i = 0; i < n; i++) {
            x = (x * 16807) % 2147483647
            printf "seek %.3f\n", x / 2147483647 * last / 1e9
            if (behind != "") print behind
        }
    }'
}

# the least and the median of the seconds of some runs, and the least of processor time
measure() {
    for _ in $(seq "$runs"); do
        /usr/bin/env python3 - "$program" run "$@" <<'PY'
import resource, subprocess, sys, time
start = time.perf_counter()
ended = subprocess.run(sys.argv[1:], stdout=subprocess.DEVNULL, stdin=subprocess.DEVNULL).returncode
spent = time.perf_counter() - start
used = resource.getrusage(resource.RUSAGE_CHILDREN)
if ended:
    sys.exit(f"status {ended}")
print(f"{spent:.6f} {used.ru_utime + used.ru_stime:.6f}")
PY
    done | sort -n | awk '{ t[NR] = $1; if (NR == 1 || $2 < p) p = $2 } END { print t[1], t[int((NR + 1) / 2)], p }'
}

# the octets that the reads of a run with the least limits gave
octets() {
    strace -f -e trace=read,pread64 -o "$scripts/log" "$program" run "${nothing[@]}" "$film" "$1" >/dev/null
    awk '$NF ~ /^[0-9]+$/ && $(NF - 1) == "=" { n += $NF } END { print n + 0 }' "$scripts/log"
}

# octets_each SCRIPT BEFORE TIMES: those of one of so many seeks, without those of the script before
octets_each() {
    if command -v strace >/dev/null; then
        echo "$((($(octets "$1") - $(octets "$2")) / $3))"
    else
        echo -
    fi
}

# report NAME TIMES BEFORE TIMES_BEFORE OCTETS: microseconds of one of so many, without those of the run before
report() {
    awk -v name="$1" -v n="$2" -v now="$3" -v before="$4" -v octets="$5" 'BEGIN {
        split(now, a, " ")
        split(before, b, " ")
        printf "| %s |", name
        for (i = 1; i <= 3; i++) printf " %.1f |", (a[i] - b[i]) * 1e6 / n
        print " " octets " |"
    }'
}

cat "$film" >/dev/null
echo drain >"$scripts/drain"
"$program" run "${everything[@]}" "$film" "$scripts/drain" >"$scripts/text" || exit 1
last=$(awk '$1 == "give" && $6 > m { m = $6 } END { printf "%.0f", m }' "$scripts/text")
packets=$(grep -c '^give ' "$scripts/text")
{ echo drain; at_random "$seeks" "$last" ""; } >"$scripts/cached"
"$program" run "${everything[@]}" "$film" "$scripts/cached" | tail -n +"$(($(wc -l <"$scripts/text") + 1))" >"$scripts/told"
cached=$(grep -c '^seek [0-9]* cached$' "$scripts/told")
if [ "$cached" != "$seeks" ] || [ "$(wc -l <"$scripts/told")" != "$seeks" ]; then
    echo "only $cached of $seeks seeks were served from the cache"
    exit 1
fi

# a script without a seek that is as long as the one with them, since both are read; then one seek
# behind the film's end, which has the index see all of it, and then seeks at random
awk -v last="$last" 'BEGIN { printf "seek %.3f\ndemux 2\n", last / 1e9 }' >"$scripts/first"
{ cat "$scripts/first"; at_random "$least" "$last" "demux 2"; } >"$scripts/least"
sed 's/^./#/' "$scripts/first" >"$scripts/none"
{ cat "$scripts/first"; at_random "$least" "$last" "demux 2" | sed 's/^./#/'; } >"$scripts/one"

echo "$film: $(stat -c %s "$film") octets, $packets packets, $(nproc) cores, $runs runs"
echo '| Seeks | Microseconds, least | Microseconds, median | Microseconds of processor time | Octets that the system read |'
echo '|---|---|---|---|---|'
report "each of $seeks, all in the cache" "$seeks" "$(measure "${everything[@]}" "$film" "$scripts/cached")" \
    "$(measure "${everything[@]}" "$film" "$scripts/drain")" -
report "a first one, at the end, least limits" 1 "$(measure "${nothing[@]}" "$film" "$scripts/first")" \
    "$(measure "${nothing[@]}" "$film" "$scripts/none")" "$(octets_each "$scripts/first" "$scripts/none" 1)"
report "each of $least behind it, least limits" "$least" "$(measure "${nothing[@]}" "$film" "$scripts/least")" \
    "$(measure "${nothing[@]}" "$film" "$scripts/one")" "$(octets_each "$scripts/least" "$scripts/one" "$least")"
