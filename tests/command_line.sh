#!/usr/bin/env bash
# What the proved program says on both streams, and its status, for words that name no film, for
# files that are none, for a film that it ships, and for scripts over it.
cd "$(dirname "$0")/.." || exit 1
program=crates/mcplay/out/mcplay
film=crates/mcplay/data/short.mkv
if [ ! -x "$program" ]; then
    echo "command line: no program $program; run 'rt ci' first"
    exit 1
fi
scripts=$(mktemp -d) || exit 1
trap 'rm -rf "$scripts"' EXIT
passed=0
failed=0
# Compares status, standard output's first line and standard error of a run of the program.
expect() {
    local status=$1 first=$2 error=$3 said out
    shift 3
    out=$("$program" "$@" 2>"$scripts/error")
    said=$?
    if [ "$said" = "$status" ] && [ "${out%%$'\n'*}" = "$first" ] && [ "$(cat "$scripts/error")" = "$error" ]; then
        passed=$((passed + 1))
    else
        echo "command line: 'mcplay $*' ended with $said, '${out%%$'\n'*}', '$(cat "$scripts/error")'"
        failed=$((failed + 1))
    fi
}
# Compares all that a run prints which ends with status 0 and says nothing on standard error.
prints() {
    local text=$1 said out
    shift
    out=$("$program" "$@" 2>&1)
    said=$?
    if [ "$said" = 0 ] && [ "$out" = "$text" ]; then
        passed=$((passed + 1))
    else
        echo "command line: 'mcplay $*' ended with $said, '$out'"
        failed=$((failed + 1))
    fi
}
usage="mcplay: usage: mcplay run [--forward=N] [--back=N] [--readahead=N] FILE [SCRIPT], or mcplay gen [--sum] N"
expect 0 "mcplay plays a script over a Matroska film and prints its packets." "" --help
expect 0 "mcplay 0.1.0" "" --version
expect 2 "" "$usage"
expect 2 "" "$usage" run
expect 2 "" "$usage" run -film
expect 2 "" "$usage" --help --version
expect 2 "" "$usage" walk "$film"
expect 2 "" "$usage" run --forward=0 "$film"
expect 2 "" "$usage" run "$film" --back=1
expect 2 "" "$usage" run "$film" script script
expect 2 "" "$usage" gen
expect 2 "" "$usage" gen 0
expect 2 "" "$usage" gen 200001
expect 2 "" "$usage" gen 18446744073709551617
expect 2 "" "$usage" gen -1
expect 2 "" "$usage" gen 1x
expect 2 "" "$usage" gen ""
expect 2 "" "$usage" gen --sum
expect 2 "" "$usage" gen 1 --sum
expect 2 "" "$usage" gen --sum 0
expect 2 "" "$usage" gen --sum 200001
expect 2 "" "$usage" gen --sum 1 1
expect 2 "" "$usage" gen --Sum 1
prints "gen 1 packets 3 octets 16 last 20000000 status 0" gen --sum 1
prints "gen 12 packets 36 octets 258 last 460000000 status 0" gen --sum 12
prints "gen 13 packets 39 octets 286 last 500000000 status 0" gen --sum 00013
prints "gen 20000 packets 60000 octets 630000 last 799980000000 status 0" gen --sum 20000
prints "gen 200000 packets 600000 octets 6300000 last 7999980000000 status 0" gen --sum 200000
# A generated film is read back by `run`, packet by packet.
for n in 1 12 13 20000; do
    "$program" gen "$n" >"$scripts/film"
    if [ $? = 0 ] && [ "$("$program" run "$scripts/film" | grep -c '^give')" = $((3 * n)) ]; then
        passed=$((passed + 1))
    else
        echo "command line: 'mcplay gen $n' is not read back"
        failed=$((failed + 1))
    fi
done
octets=$("$program" gen 1 | wc -c)
if [ "$octets" = 119 ]; then
    passed=$((passed + 1))
else
    echo "command line: 'mcplay gen 1' has $octets octets"
    failed=$((failed + 1))
fi
expect 3 "" "mcplay: cannot read" run no/such/film.mkv
expect 5 "" "mcplay: file refused: NotEbml" run README.md
first="give 1 at 66.0 time 0 len 1 sum 16 sync"
last="give 1 at 80.0 time 80000000 len 1 sum 18 sync
give 1 at 87.0 time 120000000 len 1 sum 19 inter
end 1 clean"
expect 0 "$first" "" run "$film"
expect 0 "$first" "" run --readahead=0 --back=0 --forward=1 "$film"

: >"$scripts/empty"
printf 'demux\nread video\nseek 0.09\ndrain\n' >"$scripts/ahead"
printf 'drain\nseek 0.09\ndrain\n' >"$scripts/again"
printf 'drain\nread sound\n' >"$scripts/word"
printf '# a time\nseek 1.\n' >"$scripts/number"
prints "" run "$film" "$scripts/empty"
prints "$first
seek 90000000 sent
$last" run "$film" "$scripts/ahead"
prints "$("$program" run "$film")
seek 90000000 cached
$last" run "$film" "$scripts/again"
# The tour of README.md and the first scripts of docs/SCRIPTS.md, whose texts follow from the film: four
# packets, 40 ms apart, of which the first and the third are keyframes.
printf 'demux 4\nread video 2\nseek 0.01\nread video\nseek 0.1\ndrain\nswitch\n' >"$scripts/tour"
printf 'seek 0.09\ndrain\n' >"$scripts/from"
printf 'seek 0.09\ndemux 10\nread video 2\n' >"$scripts/by-hand"
printf 'seek 0.09\nread video\n' >"$scripts/at-once"
printf 'drain\nshow\nseek 0.13 forward\ndrain\n' >"$scripts/look"
second="give 1 at 73.0 time 40000000 len 1 sum 17 inter"
prints "$first
$second
seek 10000000 cached
$first
seek 100000000 sent
join
$last
switch none at 120000000
drop 1 from 0.0 to 94.0 track" run "$film" "$scripts/tour"
prints "seek 90000000 sent
$last" run "$film" "$scripts/from"
prints "seek 90000000 sent
${last%$'\n'*}" run "$film" "$scripts/by-hand"
prints "seek 90000000 sent" run "$film" "$scripts/at-once"
prints "$first
$second
$last
view ranges 1 forward 0 back 260 ending yes
range 0 120000000 1 0.0 94.0
seek 130000000 forward cached
$last" run "$film" "$scripts/look"
expect 3 "" "mcplay: cannot read" run "$film" "$scripts/none"
expect 5 "" "mcplay: file refused: NotEbml" run README.md "$scripts/ahead"
expect 6 "" "mcplay: script line 2: Word" run "$film" "$scripts/word"
expect 6 "" "mcplay: script line 2: Number" run --back=0 "$film" "$scripts/number"
expect 6 "" "mcplay: script line 0: Utf8" run "$film" "$film"
expect 6 "" "mcplay: script line 2: Word" run README.md "$scripts/word"
# The launcher hands its words on, wherever it is called from, also behind --quick.
top=$PWD
for quick in "" --quick; do
    # shellcheck disable=SC2086
    if [ "$(cd / && "$top/mcplay" $quick run "$top/$film" 2>&1)" = "$("$program" run "$film")" ]; then
        passed=$((passed + 1))
    else
        echo "command line: the launcher $quick does not print what the program prints"
        failed=$((failed + 1))
    fi
done
if [ -w /dev/full ]; then
    for words in "run $film" "gen 1" "gen 20000" "gen --sum 1"; do
        # shellcheck disable=SC2086
        "$program" $words 2>/dev/null >/dev/full
        if [ $? = 4 ]; then
            passed=$((passed + 1))
        else
            echo "command line: a full device is no status 4 for 'mcplay $words'"
            failed=$((failed + 1))
        fi
    done
    # Where standard error takes no line, the status is what it would be.
    for words in "2 run" "2 gen 0" "3 run no-such-file" "3 run $film no-such-file" "5 run README.md"; do
        # shellcheck disable=SC2086
        "$program" ${words#* } 2>/dev/full >/dev/null
        said=$?
        if [ "$said" = "${words%% *}" ]; then
            passed=$((passed + 1))
        else
            echo "command line: a full standard error makes the status $said for 'mcplay ${words#* }'"
            failed=$((failed + 1))
        fi
    done
fi
echo "command line: $passed passed, $failed failed"
[ "$failed" -eq 0 ] && bash tests/launcher.sh
