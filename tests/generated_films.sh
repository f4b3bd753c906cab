#!/usr/bin/env bash
# Reads generated films with other readers, where they are installed, and compares them with films
# that a script makes by the rule in words. Called by hand; skips what is not there, with a word.
cd "$(dirname "$0")/.." || exit 1
program=crates/mcplay/out/mcplay
if [ ! -x "$program" ]; then
    echo "generated films: no program $program; run 'rt ci' first"
    exit 1
fi
films=$(mktemp -d) || exit 1
trap 'rm -rf "$films"' EXIT
passed=0
failed=0
check() {
    local what=$1
    shift
    if "$@"; then
        passed=$((passed + 1))
    else
        echo "generated films: $what"
        failed=$((failed + 1))
    fi
}
there() {
    command -v "$1" >/dev/null && return
    echo "generated films: skipped $1, which is not installed"
    return 1
}
has_container() {
    [ "$(mkvmerge -i "$1" 2>&1)" = "File '$1': container: Matroska" ]
}
has_no_complaint() {
    mkvinfo -a "$1" >"$films/said" 2>&1 && ! grep -qiE 'error|warning|unknown element' "$films/said"
}
lists_packets() {
    [ "$(grep -c 'Frame with size' "$films/said")" = "$1" ]
}
# Each packet's stream, time, size and key mark, as ffprobe reads them from the container. The payloads
# are no real pictures, so that no decoder and no parser is asked.
as_ffprobe_reads() {
    ffprobe -v warning -fflags +noparse -nofind_stream_info -show_packets \
        -show_entries packet=stream_index,pts_time,size,flags -of csv=p=0 "$1" >"$films/read" 2>"$films/said" \
        && [ ! -s "$films/said" ] && cmp -s "$films/read" "$2"
}
for n in 1 12 13 500 20000 200000; do
    "$program" gen "$n" >"$films/$n.mkv"
    check "gen $n does not end with 0" [ $? = 0 ]
done
if there python3; then
    for n in 1 12 13 500 20000 200000; do
        python3 tools/generated_film.py "$n" "$films/rule.mkv" "$films/$n.packets"
        check "gen $n is not the film of the rule" cmp -s "$films/rule.mkv" "$films/$n.mkv"
    done
    if there ffprobe; then
        for n in 1 12 13 500 20000; do
            check "ffprobe does not read gen $n" as_ffprobe_reads "$films/$n.mkv" "$films/$n.packets"
        done
    fi
fi
if there mkvmerge; then
    for n in 1 13 20000; do
        check "mkvmerge does not read gen $n" has_container "$films/$n.mkv"
    done
fi
if there mkvinfo; then
    for n in 1 13 20000; do
        check "mkvinfo complains of gen $n" has_no_complaint "$films/$n.mkv"
        check "mkvinfo does not find all packets of gen $n" lists_packets $((3 * n))
    done
fi
echo "generated films: $passed passed, $failed failed"
[ $failed = 0 ]
