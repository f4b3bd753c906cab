#!/usr/bin/env bash
# Times `./mcplay run FILM` beside other readers of the same films, which take turns, each as a ratio
# to `cat`, and their peak memory; and counts its system calls, where strace is at hand. Usage:
# bench/run.sh [FILM...]; without a film it makes two with ffmpeg in bench/films: one of about
# 200 MB with large packets, and one of about 1.5 GB with 517,500 small ones. Tools that are missing
# are skipped.
cd "$(dirname "$0")/.." || exit 1
program=crates/mcplay/out/mcplay
runs=${RUNS:-5}
[ -x "$program" ] || { echo "no $program: run 'rt ci' or './mcplay --version' first"; exit 1; }

make_film() {
    [ -f "$1" ] && return
    command -v ffmpeg >/dev/null || { echo "no ffmpeg to make a film with"; exit 1; }
    mkdir -p bench/films
    echo "making $1"
    local sine=sine=frequency=440:sample_rate=48000
    case $1 in
        *200MB*) # mpeg2 at a fixed high rate, and PCM: many octets for little work
            ffmpeg -v error -y -f lavfi -i testsrc2=size=1280x720:rate=25 -f lavfi -i $sine -t 40 \
                -c:v mpeg2video -b:v 40M -minrate 40M -maxrate 40M -bufsize 8M -g 12 -c:a pcm_s16le "$1" ;;
        *) # small pictures and PCM, for two hours
            ffmpeg -v error -y -f lavfi -i testsrc2=size=160x120:rate=25 -f lavfi -i $sine -t 7200 \
                -c:v mpeg2video -q:v 2 -g 12 -c:a pcm_s16le "$1" ;;
    esac || exit 1
}

films=("$@")
if [ ${#films[@]} -eq 0 ]; then
    films=(bench/films/about-200MB.mkv bench/films/about-1500MB.mkv)
    for film in "${films[@]}"; do make_film "$film"; done
fi

for film in "${films[@]}"; do
    echo "$film: $(stat -c %s "$film") octets, $(nproc) cores, least and median of $runs rounds"
    at=$(printf %q "$film")
    commands=(cat "cat $at" "./mcplay run" "./mcplay run $at" "its program without large pages" "$program run $at")
    command -v ffmpeg >/dev/null && commands+=("ffmpeg -map 0 -c copy -f framecrc" "ffmpeg -v error -i $at -map 0 -c copy -f framecrc -")
    command -v ffprobe >/dev/null && commands+=("ffprobe -show_packets, checksums" "ffprobe -v error -show_packets -show_data_hash CRC32 -of csv $at")
    if command -v mkvextract >/dev/null; then
        # it wants a file of its own for each track, so /dev/null is spelled in as many ways
        tracks=$(mkvmerge -J "$film" | python3 -c 'import json,sys; print(" ".join("%d:/dev%s/null" % (t["id"], "/." * t["id"]) for t in json.load(sys.stdin)["tracks"]))')
        commands+=("mkvextract tracks" "mkvextract $at tracks $tracks")
    fi
    bench/rounds.py "$runs" "${commands[@]}"
    if command -v strace >/dev/null; then
        counts=$(mktemp)
        strace -c -f -o "$counts" "$program" run "$film" >/dev/null
        echo "system calls of mcplay run: $(awk '$NF == "total" { print $4 }' "$counts")"
        rm -f "$counts"
    fi
done
