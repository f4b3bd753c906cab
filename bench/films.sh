# shellcheck shell=bash
# The film of 1 GB that bench/index.sh and bench/seeks.sh time: small pictures and PCM, for 82 minutes.
# To be sourced; it makes the film at the path with ffmpeg, where it is not there.
make_long_film() {
    [ -f "$1" ] && return
    command -v ffmpeg >/dev/null || { echo "no ffmpeg to make a film with"; exit 1; }
    mkdir -p "$(dirname "$1")"
    echo "making $1"
    ffmpeg -v error -y -f lavfi -i testsrc2=size=160x120:rate=25 -f lavfi -i sine=frequency=440:sample_rate=48000 \
        -t 4900 -c:v mpeg2video -q:v 2 -g 12 -c:a pcm_s16le "$1" || exit 1
}
