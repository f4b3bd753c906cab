#!/usr/bin/env bash
# Writes spans of films as films of their own, by the built dump_bench, and compares what ffprobe lists
# of both: of each track the span's packets in order, each with its time, key mark, size and the
# checksum of its octets. The films are made with ffmpeg, of MPEG-2 video, sound and subtitles; one more
# has its sound in laces, where mkvmerge is installed. Their codecs need no settings beside the packets,
# since a written film has none. A span begins at the last keyframe of the first track that is not past FROM.
# Usage: tests/dumped_films.sh. It is no part of .ci/run; build first: rt ci, or rt run in
# crates/dump_bench. Skipped, saying so, without ffmpeg and ffprobe.
cd "$(dirname "$0")/.." || exit 1
program=$PWD/crates/dump_bench/out/dump_bench
for needed in ffmpeg ffprobe; do
    command -v "$needed" >/dev/null || { echo "dumped films: skipped, no $needed"; exit 0; }
done
[ -x "$program" ] || { echo "dumped films: no program $program; run 'rt ci' first"; exit 1; }
folder=$(mktemp -d) || exit 1
trap 'rm -rf "$folder"' EXIT
cd "$folder" || exit 1

# make FILM SOUND: 20 seconds with sound of that codec
make() {
    ffmpeg -v error -y -f lavfi -i testsrc2=size=160x120:rate=25 -f lavfi -i sine=frequency=440:sample_rate=48000 \
        -i words.srt -map 0 -map 1 -map 2 -t 20 -c:v mpeg2video -q:v 2 -g 12 -c:a "$2" -c:s srt "$1"
}
printf '1\n00:00:00,500 --> 00:00:02,000\none\n\n2\n00:00:06,500 --> 00:00:08,000\ntwo\n' >words.srt
printf '\n3\n00:00:08,100 --> 00:00:09,000\nthree\n' >>words.srt
make plain.mkv mp2 && make other.mkv ac3 || exit 1
films=(plain.mkv other.mkv)
if command -v mkvmerge >/dev/null; then
    mkvmerge -q -o laced.mkv other.mkv || exit 1
    films+=(laced.mkv)
else
    echo "dumped films: no film with laces, since there is no mkvmerge"
fi

# A line for each packet: track, time in seconds, octets, place, key mark, checksum.
list() {
    ffprobe -v error -show_packets -show_data_hash CRC32 \
        -show_entries packet=stream_index,pts_time,size,pos,flags,data_hash -of compact=p=0 "$1" |
        sed -n 's/^stream_index=\(.*\)|pts_time=\(.*\)|size=\(.*\)|pos=\(.*\)|flags=\(..\).*|data_hash=\(.*\)$/\1 \2 \3 \4 \5 \6/p'
}

# wanted FROM TO: of the packets that are listed those of the span, without their places, track by track
wanted() {
    awk -v from="$1" -v to="$2" '
        { line[NR] = $1 " " $2 " " $3 " " $5 " " $6; time[NR] = $2 + 0; place[NR] = $4 + 0 }
        $1 == 0 && $5 ~ /K/ && first == "" { first = $4 + 0 }
        $1 == 0 && $5 ~ /K/ && from != "no" && $2 + 0 <= from + 0 { last = $4 + 0 }
        END { begin = last == "" ? first : last
              for (n = 1; n <= NR; n++) if (place[n] >= begin && (to == "no" || time[n] < to + 0)) print line[n] }' |
        sort -s -n -k 1,1
}

# Seconds in nanoseconds.
nanos() {
    if [ "$1" = no ]; then echo no; else awk -v s="$1" 'BEGIN { printf "%.0f\n", s * 1e9 }'; fi
}

passed=0
failed=0
# judge FILM FROM TO
judge() {
    list "$1" | wanted "$2" "$3" >wanted
    if "$program" "$1" 1 "$(nanos "$2")" "$(nanos "$3")" >written.mkv && list written.mkv | wanted no no >listed &&
        [ -s wanted ] && cmp -s wanted listed; then
        passed=$((passed + 1))
    else
        echo "dumped films: $1 from $2 to $3: $(wc -l <wanted) packets wanted, $(wc -l <listed) listed"
        diff wanted listed | head -n 3
        failed=$((failed + 1))
    fi
}
# In laced.mkv the lead has the number 1 as well.
for film in "${films[@]}"; do
    for span in "no no" "5 9" "0 0.5" "no 3.3" "12.3 no" "0.004 0.41" "19.9 no" "30 no"; do
        # shellcheck disable=SC2086
        judge "$film" $span
    done
done
echo "dumped films: $passed passed, $failed failed"
[ "$failed" -eq 0 ]
