#!/usr/bin/env bash
# Runs the proved program on small films an element of which declares a size that lies, from 2^16 to
# 2^56 - 2 octets, on films that hold a hole of more octets than a body may have, and on a short film
# under the same limit. Each run ends as the format's rules say, with no more memory than 64 MB over
# what the program needs at rest. Skipped, saying so, where no python3 makes the films, or where a
# process's memory cannot be limited.
cd "$(dirname "$0")/.." || exit 1
program=crates/mcplay/out/mcplay
tiny=crates/mcplay/data/short.mkv
if [ ! -x "$program" ]; then
    echo "sizes: no program $program; run 'rt ci' first"
    exit 1
fi
if ! command -v python3 >/dev/null; then
    echo "sizes: skipped, no python3"
    exit 0
fi
films=$(mktemp -d) || exit 1
trap 'rm -rf "$films"' EXIT
# Runs the program on a film under a limit, in kilobytes.
limited() {
    (ulimit -v "$1" 2>/dev/null || exit 99; exec "$program" run "$2" 2>&1)
}
limited 4194304 "$tiny" >/dev/null
if [ $? = 99 ]; then
    echo "sizes: skipped, memory cannot be limited"
    exit 0
fi
# What the program needs at rest: the least limit, in steps of 4 MB, with which it plays a tiny film.
rest=4096
until limited "$rest" "$tiny" >/dev/null 2>&1; do
    rest=$((rest + 4096))
    if [ "$rest" -gt 4194304 ]; then
        echo "sizes: skipped, a tiny film is not played under any limit"
        exit 0
    fi
done
limit=$((rest + 65536))
python3 - "$films" <<'PYTHON' || exit 1
import os
import sys

# Video track 1 every 40 ms and audio track 2 every 30 ms, in three Clusters.
header = bytes.fromhex("1A45DFA38B4282886D6174726F736B61")
segment = bytes.fromhex("18538067")
info = bytes.fromhex("1549A966872AD7B1830F4240")
entries = [
    bytes.fromhex("AE91D7810173C5810183810186" + "85565F565039"),
    bytes.fromhex("AE92D7810273C5810283810286" + "86415F4F505553"),
]
tracks = bytes.fromhex("1654AE6B")


def block(track, time, flags, octet):
    return bytes([0xA3, 0x85, 0x80 | track, 0, time, flags, octet])


def cluster(time, blocks):
    body = bytes([0xE7, 0x81, time]) + b"".join(blocks)
    return bytes.fromhex("1F43B675") + bytes([0x80 | len(body)]) + body


def group(time, first):
    places = [(1, 0, 0x80), (2, 0, 0x80), (2, 30, 0x80), (1, 40, 0), (2, 60, 0x80), (1, 80, 0), (2, 90, 0x80)]
    return cluster(time, [block(t, at, flags, first + n) for n, (t, at, flags) in enumerate(places)])


clusters = group(0, 16) + group(120, 32) + cluster(240, [block(*b) for b in [(1, 0, 0x80, 48), (2, 0, 0x80, 49), (2, 30, 0x80, 50), (1, 40, 0, 51)]])
listed = tracks + bytes([0x80 | sum(map(len, entries))]) + b"".join(entries)
opening = header + segment + b"\xFF"
started = opening + info + listed + group(0, 16) + bytes.fromhex("1F43B675FFE78178") + block(1, 0, 0x80, 32)


def sized(size):
    return b"\x01" + size.to_bytes(7, "big")


def declared(element, size):
    n = sized(size)
    if element == "header":
        return header[:4] + n + header[5:] + segment + b"\xFF" + info + listed + clusters
    if element == "segment":
        return header + segment + n + info + listed + clusters
    if element == "info":
        return opening + info[:4] + n + info[5:] + listed + clusters
    if element == "tracks":
        return opening + info + tracks + n + b"".join(entries) + clusters
    if element == "entry":
        body = b"\xAE" + n + entries[0][2:] + entries[1]
        return opening + info + tracks + bytes([0x80 | len(body)]) + body + clusters
    if element == "cluster":
        return opening + info + listed + group(0, 16) + group(120, 32) + bytes.fromhex("1F43B675") + n + clusters[-31:]
    if element == "block":
        return started + b"\xA3" + n + bytes.fromhex("8200008024")
    if element == "group":
        return started + b"\xA0" + n + bytes.fromhex("A1858200008024")
    return started + b"\xEC" + n + b"abc"


def write(name, octets, hole=0):
    with open(os.path.join(sys.argv[1], name), "wb") as film:
        film.write(octets)
        film.truncate(len(octets) + hole)


bits = {"2^16": 2**16, "2^24": 2**24, "2^24+1": 2**24 + 1, "2^26": 2**26, "2^26+1": 2**26 + 1, "2^30": 2**30}
bits.update({"2^43": 2**43, "2^44": 2**44, "2^47": 2**47, "2^50": 2**50, "2^55": 2**55, "2^56-2": 2**56 - 2})
for element in ["header", "segment", "info", "tracks", "entry", "cluster", "block", "group", "void"]:
    for name, size in bits.items():
        write(f"{element}.{name}", declared(element, size))
# Bodies that stand whole, in a hole.
write("whole-header.2^24", header[:4] + sized(2**24), 2**24)
write("whole-info.2^24+1", opening + info[:4] + sized(2**24 + 1), 2**24 + 1)
write("whole-tracks.2^24+1", opening + info + tracks + sized(2**24 + 1), 2**24 + 1)
write("whole-block.2^26+1", started + b"\xA3" + sized(2**26 + 1) + bytes.fromhex("82000080"), 2**26 - 3)
write("whole-group.2^26+1", started + b"\xA0" + sized(2**26 + 1), 2**26 + 1)
write("whole-void.2^40", started + b"\xEC" + sized(2**40), 2**40)
PYTHON
passed=0
failed=0
# Compares status, the number of packets and the last line of a run.
expect() {
    local film=$1 status=$2 packets=$3 last=$4 out said gives
    out=$(limited "$limit" "$films/$film")
    said=$?
    gives=$(grep -c '^give ' <<<"$out")
    if [ "$said" = "$status" ] && [ "$gives" = "$packets" ] && [ "${out##*$'\n'}" = "$last" ]; then
        passed=$((passed + 1))
    else
        echo "sizes: $film ended with $said, $gives packets, '${out##*$'\n'}'"
        failed=$((failed + 1))
    fi
}
for size in 2^16 2^24 2^24+1 2^26 2^26+1 2^30 2^43 2^44 2^47 2^50 2^55 2^56-2; do
    expect "header.$size" 5 0 "mcplay: file refused: NotEbml"
    expect "segment.$size" 0 18 "end 2 cut 234"
    expect "info.$size" 5 0 "mcplay: file refused: NoInfo"
    expect "tracks.$size" 5 0 "mcplay: file refused: NoTracks"
    expect "entry.$size" 5 0 "mcplay: file refused: Broken 38"
    expect "cluster.$size" 0 18 "end 2 cut 234"
    expect "block.$size" 0 8 "end 2 cut 149"
    expect "group.$size" 0 8 "end 2 cut 149"
    expect "void.$size" 0 8 "end 2 cut 149"
done
expect whole-header.2^24 5 0 "mcplay: file refused: NotEbml"
expect whole-info.2^24+1 5 0 "mcplay: file refused: Broken 21"
expect whole-tracks.2^24+1 5 0 "mcplay: file refused: Broken 33"
expect whole-block.2^26+1 0 8 "end 2 damaged 149 TooLarge"
expect whole-group.2^26+1 0 8 "end 2 damaged 149 TooLarge"
expect whole-void.2^40 0 8 "end 2 clean"
echo "sizes: $passed runs as the rules say, $failed not, with $limit kilobytes of which $rest are needed at rest"
[ "$failed" = 0 ]
