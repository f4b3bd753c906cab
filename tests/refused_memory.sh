#!/usr/bin/env bash
# Runs the built program with one request for memory refused, once for each request that a run makes:
# the Nth call of malloc or realloc gives nothing. Each run has to end as the undisturbed one does, or
# with status 1 and 'mcplay: out of memory'. What it printed is then a front of the undisturbed text, in
# whole lines; or a line 'starved' stands in it, and it is such a front up to there, since a want of
# memory to read on is told to the readers, and the script goes on.
# Then, where 'rt ci' or 'rt run' built them, the programs of rows: behind the line '# patient' a row that
# found no memory is called once more, and has to answer then what it always answers, so the first call left
# all as it was. Each run has to print all that an undisturbed one does, or to end with status 1 and a front of it in whole
# lines, where memory was wanting for a line or its answer.
# Usage: tests/refused_memory.sh [N...]; without N it takes all requests of each run. It needs a C
# compiler, and is no part of .ci/run. 'rt try --fail-alloc N' refuses the same requests in a build with
# checks; there N is a part of the program, so that each takes a build.
cd "$(dirname "$0")/.." || exit 1
program=$PWD/crates/mcplay/out/mcplay
if [ ! -x "$program" ]; then
    echo "refused memory: no program $program; run 'rt ci' first"
    exit 1
fi
command -v cc >/dev/null || { echo "refused memory: no C compiler"; exit 1; }
folder=$(mktemp -d) || exit 1
trap 'rm -rf "$folder"' EXIT

cat >"$folder/refuse.c" <<'C'
#include <fcntl.h>
#include <stdio.h>
#include <stdlib.h>
#include <unistd.h>

void *__libc_malloc(size_t n);
void *__libc_realloc(void *old, size_t n);

static long calls, refused;

__attribute__((constructor)) static void begin(void)
{
    const char *number = getenv("REFUSED");
    refused = number ? atol(number) : 0;
    calls = 0;
}

__attribute__((destructor)) static void end(void)
{
    const char *name = getenv("COUNTED");
    char text[32];
    int to = name ? open(name, O_WRONLY | O_CREAT | O_TRUNC, 0600) : -1;
    if (to >= 0 && write(to, text, snprintf(text, sizeof text, "%ld\n", calls)) > 0)
        close(to);
}

void *malloc(size_t n)
{
    return ++calls == refused ? NULL : __libc_malloc(n);
}

void *realloc(void *old, size_t n)
{
    return ++calls == refused ? NULL : __libc_realloc(old, n);
}
C
cc -O1 -shared -fPIC -fno-builtin -o "$folder/refuse.so" "$folder/refuse.c" || exit 1

# Writes the octets of a film that the rows of runs name.
film() {
    printf '%b' "$(sed -n "s/^\[\"film\",\"$1\",\"\([0-9A-F]*\)\"\]$/\1/p" crates/run_rows/stdin | sed 's/../\\x&/g')" >"$folder/$1"
}

# Runs the program with the Nth request refused, none where N is 0.
play() {
    local n=$1
    shift
    (cd "$folder" && REFUSED=$n COUNTED=counted LD_PRELOAD=$folder/refuse.so "$program" run "$@" >text 2>error)
}

# Whether a text is a front of the whole text, in whole lines.
is_front() {
    cmp -s -n "$(stat -c %s "$1")" "$1" "$folder/whole" && [ -z "$(tail -c 1 "$1")" ]
}

passed=0
failed=0
# Compares the run for one N with the undisturbed one, and says what came.
judge() {
    local n=$1 said
    shift
    play "$n" "$@"
    said=$?
    came=wrong
    if [ "$said" = 0 ] && [ ! -s "$folder/error" ] && cmp -s "$folder/text" "$folder/whole"; then
        came=whole
    elif [ "$said" = 1 ] && [ "$(cat "$folder/error")" = "mcplay: out of memory" ]; then
        sed '/^starved$/,$d' "$folder/text" >"$folder/front"
        if is_front "$folder/front"; then
            came=front
            cmp -s "$folder/front" "$folder/text" || came=starved
        fi
    fi
    if [ "$came" = wrong ]; then
        echo "refused memory: 'mcplay run $*' with request $n refused ended with $said, '$(head -n 1 "$folder/error")'"
        failed=$((failed + 1))
    else
        passed=$((passed + 1))
    fi
}

numbers=("$@")
# Takes one run after the other of a script over a film.
sweep() {
    local n all these=("${numbers[@]}")
    declare -A counts=([whole]=0 [front]=0 [starved]=0 [wrong]=0)
    if ! play 0 "$@" || [ -s "$folder/error" ] || ! mv "$folder/text" "$folder/whole" || ! all=$(cat "$folder/counted"); then
        echo "refused memory: 'mcplay run $*' fails undisturbed"
        failed=$((failed + 1))
        return
    fi
    [ ${#these[@]} -gt 0 ] || mapfile -t these < <(seq "$all")
    for n in "${these[@]}"; do
        judge "$n" "$@"
        counts[$came]=$((counts[$came] + 1))
    done
    echo "'mcplay run $*': of $all requests for memory ${#these[@]} refused: ${counts[front]} ended early," \
        "${counts[starved]} told a reader, ${counts[whole]} made no difference, ${counts[wrong]} went wrong"
}

# Runs a program of rows with the Nth request refused, none where N is 0.
answer() {
    REFUSED=$1 COUNTED=$folder/counted LD_PRELOAD=$folder/refuse.so "$2" <"$folder/rows" >"$folder/text" 2>/dev/null
}

# Takes one run after the other of a program of rows; the rows of texts of 16 MiB are left out, and those before
# a line '# patient', where the table has one.
table() {
    local n all said rows=$PWD/crates/$1 these=("${numbers[@]}")
    declare -A counts=([whole]=0 [front]=0 [wrong]=0)
    [ -x "$rows/out/$1" ] || { echo "refused memory: no $rows/out/$1, so no rows of it"; return; }
    if grep -qx '# patient' "$rows/stdin"; then
        sed -n '/^# patient$/,$p' "$rows/stdin" >"$folder/rows"
    else
        { echo '# patient'; grep -v '^\["long"' "$rows/stdin"; } >"$folder/rows"
    fi
    if ! "$rows/out/$1" <"$rows/stdin" | cmp -s - "$rows/stdout" || ! answer 0 "$rows/out/$1"; then
        echo "refused memory: the rows of $1 fail undisturbed"
        failed=$((failed + 1))
        return
    fi
    mv "$folder/text" "$folder/whole"
    all=$(cat "$folder/counted")
    [ ${#these[@]} -gt 0 ] || mapfile -t these < <(seq "$all")
    for n in "${these[@]}"; do
        answer "$n" "$rows/out/$1"
        said=$?
        if [ $said = 0 ] && cmp -s "$folder/text" "$folder/whole"; then
            came=whole
        elif [ $said = 1 ] && is_front "$folder/text"; then
            came=front
        else
            came=wrong
            echo "refused memory: the rows of $1 with request $n refused end with $said"
            diff "$folder/text" "$folder/whole" | head -n 3
        fi
        counts[$came]=$((counts[$came] + 1))
    done
    passed=$((passed + counts[whole] + counts[front]))
    failed=$((failed + counts[wrong]))
    echo "rows of $1: of $all requests for memory ${#these[@]} refused: ${counts[whole]} made no difference," \
        "${counts[front]} ended early, ${counts[wrong]} went wrong"
}

film PLAIN
film SWITCHED
printf 'demux 2\nread video\nread audio\nseek 0\n' >"$folder/forget"
printf 'demux 7\nread video 2\nread audio 2\nswitch 1 3 at 0.15\ndrain\n' >"$folder/switch"
printf 'demux 7\nseek 0.24\ndemux 6\nseek 0\ndemux 8\nshow\n' >"$folder/join"
sweep --back=0 PLAIN forget
sweep SWITCHED switch
sweep PLAIN join
for name in script_rows queue_rows range_rows cache_rows demux_rows dump_rows ipc_rows core_rows; do
    table "$name"
done
echo "refused memory: $passed passed, $failed failed"
[ "$failed" -eq 0 ]
