#!/usr/bin/env bash
# What the launcher ./mcplay does where no program is built: it tells what it proves and how far it is,
# leaves nothing half built, and with --quick carries out a run without a proof, which it says. Tried on
# copies of the repository without its builds, with a stand-in for the toolchain that notes what it is
# asked for; and once, where `rt` is at hand, with the toolchain itself, which takes a minute or two.
cd "$(dirname "$0")/.." || exit 1
room=$(mktemp -d) || exit 1
trap 'rm -rf "$room"' EXIT
passed=0
failed=0
# Counts a check that is named by its first word and made by the others.
check() {
    local name=$1
    shift
    if "$@"; then
        passed=$((passed + 1))
    else
        echo "launcher: $name: status $status"
        head -n 5 "$room/out" "$room/error"
        failed=$((failed + 1))
    fi
}
says() { grep -q -- "$1" "$room/error"; }
prints() { [ "$(cat "$room/out")" = "$1" ]; }
ended() { [ "$status" = "$1" ]; }
is_gone() { [ ! -e "$1" ]; }

mkdir "$room/bin"
cat >"$room/bin/rt" <<'END'
#!/bin/sh
echo "${PWD##*/} $*" >>"$NOTES"
echo $$ >"$NOTES.last"
case "$1 ${PWD##*/}" in
"lib $REFUSED")
    echo "fn sum: not proved"
    exit 1
    ;;
run*)
    mkdir -p out
    printf '#!/bin/sh\necho proved "$@"\n' >out/mcplay
    chmod +x out/mcplay
    [ -z "$HANGS" ] || exec sleep 60
    ;;
try*)
    [ -z "$HANGS" ] || exec sleep 60
    echo "mcplay: cannot read" >&2
    if [ -n "$LONG" ]; then
        echo "checked: no-answer: the program wrote more than 1048576 bytes" >&2
        echo "run=no-answer proved=no" >&2
        exit 6
    fi
    echo "tried $*"
    echo "checked: ended status=3" >&2
    echo "run=ended status=3 runners=1 races=unchecked proved=no" >&2
    exit 3
    ;;
esac
END
chmod +x "$room/bin/rt"
export NOTES=$room/notes REFUSED="" HANGS="" LONG=""
# Makes a copy in which nothing is built, with the crates' folders alone.
fresh() {
    rm -rf "$room/copy" "$NOTES"
    mkdir -p "$room/copy/crates"
    cp -r mcplay tools crates.txt "$room/copy"
    sed -n 's/^\([a-z_]*\)[^:#]*:.*/\1/p' crates.txt | (cd "$room/copy/crates" && xargs mkdir)
    cp -r crates/mcplay/src "$room/copy/crates/mcplay"
}
# Calls the launcher of the copy from within it.
launch() {
    (cd "$room/copy" && PATH=$room/bin:$PATH ./mcplay "$@") >"$room/out" 2>"$room/error"
    status=$?
}
built=$room/copy/crates/mcplay/out/mcplay
few="$(sed -n 's/^mcplay: *//p' crates.txt | tr ' ' '\n' | grep -c '^mc_')"

fresh
launch run film.mkv
check "the proved way ends with the program's status" ended 0
check "its words go to the program" prints "proved run film.mkv"
check "what happens is said first" [ "$(head -n 1 "$room/error" | grep -c 'no proved program yet')" = 1 ]
check "each crate is told" [ "$(grep -c "^mcplay: crate [0-9]* of $((few + 1)), " "$room/error")" = $((few + 1)) ]
check "each is proved once, and the program is built last" \
    [ "$(grep -c ' lib$' "$NOTES") $(tail -n 1 "$NOTES")" = "$few mcplay run -- --version" ]
: >"$NOTES"
launch --quick run film.mkv
check "a program that is there is used at once" prints "proved run film.mkv"
check "in silence" [ ! -s "$room/error" ]
check "without the toolchain" [ ! -s "$NOTES" ]

fresh
launch --quick run --back=1 film.mkv /script
check "the quick way ends with the run's status" ended 3
check "it tries the words, with the files' whole names" \
    prints "tried try --seconds 600 -- run --back=1 $(cd "$room/copy" && pwd)/film.mkv /script"
check "it says that nothing is proved" says "^mcplay: NOT PROVED"
check "it says what the program says" says "^mcplay: cannot read$"
check "and nothing of the trial" [ "$(wc -l <"$room/error")" = 2 ]
check "it leaves no program" is_gone "$built"
LONG=yes launch --quick run film.mkv
check "a text that is too long for it is an error" ended 70
check "which is told" says "^mcplay: no answer by the quick way: the program wrote more than 1048576"
check "without half a text" [ ! -s "$room/out" ]

fresh
launch --help
check "help needs no build" ended 0
check "and is that of the program" prints "$(crates/mcplay/out/mcplay --help)"
check "no toolchain is asked for it" is_gone "$NOTES"
REFUSED=mc_script launch run film.mkv
check "what is not proved is not built" ended 70
check "it is told which" says "^mcplay: mc_script could not be built$"
check "with the toolchain's words" says "^fn sum: not proved$"
check "and nothing is left of it" is_gone "$built"

fresh
mkdir "$room/none"
ln -s "$(python3 -c 'import sys; print(sys.executable)')" "$room/none/python3"
for way in "" --quick; do
    # shellcheck disable=SC2086
    (cd "$room/copy" && PATH=$room/none ./mcplay $way run film.mkv) >"$room/out" 2>"$room/error"
    status=$?
    check "without the toolchain $way nothing can be done" ended 70
    check "and what is missing is told" says "^mcplay: there is no rt: install the Rattle toolchain"
done

for way in "" --quick; do
    fresh
    # shellcheck disable=SC2086
    (cd "$room/copy" && HANGS=yes PATH=$room/bin:$PATH timeout --preserve-status -s INT 3 ./mcplay $way run film.mkv) \
        >"$room/out" 2>"$room/error"
    status=$?
    check "a stopped launcher $way says so by its status" ended 130
    check "and in words" says "^mcplay: stopped"
    check "it leaves no program" is_gone "$built"
    check "and nothing running" is_gone "/proc/$(cat "$NOTES.last")"
done

if command -v rt >/dev/null; then
    rm -rf "$room/copy"
    mkdir "$room/copy"
    tar -cf - --exclude=out mcplay tools crates crates.txt HANDLES | tar -xf - -C "$room/copy"
    film=crates/mcplay/data/short.mkv
    (cd "$room/copy" && ./mcplay --quick run "$film") >"$room/out" 2>"$room/error"
    status=$?
    check "a quick run ends as the proved one" ended 0
    check "and prints the same" prints "$(crates/mcplay/out/mcplay run "$film")"
    check "having said that it is not proved" [ "$(grep -c '^mcplay: NOT PROVED' "$room/error") $(wc -l <"$room/error")" = "1 1" ]
    check "and leaves no program" is_gone "$built"
fi
echo "launcher: $passed passed, $failed failed"
[ "$failed" -eq 0 ]
