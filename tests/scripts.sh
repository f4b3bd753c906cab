#!/usr/bin/env bash
# Plays each script of tests/scripts with the proved program, and compares all that it prints with
# the text beside the script: NAME.script says in its lines '# film: FILE' and '# options: WORDS' what
# it is played over and how, NAME.text is the whole text that is owed. The films lie in a folder
# beside the repository (FILMS, where that is set); skipped, saying so, where the folder is missing.
cd "$(dirname "$0")/.." || exit 1
films=${FILMS:-../shared/films}
program=crates/mcplay/out/mcplay
if [ ! -d "$films" ]; then
    echo "scripts: skipped, no folder $films"
    exit 0
fi
if [ ! -x "$program" ]; then
    echo "scripts: no program $program; run 'rt ci' first"
    exit 1
fi
out=$(mktemp -d) || exit 1
trap 'rm -rf "$out"' EXIT
passed=0
failed=0
for script in tests/scripts/*.script; do
    name=$(basename "$script" .script)
    film=$(sed -n 's/^# film: //p' "$script")
    read -ra options < <(sed -n 's/^# options: //p' "$script")
    "$program" run "${options[@]}" "$films/$film" "$script" >"$out/text" 2>"$out/error"
    said=$?
    if [ "$said" = 0 ] && [ ! -s "$out/error" ] && cmp -s "$out/text" "tests/scripts/$name.text"; then
        passed=$((passed + 1))
    else
        echo "scripts: $name ended with $said, '$(head -n 1 "$out/error")'"
        diff "tests/scripts/$name.text" "$out/text" | head -n 10
        failed=$((failed + 1))
    fi
done
echo "scripts: $passed passed, $failed failed"
[ "$failed" -eq 0 ]
