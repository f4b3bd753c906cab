#!/usr/bin/env bash
# Asks the built ipc_rows what 20,000 random lines ask for, JSON and not, and compares with what
# python's json module makes of them by the table of words. The module takes a few texts that are no
# JSON here, and is kept from them: NaN and the infinities, numbers that no double holds, half of a
# surrogate pair, and nesting deeper than 127.
# Usage: tests/ipc_lines.sh [SEED [LINES]]. It is no part of .ci/run; build first: rt ci, or rt run in
# crates/ipc_rows.
cd "$(dirname "$0")/.." || exit 1
program=$PWD/crates/ipc_rows/out/ipc_rows
[ -x "$program" ] || { echo "ipc lines: no program $program; run 'rt ci' first"; exit 1; }
command -v python3 >/dev/null || { echo "ipc lines: skipped, no python3"; exit 0; }
python3 tests/ipc_lines.py "$program" "${1:-1}" "${2:-20000}"
