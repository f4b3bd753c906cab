#!/usr/bin/env bash
# docs/PROMISE.md has to be what the sources say: a definition that changed, came or went is on it.
# Skipped, saying so, where there is no python3.
cd "$(dirname "$0")/.." || exit 1
if ! command -v python3 >/dev/null; then
    echo "promise: skipped, no python3"
    exit 0
fi
python3 tools/promise.py --check
