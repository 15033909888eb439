#!/usr/bin/env bash
# A round in one call beside the same calls one by one, both by the compiled library for C: numbers, words and bytes are equal.
# KEEP_ARCHIVE=1 takes the archive that stands in target/staticlib, where it was proved before.
set -euo pipefail
cd "$(dirname "${BASH_SOURCE[0]}")/.."

work=$(mktemp -d)
trap 'rm -rf "$work"' EXIT

if [ "${KEEP_ARCHIVE:-0}" != 1 ] && ! tools/archive badgerdross > "$work/log" 2>&1; then
    tail -n 20 "$work/log"
    echo "round: no archive"
    exit 1
fi
cc -std=c11 -O2 -Wall -Wextra -Wpedantic -Werror -Iinclude tests/round.c target/staticlib/libbadgerdross.a -o "$work/round"
"$work/round"
