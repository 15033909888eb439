#!/usr/bin/env bash
# The compiled library for C, store by store: every instruction that stores into the image, on lists of calls of every kind, held to the
# stores that the independent model lists. Five ways: operations run to their end by the call; stopped before each store that decides; asked for
# and run; run three stores at a time; and stepped (where the order of all stores is compared, not only that around stores that decide).
# KEEP_ARCHIVE=1 takes the archive that stands in target/staticlib, where it was proved before.
set -euo pipefail
cd "$(dirname "${BASH_SOURCE[0]}")/.."

work=$(mktemp -d)
trap 'rm -rf "$work"' EXIT

if [ "${KEEP_ARCHIVE:-0}" != 1 ] && ! tools/archive badgerdross > "$work/log" 2>&1; then
    tail -n 20 "$work/log"
    echo "stores: no archive"
    exit 1
fi
cc -std=c11 -O2 -Wall -Wextra -Wpedantic -Werror -Iinclude tests/stores.c target/staticlib/libbadgerdross.a -o "$work/stores"
model() { cargo run --manifest-path model/Cargo.toml --release --offline --quiet --bin model-stores -- "$1"; }

lists=0
differ=0
for calls in tests/stores/*.txt; do
    name=$(basename "$calls" .txt)
    model grouped < "$calls" > "$work/grouped"
    model ordered < "$calls" > "$work/ordered"
    for mode in end fence run threes step; do
        lists=$((lists + 1))
        expected=grouped
        if [ "$mode" = step ]; then expected=ordered; fi
        if ! "$work/stores" "$mode" < "$calls" > "$work/printed" || ! cmp -s "$work/printed" "$work/$expected"; then
            differ=$((differ + 1))
            diff "$work/$expected" "$work/printed" | head -n 8 | sed "s/^/$name, $mode: /" || true
        fi
    done
done
# a format in one call, of each list's sizes
if ! cat tests/stores/*.txt | "$work/stores" once > "$work/formats"; then differ=$((differ + 1)); fi
echo "stores: $lists lists, $(wc -l < "$work/formats") formats, $differ differ"
[ "$lists" -gt 5 ] && [ "$differ" -eq 0 ]
