#!/usr/bin/env bash
# The cabinet of examples/cabinet in a terminal: keys are sent, the screen is read back and held to a second telling of the game. Then the demo: no cut of
# a plain spin or of one with the bonus shows a torn round. A cabinet that pays a win short must be caught.
# KEEP_ARCHIVE=1 takes the archive that stands in target/staticlib, where it was proved before.
set -euo pipefail
cd "$(dirname "${BASH_SOURCE[0]}")/.."
. tests/cabinet/build.sh

copy whole
build "$work/whole"
python3 tests/cabinet/terminal.py "$work/whole/built/cabinet" "$work/memory"

copy unpaid
replace "$work/unpaid/game.c" 1/1 'event(BADGERDROSS_WON, 0, win)' 'event(BADGERDROSS_WON, 0, win - 1)'
build "$work/unpaid"
rm "$work/memory"
if python3 tests/cabinet/terminal.py "$work/unpaid/built/cabinet" "$work/memory" > "$work/printed"; then
    echo "terminal: a win that is paid short was not caught"
    exit 1
fi

make -s -C examples/cabinet LIBRARY="$archive" OUT="$work/demo" "$work/demo/demo"
for kind in plain bonus; do
    "$work/demo/demo" "$kind" > "$work/printed" || { cat "$work/printed"; exit 1; }
    echo "demo, $kind: $(tail -n 1 "$work/printed")"
done
