#!/usr/bin/env bash
# A game round, its power cut after each store: what the recall screen shows afterwards. The round is document 01's: writer 0 begins, writes
# byte 165 to page 0 and commits, which takes 5 stores. `K,k` lets the commit make k of them, then the power is gone and the image is mounted again.
set -euo pipefail
cd "$(dirname "${BASH_SOURCE[0]}")/.."

program=crates/powerhit/out/powerhit
if [ ! -x $program ]; then
    tools/proved powerhit tools/program powerhit
fi

stores=("nothing: the power goes as the commit is asked for"
    "the record's first word: which transaction, which slot"
    "the record's second word: the page"
    "the record's third word: its two frames"
    "the record's fourth word: the bitmap of committed lines"
    "the journal's head: the round takes effect")

echo "A round writes 165 over 0. Its commit makes 5 stores of 8 bytes; the power is cut after each in turn."
echo
printf '%6s  %-56s %s\n' stores "the last one made" "recall screen"
for k in 0 1 2 3 4 5; do
    byte=$(printf '%s\n' F,2,1,2 B,0 W,0,0,0,0,1,165 K,$k C,0 R,0,0,0,0 | $program | tail -n 1 | cut -d, -f5)
    printf '%6s  %-56s %s\n' $k "${stores[$k]}" "$byte"
done
echo
echo "Before the last store the round is absent; with it the round is whole."
echo "docs/ANSWER.md says why no store can show anything else."
