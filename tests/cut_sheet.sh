#!/usr/bin/env bash
# The cut sheet (examples/cut_sheet, over the library for C) held to the model's: on powerhit's vectors, which also say how many stores each line
# makes, and on random scripts. Of a script with bad lines these are named and nothing is written. The page holds the same sheet and wants nothing
# from outside. The example in docs/sheet is what the program writes. Programs that are wrong in one rule must differ.
# KEEP_ARCHIVE=1 takes the archive that stands in target/staticlib, where it was proved before.
set -euo pipefail
cd "$(dirname "${BASH_SOURCE[0]}")/.."

work=$(mktemp -d)
trap 'rm -rf "$work"' EXIT

if [ "${KEEP_ARCHIVE:-0}" != 1 ] && ! tools/archive badgerdross > "$work/log" 2>&1; then
    tail -n 20 "$work/log"
    echo "cut_sheet: no archive"
    exit 1
fi
cargo build --manifest-path model/Cargo.toml --release --offline --quiet --bin model-sheet
model=model/target/release/model-sheet
make -s -C examples/cut_sheet BUILD="$work/plain"
make -s -C examples/cut_sheet BUILD="$work/checked" CFLAGS="-O1 -g -fsanitize=address,undefined -fno-sanitize-recover=all"

# The part of a page that holds the sheet or the script.
held() { sed -n "/^<script type=\"text\/plain\" id=\"$1\">\$/,/^<\/script>\$/p" "$2" | sed '1d;$d'; }

# same PROGRAM SCRIPT: whether the program does with a script what the model does with it.
same() {
    local status=0 expected=0
    rm -f "$work"/sheet.*
    "$model" < "$2" > "$work/model.csv" 2> "$work/model.bad" || expected=$?
    "$1" "$work/sheet" "$2" 2> "$work/bad" || status=$?
    [ "$status" -eq "$expected" ] && cmp -s "$work/bad" "$work/model.bad" || return 1
    if [ "$expected" -ne 0 ]; then
        [ ! -e "$work/sheet.csv" ] && [ ! -e "$work/sheet.html" ]
        return
    fi
    # demand 3: but for a format no store changes the screen that does not decide
    [ -z "$(awk -F, 'NR > 1 && $2 != "F" && $9 != "yes" && $12 != "as before"' "$work/sheet.csv")" ] &&
        cmp -s "$work/sheet.csv" "$work/model.csv" && held sheet "$work/sheet.html" | cmp -s - "$work/sheet.csv" &&
        held script "$work/sheet.html" | cmp -s - <(sed '$a\' "$2")
}

# What powerhit prints of the script, but for the byte read: from the sheet, or from the lines that were named.
listed() { awk -F, 'NR > 1 { print $1 "," $2 "," $3 "," $4 }' "$1"; }
told() {
    if [ -s "$work/bad" ]; then
        sed 's/^line \([0-9]*\):.*/\1,?,?,0/' "$work/bad" | cmp -s - <(listed "$1" | grep -F '?' || true)
    else
        awk -F, 'NR > 1 { if ($1 != last && NR > 2) print row; last = $1; row = $1 "," $2 "," $3 "," $4 } END { if (NR > 1) print row }' "$work/sheet.csv" |
            cmp -s - <(listed "$1")
    fi
}

differ=0
vectors=0
for input in tests/vectors/powerhit/*.in; do
    vectors=$((vectors + 1))
    program=plain
    if [ $((vectors % 8)) -eq 0 ]; then program=checked; fi
    if ! same "$work/$program/cut_sheet" "$input" || ! told "${input%.in}.out"; then
        differ=$((differ + 1))
        echo "cut_sheet: $input differs"
    fi
done

scripts=${SCRIPTS:-80}
written=0
for index in $(seq "$scripts"); do
    "$model" script "${SEED:-1}" "$index" 60 > "$work/script"
    if ! same "$work/plain/cut_sheet" "$work/script"; then
        differ=$((differ + 1))
        echo "cut_sheet: script $index differs"
    fi
    if [ -e "$work/sheet.csv" ]; then written=$((written + 1)); fi
done
echo "cut_sheet: $vectors vectors, $scripts random scripts ($written without a bad line), $differ differ"

# the example, from standard input, and what is quoted of it; a page that wants something from outside
"$work/plain/cut_sheet" "$work/listing" < docs/sheet/listing.txt
cmp "$work/listing.csv" docs/sheet/listing.csv
cmp "$work/listing.html" docs/sheet/listing.html
if grep -E '^[0-9]+,[A-Z],' docs/SHEET.md | grep -vxFf docs/sheet/listing.csv; then
    echo "cut_sheet: docs/SHEET.md quotes another sheet"
    exit 1
fi
if grep -nE '://|src=|href=|url\(|@import|fetch|XMLHttp|WebSocket' examples/cut_sheet/page.html; then
    echo "cut_sheet: the page wants something from outside"
    exit 1
fi

# wrong in one rule each, tried on vectors with writes to other pages, cuts, a consolidation, checkpoints and bad lines
wrong=0
missed=0
while read -r edit; do
    wrong=$((wrong + 1))
    mkdir -p "$work/wrong"
    sed "$edit" examples/cut_sheet/cut_sheet.c > "$work/wrong/cut_sheet.c"
    sed "$edit" examples/cut_sheet/page.html > "$work/wrong/page.html"
    if cmp -s "$work/wrong/cut_sheet.c" examples/cut_sheet/cut_sheet.c && cmp -s "$work/wrong/page.html" examples/cut_sheet/page.html; then
        echo "cut_sheet: nothing to edit: $edit"
        exit 1
    fi
    make -s -C "$work/wrong" -f "$PWD/examples/cut_sheet/Makefile" BUILD="$work/wrong" CFLAGS=-O0 \
        BADGERDROSS="-I$PWD/include $PWD/target/staticlib/libbadgerdross.a"
    found=0
    for name in 000 016 131 106; do
        if ! same "$work/wrong/cut_sheet" "tests/vectors/powerhit/$name.in"; then found=1; fi
    done
    if [ "$found" -eq 0 ]; then
        missed=$((missed + 1))
        echo "cut_sheet: not seen: $edit"
    fi
    rm -r "$work/wrong"
done <<'EDITS'
s/next.decides ? "yes" : "no"/next.before == 1 ? "yes" : "no"/
s/(at - journal) \/ 4/(at - journal) \/ 3/
s/journal = slots + 3 \* z.slots/journal = slots + 4 * z.slots/
s/letter == 'W' ? number\[1\] : number\[0\]/number[0]/
s/badgerdross_recall(p, l, image/badgerdross_recall(p, l ^ 1, image/
s/^    badgerdross_step.*//; s/^    put_screen(out);$/    put_screen(out), badgerdross_step(\&store, image, ROOM);/
s/screen += other;/screen++;/
s/cut < needed ? cut : needed/cut < needed ? cut + 1 : needed/
s/if (bad == 0)/if (bad < 99)/
s/^@SHEET@$/@SCRIPT@/
EDITS
echo "cut_sheet: $wrong wrong programs, $missed not seen"
[ "$vectors" -gt 80 ] && [ "$written" -gt 20 ] && [ "$differ" -eq 0 ] && [ "$missed" -eq 0 ]
