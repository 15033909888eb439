#!/usr/bin/env bash
# The calls for C at work, the programs of tests/c built plainly and with the compiler's checks of addresses and of undefined behaviour:
# powerhit's vectors through them, with run and with badgerdross_finish; badgerdross_finish on memory behind a cache; a million calls on
# scribbled states and bytes; the sentences. KEEP_ARCHIVE=1 takes the archive that stands in target/staticlib, where it was proved before.
set -euo pipefail
cd "$(dirname "${BASH_SOURCE[0]}")/.."

work=$(mktemp -d)
trap 'rm -rf "$work"' EXIT

if [ "${KEEP_ARCHIVE:-0}" != 1 ] && ! tools/archive badgerdross > "$work/log" 2>&1; then
    tail -n 20 "$work/log"
    echo "c_calls: no archive"
    exit 1
fi
for program in powerhit finish scribble service page_map; do
    options="-std=c11 -Wall -Wextra -Wpedantic -Werror -Iinclude tests/c/$program.c target/staticlib/libbadgerdross.a"
    cc -O2 $options -o "$work/$program"
    cc -O1 -g -fsanitize=address,undefined -fno-sanitize-recover=all $options -o "$work/$program.checked"
done

listings=0
differ=0
for input in tests/vectors/powerhit/*.in; do
    for way in "powerhit run" "powerhit finish" "powerhit.checked finish"; do
        listings=$((listings + 1))
        if ! "$work"/$way < "$input" > "$work/printed" || ! cmp -s "$work/printed" "${input%.in}.out"; then
            differ=$((differ + 1))
            echo "c_calls: $input, $way differs"
        fi
    done
done
echo "powerhit: $listings listings, $differ differ"

"$work/finish" 1
"$work/finish.checked" 2
"$work/scribble" 1 1000000
"$work/scribble.checked" 2 200000
"$work/page_map.checked"
"$work/service.checked" > "$work/printed"
cat "$work/printed"
cat > "$work/expected" <<'TEXT'
0 Write refused (14): another writer holds the line. Writer 0, page 3, line 5, held by writer 2.
0 Consolidate refused (18): a writer holds a line of the page. Page 3, held by writer 2.
TEXT
head -n 2 "$work/printed" | cmp - "$work/expected"
[ "$listings" -gt 100 ] && [ "$differ" -eq 0 ]
