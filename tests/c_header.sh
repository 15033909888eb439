#!/usr/bin/env bash
# include/badgerdross.h beside what it declares: its prototypes and the Rattle functions (tools/header.py), its names and the archive's, and
# whether C11 and C++17 take it without a warning. KEEP_ARCHIVE=1 takes the archive that stands in target/staticlib, where it was proved before.
set -euo pipefail
cd "$(dirname "${BASH_SOURCE[0]}")/.."

work=$(mktemp -d)
trap 'rm -rf "$work"' EXIT

if [ "${KEEP_ARCHIVE:-0}" != 1 ] && ! tools/archive badgerdross > "$work/log" 2>&1; then
    tail -n 20 "$work/log"
    echo "c_header: no archive"
    exit 1
fi
archive=target/staticlib/libbadgerdross.a
python3 tools/header.py
python3 tools/header.py --names > "$work/names"
# what the archive gives, and what it wants of others: the C library's functions on memory alone
nm --defined-only --extern-only "$archive" | awk 'NF == 3 { print $3 }' | sort > "$work/given"
diff "$work/names" "$work/given"
nm --undefined-only "$archive" | awk 'NF == 2 { print $2 }' | sort -u > "$work/wanted"
if grep -vxE '_GLOBAL_OFFSET_TABLE_|memcpy|memmove|memset|memcmp|bcmp' "$work/wanted"; then
    echo "c_header: the archive wants what a game may not have"
    exit 1
fi
# no global data: every symbol is code or constant
if nm "$archive" | awk 'NF == 3 && $2 !~ /^[TtRr]$/' | grep .; then
    echo "c_header: the archive has data of its own"
    exit 1
fi

{
    echo '#include "badgerdross.h"'
    echo '#include "badgerdross.h"'
    echo 'typedef void function(void);'
    echo 'function *every_name[] = {'
    sed 's/.*/    (function *)&,/' "$work/names"
    echo '};'
    echo 'static void persist(void *context, const uint8_t *from, size_t bytes) { (void)context, (void)from, (void)bytes; }'
    echo 'int main(void)'
    echo '{'
    echo '    static struct badgerdross store;'
    echo '    static uint8_t image[8];'
    echo '    return badgerdross_version() != BADGERDROSS_VERSION || badgerdross_finish(&store, image, 8, persist, NULL) != BADGERDROSS_BAD_STATE;'
    echo '}'
} > "$work/every_name.c"
cp "$work/every_name.c" "$work/every_name.cpp"
warnings="-Wall -Wextra -Wpedantic -Werror -Iinclude"
built=0
for compiler in gcc clang; do
    command -v "$compiler" > "$work/log" || continue
    "$compiler" -std=c11 $warnings "$work/every_name.c" "$archive" -o "$work/in_c"
    "${compiler/gcc/g}++" -std=c++17 $warnings "$work/every_name.cpp" "$archive" -o "$work/in_cpp"
    "$work/in_c"
    "$work/in_cpp"
    built=$((built + 2))
done
echo "c_header: $(wc -l < "$work/names") names, built and run $built times, no warning"
[ "$built" -gt 1 ]
