#!/usr/bin/env bash
# The compiled cabinet of examples/cabinet on memory behind a cache: a trace of its stores into the mapped file and of its fences (msync), images that a
# power cut may leave of it, each mounted by the library and held to a second telling of the game (tests/cabinet/torn.py). IMAGES (400) of ROUNDS (24)
# with the draws of SEED (1). With the fence before or the fence after each deciding store left out, or the ranges untold, a torn round must be found.
# KEEP_ARCHIVE=1 takes the archive that stands in target/staticlib, where it was proved before.
set -euo pipefail
cd "$(dirname "${BASH_SOURCE[0]}")/.."
. tests/cabinet/build.sh
game_seed=1 # with it rounds 10 and 11 have the bonus

cc -std=gnu11 -O2 -Wall -Wextra -Werror -shared -fPIC tests/cabinet/tracer.c -o "$work/tracer.so"

# torn NAME ROUNDS IMAGES: traces that build, and looks for torn images
torn() {
    rm -f "$work/memory"
    TRACE="$work/trace" LD_PRELOAD="$work/tracer.so" "$work/$1/built/cabinet" -n "$2" -s "$game_seed" "$work/memory" > "$work/rounds"
    python3 tests/cabinet/torn.py "$work/whole/built/cabinet" "$work/library.so" "$work/trace" "$work/memory" "$game_seed" "$3" "${SEED:-1}"
}

copy whole
build "$work/whole"
torn whole "${ROUNDS:-24}" "${IMAGES:-400}"

fence='        if (next.decides)
            persist(context, NULL, 0);
'
told='        persist(context, image + 8 * next.word, 8 * made);
'
# must_find NAME, and what replace is told of the header
must_find() {
    copy "$1"
    mkdir "$work/$1/include"
    cp include/badgerdross.h "$work/$1/include"
    replace "$work/$1/include/badgerdross.h" "$2" "$3" ""
    build "$work/$1" "$work/$1/include"
    if torn "$1" 12 400 > "$work/printed"; then
        cat "$work/printed"
        echo "torn: $1 was not caught"
        exit 1
    fi
    sed -n "s/^torn: \(.* images, \)/torn: $1 is caught: \1/p" "$work/printed"
    grep -Eq ' [1-9][0-9]* torn' "$work/printed"
}
must_find no_fence_before 1/2 "$fence"
must_find no_fence_after 2/2 "$fence"
must_find nothing_told 1/1 "$told"
