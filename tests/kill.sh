#!/usr/bin/env bash
# The cabinet of examples/cabinet killed with SIGKILL at random moments and started again: each memory that it leaves is mounted and held to a second
# telling of the game (tests/cabinet/book.py), from the last acknowledged round on. KILLS (80) kills with the moments of SEED (1). A build that commits
# a round in two halves must be caught, and one that acknowledges rounds that the file does not have.
# KEEP_ARCHIVE=1 takes the archive that stands in target/staticlib, where it was proved before.
set -euo pipefail
cd "$(dirname "${BASH_SOURCE[0]}")/.."
. tests/cabinet/build.sh

copy whole
build "$work/whole"
python3 tests/cabinet/kill.py "$work/whole/built/cabinet" "$work/library.so" "$work/memory" "${KILLS:-80}" "${SEED:-1}"

# must_catch NAME, and what replace is told of game.c
must_catch() {
    copy "$1"
    replace "$work/$1/game.c" 1/1 "$2" "$3"
    build "$work/$1"
    if python3 tests/cabinet/kill.py "$work/$1/built/cabinet" "$work/library.so" "$work/memory" 2000 "${SEED:-1}" > "$work/printed"; then
        cat "$work/printed"
        echo "kill: $1 was not caught"
        exit 1
    fi
    sed "s/^kill: /kill: $1 is caught: /" "$work/printed"
    grep -q "^kill: $4" "$work/printed"
}
must_catch round_in_two_commits '        answer = put(GLASS, 0, glass);' \
    '        answer = round->scenes || (!commit() && !badgerdross_begin(&store, GAME)) ? put(GLASS, 0, glass) : 8;' "torn at kill"
must_catch rounds_kept_nowhere MAP_SHARED MAP_PRIVATE "a mount was turned back with 2"
