# For the tests of examples/cabinet, which source it: the archive, the library for screen.py, and build FOLDER, which builds the cabinet of a folder,
# optionally with another folder of headers, into that folder. KEEP_ARCHIVE=1 takes the archive in target/staticlib, where it was proved before.
top=$PWD
work=$(mktemp -d)
trap 'rm -rf "$work"' EXIT

if [ "${KEEP_ARCHIVE:-0}" != 1 ] && ! tools/archive badgerdross > "$work/log" 2>&1; then
    tail -n 20 "$work/log"
    echo "cabinet: no archive"
    exit 1
fi
archive=$top/target/staticlib/libbadgerdross.a
cc -std=c11 -O2 -Wall -Wextra -Werror -shared -fPIC -Iinclude tests/cabinet/shown.c -Wl,--whole-archive "$archive" -Wl,--no-whole-archive \
    -o "$work/library.so"

build() {
    make -s -C "$1" LIBRARY="$archive" INCLUDE="${2:-$top/include}" OUT="$1/built" "$1/built/cabinet"
}

# copy NAME: the cabinet's sources in a folder of their own
copy() {
    mkdir "$work/$1"
    cp examples/cabinet/* "$work/$1"
}

# replace FILE NUMBER OLD NEW: the one piece of text, the first, second .. of so many as NUMBER says, is another; where it does not stand, the test fails
replace() {
    python3 - "$@" <<'PY'
import sys
path, number, old, new = sys.argv[1], *map(str, sys.argv[2:5])
text = open(path, encoding="utf-8").read()
which, of = map(int, number.split("/"))
pieces = text.split(old)
assert len(pieces) == of + 1, "%s: stands %d times, not %d: %s" % (path, len(pieces) - 1, of, old)
open(path, "w", encoding="utf-8").write(old.join(pieces[:which]) + new + old.join(pieces[which:]))
PY
}
