#!/usr/bin/env bash
# README's program, built from an installed tree by pkg-config and by CMake, and run. The tree is moved before it is used.
# KEEP_ARCHIVE=1 takes the archive that stands in target/staticlib, where it was proved before.
set -euo pipefail
cd "$(dirname "${BASH_SOURCE[0]}")/.."

work=$(mktemp -d)
trap 'rm -rf "$work"' EXIT

bash tools/install "$work/here"
mv "$work/here" "$work/there"

# the program is README's, and prints what README says
python3 - "$work" <<'PY'
import re
import sys
blocks = re.findall(r"^```c\n(.*?)^```\n+[^\n]*prints:\n\n((?:    [^\n]*\n)+)", open("README.md", encoding="utf-8").read(), re.M | re.S)
program, printed = blocks[0]
assert len(blocks) == 1 and program == open("examples/round.c", encoding="utf-8").read(), "README's program is not examples/round.c"
open(sys.argv[1] + "/round.c", "w").write(program)
open(sys.argv[1] + "/expected", "w").write(re.sub(r"^    ", "", printed, flags=re.M))
PY

# a tool that is not there is said, and its part left out
built=""
if command -v pkg-config > "$work/log"; then
    export PKG_CONFIG_PATH=$work/there/lib/pkgconfig
    cc -std=c11 -Wall -Wextra -Wpedantic -Werror "$work/round.c" $(pkg-config --cflags --libs badgerdross) -o "$work/by_pkg_config"
    "$work/by_pkg_config" | cmp - "$work/expected"
    built="$built pkg-config $(pkg-config --modversion badgerdross)"
else
    echo "c_install: no pkg-config here, not tried"
fi

if command -v cmake > "$work/log"; then
    mkdir "$work/project"
    cp "$work/round.c" "$work/project"
    cat > "$work/project/CMakeLists.txt" <<'CMAKE'
cmake_minimum_required(VERSION 3.13)
project(round C)
find_package(badgerdross 2.0 REQUIRED)
add_executable(by_cmake round.c)
target_link_libraries(by_cmake badgerdross::badgerdross)
CMAKE
    cmake -S "$work/project" -B "$work/build" -DCMAKE_PREFIX_PATH="$work/there" > "$work/log" 2>&1 || { cat "$work/log"; exit 1; }
    cmake --build "$work/build" > "$work/log" 2>&1 || { cat "$work/log"; exit 1; }
    "$work/build/by_cmake" | cmp - "$work/expected"
    built="$built CMake"
else
    echo "c_install: no CMake here, not tried"
fi
echo "c_install: README's program by$built, 0 differ"
