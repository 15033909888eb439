#!/usr/bin/env bash
# The vectors: each input of tests/vectors through the proved program of its folder's name (wear: wear_by_frame), which must print the output beside it.
set -euo pipefail
cd "$(dirname "${BASH_SOURCE[0]}")/.."

ran=0
differ=0
for kind in powerhit probe wear; do
    name=${kind/%wear/wear_by_frame}
    program=crates/$name/out/$name
    for input in tests/vectors/$kind/*.in; do
        ran=$((ran + 1))
        if ! "$program" < "$input" | cmp -s - "${input%.in}.out"; then
            differ=$((differ + 1))
            echo "vectors: $input differs"
        fi
    done
done
echo "vectors: $ran inputs, $differ differ"
[ "$ran" -gt 0 ] && [ "$differ" -eq 0 ]
