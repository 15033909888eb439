#!/usr/bin/env bash
# The proved program short_runs beside the model: each n, with and without a newline, and inputs that are no n.
set -euo pipefail
cd "$(dirname "${BASH_SOURCE[0]}")/.."

work=$(mktemp -d)
trap 'rm -rf "$work"' EXIT
cargo build --manifest-path model/Cargo.toml --release --offline --quiet

ran=0
differ=0
for input in 0 1 2 3 '0\n' '1\n' '2\n' '3\n' '' '\n' 4 9 / : a '?' -1 ' 1' '1 ' 00 12 '1\r\n' '1\n\n' '\n1' 123 '3\n3\n' '1\0'; do
    ran=$((ran + 1))
    printf "${input//-/\\x2d}" > "$work/input"
    model/target/release/model-short-runs < "$work/input" > "$work/expected"
    if ! crates/short_runs/out/short_runs < "$work/input" | cmp -s - "$work/expected"; then
        differ=$((differ + 1))
        echo "short_runs: differs on '$input'"
    fi
done
# a byte at a time, as a slow serial line gives them
ran=$((ran + 1))
printf 1 | model/target/release/model-short-runs > "$work/expected"
if ! (printf 1; sleep 0.1; printf '\n') | crates/short_runs/out/short_runs | cmp -s - "$work/expected"; then
    differ=$((differ + 1))
    echo "short_runs: differs on single bytes"
fi
echo "short_runs: $ran inputs, $differ differ"
[ "$differ" -eq 0 ]
