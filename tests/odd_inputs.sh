#!/usr/bin/env bash
# Inputs that no studio would write: the proved programs print what the model prints.
set -euo pipefail
cd "$(dirname "${BASH_SOURCE[0]}")/.."

work=$(mktemp -d)
trap 'rm -rf "$work"' EXIT
cargo build --manifest-path model/Cargo.toml --release --offline --quiet

: > "$work/empty"
printf '\n' > "$work/newline"
printf 'F,2,1,2\nB,0' > "$work/no_final_newline"
printf 'F,2,1,2\r\nB,0\r\n' > "$work/carriage_returns"
python3 - "$work" <<'P'
import random, sys
random.seed(7)
work = sys.argv[1]
put = lambda name, data: open(f"{work}/{name}", "wb").write(data)
put("random_bytes", bytes(random.randrange(256) for _ in range(200000)))
put("letters", bytes(random.choice(b"FBCAWRDPXKLYUTOQGHMSNEnVIJZlmkbavwcdp,,,0123459\n") for _ in range(200000)))
put("long_line", b"F,2,1,2\n" + b"W," + b"0," * (1 << 19) + b"0\nB,0\n")
put("long_line_no_end", b"F,2,1,2\nB,0\n" + b"9" * (1 << 20))
line = b"W,0,0,0,0,64," + b",".join(b"%d" % (i % 256) for i in range(64)) + b"\n"
put("across_reads", b"F,2,1,2\nN,1561\nB,0\n" + line * 3000 + b"R,0,0,0,63\n")
P

ran=0
differ=0
for kind in powerhit probe; do
    for input in "$work"/*; do
        ran=$((ran + 1))
        "model/target/release/model-$kind" < "$input" > "$work.expected"
        if ! "crates/$kind/out/$kind" < "$input" | cmp -s - "$work.expected"; then
            differ=$((differ + 1))
            echo "odd_inputs: $kind differs on $(basename "$input")"
        fi
    done
    # a byte at a time, as a slow serial line gives them
    ran=$((ran + 1))
    head -c 3000 "$work/across_reads" > "$work/slow"
    "model/target/release/model-$kind" < "$work/slow" > "$work.expected"
    if ! python3 -c 'import os, sys; [os.write(1, bytes([b])) for b in open(sys.argv[1], "rb").read()]' "$work/slow" | "crates/$kind/out/$kind" | cmp -s - "$work.expected"; then
        differ=$((differ + 1))
        echo "odd_inputs: $kind differs on single bytes"
    fi
done
rm -f "$work.expected"
echo "odd_inputs: $ran inputs, $differ differ"
[ "$differ" -eq 0 ]
