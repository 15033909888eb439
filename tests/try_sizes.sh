#!/usr/bin/env bash
# The proved program try_sizes beside the model: chosen inputs, 200 random ones (settings that are taken and refused, rounds that wander, lines
# that are damaged), long lines and more lines than are read. The model puts each store down by the place that it goes to, and holds the pages
# at the end to bytes kept plainly; settings given the same rounds therefore end with equal bytes, where none is abandoned.
set -euo pipefail
cd "$(dirname "${BASH_SOURCE[0]}")/.."

work=$(mktemp -d)
trap 'rm -rf "$work"' EXIT
cargo build --manifest-path model/Cargo.toml --release --offline --quiet

mkdir "$work/in"
python3 - "$work/in" <<'P'
import random, sys
random.seed(11)
work = sys.argv[1]
count = 0


def put(data):
    global count
    count += 1
    open(f"{work}/{count:04}", "wb").write(data if isinstance(data, bytes) else data.encode())


# chosen: settings
for first in ["", "\n", "?", "2", "2,1", "2,1,2", "2,1,2,3", "2,1,2,", ",2,1,2", "2,,1", "2,1,2 ", " 2,1,2", "2,1,x", "+2,1,2", "2,1,2\r",
              "0,1,1", "1,0,1", "1,1,0", "1,2,1", "1,1,1", "1,16,16", "1,17,17", "1,1,256", "1,1,257", "1024,1,1", "1025,1,1", "14,1,1",
              "15,1,1", "13,2,2", "14,2,2", "1,14,14", "1,15,15", "000000002,000000001,000000002", "0000000002,1,2", "999999999,1,1",
              "2,18446744073709551617,2", "R,2,1,2", "2.0,1,2"]:
    put(first)
    put(first + "\n")
    put(first + "\n0\n1\n0\n")
# chosen: rounds
wide = ",".join(["1"] * 64)
for rounds in ["\n", "\n\n\n", "0", "0,0,0\n", "1\n", "2\n", "0,2\n0\n", wide, wide + ",1", wide + "\n" + wide + ",1\n0", "0,1\n1,0\n0\n1\n",
               "0\r\n", "0, 1\n", ",0\n", "0,\n", "x\n0\n", "0\n" * 300, "0,1\n" * 300, "000000001\n", "0000000001\n", "4294967296\n", "P,1\n"]:
    for setting in ["2,1,1", "2,1,2", "2,2,2", "2,2,5"]:
        put(f"{setting}\n{rounds}")
# past 1,000 lines
for n in [999, 1000, 1001, 1002, 3000]:
    put("3,2,4\n" + "0,2\n" * n)
    put("3,2,4\n" + "x\n" * n + "1\n")
put("3,2,4\n" + "0\n" * 999 + "1")
put("3,2,4\n" + "0\n" * 1000 + "1")
# lines longer than the line buffer, and than a read
put(b"2,1,2\n0\n" + b"0," * (1 << 18) + b"0\n1\n")
put(b"2,1,2\n0\n" + b"0" * 1021 + b"\n" + b"0" * 1022 + b"\n" + b"0" * 1023 + b"\n1")
put(b"1" * (1 << 17))
put(bytes(random.randrange(256) for _ in range(100000)))
# random: rounds that wander over the pages
for i in range(200):
    s = random.choice([1, 1, 2, 3, 4, 6, 8])
    p = random.randint(1, 15 - s) if random.random() < 0.9 else random.randint(1, 20)
    j = s + random.choice([0, 0, 1, 2, 5, 40])
    lines = [f"{p},{s},{j}"]
    reach = max(1, min(p, random.choice([1, 2, 3, p, p, p])))
    width = random.choice([1, 2, s, s, s + 1, 64])
    for _ in range(random.choice([3, 30, 300, 1010])):
        pages = [str(random.randrange(reach)) for _ in range(random.randint(1, max(1, min(width, 64))))]
        if random.random() < 0.02:
            pages.insert(random.randrange(len(pages) + 1), str(random.choice([p, p + 1, 1024, 999999999])))
        line = ",".join(pages)
        if random.random() < 0.02:
            at = random.randrange(len(line) + 1)
            line = line[:at] + random.choice([",", " ", "-", "x", "\r", "0000000000"]) + line[at:]
        lines.append(line)
    put("\n".join(lines) + random.choice(["", "\n", "\n\n"]))
P

ran=0
differ=0
for input in "$work"/in/*; do
    ran=$((ran + 1))
    model/target/release/model-trials < "$input" > "$work/expected"
    if ! crates/try_sizes/out/try_sizes < "$input" | cmp -s - "$work/expected"; then
        differ=$((differ + 1))
        echo "try_sizes: differs on $(head -c 60 "$input" | tr '\n' ' ')"
    fi
done
# the vectors, whose outputs are worked out by hand
for input in tests/vectors/try_sizes/*.in; do
    ran=$((ran + 1))
    for program in crates/try_sizes/out/try_sizes model/target/release/model-trials; do
        if ! "$program" < "$input" | cmp -s - "${input%.in}.out"; then
            differ=$((differ + 1))
            echo "try_sizes: $program differs on $input"
        fi
    done
done
# a few bytes at a time, as a slow serial line gives them
ran=$((ran + 1))
printf '3,2,2\n0,1\n2\n1\n' | model/target/release/model-trials > "$work/expected"
if ! (for piece in '3,' '2,2\n0' ',1\n2\n' '1' '\n'; do printf "$piece"; sleep 0.02; done) | crates/try_sizes/out/try_sizes | cmp -s - "$work/expected"; then
    differ=$((differ + 1))
    echo "try_sizes: differs on pieces"
fi
# past the last round, and after a refused setting, the input is not read on
for setting in 3,2,2 0,2,2; do
    ran=$((ran + 1))
    if ! (printf '%s\n' "$setting"; yes 1 || true) 2> /dev/null | timeout 20 crates/try_sizes/out/try_sizes > "$work/shown"; then
        differ=$((differ + 1))
        echo "try_sizes: does not end on an endless input after $setting"
    fi
done
echo "try_sizes: $ran inputs, $differ differ"
[ "$differ" -eq 0 ]
