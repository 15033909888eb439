#!/usr/bin/env bash
# The C host on images cut after each store of a commit and of a wide one: it prints what the independent model computed of each.
# KEEP_ARCHIVE=1 takes the archive that stands in target/staticlib, where it was proved before.
set -euo pipefail
cd "$(dirname "${BASH_SOURCE[0]}")/.."

work=$(mktemp -d)
trap 'rm -rf "$work"' EXIT

if [ "${KEEP_ARCHIVE:-0}" != 1 ] && ! tools/archive recalling > "$work/log" 2>&1; then
    tail -n 20 "$work/log"
    echo "recall_host: no archive"
    exit 1
fi
cc -std=c11 -Wall -Wextra -Werror -Iinclude examples/recall_host.c target/staticlib/librecalling.a -o "$work/recall_host"
cargo run --manifest-path model/Cargo.toml --release --offline --quiet --bin model-cuts -- "$work"

# beside the cuts an image that is turned back: no bytes, row 1
: > "$work/empty.img"
echo 'refused 1' > "$work/empty.txt"

images=0
differ=0
for image in "$work"/*.img; do
    name=$(basename "$image" .img)
    images=$((images + 1))
    "$work/recall_host" "$image" > "$work/printed" || true
    if ! cmp -s "$work/printed" "$work/$name.txt"; then
        differ=$((differ + 1))
        diff "$work/$name.txt" "$work/printed" | sed "s/^/$name: /" || true
    fi
done
echo "recall_host: $images images, $differ differ"
[ "$images" -gt 1 ] && [ "$differ" -eq 0 ]
