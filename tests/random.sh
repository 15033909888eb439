#!/usr/bin/env bash
# Random scripts, right and damaged, long and short: the proved programs beside the independent model. Fails where a program differs
# and where the scripts do not reach all that they are to reach (model/src/compare/reach.rs, coverage.rs). SCRIPTS, CALLS and SEED may
# be given; fewer than 178 scripts of probe are not led to everything.
set -euo pipefail
cd "$(dirname "${BASH_SOURCE[0]}")/.."

report=$(mktemp)
trap 'rm -f "$report"' EXIT
cargo build --manifest-path model/Cargo.toml --release --offline --quiet
for kind in powerhit probe wear; do
    name=${kind/%wear/wear_by_frame}
    # into a file: a reader that ends early would end compare by a broken pipe
    model/target/release/compare --kind $kind --program "crates/$name/out/$name" \
        --scripts "${SCRIPTS:-600}" --calls "${CALLS:-80}" --seed "${SEED:-1}" > "$report" || { cat "$report"; exit 1; }
    grep -E '^([0-9]+ scripts|reached)' "$report" | sed "s/^/$kind: /"
done
