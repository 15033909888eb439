#!/usr/bin/env bash
# Wrong rules put into the model one by one (model/mutants/rules.txt): which of them do the gate's own random scripts of probe show?
# Prints a table: the rule, how many scripts show it, the first of these, and the sentence that it misreads. Fails below 57 of 60.
# SCRIPTS, CALLS and SEED are those of tests/random.sh; RULES and LEAST take another list, as model/mutants/kept_back.txt.
set -euo pipefail
cd "$(dirname "${BASH_SOURCE[0]}")/.."

rules=${RULES:-model/mutants/rules.txt}
copy=model/target/mutants/$(basename "$rules" .txt)
python3 model/mutants/apply.py "$rules" model "$copy"
cargo build --manifest-path "$copy/Cargo.toml" --release --offline --quiet --bin seen
"$copy/target/release/seen" "${SCRIPTS:-600}" "${CALLS:-80}" "${SEED:-1}" "${LEAST:-57}"
