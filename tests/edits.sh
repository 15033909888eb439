#!/usr/bin/env bash
# Wrong programs beside those of rt ci: the prover must refuse each FOLDER/CRATE/WHAT.edit, by rt must-fail in a copy (tools/try_edits.py). What rt has proved
# is not proved again. Names of crates may follow.
#   tests/edits.sh tests/merge_edits    of the calls that a user can reach and of the functions below them; tried at every merge, once rt ci has proved all
#   tests/edits.sh tests/release_edits    the others; --share tries a twelfth of them, another one at each count of commits, as every merge does
set -euo pipefail
cd "$(dirname "${BASH_SOURCE[0]}")/.."
python3 tools/try_edits.py "$@"
