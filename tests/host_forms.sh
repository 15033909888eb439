#!/usr/bin/env bash
# Begin, begin wide and abort on the host's own record: by value and on the record itself, with the answers of document 01's table and the same words
# left by both. The program is not proved: it is tried, on the interpreter and compiled with checks, over the code of the crates that are.
set -euo pipefail
cd "$(dirname "${BASH_SOURCE[0]}")/.."

work=$(mktemp -d)
trap 'rm -rf "$work"' EXIT
mkdir "$work/crates"
for folder in crates/*/; do
    mkdir "$work/$folder"
    for part in src specs proofs; do
        if [ -d "$folder$part" ]; then cp -a "$folder$part" "$work/$folder"; fi
    done
done
cp crates.txt "$work"
echo 'host_forms: answers call_mount host layout' >> "$work/crates.txt"
mkdir -p "$work/crates/host_forms/src"
cat > "$work/crates/host_forms/src/main.rt" <<'END'
// Begin, begin wide and abort by value and on the record itself, side by side.
#![tactic(auto)]
use answers::Answer;
use host::Done;
use host::State;
use layout::Sizes;

const BEGIN: usize = 0;

const BEGIN_WIDE: usize = 1;

const ABORT: usize = 2;

// A call and its writer.
const CALLS: [[usize; 2]; 10] = [
    [BEGIN, 0],
    [BEGIN, 0],
    [BEGIN_WIDE, 1],
    [ABORT, 1],
    [ABORT, 0],
    [ABORT, 0],
    [BEGIN_WIDE, 1],
    [BEGIN, 0],
    [ABORT, 1],
    [BEGIN, 4],
];

fn fresh() -> State {
    let mut image = [0u8; 8392];
    let mut words = [0u64; 1280];
    let z = Sizes {
        pages: 1,
        slots: 1,
        places: 1,
        entries: 1,
    };
    let _ = call_mount::format_whole(&mut image, &mut words, z);
    State { words }
}

fn by_value(st: State, call: usize, writer: usize) -> Done {
    match call {
        BEGIN => host::begin(st, writer),
        BEGIN_WIDE => host::begin_wide(st, writer),
        _ => host::abort(st, writer),
    }
}

fn on_record(st: &mut State, call: usize, writer: usize) -> Answer {
    match call {
        BEGIN => host::begin_in(st, writer),
        BEGIN_WIDE => host::begin_wide_in(st, writer),
        _ => host::abort_in(st, writer),
    }
}

// In how many words two states differ.
fn apart(a: [u64; 1280], b: [u64; 1280]) -> u64 {
    let mut n = 0;
    for i in 0..1280 {
        if a[i] != b[i] {
            n += 1;
        }
    }
    n
}

fn main(rt: HostRuntime) -> std::io::Result<()> {
    let mut st = fresh();
    let mut record = st;
    for i in 0..10 {
        let done = by_value(st, CALLS[i][0], CALLS[i][1]);
        let answer = on_record(&mut record, CALLS[i][0], CALLS[i][1]);
        st = done.state;
        let value = done.answer;
        let by_value = answers::number_of(value);
        let on_record = answers::number_of(answer);
        let words = apart(st.words, record.words);
        println!(rt; "{by_value} {on_record} {words}")?;
    }
    Ok(())
}
END
for number in 0 12 29 13 0 13 0 29 0 11; do echo "$number $number 0"; done > "$work/expected"
cd "$work/crates/host_forms"
rt try > "$work/printed" 2> "$work/log" || { cat "$work/log"; exit 1; }
cmp "$work/printed" "$work/expected"
tail -n 1 "$work/log" | grep ' runners=2 '
