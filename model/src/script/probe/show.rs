//! What is shown: the last fields of the lines G and H, of reads and of loads.

use crate::state::{Operation, State, WRITERS};

const MODULUS: u64 = 4_294_967_291;

/// "h starts 0, h := (31 h + byte) mod 4,294,967,291"
pub fn hash(bytes: &[u8]) -> u64 {
    bytes.iter().fold(0, |h, &byte| (31 * h + u64::from(byte)) % MODULUS)
}

/// The state's numbers, decimals parted by blanks.
pub fn state(state: &State) -> String {
    let count = state.slot_count();
    let sizes = state.sizes;
    let mut numbers = vec![sizes.p, sizes.s, sizes.j, sizes.l, state.head, state.tail, state.next];
    for (slot, last) in state.slots.iter().zip(&state.last).take(count) {
        numbers.extend([slot.page, slot.original, slot.spare, slot.bitmap, last.unwrap_or(u64::MAX)]);
    }
    numbers.extend(&state.map[..sizes.p.min(state.map.len() as u64) as usize]);
    numbers.extend(state.writers.iter().map(|writer| u64::from(writer.open)));
    for writer in &state.writers {
        numbers.extend(&writer.held[..count]);
    }
    numbers.extend([state.prepared, state.wide.writer].map(|writer| writer.unwrap_or(WRITERS as u64)));
    numbers.push(state.wide.used);
    numbers.extend(state.wide.keys_used());
    numbers.extend(pending_numbers(state));
    numbers.extend(finished_bytes(state).into_iter().map(u64::from));
    numbers.iter().map(u64::to_string).collect::<Vec<_>>().join(" ")
}

/// The pending operation as the seven numbers of O: k a b c d e made.
pub fn pending_numbers(state: &State) -> [u64; 7] {
    let Some(pending) = &state.pending else { return [0; 7] };
    let [a, b, c, d, e] = match &pending.operation {
        Operation::Write(w) => [w.writer, w.page, w.line, w.offset, w.length],
        Operation::Commit { writer } | Operation::Prepare { writer } | Operation::Confirm { writer } => {
            [*writer, 0, 0, 0, 0]
        }
        Operation::Consolidate { page } => [*page, 0, 0, 0, 0],
        Operation::Event(event) => [event.asked.kind, event.asked.meter, event.asked.amount, 0, 0],
        Operation::WideWrite(w) => [w.page, w.line, w.offset, w.length, 0],
        Operation::Checkpoint | Operation::Copying | Operation::Format => [0; 5],
    };
    [pending.operation.kind(), a, b, c, d, e, pending.made]
}

/// "for a write or a wide write the 64 bytes of its finished line, for an event the 128 of both"
fn finished_bytes(state: &State) -> Vec<u8> {
    match state.pending.as_ref().map(|pending| &pending.operation) {
        Some(Operation::Write(write)) => write.finished.to_vec(),
        Some(Operation::WideWrite(write)) => write.finished.to_vec(),
        Some(Operation::Event(event)) => event.finished.concat(),
        _ => vec![],
    }
}
