//! The lines that make one state of another.

use crate::script::probe::pending_numbers;
use crate::slots::Slot;
use crate::state::State;

/// A number of the state as T names it: field, place, value.
pub type Number = (u64, u64, u64);

/// The lines T and O that make one state of another; places past S and entries past P stay. Keys are set before the number of
/// entries used and whether they differ or not, since a program may have left others past the used ones.
pub fn lines(from: &State, to: &State) -> Vec<String> {
    let mut lines = vec![];
    let keys = to.wide.keys_used();
    lines.extend(keys.iter().enumerate().map(|(entry, key)| format!("T,17,{entry},{key}")));
    let before = numbers(from, to);
    let after = numbers(to, to);
    let changed = before.iter().zip(&after).filter(|(old, new)| old != new);
    lines.extend(changed.map(|(_, &(f, i, value))| format!("T,{f},{i},{value}")));
    if (&from.pending, &to.pending) != (&None, &None) {
        let numbers = pending_numbers(to).map(|number| number.to_string());
        lines.push(format!("O,{}", numbers.join(",")));
    }
    lines
}

/// A state's numbers but its keys and its pending operation, for the slots and pages of a second state.
pub fn numbers(state: &State, of: &State) -> Vec<Number> {
    let sizes = state.sizes;
    let none = 4;
    let mut numbers = vec![
        (0, 0, sizes.p),
        (1, 0, sizes.s),
        (2, 0, sizes.j),
        (3, 0, state.head),
        (4, 0, state.tail),
        (5, 0, state.next),
        (14, 0, state.prepared.unwrap_or(none)),
        (15, 0, state.wide.writer.unwrap_or(none)),
        (16, 0, state.wide.used),
        (18, 0, sizes.l),
    ];
    for i in 0..of.slot_count() {
        let Slot { page, original, spare, bitmap } = state.slots[i];
        let last = state.last[i].unwrap_or(u64::MAX);
        let fields = (6..).zip([page, original, spare, bitmap, last]);
        numbers.extend(fields.map(|(f, value)| (f, i as u64, value)));
    }
    for (w, writer) in (0..).zip(&state.writers) {
        numbers.push((11, w, u64::from(writer.open)));
        numbers.extend((0..of.slot_count()).map(|i| (12, 16 * w + i as u64, writer.held[i])));
    }
    let pages = of.sizes.p.min(state.map.len() as u64);
    numbers.extend((0..pages).map(|page| (13, page, state.map[page as usize])));
    numbers
}
