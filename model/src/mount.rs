//! Format, mount and recall: the calls that take no state.

use crate::fresh::fresh_state;
use crate::image::{line as line_at, word};
use crate::journal::{bounds_hold, live_positions, record_holds, Record};
use crate::layout::{
    Sizes, ENTRIES_AT, HEADER, HEAD_AT, J_AT, LAYOUT, LAYOUT_AT, LINES, P_AT, S_AT, TAIL_AT, WIDE_LAYOUT,
};
use crate::plan::{make_stores, plan};
use crate::refusal::{row, Answer, Refusal::*};
use crate::slots::{each_frame_once, page_twice, Slot};
use crate::state::{Operation, Pending, State};
use crate::wide;

/// Asks for a format (document 02, L6): the fresh state with its image still to be stored, and how many stores that needs.
pub fn ask_format(sizes: Sizes, buffer: &[u8]) -> Answer<(State, u64)> {
    row(SizesOutOfRange, !sizes.in_range())?;
    row(BufferShort, buffer.len() < sizes.image_length())?;
    let mut state = fresh_state(sizes);
    let needed = plan(&state, &Operation::Format).len() as u64;
    state.pending = Some(Pending { operation: Operation::Format, made: 0 });
    Ok((state, needed))
}

/// A format asked for and run to its end.
pub fn format(sizes: Sizes, buffer: &mut [u8]) -> Answer<State> {
    let (mut state, needed) = ask_format(sizes, buffer)?;
    make_stores(&mut state, buffer, needed);
    Ok(state)
}

/// Reads an image: slot table, then live records in order, each replacing its slot, then the map. Of a wide commit that was
/// cut, the first store is made: "that copying pending from the first entry (8n + 1 stores left), without a writer" (L14).
pub fn mount(buffer: &[u8]) -> Answer<State> {
    let sizes = mounted_sizes(buffer)?;
    let (head, tail) = (word(buffer, HEAD_AT), word(buffer, TAIL_AT));
    row(JournalBounds, !bounds_hold(sizes, head, tail))?;
    let live = live_positions(sizes, head, tail);
    row(BadRecord, !records_hold(buffer, sizes, &live))?;
    let wide = wide::found(buffer, sizes)?;
    let mut state = replay(buffer, sizes, (head, tail), &live);
    row(BadTables, !tables_hold(&state))?;
    state.pending = (wide.used > 0).then_some(Pending { operation: Operation::Copying, made: 1 });
    state.wide = wide;
    Ok(state)
}

/// Mounts, copies one committed line to the target's start and forgets. A line with a committed entry is the entry's.
pub fn recall(page: u64, line: u64, buffer: &[u8], target: &mut [u8]) -> Answer<()> {
    let state = mount(buffer)?;
    row(BadArgument, page >= state.sizes.p || line >= LINES || target.len() < 64)?;
    let at = match state.wide.entry_of(page, line) {
        Some(entry) => state.sizes.entry_word(entry, 1),
        None => state.sizes.line_start(state.committed_frame(page, line), line),
    };
    target[..64].copy_from_slice(&line_at(buffer, at));
    Ok(())
}

/// Rows 1 to 4.
fn mounted_sizes(buffer: &[u8]) -> Answer<Sizes> {
    row(UnderHeader, buffer.len() < HEADER as usize)?;
    let layout = word(buffer, LAYOUT_AT);
    row(UnknownLayout, ![LAYOUT, WIDE_LAYOUT].contains(&layout))?;
    let l = if layout == LAYOUT { 0 } else { word(buffer, ENTRIES_AT) };
    let sizes = Sizes { p: word(buffer, P_AT), s: word(buffer, S_AT), j: word(buffer, J_AT), l };
    row(SizesOutOfRange, !sizes.in_range() || sizes.layout() != layout)?;
    row(BufferShort, buffer.len() < sizes.image_length())?;
    Ok(sizes)
}

/// Row 6 turned round. A record's "first" depends on the record before it alone.
fn records_hold(buffer: &[u8], sizes: Sizes, live: &[u64]) -> bool {
    (0..live.len()).all(|i| {
        let record = Record::read(buffer, sizes, live[i]);
        let before = (i > 0).then(|| Record::read(buffer, sizes, live[i - 1]));
        record_holds(sizes, live[i], record, before)
    })
}

fn replay(buffer: &[u8], sizes: Sizes, (head, tail): (u64, u64), live: &[u64]) -> State {
    let mut state = State { head, tail, ..State::empty(sizes) };
    for slot in 0..sizes.s {
        let words = [0, 1, 2].map(|i| word(buffer, sizes.slot_word(slot, i)));
        state.slots[slot as usize] = Slot::from_words(words);
    }
    for &position in live {
        let record = Record::read(buffer, sizes, position);
        state.slots[record.slot_number as usize] = record.slot;
        state.last[record.slot_number as usize] = Some(position);
    }
    // the map: a slotted page's original, any other page's word (document 02, L5)
    for page in 0..sizes.p {
        let slotted = state.slot_of(page).map(|slot| state.slots[slot].original);
        state.map[page as usize] = slotted.unwrap_or_else(|| word(buffer, sizes.page_word(page)));
    }
    state
}

/// Row 7 turned round.
fn tables_hold(state: &State) -> bool {
    let (slots, sizes) = (state.slots_used(), state.sizes);
    slots.iter().all(|slot| slot.has_shape(sizes))
        && !page_twice(slots, sizes)
        && each_frame_once(slots, &state.map, sizes)
}
