//! Every call that takes a state. Rows in the table's order: 8, 4, 9 or 10, then 11 and on.
//!
//! A call that asks for an operation gives the number of stores needed; run gives the number made.

use crate::image::{line as line_at, put_word, word};
use crate::layout::{COUNT_AT, HEAD_AT, LAYOUT_AT, TAIL_AT};
use crate::meters::{moduli_fit, read_moduli, Asked};
use crate::plan::{complete, make_stores, plan};
use crate::refusal::{row, Answer, Refusal::*};
use crate::rows::{
    abort_rows, begin_rows, begin_wide_rows, commit_rows, confirm_rows, consolidate_rows, event_rows,
    free_rows, known_rows, operation_rows, place_rows, prepare_rows, room_row,
};
use crate::state::{Event, Operation, Pending, State, WideWrite, Write};
use crate::validity::is_broken;
use crate::wide;

pub fn begin(state: &mut State, writer: u64) -> Answer<u64> {
    row(BrokenState, is_broken(state))?;
    row(OperationPending, state.pending.is_some())?;
    begin_rows(state, writer)?;
    state.writers[writer as usize].open = true;
    Ok(0)
}

/// A transaction that needs no slots (document 02, L14).
pub fn begin_wide(state: &mut State, writer: u64) -> Answer<u64> {
    row(BrokenState, is_broken(state))?;
    row(OperationPending, state.pending.is_some())?;
    begin_wide_rows(state, writer)?;
    wide::begin(state, writer);
    Ok(0)
}

pub fn abort(state: &mut State, writer: u64) -> Answer<u64> {
    row(BrokenState, is_broken(state))?;
    row(OperationPending, state.pending.is_some())?;
    abort_rows(state, writer)?;
    if state.wide.is_by(writer) {
        wide::close(state);
    } else {
        state.close(writer);
    }
    Ok(0)
}

/// What a write lays over the line: its offset, its length, and the data lent.
pub struct Patch<'a> {
    pub offset: u64,
    pub length: u64,
    pub data: &'a [u8],
}

/// A line of the writer's own that the data leave as it is needs no stores (document 02, L3).
pub fn write(
    state: &mut State,
    image: &[u8],
    (writer, page, line): (u64, u64, u64),
    patch: Patch,
) -> Answer<u64> {
    idle_rows(state, image)?;
    let Patch { offset, length, data } = patch;
    row(BadArgument, (data.len() as u64) < length)?;
    let mut operation = if state.wide.is_by(writer) {
        Operation::WideWrite(WideWrite { page, line, offset, length, finished: [0; 64] })
    } else {
        Operation::Write(Write { writer, page, line, offset, length, finished: [0; 64] })
    };
    operation_rows(state, &operation)?;
    let shown = line_shown(state, image, (writer, page, line));
    let mut merged = shown;
    merged[offset as usize..(offset + length) as usize].copy_from_slice(&data[..length as usize]);
    if own_copy(state, (writer, page, line)).is_some() && merged == shown {
        return Ok(0);
    }
    if let Operation::Write(Write { finished, .. }) | Operation::WideWrite(WideWrite { finished, .. }) =
        &mut operation
    {
        *finished = merged;
    }
    Ok(ask(state, operation))
}

pub fn commit(state: &mut State, image: &[u8], writer: u64) -> Answer<u64> {
    idle_rows(state, image)?;
    commit_rows(state, writer)?;
    let wide = state.wide.is_by(writer);
    Ok(ask(state, if wide { Operation::Copying } else { Operation::Commit { writer } }))
}

/// Stores a writer's records, and no head.
pub fn prepare(state: &mut State, image: &[u8], writer: u64) -> Answer<u64> {
    idle_rows(state, image)?;
    prepare_rows(state, writer)?;
    Ok(ask(state, Operation::Prepare { writer }))
}

/// Stores head behind the prepared records.
pub fn confirm(state: &mut State, image: &[u8], writer: u64) -> Answer<u64> {
    idle_rows(state, image)?;
    confirm_rows(state, writer)?;
    Ok(ask(state, Operation::Confirm { writer }))
}

/// The transaction goes on.
pub fn withdraw(state: &mut State, image: &[u8], writer: u64) -> Answer<u64> {
    idle_rows(state, image)?;
    confirm_rows(state, writer)?;
    state.prepared = None;
    Ok(0)
}

pub fn consolidate(state: &mut State, image: &[u8], page: u64) -> Answer<u64> {
    idle_rows(state, image)?;
    consolidate_rows(state, page)?;
    Ok(ask(state, Operation::Consolidate { page }))
}

/// Consolidates the page of the slot that is quickest to free.
pub fn free_slot(state: &mut State, image: &[u8]) -> Answer<u64> {
    idle_rows(state, image)?;
    let page = free_rows(state)?;
    Ok(ask(state, Operation::Consolidate { page }))
}

pub fn checkpoint(state: &mut State, image: &[u8]) -> Answer<u64> {
    idle_rows(state, image)?;
    Ok(ask(state, Operation::Checkpoint))
}

/// An event of document 02, lent the moduli: its meters' lines and the record that commits them. "the order is 20, 12, 14, 15,
/// 16, 21, 19" (L2), without 16 (L5), with 23 before 14 (L8), 26 "right after 20" (L10) and 29 before 20 (L14).
pub fn event(state: &mut State, image: &[u8], asked: Asked, moduli: &[u64]) -> Answer<u64> {
    idle_rows(state, image)?;
    known_rows(state, asked)?;
    row(ModulusOutOfRange, !moduli_fit(moduli))?;
    event_rows(state, asked)?;
    let mut finished = [[0; 64]; 2];
    for (line, bytes) in asked.meters().into_iter().zip(&mut finished) {
        *bytes = line_shown(state, image, (1, 0, line));
        let number = asked.moved(line, word(bytes, 0), moduli).ok_or(AmountOutOfRange)?;
        put_word(bytes, 0, number);
    }
    room_row(state, 1)?;
    Ok(ask(state, Operation::Event(Event { asked, finished })))
}

/// The moduli of a text, for events to be lent. Rows 25 and 26 line by line, then 27 on the committed meters.
pub fn load(state: &State, image: &[u8], text: &[u8]) -> Answer<Vec<u64>> {
    idle_rows(state, image)?;
    let moduli = read_moduli(text)?;
    for (line, modulus) in (0..).zip(&moduli) {
        let at = state.sizes.line_start(state.committed_frame(0, line), line);
        row(MeterNotBelow, word(image, at) >= *modulus)?;
    }
    Ok(moduli)
}

/// 64 bytes into the target's start. Any writer may read, open or not.
pub fn read(
    state: &State,
    image: &[u8],
    (writer, page, line): (u64, u64, u64),
    target: &mut [u8],
) -> Answer<()> {
    idle_rows(state, image)?;
    place_rows(state, writer, page, line)?;
    row(BadArgument, target.len() < 64)?;
    target[..64].copy_from_slice(&line_shown(state, image, (writer, page, line)));
    Ok(())
}

/// Makes exactly one store.
pub fn step(state: &mut State, image: &mut [u8]) -> Answer<u64> {
    run(state, image, 1)
}

/// Makes at most k stores and gives how many it made.
pub fn run(state: &mut State, image: &mut [u8], k: u64) -> Answer<u64> {
    buffer_rows(state, image)?;
    row(NothingPending, state.pending.is_none())?;
    Ok(make_stores(state, image, k))
}

/// Tells of the next store: the number of the word that it goes to, and whether it decides, that is, whether a mount goes by
/// what it changes. In a format these are the two of the layout, between which a mount reads no other word; of all words that
/// other operations store to these are head, tail and the count of entries.
pub fn next_store(state: &State, image: &[u8]) -> Answer<(u64, bool)> {
    buffer_rows(state, image)?;
    row(NothingPending, state.pending.is_none())?;
    let Pending { operation, made } = state.pending.as_ref().expect("row 10: an operation is pending");
    let at = plan(state, operation)[*made as usize].at;
    let deciding: &[usize] = match operation {
        Operation::Format => &[LAYOUT_AT],
        _ => &[HEAD_AT, TAIL_AT, COUNT_AT],
    };
    Ok((at as u64 / 8, deciding.contains(&at)))
}

/// Rows 8 and 4.
fn buffer_rows(state: &State, image: &[u8]) -> Answer<()> {
    row(BrokenState, is_broken(state))?;
    row(BufferShort, image.len() < state.sizes.image_length())
}

/// Rows 8, 4 and 9.
fn idle_rows(state: &State, image: &[u8]) -> Answer<()> {
    buffer_rows(state, image)?;
    row(OperationPending, state.pending.is_some())
}

/// Where a writer has a copy of its own of a line: "it reads its own entries first" (L14), or a held line's frame.
fn own_copy(state: &State, (writer, page, line): (u64, u64, u64)) -> Option<usize> {
    if state.wide.is_by(writer) {
        let entry = state.wide.entry_of(page, line);
        return entry.map(|entry| state.sizes.entry_word(entry, 1));
    }
    let slot = state.slot_of(page).filter(|&slot| state.holds(writer, slot, line))?;
    Some(state.sizes.line_start(state.slots[slot].other_frame(line), line))
}

/// The line as a writer reads it: its own copy if it has one, else the committed one.
fn line_shown(state: &State, image: &[u8], (writer, page, line): (u64, u64, u64)) -> [u8; 64] {
    let committed = state.sizes.line_start(state.committed_frame(page, line), line);
    line_at(image, own_copy(state, (writer, page, line)).unwrap_or(committed))
}

/// Takes an operation: complete at once if it needs no store, else pending.
fn ask(state: &mut State, operation: Operation) -> u64 {
    let needed = plan(state, &operation).len() as u64;
    if needed == 0 {
        complete(state, &operation);
    } else {
        state.pending = Some(Pending { operation, made: 0 });
    }
    needed
}
