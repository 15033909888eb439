//! The refusal table from row 11 on. These rows speak of the state and the arguments, so they serve
//! both the calls and row 8, which asks them again of a pending call.

use crate::journal::live_count;
use crate::layout::LINES;
use crate::meters::Asked;
use crate::refusal::{row, Answer, Refusal::*};
use crate::slots::FREE_PAGE;
use crate::state::{Operation, State, WideWrite, Write, WRITERS};
use crate::wide;

/// The rows from 11 on that row 8 asks again of a pending operation: row 11 without the data (document 01), an event's without
/// 21 (L2) and 26 (L10). A checkpoint has none, and what a format stands beside is no row's matter.
pub fn operation_rows(state: &State, operation: &Operation) -> Answer<()> {
    match operation {
        Operation::Write(write) => write_rows(state, write),
        Operation::Commit { writer } => commit_rows(state, *writer),
        Operation::Consolidate { page } => consolidate_rows(state, *page),
        Operation::Checkpoint | Operation::Format => Ok(()),
        Operation::Event(event) => {
            known_rows(state, event.asked)?;
            event_rows(state, event.asked)?;
            room_row(state, 1)
        }
        Operation::Prepare { writer } => prepare_rows(state, *writer),
        Operation::Confirm { writer } => confirm_rows(state, *writer),
        Operation::WideWrite(write) => wide_write_rows(state, write),
        Operation::Copying => copying_rows(state),
    }
}

fn writer_row(writer: u64) -> Answer<()> {
    row(BadArgument, writer >= WRITERS as u64)
}

fn page_row(state: &State, page: u64) -> Answer<()> {
    row(BadArgument, page >= state.sizes.p)
}

pub fn begin_rows(state: &State, writer: u64) -> Answer<()> {
    writer_row(writer)?;
    wide::beside_row(state)?;
    row(WriterOpen, state.is_open(writer))
}

pub fn begin_wide_rows(state: &State, writer: u64) -> Answer<()> {
    writer_row(writer)?;
    wide::begin_rows(state)
}

pub fn abort_rows(state: &State, writer: u64) -> Answer<()> {
    writer_row(writer)?;
    row(WriterClosed, !state.is_open(writer))?;
    own_row(state, writer)
}

/// Row 23 for what the prepared writer itself may not do, and for what nobody may do while one is prepared.
fn own_row(state: &State, writer: u64) -> Answer<()> {
    row(TransactionPrepared, state.prepared == Some(writer))
}

fn alone_row(state: &State) -> Answer<()> {
    row(TransactionPrepared, state.prepared.is_some())
}

/// Row 11 on a line's place, for write and read.
pub fn place_rows(state: &State, writer: u64, page: u64, line: u64) -> Answer<()> {
    writer_row(writer)?;
    page_row(state, page)?;
    row(BadArgument, line >= LINES)
}

/// Rows 11 (without the data) and 13 of any write.
fn first_write_rows(
    state: &State,
    (writer, page, line): (u64, u64, u64),
    (offset, length): (u64, u64),
) -> Answer<()> {
    place_rows(state, writer, page, line)?;
    length_row(offset, length)?;
    row(WriterClosed, !state.is_open(writer))
}

/// Rows 11 (without the data), 13, 23, 14 and 15.
fn write_rows(state: &State, write: &Write) -> Answer<()> {
    let Write { writer, page, line, offset, length, .. } = *write;
    first_write_rows(state, (writer, page, line), (offset, length))?;
    own_row(state, writer)?;
    row(LineHeld, held_by_another(state, writer, page, line))?;
    row(NoFreeSlot, state.slot_of(page).is_none() && state.first_free().is_none())
}

/// Rows 11 (without the data), 13 and 30 of a write by the wide writer. Where there is none, it is nobody who is open.
fn wide_write_rows(state: &State, write: &WideWrite) -> Answer<()> {
    let WideWrite { page, line, offset, length, .. } = *write;
    let writer = state.wide.writer.ok_or(WriterClosed)?;
    first_write_rows(state, (writer, page, line), (offset, length))?;
    wide::write_row(state, page, line)
}

fn length_row(offset: u64, length: u64) -> Answer<()> {
    row(BadArgument, length == 0 || u128::from(offset) + u128::from(length) > 64)
}

fn held_by_another(state: &State, writer: u64, page: u64, line: u64) -> bool {
    let mut others = (0..WRITERS as u64).filter(|&other| other != writer);
    state.slot_of(page).is_some_and(|slot| others.any(|other| state.holds(other, slot, line)))
}

/// Row 29 comes right after 11.
pub fn prepare_rows(state: &State, writer: u64) -> Answer<()> {
    writer_row(writer)?;
    wide::beside_row(state)?;
    commit_rows(state, writer)
}

/// For commit, and the rest of prepare.
pub fn commit_rows(state: &State, writer: u64) -> Answer<()> {
    writer_row(writer)?;
    row(WriterClosed, !state.is_open(writer))?;
    alone_row(state)?;
    room_row(state, state.slots_held(writer).len() as u64)
}

/// What row 8 asks of a copying: "without a writer, so row 8 leaves out its 11 and 13" (document 02, L14).
fn copying_rows(state: &State) -> Answer<()> {
    alone_row(state)
}

/// For confirm and withdraw.
pub fn confirm_rows(state: &State, writer: u64) -> Answer<()> {
    writer_row(writer)?;
    row(WriterNotPrepared, state.prepared != Some(writer))
}

pub fn consolidate_rows(state: &State, page: u64) -> Answer<()> {
    page_row(state, page)?;
    alone_row(state)?;
    let Some(slot) = state.slot_of(page) else { return Err(PageWithoutSlot) };
    row(PageHeld, state.writers.iter().any(|writer| writer.held[slot] != 0))?;
    room_row(state, 1)
}

/// Rows 29 and 20.
pub fn known_rows(state: &State, asked: Asked) -> Answer<()> {
    wide::beside_row(state)?;
    row(UnknownEvent, asked.meters().is_empty())
}

/// Rows 12, 23, 14 and 15 of an event, which is writer 1's, on page 0.
pub fn event_rows(state: &State, asked: Asked) -> Answer<()> {
    row(WriterOpen, state.is_open(1))?;
    alone_row(state)?;
    row(LineHeld, asked.meters().iter().any(|&line| held_by_another(state, 1, 0, line)))?;
    row(NoFreeSlot, state.slot_of(0).is_none() && state.first_free().is_none())
}

/// Rows 23, 22 and 19, and the page to consolidate: of the slots with a page of which nobody holds a line, sorted by the lines that
/// leaving them would copy and then by their number, the first one's.
pub fn free_rows(state: &State) -> Answer<u64> {
    alone_row(state)?;
    let mut freeable: Vec<(u32, usize, u64)> = state
        .slots_used()
        .iter()
        .enumerate()
        .filter(|(slot, owned)| {
            owned.page != FREE_PAGE && state.writers.iter().all(|writer| writer.held[*slot] == 0)
        })
        .map(|(slot, owned)| (owned.bitmap.count_ones().min(owned.bitmap.count_zeros()), slot, owned.page))
        .collect();
    freeable.sort_unstable();
    let (_, _, page) = *freeable.first().ok_or(NoSlotToFree)?;
    room_row(state, 1)?;
    Ok(page)
}

/// Row 19.
pub fn room_row(state: &State, new: u64) -> Answer<()> {
    let live = live_count(state.sizes, state.head, state.tail);
    row(JournalFull, live + new > state.sizes.j)
}
