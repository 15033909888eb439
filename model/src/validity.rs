//! Row 8: the states that no call takes, clause by clause. A state is broken where some clause applies; that each clause has a
//! name serves the tests, which break states by one clause alone.

use crate::fresh::{not_fresh, Part};
use crate::journal::{live_count, live_positions};
use crate::layout::{MOST_ENTRIES, MOST_PAGES, MOST_SLOTS};
use crate::plan::plan;
use crate::rows::{operation_rows, room_row};
use crate::slots::{each_frame_once, page_twice};
use crate::state::{Operation, Pending, State, Write, WRITERS};

#[derive(Clone, Copy, Debug, PartialEq, Eq, PartialOrd, Ord)]
pub enum Clause {
    // row 3: a size outside its range
    PZero,
    PAbove,
    SZero,
    SAbove,
    JBelowS,
    JAbove,
    LAbove,
    // row 5
    HeadBeyond,
    TailBeyond,
    OverJLive,
    // row 7
    SlotShape,
    PageTwice,
    // document 02, L5: "a slotted page's entry is its slot's original, and entries and spares together name each frame once"
    EntryNotOriginal,
    FrameNotOnce,
    // "holds a line twice, for a closed writer or in a free slot"
    HeldTwice,
    HeldByClosed,
    HeldInFree,
    NextSlot,
    // "a last-record position that is not live or stands for two slots"
    LastNotLive,
    LastTwice,
    // document 02, L8: "a prepared writer who is closed or whose records don't fit"
    PreparedClosed,
    PreparedNoRoom,
    // document 02, L14: the entries, and "a wide writer closed, prepared, beside a held line or another open one"
    EntriesAbove,
    EntryOutside,
    EntryTwice,
    WideClosed,
    WidePrepared,
    WideBesideHeld,
    WideBesideOpen,
    /// A write or a commit by the wide writer that is pending as if it had slots (PROBE.md leaves this open).
    PendingNarrow,
    /// "a pending format beside any state but the fresh one of its sizes" (document 02, L6), and one part that is not fresh.
    NotFresh(Part),
    /// "one that a row from 11 on would turn back": the kind of operation as PROBE.md numbers them, and the row.
    PendingRow(u64, u8),
    /// "as many stores made as it needs or more", by the kind.
    PendingMade(u64),
}

pub fn is_broken(state: &State) -> bool {
    !broken_clauses(state).is_empty()
}

/// Every clause that applies. Where the sizes are out of range no other is asked, nor are those on positions where head and
/// tail are; a pending operation is asked for its stores where no row turns it back.
pub fn broken_clauses(state: &State) -> Vec<Clause> {
    let mut clauses = applying(&sizes_clauses(state));
    if !clauses.is_empty() {
        return clauses;
    }
    clauses.extend(applying(&slots_clauses(state)));
    clauses.extend(applying(&held_clauses(state)));
    clauses.extend(applying(&wide_clauses(state)));
    let bounds = applying(&bounds_clauses(state));
    if bounds.is_empty() {
        clauses.extend(applying(&journal_clauses(state)));
        clauses.extend(state.pending.as_ref().and_then(|pending| pending_clause(state, pending)));
    }
    clauses.extend(bounds);
    clauses
}

fn applying(clauses: &[(Clause, bool)]) -> Vec<Clause> {
    clauses.iter().filter(|(_, applies)| *applies).map(|(clause, _)| *clause).collect()
}

fn sizes_clauses(state: &State) -> [(Clause, bool); 7] {
    let sizes = state.sizes;
    [
        (Clause::PZero, sizes.p == 0),
        (Clause::PAbove, sizes.p > MOST_PAGES as u64),
        (Clause::SZero, sizes.s == 0),
        (Clause::SAbove, sizes.s > MOST_SLOTS as u64),
        (Clause::JBelowS, sizes.j < sizes.s),
        (Clause::JAbove, sizes.j > 256),
        (Clause::LAbove, sizes.l > MOST_ENTRIES as u64),
    ]
}

fn bounds_clauses(state: &State) -> [(Clause, bool); 3] {
    let (sizes, head, tail) = (state.sizes, state.head, state.tail);
    let beyond = |position| position >= 2 * sizes.j;
    let within = !beyond(head) && !beyond(tail);
    [
        (Clause::HeadBeyond, beyond(head)),
        (Clause::TailBeyond, beyond(tail)),
        (Clause::OverJLive, within && live_count(sizes, head, tail) > sizes.j),
    ]
}

fn slots_clauses(state: &State) -> [(Clause, bool); 5] {
    let (slots, sizes) = (state.slots_used(), state.sizes);
    let mut owning = slots.iter().filter(|slot| slot.is_owning(sizes));
    [
        (Clause::SlotShape, slots.iter().any(|slot| !slot.has_shape(sizes))),
        (Clause::PageTwice, page_twice(slots, sizes)),
        (Clause::EntryNotOriginal, owning.any(|slot| state.map[slot.page as usize] != slot.original)),
        (Clause::FrameNotOnce, !each_frame_once(slots, &state.map, sizes)),
        (Clause::NextSlot, state.next >= sizes.s),
    ]
}

fn held_clauses(state: &State) -> [(Clause, bool); 3] {
    let count = state.slot_count();
    let held = |writer: usize, slot: usize| state.writers[writer].held[slot];
    let all = || (0..WRITERS).flat_map(|writer| (0..count).map(move |slot| (writer, slot)));
    let twice =
        all().any(|(writer, slot)| (0..writer).any(|other| held(writer, slot) & held(other, slot) != 0));
    let by_closed = all().any(|(writer, slot)| !state.writers[writer].open && held(writer, slot) != 0);
    let in_free =
        all().any(|(writer, slot)| state.slots[slot].is_free(state.sizes) && held(writer, slot) != 0);
    [(Clause::HeldTwice, twice), (Clause::HeldByClosed, by_closed), (Clause::HeldInFree, in_free)]
}

/// For head and tail within their bounds.
fn journal_clauses(state: &State) -> [(Clause, bool); 4] {
    let live = live_positions(state.sizes, state.head, state.tail);
    let last: Vec<u64> = state.last[..state.slot_count()].iter().flatten().copied().collect();
    let closed = state.prepared.is_some_and(|writer| !state.is_open(writer));
    let no_room = |writer| room_row(state, state.slots_held(writer).len() as u64).is_err();
    [
        (Clause::LastNotLive, last.iter().any(|position| !live.contains(position))),
        (Clause::LastTwice, (0..last.len()).any(|i| last[..i].contains(&last[i]))),
        (Clause::PreparedClosed, closed),
        (Clause::PreparedNoRoom, state.prepared.is_some_and(no_room)),
    ]
}

fn wide_clauses(state: &State) -> [(Clause, bool); 7] {
    let (wide, sizes) = (&state.wide, state.sizes);
    let others = |writer| (0..WRITERS as u64).filter(move |&other| other != writer);
    let held = (0..WRITERS as u64).any(|writer| !state.slots_held(writer).is_empty());
    [
        (Clause::EntriesAbove, wide.above(sizes)),
        (Clause::EntryOutside, wide.one_outside(sizes)),
        (Clause::EntryTwice, wide.a_line_twice()),
        (Clause::WideClosed, wide.writer.is_some_and(|writer| !state.is_open(writer))),
        (Clause::WidePrepared, wide.writer.is_some() && wide.writer == state.prepared),
        (Clause::WideBesideHeld, wide.writer.is_some() && held),
        (
            Clause::WideBesideOpen,
            wide.writer.is_some_and(|writer| others(writer).any(|other| state.is_open(other))),
        ),
    ]
}

fn pending_clause(state: &State, pending: &Pending) -> Option<Clause> {
    let operation = &pending.operation;
    if let Operation::Write(Write { writer, .. }) | Operation::Commit { writer } = operation {
        if state.wide.is_by(*writer) {
            return Some(Clause::PendingNarrow);
        }
    }
    if *operation == Operation::Format {
        if let Some(&part) = not_fresh(state).first() {
            return Some(Clause::NotFresh(part));
        }
    }
    if let Err(refusal) = operation_rows(state, operation) {
        return Some(Clause::PendingRow(operation.kind(), refusal.number()));
    }
    // what a plan leans on has to stand before its stores are counted
    let stands = slots_clauses(state).iter().chain(&wide_clauses(state)).all(|(_, applies)| !applies);
    let spent = stands && pending.made >= plan(state, operation).len() as u64;
    spent.then_some(Clause::PendingMade(operation.kind()))
}
