//! What an operation stores, in order, and what changes in the state with its last store.

use crate::fresh::fresh_image;
use crate::image::{put_word, word};
use crate::journal::{position_after, Record};
use crate::layout::{Sizes, HEAD_AT, LAYOUT_AT, TAIL_AT, WORD};
use crate::slots::{lines_of, Slot};
use crate::state::{Event, Operation, Pending, State, Write};
use crate::wide;

/// One store: a word's address and what goes there.
#[derive(Clone, Copy, Debug, PartialEq, Eq)]
pub struct Store {
    pub at: usize,
    pub value: Value,
}

#[derive(Clone, Copy, Debug, PartialEq, Eq)]
pub enum Value {
    Word(u64),
    /// The word at this address when the store is made.
    CopyOf(usize),
}

impl Store {
    pub fn make(self, image: &mut [u8]) {
        let value = match self.value {
            Value::Word(value) => value,
            Value::CopyOf(from) => word(image, from),
        };
        put_word(image, self.at, value);
    }
}

pub fn put(at: usize, value: u64) -> Store {
    Store { at, value: Value::Word(value) }
}

/// The eight words of a line, from one address to another, rising.
pub fn copies(from: usize, to: usize) -> impl Iterator<Item = Store> {
    (0..8).map(move |i| Store { at: to + 8 * i, value: Value::CopyOf(from + 8 * i) })
}

/// A finished line to an address, rising.
fn line_stores(at: usize, line: &[u8; 64]) -> Vec<Store> {
    (0..8).map(|i| put(at + 8 * i, word(line, 8 * i))).collect()
}

/// Every store of an operation that the rows let through.
pub fn plan(state: &State, operation: &Operation) -> Vec<Store> {
    match operation {
        Operation::Write(write) => write_plan(state, write),
        Operation::Commit { writer } => commit_plan(state, *writer),
        Operation::Consolidate { page } => consolidate_plan(state, *page),
        Operation::Checkpoint => checkpoint_plan(state),
        Operation::Event(event) => event_plan(state, event),
        Operation::Prepare { writer } => commit_records(state, *writer),
        Operation::Confirm { writer } => head_store(state, *writer),
        Operation::WideWrite(write) => wide::write_plan(state, write),
        Operation::Copying => wide::copying_plan(state),
        Operation::Format => format_plan(state),
    }
}

/// The change in the state that comes with the last store (or at once, if none is needed).
pub fn complete(state: &mut State, operation: &Operation) {
    match operation {
        Operation::Write(write) => complete_write(state, write),
        Operation::Commit { writer } => complete_commit(state, *writer),
        Operation::Consolidate { page } => complete_consolidate(state, *page),
        Operation::Checkpoint => complete_checkpoint(state),
        Operation::Event(event) => complete_event(state, event),
        Operation::Prepare { writer } => state.prepared = Some(*writer),
        Operation::Confirm { writer } => {
            complete_commit(state, *writer);
            state.prepared = None;
        }
        Operation::WideWrite(write) => wide::complete_write(state, write),
        Operation::Copying => wide::close(state),
        // the state was the fresh one from the asking on
        Operation::Format => {}
    }
}

/// At most k stores of the pending operation, and how many these were. With the last one come the operation's changes.
pub fn make_stores(state: &mut State, image: &mut [u8], k: u64) -> u64 {
    let Pending { operation, made } = state.pending.take().expect("row 10: an operation is pending");
    let stores = plan(state, &operation);
    let last = made.saturating_add(k).min(stores.len() as u64);
    for store in &stores[made as usize..last as usize] {
        store.make(image);
    }
    if last == stores.len() as u64 {
        complete(state, &operation);
    } else {
        state.pending = Some(Pending { operation, made: last });
    }
    last - made
}

/// The finished line goes to the frame that is not the committed one.
fn write_plan(state: &State, write: &Write) -> Vec<Store> {
    let frame = match state.slot_of(write.page) {
        Some(slot) => state.slots[slot].other_frame(write.line),
        None => state.slots[slot_for(state)].spare,
    };
    line_stores(state.sizes.line_start(frame, write.line), &write.finished)
}

/// The slot that a page without one takes. Row 15 says that there is one.
fn slot_for(state: &State) -> usize {
    state.first_free().expect("row 15: a slot is free")
}

fn complete_write(state: &mut State, write: &Write) {
    let slot = state.slot_of(write.page).unwrap_or_else(|| {
        let taken = slot_for(state);
        state.slots[taken] = taken_slot(state, taken, write.page);
        state.next = (taken as u64 + 1) % state.sizes.s;
        taken
    });
    state.writers[write.writer as usize].held[slot] |= 1 << write.line;
}

/// A free slot as a page takes it: its original is the map's entry (document 02, L5).
fn taken_slot(state: &State, slot: usize, page: u64) -> Slot {
    Slot { page, original: state.map[page as usize], spare: state.slots[slot].spare, bitmap: 0 }
}

/// The slot as a writer's commit leaves it: bitmap = committed exclusive-or held.
fn committed_slot(state: &State, writer: u64, slot: usize) -> Slot {
    let held = state.writers[writer as usize].held[slot];
    Slot { bitmap: state.slots[slot].bitmap ^ held, ..state.slots[slot] }
}

fn record_stores(sizes: Sizes, position: u64, record: Record) -> Vec<Store> {
    let words = record.words();
    (0..4).map(|i| put(sizes.record_word(position, i), words[i as usize])).collect()
}

fn commit_plan(state: &State, writer: u64) -> Vec<Store> {
    let mut stores = commit_records(state, writer);
    stores.extend(head_store(state, writer));
    stores
}

/// A record for each slot with lines held.
fn commit_records(state: &State, writer: u64) -> Vec<Store> {
    let mut stores = vec![];
    for (i, slot) in state.slots_held(writer).into_iter().enumerate() {
        let position = position_after(state.sizes, state.head, i as u64);
        let new = committed_slot(state, writer, slot);
        let record = Record { first: state.head, slot_number: slot as u64, slot: new };
        stores.extend(record_stores(state.sizes, position, record));
    }
    stores
}

/// Head behind those records, if there are any.
fn head_store(state: &State, writer: u64) -> Vec<Store> {
    let new = state.slots_held(writer).len() as u64;
    let head = put(HEAD_AT, position_after(state.sizes, state.head, new));
    (new > 0).then_some(head).into_iter().collect()
}

fn complete_commit(state: &mut State, writer: u64) {
    for slot in state.slots_held(writer) {
        state.slots[slot] = committed_slot(state, writer, slot);
        state.last[slot] = Some(state.head);
        state.head = position_after(state.sizes, state.head, 1);
    }
    state.close(writer);
}

/// How a page leaves its slot: which lines are copied, from where to where.
struct Consolidation {
    slot: usize,
    lines: Vec<u64>,
    from: u64,
    to: u64,
}

/// The frame copied to becomes the page's own, the other one the free slot's spare.
fn consolidation(state: &State, page: u64) -> Consolidation {
    let slot = state.slot_of(page).expect("row 17: the page has a slot");
    let Slot { original, spare, bitmap, .. } = state.slots[slot];
    if bitmap.count_ones() <= 32 {
        Consolidation { slot, lines: lines_of(bitmap), from: spare, to: original }
    } else {
        Consolidation { slot, lines: lines_of(!bitmap), from: original, to: spare }
    }
}

fn consolidate_plan(state: &State, page: u64) -> Vec<Store> {
    let Consolidation { slot, lines, from, to } = consolidation(state, page);
    let sizes = state.sizes;
    let mut stores = vec![];
    for line in lines {
        stores.extend(copies(sizes.line_start(from, line), sizes.line_start(to, line)));
    }
    stores.push(put(sizes.page_word(page), to));
    let record = Record { first: state.head, slot_number: slot as u64, slot: Slot::free(from) };
    stores.extend(record_stores(sizes, state.head, record));
    stores.push(put(HEAD_AT, position_after(sizes, state.head, 1)));
    stores
}

fn complete_consolidate(state: &mut State, page: u64) {
    let Consolidation { slot, from, to, .. } = consolidation(state, page);
    state.slots[slot] = Slot::free(from);
    // "consolidation still stores its word and now changes the map too" (document 02, L5)
    state.map[page as usize] = to;
    state.last[slot] = Some(state.head);
    state.head = position_after(state.sizes, state.head, 1);
}

/// The words of each slot's last record are copied within the image, then tail becomes head.
fn checkpoint_plan(state: &State) -> Vec<Store> {
    if state.head == state.tail {
        return vec![];
    }
    let sizes = state.sizes;
    let mut stores = vec![];
    for slot in state.slots_recorded() {
        let last = state.last[slot].expect("the slot has a last record");
        for i in 0..3 {
            let value = Value::CopyOf(sizes.record_word(last, i + 1));
            stores.push(Store { at: sizes.slot_word(slot as u64, i), value });
        }
    }
    stores.push(put(TAIL_AT, state.head));
    stores
}

fn complete_checkpoint(state: &mut State) {
    for slot in state.slots_recorded() {
        state.last[slot] = None;
    }
    state.tail = state.head;
}

/// The slot of page 0 before an event's record, taken if the page has none, and after it.
fn event_slots(state: &State, event: &Event) -> (usize, Slot, Slot) {
    let (number, before) = match state.slot_of(0) {
        Some(slot) => (slot, state.slots[slot]),
        None => (slot_for(state), taken_slot(state, slot_for(state), 0)),
    };
    let lines = event.asked.meters().iter().fold(0, |lines, line| lines | 1 << line);
    (number, before, Slot { bitmap: before.bitmap ^ lines, ..before })
}

/// Each line to the frame that is not the committed one, then one record, then head.
fn event_plan(state: &State, event: &Event) -> Vec<Store> {
    let (number, before, after) = event_slots(state, event);
    let mut stores = vec![];
    for (line, finished) in event.asked.meters().into_iter().zip(&event.finished) {
        stores.extend(line_stores(state.sizes.line_start(before.other_frame(line), line), finished));
    }
    let record = Record { first: state.head, slot_number: number as u64, slot: after };
    stores.extend(record_stores(state.sizes, state.head, record));
    stores.push(put(HEAD_AT, position_after(state.sizes, state.head, 1)));
    stores
}

fn complete_event(state: &mut State, event: &Event) {
    let (number, _, after) = event_slots(state, event);
    if state.slot_of(0).is_none() {
        state.next = (number as u64 + 1) % state.sizes.s;
    }
    state.slots[number] = after;
    state.last[number] = Some(state.head);
    state.head = position_after(state.sizes, state.head, 1);
}

/// Layout 0, so that no mount takes what is there; every other word, rising; then the layout.
fn format_plan(state: &State) -> Vec<Store> {
    let fresh = fresh_image(state.sizes);
    let mut stores = vec![put(LAYOUT_AT, 0)];
    let others = (0..fresh.len()).step_by(WORD as usize).filter(|&at| at != LAYOUT_AT);
    stores.extend(others.map(|at| put(at, word(&fresh, at))));
    stores.push(put(LAYOUT_AT, state.sizes.layout()));
    stores
}
