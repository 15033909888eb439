//! What the host keeps between calls.

use crate::layout::{Sizes, MOST_PAGES, MOST_SLOTS};
use crate::meters::Asked;
use crate::slots::{has_line, slot_owning, Slot};
use crate::wide::Wide;

pub const WRITERS: usize = 4;

/// Any numbers may stand here (a host may hand in anything); row 8 says which of them make a state.
/// Places past S and map entries past P are never read.
#[derive(Clone, Debug, PartialEq, Eq)]
pub struct State {
    pub sizes: Sizes,
    pub head: u64,
    pub tail: u64,
    /// The next slot to try.
    pub next: u64,
    pub slots: [Slot; MOST_SLOTS],
    /// For each slot the position of its last live record.
    pub last: [Option<u64>; MOST_SLOTS],
    /// The page map (document 02, L5): entry p is page p's frame, a slotted page's original. Always `MOST_PAGES` entries.
    pub map: Vec<u64>,
    pub writers: [Writer; WRITERS],
    /// The writer whose records are stored and wait for their confirm.
    pub prepared: Option<u64>,
    pub wide: Wide,
    pub pending: Option<Pending>,
}

#[derive(Clone, Copy, Debug, Default, PartialEq, Eq)]
pub struct Writer {
    pub open: bool,
    /// For each slot the set of lines held there.
    pub held: [u64; MOST_SLOTS],
}

#[derive(Clone, Debug, PartialEq, Eq)]
pub struct Pending {
    pub operation: Operation,
    /// Stores made so far.
    pub made: u64,
}

#[derive(Clone, Debug, PartialEq, Eq)]
pub enum Operation {
    Write(Write),
    Commit {
        writer: u64,
    },
    Consolidate {
        page: u64,
    },
    Checkpoint,
    Event(Event),
    Prepare {
        writer: u64,
    },
    Confirm {
        writer: u64,
    },
    /// A write by the wide writer (document 02, L14).
    WideWrite(WideWrite),
    /// The copying of a wide commit, its writer's or what a mount found of one.
    Copying,
    /// Of the state's sizes (document 02, L6).
    Format,
}

impl Operation {
    /// The number that PROBE.md gives to each kind.
    pub fn kind(&self) -> u64 {
        match self {
            Operation::Write(_) => 1,
            Operation::Commit { .. } => 2,
            Operation::Consolidate { .. } => 3,
            Operation::Checkpoint => 4,
            Operation::Event(_) => 5,
            Operation::Prepare { .. } => 6,
            Operation::Confirm { .. } => 7,
            Operation::WideWrite(_) => 8,
            Operation::Copying => 9,
            Operation::Format => 10,
        }
    }
}

#[derive(Clone, Debug, PartialEq, Eq)]
pub struct Write {
    pub writer: u64,
    pub page: u64,
    pub line: u64,
    pub offset: u64,
    pub length: u64,
    /// The whole line as it will be stored.
    pub finished: [u8; 64],
}

/// Its writer is the wide one.
#[derive(Clone, Debug, PartialEq, Eq)]
pub struct WideWrite {
    pub page: u64,
    pub line: u64,
    pub offset: u64,
    pub length: u64,
    pub finished: [u8; 64],
}

/// An event of document 02: one transaction by writer 1 on page 0.
#[derive(Clone, Debug, PartialEq, Eq)]
pub struct Event {
    pub asked: Asked,
    /// The whole lines as they will be stored, in the order of `Asked::meters`; the second line of a count is zeros.
    pub finished: [[u8; 64]; 2],
}

impl State {
    /// Nothing open, held, prepared, pending or live; every place past S and every map entry at 0.
    pub fn empty(sizes: Sizes) -> State {
        State {
            sizes,
            head: 0,
            tail: 0,
            next: 0,
            slots: [Slot::default(); MOST_SLOTS],
            last: [None; MOST_SLOTS],
            map: vec![0; MOST_PAGES],
            writers: [Writer::default(); WRITERS],
            prepared: None,
            wide: Wide::default(),
            pending: None,
        }
    }

    /// The number of slots that may be read, for any S.
    pub fn slot_count(&self) -> usize {
        self.sizes.s.min(MOST_SLOTS as u64) as usize
    }

    pub fn slots_used(&self) -> &[Slot] {
        &self.slots[..self.slot_count()]
    }

    /// The slot that owns a page, if any.
    pub fn slot_of(&self, page: u64) -> Option<usize> {
        slot_owning(self.slots_used(), self.sizes, page)
    }

    /// The first free slot, going round from the next slot to try.
    pub fn first_free(&self) -> Option<usize> {
        let count = self.slot_count() as u64;
        let mut round = (0..count).map(|i| ((self.next % count + i) % count) as usize);
        round.find(|&slot| self.slots[slot].is_free(self.sizes))
    }

    pub fn is_open(&self, writer: u64) -> bool {
        self.writers[writer as usize].open
    }

    pub fn holds(&self, writer: u64, slot: usize, line: u64) -> bool {
        has_line(self.writers[writer as usize].held[slot], line)
    }

    /// The slots in which a writer holds lines, rising.
    pub fn slots_held(&self, writer: u64) -> Vec<usize> {
        (0..self.slot_count()).filter(|&slot| self.writers[writer as usize].held[slot] != 0).collect()
    }

    /// The slots with a live record, rising.
    pub fn slots_recorded(&self) -> Vec<usize> {
        (0..self.slot_count()).filter(|&slot| self.last[slot].is_some()).collect()
    }

    /// The frame with the committed copy of a line of a page below P.
    pub fn committed_frame(&self, page: u64, line: u64) -> u64 {
        match self.slot_of(page) {
            Some(slot) => self.slots[slot].committed_frame(line),
            None => self.map[page as usize],
        }
    }

    /// Closes a writer and empties its held lines.
    pub fn close(&mut self, writer: u64) {
        let count = self.slot_count();
        let writer = &mut self.writers[writer as usize];
        writer.open = false;
        writer.held[..count].fill(0);
    }
}
